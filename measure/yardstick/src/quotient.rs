//! The text of the quotient, with states and lines in the order that `docs/format.md` defines.

use crate::rows::{Rows, NONE};
use crate::text::{put_number, spelled, System};

/// Numbers the blocks with reachable states. The block of the first state has the number 0, and the other blocks are
/// numbered in the order of their smallest reachable states.
fn numbered(system: &System, rows: &Rows, block_of: impl Fn(u32) -> u32) -> (Vec<u32>, u32) {
    let reached = rows.reached(system.first);
    let (mut numbers, mut count) = (vec![NONE; rows.states() as usize], 0);
    for s in std::iter::once(system.first).chain((0..rows.states()).filter(|&s| reached[s as usize])) {
        let number = &mut numbers[block_of(s) as usize];
        if *number == NONE {
            *number = count;
            count += 1;
        }
    }
    (numbers, count)
}

/// The text of the quotient. The list `blocks` contains the block of each state of `contracted`, and the function
/// `block_of` returns the block of a state of the system.
pub fn written(
    system: &System,
    rows: &Rows,
    block_of: impl Fn(u32) -> u32,
    contracted: &Rows,
    blocks: &[u32],
) -> Vec<u8> {
    let (numbers, count) = numbered(system, rows, block_of);
    let number_of = |s: u32| numbers[blocks[s as usize] as usize];
    // The smallest state of a block has no inert step, so its row contains all steps of the block.
    let mut shown_by = vec![NONE; count as usize];
    for s in (0..contracted.states()).rev().filter(|&s| number_of(s) != NONE) {
        shown_by[number_of(s) as usize] = s;
    }
    let mut order: Vec<usize> = (0..system.labels.len()).collect();
    order.sort_unstable_by_key(|&k| &system.labels[k]);
    let mut ranks = vec![0; order.len()];
    order.iter().enumerate().for_each(|(rank, &k)| ranks[k] = rank as u32);
    let mut lines: Vec<(u32, u32, u32)> = Vec::new();
    for (number, &shown) in shown_by.iter().enumerate() {
        let begun = lines.len();
        let line = |step: &crate::rows::Step| (number as u32, ranks[step.label as usize], number_of(step.target));
        lines.extend(contracted.row(shown).iter().map(line));
        lines[begun..].sort_unstable();
    }
    lines.dedup();
    let spelled: Vec<Vec<u8>> = order.iter().map(|&k| spelled(&system.labels[k])).collect();
    let mut out = format!("des (0, {}, {count})\n", lines.len()).into_bytes();
    out.reserve(24 * lines.len());
    for &(source, rank, target) in &lines {
        out.push(b'(');
        put_number(&mut out, source);
        out.extend_from_slice(b", ");
        out.extend_from_slice(&spelled[rank as usize]);
        out.extend_from_slice(b", ");
        put_number(&mut out, target);
        out.extend_from_slice(b")\n");
    }
    out
}
