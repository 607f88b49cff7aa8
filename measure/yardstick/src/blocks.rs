//! Refinement that computes only the signatures of *touched* states. These are the states whose signatures can have
//! changed.

use crate::rows::Rows;
use crate::signatures::Signatures;
use std::collections::VecDeque;

/// The blocks of states. A block is a range of `members`, and its touched members are at the end of this range.
struct Blocks {
    of: Vec<u32>,
    members: Vec<u32>,
    places: Vec<u32>,
    ranges: Vec<Range>,
    /// The blocks that contain touched members.
    todo: VecDeque<u32>,
}

#[derive(Clone, Copy)]
struct Range {
    first: u32,
    touched: u32,
    end: u32,
}

impl Blocks {
    /// Marks a state as touched, unless it is the only state of its block. A block with one state cannot be split.
    fn touch(&mut self, state: u32) {
        let block = self.of[state as usize];
        let range = &mut self.ranges[block as usize];
        let place = self.places[state as usize];
        if place >= range.touched || range.end - range.first == 1 {
            return;
        }
        if range.touched == range.end {
            self.todo.push_back(block);
        }
        range.touched -= 1;
        let last = range.touched;
        self.put(self.members[last as usize], place);
        self.put(state, last);
    }

    fn put(&mut self, state: u32, place: u32) {
        self.members[place as usize] = state;
        self.places[state as usize] = place;
    }

    /// Marks each state as touched from which inert steps lead to a touched member of the block.
    fn touch_before(&mut self, block: u32, backwards: &Rows, internal: u32) {
        let mut place = self.ranges[block as usize].end;
        while place > self.ranges[block as usize].touched {
            place -= 1;
            for step in backwards.row(self.members[place as usize]) {
                if step.label == internal && self.of[step.target as usize] == block {
                    self.touch(step.target);
                }
            }
        }
    }

    /// Splits a block into parts by the numbers of the signatures of its members. An untouched member counts as a
    /// member with the number 0. After the split, no member is touched. The largest part keeps the number of the block.
    /// Returns the members of the other parts.
    fn split(&mut self, block: u32, touched: &[u32], signed: &[u32], signatures: u32) -> Vec<u32> {
        let old = self.ranges[block as usize];
        let mut parts = vec![Range { first: 0, touched: 0, end: 0 }; signatures as usize];
        // Until all members are counted, the field `end` of a part is the number of its members.
        parts[0].end = old.touched - old.first;
        touched.iter().for_each(|&s| parts[signed[s as usize] as usize].end += 1);
        let largest = (0..parts.len()).max_by_key(|&k| parts[k].end).unwrap_or(0);
        let mut first = old.first;
        for part in &mut parts {
            *part = Range { first, touched: first, end: first + part.end };
            first = part.end;
        }
        parts[0].touched = parts[0].end;
        for &s in touched {
            let part = &mut parts[signed[s as usize] as usize];
            self.put(s, part.touched);
            part.touched += 1;
        }
        self.ranges[block as usize] = parts[largest];
        let mut renumbered = Vec::new();
        for (_, part) in parts.iter().enumerate().filter(|(k, part)| *k != largest && part.first < part.end) {
            let members = &self.members[part.first as usize..part.end as usize];
            members.iter().for_each(|&s| self.of[s as usize] = self.ranges.len() as u32);
            renumbered.extend_from_slice(members);
            self.ranges.push(*part);
        }
        renumbered
    }
}

pub fn refine(rows: &Rows, internal: Option<u32>) -> Vec<u32> {
    let backwards = rows.backwards();
    let (states, all) = (rows.states(), Vec::from_iter(0..rows.states()));
    let ranges = vec![Range { first: 0, touched: 0, end: states }];
    let mut signed = vec![0; states as usize];
    let mut blocks = Blocks { of: signed.clone(), members: all.clone(), places: all, ranges, todo: [0].into() };
    let mut signatures = Signatures::new(false);
    while let Some(block) = blocks.todo.pop_front() {
        internal.iter().for_each(|&internal| blocks.touch_before(block, &backwards, internal));
        let range = blocks.ranges[block as usize];
        let mut touched = blocks.members[range.touched as usize..range.end as usize].to_vec();
        // Inert steps lead to states with smaller numbers, whose signatures have to be computed first.
        touched.sort_unstable();
        signatures.clear();
        for &s in &touched {
            let number = |t| if blocks.places[t as usize] >= range.touched { signed[t as usize] } else { 0 };
            signed[s as usize] = signatures.sign(rows.row(s), internal, block, &blocks.of, number);
        }
        for state in blocks.split(block, &touched, &signed, signatures.count()) {
            if internal.is_some() {
                blocks.touch(state);
            }
            backwards.row(state).iter().for_each(|step| blocks.touch(step.target));
        }
    }
    blocks.of
}
