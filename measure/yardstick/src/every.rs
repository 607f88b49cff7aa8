//! Refinement that computes the signature of every state in every round.

use crate::rows::Rows;
use crate::signatures::Signatures;

pub fn refine(rows: &Rows, internal: Option<u32>) -> Vec<u32> {
    let mut blocks = vec![0; rows.states() as usize];
    let (mut signed, mut signatures, mut count) = (blocks.clone(), Signatures::new(true), 1);
    loop {
        signatures.clear();
        for s in 0..rows.states() {
            let block = blocks[s as usize];
            // Inert steps lead to states with smaller numbers, whose signatures are known already.
            signed[s as usize] = signatures.sign(rows.row(s), internal, block, &blocks, |t| signed[t as usize]);
        }
        // No state has the signature with the number 0.
        blocks.iter_mut().zip(&signed).for_each(|(block, number)| *block = number - 1);
        if signatures.count() - 1 == count {
            return blocks;
        }
        count = signatures.count() - 1;
    }
}
