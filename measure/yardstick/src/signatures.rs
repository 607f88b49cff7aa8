//! A table of signatures. Each signature is stored once, and is identified by its number.

use crate::rows::{Step, NONE};
use crate::text::{Fold, Map};
use std::hash::Hasher;

/// A pair of a signature consists of a label and a block. If this bit is set in the second number of a pair, the other
/// bits of this number are the number of another signature.
const IS_SIGNATURE: u32 = 1 << 31;

fn pair(label: u32, target: u32) -> u64 {
    (label as u64) << 32 | target as u64
}

/// The signatures, which are lists of pairs in ascending order. The lists are stored one after the other, and are found
/// by their hashes.
pub struct Signatures {
    pairs: Vec<u64>,
    ends: Vec<usize>,
    /// Maps the hash of a list to the number of the list. If the hash belongs to another list already, the next unused
    /// hash takes its place.
    numbers: Map<u64, u32>,
    own: Vec<u64>,
    inert: Vec<u32>,
    apart: bool,
}

impl Signatures {
    /// An empty table. If `apart` is true, states of different blocks get different signatures. If it is false, all
    /// states that are signed between two calls of `clear` must be in the same block.
    pub fn new(apart: bool) -> Signatures {
        Signatures { pairs: vec![], ends: vec![0], numbers: Map::default(), own: vec![], inert: vec![], apart }
    }

    pub fn count(&self) -> u32 {
        self.ends.len() as u32 - 1
    }

    /// Removes all signatures, except for a first signature, which has the number 0 and is not found by its hash.
    pub fn clear(&mut self) {
        // Clearing a map takes time proportional to its capacity.
        if self.numbers.capacity() > 64 + 8 * self.numbers.len() {
            self.numbers = Map::default();
        }
        self.numbers.clear();
        self.pairs.clear();
        self.ends.truncate(1);
        self.ends.push(0);
    }

    fn list(&self, k: u32) -> &[u64] {
        &self.pairs[self.ends[k as usize]..self.ends[k as usize + 1]]
    }

    /// Returns the number of the signature of a state in the block `block` with the steps `row`. The list `block_of`
    /// contains the block of each state. The function `signed` returns the number of the signature of a state to which
    /// an inert step leads. If one of these signatures contains all pairs of the row, it is also the signature of the
    /// state (Blom and van de Pol 2009).
    pub fn sign(
        &mut self,
        row: &[Step],
        internal: Option<u32>,
        block: u32,
        block_of: &[u32],
        signed: impl Fn(u32) -> u32,
    ) -> u32 {
        self.own.clear();
        self.inert.clear();
        for step in row {
            let target = block_of[step.target as usize];
            if Some(step.label) == internal && target == block {
                let number = signed(step.target);
                if self.inert.last() != Some(&number) {
                    self.inert.push(number);
                }
            } else {
                self.own.push(pair(step.label, target));
            }
        }
        if self.inert.len() > 1 {
            self.inert.sort_unstable();
            self.inert.dedup();
        }
        // Only the signature with the largest number can contain the others.
        let last = self.inert.pop();
        let named = |number: u32| pair(internal.unwrap_or(NONE), IS_SIGNATURE | number);
        self.own.extend(self.inert.iter().map(|&number| named(number)));
        if self.own.len() > 1 {
            self.own.sort_unstable();
            self.own.dedup();
        }
        if self.apart {
            self.own.push(pair(NONE, block));
        }
        if let Some(last) = last {
            let list = self.list(last);
            if self.own.len() <= list.len() && self.own.iter().all(|pair| list.binary_search(pair).is_ok()) {
                return last;
            }
            let place = self.own.partition_point(|&other| other < named(last));
            self.own.insert(place, named(last));
        }
        self.keep()
    }

    fn keep(&mut self) -> u32 {
        let mut fold = Fold::default();
        self.own.iter().for_each(|&pair| fold.write_u64(pair));
        let (mut hash, next) = (fold.finish(), self.count());
        let mut number = *self.numbers.entry(hash).or_insert(next);
        while number != next && self.list(number) != self.own {
            hash = hash.wrapping_add(1);
            number = *self.numbers.entry(hash).or_insert(next);
        }
        if number == next {
            self.pairs.extend_from_slice(&self.own);
            self.ends.push(self.pairs.len());
        }
        number
    }
}
