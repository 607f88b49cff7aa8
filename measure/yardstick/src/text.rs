//! Reads and writes the Aldebaran format (`docs/format.md`), without the limits of this format.

use std::collections::{HashMap, HashSet};
use std::hash::{BuildHasherDefault, Hasher};

/// The system that a text describes. A step consists of a source, the number of a label, and a target.
pub struct System {
    pub first: u32,
    pub states: u32,
    pub labels: Vec<Vec<u8>>,
    pub steps: Vec<(u32, u32, u32)>,
}

impl System {
    /// Adds another system, whose states are numbered after the states of this system. Returns the new number of the
    /// first state of the other system.
    pub fn add(&mut self, other: &System) -> u32 {
        let before = self.states;
        let number = |label: &Vec<u8>| {
            self.labels.iter().position(|known| known == label).unwrap_or_else(|| {
                self.labels.push(label.clone());
                self.labels.len() - 1
            }) as u32
        };
        let numbers: Vec<u32> = other.labels.iter().map(number).collect();
        let moved = |&(source, label, target)| (before + source, numbers[label as usize], before + target);
        self.steps.extend(other.steps.iter().map(moved));
        self.states += other.states;
        before + other.first
    }
}

/// A map with a hash function that processes eight bytes at a time. The hash function of the standard library takes
/// several times as long.
pub type Map<K, V> = HashMap<K, V, BuildHasherDefault<Fold>>;

#[derive(Default)]
pub struct Fold(u64);

impl Hasher for Fold {
    fn write(&mut self, bytes: &[u8]) {
        for part in bytes.chunks(8) {
            let mut word = [0; 8];
            word[..part.len()].copy_from_slice(part);
            self.write_u64(u64::from_le_bytes(word));
        }
    }

    /// Combines the two halves of a product by exclusive or.
    fn write_u64(&mut self, word: u64) {
        let product = (self.0 ^ word ^ 0x243f_6a88_85a3_08d3) as u128 * 0x9e37_79b9_7f4a_7c15;
        self.0 = (product >> 64) as u64 ^ product as u64;
    }

    fn finish(&self) -> u64 {
        self.0
    }
}

/// Removes a byte and the blanks after it from the front of a text. The functions below remove other items in the same
/// way.
fn take(text: &mut &[u8], byte: u8) -> Option<()> {
    *text = text.strip_prefix(&[byte])?.trim_ascii_start();
    Some(())
}

fn take_number(text: &mut &[u8]) -> Option<u32> {
    let (digits, rest) = text.split_at(text.iter().position(|byte| !byte.is_ascii_digit())?);
    *text = rest.trim_ascii_start();
    let add = |number: u32, digit: &u8| number.checked_mul(10)?.checked_add((digit - b'0').into());
    digits.iter().try_fold(0, add).filter(|_| !digits.is_empty())
}

fn take_label<'a>(text: &mut &'a [u8]) -> Option<&'a [u8]> {
    let is_plain = |byte: &u8| byte.is_ascii_alphanumeric() || *byte == b'_';
    let (label, rest) = if let Some(quoted) = text.strip_prefix(b"\"") {
        let line = quoted.split(|&byte| byte == b'\n').next()?;
        quoted.split_at(line.iter().rposition(|&byte| byte == b'"')?)
    } else {
        text.split_at(text.iter().position(|byte| !is_plain(byte))?)
    };
    *text = rest.strip_prefix(b"\"").unwrap_or(rest).trim_ascii_start();
    Some(label).filter(|label| !label.is_empty())
}

/// Removes a number, an item that `second` removes, and another number, with commas between them and parentheses around
/// them.
fn take_three<'a, T>(text: &mut &'a [u8], second: impl Fn(&mut &'a [u8]) -> Option<T>) -> Option<(u32, T, u32)> {
    take(text, b'(')?;
    let first = take_number(text)?;
    take(text, b',')?;
    let second = second(text)?;
    take(text, b',')?;
    let third = take_number(text)?;
    take(text, b')')?;
    Some((first, second, third))
}

/// The labels of a hide list.
pub fn read_labels(text: &[u8]) -> Result<Vec<Vec<u8>>, String> {
    let text = [text, b"\n"].concat();
    let (mut text, mut labels) = (text.trim_ascii_start(), vec![]);
    while !text.is_empty() {
        let label = take_label(&mut text);
        labels.push(label.ok_or_else(|| format!("line {}: not a label", labels.len() + 1))?.to_vec());
    }
    Ok(labels)
}

/// Reads the system that a text describes, and makes the labels `hidden` internal.
pub fn read(text: &[u8], hidden: &[Vec<u8>]) -> Result<System, String> {
    let mut text = text.strip_prefix(b"des").ok_or("no header")?.trim_ascii_start();
    let header = take_three(&mut text, take_number).filter(|header| header.0 < header.2);
    let (first, promised, states) = header.ok_or("bad header")?;
    let (mut labels, mut numbers) = (Vec::new(), Map::default());
    let hidden: HashSet<&[u8]> = hidden.iter().map(Vec::as_slice).collect();
    let mut steps = Vec::with_capacity((promised as usize).min(text.len()));
    while !text.is_empty() {
        let step = take_three(&mut text, take_label).filter(|step| step.0 < states && step.2 < states);
        let (source, label, target) = step.ok_or_else(|| format!("line {}: not a transition", steps.len() + 2))?;
        let label = if !hidden.is_empty() && hidden.contains(label) { b"i" } else { label };
        let number = *numbers.entry(label).or_insert_with(|| {
            labels.push(label.to_vec());
            labels.len() as u32 - 1
        });
        steps.push((source, number, target));
    }
    if steps.len() != promised as usize {
        return Err(format!("{} transitions, where {promised} are promised", steps.len()));
    }
    Ok(System { first, states, labels, steps })
}

/// A label as it is written in a file: without quotation marks if this is possible.
pub fn spelled(label: &[u8]) -> Vec<u8> {
    let plain = !label[0].is_ascii_digit() && label.iter().all(|byte| byte.is_ascii_alphanumeric() || *byte == b'_');
    let quote: &[u8] = if plain { b"" } else { b"\"" };
    [quote, label, quote].concat()
}

pub fn put_number(out: &mut Vec<u8>, number: u32) {
    let (mut digits, mut first, mut left) = ([b'0'; 10], 9, number);
    while left >= 10 {
        digits[first] += (left % 10) as u8;
        left /= 10;
        first -= 1;
    }
    digits[first] += left as u8;
    out.extend_from_slice(&digits[first..]);
}
