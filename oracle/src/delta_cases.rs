//! Inputs for the comparison of deltas: valid ones and every kind of damage, from a seeded generator.
//! Keys come in families that differ in one bit, so that near duplicates are as frequent as true ones.

use crate::delta_model::{bytes, Key, Row};
use crate::rng::Rng;
use std::collections::BTreeSet;

const COUNT_BORDERS: [u64; 12] = [0, 1, 2, 254, 255, 256, 257, 258, 1 << 16, 1 << 31, (1 << 32) - 2, (1 << 32) - 1];
/// Around the end of 16 bits, and far above: lengths, and offsets of the values behind them.
const LONG_VALUES: [u64; 5] = [65_535, 65_536, 65_537, 100_000, 140_000];
const TOTAL_BORDERS: [u64; 5] = [254, 255, 256, 257, 258];

/// A delta in the making: its rows in some order, and the bytes that their values lie in.
#[derive(Clone)]
pub struct Draft {
    pub rows: Vec<Row>,
    pub values: Vec<u8>,
}

impl Draft {
    pub fn bytes(&self) -> Vec<u8> {
        bytes(&self.rows, &self.values)
    }

    fn add(&mut self, rng: &mut Rng, key: Key, present: bool) {
        let value = if present { Some(self.add_value(rng)) } else { None };
        self.rows.push(Row { key, value });
    }

    fn add_value(&mut self, rng: &mut Rng) -> (usize, usize) {
        let length = match rng.below(40) {
            0 if rng.once_in(60) => rng.pick_number(&LONG_VALUES),
            0 => rng.below(4000),
            1..=9 => 0,
            _ => rng.below(40),
        } as usize;
        let at = self.values.len();
        self.values.extend_from_slice(&rng.bytes(length));
        (at, length)
    }

    /// Where the erase count, the reinstate count and each value length stand in the bytes.
    fn count_places(&self) -> Vec<usize> {
        let erased = self.rows.iter().filter(|row| row.value.is_none()).count();
        let mut places = vec![0, 4 + 32 * erased];
        let mut at = 8 + 32 * erased;
        for (_, length) in self.rows.iter().filter_map(|row| row.value) {
            places.push(at + 32);
            at += 36 + length;
        }
        places
    }
}

fn flip(key: &mut Key, bit: u64) {
    key[(bit / 8) as usize] ^= 0x80 >> (bit % 8);
}

/// A random key, or one of a family that differs from a common key in one bit: the first, the last, or any.
fn key(rng: &mut Rng, family: &Key) -> Key {
    let mut key = *family;
    match rng.below(4) {
        0 => rng.fill(&mut key),
        1 => flip(&mut key, 255),
        2 => flip(&mut key, 0),
        _ => flip(&mut key, rng.below(256)),
    }
    key
}

/// A delta of `count` different keys, `present` in a hundred of them with a value.
pub fn draft(rng: &mut Rng, count: usize, present: u64) -> Draft {
    let mut family = [rng.pick_number(&[0, 0x7F, 0x80, 0xFF]) as u8; 32];
    if rng.once_in(2) {
        rng.fill(&mut family);
    }
    let mut draft = Draft { rows: Vec::new(), values: Vec::new() };
    let mut seen = BTreeSet::new();
    while seen.len() < count {
        let key = if seen.len() > 16 { key_far(rng) } else { key(rng, &family) };
        if seen.insert(key) {
            let has_value = rng.below(100) < present;
            draft.add(rng, key, has_value);
        }
    }
    draft
}

fn key_far(rng: &mut Rng) -> Key {
    let mut key = [0; 32];
    rng.fill(&mut key);
    key
}

/// Most deltas are small; some have sizes at the limit.
pub fn usual_draft(rng: &mut Rng) -> Draft {
    let count = match rng.below(100) {
        0 => rng.pick_number(&TOTAL_BORDERS),
        1..=4 => rng.range(7, 60),
        _ => rng.below(7),
    };
    let present = rng.pick_number(&[0, 50, 50, 50, 100]);
    draft(rng, count as usize, present)
}

/// A draft with one key once more: in its own group or in the other, or near to it, with one bit flipped.
fn near_duplicate(rng: &mut Rng) -> Draft {
    let count = rng.range(1, 8) as usize;
    let mut draft = draft(rng, count, 50);
    let mut key = draft.rows[rng.below(count as u64) as usize].key;
    match rng.below(6) {
        0 => flip(&mut key, 255),
        1 => flip(&mut key, 0),
        2 => flip(&mut key, rng.below(256)),
        _ => (),
    }
    let has_value = rng.once_in(2);
    draft.add(rng, key, has_value);
    let last = draft.rows.len() - 1;
    draft.rows.swap(rng.below(last as u64 + 1) as usize, last);
    draft
}

fn set_number(bytes: &mut [u8], at: usize, number: u64) {
    if at + 4 <= bytes.len() {
        bytes[at..at + 4].copy_from_slice(&(number as u32).to_le_bytes());
    }
}

/// One of the counts and value lengths is another number: a border, or one more or less than it was.
fn damaged_number(rng: &mut Rng) -> Vec<u8> {
    let draft = usual_draft(rng);
    let mut bytes = draft.bytes();
    let places = draft.count_places();
    let at = places[rng.below((places.len() as u64).min(6)) as usize];
    let was = u32::from_le_bytes([bytes[at], bytes[at + 1], bytes[at + 2], bytes[at + 3]]) as u64;
    let number = match rng.below(4) {
        0 => was + 1,
        1 => was.wrapping_sub(1),
        2 => rng.below(64),
        _ => rng.pick_number(&COUNT_BORDERS),
    };
    set_number(&mut bytes, at, number);
    bytes
}

/// The two counts add up to a border of the limit; what follows the counts is whole or ends early.
fn border_counts(rng: &mut Rng) -> Vec<u8> {
    let total = rng.pick_number(&TOTAL_BORDERS);
    let present = rng.pick_number(&[0, 1, 50, 99, 100]);
    let mut bytes = draft(rng, total as usize, present).bytes();
    if rng.once_in(3) {
        bytes.truncate(rng.below(bytes.len() as u64 + 1) as usize);
    }
    bytes
}

/// One input of any kind.
pub fn input(rng: &mut Rng) -> Vec<u8> {
    let mut bytes = match rng.below(32) {
        0..=5 => return damaged_number(rng),
        6..=12 => near_duplicate(rng).bytes(),
        13 => border_counts(rng),
        14 => {
            let length = rng.below(100) as usize;
            let mut bytes = rng.bytes(length);
            let small = rng.below(3);
            set_number(&mut bytes, 0, small);
            bytes
        }
        _ => usual_draft(rng).bytes(),
    };
    match rng.below(8) {
        0 => bytes.truncate(rng.below(bytes.len() as u64 + 1) as usize),
        1 | 2 => {
            let length = rng.range(1, 80) as usize;
            bytes.extend_from_slice(&rng.bytes(length));
        }
        3 if !bytes.is_empty() => {
            let at = rng.below(bytes.len() as u64) as usize;
            bytes[at] ^= 1 << rng.below(8);
        }
        _ => (),
    }
    bytes
}
