//! Inputs for the comparison of names: a grid over every border, and valid names after random edits.
//! All are UTF-8, the domain that document 01 gives to the comparison of names.

use crate::original;
use crate::rng::Rng;

/// Prefixes that are names themselves, hold dots, digits or signs, or bytes of several widths.
pub const PREFIXES: [&str; 20] = [
    "rollback",
    "a",
    "a.log",
    "a.",
    ".",
    "..",
    ".log",
    "log",
    "0",
    "+",
    "rollback.0000000001",
    "rollback.0000000001.log",
    "é",
    "日本",
    "😀x",
    "a\u{301}",
    " ",
    "-",
    "\0",
    "",
];

/// What may stand where the ten digits should: the borders of length, value and sign.
const DIGITS: [&str; 40] = [
    "",
    "0",
    "1",
    "+",
    "-",
    "000000001",
    "0000000001",
    "00000000001",
    "999999999",
    "9999999999",
    "99999999999",
    "4294967294",
    "4294967295",
    "4294967296",
    "4294967305",
    "04294967295",
    "+000000001",
    "+4294967295",
    "+429496729",
    "+999999999",
    "+0000000001",
    "+00000001",
    "-000000001",
    "-000000000",
    "++00000001",
    "+-00000001",
    "0000000+01",
    "000000001+",
    " 000000001",
    "000000001 ",
    "0000 00001",
    "0x00000001",
    "1e00000000",
    "00000000a1",
    "0000_00001",
    "٠٠٠٠٠",
    "１１１1",
    "000000000é",
    "0000000000.",
    "😀😀00",
];

const DOTS: [&str; 3] = [".", "", ".."];
const SUFFIXES: [&str; 9] = [".log", "", ".lo", "log", ".log.log", ".LOG", ".log ", ".l", ".lög"];
const GRID: u64 = (PREFIXES.len() * DIGITS.len() * DOTS.len() * SUFFIXES.len() * 4) as u64;
/// A prime that divides no GRID: steps of it meet each point of the grid once.
const STRIDE: u64 = 7919;

const MUTATIONS: [&str; 24] =
    ["0", "9", "1", "4", "5", "6", "+", "-", ".", " ", "l", "o", "g", "a", "é", "日", "😀", "\0", "_", "/", "٣", ".log", "log", "00"];

/// A point of the grid by its number, whatever it is: prefix, what the name begins with, dot, digits, suffix.
pub fn grid_case(number: u64) -> (&'static str, String) {
    let mut rest = (number.wrapping_mul(STRIDE) % GRID) as usize;
    let mut digit = |base: usize| {
        let place = rest % base;
        rest /= base;
        place
    };
    let prefix = PREFIXES[digit(PREFIXES.len())];
    let (dot, digits, suffix) = (DOTS[digit(DOTS.len())], DIGITS[digit(DIGITS.len())], SUFFIXES[digit(SUFFIXES.len())]);
    let start = match digit(4) {
        0 => prefix.to_string(),
        1 => String::new(),
        2 => prefix.chars().take(prefix.chars().count().saturating_sub(1)).collect(),
        _ => prefix.repeat(2),
    };
    (prefix, format!("{}{}{}{}", start, dot, digits, suffix))
}

/// Lengths at which a count of 7, 8 or 16 bits would end.
const LONG: [u64; 6] = [127, 128, 129, 255, 256, 257];
const LONGEST: [u64; 3] = [65_521, 65_536, 65_537];

fn prefix_of(rng: &mut Rng) -> String {
    match rng.below(400) {
        0 => "p".repeat(rng.pick_number(&LONGEST) as usize),
        1..=8 => "p".repeat(rng.pick_number(&LONG) as usize - 15 * rng.below(2) as usize),
        9..=100 => (0..rng.range(1, 24)).map(|_| rng.pick(&MUTATIONS)).collect(),
        _ => rng.pick(&PREFIXES).to_string(),
    }
}

pub fn id_of(rng: &mut Rng) -> u32 {
    let borders = [0, 1, 9, 10, 99, 100, 999_999_999, 1_000_000_000, (1 << 31) - 1, 1 << 31, (1 << 32) - 2, (1 << 32) - 1];
    match rng.below(3) {
        0 => rng.pick_number(&borders) as u32,
        1 => 10u64.pow(rng.below(10) as u32).wrapping_sub(rng.below(2)) as u32,
        _ => rng.next() as u32,
    }
}

/// A prefix, an id, and a buffer length: any around prefix + 15, now and then a far one.
pub fn write_case(rng: &mut Rng) -> (String, u32, usize) {
    let prefix = prefix_of(rng);
    let id = id_of(rng);
    let length = match rng.below(8) {
        0 => rng.below(300) as usize,
        1 if rng.once_in(40) => rng.pick_number(&LONGEST) as usize,
        1 => prefix.len() + 15,
        _ => (prefix.len() + rng.range(0, 34) as usize).saturating_sub(2),
    };
    (prefix, id, length)
}

/// A name that was valid, after none to three edits of whole characters.
pub fn mutated_case(rng: &mut Rng) -> (String, String) {
    let prefix = prefix_of(rng);
    let mut name: Vec<char> = original::name_format(&prefix, id_of(rng)).chars().collect();
    if rng.once_in(8) {
        // A sign in the place of the first digit.
        let sign = name.len() - 14;
        name[sign] = if rng.once_in(4) { '-' } else { '+' };
    }
    for _ in 0..rng.below(4) {
        let at = rng.below(name.len() as u64 + 1) as usize;
        let text = rng.pick(&MUTATIONS);
        match rng.below(5) {
            0 => drop(name.splice(at..at, text.chars())),
            1 if at < name.len() => drop(name.remove(at)),
            2 if at < name.len() => name[at] = text.chars().next().unwrap_or('0'),
            3 if at + 1 < name.len() => name.swap(at, at + 1),
            4 if rng.once_in(4) => name.truncate(at),
            _ => (),
        }
    }
    (prefix, name.into_iter().collect())
}
