//! Names: both sides write and parse the same segment file names.
//! Compared: acceptance, number of the refusal, id, length, the bytes written and those that must stay.

use crate::calls::NO_WRITTEN;
use crate::departures::{EMPTY_PREFIX, NAME_BUFFER, PLUS_SIGN};
use crate::ffi::{Parsed, Written};
use crate::lent::Lent;
use crate::name_cases::{grid_case, mutated_case, write_case};
use crate::rng::Rng;
use crate::table::{hex, Table};
use crate::{calls, causes, original};

pub fn run(size: u64, seed: u64) -> Table {
    let mut table = Table::new(format!("names, seed {}", seed));
    let mut rng = Rng::new(seed);
    for case in 0..size {
        table.cases += 1;
        match case % 3 {
            0 => {
                let (prefix, id, length) = write_case(&mut rng);
                compare_write(&mut table, &prefix, id, length);
            }
            1 => {
                let (prefix, name) = grid_case(case / 3);
                compare_parse(&mut table, prefix, &name);
            }
            _ => {
                let (prefix, name) = mutated_case(&mut rng);
                compare_parse(&mut table, &prefix, &name);
            }
        }
    }
    table
}

fn compare_write(table: &mut Table, prefix: &str, id: u32, length: usize) {
    let name = original::name_format(prefix, id);
    let before: Vec<u8> = (0..length).map(|at| 0x80 | (at as u8).wrapping_add(id as u8)).collect();
    let (lent_prefix, mut out) = (Lent::new(prefix.as_bytes(), 0x5A), Lent::new(&before, 0xA5));
    let answer = calls::name_write(lent_prefix.content(), id, out.content_mut());

    let mut after = before;
    let expected = if prefix.is_empty() {
        Written { refusal: 30, ..NO_WRITTEN }
    } else if length < name.len() {
        Written { refusal: 36, ..NO_WRITTEN }
    } else {
        after[..name.len()].copy_from_slice(name.as_bytes());
        Written { length: name.len() as u64, ..NO_WRITTEN }
    };
    if answer != expected || !out.unchanged(&after) || !lent_prefix.unchanged(prefix.as_bytes()) {
        return table.differs(prefix.len() + length, || {
            format!("  write, prefix {:?}, id {}, buffer {}: {:?}, {}", prefix, id, length, answer, hex(out.content()))
        });
    }
    match answer.refusal {
        30 => table.departs("write: 30, the Rust writes the name", &EMPTY_PREFIX),
        36 => table.departs("write: 36, the Rust writes the name", &NAME_BUFFER),
        _ => table.alike("write: accepted, the same name"),
    }
}

fn compare_parse(table: &mut Table, prefix: &str, name: &str) {
    let (lent_prefix, lent_name) = (Lent::new(prefix.as_bytes(), 0x5A), Lent::new(name.as_bytes(), 0xA5));
    let answer = calls::name_parse(lent_prefix.content(), lent_name.content());
    let original = original::name_parse(prefix, name);
    let plus = original.map_or(false, |id| causes::of_plus_sign(prefix, name, id));
    let expected = match original {
        Ok(_) if plus => Parsed { refusal: 35, id: 0 },
        Ok(id) => Parsed { refusal: 0, id },
        Err(refusal) => Parsed { refusal, id: 0 },
    };
    if answer != expected || !lent_prefix.unchanged(prefix.as_bytes()) || !lent_name.unchanged(name.as_bytes()) {
        return table.differs(prefix.len() + name.len(), || {
            format!("  parse, prefix {:?}, name {:?}: {:?}, the original {:?}", prefix, name, answer, original)
        });
    }
    match answer.refusal {
        0 => table.alike("parse: accepted, ten digits"),
        30 => table.departs("parse: 30, the Rust panics", &EMPTY_PREFIX),
        35 if plus => table.departs("parse: 35, the Rust reads a plus sign and nine digits", &PLUS_SIGN),
        number => table.alike(&format!("parse: {}", number)),
    }
}
