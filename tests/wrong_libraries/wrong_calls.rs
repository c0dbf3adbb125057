//! The calls of oracle/src/calls.rs with one error, which IFLUGHAN_WRONG names: tests/wrong_libraries/run lays this file in that one's
//! place. Errors that library and model share are made by shared_calls.rs and shared.py.

#![allow(dead_code)]

#[path = "wrong_newest.rs"]
mod newest;
#[path = "right_calls.rs"]
mod right;

pub use right::*;

use crate::ffi::*;
use std::sync::OnceLock;

/// Whether this is the error of the run.
pub fn wrong(name: &str) -> bool {
    static CHOSEN: OnceLock<String> = OnceLock::new();
    CHOSEN.get_or_init(|| std::env::var("IFLUGHAN_WRONG").unwrap_or_default()) == name
}

/// Reads a byte just outside a slice.
fn read_outside<T>(slice: &[T], before: bool) {
    let bytes = slice.as_ptr() as *const u8;
    let at = if before { bytes.wrapping_sub(1) } else { bytes.wrapping_add(std::mem::size_of_val(slice)) };
    unsafe { at.read_volatile() };
}

/// A refusal in place of an acceptance; the bytes were written all the same.
fn refused_append(log: &Log, refusal: u32) -> Appended {
    Appended { refusal, reserved: 0, id: 0, log: *log }
}

pub fn new(shape: Shape, area: &mut [u8]) -> Logged {
    let refused = wrong("k_64_is_1") && shape.k == 64 || wrong("c_2_31_is_1") && shape.c == 1 << 31;
    if refused {
        return Logged { refusal: 1, reserved: 0, log: NO_LOG };
    }
    right::new(shape, area)
}

/// An id that a counter of some width would stumble over.
fn id_not_reached(next: u64) -> bool {
    let borders = [("id_2_31_is_4", 1 << 31), ("id_2_32_is_4", 1 << 32), ("id_2_63_is_4", 1 << 63)];
    let below = [("id_below_2_31_is_4", 1 << 31), ("id_below_2_32_is_4", 1 << 32), ("id_below_2_63_is_4", 1 << 63)];
    borders.iter().any(|(name, id)| next == *id && wrong(name)) || below.iter().any(|(name, id)| next == *id - 1 && wrong(name))
}

pub fn append(log: &Log, area: &mut [u8], payload: &[u8]) -> Appended {
    if wrong("append_reads_before_its_payload") && !payload.is_empty() {
        read_outside(payload, true);
    }
    let mut answer = right::append(&newest::lax(log), area, payload);
    answer.log = if answer.refusal == 0 { newest::appended(log, answer.log) } else { *log };
    let new_segment = answer.log.count > log.count;
    if answer.refusal == 0 && (wrong("segment_9_is_6") && new_segment && log.count == 8) {
        return refused_append(log, 6);
    }
    if answer.refusal == 0 && (wrong("payload_above_65535_is_7") && payload.len() > 65_535) {
        return refused_append(log, 7);
    }
    if answer.refusal == 0 && id_not_reached(answer.id) {
        return refused_append(log, 4);
    }
    if answer.refusal == 0 && wrong("header_length_at_16_bits") && payload.len() > 65_535 {
        let head = answer.log.segments[answer.log.count as usize - 1];
        let record = (12 + payload.len() as u64).div_ceil(4096) * 4096;
        let at = (head.slot as u64 * log.capacity + head.size - record) as usize;
        area[at + 2..at + 4].fill(0);
    }
    answer
}

pub fn prune_oldest(log: &Log, area: &mut [u8], new_start_live: u64) -> Logged {
    let mut answer = right::prune_oldest(&newest::lax(log), area, new_start_live);
    answer.log = if answer.refusal == 0 { newest::forgotten(answer.log, "newest_0_after_prune_oldest") } else { *log };
    answer
}

pub fn prune_recent(log: &Log, area: &mut [u8], new_end_live: u64) -> Logged {
    if wrong("cut_reads_past_the_area") {
        read_outside(area, false);
    }
    let mut answer = newest::prune_recent(&newest::lax(log), area, new_end_live);
    if answer.refusal != 0 {
        answer.log = *log;
    }
    answer
}

fn refused_recovery(refusal: u32) -> Recovered {
    Recovered { refusal, reserved: 0, rows: 0, log: NO_LOG }
}

/// The log with the image behind its head, where there is one.
fn with_one_more(mut answer: Recovered, images: &[Image]) -> Recovered {
    let log = &mut answer.log;
    let head = log.segments[(log.count as usize).saturating_sub(1)];
    if let Some(next) = images.iter().find(|image| log.count > 0 && image.id == head.id + 1 && image.size > 0) {
        let Image { id, slot, size } = *next;
        log.segments[log.count as usize] = Segment { id, slot, size, min: head.max, max: head.max, newest_at: 0 };
        log.count += 1;
    }
    answer
}

pub fn recover(shape: Shape, area: &mut [u8], images: &[Image], s: u64, e: u64, index: &mut [u64]) -> Recovered {
    if wrong("recovery_reads_past_its_rows") {
        read_outside(images, false);
    }
    if wrong("row_64_is_13") && images.len() == 64 {
        return refused_recovery(13);
    }
    if wrong("index_words_at_16_bits") {
        let words = index.len() % 65_536;
        return right::recover(shape, area, images, s, e, &mut index[..words]);
    }
    if wrong("recovery_reads_on_behind_e") {
        // No record is the last: the walk goes on to the end.
        let whole = right::recover(shape, &mut area.to_vec(), images, s, u64::MAX, &mut []);
        if (16..=19).contains(&whole.refusal) && (s == 0) == (e == 0) && s <= e {
            return refused_recovery(whole.refusal);
        }
    }
    let mut answer = right::recover(shape, area, images, s, e, index);
    if answer.refusal == 0 {
        answer.log = newest::recovered(area, images, answer.log);
    }
    if answer.refusal == 20 && wrong("recovery_stops_before_the_payload_of_e") {
        let before_e = right::recover(shape, area, images, s, e - 1, index);
        return if before_e.refusal == 0 { before_e } else { answer };
    }
    if answer.refusal == 0 && wrong("recovery_keeps_a_segment_behind_e") {
        return with_one_more(answer, images);
    }
    if answer.refusal == 0 && answer.rows > 64 && wrong("live_record_65_is_23") {
        return refused_recovery(23);
    }
    for row in index.chunks_exact_mut(4).take(answer.rows as usize) {
        if wrong("row_offset_at_16_bits") {
            row[2] %= 65_536;
        }
        if wrong("row_length_at_16_bits") {
            row[3] %= 65_536;
        }
        if wrong("row_offset_at_31_bits") {
            row[2] %= (1 << 31) - 4096;
        }
    }
    answer
}

pub fn row_question(log: &Log, area: &[u8], row: [u64; 4]) -> u32 {
    right::row_question(&newest::lax(log), area, row)
}

pub fn payload(log: &Log, area: &[u8], row: [u64; 4]) -> Part {
    let mut part = right::payload(&newest::lax(log), area, row);
    if wrong("place_at_32_bits") {
        part.at %= 1 << 32;
    }
    part
}

pub fn name_write(prefix: &[u8], id: u32, out: &mut [u8]) -> Written {
    if wrong("prefix_of_256_is_36") && prefix.len() == 256 {
        return Written { refusal: 36, ..NO_WRITTEN };
    }
    right::name_write(prefix, id, out)
}

pub fn name_parse(prefix: &[u8], name: &[u8]) -> Parsed {
    if wrong("prefix_of_128_is_31") && prefix.len() == 128 && right::name_parse(prefix, name).refusal != 30 {
        return Parsed { refusal: 31, id: 0 };
    }
    if wrong("parse_reads_past_its_name") {
        read_outside(name, false);
    }
    let answer = right::name_parse(prefix, name);
    if wrong("parse_takes_a_plus_sign") && answer.refusal == 35 {
        return as_rust_reads(&name[prefix.len() + 1..name.len() - 4]).unwrap_or(answer);
    }
    answer
}

/// What `parse::<u32>` makes of the ten bytes.
fn as_rust_reads(ten: &[u8]) -> Option<Parsed> {
    let id = std::str::from_utf8(ten).ok()?.parse().ok()?;
    Some(Parsed { refusal: 0, id })
}

pub fn delta_decode(input: &[u8]) -> Decoded {
    let mut answer = right::delta_decode(input);
    for row in &mut answer.table.rows[..answer.table.count as usize] {
        if wrong("value_above_65535_is_40") && row.length > 65_535 {
            return Decoded { refusal: 40, reserved: 0, consumed: 0, table: NO_DELTA };
        }
        if wrong("value_length_at_16_bits") {
            row.length %= 65_536;
        }
        if wrong("value_offset_at_16_bits") {
            row.offset %= 65_536;
        }
    }
    answer
}

pub fn delta_encode(table: &Delta, values: &[u8], out: &mut [u8]) -> Written {
    if wrong("encoded_offset_at_16_bits") {
        let mut narrow = *table;
        narrow.rows.iter_mut().filter(|row| row.offset < values.len() as u64).for_each(|row| row.offset %= 65_536);
        return right::delta_encode(&narrow, values, out);
    }
    right::delta_encode(table, values, out)
}
