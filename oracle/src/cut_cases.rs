//! Inputs for the comparison of cuts: a segment of a log altered around its newest record. The log stays well shaped.

use crate::ffi::{Log, Segment};
use crate::log_cases::{id_at, length_at, SegmentFile};
use crate::log_model::{listed, padded, record_places};
use crate::rng::Rng;

const PAGE: usize = 4096;
const HEADER: usize = 12;
const GIBIBYTE: u64 = 1 << 30;

/// The place of a segment in its log, what its image becomes, and the record that a prune recent is asked for.
pub struct Altered {
    pub place: usize,
    pub bytes: Vec<u8>,
    pub new_end: u64,
}

/// A segment altered before its newest record, in that record's header, or in both; and in its size, where sizes may change.
pub fn around_the_newest(rng: &mut Rng, log: &Log, files: &[SegmentFile], sizes: bool) -> Altered {
    let place = some_place(rng, listed(log));
    let segment = log.segments[place];
    let mut bytes = files[place].bytes.clone();
    let which = rng.below(8);
    if sizes && which == 7 {
        tear_behind(rng, log, place, &mut bytes);
    } else if sizes && rng.once_in(3) {
        alter_size(rng, log, place, &mut bytes);
    }
    if which < 5 {
        alter_earlier(rng, &segment, &mut bytes);
    }
    if (4..7).contains(&which) {
        alter_newest(rng, &segment, &mut bytes);
    }
    let new_end = match rng.below(8) {
        0..=2 => rng.range(segment.min.max(log.start_live), segment.max),
        3 => log.segments[rng.below(log.count) as usize].max,
        _ => segment.max,
    };
    Altered { place, bytes, new_end }
}

/// Mostly a segment with records before its newest, where there is one.
fn some_place(rng: &mut Rng, segments: &[Segment]) -> usize {
    let several: Vec<u64> = (0..segments.len() as u64).filter(|place| segments[*place as usize].newest_at > 0).collect();
    if several.is_empty() || rng.once_in(8) {
        return rng.below(segments.len() as u64) as usize;
    }
    rng.pick_number(&several) as usize
}

fn set_length(bytes: &mut [u8], at: usize, length: u64) {
    bytes[at..at + 4].copy_from_slice(&(length as u32).to_le_bytes());
}

fn set_id(bytes: &mut [u8], at: usize, id: u64) {
    bytes[at + 4..at + HEADER].copy_from_slice(&id.to_le_bytes());
}

/// A header before the newest: a length that leads elsewhere, another id or the newest's own, zeros, or any bytes.
fn alter_earlier(rng: &mut Rng, segment: &Segment, bytes: &mut [u8]) {
    let newest = segment.newest_at as usize;
    let places = record_places(&bytes[..newest]);
    if places.is_empty() {
        return;
    }
    let at = places[rng.below(places.len() as u64) as usize];
    let (id, length) = (id_at(bytes, at), length_at(bytes, at));
    let room = (bytes.len() - at - HEADER) as u64;
    match rng.below(8) {
        0 => set_length(bytes, at, rng.pick_number(&[GIBIBYTE + 1, (1 << 32) - 1])),
        1 => set_length(bytes, at, rng.pick_number(&[GIBIBYTE, (newest - at) as u64, room, room + 1])),
        2 => set_length(bytes, at, rng.pick_number(&[0, length / 2, length.saturating_sub(PAGE as u64), length + PAGE as u64])),
        3 => set_id(bytes, at, rng.pick_number(&[0, id.wrapping_sub(1), id.wrapping_add(1), id ^ 1 << 32, u64::MAX])),
        4 | 5 => set_id(bytes, at, segment.max),
        6 => bytes[at..at + HEADER].fill(rng.pick_number(&[0, 0, 0xFF]) as u8),
        _ => {
            let any = rng.bytes(HEADER);
            bytes[at..at + HEADER].copy_from_slice(&any);
        }
    }
}

/// The newest record's header: another id, a length at or above 2^30, or a payload that ends around the size.
fn alter_newest(rng: &mut Rng, segment: &Segment, bytes: &mut [u8]) {
    let (at, max) = (segment.newest_at as usize, segment.max);
    let room = (bytes.len() - at - HEADER) as u64;
    match rng.below(5) {
        0 => set_id(bytes, at, rng.pick_number(&[0, max.wrapping_sub(1), max.wrapping_add(1), max ^ 1 << 32, max ^ 1 << 63])),
        1 => set_length(bytes, at, rng.pick_number(&[GIBIBYTE - 1, GIBIBYTE, GIBIBYTE + 1, (1 << 32) - 1])),
        2 => set_length(bytes, at, rng.pick_number(&[0, room.saturating_sub(1), room])),
        3 => set_length(bytes, at, rng.pick_number(&[room + 1, room + PAGE as u64])),
        _ => bytes[at + rng.below(12) as usize] ^= 1 << rng.below(8),
    }
}

/// Where the newest record's payload ends, and its padding.
fn newest_ends(bytes: &[u8], at: usize) -> (usize, usize) {
    let payload_end = at + HEADER + length_at(bytes, at) as usize;
    (payload_end, padded(payload_end as u64) as usize)
}

/// A few bytes behind the newest record of a segment that is not the head, and a record before it whose length leads to them.
fn tear_behind(rng: &mut Rng, log: &Log, place: usize, bytes: &mut Vec<u8>) {
    let at = log.segments[place].newest_at as usize;
    let (_, end) = newest_ends(bytes, at);
    let places = record_places(&bytes[..at]);
    if end == log.capacity as usize || place + 1 == log.count as usize || places.is_empty() {
        return;
    }
    bytes.resize(end + rng.range(1, 11) as usize, 0x77);
    let before = places[rng.below(places.len() as u64) as usize];
    set_length(bytes, before, (end - before - HEADER) as u64);
}

/// An image that ends inside its newest record or its padding, or goes on behind it. The head's is a whole number of pages.
fn alter_size(rng: &mut Rng, log: &Log, place: usize, bytes: &mut Vec<u8>) {
    let at = log.segments[place].newest_at as usize;
    let (payload_end, end) = newest_ends(bytes, at);
    let wanted = match rng.below(8) {
        0 => at + HEADER,
        1 => payload_end.saturating_sub(1),
        2 | 3 => payload_end,
        4 => rng.range(payload_end as u64, end as u64) as usize,
        5 => end + rng.range(1, 11) as usize,
        6 => end + HEADER,
        _ => end + PAGE,
    };
    let wanted = wanted.clamp(at + HEADER, log.capacity as usize);
    let size = match place + 1 == log.count as usize {
        true => padded(wanted as u64) as usize,
        false => wanted,
    };
    let newest: Vec<u8> = bytes[at..at + HEADER].to_vec();
    let fill = rng.pick_number(&[0, 0xDD]) as u8;
    bytes.resize(size, fill);
    // The newest record's header once more, behind it.
    if size >= end + HEADER && rng.once_in(2) {
        bytes[end..end + HEADER].copy_from_slice(&newest);
    }
}
