//! Errors about where a segment's newest record starts (document 02's Ask 8), each around a right call: wrong_calls.rs calls these.

use super::{right, wrong};
use crate::ffi::*;

const PAGE: u64 = 4096;
const HEADER: u64 = 12;
const LONGEST_PAYLOAD: u64 = 1 << 30;

fn listed(log: &Log) -> &[Segment] {
    &log.segments[..log.count.min(64) as usize]
}

fn header(image: &[u8], at: u64) -> Option<(u64, u64)> {
    let bytes = image.get(at as usize..(at + HEADER) as usize)?;
    let number = |bytes: &[u8]| bytes.iter().rev().fold(0, |sum, byte| sum << 8 | *byte as u64);
    Some((number(&bytes[..4]), number(&bytes[4..])))
}

/// Where the records of an image begin, and their ids, as far as the headers lead.
fn records(image: &[u8]) -> Vec<(u64, u64)> {
    let (mut at, mut found) = (0, Vec::new());
    while let Some((length, id)) = header(image, at).filter(|(length, _)| *length <= LONGEST_PAYLOAD) {
        found.push((at, id));
        at = (at + HEADER + length).div_ceil(PAGE) * PAGE;
    }
    found
}

/// The log as a lax test of its shape takes it.
pub fn lax(log: &Log) -> Log {
    let (mut log, count) = (*log, log.count);
    for (place, segment) in (0..).zip(&mut log.segments) {
        let past = segment.newest_at.saturating_add(HEADER) > segment.size;
        if place < count && wrong("newest_multiple_not_asked") {
            segment.newest_at -= segment.newest_at % PAGE;
        }
        if place < count && past && wrong("newest_fit_not_asked") || place >= count && wrong("unused_newest_not_asked") {
            segment.newest_at = 0;
        }
    }
    log
}

/// The log that an append leaves.
pub fn appended(before: &Log, mut log: Log) -> Log {
    let (was, last) = (before.segments[before.count as usize - (before.count > 0) as usize], log.count as usize - 1);
    let head = &mut log.segments[last];
    if wrong("newest_not_set_by_append") {
        head.newest_at = if was.id == head.id { was.newest_at } else { 0 };
    }
    if wrong("newest_0_after_append") {
        head.newest_at = 0;
    }
    log
}

/// The log that a call leaves which moves no newest record of the segments that it keeps whole.
pub fn forgotten(mut log: Log, error: &str) -> Log {
    if wrong(error) {
        log.segments.iter_mut().for_each(|segment| segment.newest_at = 0);
    }
    log
}

/// The log that a recovery leaves, from rows over this area.
pub fn recovered(area: &[u8], images: &[Image], log: Log) -> Log {
    let mut log = forgotten(log, "newest_0_after_recovery");
    let head = match log.count {
        0 => return log,
        count => &mut log.segments[count as usize - 1],
    };
    let row = images.iter().find(|image| image.id == head.id);
    if let Some(row) = row.filter(|_| wrong("newest_of_the_head_read_on")) {
        let start = (row.slot as u64 * log.capacity) as usize;
        head.newest_at = records(&area[start..start + row.size as usize]).last().map_or(0, |record| record.0);
    }
    log
}

pub fn prune_recent(log: &Log, area: &mut [u8], new_end: u64) -> Logged {
    let mut answer = right::prune_recent(log, area, new_end);
    let segment = match listed(log).iter().rfind(|segment| segment.min <= new_end) {
        Some(segment) if answer.refusal == 0 || answer.refusal == 10 => segment,
        _ => return answer,
    };
    let start = (segment.slot as u64 * log.capacity) as usize;
    let image = &mut area[start..start + segment.size as usize];
    if segment.max != new_end {
        if answer.refusal == 0 && answer.log.count > 0 && wrong("newest_stays_after_a_search") {
            answer.log.segments[answer.log.count as usize - 1].newest_at = segment.newest_at;
        }
    } else if answer.refusal == 0 {
        let first = records(image).into_iter().find(|record| record.1 == new_end);
        if first.map(|record| record.0) != Some(segment.newest_at) && wrong("newest_searched") {
            return Logged { refusal: 10, reserved: 0, log: *log };
        }
    } else if let Some(passing) = untested(image, segment) {
        // The right library takes the header that has what the error does not look at put right.
        let at = start + segment.newest_at as usize;
        let header = at..at + passing.len();
        let whole = area[header.clone()].to_vec();
        area[header.clone()].copy_from_slice(&passing);
        answer = right::prune_recent(log, area, new_end);
        area[header].copy_from_slice(&whole);
    }
    answer
}

/// The header of a segment's newest record with the field that the error does not test made a good one.
fn untested(image: &[u8], segment: &Segment) -> Option<Vec<u8>> {
    let (length, _) = header(image, segment.newest_at)?;
    let room = segment.size - segment.newest_at - HEADER;
    let at = segment.newest_at as usize;
    let mut bytes = image[at..at + HEADER as usize].to_vec();
    if wrong("newest_id_not_tested") {
        bytes[4..].copy_from_slice(&segment.max.to_le_bytes());
    }
    let too_long = length > LONGEST_PAYLOAD && wrong("newest_length_not_tested");
    let past = length <= LONGEST_PAYLOAD && length > room && wrong("newest_payload_not_tested");
    if too_long || past {
        bytes[..4].copy_from_slice(&(room as u32).to_le_bytes());
    }
    Some(bytes)
}
