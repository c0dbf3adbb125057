//! A small model of document 01's log, its recovery as document 02's Ask 1 has it and its newest records as Ask 8 does: what append, the
//! prunes and recovery answer, and what stands in the area and the index after them. Ours is held to it on every call. A refusal names its
//! row of docs/DIFFERENCES.md where the original has no such test at that place.

use crate::calls::{Shape, NO_LOG, NO_SEGMENT};
use crate::departures::*;
use crate::ffi::{Image, Log, Segment};

const PAGE: u64 = 4096;
const HEADER: u64 = 12;
const LONGEST_PAYLOAD: u64 = 1 << 30;

/// A refusal number, and why the original may answer otherwise.
#[derive(Clone, Copy, Debug)]
pub struct Refusal {
    pub number: u32,
    pub departure: Option<&'static Departure>,
}

/// A refusal that the original gives too.
fn refuse<T>(number: u32) -> Result<T, Refusal> {
    Err(Refusal { number, departure: None })
}

fn refuse_alone<T>(number: u32, departure: &'static Departure) -> Result<T, Refusal> {
    Err(Refusal { number, departure: Some(departure) })
}

pub fn padded(position: u64) -> u64 {
    (position + PAGE - 1) / PAGE * PAGE
}

pub fn empty_log(shape: Shape) -> Log {
    Log { slots: shape.k, capacity: shape.c, soft_size: shape.m, ..NO_LOG }
}

pub fn shape_of(log: &Log) -> Shape {
    Shape { k: log.slots, c: log.capacity, m: log.soft_size }
}

pub fn listed(log: &Log) -> &[Segment] {
    &log.segments[..log.count as usize]
}

fn shape_obeys(shape: Shape, area_length: usize) -> bool {
    let Shape { k, c, m } = shape;
    (1..=64).contains(&k) && c % PAGE == 0 && (PAGE..=1 << 31).contains(&c) && m <= c && area_length as u64 == k * c
}

pub fn well_shaped(log: &Log, area_length: usize) -> bool {
    if !shape_obeys(shape_of(log), area_length) || log.count > log.slots {
        return false;
    }
    let (used, unused) = log.segments.split_at(log.count as usize);
    if unused.iter().any(|segment| *segment != NO_SEGMENT) {
        return false;
    }
    let (first, last) = match (used.first(), used.last()) {
        (Some(first), Some(last)) => (first, last),
        _ => return log.start_live == 0 && log.end_live == 0,
    };
    let alone_fine = |segment: &Segment| {
        let (slot, size) = (segment.slot as u64, segment.size);
        segment.id != 0 && slot < log.slots && (1..=log.capacity).contains(&size) && 1 <= segment.min && segment.min <= segment.max
    };
    // "This offset is a multiple of 4096 and its 12 header bytes fit below the size."
    let newest_fits = |segment: &Segment| {
        let header_end = segment.newest_at as u128 + HEADER as u128;
        segment.newest_at % PAGE == 0 && header_end <= segment.size as u128
    };
    let follows = |pair: &[Segment]| pair[0].id.checked_add(1) == Some(pair[1].id) && pair[0].max.checked_add(1) == Some(pair[1].min);
    let slots_distinct = (1..used.len()).all(|at| used[..at].iter().all(|other| other.slot != used[at].slot));
    used.iter().all(alone_fine)
        && used.iter().all(newest_fits)
        && used.windows(2).all(follows)
        && slots_distinct
        && last.size % PAGE == 0
        && last.max == log.end_live
        && first.min <= log.start_live
        && log.start_live <= first.max
}

pub fn new(shape: Shape, area_length: usize) -> Result<Log, Refusal> {
    if shape_obeys(shape, area_length) {
        Ok(empty_log(shape))
    } else {
        refuse_alone(1, &MEMORY)
    }
}

pub fn append(log: &Log, area: &mut [u8], payload: &[u8]) -> Result<Log, Refusal> {
    if !well_shaped(log, area.len()) {
        return refuse_alone(2, &LOG_VALUE);
    }
    if payload.len() as u64 > LONGEST_PAYLOAD {
        return refuse(3);
    }
    if log.end_live == u64::MAX {
        return refuse_alone(4, &RECORD_ID_WRAPS);
    }
    let id = log.end_live + 1;
    let head = listed(log).last().copied();
    let mut next = *log;
    if head.map_or(true, |head| head.size >= log.soft_size) {
        let last_id = head.map_or(0, |head| head.id);
        if last_id == u32::MAX {
            return refuse_alone(5, &SEGMENT_ID_WRAPS);
        }
        let free = (0..log.slots as u32).find(|slot| listed(log).iter().all(|segment| segment.slot != *slot));
        match free {
            None => return refuse_alone(6, &MEMORY),
            Some(slot) => next.segments[log.count as usize] = Segment { id: last_id + 1, slot, min: id, ..NO_SEGMENT },
        }
        next.count += 1;
    }
    let head = &mut next.segments[next.count as usize - 1];
    let record = padded(HEADER + payload.len() as u64);
    if record > log.capacity - head.size {
        return refuse_alone(7, &MEMORY);
    }
    let at = (head.slot as u64 * log.capacity + head.size) as usize;
    let bytes = &mut area[at..at + record as usize];
    bytes.fill(0);
    bytes[..4].copy_from_slice(&(payload.len() as u32).to_le_bytes());
    bytes[4..12].copy_from_slice(&id.to_le_bytes());
    bytes[12..12 + payload.len()].copy_from_slice(payload);
    head.newest_at = head.size;
    head.size += record;
    head.max = id;
    next.end_live = id;
    if log.start_live == 0 {
        next.start_live = id;
    }
    Ok(next)
}

pub fn prune_oldest(log: &Log, area: &[u8], new_start: u64) -> Result<Log, Refusal> {
    if !well_shaped(log, area.len()) {
        return refuse_alone(2, &LOG_VALUE);
    }
    if new_start == 0 || log.count == 0 {
        return Ok(empty_log(shape_of(log)));
    }
    if new_start > log.end_live {
        return refuse_alone(8, &PRUNE_PANICS);
    }
    if new_start < log.start_live {
        return refuse_alone(9, &PRUNE_PANICS);
    }
    let dropped = listed(log).iter().take_while(|segment| segment.max < new_start).count().min(log.count as usize - 1);
    Ok(with_segments(log, &listed(log)[dropped..], new_start, log.end_live))
}

pub fn prune_recent(log: &Log, area: &mut [u8], new_end: u64) -> Result<Log, Refusal> {
    if !well_shaped(log, area.len()) {
        return refuse_alone(2, &LOG_VALUE);
    }
    if new_end == 0 || log.count == 0 {
        return Ok(empty_log(shape_of(log)));
    }
    if new_end > log.end_live {
        return refuse_alone(8, &PRUNE_ABOVE_END);
    }
    if new_end < log.start_live {
        return refuse_alone(9, &PRUNE_BELOW_START);
    }
    let kept = listed(log).iter().filter(|segment| segment.min <= new_end).count();
    let mut segments = listed(log)[..kept].to_vec();
    let head = &mut segments[kept - 1];
    let start = (head.slot as u64 * log.capacity) as usize;
    let image = &area[start..start + head.size as usize];
    // "A cut at a segment's max looks only at that header."
    let at = if head.max == new_end { head.newest_at } else { found(image, new_end)? };
    let (id, end) = whole_record(image, at)?;
    if id != new_end {
        return refuse_alone(10, &CUT_NOT_FOUND);
    }
    pad(area, start, head.size, padded(end));
    head.size = padded(end);
    head.max = new_end;
    head.newest_at = at;
    Ok(with_segments(log, &segments, log.start_live, new_end))
}

/// Where the first record with this id stands, or 10.
fn found(image: &[u8], wanted: u64) -> Result<u64, Refusal> {
    let mut at = 0;
    while at < image.len() as u64 {
        let (id, end) = whole_record(image, at)?;
        if id == wanted {
            return Ok(at);
        }
        at = padded(end);
    }
    refuse_alone(10, &CUT_NOT_FOUND)
}

/// The id of the record at a place and the end of its payload; 10 where it is no whole record.
fn whole_record(image: &[u8], at: u64) -> Result<(u64, u64), Refusal> {
    let (length, id) = match header(image, at) {
        Some(header) if header.0 <= LONGEST_PAYLOAD => header,
        _ => return refuse_alone(10, &CUT_NOT_FOUND),
    };
    let end = at + HEADER + length;
    if end > image.len() as u64 {
        return refuse_alone(10, &CUT_NOT_FOUND);
    }
    Ok((id, end))
}

fn header(image: &[u8], at: u64) -> Option<(u64, u64)> {
    let bytes = image.get(at as usize..at as usize + HEADER as usize)?;
    let number = |bytes: &[u8]| bytes.iter().rev().fold(0, |sum, byte| sum << 8 | *byte as u64);
    Some((number(&bytes[..4]), number(&bytes[4..])))
}

fn pad(area: &mut [u8], start: usize, size: u64, end: u64) {
    if size < end {
        area[start + size as usize..start + end as usize].fill(0);
    }
}

fn with_segments(log: &Log, segments: &[Segment], start_live: u64, end_live: u64) -> Log {
    let mut next = Log { start_live, end_live, count: segments.len() as u64, ..empty_log(shape_of(log)) };
    next.segments[..segments.len()].copy_from_slice(segments);
    next
}

/// What one image shows to the walk, up to e's record.
struct Scan {
    live: bool,
    min: u64,
    max: u64,
    newest_at: u64,
    /// The padded end of e's record, where it is here.
    end: Option<u64>,
}

/// The walk over the images, up to e's record: the first id met, the last one, and the rows of the live records.
struct Walk {
    first: Option<u64>,
    last: Option<u64>,
    rows: Vec<[u64; 4]>,
}

pub fn recover(shape: Shape, area: &mut [u8], images: &[Image], s: u64, e: u64, index: &mut [u64]) -> Result<(Log, u64), Refusal> {
    if !shape_obeys(shape, area.len()) {
        return refuse_alone(1, &MEMORY);
    }
    if (s == 0) != (e == 0) {
        return refuse(11);
    }
    if s > e {
        return refuse_alone(12, &RANGE_ORDER);
    }
    let sorted = checked_rows(shape, images)?;
    if s == 0 {
        return Ok((empty_log(shape), 0));
    }
    let mut walk = Walk { first: None, last: None, rows: Vec::new() };
    let scanned = walk_images(shape, area, &sorted, (s, e), &mut walk);
    // Where the first record is above s the original starts there, so what it meets later may differ.
    let starts_above = if walk.first.map_or(false, |first| first > s) { Some(&STARTS_ABOVE) } else { None };
    let scans = scanned.map_err(|refusal| Refusal { departure: refusal.departure.or(starts_above), ..refusal })?;
    if walk.rows.first().map(|row| row[0]) != Some(s) {
        return Err(Refusal { number: 21, departure: starts_above });
    }
    if walk.rows.last().map(|row| row[0]) != Some(e) {
        return refuse(22);
    }
    if index.len() < 4 * walk.rows.len() {
        return refuse_alone(23, &INDEX_ROWS);
    }
    let mut segments = Vec::new();
    for (image, scan) in sorted.iter().zip(&scans).filter(|(_, scan)| scan.live) {
        let (size, max) = scan.end.map_or((image.size, scan.max), |end| (end, e));
        pad(area, image.slot as usize * shape.c as usize, image.size, size);
        segments.push(Segment { id: image.id, slot: image.slot, size, min: scan.min, max, newest_at: scan.newest_at });
    }
    for (words, row) in index.chunks_exact_mut(4).zip(&walk.rows) {
        words.copy_from_slice(row);
    }
    Ok((with_segments(&empty_log(shape), &segments, s, e), walk.rows.len() as u64))
}

/// The rows in ascending order of their segment ids, or 13, 14, 15.
fn checked_rows(shape: Shape, images: &[Image]) -> Result<Vec<Image>, Refusal> {
    let slot_twice = (1..images.len()).any(|at| images[..at].iter().any(|other| other.slot == images[at].slot));
    let outside = |image: &Image| image.slot as u64 >= shape.k || image.size > shape.c;
    if images.len() > 64 || slot_twice || images.iter().any(outside) {
        return refuse_alone(13, &MEMORY);
    }
    let mut sorted = images.to_vec();
    sorted.sort_by_key(|image| image.id);
    if sorted.first().map_or(false, |image| image.id == 0) {
        return refuse(14);
    }
    if sorted.windows(2).any(|pair| pair[0].id.checked_add(1) != Some(pair[1].id)) {
        return refuse(15);
    }
    Ok(sorted)
}

/// "The walk stops once e's record is read: the rest of that image and all later images are not looked at." Those have no scan.
fn walk_images(shape: Shape, area: &[u8], sorted: &[Image], range: (u64, u64), walk: &mut Walk) -> Result<Vec<Scan>, Refusal> {
    let mut scans: Vec<Scan> = Vec::new();
    for (at, image) in sorted.iter().enumerate() {
        if scans.last().map_or(false, |scan| scan.end.is_some()) {
            break;
        }
        if at > 0 && image.size > 0 && sorted[at - 1].size == 0 {
            return refuse_alone(16, &EMPTY_BETWEEN);
        }
        let start = image.slot as usize * shape.c as usize;
        scans.push(walk_image(&area[start..start + image.size as usize], image.slot, range, walk)?);
    }
    Ok(scans)
}

fn walk_image(image: &[u8], slot: u32, (s, e): (u64, u64), walk: &mut Walk) -> Result<Scan, Refusal> {
    let mut scan = Scan { live: false, min: 0, max: 0, newest_at: 0, end: None };
    let mut at = 0;
    while at < image.len() as u64 && scan.end.is_none() {
        let (length, id) = match header(image, at) {
            None => return refuse(17),
            Some((length, _)) if length > LONGEST_PAYLOAD => return refuse(18),
            Some(header) => header,
        };
        let in_sequence = walk.last.map_or(true, |last| last.checked_add(1) == Some(id));
        if id == 0 || !in_sequence {
            // The original tests no record against one of another image, and its ids wrap.
            let untested = at == 0 || walk.last == Some(u64::MAX) && id == 0;
            return if untested { refuse_alone(19, &SEQUENCE) } else { refuse(19) };
        }
        walk.first = walk.first.or(Some(id));
        walk.last = Some(id);
        let end = at + HEADER + length;
        if s <= id && id <= e {
            if end > image.len() as u64 {
                return refuse(20);
            }
            scan.live = true;
            walk.rows.push([id, slot as u64, at + HEADER, length]);
            if id == e {
                scan.end = Some(padded(end));
            }
        }
        scan.min = if at == 0 { id } else { scan.min };
        scan.max = id;
        scan.newest_at = at;
        at = padded(end);
    }
    Ok(scan)
}

/// 2, 24 or 0 for a row's words.
pub fn row_question(log: &Log, area: &[u8], row: [u64; 4]) -> u32 {
    if !well_shaped(log, area.len()) {
        2
    } else if row[1] >= log.slots || row[2] as u128 + row[3] as u128 > log.capacity as u128 {
        24
    } else {
        0
    }
}

/// The largest payload length that a walk over the image's headers meets; the original allocates it where the record is live.
pub fn largest_claim(image: &[u8]) -> u64 {
    let (mut at, mut largest) = (0, 0);
    while let Some((length, _)) = header(image, at) {
        if length > LONGEST_PAYLOAD {
            break;
        }
        largest = largest.max(length);
        at = padded(at + HEADER + length);
    }
    largest
}

/// Where records start, as far as the headers lead.
pub fn record_places(image: &[u8]) -> Vec<usize> {
    let (mut at, mut places) = (0, Vec::new());
    while let Some((length, _)) = header(image, at) {
        places.push(at as usize);
        at = padded(at + HEADER + length);
    }
    places
}
