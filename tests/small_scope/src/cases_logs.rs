//! Refusals of the log's functions that no history reaches: made-up log values (2, 4, 5), sizes (1, 3, 7), images damaged under a cut that
//! is walked (10); prunes outside a live range (8, 9); and the one write of prune recent, the padding that was missing. Cuts at a segment's
//! newest record: cases_newest.rs.

use crate::archive::{hold, Archive, Checked, NO_LOG, NO_SEGMENT};
use crate::ffi::{Log, Segment};
use crate::lent::Lent;

pub const CAPACITY: u64 = 8192;
const SLOTS: u64 = 3;

/// Writes a header into a slot of an area.
pub fn put_header(area: &mut [u8], slot: u64, at: usize, length: u32, id: u64) {
    let header = &mut area[slot as usize * CAPACITY as usize + at..][..12];
    header[..4].copy_from_slice(&length.to_le_bytes());
    header[4..].copy_from_slice(&id.to_le_bytes());
}

/// Bytes with no zero among them, so that a written zero shows.
pub fn dirty(length: usize) -> Vec<u8> {
    (0..length).map(|at| 0x80 | (at % 113) as u8).collect()
}

/// Records 1-2 in slot 1 and 3-4 in slot 0, one page each, payloads of 3 bytes; slot 2 is free.
pub fn four_records() -> (Log, Vec<u8>) {
    let mut area = dirty((SLOTS * CAPACITY) as usize);
    for (slot, at, id) in [(1, 0, 1), (1, 4096, 2), (0, 0, 3), (0, 4096, 4)] {
        put_header(&mut area, slot, at, 3, id);
    }
    let mut log = Log { slots: SLOTS, capacity: CAPACITY, soft_size: CAPACITY, start_live: 1, end_live: 4, count: 2, ..NO_LOG };
    log.segments[0] = Segment { id: 1, slot: 1, size: 8192, min: 1, max: 2, newest_at: 4096 };
    log.segments[1] = Segment { id: 2, slot: 0, size: 8192, min: 3, max: 4, newest_at: 4096 };
    (log, area)
}

pub fn run(archive: &mut Archive) -> Checked<()> {
    new_log(archive)?;
    not_well_shaped(archive)?;
    appends(archive)?;
    prunes(archive)?;
    cuts(archive)?;
    missing_padding(archive)
}

fn same(case: &str, answered: u32, expected: u32) -> Checked<()> {
    hold(answered == expected, &format!("case {case}: answers {answered}, document 01 says {expected}"))
}

fn new_log(archive: &mut Archive) -> Checked<()> {
    let area = dirty(16384);
    let outside = [
        ("no slot", 0, 8192, 0),
        ("65 slots", 65, 8192, 0),
        ("no capacity", 2, 0, 0),
        ("a capacity that is no multiple of a page", 2, 8193, 0),
        ("a capacity above 2^31", 2, (1 << 31) + 4096, 0),
        ("K x C is the length modulo 2^64", 4, (1 << 62) + 4096, 0),
        ("a soft size above the capacity", 2, 8192, 8193),
        ("an area that is too short", 3, 8192, 0),
        ("an area that is too long", 1, 8192, 0),
    ];
    for (case, k, c, m) in outside {
        same(case, archive.new_log(k, c, m, &area)?.refusal, 1)?;
    }
    for (case, k, c, m) in [("soft size 0", 2, 8192, 0), ("soft size C", 4, 4096, 4096)] {
        let answer = archive.new_log(k, c, m, &area)?;
        same(case, answer.refusal, 0)?;
        hold(answer.log == Log { slots: k, capacity: c, soft_size: m, ..NO_LOG }, "a new log is not the empty one")?;
    }
    Ok(())
}

/// Each rule of a well-shaped log broken alone.
const BROKEN: [(&str, fn(&mut Log)); 24] = [
    ("no slot", |log| log.slots = 0),
    ("65 slots", |log| log.slots = 65),
    ("another number of slots", |log| log.slots = 2),
    ("another capacity", |log| log.capacity = 4096),
    ("capacity 0", |log| log.capacity = 0),
    ("K x C is the length modulo 2^64", |log| (log.slots, log.capacity) = (8, (1 << 61) + 3072)),
    ("soft size above C", |log| log.soft_size = CAPACITY + 1),
    ("count above K", |log| log.count = SLOTS + 1),
    ("count above 64", |log| log.count = u64::MAX),
    ("an unused entry", |log| log.segments[2].slot = 1),
    ("the last unused entry", |log| log.segments[63].max = 1),
    ("segment id 0", |log| (log.segments[0].id, log.segments[1].id) = (0, 1)),
    ("segment ids 2 apart", |log| log.segments[1].id = 3),
    ("segment ids wrap", |log| (log.segments[0].id, log.segments[1].id) = (u32::MAX, 0)),
    ("slot K", |log| log.segments[1].slot = SLOTS as u32),
    ("a slot twice", |log| log.segments[1].slot = 1),
    ("size 0", |log| log.segments[0].size = 0),
    ("size above C", |log| log.segments[0].size = CAPACITY + 1),
    ("last size no multiple of a page", |log| log.segments[1].size = 8191),
    ("min 0", |log| log.segments[0].min = 0),
    ("min above max", |log| log.segments[0].min = 3),
    ("a gap between segments", |log| log.segments[1].min = 4),
    ("last max is not the live end", |log| log.end_live = 5),
    ("live start not in the first segment", |log| log.start_live = 3),
];

fn not_well_shaped(archive: &mut Archive) -> Checked<()> {
    let (good, area) = four_records();
    for (case, broken) in BROKEN {
        let mut log = good;
        broken(&mut log);
        refused_with_2(archive, case, &log, &area)?;
    }
    let empty = Log { start_live: 0, end_live: 0, count: 0, segments: [NO_SEGMENT; 64], ..good };
    refused_with_2(archive, "no segments and a live end", &Log { end_live: 1, ..empty }, &area)?;
    refused_with_2(archive, "no segments and a live start", &Log { start_live: 1, ..empty }, &area)?;
    refused_with_2(archive, "the all-zero log", &NO_LOG, &area)?;
    refused_with_2(archive, "the all-zero log, no area", &NO_LOG, &[])?;
    refused_with_2(archive, "an area that is one byte short", &good, &area[1..])
}

pub fn refused_with_2(archive: &mut Archive, case: &str, log: &Log, area: &[u8]) -> Checked<()> {
    same(case, archive.append(log, area, b"abc")?.0.refusal, 2)?;
    for id in [0, 2, 9] {
        same(case, archive.prune_oldest(log, area, id)?.refusal, 2)?;
        same(case, archive.prune_recent(log, area, id)?.0.refusal, 2)?;
    }
    same(case, archive.row(log, area, [1, 0, 12, 0])?.refusal, 2)?;
    same(case, archive.row(log, area, [1, SLOTS, 12, 0])?.refusal, 2)
}

fn appends(archive: &mut Archive) -> Checked<()> {
    let (full, area) = four_records();
    // Its pages are not there until they are touched, and a refusal touches none.
    let (at_the_limit, above_the_limit) = (Lent::zeros(1 << 30, 0x3c), Lent::zeros((1 << 30) + 1, 0x3c));
    same("payload 2^30", archive.append_lent(&full, &area, &at_the_limit)?.0.refusal, 7)?;
    same("payload 2^30 + 1", archive.append_lent(&full, &area, &above_the_limit)?.0.refusal, 3)?;
    let mut at_the_end = Log { start_live: u64::MAX, end_live: u64::MAX, count: 1, ..full };
    at_the_end.segments[0] = Segment { id: u32::MAX, slot: 1, size: 8192, min: u64::MAX, max: u64::MAX, newest_at: 0 };
    at_the_end.segments[1] = NO_SEGMENT;
    same("3 before 4", archive.append_lent(&at_the_end, &area, &above_the_limit)?.0.refusal, 3)?;
    same("live end 2^64 - 1", archive.append(&at_the_end, &area, b"")?.0.refusal, 4)?;
    let mut last_segment = full;
    (last_segment.segments[0].id, last_segment.segments[1].id) = (u32::MAX - 1, u32::MAX);
    same("last segment id 2^32 - 1", archive.append(&last_segment, &area, b"")?.0.refusal, 5)?;
    let two_slots = Log { slots: 2, ..last_segment };
    same("5 before 6", archive.append(&two_slots, &area[..16384], b"")?.0.refusal, 5)?;
    same("6 before 7", archive.append(&Log { slots: 2, ..full }, &area[..16384], &dirty(9000))?.0.refusal, 6)?;
    same("above C in a new segment", archive.append(&full, &area, &dirty(8181))?.0.refusal, 7)?;
    same("exactly C in a new segment", archive.append(&full, &area, &dirty(8180))?.0.refusal, 0)
}

/// Outside the live range 2..4; the easy outcomes come before 8 and 9.
fn prunes(archive: &mut Archive) -> Checked<()> {
    let (mut log, area) = four_records();
    log.start_live = 2;
    let empty = Log { start_live: 0, end_live: 0, count: 0, segments: [NO_SEGMENT; 64], ..log };
    for (log, id, number) in [(log, 5, 8), (log, u64::MAX, 8), (log, (1 << 32) + 3, 8), (log, 1, 9), (log, 0, 0), (empty, 9, 0)] {
        let (oldest, recent) = (archive.prune_oldest(&log, &area, id)?, archive.prune_recent(&log, &area, id)?.0);
        same(&format!("prune oldest to {id}"), oldest.refusal, number)?;
        same(&format!("prune recent to {id}"), recent.refusal, number)?;
        hold(number > 0 || (oldest.log == empty && recent.log == empty), "an easy prune does not give the empty log")?;
    }
    Ok(())
}

/// Damage to the segment that a cut to 2 walks, and the number of the answer. The log lists it with this size.
const CUTS: [(&str, u64, u32, fn(&mut [u8])); 11] = [
    ("nothing damaged", 8192, 0, |_| ()),
    ("a size that ends with the payload", 4096 + 15, 0, |_| ()),
    ("a header that ends with the size", 4096 + 12, 0, |area| put_header(area, 1, 4096, 0, 2)),
    ("a short header", 4096 + 11, 10, |_| ()),
    ("a length above 2^30", 8192, 10, |area| put_header(area, 1, 0, (1 << 30) + 1, 1)),
    ("a length of 2^30, past the size", 8192, 10, |area| put_header(area, 1, 0, 1 << 30, 1)),
    ("the payload looked for is past the size", 4096 + 14, 10, |_| ()),
    ("an earlier payload is past the size", 4096, 10, |area| put_header(area, 1, 0, 4085, 1)),
    ("the image ends first", 4096, 10, |_| ()),
    ("another id in its low 32 bits alike", 8192, 10, |area| put_header(area, 1, 4096, 3, (1 << 32) + 2)),
    ("no sequence is tested", 8192, 0, |area| put_header(area, 1, 0, 3, 0)),
];

/// The four records in a log that says of the first segment, of this size, that it ends with a record 3: so a cut to 2 is walked.
fn walked_to_2(size: u64) -> (Log, Vec<u8>) {
    let (mut log, area) = four_records();
    log.segments[0] = Segment { size, max: 3, newest_at: 0, ..log.segments[0] };
    log.segments[1] = Segment { min: 4, max: 5, ..log.segments[1] };
    (Log { end_live: 5, ..log }, area)
}

/// Record 2 ends the log, by the place where the walk found it.
fn cut_at_2(log: &Log) -> Log {
    let mut cut = Log { end_live: 2, count: 1, ..*log };
    cut.segments[0] = Segment { size: 8192, max: 2, newest_at: 4096, ..log.segments[0] };
    cut.segments[1] = NO_SEGMENT;
    cut
}

fn cuts(archive: &mut Archive) -> Checked<()> {
    for (case, size, number, damage) in CUTS {
        let (log, mut area) = walked_to_2(size);
        damage(&mut area);
        let (answer, _) = archive.prune_recent(&log, &area, 2)?;
        same(case, answer.refusal, number)?;
        hold(number > 0 || answer.log == cut_at_2(&log), &format!("case {case}: another log"))?;
    }
    Ok(())
}

/// The kept record's missing padding is written as zeros; padding that is there stays dirty.
fn missing_padding(archive: &mut Archive) -> Checked<()> {
    let (log, area) = walked_to_2(4096 + 100);
    let (answer, after) = archive.prune_recent(&log, &area, 2)?;
    let mut bytes = area;
    bytes[8192 + 4096 + 100..16384].fill(0);
    hold(answer.refusal == 0 && answer.log == cut_at_2(&log), "missing padding: another log")?;
    hold(after == bytes, "missing padding: other bytes")
}
