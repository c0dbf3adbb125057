//! Document 02's ask 8: each segment holds where its newest record starts. A cut at a segment's max reads the header there and nothing
//! else; any other cut is walked and finds the new place. What a well-shaped log asks of the field, and who sets it, by exact logs and
//! areas.

use crate::archive::{hold, Archive, Checked, NO_LOG, NO_SEGMENT};
use crate::cases_logs::{dirty, refused_with_2};
use crate::cases_recovery::{ask, row, Asked};
use crate::ffi::{Log, Segment};

const CAPACITY: u64 = 16384;
const SHAPE: (u64, u64, u64) = (4, CAPACITY, CAPACITY);
/// The slots of segments 1 to 3; slot 1 is free.
const SLOTS: [u32; 3] = [2, 0, 3];
/// Where the three records of each segment start, and their padded ends: payloads of 3, 5000 and 3 bytes.
const STARTS: [u64; 3] = [0, 4096, NEWEST];
const ENDS: [u64; 3] = [4096, NEWEST, CAPACITY];
const LENGTHS: [u32; 3] = [3, 5000, 3];
const NEWEST: u64 = 12288;

#[derive(Clone)]
struct Written {
    log: Log,
    area: Vec<u8>,
}

impl Written {
    fn image(&mut self, i: usize) -> &mut [u8] {
        &mut self.area[(SLOTS[i] as u64 * CAPACITY) as usize..][..CAPACITY as usize]
    }

    /// Writes a header into the image of entry i.
    fn put(&mut self, i: usize, at: u64, length: u32, id: u64) {
        let header = &mut self.image(i)[at as usize..][..12];
        header[..4].copy_from_slice(&length.to_le_bytes());
        header[4..].copy_from_slice(&id.to_le_bytes());
    }

    /// Bytes that are no header, nor a length up to 2^30.
    fn spoil(&mut self, i: usize, from: u64, to: u64) {
        self.image(i)[from as usize..to as usize].fill(0xff);
    }

    fn max(&self, i: usize) -> u64 {
        self.log.segments[i].max
    }
}

/// Records 1-3, 4-6 and 7-9 in three segments, over bytes with no zero among them.
fn good() -> Written {
    let mut log = Log { slots: 4, capacity: CAPACITY, soft_size: CAPACITY, start_live: 1, end_live: 9, count: 3, ..NO_LOG };
    for (i, slot) in SLOTS.into_iter().enumerate() {
        let min = 3 * i as u64 + 1;
        log.segments[i] = Segment { id: i as u32 + 1, slot, size: CAPACITY, min, max: min + 2, newest_at: NEWEST };
    }
    let mut it = Written { log, area: dirty(4 * CAPACITY as usize) };
    for id in 1..=9 {
        let (i, j) = place(id);
        it.put(i, STARTS[j], LENGTHS[j], id);
    }
    it
}

/// The entry of a record's segment, and which of its records it is.
fn place(id: u64) -> (usize, usize) {
    ((id - 1) as usize / 3, (id - 1) as usize % 3)
}

/// The log that ends with record n in entry i, which starts at one place and ends, padded, at another.
fn ended(log: &Log, i: usize, n: u64, start: u64, end: u64) -> Log {
    let mut ended = Log { end_live: n, count: i as u64 + 1, ..*log };
    ended.segments[i] = Segment { size: end, max: n, newest_at: start, ..log.segments[i] };
    ended.segments[i + 1..].fill(NO_SEGMENT);
    ended
}

type Edit = fn(&mut Written, usize);

/// Damage in segment i that a cut at its max does not see.
const UNSEEN: [(&str, Edit); 13] = [
    ("nothing", |_, _| ()),
    ("id 0 at the front", |it, i| it.put(i, 0, 3, 0)),
    ("the wanted id at the front", |it, i| it.put(i, 0, 3, it.max(i))),
    ("a length above 2^30 at the front", |it, i| it.put(i, 0, (1 << 30) + 1, it.max(i) - 2)),
    ("a length of 2^30 at the front", |it, i| it.put(i, 0, 1 << 30, it.max(i) - 2)),
    ("a first payload that ends behind the newest header", |it, i| it.put(i, 0, 13000, it.max(i) - 2)),
    ("a second payload of one page", |it, i| it.put(i, 4096, 3, it.max(i) - 1)),
    ("a second id out of sequence", |it, i| it.put(i, 4096, 5000, 77)),
    ("a second length above 2^30", |it, i| it.put(i, 4096, u32::MAX, it.max(i) - 1)),
    ("noise up to the newest record", |it, i| it.spoil(i, 0, NEWEST)),
    ("noise behind the newest header", |it, i| it.spoil(i, NEWEST + 12, CAPACITY)),
    ("noise in the other segments", |it, i| (0..3).filter(|other| *other != i).for_each(|other| it.spoil(other, 0, CAPACITY))),
    ("noise but for the newest header", |it, i| {
        it.area.fill(0xff);
        it.put(i, NEWEST, 3, it.max(i))
    }),
];

/// Damage that it sees: in the newest header, or newest_at leads to another place.
const SEEN: [(&str, Edit); 13] = [
    ("id 0", |it, i| it.put(i, NEWEST, 3, 0)),
    ("the id before", |it, i| it.put(i, NEWEST, 3, it.max(i) - 1)),
    ("the id after", |it, i| it.put(i, NEWEST, 3, it.max(i) + 1)),
    ("an id alike in its low 32 bits", |it, i| it.put(i, NEWEST, 3, (1 << 32) + it.max(i))),
    ("a length above 2^30", |it, i| it.put(i, NEWEST, (1 << 30) + 1, it.max(i))),
    ("a length of 2^32 - 1", |it, i| it.put(i, NEWEST, u32::MAX, it.max(i))),
    ("a length of 2^30, past the size", |it, i| it.put(i, NEWEST, 1 << 30, it.max(i))),
    ("a payload one past the size", |it, i| it.put(i, NEWEST, 4085, it.max(i))),
    ("noise", |it, i| it.spoil(i, NEWEST, NEWEST + 12)),
    ("the first record's place", |it, i| it.log.segments[i].newest_at = 0),
    ("the second record's place", |it, i| it.log.segments[i].newest_at = 4096),
    ("a page of the second payload", |it, i| it.log.segments[i].newest_at = 8192),
    ("noise, and the wanted id at the front", |it, i| {
        it.spoil(i, NEWEST, NEWEST + 12);
        it.put(i, 0, 3, it.max(i))
    }),
];

/// What a segment of 16384 bytes may not say: no multiple of 4096, or twelve bytes from there on pass the size.
const NO_PLACES: [u64; 15] = [
    1,
    12,
    4095,
    4097,
    NEWEST - 1,
    NEWEST + 1,
    CAPACITY,
    CAPACITY + 4096,
    1 << 31,
    1 << 32,
    (1 << 32) + NEWEST,
    1 << 63,
    u64::MAX - 4095,
    u64::MAX - 11,
    u64::MAX,
];

pub fn run(archive: &mut Archive) -> Checked<()> {
    for i in 0..3 {
        for (case, damage) in UNSEEN {
            let mut it = good();
            damage(&mut it, i);
            let log = ended(&it.log, i, it.max(i), NEWEST, CAPACITY);
            cut_is(archive, case, &it, it.max(i), &log, &it.area)?;
        }
        for (case, damage) in SEEN {
            let mut it = good();
            damage(&mut it, i);
            not_found(archive, case, &it, it.max(i))?;
        }
        each_bit_of_the_id(archive, i)?;
        read_where_it_says(archive, i)?;
        shape(archive, i)?;
    }
    sizes(archive)?;
    unused_entries(archive)?;
    missing_padding(archive)?;
    walked_cuts(archive)?;
    recoveries(archive)?;
    recovered_from_cut_padding(archive)?;
    appends_after_cuts(archive)?;
    kept_by_prune_oldest(archive)
}

/// The cut at n is accepted, with exactly this log and these bytes.
fn cut_is(archive: &mut Archive, case: &str, it: &Written, n: u64, log: &Log, area: &[u8]) -> Checked<()> {
    let (answer, after) = archive.prune_recent(&it.log, &it.area, n)?;
    hold(answer.refusal == 0, &format!("case {case}: a cut at {n} is refused with {}", answer.refusal))?;
    hold(answer.log == *log, &format!("case {case}: a cut at {n} gives another log"))?;
    hold(after == area, &format!("case {case}: a cut at {n} leaves other bytes"))
}

/// 10; that nothing changed is held for every refusal.
fn not_found(archive: &mut Archive, case: &str, it: &Written, n: u64) -> Checked<()> {
    let (answer, _) = archive.prune_recent(&it.log, &it.area, n)?;
    hold(answer.refusal == 10, &format!("case {case}: a cut at {n} answers {}, document 02 says 10", answer.refusal))
}

fn each_bit_of_the_id(archive: &mut Archive, i: usize) -> Checked<()> {
    for bit in 0..64 {
        let mut it = good();
        it.put(i, NEWEST, 3, it.max(i) ^ 1 << bit);
        not_found(archive, "another bit of the id", &it, it.max(i))?;
    }
    Ok(())
}

/// A header with the id, wherever newest_at leads; and a payload that ends with the size.
fn read_where_it_says(archive: &mut Archive, i: usize) -> Checked<()> {
    for (at, length, end) in [(0, 3, 4096), (8192, 3, NEWEST), (8192, 4085, CAPACITY), (NEWEST, 4084, CAPACITY), (0, 16372, CAPACITY)] {
        let mut it = good();
        it.log.segments[i].newest_at = at;
        it.put(i, at, length, it.max(i));
        cut_is(archive, "a header where newest_at says", &it, it.max(i), &ended(&it.log, i, it.max(i), at, end), &it.area)?;
    }
    Ok(())
}

fn shape(archive: &mut Archive, i: usize) -> Checked<()> {
    for newest_at in NO_PLACES {
        let mut it = good();
        it.log.segments[i].newest_at = newest_at;
        refused_with_2(archive, &format!("newest_at is {newest_at}"), &it.log, &it.area)?;
    }
    for newest_at in [0, 4096, 8192, NEWEST] {
        let mut it = good();
        it.log.segments[i].newest_at = newest_at;
        well_shaped(archive, &format!("newest_at is {newest_at}"), &it)?;
    }
    Ok(())
}

/// Calls that read no byte are accepted.
fn well_shaped(archive: &mut Archive, case: &str, it: &Written) -> Checked<()> {
    let (oldest, part) = (archive.prune_oldest(&it.log, &it.area, 1)?, archive.row(&it.log, &it.area, [1, 2, 12, 3])?);
    hold(oldest.refusal == 0 && part.refusal == 0, &format!("case {case}: not well shaped"))?;
    hold(oldest.log == it.log, &format!("case {case}: prune oldest to the live start gives another log"))
}

/// Segments before the last may have any size: the header ends with it, and one byte later.
fn sizes(archive: &mut Archive) -> Checked<()> {
    for i in 0..2 {
        for newest_at in [0, 4096, NEWEST] {
            let mut it = good();
            it.log.segments[i] = Segment { newest_at, size: newest_at + 12, ..it.log.segments[i] };
            well_shaped(archive, "the newest header ends with the size", &it)?;
            it.log.segments[i].size -= 1;
            refused_with_2(archive, "the newest header ends one past the size", &it.log, &it.area)?;
        }
        let mut it = good();
        it.log.segments[i] = Segment { newest_at: 0, size: 1, ..it.log.segments[i] };
        refused_with_2(archive, "a size of one byte", &it.log, &it.area)?;
    }
    Ok(())
}

fn unused_entries(archive: &mut Archive) -> Checked<()> {
    for (entry, newest_at) in [(3, 4096), (63, 1)] {
        let mut it = good();
        it.log.segments[entry].newest_at = newest_at;
        refused_with_2(archive, "newest_at of an unused entry", &it.log, &it.area)?;
    }
    let mut empty = Log { slots: 4, capacity: CAPACITY, soft_size: CAPACITY, ..NO_LOG };
    empty.segments[0].newest_at = 4096;
    refused_with_2(archive, "newest_at in a log with no segment", &empty, &good().area)
}

/// A payload that ends with the size has its padding written as zeros, in segments that are not the last; one that ends a byte later is 10.
fn missing_padding(archive: &mut Archive) -> Checked<()> {
    for i in 0..2 {
        for length in [0, 3, 4083] {
            let (mut it, size) = (good(), NEWEST + 12 + length);
            it.log.segments[i].size = size;
            it.put(i, NEWEST, length as u32, it.max(i));
            let mut padded = it.clone();
            padded.image(i)[size as usize..].fill(0);
            let log = ended(&it.log, i, it.max(i), NEWEST, CAPACITY);
            cut_is(archive, "a payload that ends with the size", &it, it.max(i), &log, &padded.area)?;
            it.put(i, NEWEST, length as u32 + 1, it.max(i));
            not_found(archive, "a payload one past an odd size", &it, it.max(i))?;
        }
    }
    Ok(())
}

/// Any other cut finds its record from the front on, also where the newest header is noise; behind noise it finds none, although newest_at
/// leads to its id.
fn walked_cuts(archive: &mut Archive) -> Checked<()> {
    for n in [1, 2, 4, 5, 7, 8] {
        let (mut it, (i, j)) = (good(), place(n));
        let log = ended(&it.log, i, n, STARTS[j], ENDS[j]);
        cut_is(archive, "nothing damaged", &it, n, &log, &it.area)?;
        it.spoil(i, NEWEST, CAPACITY);
        cut_is(archive, "the newest record is noise", &it, n, &log, &it.area)?;
        it.spoil(i, 0, NEWEST);
        it.put(i, NEWEST, 3, n);
        not_found(archive, "the wanted id at newest_at, behind noise", &it, n)?;
    }
    Ok(())
}

/// What recovers s..e from the three images, rows in another order than the ids.
fn asked(it: &Written, s: u64, e: u64) -> Asked {
    let images = [1, 2, 0].map(|i| row(i as u32 + 1, SLOTS[i], it.log.segments[i].size)).to_vec();
    Asked { shape: SHAPE, area: it.area.clone(), images, s, e, words: 4 * (e - s + 1) as usize }
}

/// The log of s..e: cut behind e, and without the segments before that of s.
fn recovered(log: &Log, s: u64, e: u64) -> Log {
    let ((first, _), (i, j)) = (place(s), place(e));
    let mut live = Log { start_live: s, ..ended(log, i, e, STARTS[j], ENDS[j]) };
    live.segments.copy_within(first..=i, 0);
    live.count -= first as u64;
    live.segments[live.count as usize..].fill(NO_SEGMENT);
    live
}

/// Each s..e: of a kept segment before the last the place of its last record, of the last one that of e.
fn recoveries(archive: &mut Archive) -> Checked<()> {
    let it = good();
    for s in 1..=9 {
        for e in s..=9 {
            let (number, log, area, _) = ask(archive, &asked(&it, s, e))?;
            hold(number == 0 && log == recovered(&it.log, s, e), &format!("recovering {s}..{e} gives another log"))?;
            hold(area == it.area, &format!("recovering {s}..{e} leaves other bytes"))?;
        }
    }
    Ok(())
}

/// Images that end with a payload: a kept one stays so, and of e's the padding is written; neither moves newest_at.
fn recovered_from_cut_padding(archive: &mut Archive) -> Checked<()> {
    for e in 4..=6 {
        let (mut it, (i, j)) = (good(), place(e));
        let size = STARTS[j] + 12 + LENGTHS[j] as u64;
        it.log.segments[0].size = NEWEST + 15;
        it.log.segments[i].size = size;
        let (number, log, area, _) = ask(archive, &asked(&it, 2, e))?;
        it.image(i)[size as usize..ENDS[j] as usize].fill(0);
        hold(number == 0 && log == recovered(&it.log, 2, e), &format!("recovering 2..{e} from cut padding gives another log"))?;
        hold(area == it.area, &format!("recovering 2..{e} from cut padding leaves other bytes"))?;
    }
    Ok(())
}

/// Where an append after a cut at the first number puts its record: the entry of its segment, its slot and its place; the segment's min.
const APPENDED: [(u64, usize, u32, u64, u64); 9] = [
    (9, 3, 1, 0, 10),
    (8, 2, 3, NEWEST, 7),
    (7, 2, 3, 4096, 7),
    (6, 2, 1, 0, 7),
    (5, 1, 0, NEWEST, 4),
    (4, 1, 0, 4096, 4),
    (3, 1, 0, 0, 4),
    (2, 0, 2, NEWEST, 1),
    (1, 0, 2, 4096, 1),
];

fn appends_after_cuts(archive: &mut Archive) -> Checked<()> {
    for (n, i, slot, newest_at, min) in APPENDED {
        let (cut, area) = archive.prune_recent(&good().log, &good().area, n)?;
        let (answer, area) = archive.append(&cut.log, &area, b"abc")?;
        let mut log = Log { end_live: n + 1, count: i as u64 + 1, ..cut.log };
        log.segments[i] = Segment { id: i as u32 + 1, slot, size: newest_at + 4096, min, max: n + 1, newest_at };
        hold(cut.refusal == 0 && answer.refusal == 0 && answer.log == log, &format!("an append after a cut at {n} gives another log"))?;
        let it = Written { log, area };
        cut_is(archive, "directly after an append", &it, n + 1, &log, &it.area)?;
    }
    Ok(())
}

/// Prune oldest reads nothing: whatever place a segment says, it keeps.
fn kept_by_prune_oldest(archive: &mut Archive) -> Checked<()> {
    let mut it = good();
    (0..3).for_each(|i| it.log.segments[i].newest_at = 4096 * (i as u64 + 1));
    for n in 1..=9 {
        let mut log = Log { start_live: n, count: 3 - place(n).0 as u64, ..it.log };
        log.segments.copy_within(place(n).0..3, 0);
        log.segments[log.count as usize..].fill(NO_SEGMENT);
        let answer = archive.prune_oldest(&it.log, &it.area, n)?;
        hold(answer.refusal == 0 && answer.log == log, &format!("prune oldest to {n} gives another log"))?;
    }
    Ok(())
}
