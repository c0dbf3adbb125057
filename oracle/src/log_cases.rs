//! Inputs for the comparison of logs: shapes, payload lengths, segment images and every kind of damage to them.
//! A set of images is what a folder holds: an id and the bytes of each segment.

use crate::calls::Shape;
use crate::log_model::{padded, record_places};
use crate::rng::Rng;

const PAGE: u64 = 4096;
const GIBIBYTE: u64 = 1 << 30;
/// Around the end of 16 bits, and above.
const LONG_PAYLOADS: [u64; 6] = [65_523, 65_524, 65_535, 65_536, 65_537, 100 << 10];
/// Where ids of 16, 31, 32, 63 and 64 bits end.
const ID_BORDERS: [u64; 5] = [1 << 16, 1 << 31, 1 << 32, 1 << 63, 0];

#[derive(Clone, Debug)]
pub struct SegmentFile {
    pub id: u32,
    pub bytes: Vec<u8>,
}

/// A history's shape, and how many appends of small records it begins with.
pub struct Setting {
    pub shape: Shape,
    pub first_appends: u64,
}

/// Now and then all 64 slots, taken one after the other; or slots in which offsets and lengths pass 16 bits, with many records; or several
/// segments of several records.
pub fn setting(rng: &mut Rng) -> Setting {
    match rng.below(300) {
        0 => {
            let c = PAGE * rng.range(1, 2);
            let shape = Shape { k: rng.pick_number(&[64, 64, 63, 33]), c, m: rng.pick_number(&[0, 1, c]) };
            Setting { shape, first_appends: rng.range(30, 140) }
        }
        1 | 2 => {
            let c = PAGE * rng.pick_number(&[64, 128, 512]);
            let shape = Shape { k: rng.range(2, 3), c, m: rng.pick_number(&[c, c / 2, 65_536]) };
            Setting { shape, first_appends: rng.pick_number(&[0, 0, 20, 90]) }
        }
        3..=22 => {
            let c = PAGE * rng.pick_number(&[4, 8]);
            Setting { shape: Shape { k: rng.range(2, 4), c, m: c / 2 }, first_appends: rng.range(4, 9) }
        }
        _ => Setting { shape: shape(rng), first_appends: 0 },
    }
}

pub fn small_length(rng: &mut Rng) -> u64 {
    rng.pick_number(&[0, 1, 3, 40, 600])
}

/// Small slots are the most frequent: they meet every border, and fast.
pub fn shape(rng: &mut Rng) -> Shape {
    let c = PAGE * rng.pick_number(&[1, 1, 2, 2, 2, 3, 4, 4, 8, 16]);
    Shape { k: rng.pick_number(&[1, 2, 2, 3, 3, 4, 5, 6, 8]), c, m: soft_size(rng, c) }
}

pub fn soft_size(rng: &mut Rng, c: u64) -> u64 {
    match rng.below(6) {
        0 => 0,
        1 => c,
        2 => rng.pick_number(&[1, PAGE - 1, PAGE, (PAGE + 1).min(c), c - 1]),
        _ => rng.below(c + 1),
    }
}

pub fn payload_length(rng: &mut Rng, c: u64) -> u64 {
    match rng.below(16) {
        0..=3 => rng.pick_number(&[0, 1, 3, 12, 100]),
        4 | 5 => rng.pick_number(&[4083, 4084, 4085, 8179, 8180, 8181]),
        6 => c - rng.range(10, 13),
        7 if c < 1 << 18 => rng.below(2 * c),
        7..=10 if c >= 1 << 18 => rng.pick_number(&LONG_PAYLOADS),
        _ => rng.below(600),
    }
}

/// A record id for `place`: a segment's border, an end of the live range, or one beside it.
pub fn record_id(rng: &mut Rng, start: u64, end: u64, segment_borders: &[u64]) -> u64 {
    match rng.below(12) {
        0 => start.wrapping_sub(rng.range(1, 2)),
        1 => end.wrapping_add(rng.range(1, 2)),
        2 => rng.pick_number(&[1, u64::MAX, u64::MAX - 1, start ^ 1 << 32, end ^ 1 << 32, end ^ 1 << 31, start ^ 1 << 63]),
        3 if rng.once_in(3) => 0,
        4..=6 if !segment_borders.is_empty() => rng.pick_number(segment_borders),
        7 => start,
        8 => end,
        _ => start + rng.below((end - start).saturating_add(1).max(1)),
    }
}

pub fn shuffle<T>(rng: &mut Rng, items: &mut [T]) {
    for at in 1..items.len() {
        items.swap(at, rng.below(at as u64 + 1) as usize);
    }
}

/// Images that no log wrote: a run of records from any id on, over segments from any id on.
pub fn synthetic(rng: &mut Rng, shape: Shape) -> Vec<SegmentFile> {
    let mut record = match rng.below(4) {
        0 => 1,
        1 => u64::MAX - rng.below(8),
        2 => rng.pick_number(&ID_BORDERS).wrapping_sub(rng.below(4)),
        _ => rng.range(1, 1000),
    };
    let mut id = match rng.below(4) {
        0 => u32::MAX - rng.below(4) as u32,
        1 if rng.once_in(2) => (rng.pick_number(&ID_BORDERS[..2]) - rng.below(4)) as u32,
        1 => rng.next() as u32,
        _ => rng.range(1, 20) as u32,
    };
    let mut files = Vec::new();
    for _ in 0..rng.range(1, shape.k) {
        let mut bytes = Vec::new();
        for _ in 0..rng.range(1, 4) {
            let length = if rng.once_in(8) { rng.below(shape.c) } else { rng.below(300) };
            if bytes.len() as u64 + padded(12 + length) <= shape.c {
                add_record(rng, &mut bytes, record, length as usize);
                record = record.wrapping_add(1);
            }
        }
        files.push(SegmentFile { id, bytes });
        id = id.wrapping_add(1);
    }
    files
}

fn header(length: u64, id: u64) -> Vec<u8> {
    [&(length as u32).to_le_bytes()[..], &id.to_le_bytes()].concat()
}

fn add_record(rng: &mut Rng, bytes: &mut Vec<u8>, id: u64, length: usize) {
    let start = bytes.len();
    bytes.extend(header(length as u64, id));
    bytes.resize(start + 12 + length, rng.next() as u8);
    bytes.resize(start + padded(12 + length as u64) as usize, if rng.once_in(8) { 0xDD } else { 0 });
}

fn some_file(rng: &mut Rng, files: &[SegmentFile]) -> usize {
    rng.below(files.len() as u64) as usize
}

fn some_record(rng: &mut Rng, bytes: &[u8]) -> Option<usize> {
    let places = record_places(bytes);
    match places.len() as u64 {
        0 => None,
        count => Some(places[rng.below(count) as usize]),
    }
}

pub fn id_at(bytes: &[u8], at: usize) -> u64 {
    let mut word = [0; 8];
    word.copy_from_slice(&bytes[at + 4..at + 12]);
    u64::from_le_bytes(word)
}

pub fn length_at(bytes: &[u8], at: usize) -> u64 {
    u32::from_le_bytes([bytes[at], bytes[at + 1], bytes[at + 2], bytes[at + 3]]) as u64
}

/// Damages one field or bit of one header.
pub fn damage_header(rng: &mut Rng, bytes: &mut [u8]) {
    let at = match some_record(rng, bytes) {
        None => return,
        Some(at) => at,
    };
    let (id, length, rest) = (id_at(bytes, at), length_at(bytes, at), (bytes.len() - at - 12) as u64);
    match rng.below(3) {
        0 => bytes[at + rng.below(12) as usize] ^= 1 << rng.below(8),
        1 => {
            let id = rng.pick_number(&[0, 1, id.wrapping_sub(1), id.wrapping_add(1), id ^ 1 << 32, id ^ 1 << 63, u64::MAX]);
            bytes[at + 4..at + 12].copy_from_slice(&id.to_le_bytes());
        }
        _ => {
            let far = rng.pick_number(&[GIBIBYTE - 1, GIBIBYTE, GIBIBYTE + 1, (1 << 32) - 1]);
            let near = rng.pick_number(&[0, length + 1, length + PAGE, rest, rest + 1, rest.saturating_sub(1), rest.saturating_sub(PAGE)]);
            let length = if rng.once_in(3) { far } else { near };
            bytes[at..at + 4].copy_from_slice(&(length as u32).to_le_bytes());
        }
    }
}

/// Ends an image at a border of one of its records, or lengthens it.
fn damage_size(rng: &mut Rng, bytes: &mut Vec<u8>) {
    let at = match some_record(rng, bytes) {
        None => return,
        Some(at) => at,
    };
    let payload_end = at + 12 + length_at(bytes, at).min(1 << 20) as usize;
    let size = match rng.below(8) {
        0 => at,
        1 => at + rng.range(1, 12) as usize,
        2 => payload_end,
        3 => payload_end - 1,
        4 => payload_end + rng.below(PAGE) as usize,
        5 => bytes.len() + rng.below(20) as usize,
        6 => bytes.len() + PAGE as usize,
        _ => rng.below(bytes.len() as u64 + 1) as usize,
    };
    bytes.resize(size.min(bytes.len() + PAGE as usize), 0);
}

/// Adds to every record id from one image on, so that the sequence breaks between two images.
fn break_sequence(rng: &mut Rng, files: &mut [SegmentFile]) {
    let from = some_file(rng, files);
    let step = rng.pick_number(&[1, 5, u64::MAX, 1 << 32]);
    for file in &mut files[from..] {
        for at in record_places(&file.bytes) {
            let id = id_at(&file.bytes, at).wrapping_add(step);
            file.bytes[at + 4..at + 12].copy_from_slice(&id.to_le_bytes());
        }
    }
}

fn insert_empty(rng: &mut Rng, files: &mut Vec<SegmentFile>) {
    let at = rng.below(files.len() as u64 + 1) as usize;
    let id = files.get(at).map_or_else(|| files.last().map_or(1, |last| last.id.wrapping_add(1)), |next| next.id);
    for file in &mut files[at..] {
        file.id = file.id.wrapping_add(1);
    }
    files.insert(at, SegmentFile { id, bytes: Vec::new() });
}

/// One damage of any kind to a set of images.
pub fn damage(rng: &mut Rng, files: &mut Vec<SegmentFile>) {
    if files.is_empty() {
        return;
    }
    let (one, other) = (some_file(rng, files), some_file(rng, files));
    match rng.below(16) {
        0..=3 => damage_header(rng, &mut files[one].bytes),
        4..=6 => damage_size(rng, &mut files[one].bytes),
        7 => drop(files.remove(one)),
        8 => files[one].id = rng.pick_number(&[0, 1, files[other].id as u64, files[other].id as u64 + 1, u32::MAX as u64]) as u32,
        9 => insert_empty(rng, files),
        10 => files[one].bytes.clear(),
        11 => break_sequence(rng, files),
        12 => {
            let bytes = std::mem::take(&mut files[one].bytes);
            let bytes = std::mem::replace(&mut files[other].bytes, bytes);
            files[one].bytes = bytes;
        }
        13 => {
            let lowest = files.iter().map(|file| file.id).min().unwrap_or(0);
            files.iter_mut().for_each(|file| file.id -= lowest);
        }
        _ => {
            let bytes = &mut files[one].bytes;
            if !bytes.is_empty() {
                let at = rng.below(bytes.len() as u64) as usize;
                bytes[at] ^= 1 << rng.below(8);
            }
        }
    }
}

/// The accident of document 02: records 1 and 2, and five bytes of the header of record 3.
pub fn accident(rng: &mut Rng) -> SegmentFile {
    let mut bytes = Vec::new();
    add_record(rng, &mut bytes, 1, 0);
    add_record(rng, &mut bytes, 2, 3);
    bytes.extend_from_slice(&header(40, 3)[..5]);
    SegmentFile { id: 1, bytes }
}

/// A record among the images: its file, its place there, its padded end and its id.
struct Chosen {
    file: usize,
    at: usize,
    end: usize,
    id: u64,
}

fn chosen(rng: &mut Rng, files: &[SegmentFile]) -> Option<Chosen> {
    let with_records: Vec<usize> = (0..files.len()).filter(|file| !files[*file].bytes.is_empty()).collect();
    let file = *with_records.get(rng.below(with_records.len().max(1) as u64) as usize)?;
    let bytes = &files[file].bytes;
    let at = some_record(rng, bytes)?;
    Some(Chosen { file, at, end: padded(at as u64 + 12 + length_at(bytes, at)) as usize, id: id_at(bytes, at) })
}

/// Images with something at fault behind one of their records, or close before it; and a range that ends with that record.
pub fn around_e(rng: &mut Rng, shape: Shape, files: &mut Vec<SegmentFile>) -> (u64, u64) {
    let mut e = match chosen(rng, files) {
        None => return range(rng, ids_shown(files)),
        Some(e) => e,
    };
    let mut before: Vec<u64> = files[..e.file].iter().flat_map(|file| ids_in(&file.bytes)).collect();
    before.extend(ids_in(&files[e.file].bytes[..e.at]));
    match rng.below(8) {
        0 => fault_before(rng, files, &e),
        1 => empty_behind(rng, shape, files, &e),
        2 => {
            // e is never met: the walk goes on to the torn tail.
            torn_behind(rng, shape, files, &e);
            before.push(e.id);
            e.id = e.id.wrapping_add(rng.range(1, 2));
        }
        _ => {
            let tail = tail(rng, e.id);
            lay_behind(rng, shape, files, &e, &tail);
        }
    }
    before.push(e.id);
    let s = match rng.below(8) {
        0 => before[0].saturating_sub(1).max(1),
        1 | 2 => before[0],
        _ => rng.pick_number(&before),
    };
    (s, e.id)
}

/// What may stand behind record `last`: part of a record that was being written, a record that does not belong there, no record at all.
fn tail(rng: &mut Rng, last: u64) -> Vec<u8> {
    let (mut bytes, mut next) = (Vec::new(), last.wrapping_add(1));
    if rng.once_in(4) {
        let length = small_length(rng) as usize;
        add_record(rng, &mut bytes, next, length);
        next = next.wrapping_add(1);
    }
    match rng.below(7) {
        0 => bytes.extend_from_slice(&header(40, next)[..rng.pick_number(&[1, 4, 5, 5, 11]) as usize]),
        1 => bytes.extend_from_slice(&header(rng.below(600), next)[..rng.range(1, 11) as usize]),
        2 => {
            let length = rng.range(1, 600);
            bytes.extend(header(length, next));
            bytes.resize(bytes.len() + rng.below(length) as usize, 0x77);
        }
        3 => bytes.extend(header(rng.pick_number(&[GIBIBYTE + 1, (1 << 32) - 1]), next)),
        4 => {
            let id = rng.pick_number(&[0, 1, last, last.wrapping_sub(1), next.wrapping_add(1), next ^ 1 << 32, u64::MAX]);
            add_record(rng, &mut bytes, id, 3);
        }
        5 => {
            let length = rng.range(12, 600);
            bytes.extend(rng.bytes(length as usize));
        }
        _ => bytes.resize(bytes.len() + rng.range(1, 2 * PAGE) as usize, rng.pick_number(&[0, 0xFF]) as u8),
    }
    bytes
}

/// Lays the tail behind e: into its image, in place of what follows there, or over the next image. As much of it as fits.
fn lay_behind(rng: &mut Rng, shape: Shape, files: &mut Vec<SegmentFile>, e: &Chosen, tail: &[u8]) {
    let (room, next) = (shape.c as usize - e.end, e.file + 1);
    if room > 0 && rng.once_in(2) {
        let bytes = &mut files[e.file].bytes;
        bytes.resize(e.end, 0);
        bytes.extend_from_slice(&tail[..tail.len().min(room)]);
        if rng.once_in(2) {
            files.truncate(next);
        }
        return;
    }
    if rng.once_in(4) {
        // e's own padding may be missing.
        let bytes = &mut files[e.file].bytes;
        let payload_end = (e.at as u64 + 12 + length_at(bytes, e.at)) as usize;
        bytes.truncate(rng.range(payload_end as u64, e.end as u64) as usize);
    }
    if next == files.len() && (next as u64) < shape.k {
        files.push(SegmentFile { id: files[e.file].id.wrapping_add(1), bytes: Vec::new() });
    }
    if let Some(file) = files.get_mut(next) {
        file.bytes = tail[..tail.len().min(shape.c as usize)].to_vec();
    }
}

/// One to eleven bytes of a header behind e, and nothing else: in its image, or in the next one where it is full.
fn torn_behind(rng: &mut Rng, shape: Shape, files: &mut Vec<SegmentFile>, e: &Chosen) {
    let torn = &header(40, e.id.wrapping_add(1))[..rng.range(1, 11) as usize];
    files.truncate(e.file + 1);
    let bytes = &mut files[e.file].bytes;
    bytes.resize(e.end, 0);
    if e.end < shape.c as usize {
        bytes.extend_from_slice(torn);
    } else if (files.len() as u64) < shape.k {
        files.push(SegmentFile { id: files[e.file].id.wrapping_add(1), bytes: torn.to_vec() });
    }
}

/// Empty images behind e's, and full ones after them; the last one may be torn.
fn empty_behind(rng: &mut Rng, shape: Shape, files: &mut Vec<SegmentFile>, e: &Chosen) {
    files.truncate(e.file + 1);
    let (mut id, mut record) = (files[e.file].id, e.id);
    for full in [false, rng.once_in(2), true] {
        let mut bytes = Vec::new();
        id = id.wrapping_add(1);
        if full {
            record = record.wrapping_add(1);
            add_record(rng, &mut bytes, record, 3);
            bytes.truncate(rng.pick_number(&[PAGE, PAGE, 5]) as usize);
        }
        if (files.len() as u64) < shape.k {
            files.push(SegmentFile { id, bytes });
        }
    }
}

/// A fault that the walk meets before e's record is read: an empty image before its own, or in the record itself.
fn fault_before(rng: &mut Rng, files: &mut Vec<SegmentFile>, e: &Chosen) {
    let bytes = &mut files[e.file].bytes;
    match rng.below(5) {
        0 => bytes.truncate(e.at + rng.range(1, 11) as usize),
        1 => bytes.truncate((e.at as u64 + 12 + rng.below(length_at(bytes, e.at).max(1))) as usize),
        2 => bytes[e.at..e.at + 4].copy_from_slice(&((GIBIBYTE + 1) as u32).to_le_bytes()),
        3 => {
            let id = rng.pick_number(&[0, e.id.wrapping_add(1), e.id.wrapping_sub(1), e.id ^ 1 << 32]);
            bytes[e.at + 4..e.at + 12].copy_from_slice(&id.to_le_bytes());
        }
        _ if e.file > 0 => files[e.file - 1].bytes.clear(),
        _ => (),
    }
}

/// The record ids of an image, as far as its headers lead.
pub fn ids_in(bytes: &[u8]) -> Vec<u64> {
    record_places(bytes).into_iter().map(|at| id_at(bytes, at)).collect()
}

/// The lowest and the highest record id that the images show.
pub fn ids_shown(files: &[SegmentFile]) -> (u64, u64) {
    let ids: Vec<u64> = files.iter().flat_map(|file| ids_in(&file.bytes)).collect();
    (ids.iter().copied().min().unwrap_or(1), ids.iter().copied().max().unwrap_or(1))
}

/// A range to recover: mostly inside what the images show, else at or beyond its ends, crossed, or with a zero.
pub fn range(rng: &mut Rng, (lowest, highest): (u64, u64)) -> (u64, u64) {
    let inside = |rng: &mut Rng| lowest + rng.below((highest - lowest).saturating_add(1).max(1));
    let mut s = inside(rng);
    let mut e = inside(rng);
    if s > e && !rng.once_in(30) {
        std::mem::swap(&mut s, &mut e);
    }
    match rng.below(24) {
        0 => s = lowest.saturating_sub(1),
        1 => e = highest.saturating_add(1),
        2 => return (0, 0),
        3 if rng.once_in(2) => s = 0,
        3 => e = 0,
        4 => e = u64::MAX,
        5 => s = 1,
        6 => s = rng.pick_number(&[s ^ 1 << 32, highest, highest.saturating_add(1)]),
        7..=12 => return (lowest, highest),
        13 => return (lowest.saturating_sub(2).max(1), lowest.saturating_sub(1).max(1)),
        _ => (),
    }
    (s, e)
}
