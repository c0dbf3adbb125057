//! Refusals of recovery that no history reaches: sizes (1), image rows (13 to 15), damaged images (16 to 20), and the order of the tests.
//! And recoveries that are accepted at the borders: a torn record that is not live, and padding that was missing. What stands behind e:
//! cases_up_to_e.rs.

use crate::archive::{hold, Archive, Checked, Recovery, NO_LOG, UNTOUCHED};
use crate::cases_logs::{dirty, put_header, CAPACITY};
use crate::ffi::{Image, Log, Segment};

/// What one recovery is lent.
#[derive(Clone)]
pub struct Asked {
    pub shape: (u64, u64, u64),
    pub area: Vec<u8>,
    pub images: Vec<Image>,
    pub s: u64,
    pub e: u64,
    pub words: usize,
}

/// Records 6-7 in slot 2 and 8-9 in slot 0, one page each, an empty image in slot 3; asked for 7..8.
fn good() -> Asked {
    let mut area = dirty(4 * CAPACITY as usize);
    for (slot, at, id) in [(2, 0, 6), (2, 4096, 7), (0, 0, 8), (0, 4096, 9)] {
        put_header(&mut area, slot, at, 3, id);
    }
    let images = vec![row(3, 0, 8192), row(4, 3, 0), row(2, 2, 8192)];
    Asked { shape: (4, CAPACITY, CAPACITY), area, images, s: 7, e: 8, words: 8 }
}

pub fn row(id: u32, slot: u32, size: u64) -> Image {
    Image { id, slot, size }
}

fn bad_rows(asked: &mut Asked) {
    asked.images[0].slot = 4;
}

pub type Case = (&'static str, u32, fn(&mut Asked));

const MEMORY: [Case; 9] = [
    ("no slot", 1, |it| it.shape.0 = 0),
    ("65 slots", 1, |it| it.shape.0 = 65),
    ("another number of slots", 1, |it| it.shape.0 = 5),
    ("capacity 0", 1, |it| it.shape.1 = 0),
    ("a capacity that is no multiple of a page", 1, |it| it.shape.1 = 8193),
    ("K x C is the length modulo 2^64", 1, |it| it.shape = (4, (1 << 62) + CAPACITY, 0)),
    ("soft size above C", 1, |it| it.shape.2 = CAPACITY + 1),
    ("an area that is one byte long", 1, |it| it.area.truncate(1)),
    ("1 before 11", 1, |it| (it.shape.0, it.s) = (0, 0)),
];

const RANGES: [Case; 14] = [
    ("s is 0", 11, |it| it.s = 0),
    ("e is 0", 11, |it| it.e = 0),
    ("11 before 13", 11, |it| {
        it.s = 0;
        bad_rows(it)
    }),
    ("s above e", 12, |it| it.s = 9),
    ("12 before 13", 12, |it| {
        it.s = 9;
        bad_rows(it)
    }),
    ("s below the first record", 21, |it| it.s = 5),
    ("s above the last record", 21, |it| (it.s, it.e) = (10, 11)),
    ("s alike in its low 32 bits", 21, |it| (it.s, it.e) = ((1 << 32) + 7, u64::MAX)),
    ("21 before 22", 21, |it| (it.s, it.e) = (5, 10)),
    ("e above the last record", 22, |it| it.e = 10),
    ("e is 2^64 - 1", 22, |it| it.e = u64::MAX),
    ("22 before 23", 22, |it| (it.e, it.words) = (10, 0)),
    ("one word short", 23, |it| it.words = 7),
    ("no index", 23, |it| it.words = 0),
];

const ROWS: [Case; 17] = [
    ("slot K", 13, bad_rows),
    ("a slot twice", 13, |it| it.images[1].slot = 2),
    ("size above C", 13, |it| it.images[1].size = 8193),
    ("65 rows", 13, |it| it.images.resize(65, row(1, 0, 0))),
    ("13 before 14", 13, |it| {
        it.images[2].id = 0;
        bad_rows(it)
    }),
    ("13 for the range (0, 0)", 13, |it| {
        (it.s, it.e) = (0, 0);
        bad_rows(it)
    }),
    ("segment id 0", 14, |it| (it.images[2].id, it.images[0].id, it.images[1].id) = (0, 1, 2)),
    ("14 before 15", 14, |it| it.images[2].id = 0),
    ("14 for the range (0, 0)", 14, |it| (it.s, it.e, it.images[2].id) = (0, 0, 0)),
    ("a gap", 15, |it| it.images[1].id = 5),
    ("the same id twice", 15, |it| it.images[1].id = 3),
    ("15 for the range (0, 0)", 15, |it| (it.s, it.e, it.images[1].id) = (0, 0, 5)),
    ("no rows", 21, |it| it.images.clear()),
    ("empty images alone", 21, |it| it.images.iter_mut().for_each(|image| image.size = 0)),
    ("empty before full", 16, |it| it.images[2].size = 0),
    ("empty between", 16, |it| (it.images[0].id, it.images[1].id) = (4, 3)),
    ("15 before 16", 15, |it| (it.images[2].size, it.images[1].id) = (0, 9)),
];

const IMAGES: [Case; 20] = [
    ("a short header at the front", 17, |it| it.images[2].size = 11),
    ("a short header", 17, |it| it.images[2].size = 4096 + 11),
    ("length above 2^30", 18, |it| put_header(&mut it.area, 2, 0, (1 << 30) + 1, 6)),
    ("18 before 19", 18, |it| put_header(&mut it.area, 2, 4096, u32::MAX, 9)),
    // The next record has id 1, and both are before s: nothing but the rule for 0 can see it.
    ("first record id 0", 19, |it| {
        put_header(&mut it.area, 2, 0, 3, 0);
        put_header(&mut it.area, 2, 4096, 3, 1);
        put_header(&mut it.area, 0, 0, 3, 2);
        put_header(&mut it.area, 0, 4096, 3, 3);
        (it.s, it.e) = (2, 2)
    }),
    ("an id twice", 19, |it| put_header(&mut it.area, 2, 4096, 3, 6)),
    ("a gap in an image", 19, |it| put_header(&mut it.area, 2, 4096, 3, 8)),
    ("a gap over the border", 19, |it| {
        put_header(&mut it.area, 0, 0, 3, 9);
        put_header(&mut it.area, 0, 4096, 3, 10)
    }),
    ("the sequence begins anew over the border", 19, |it| {
        put_header(&mut it.area, 0, 0, 3, 1);
        put_header(&mut it.area, 0, 4096, 3, 2)
    }),
    ("the next id in its low 32 bits alone", 19, |it| put_header(&mut it.area, 2, 4096, 3, (1 << 32) + 7)),
    ("an id after 2^64 - 1", 19, |it| {
        put_header(&mut it.area, 2, 0, 3, u64::MAX);
        put_header(&mut it.area, 2, 4096, 3, 0)
    }),
    ("19 before 20", 19, |it| put_header(&mut it.area, 2, 4096, 9000, 8)),
    ("19 before a later image's 17", 19, |it| {
        it.images[0].size = 5;
        put_header(&mut it.area, 2, 4096, 3, 6)
    }),
    ("a live payload past the size", 20, |it| it.images[2].size = 4096 + 14),
    ("a live payload of 2^30", 20, |it| put_header(&mut it.area, 0, 0, 1 << 30, 8)),
    ("20 before 21", 20, |it| {
        it.s = 5;
        put_header(&mut it.area, 2, 4096, 9000, 7)
    }),
    ("a torn record before s", 0, |it| {
        put_header(&mut it.area, 2, 0, 9000, 7);
        it.s = 8
    }),
    ("a torn record after e", 0, |it| put_header(&mut it.area, 0, 4096, 1 << 30, 9)),
    ("a torn record hides the next", 19, |it| {
        it.s = 6;
        put_header(&mut it.area, 2, 0, 9000, 5)
    }),
    ("the range (0, 0) reads no image", 0, |it| (it.s, it.e, it.words, it.images[2].size) = (0, 0, 0, 11)),
];

pub fn run(archive: &mut Archive) -> Checked<()> {
    for (case, number, edit) in MEMORY.iter().chain(&RANGES).chain(&ROWS).chain(&IMAGES) {
        let mut asked = good();
        edit(&mut asked);
        let (answered, ..) = ask(archive, &asked)?;
        hold(answered == *number, &format!("case {case}: recovery answers {answered}, document 01 says {number}"))?;
    }
    missing_padding(archive)
}

pub fn ask(archive: &mut Archive, it: &Asked) -> Checked<(u32, Log, Vec<u8>, Vec<u64>)> {
    let asked = Recovery { shape: it.shape, images: &it.images, s: it.s, e: it.e, index_words: it.words };
    let (answer, area, index) = archive.recover(&asked, &it.area)?;
    Ok((answer.refusal, answer.log, area, index))
}

/// The head's missing padding is written as zeros; the earlier kept segment keeps its odd size, and its padding stays missing.
fn missing_padding(archive: &mut Archive) -> Checked<()> {
    let mut asked = good();
    asked.images[0].size = 20;
    asked.images[2].size = 4096 + 15;
    asked.words = 9;
    let (number, log, area, index) = ask(archive, &asked)?;
    let mut expected = Log { slots: 4, capacity: CAPACITY, soft_size: CAPACITY, start_live: 7, end_live: 8, count: 2, ..NO_LOG };
    expected.segments[0] = Segment { id: 2, slot: 2, size: 4096 + 15, min: 6, max: 7, newest_at: 4096 };
    expected.segments[1] = Segment { id: 3, slot: 0, size: 4096, min: 8, max: 8, newest_at: 0 };
    let mut bytes = asked.area;
    bytes[20..4096].fill(0);
    hold(number == 0 && log == expected, "missing padding: another log")?;
    hold(area == bytes, "missing padding: other bytes")?;
    hold(index == [7, 2, 4108, 3, 8, 0, 12, 3, UNTOUCHED], "missing padding: other rows")
}
