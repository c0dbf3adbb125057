//! Document 02's Ask 1: the walk stops once e's record is read. What stands behind it changes nothing, and the log, the area and the index are
//! held to exact values; it hides neither 21 nor 23. What stands up to e is refused as ever, and so are rows of images behind it (13 to 15).

use crate::archive::{hold, Archive, Checked, NO_LOG};
use crate::cases_logs::{dirty, put_header, CAPACITY};
use crate::cases_recovery::{ask, row, Asked, Case};
use crate::ffi::{Image, Log, Segment};

/// Segments 2 to 5 lie in slots 2, 0, 3 and 1, with the records 6-7, 8-9, 10-11 and 12-13, one page each, payloads of 3 bytes. Asked for 7..8:
/// record 9 and segments 4 and 5 stand behind e.
fn good() -> Asked {
    let mut area = dirty(4 * CAPACITY as usize);
    for (slot, first) in [(2, 6), (0, 8), (3, 10), (1, 12)] {
        put_header(&mut area, slot, 0, 3, first);
        put_header(&mut area, slot, 4096, 3, first + 1);
    }
    let images = vec![row(4, 3, 8192), row(2, 2, 8192), row(5, 1, 8192), row(3, 0, 8192)];
    Asked { shape: (4, CAPACITY, CAPACITY), area, images, s: 7, e: 8, words: 8 }
}

/// The row of a segment.
fn image(it: &mut Asked, id: u32) -> &mut Image {
    it.images.iter_mut().find(|image| image.id == id).expect("a segment of the base")
}

/// Bytes that are no header, nor a length up to 2^30.
fn spoil(it: &mut Asked, slot: usize, from: usize) {
    it.area[slot * CAPACITY as usize..][from..CAPACITY as usize].fill(0xff);
}

type Edit = fn(&mut Asked);

/// Damage behind e; what the base answered to it stands beside.
const BEHIND: [(&str, Edit); 18] = [
    ("nothing", |_| ()),
    ("17: a later image ends in a header's first byte", |it| image(it, 5).size = 1),
    ("17: a later image ends in a header's last byte", |it| image(it, 4).size = 4096 + 11),
    ("a cut payload", |it| image(it, 3).size = 4096 + 14),
    ("a payload of 2^30", |it| put_header(&mut it.area, 0, 4096, 1 << 30, 9)),
    ("18 directly behind e", |it| put_header(&mut it.area, 0, 4096, (1 << 30) + 1, 9)),
    ("18 in a later image", |it| put_header(&mut it.area, 3, 4096, u32::MAX, 11)),
    ("19: id 0 directly behind e", |it| put_header(&mut it.area, 0, 4096, 3, 0)),
    ("19: e's id again", |it| put_header(&mut it.area, 0, 4096, 3, 8)),
    ("19: s's id again", |it| put_header(&mut it.area, 0, 4096, 3, 7)),
    ("19, else 20: e's id again, its payload past the size", |it| put_header(&mut it.area, 0, 4096, 9000, 8)),
    ("19 over the border: e's image again", |it| {
        put_header(&mut it.area, 3, 0, 3, 8);
        put_header(&mut it.area, 3, 4096, 3, 9)
    }),
    ("16: an empty image and full ones", |it| image(it, 4).size = 0),
    ("an empty image at the end", |it| image(it, 5).size = 0),
    ("empty images", |it| (image(it, 4).size, image(it, 5).size) = (0, 0)),
    ("noise in e's image", |it| spoil(it, 0, 4096)),
    ("noise in a later image", |it| spoil(it, 3, 0)),
    ("noise everywhere, and torn", |it| {
        spoil(it, 0, 4096);
        spoil(it, 3, 0);
        spoil(it, 1, 0);
        (image(it, 3).size, image(it, 4).size, image(it, 5).size) = (4096 + 5, 0, 7)
    }),
];

/// Faults up to e, and e that is not met.
const UP_TO_E: [Case; 15] = [
    ("the first byte of e's header", 17, |it| image(it, 3).size = 1),
    ("eleven bytes of e's header", 17, |it| image(it, 3).size = 11),
    ("a short header directly before e", 17, |it| image(it, 2).size = 4096 + 5),
    ("e's length above 2^30", 18, |it| put_header(&mut it.area, 0, 0, (1 << 30) + 1, 8)),
    ("18 directly before e", 18, |it| put_header(&mut it.area, 2, 4096, u32::MAX, 7)),
    ("another id at e's place", 19, |it| put_header(&mut it.area, 0, 0, 3, 9)),
    ("e stands before s", 19, |it| put_header(&mut it.area, 2, 4096, 3, 8)),
    ("e's payload is cut", 20, |it| image(it, 3).size = 14),
    ("the payload directly before e is cut", 20, |it| put_header(&mut it.area, 2, 4096, 4085, 7)),
    ("an empty image directly before e's", 16, |it| (image(it, 2).size, it.s) = (0, 8)),
    ("e is not met, and the tail is torn", 17, |it| (image(it, 5).size, it.e) = (4096 + 5, 14)),
    ("e is not met, and an image before the last is empty", 16, |it| (image(it, 4).size, it.e) = (0, 14)),
    ("e is below all records, and the tail is torn", 17, |it| (image(it, 5).size, it.s, it.e) = (4096 + 11, 1, 5)),
    ("e is below all records", 21, |it| (it.s, it.e) = (1, 5)),
    ("e is above all records", 22, |it| it.e = 14),
];

/// Rows of images behind e, which are damaged besides.
const ROWS_BEHIND: [Case; 7] = [
    ("slot K behind e", 13, |it| image(it, 5).slot = 4),
    ("e's slot again behind e", 13, |it| image(it, 5).slot = 0),
    ("a size above C behind e", 13, |it| image(it, 4).size = CAPACITY + 1),
    ("65 rows", 13, |it| it.images.resize(65, row(6, 0, 0))),
    ("the lowest id is 0", 14, |it| it.images.iter_mut().for_each(|image| image.id -= 2)),
    ("a gap behind e", 15, |it| image(it, 5).id = 6),
    ("an id twice behind e", 15, |it| image(it, 5).id = 4),
];

pub fn run(archive: &mut Archive) -> Checked<()> {
    for (case, edit) in BEHIND {
        unseen(archive, case, edit)?;
    }
    for bytes in 1..=11 {
        unseen(archive, &format!("17: {bytes} bytes of a header"), |it| image(it, 3).size = 4096 + bytes)?;
    }
    for (case, number, edit) in UP_TO_E {
        let mut asked = good();
        edit(&mut asked);
        answers(archive, case, &asked, number)?;
    }
    for (case, number, edit) in ROWS_BEHIND {
        let mut asked = good();
        spoil(&mut asked, 3, 0);
        edit(&mut asked);
        answers(archive, case, &asked, number)?;
    }
    e_at_its_images_end(archive)?;
    missing_padding_of_e(archive)
}

fn answers(archive: &mut Archive, case: &str, asked: &Asked, number: u32) -> Checked<()> {
    let (answered, ..) = ask(archive, asked)?;
    hold(answered == number, &format!("case {case}: recovery answers {answered}, documents 01 and 02 say {number}"))
}

/// Damage behind e is not looked at: the answer is the one of good images, 21 and 23 too.
fn unseen(archive: &mut Archive, case: &str, edit: impl Fn(&mut Asked)) -> Checked<()> {
    let mut asked = good();
    edit(&mut asked);
    delivers(archive, case, &asked, &asked.area, &log(8, 4096), &[7, 2, 4108, 3, 8, 0, 12, 3])?;
    answers(archive, case, &Asked { words: 7, ..asked.clone() }, 23)?;
    answers(archive, case, &Asked { s: 5, words: 16, ..asked.clone() }, 21)?;
    answers(archive, case, &Asked { s: 5, words: 0, ..asked }, 21)
}

/// The log of 7..e over segments 2 and 3, the latter of this size.
fn log(e: u64, size: u64) -> Log {
    let mut log = Log { slots: 4, capacity: CAPACITY, soft_size: CAPACITY, start_live: 7, end_live: e, count: 2, ..NO_LOG };
    log.segments[0] = Segment { id: 2, slot: 2, size: 8192, min: 6, max: 7, newest_at: 4096 };
    log.segments[1] = Segment { id: 3, slot: 0, size, min: 8, max: e, newest_at: size - 4096 };
    log
}

/// Exactly this log, these bytes and this index.
fn delivers(archive: &mut Archive, case: &str, asked: &Asked, area: &[u8], log: &Log, index: &[u64]) -> Checked<()> {
    let (number, log_after, area_after, index_after) = ask(archive, asked)?;
    hold(number == 0, &format!("case {case}: recovery is refused with {number}"))?;
    hold(log_after == *log, &format!("case {case}: another log"))?;
    hold(area_after == *area, &format!("case {case}: other bytes"))?;
    hold(index_after == *index, &format!("case {case}: other rows: {index_after:?}"))
}

/// Asked for 7..9: all of e's image is read, and nothing of the later ones.
fn e_at_its_images_end(archive: &mut Archive) -> Checked<()> {
    let mut asked = Asked { e: 9, words: 12, ..good() };
    spoil(&mut asked, 3, 0);
    spoil(&mut asked, 1, 0);
    let index = [7, 2, 4108, 3, 8, 0, 12, 3, 9, 0, 4108, 3];
    delivers(archive, "e at its image's end", &asked, &asked.area, &log(9, 8192), &index)
}

/// e's image ends with its payload: the padding is written as zeros, and noise in later images stays.
fn missing_padding_of_e(archive: &mut Archive) -> Checked<()> {
    let mut asked = good();
    spoil(&mut asked, 3, 0);
    image(&mut asked, 3).size = 15;
    let mut bytes = asked.area.clone();
    bytes[15..4096].fill(0);
    delivers(archive, "missing padding of e", &asked, &bytes, &log(8, 4096), &[7, 2, 4108, 3, 8, 0, 12, 3])
}
