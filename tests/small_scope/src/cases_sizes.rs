//! Sizes beyond 16, 31 and 32 bits: specimen 4 in a slot that it fills, and an area of 6 GiB, of which only the pages that are touched
//! take memory. Every slice is lent as it lies: nothing here is copied.

use crate::archive::{hold, Archive, Checked, NO_LOG};
use crate::calls::{self, Shape};
use crate::ffi::{Image, Log, Segment};
use crate::lent::Lent;

const PAGE: usize = 4096;
const LONGEST: usize = 1 << 30;

pub fn run(archive: &mut Archive) -> Checked<()> {
    specimen_4(archive)?;
    area_beyond_4_gib(archive)
}

fn new_log(archive: &mut Archive, shape: Shape, area: &mut Lent<u8>) -> Checked<Log> {
    let answer = calls::new(shape, area.content_mut());
    archive.count(answer.refusal)?;
    hold(answer.refusal == 0 && area.guards_intact(), "a new log of a large area is refused")?;
    Ok(answer.log)
}

/// A payload of 2^30 bytes makes a segment of 1,073,745,920; one byte more is refused with 3.
fn specimen_4(archive: &mut Archive) -> Checked<()> {
    let c = 1_073_745_920;
    let mut area = Lent::zeros(c, 0xc3);
    let log = new_log(archive, Shape { k: 1, c: c as u64, m: c as u64 }, &mut area)?;
    let refused = archive.append_to(&log, &mut area, &Lent::zeros(LONGEST + 1, 0x3c))?;
    hold(refused.refusal == 3, "specimen 4: 2^30 + 1 bytes are not 3")?;
    let mut payload = Lent::zeros(LONGEST, 0x3c);
    (payload.content_mut()[0], payload.content_mut()[LONGEST - 1]) = (7, 9);
    let answer = archive.append_to(&log, &mut area, &payload)?;
    let head = Segment { id: 1, slot: 0, size: c as u64, min: 1, max: 1, newest_at: 0 };
    hold(answer.refusal == 0 && answer.id == 1 && answer.log.segments[0] == head, "specimen 4: 2^30 bytes do not make 1,073,745,920")?;
    let (header, rest) = area.content().split_at(12);
    hold(header == [0, 0, 0, 0x40, 1, 0, 0, 0, 0, 0, 0, 0], "specimen 4: another header")?;
    hold(rest[..LONGEST] == *payload.content() && rest[LONGEST..].iter().all(|byte| *byte == 0), "specimen 4: other bytes")?;
    let again = archive.append_to(&answer.log, &mut area, &Lent::zeros(0, 0x3c))?;
    hold(again.refusal == 6, "specimen 4: the slot has room for more")?;
    let mut index = Lent::new(&[0; 4], 0xc3);
    let rows = [Image { id: 1, slot: 0, size: c as u64 }];
    let recovered = calls::recover(Shape { k: 1, c: c as u64, m: c as u64 }, area.content_mut(), &rows, 1, 1, index.content_mut());
    archive.count(recovered.refusal)?;
    let whole = recovered.refusal == 0 && recovered.log == answer.log && index.unchanged(&[1, 0, 12, LONGEST as u64]);
    hold(whole, "specimen 4: not recovered")?;
    longest_cut(archive, &answer.log, &mut area)
}

/// The cut at a newest record of 2^30 bytes; with a byte more in its header, which the slot has room for, 10.
fn longest_cut(archive: &mut Archive, log: &Log, area: &mut Lent<u8>) -> Checked<()> {
    for (more, number) in [(0, 0), (1, 10)] {
        area.content_mut()[..4].copy_from_slice(&(LONGEST as u32 + more).to_le_bytes());
        let cut = calls::prune_recent(log, area.content_mut(), 1);
        archive.count(cut.refusal)?;
        hold(cut.refusal == number && cut.log == *log && area.guards_intact(), "a cut at a record of 2^30 bytes, or of one more")?;
    }
    Ok(())
}

/// K = 3, C = 2^31: slot 2 begins at 2^32.
const WIDE: Shape = Shape { k: 3, c: 1 << 31, m: 1 << 31 };
const SECOND_AT: u64 = 1_073_745_920;
const THIRD_AT: u64 = (1 << 31) - 4096;
const SECOND_LENGTH: u64 = THIRD_AT - SECOND_AT - 12;

struct Wide {
    area: Lent<u8>,
    /// The pages that may hold something else than zeros, by their place in the area.
    touched: Vec<usize>,
}

impl Wide {
    fn put(&mut self, slot: usize, at: u64, length: u64, id: u64) {
        let place = (slot << 31) + at as usize;
        self.area.content_mut()[place..place + 4].copy_from_slice(&(length as u32).to_le_bytes());
        self.area.content_mut()[place + 4..place + 12].copy_from_slice(&id.to_le_bytes());
        self.touched.push(place);
    }

    /// What stands at a page of a slot; nothing else than the pages named so far was written.
    fn page(&mut self, slot: usize, at: u64) -> &[u8] {
        let place = (slot << 31) + at as usize;
        self.touched.push(place);
        &self.area.content()[place..place + PAGE]
    }

    fn elsewhere_zero(&self) -> bool {
        let mut pages = self.area.content().chunks(PAGE).enumerate();
        pages.all(|(number, page)| *page == [0; PAGE] || self.touched.contains(&(number * PAGE)))
    }

    fn append(&mut self, archive: &mut Archive, log: &Log, payload: &[u8]) -> Checked<Log> {
        let answer = archive.append_to(log, &mut self.area, &Lent::new(payload, 0x3c))?;
        hold(answer.refusal == 0 && answer.id == log.end_live + 1, &format!("beyond 4 GiB: an append is refused with {}", answer.refusal))?;
        Ok(answer.log)
    }

    fn prune_recent(&mut self, archive: &mut Archive, log: &Log, id: u64) -> Checked<Log> {
        let answer = calls::prune_recent(log, self.area.content_mut(), id);
        archive.count(answer.refusal)?;
        hold(answer.refusal == 0, &format!("beyond 4 GiB: a cut is refused with {}", answer.refusal))?;
        Ok(answer.log)
    }
}

/// Records 1 to 3 fill slot 2, the first of 2^30 bytes; record 4 stands in slot 1. Asked for 1..4.
fn area_beyond_4_gib(archive: &mut Archive) -> Checked<()> {
    let mut wide = Wide { area: Lent::zeros(3 << 31, 0xc3), touched: Vec::new() };
    hold(new_log(archive, WIDE, &mut wide.area)?.capacity == 1 << 31, "beyond 4 GiB: another new log")?;
    for (slot, at, length, id) in [(2, 0, 1 << 30, 1), (2, SECOND_AT, SECOND_LENGTH, 2), (2, THIRD_AT, 4084, 3), (1, 0, 5, 4)] {
        wide.put(slot, at, length, id);
    }
    let log = recovered(archive, &mut wide)?;
    let log = wide.append(archive, &log, b"abc")?;
    hold(wide.page(1, 4096)[..16] == *b"\x03\0\0\0\x05\0\0\0\0\0\0\0abc\0", "beyond 2 GiB: an append has other bytes")?;
    let log = wide.prune_recent(archive, &log, 3)?;
    hold(log.count == 1 && ends_at(&log, 1 << 31, THIRD_AT), "beyond 4 GiB: a cut at the slot's end")?;
    let log = wide.prune_recent(archive, &log, 2)?;
    hold(ends_at(&log, THIRD_AT, SECOND_AT), "beyond 4 GiB: a cut before the last page")?;
    let log = wide.append(archive, &log, &[0xee; 4084])?;
    let page = wide.page(2, THIRD_AT);
    hold(page[..12] == *b"\xf4\x0f\0\0\x03\0\0\0\0\0\0\0" && page[12..] == [0xee; 4084], "beyond 4 GiB: an append has other bytes")?;
    let log = wide.append(archive, &log, b"")?;
    let head = Segment { id: 8, slot: 0, size: 4096, min: 4, max: 4, newest_at: 0 };
    hold(log.count == 2 && ends_at(&log, 1 << 31, THIRD_AT) && log.segments[1] == head, "beyond 4 GiB: another new segment")?;
    hold(wide.page(0, 0)[..12] == *b"\0\0\0\0\x04\0\0\0\0\0\0\0", "beyond 4 GiB: a new segment has other bytes")?;
    let pruned = calls::prune_oldest(&log, wide.area.content_mut(), 4);
    archive.count(pruned.refusal)?;
    hold(pruned.refusal == 0 && pruned.log.count == 1 && pruned.log.segments[0] == head, "beyond 4 GiB: prune oldest")?;
    hold(wide.elsewhere_zero() && wide.area.guards_intact(), "beyond 4 GiB: bytes were written elsewhere")
}

/// The first segment has this size, and its newest record starts there.
fn ends_at(log: &Log, size: u64, newest_at: u64) -> bool {
    (log.segments[0].size, log.segments[0].newest_at) == (size, newest_at)
}

fn recovered(archive: &mut Archive, wide: &mut Wide) -> Checked<Log> {
    let rows = [Image { id: 8, slot: 1, size: 4096 }, Image { id: 7, slot: 2, size: 1 << 31 }];
    let mut index = Lent::new(&[0; 16], 0xc3);
    let answer = calls::recover(WIDE, wide.area.content_mut(), &rows, 1, 4, index.content_mut());
    archive.count(answer.refusal)?;
    let mut expected = Log { slots: 3, capacity: 1 << 31, soft_size: 1 << 31, start_live: 1, end_live: 4, count: 2, ..NO_LOG };
    expected.segments[0] = Segment { id: 7, slot: 2, size: 1 << 31, min: 1, max: 3, newest_at: THIRD_AT };
    expected.segments[1] = Segment { id: 8, slot: 1, size: 4096, min: 4, max: 4, newest_at: 0 };
    hold(answer.refusal == 0 && answer.log == expected, "beyond 4 GiB: another log is recovered")?;
    let delivered = [[1, 2, 12, 1 << 30], [2, 2, SECOND_AT + 12, SECOND_LENGTH], [3, 2, THIRD_AT + 12, 4084], [4, 1, 12, 5]];
    hold(index.unchanged(&delivered.concat()), "beyond 4 GiB: other rows are recovered")?;
    for row in delivered {
        let part = calls::payload(&expected, wide.area.content(), row);
        archive.count(part.refusal)?;
        hold((part.refusal, part.at, part.length) == (0, (row[1] << 31) + row[2], row[3]), "beyond 4 GiB: another place of a payload")?;
    }
    for (row, number) in [([1, 2, 1 << 31, 0], 0), ([1, 2, 1 << 31, 1], 24), ([1, 3, 0, 0], 24), ([1, 2, 1, 1 << 31], 24)] {
        let answer = calls::row_question(&expected, wide.area.content(), row);
        archive.count(answer)?;
        hold(answer == number, "beyond 4 GiB: a row is judged otherwise")?;
    }
    Ok(expected)
}
