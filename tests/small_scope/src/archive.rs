//! The archive's functions, each slice lent between guards and a page nobody may touch. Every call is counted with its number, and is held
//! to what document 01 says of any call: nothing is written outside what was lent, and a refusal changes nothing and has zeros or the log
//! beside it.

use crate::calls::{self, Shape};
pub use crate::calls::{NO_DELTA, NO_LOG, NO_ROW, NO_SEGMENT};
use crate::ffi::*;
use crate::lent::Lent;

/// What the archive answered wrongly, in words.
pub type Difference = String;
pub type Checked<T> = Result<T, Difference>;

/// Fails with words where a condition does not hold.
pub fn hold(condition: bool, what: &str) -> Checked<()> {
    if condition {
        Ok(())
    } else {
        Err(what.to_string())
    }
}

/// What index words hold before a call.
pub const UNTOUCHED: u64 = 0x5aa5_5aa5_5aa5_5aa5;

/// The refusal numbers of document 01.
pub fn refusal_numbers() -> impl Iterator<Item = u32> {
    (1..=24).chain(30..=36).chain(40..=44)
}

/// Counts of calls by the number that they answered; 0 is acceptance.
#[derive(Clone)]
pub struct Archive {
    pub calls: u64,
    pub answered: [u64; 45],
}

/// A slice that was lent to be read is as it was, and so are its guards.
fn only_read<T: Copy + PartialEq>(lent: &Lent<T>, before: &[T], what: &str) -> Checked<()> {
    hold(lent.guards_intact(), &format!("bytes beside {what} were written"))?;
    hold(lent.content() == before, &format!("{what} changed"))
}

/// A slice that was lent to be written: its content now, and as before where the call refused.
fn written<T: Copy + PartialEq>(lent: &Lent<T>, before: &[T], refusal: u32, what: &str) -> Checked<Vec<T>> {
    hold(lent.guards_intact(), &format!("bytes beside {what} were written"))?;
    hold(refusal == 0 || lent.content() == before, &format!("refusal {refusal} changed {what}"))?;
    Ok(lent.content().to_vec())
}

const AREA_GUARD: u8 = 0xc3;

impl Archive {
    pub fn new() -> Archive {
        Archive { calls: 0, answered: [0; 45] }
    }

    pub fn count(&mut self, refusal: u32) -> Checked<()> {
        self.calls += 1;
        hold(refusal == 0 || refusal_numbers().any(|number| number == refusal), &format!("no number of document 01: {refusal}"))?;
        self.answered[refusal as usize] += 1;
        Ok(())
    }

    pub fn new_log(&mut self, k: u64, c: u64, m: u64, area: &[u8]) -> Checked<Logged> {
        let mut lent = Lent::new(area, AREA_GUARD);
        let answer = calls::new(Shape { k, c, m }, lent.content_mut());
        self.count(answer.refusal)?;
        only_read(&lent, area, "the area")?;
        hold(answer.reserved == 0 && (answer.refusal == 0 || answer.log == NO_LOG), "not zeros beside the number")?;
        Ok(answer)
    }

    /// The answer and the area after it.
    pub fn append(&mut self, log: &Log, area: &[u8], payload: &[u8]) -> Checked<(Appended, Vec<u8>)> {
        let lent_payload = Lent::new(payload, 0x3c);
        let answer = self.append_lent(log, area, &lent_payload)?;
        only_read(&lent_payload, payload, "the payload")?;
        Ok(answer)
    }

    /// Append of a payload that is too long to be copied.
    pub fn append_lent(&mut self, log: &Log, area: &[u8], payload: &Lent<u8>) -> Checked<(Appended, Vec<u8>)> {
        let mut lent = Lent::new(area, AREA_GUARD);
        let answer = self.append_to(log, &mut lent, payload)?;
        Ok((answer, written(&lent, area, answer.refusal, "the area")?))
    }

    /// Append to an area that is too long to be copied: what it holds after a call is the caller's to compare.
    pub fn append_to(&mut self, log: &Log, area: &mut Lent<u8>, payload: &Lent<u8>) -> Checked<Appended> {
        let answer = calls::append(log, area.content_mut(), payload.content());
        self.count(answer.refusal)?;
        hold(answer.reserved == 0, "reserved is not 0")?;
        hold(answer.refusal == 0 || (answer.id == 0 && answer.log == *log), "not the log given beside the number")?;
        hold(payload.guards_intact() && area.guards_intact(), "bytes beside the payload or the area were written")?;
        Ok(answer)
    }

    pub fn prune_oldest(&mut self, log: &Log, area: &[u8], new_start: u64) -> Checked<Logged> {
        let mut lent = Lent::new(area, AREA_GUARD);
        let answer = calls::prune_oldest(log, lent.content_mut(), new_start);
        self.count(answer.refusal)?;
        only_read(&lent, area, "the area")?;
        hold(answer.reserved == 0, "reserved is not 0")?;
        hold(answer.refusal == 0 || answer.log == *log, "not the log given beside the number")?;
        Ok(answer)
    }

    /// The answer and the area after it.
    pub fn prune_recent(&mut self, log: &Log, area: &[u8], new_end: u64) -> Checked<(Logged, Vec<u8>)> {
        let mut lent = Lent::new(area, AREA_GUARD);
        let answer = calls::prune_recent(log, lent.content_mut(), new_end);
        self.count(answer.refusal)?;
        hold(answer.reserved == 0, "reserved is not 0")?;
        hold(answer.refusal == 0 || answer.log == *log, "not the log given beside the number")?;
        Ok((answer, written(&lent, area, answer.refusal, "the area")?))
    }

    /// The answer, the area and the index after it.
    pub fn recover(&mut self, asked: &Recovery, area: &[u8]) -> Checked<(Recovered, Vec<u8>, Vec<u64>)> {
        let before = vec![UNTOUCHED; asked.index_words];
        let (mut lent, mut index) = (Lent::new(area, AREA_GUARD), Lent::new(&before, 0xc3c3));
        let images = Lent::new(asked.images, Image { id: 0xc3, slot: 0xc3, size: 0xc3 });
        let (k, c, m) = asked.shape;
        let answer = calls::recover(Shape { k, c, m }, lent.content_mut(), images.content(), asked.s, asked.e, index.content_mut());
        self.count(answer.refusal)?;
        only_read(&images, asked.images, "the image rows")?;
        hold(answer.reserved == 0, "reserved is not 0")?;
        hold(answer.refusal == 0 || (answer.rows == 0 && answer.log == NO_LOG), "not zeros beside the number")?;
        let (area, index) = (written(&lent, area, answer.refusal, "the area")?, written(&index, &before, answer.refusal, "the index")?);
        Ok((answer, area, index))
    }

    /// The row question, and the payload's place, which must answer alike.
    pub fn row(&mut self, log: &Log, area: &[u8], row: [u64; 4]) -> Checked<Part> {
        let lent = Lent::new(area, AREA_GUARD);
        let number = calls::row_question(log, lent.content(), row);
        self.count(number)?;
        let part = calls::payload(log, lent.content(), row);
        self.count(part.refusal)?;
        only_read(&lent, area, "the area")?;
        hold(number == part.refusal && part.reserved == 0, "the row question and the payload differ")?;
        hold(number == 0 || (part.at == 0 && part.length == 0), "not zeros beside the number")?;
        Ok(part)
    }

    /// The answer and the buffer after it.
    pub fn name_write(&mut self, prefix: &[u8], id: u32, out: &[u8]) -> Checked<(Written, Vec<u8>)> {
        let (lent_prefix, mut lent) = (Lent::new(prefix, 0x3c), Lent::new(out, 0xc3));
        let answer = calls::name_write(lent_prefix.content(), id, lent.content_mut());
        self.count(answer.refusal)?;
        only_read(&lent_prefix, prefix, "the prefix")?;
        hold(answer.reserved == 0 && (answer.refusal == 0 || answer.length == 0), "not zeros beside the number")?;
        Ok((answer, written(&lent, out, answer.refusal, "the buffer")?))
    }

    pub fn name_parse(&mut self, prefix: &[u8], name: &[u8]) -> Checked<Parsed> {
        let (lent_prefix, lent_name) = (Lent::new(prefix, 0x3c), Lent::new(name, 0xc3));
        let answer = calls::name_parse(lent_prefix.content(), lent_name.content());
        self.count(answer.refusal)?;
        only_read(&lent_prefix, prefix, "the prefix")?;
        only_read(&lent_name, name, "the name")?;
        hold(answer.refusal == 0 || answer.id == 0, "not zeros beside the number")?;
        Ok(answer)
    }

    pub fn decode(&mut self, input: &[u8]) -> Checked<Decoded> {
        let lent = Lent::new(input, 0xc3);
        let answer = calls::delta_decode(lent.content());
        self.count(answer.refusal)?;
        only_read(&lent, input, "the input")?;
        hold(answer.reserved == 0, "reserved is not 0")?;
        hold(answer.refusal == 0 || (answer.consumed == 0 && answer.table == NO_DELTA), "not zeros beside the number")?;
        Ok(answer)
    }

    /// The answer and the buffer after it.
    pub fn encode(&mut self, table: &Delta, values: &[u8], out: &[u8]) -> Checked<(Written, Vec<u8>)> {
        let (lent_values, mut lent) = (Lent::new(values, 0x3c), Lent::new(out, 0xc3));
        let answer = calls::delta_encode(table, lent_values.content(), lent.content_mut());
        self.count(answer.refusal)?;
        only_read(&lent_values, values, "the values")?;
        hold(answer.reserved == 0 && (answer.refusal == 0 || answer.length == 0), "not zeros beside the number")?;
        Ok((answer, written(&lent, out, answer.refusal, "the buffer")?))
    }
}

/// What a recovery is asked: K, C and M, the image rows, the range and the length of the index.
#[derive(Clone, Copy)]
pub struct Recovery<'a> {
    pub shape: (u64, u64, u64),
    pub images: &'a [Image],
    pub s: u64,
    pub e: u64,
    pub index_words: usize,
}
