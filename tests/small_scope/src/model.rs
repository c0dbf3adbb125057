//! What document 01 expects of a log that came from calls alone: segments as lists of the records that were appended to them.
//! It reads no bytes: a recovery from the log's own images and a cut are found in the lists.

use crate::archive::NO_SEGMENT;
use crate::ffi;

const PAGE: u64 = 4096;
const HEADER: u64 = 12;

/// The bytes that a record of this payload length takes: 12 for the header, then the payload, padded with zeros to a page.
pub fn padded_record(length: usize) -> u64 {
    (HEADER + length as u64 + PAGE - 1) / PAGE * PAGE
}

/// A payload: its length, and a stamp that no earlier append of the history had, from which its bytes come.
#[derive(Clone, Copy, PartialEq, Eq, Hash, Debug)]
pub struct Payload {
    pub length: usize,
    pub stamp: u8,
}

impl Payload {
    pub fn bytes(self) -> Vec<u8> {
        (0..self.length).map(|at| (at as u8).wrapping_mul(7).wrapping_add(16 * self.stamp + 1)).collect()
    }
}

#[derive(Clone, Copy, PartialEq, Eq, Hash, Debug)]
pub struct Record {
    pub id: u64,
    pub payload: Payload,
}

impl Record {
    pub fn bytes(self) -> Vec<u8> {
        let mut bytes = (self.payload.length as u32).to_le_bytes().to_vec();
        bytes.extend(self.id.to_le_bytes());
        bytes.extend(self.payload.bytes());
        bytes.resize(padded_record(self.payload.length) as usize, 0);
        bytes
    }
}

#[derive(Clone, PartialEq, Eq, Hash, Debug)]
pub struct Segment {
    pub id: u32,
    pub slot: u32,
    pub records: Vec<Record>,
}

impl Segment {
    pub fn size(&self) -> u64 {
        self.records.iter().map(|record| padded_record(record.payload.length)).sum()
    }

    fn min(&self) -> u64 {
        self.records[0].id
    }

    fn max(&self) -> u64 {
        self.newest().id
    }

    pub fn newest(&self) -> Record {
        self.records[self.records.len() - 1]
    }

    /// Where the newest record starts in the slot: behind all others.
    pub fn newest_at(&self) -> u64 {
        self.size() - padded_record(self.newest().payload.length)
    }

    fn up_to(&self, end: u64) -> Segment {
        Segment { records: self.records.iter().copied().filter(|record| record.id <= end).collect(), ..*self }
    }
}

#[derive(Clone, PartialEq, Eq, Hash, Debug)]
pub struct Model {
    pub shape: (u64, u64, u64),
    pub start: u64,
    pub end: u64,
    pub segments: Vec<Segment>,
}

/// An accepted append: the log after it, and the bytes that it writes from a place in the area on.
pub struct Appended {
    pub log: Model,
    pub at: usize,
    pub bytes: Vec<u8>,
}

impl Model {
    pub fn empty(shape: (u64, u64, u64)) -> Model {
        Model { shape, start: 0, end: 0, segments: Vec::new() }
    }

    pub fn log(&self) -> ffi::Log {
        let (slots, capacity, soft_size) = self.shape;
        let mut segments = [NO_SEGMENT; 64];
        for (row, segment) in segments.iter_mut().zip(&self.segments) {
            let (min, max, newest_at) = (segment.min(), segment.max(), segment.newest_at());
            *row = ffi::Segment { id: segment.id, slot: segment.slot, size: segment.size(), min, max, newest_at };
        }
        let count = self.segments.len() as u64;
        ffi::Log { slots, capacity, soft_size, start_live: self.start, end_live: self.end, count, segments }
    }

    /// The rows of the log's own images, in the order of their segment ids.
    pub fn images(&self) -> Vec<ffi::Image> {
        self.segments.iter().map(|segment| ffi::Image { id: segment.id, slot: segment.slot, size: segment.size() }).collect()
    }

    /// The payloads that were last appended under s to e, each with its index row: record id, slot, offset in the slot, length.
    pub fn payloads(&self, s: u64, e: u64) -> Vec<([u64; 4], Payload)> {
        let mut found = Vec::new();
        for segment in &self.segments {
            let mut at = 0;
            for Record { id, payload } in &segment.records {
                if s <= *id && *id <= e {
                    found.push(([*id, segment.slot as u64, at + HEADER, payload.length as u64], *payload));
                }
                at += padded_record(payload.length);
            }
        }
        found
    }

    pub fn append(&self, payload: Payload) -> Result<Appended, u32> {
        let (k, c, m) = self.shape;
        let mut log = self.clone();
        let record = Record { id: self.end + 1, payload };
        if self.segments.last().map_or(true, |head| head.size() >= m) {
            let id = self.segments.last().map_or(1, |head| head.id + 1);
            let free = (0..k as u32).find(|slot| self.segments.iter().all(|segment| segment.slot != *slot));
            log.segments.push(Segment { id, slot: free.ok_or(6u32)?, records: Vec::new() });
        }
        let head = log.segments.last_mut().expect("a head");
        if padded_record(payload.length) > c - head.size() {
            return Err(7);
        }
        let at = (head.slot as u64 * c + head.size()) as usize;
        head.records.push(record);
        log.end = record.id;
        log.start = if self.start == 0 { record.id } else { self.start };
        Ok(Appended { log, at, bytes: record.bytes() })
    }

    pub fn prune_oldest(&self, new_start: u64) -> Result<Model, u32> {
        if let Some(easy) = self.easy_prune(new_start)? {
            return Ok(easy);
        }
        let mut log = Model { start: new_start, ..self.clone() };
        while log.segments.len() > 1 && log.segments[0].max() < new_start {
            log.segments.remove(0);
        }
        Ok(log)
    }

    pub fn prune_recent(&self, new_end: u64) -> Result<Model, u32> {
        if let Some(easy) = self.easy_prune(new_end)? {
            return Ok(easy);
        }
        let kept = self.segments.iter().filter(|segment| segment.min() <= new_end);
        Ok(Model { end: new_end, segments: kept.map(|segment| segment.up_to(new_end)).collect(), ..*self })
    }

    /// The two outcomes that both prunes have before 8 and 9, and these.
    fn easy_prune(&self, id: u64) -> Result<Option<Model>, u32> {
        if id == 0 || self.segments.is_empty() {
            return Ok(Some(Model::empty(self.shape)));
        }
        if id > self.end {
            return Err(8);
        }
        if id < self.start {
            return Err(9);
        }
        Ok(None)
    }

    /// The recovery of s..e from the log's own images.
    pub fn recover(&self, s: u64, e: u64, index_words: usize) -> Result<Model, u32> {
        if (s == 0) != (e == 0) {
            return Err(11);
        }
        if s > e {
            return Err(12);
        }
        if s == 0 {
            return Ok(Model::empty(self.shape));
        }
        let there = |id: u64| !self.payloads(id, id).is_empty();
        if !there(s) {
            return Err(21);
        }
        if !there(e) {
            return Err(22);
        }
        if (index_words as u64) < 4 * (e - s + 1) {
            return Err(23);
        }
        let live = self.segments.iter().filter(|segment| segment.min() <= e && s <= segment.max());
        Ok(Model { start: s, end: e, segments: live.map(|segment| segment.up_to(e)).collect(), ..*self })
    }
}
