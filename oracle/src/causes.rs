//! Why the original answers otherwise, looked for on its own side: in its log after the call, in what it delivered, in its folder's files.
//! A departure counts only where its cause stands here. Of the model nothing is taken but where records begin in a file, so that one error
//! in library and model shows.

use crate::calls::Shape;
use crate::departures::*;
use crate::log_cases::{id_at, ids_in, length_at, SegmentFile};
use crate::original;
use crate::original_log::{self, Folder, Opened, OriginalLog};

const PAGE: u64 = 4096;
const HEADER: u64 = 12;
const LONGEST_PAYLOAD: u64 = 1 << 30;

/// The original reads as this id a name that it would not write for it: a plus sign stands in the place of the first digit.
pub fn of_plus_sign(prefix: &str, name: &str, id: u32) -> bool {
    original::name_format(prefix, id) != name && name[prefix.len()..].starts_with(".+")
}

/// What made the original accept an append that ours refuses with this number, read off the log that it then has.
pub fn of_append(number: u32, log: &OriginalLog, shape: Shape) -> bool {
    match number {
        4 => log.live_range().1 == 0,
        5 => log.segments().last().map_or(false, |last| last.0 == 0),
        6 => log.segments().len() as u64 > shape.k,
        7 => log.head_size() > Some(shape.c),
        _ => false,
    }
}

/// The same before an append that the original is not asked for: what its log would come to.
pub fn of_append_to_come(number: u32, log: &OriginalLog, shape: Shape, record: u64) -> bool {
    let new_segment = log.head_size().map_or(true, |size| size >= shape.m);
    match number {
        4 => log.live_range().1 == u64::MAX,
        5 => new_segment && log.segments().last().map_or(false, |last| last.0 == u32::MAX),
        6 => new_segment && log.segments().len() as u64 >= shape.k,
        7 => log.head_size().filter(|_| !new_segment).unwrap_or(0) + record > shape.c,
        _ => false,
    }
}

/// Whether a prune's argument lies outside the original's own live range, as 8 and 9 say; 10 it must find by itself.
pub fn of_prune(number: u32, (start, end): (u64, u64), argument: u64) -> bool {
    match number {
        8 => argument > end,
        9 => argument < start,
        number => number == 10,
    }
}

/// A recovery on the original's side: the range, the files of its folder in the order of their ids, and what it delivered.
pub struct Opening<'a> {
    pub range: (u64, u64),
    pub files: &'a [SegmentFile],
    pub delivered: &'a [(u64, Vec<u8>)],
}

impl Opening<'_> {
    /// Whether the departure's cause is there.
    pub fn explains(&self, departure: &Departure) -> bool {
        let (s, e) = self.range;
        match departure.row {
            row if row == RANGE_ORDER.row => s > e,
            row if row == EMPTY_BETWEEN.row => self.files.windows(2).any(|pair| pair[0].bytes.is_empty() && !pair[1].bytes.is_empty()),
            row if row == SEQUENCE.row => self.jumps(),
            row if row == STARTS_ABOVE.row => self.first_live().map_or(false, |first| first > s),
            _ => false,
        }
    }

    /// A jump of the record ids from one file to the next, or a record 0: what the original does not look at.
    fn jumps(&self) -> bool {
        let ids: Vec<Vec<u64>> = self.files.iter().map(|file| ids_in(&file.bytes)).filter(|ids| !ids.is_empty()).collect();
        let jump = |pair: &[Vec<u64>]| pair[0].last().and_then(|last| last.checked_add(1)) != pair[1].first().copied();
        ids.windows(2).any(jump) || ids.iter().flatten().any(|id| *id == 0)
    }

    /// The record that the original takes for the first live one.
    fn first_live(&self) -> Option<u64> {
        let first_met = || self.files.iter().flat_map(|file| ids_in(&file.bytes)).find(|id| *id >= self.range.0);
        self.delivered.first().map(|record| record.0).or_else(first_met)
    }
}

/// What the original reads in its files: all of them to their end, beyond e too.
#[derive(Default)]
pub struct WholeWalk {
    /// The first fault that document 01 names, 16 to 20.
    pub fault: Option<u32>,
    /// The first one that the original has a test for behind e, which ends its walk: 17, 18, or 19 inside a file.
    pub tested: Option<u32>,
    /// The file of e's record and the record's padded end, where no fault stands before.
    end_of_e: Option<(usize, u64)>,
}

impl WholeWalk {
    pub fn of(files: &[SegmentFile], range: (u64, u64)) -> WholeWalk {
        let mut walk = WholeWalk::default();
        let mut last = None;
        for (place, file) in files.iter().enumerate() {
            if place > 0 && files[place - 1].bytes.is_empty() && !file.bytes.is_empty() {
                walk.meets(16);
            }
            walk.tested = walk.file(place, &file.bytes, range, &mut last);
            if let Some(number) = walk.tested {
                walk.meets(number);
                break;
            }
        }
        walk
    }

    fn meets(&mut self, number: u32) {
        self.fault = self.fault.or(Some(number));
    }

    /// One file, to its end or to the fault that the original sees in it. `last` is the record id before.
    fn file(&mut self, place: usize, bytes: &[u8], (s, e): (u64, u64), last: &mut Option<u64>) -> Option<u32> {
        let size = bytes.len() as u64;
        let mut at = 0;
        while at < size {
            if size - at < HEADER {
                return Some(17);
            }
            let (length, id) = (length_at(bytes, at as usize), id_at(bytes, at as usize));
            if length > LONGEST_PAYLOAD {
                return Some(18);
            }
            let follows = last.map_or(true, |last| id == last.wrapping_add(1));
            if at > 0 && !follows {
                return Some(19);
            }
            if id == 0 || !follows {
                self.meets(19);
            }
            let end = at + HEADER + length;
            if s <= id && id <= e && size < end {
                self.meets(20);
            }
            at = end.div_ceil(PAGE) * PAGE;
            if s <= id && id == e && self.fault.is_none() {
                self.end_of_e = Some((place, at));
            }
            *last = Some(id);
        }
        None
    }

    /// Whether the first fault stands behind e's record: then ours does not meet it.
    pub fn faulty_behind_e(&self) -> bool {
        self.fault.is_some() && self.end_of_e.is_some()
    }

    /// Whether a recovery that stops at e may answer with this number of the walk.
    pub fn allows(&self, number: u32) -> bool {
        match number {
            0 | 23 => self.end_of_e.is_some(),
            16..=20 => self.end_of_e.is_none() && self.fault == Some(number),
            21 => self.end_of_e.is_some() || self.fault.is_none(),
            22 => self.end_of_e.is_none() && self.fault.is_none(),
            _ => true,
        }
    }

    /// Whether the original says this of what stands behind e: the first fault there that it has a test for, or nothing.
    pub fn foretells(&self, refused_with: Option<u32>) -> bool {
        self.end_of_e.is_none() || self.tested == refused_with
    }

    /// The files with nothing behind e's record: its file ends with its padding, as far as that is there, and later ones are gone. All of
    /// them where a fault stands before e.
    pub fn cut(&self, files: &[SegmentFile]) -> Vec<SegmentFile> {
        let mut cut = files.to_vec();
        if let Some((place, end)) = self.end_of_e {
            cut.truncate(place + 1);
            cut[place].bytes.truncate(end as usize);
        }
        cut
    }

    /// What the original makes of its files. Where it refuses with the fault that stands behind e, that number, and what it makes of the
    /// files cut there: it must have delivered the same before.
    pub fn open(&self, folder: &Folder, files: &[SegmentFile], soft_size: u64, (s, e): (u64, u64)) -> (Opened, Option<u32>) {
        let opened = original_log::open(folder, soft_size, s, e);
        let number = match opened.log {
            Err(number) if self.faulty_behind_e() && self.tested == Some(number) => number,
            _ => return (opened, None),
        };
        folder.write_all(&self.cut(files));
        let again = original_log::open(folder, soft_size, s, e);
        if again.delivered == opened.delivered {
            (again, Some(number))
        } else {
            (opened, None)
        }
    }
}

/// How many keys a delta's two counts claim, as far as they can be read.
pub fn keys_claimed(input: &[u8]) -> u64 {
    let count = |at: usize| match input.get(at..at.saturating_add(4)) {
        Some(bytes) => u32::from_le_bytes([bytes[0], bytes[1], bytes[2], bytes[3]]) as u64,
        None => 0,
    };
    let erased = count(0);
    erased + count(4 + 32 * erased as usize)
}
