//! Where a prune recent cuts, foretold for both sides from the original's alone: its rows, its files, and where the newest record of each
//! stood before any damage. The original searches a file from the front; ours goes by the newest record's header where that one is asked
//! for (document 02's Ask 8). Nothing is taken of our log or of the model.

use crate::log_cases::{id_at, length_at};
use crate::original_log::{Folder, OriginalLog};

const PAGE: u64 = 4096;
const HEADER: u64 = 12;
const LONGEST_PAYLOAD: u64 = 1 << 30;

/// A record in a file: where its header stands, where its payload ends, and where its padding does.
#[derive(Clone, Copy, PartialEq, Debug)]
pub struct Place {
    pub at: u64,
    pub payload_end: u64,
    pub end: u64,
}

/// The id and the place of the record that begins here; where there is none, what the original's reader says of it.
fn record_at(bytes: &[u8], at: u64) -> Result<(u64, Place), u32> {
    let size = bytes.len() as u64;
    if at >= size {
        return Err(10);
    }
    if size - at < HEADER {
        return Err(17);
    }
    let length = length_at(bytes, at as usize);
    if length > LONGEST_PAYLOAD {
        return Err(18);
    }
    let payload_end = at + HEADER + length;
    Ok((id_at(bytes, at as usize), Place { at, payload_end, end: payload_end.div_ceil(PAGE) * PAGE }))
}

/// The original's search from the front: the first record with this id, be its payload there or not.
pub fn search(bytes: &[u8], id: u64) -> Result<Place, u32> {
    let mut at = 0;
    loop {
        let (found, place) = record_at(bytes, at)?;
        if found == id {
            return Ok(place);
        }
        at = place.end;
    }
}

/// Where the record with this id begins in an undamaged file.
pub fn newest_at(bytes: &[u8], max: u64) -> Option<u64> {
    search(bytes, max).ok().map(|place| place.at)
}

/// A segment: its row, where its newest record begins, and its bytes.
#[derive(Clone, PartialEq)]
pub struct Held {
    pub id: u32,
    pub min: u64,
    pub max: u64,
    pub newest_at: Option<u64>,
    pub bytes: Vec<u8>,
}

/// What a prune recent comes to.
#[derive(Debug)]
pub struct Cut {
    /// The place of the segment that is cut.
    segment: usize,
    pub in_head: bool,
    /// Where its newest record begins, where that one is asked for.
    pub newest_at: Option<u64>,
    /// None: 10.
    pub ours: Option<Place>,
    pub originals: Result<Place, u32>,
    /// The original's cut lengthens the file beyond what it holds of the payload.
    pub lengthens: bool,
}

/// The original's log before a prune recent.
pub struct Before {
    pub range: (u64, u64),
    segments: Vec<Held>,
}

impl Before {
    pub fn of(log: &OriginalLog, folder: &Folder) -> Before {
        let held = |(id, min, max): (u32, u64, u64)| {
            let bytes = folder.read(id).unwrap_or_default();
            Held { id, min, max, newest_at: newest_at(&bytes, max), bytes }
        };
        Before { range: log.live_range(), segments: log.segments().into_iter().map(held).collect() }
    }

    /// A file as it is damaged now.
    pub fn alter(&mut self, place: usize, bytes: Vec<u8>) {
        self.segments[place].bytes = bytes;
    }

    /// None where nothing is looked for: argument 0, and a log without segments.
    pub fn cut(&self, new_end: u64) -> Option<Cut> {
        if new_end == 0 || self.segments.is_empty() {
            return None;
        }
        let segment = self.segments.iter().rposition(|held| held.min <= new_end).unwrap_or(0);
        let Held { max, bytes, .. } = &self.segments[segment];
        let size = bytes.len() as u64;
        let originals = search(bytes, new_end);
        let newest_at = self.segments[segment].newest_at.filter(|_| *max == new_end);
        let found = match newest_at {
            Some(at) => record_at(bytes, at).ok().filter(|(id, _)| *id == new_end).map(|(_, place)| place),
            None => originals.ok(),
        };
        Some(Cut {
            segment,
            in_head: segment + 1 == self.segments.len(),
            newest_at,
            ours: found.filter(|place| place.payload_end <= size),
            originals,
            lengthens: originals.map_or(false, |place| place.payload_end > size),
        })
    }

    /// The segments that our cut must leave; none where it must be refused.
    pub fn left(&self, cut: &Cut, new_end: u64) -> Option<Vec<Held>> {
        let place = cut.ours?;
        let mut left = self.segments[..=cut.segment].to_vec();
        let head = &mut left[cut.segment];
        (head.max, head.newest_at) = (new_end, Some(place.at));
        head.bytes.resize(place.end as usize, 0);
        Some(left)
    }
}
