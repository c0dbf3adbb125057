//! Histories for the recorded sample: the original's log on a folder, its answer and its state after each call, a line each.
//! The model of document 01 plays along, to name departures and to bring the original back where it went on alone. A history ends with a
//! prune over altered bytes (record_cuts.rs).

use crate::calls::Shape;
use crate::cuts::newest_at;
use crate::ffi::{Image, Log, Segment};
use crate::log_cases::{payload_length, range, record_id, shape, SegmentFile};
use crate::log_model::{self as model, listed, Refusal};
use crate::original_log::{self, Folder, Opened, OriginalLog};
use crate::rng::Rng;

const HISTORIES: u64 = 100;
/// After how many histories one meets a payload above 2^30 bytes.
const TOO_LONG_EVERY: u64 = 20;
/// The largest area of a recorded history.
const LARGEST_AREA: u64 = 1 << 16;

pub fn lines(seed: u64) -> Vec<String> {
    let folder = Folder::new("record");
    let mut rng = Rng::new(seed);
    let mut lines = Vec::new();
    for history in 0..HISTORIES {
        let mut shape = shape(&mut rng);
        shape.k = shape.k.min(LARGEST_AREA / shape.c);
        lines.push(format!("L {:08x} {:08x} {:08x}", shape.k, shape.c, shape.m));
        let mut recorder = Recorder::new(&folder, shape);
        let calls = rng.range(6, 24);
        recorder.play(&mut rng, calls, &mut lines);
        if history % TOO_LONG_EVERY == 0 {
            lines.push(recorder.append_too_long());
        }
        recorder.prune_over_altered_bytes(&mut rng, &mut lines);
    }
    lines
}

/// The state of an empty log.
pub const NO_STATE: &str = "0000000000000000 0000000000000000 -";

pub struct Recorder<'a> {
    pub folder: &'a Folder,
    pub log: Log,
    pub area: Vec<u8>,
    pub original: OriginalLog,
}

impl<'a> Recorder<'a> {
    pub fn new(folder: &'a Folder, shape: Shape) -> Recorder<'a> {
        folder.clear();
        let original = original_log::open(folder, shape.m, 0, 0).log.expect("an empty folder opens");
        Recorder { folder, log: model::empty_log(shape), area: vec![0; (shape.k * shape.c) as usize], original }
    }

    /// A log that the original has opened.
    pub fn over(folder: &'a Folder, log: Log, area: Vec<u8>, original: OriginalLog) -> Recorder<'a> {
        Recorder { folder, log, area, original }
    }

    pub fn play(&mut self, rng: &mut Rng, calls: u64, lines: &mut Vec<String>) {
        for _ in 0..calls {
            let line = match rng.below(10) {
                0..=5 => self.append(rng),
                6 => self.prune_oldest(self.some_id(rng)),
                7 | 8 => self.prune_recent(self.some_id(rng)),
                _ => self.recover(rng),
            };
            lines.push(format!("{} {}", line, self.state()));
        }
    }

    pub fn play_append(&mut self, rng: &mut Rng, lines: &mut Vec<String>) {
        lines.push(format!("{} {}", self.append(rng), self.state()));
    }

    fn some_id(&self, rng: &mut Rng) -> u64 {
        let borders: Vec<u64> = listed(&self.log).iter().flat_map(|segment| [segment.min, segment.max]).collect();
        record_id(rng, self.log.start_live, self.log.end_live, &borders)
    }

    fn append(&mut self, rng: &mut Rng) -> String {
        let (length, fill) = (payload_length(rng, self.log.capacity) as usize, rng.next() as u8);
        let payload: Vec<u8> = (0..length).map(|at| fill.wrapping_add(at as u8)).collect();
        let expected = model::append(&self.log, &mut self.area, &payload);
        let answer = self.original.append(&payload);
        let departure = self.follow(expected);
        format!("A {:02} {:08x} {:02x} {:02} {:016x}", departure, length, fill, answer.err().unwrap_or(0), answer.unwrap_or(0))
    }

    /// A payload of 2^30 + 1 zeros, which the original refuses unread.
    fn append_too_long(&mut self) -> String {
        let payload = vec![0; (1 << 30) + 1];
        let answer = self.original.append(&payload);
        format!("A 00 {:08x} 00 {:02} {:016x} {}", payload.len(), answer.err().unwrap_or(0), answer.unwrap_or(0), self.state())
    }

    fn prune_oldest(&mut self, new_start: u64) -> String {
        let expected = model::prune_oldest(&self.log, &self.area, new_start);
        let answer = self.original.prune_oldest(new_start);
        format!("O {:02} {:016x} {:02}", self.follow(expected), new_start, answer.err().unwrap_or(0))
    }

    fn prune_recent(&mut self, new_end: u64) -> String {
        let expected = model::prune_recent(&self.log, &mut self.area, new_end);
        let answer = self.original.prune_recent(new_end);
        format!("R {:02} {:016x} {:02}", self.follow(expected), new_end, answer.err().unwrap_or(0))
    }

    fn recover(&mut self, rng: &mut Rng) -> String {
        let (s, e) = range(rng, (self.log.start_live, self.log.end_live));
        let row = |segment: &Segment| Image { id: segment.id, slot: segment.slot, size: segment.size };
        let images: Vec<Image> = listed(&self.log).iter().map(row).collect();
        // An index that is never short: 23 is no answer of the original.
        let mut index = vec![0; 4 * self.area.len() / 4096];
        let expected = model::recover(model::shape_of(&self.log), &mut self.area, &images, s, e, &mut index);
        let Opened { log, delivered } = original_log::open(self.folder, self.log.soft_size, s, e);
        let number = match log {
            Ok(log) => {
                self.original = log;
                0
            }
            Err(number) => number,
        };
        let digest = if number == 0 { delivered_digest(&delivered) } else { 0 };
        let departure = self.follow(expected.map(|(log, _)| log));
        if number != 0 {
            self.reopen();
        }
        format!("V {:02} {:016x} {:016x} {:02} {:016x}", departure, s, e, number, digest)
    }

    /// Takes document 01's answer; after a departure the original is opened again from what that leaves. The departure's number, or 0.
    fn follow(&mut self, expected: Result<Log, Refusal>) -> u32 {
        match expected {
            Ok(next) => self.log = next,
            Err(Refusal { number, departure: Some(_) }) => {
                self.reopen();
                return number;
            }
            Err(_) => (),
        }
        0
    }

    /// The segments of document 01's log, as files.
    pub fn files(&self) -> Vec<SegmentFile> {
        let file = |segment: &Segment| {
            let at = segment.slot as usize * self.log.capacity as usize;
            SegmentFile { id: segment.id, bytes: self.area[at..at + segment.size as usize].to_vec() }
        };
        listed(&self.log).iter().map(file).collect()
    }

    fn reopen(&mut self) {
        self.reopen_from(&self.files());
    }

    pub fn reopen_from(&mut self, files: &[SegmentFile]) {
        self.folder.write_all(files);
        let opened = original_log::open(self.folder, self.log.soft_size, self.log.start_live, self.log.end_live);
        self.original = opened.log.expect("the original opens what document 01 leaves");
    }

    /// Where the newest record of each segment begins in its file, which is not damaged.
    pub fn newest(&self) -> Vec<u64> {
        let place = |(id, _, max)| newest_at(&self.folder.read(id)?, max);
        self.original.segments().into_iter().map(|row| place(row).expect("a segment's newest record")).collect()
    }

    pub fn state(&self) -> String {
        self.state_with(&self.newest())
    }

    /// Live range; then for each segment id, size, min, max, where its newest record begins, and the digest of its file.
    pub fn state_with(&self, newest: &[u64]) -> String {
        let (start, end) = self.original.live_range();
        let mut segments = String::new();
        for ((id, min, max), newest_at) in self.original.segments().into_iter().zip(newest) {
            let bytes = self.folder.read(id).expect("a segment's file");
            let digest = digest(DIGEST_START, &bytes);
            segments += &format!("{:08x}{:08x}{:016x}{:016x}{:08x}{:016x}", id, bytes.len(), min, max, newest_at, digest);
        }
        let segments = if segments.is_empty() { "-".to_string() } else { segments };
        format!("{:016x} {:016x} {}", start, end, segments)
    }
}

/// The digest of what was delivered: each record's id and payload.
pub fn delivered_digest(delivered: &[(u64, Vec<u8>)]) -> u64 {
    delivered.iter().fold(DIGEST_START, |sum, (id, payload)| digest(digest(sum, &id.to_le_bytes()), payload))
}

const DIGEST_START: u64 = 0xCBF2_9CE4_8422_2325;

/// FNV-1a, 64 bits.
fn digest(start: u64, bytes: &[u8]) -> u64 {
    bytes.iter().fold(start, |sum, byte| (sum ^ *byte as u64).wrapping_mul(0x0000_0100_0000_01B3))
}
