//! Cuts for the recorded sample, over headers that were altered in the area and in the original's file alike. As many of each class as the
//! sample has room for.

use crate::calls::Shape;
use crate::cut_cases::{around_the_newest, Altered};
use crate::cuts::newest_at;
use crate::ffi::Log;
use crate::log_cases::{damage_header, SegmentFile};
use crate::log_model::{self as model, listed};
use crate::original_log::Folder;
use crate::record_logs::Recorder;
use crate::rng::Rng;
use crate::table::hex;
use std::collections::HashMap;

const DRAWS: usize = 1_000;
const MOST: usize = 3;
const PAGE: usize = 4096;
const HEADER: usize = 12;

pub fn lines(seed: u64) -> Vec<String> {
    let folder = Folder::new("cuts");
    let mut rng = Rng::new(seed ^ 0x2E2E);
    let (mut lines, mut taken) = (Vec::new(), HashMap::new());
    for _ in 0..DRAWS {
        if let Some((class, recorded)) = draw(&mut rng, &folder) {
            let count = taken.entry(class).or_insert(0);
            if *count < MOST {
                *count += 1;
                lines.extend(recorded);
            }
        }
    }
    lines
}

/// The line's letter, ours where it departs, the original's refusal; whether the newest record is asked for, and in the head.
type Class = (char, u32, u32, bool, bool);

/// A few appends and a cut over altered headers.
fn draw(rng: &mut Rng, folder: &Folder) -> Option<(Class, Vec<String>)> {
    let c = (PAGE * 4) as u64;
    let shape = Shape { k: 2, c, m: rng.pick_number(&[c, c / 2]) };
    let mut lines = vec![format!("L {:08x} {:08x} {:08x}", shape.k, shape.c, shape.m)];
    let mut recorder = Recorder::new(folder, shape);
    for _ in 0..rng.range(2, 5) {
        recorder.play_append(rng, &mut lines);
    }
    if recorder.log.count == 0 {
        return None;
    }
    let altered = around_the_newest(rng, &recorder.log, &recorder.files(), false);
    let class = recorder.prune_altered(altered, &mut lines)?;
    Some((class, lines))
}

impl Recorder<'_> {
    /// One header of the head altered, and a cut in the head.
    pub fn prune_over_altered_bytes(&mut self, rng: &mut Rng, lines: &mut Vec<String>) {
        let (place, segment) = match listed(&self.log).iter().copied().enumerate().last() {
            Some(head) => head,
            None => return,
        };
        let mut bytes = self.files()[place].bytes.clone();
        damage_header(rng, &mut bytes);
        let new_end = rng.range(segment.min.max(self.log.start_live), segment.max);
        self.prune_altered(Altered { place, bytes, new_end }, lines);
    }

    /// A segment's headers altered, then a cut, from which neither side goes on. No line where ours accepts a newest record that is altered
    /// itself, and the original does not: there is no state of its own to hold that to.
    fn prune_altered(&mut self, altered: Altered, lines: &mut Vec<String>) -> Option<Class> {
        let Altered { place, bytes, new_end } = &altered;
        let (whole, newest, at) = (self.files(), self.newest(), self.log.segments[*place].newest_at as usize);
        let newest_whole = whole[*place].bytes[at..at + HEADER] == bytes[at..at + HEADER];
        let laid = self.lay(*place, bytes);
        let before = self.state_with(&newest);
        let cut_in = listed(&self.log).iter().rposition(|segment| segment.min <= *new_end)?;
        let (at_newest, in_head) = (self.log.segments[cut_in].max == *new_end, cut_in + 1 == self.log.count as usize);
        let expected = model::prune_recent(&self.log, &mut self.area, *new_end);
        let originals = self.original.prune_recent(*new_end).err().unwrap_or(0);
        let same = |log: &Log| originals == 0 && self.original.head_size() == listed(log).last().map(|head| head.size);
        let (letter, departure, state) = match expected {
            Err(refusal) => ('R', refusal.number, before),
            Ok(log) if same(&log) => ('R', 0, self.state_with(&self.newest_after(&newest, cut_in))),
            Ok(_) if newest_whole => ('N', 0, self.state_cut_first(&whole, &altered)),
            Ok(_) => return None,
        };
        lines.extend(laid);
        lines.push(format!("{} {:02} {:016x} {:02} {}", letter, departure, new_end, originals, state));
        Some((letter, departure, originals, at_newest, in_head))
    }

    /// Lays altered headers into the area and the original's file; their lines.
    fn lay(&mut self, place: usize, bytes: &[u8]) -> Vec<String> {
        let segment = self.log.segments[place];
        let start = segment.slot as usize * self.log.capacity as usize;
        let image = &mut self.area[start..start + bytes.len()];
        let mut lines = Vec::new();
        for (page, (was, is)) in image.chunks(PAGE).zip(bytes.chunks(PAGE)).enumerate() {
            if was != is {
                lines.push(format!("B {:08x} {:08x} {}", start + page * PAGE, HEADER, hex(&is[..HEADER])));
            }
        }
        image.copy_from_slice(bytes);
        self.folder.write(segment.id, bytes);
        lines
    }

    /// The newest places after a cut: those of the segments before it stay.
    fn newest_after(&self, newest: &[u64], cut_in: usize) -> Vec<u64> {
        let (id, _, max) = self.original.segments()[cut_in];
        let cut = self.folder.read(id).and_then(|bytes| newest_at(&bytes, max)).expect("the record that the original cut at");
        [&newest[..cut_in], &[cut]].concat()
    }

    /// The state of the original where it cuts first and the damage comes into its file then.
    fn state_cut_first(&mut self, whole: &[SegmentFile], Altered { place, bytes, new_end }: &Altered) -> String {
        self.reopen_from(whole);
        self.original.prune_recent(*new_end).expect("the original cuts an undamaged file");
        let newest = self.newest();
        let id = self.log.segments[*place].id;
        let size = self.folder.read(id).map_or(0, |file| file.len());
        self.folder.write(id, &bytes[..size]);
        self.state_with(&newest)
    }
}
