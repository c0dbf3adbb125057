//! Prune recent in a history: over the log as it stands, and over damage that both sides are given alike, which is taken back afterwards.
//! Compared: each side's answer with what the original's files foretell (cuts.rs), and our log and its bytes with what must be left.

use crate::calls;
use crate::causes;
use crate::cut_cases::{around_the_newest, Altered};
use crate::cuts::{Before, Cut, Held};
use crate::departures::*;
use crate::ffi::Segment;
use crate::log_cases::damage_header;
use crate::log_model::{self as model, listed, Refusal};
use crate::logs::{After, History, Step};

impl History<'_> {
    pub fn prune_recent(&mut self) -> After {
        let new_end = self.some_id();
        let before = Before::of(&self.original, &self.folders[0]);
        self.prune_recent_to(new_end, &before)
    }

    /// One header of any segment damaged.
    pub fn prune_recent_over_altered_bytes(&mut self) -> After {
        let files = self.our_files();
        if files.is_empty() {
            return self.prune_recent();
        }
        let place = self.rng.below(files.len() as u64) as usize;
        let mut bytes = files[place].bytes.clone();
        damage_header(&mut self.rng, &mut bytes);
        let new_end = self.some_id();
        self.prune_recent_altered(Altered { place, bytes, new_end })
    }

    /// A segment altered around its newest record, and a cut there.
    pub fn prune_recent_around_the_newest(&mut self) -> After {
        let files = self.our_files();
        if files.is_empty() {
            return self.prune_recent();
        }
        let altered = around_the_newest(&mut self.rng, &self.log, &files, true);
        self.prune_recent_altered(altered)
    }

    /// Lays the bytes over the segment's image, its size with them, and over the original's file; prunes; and takes it all back.
    fn prune_recent_altered(&mut self, Altered { place, bytes, new_end }: Altered) -> After {
        let mut before = Before::of(&self.original, &self.folders[0]);
        let (log, model_area) = (self.log, self.model_area.clone());
        let segment = &mut self.log.segments[place];
        segment.size = bytes.len() as u64;
        let (id, at) = (segment.id, segment.slot as usize * log.capacity as usize);
        self.area.content_mut()[at..at + bytes.len()].copy_from_slice(&bytes);
        self.model_area[at..at + bytes.len()].copy_from_slice(&bytes);
        self.folders[0].write(id, &bytes);
        self.steps.push(Step::Altered { segment: id, size: bytes.len() });
        before.alter(place, bytes);
        self.altered = Some(id);
        let after = self.prune_recent_to(new_end, &before);
        self.altered = None;
        (self.log, self.model_area) = (log, model_area);
        self.area.content_mut().copy_from_slice(&self.model_area);
        match after {
            After::Over => After::Over,
            _ => After::Apart,
        }
    }

    fn prune_recent_to(&mut self, new_end: u64, before: &Before) -> After {
        self.steps.push(Step::PruneRecent(new_end));
        let expected = model::prune_recent(&self.log, &mut self.model_area, new_end);
        let answer = calls::prune_recent(&self.log, self.area.content_mut(), new_end);
        if let Some(what) = self.take(answer.refusal | answer.reserved, answer.log, &expected) {
            return self.differs(what);
        }
        let originals = self.original.prune_recent(new_end);
        let cut = match before.cut(new_end) {
            Some(cut) => cut,
            None if expected.is_ok() && originals.is_ok() => return self.alike("prune recent: accepted, nothing looked for"),
            None => return self.differs(format!("prune recent: ours {}, the original {:?}", answer.refusal, originals)),
        };
        // It fails with its writer dropped, or its writer stands at the cut.
        let foretold = (cut.originals.map(|_| ()), cut.originals.ok().map(|place| place.end));
        if (originals, self.original.head_size()) != foretold {
            return self.differs(format!("prune recent: the original {:?}, its files foretell {:?}", originals, cut));
        }
        match expected {
            Ok(_) => self.cut_accepted(before, &cut, new_end),
            Err(refusal) => self.cut_refused(before, &cut, new_end, refusal),
        }
    }

    /// Ours cuts: as the original does, or at the newest record's header, which the original's search does not reach.
    fn cut_accepted(&mut self, before: &Before, cut: &Cut, new_end: u64) -> After {
        let range = (self.log.start_live, self.log.end_live);
        if before.left(cut, new_end) != Some(self.held()) || range != (before.range.0, new_end) {
            return self.differs(format!("prune recent: ours is not what the original's files foretell: {:?}", cut));
        }
        let place = match (cut.newest_at, cut.in_head) {
            (None, _) => "searched",
            (Some(_), true) => "the head's newest",
            (Some(_), false) => "an earlier segment's newest",
        };
        let row = cut.newest_at.map(|_| &CUT_AT_NEWEST);
        match cut.originals {
            Ok(originals) if Some(originals) == cut.ours => self.alike(&format!("prune recent: accepted, {}", place)),
            Ok(_) => self.departs(&format!("prune recent: accepted, {}, the Rust cuts at another", place), row, After::Apart),
            Err(number) => self.departs(&format!("prune recent: accepted, {}, the Rust fails with {}", place, number), row, After::Apart),
        }
    }

    /// Ours refuses: 8 and 9 by the original's own live range, 10 by its files.
    fn cut_refused(&mut self, before: &Before, cut: &Cut, new_end: u64, Refusal { number, departure }: Refusal) -> After {
        if number == 10 && cut.ours.is_some() {
            return self.differs(format!("prune recent: ours 10, the original's files foretell {:?}", cut));
        }
        let departure = departure.filter(|_| causes::of_prune(number, before.range, new_end));
        let refused = match number {
            10 if cut.newest_at.is_some() => "10 at the newest".to_string(),
            number => number.to_string(),
        };
        let elsewhere = cut.newest_at.is_some() && cut.originals.ok().map(|place| place.at) != cut.newest_at;
        let (originals, row) = match (number, cut.originals) {
            (_, Err(originals)) => (format!("fails with {}, its writer dropped", originals), departure),
            (8 | 9, Ok(_)) => ("accepts".to_string(), departure),
            (10, Ok(_)) if elsewhere => ("cuts at another".to_string(), Some(&CUT_AT_NEWEST)),
            (10, Ok(_)) if cut.lengthens => ("lengthens the file".to_string(), Some(&CUT_LENGTHENS)),
            _ => return self.differs(format!("prune recent: ours {}, the original accepts", number)),
        };
        self.departs(&format!("prune recent: {}, the Rust {}", refused, originals), row, After::Apart)
    }

    /// Our segments, as cuts.rs has them.
    fn held(&self) -> Vec<Held> {
        let held = |segment: &Segment| {
            let Segment { id, min, max, newest_at, .. } = *segment;
            Held { id, min, max, newest_at: Some(newest_at), bytes: self.our_bytes(segment).to_vec() }
        };
        listed(&self.log).iter().map(held).collect()
    }
}
