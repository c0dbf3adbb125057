//! Recoveries in a history: from its own images, the other side's, damaged and made-up ones.
//! Compared: acceptance, number of the refusal, log, index rows, payloads delivered, and every lent byte and word.

use crate::calls::{self, Shape, NO_LOG};
use crate::causes::{Opening, WholeWalk};
use crate::departures::*;
use crate::ffi::{Image, Log};
use crate::lent::Lent;
use crate::log_cases::{around_e, damage, ids_shown, range, shuffle, soft_size, synthetic, SegmentFile};
use crate::log_model::{self as model, listed, Refusal};
use crate::log_values::any_shape;
use crate::logs::{After, History, Step};
use crate::original_log::Opened;

/// The original is not run on images that may make it ask for more than this.
const LARGEST_CLAIM: u64 = 1 << 20;

/// Rows that stand for no folder of files: the original is not asked.
const NO_FOLDER: &str = "no folder";

/// What a recovery is given, and which folder the original opens.
struct Given {
    how: &'static str,
    shape: Shape,
    area: Vec<u8>,
    images: Vec<Image>,
    folder: usize,
}

fn largest_claim(files: &[SegmentFile]) -> u64 {
    files.iter().map(|file| model::largest_claim(&file.bytes)).max().unwrap_or(0)
}

impl History<'_> {
    /// Both sides recover all that they have.
    pub fn recover_whole(&mut self) -> After {
        self.recover_own((self.log.start_live, self.log.end_live))
    }

    /// Both sides recover some of what they have.
    pub fn recover_in_place(&mut self) -> After {
        let range = range(&mut self.rng, (self.log.start_live, self.log.end_live));
        self.recover_own(range)
    }

    fn recover_own(&mut self, (s, e): (u64, u64)) -> After {
        let mut images: Vec<Image> = listed(&self.log).iter().map(|segment| image(segment.id, segment.slot, segment.size)).collect();
        shuffle(&mut self.rng, &mut images);
        let (shape, area) = (model::shape_of(&self.log), self.area.content().to_vec());
        self.recover(Given { how: "in place", shape, area, images, folder: 0 }, s, e)
    }

    /// Ours recovers from the original's files, the original from our images.
    pub fn recover_crossed(&mut self) -> After {
        let ours = self.our_files();
        let read = |file: &SegmentFile| SegmentFile { id: file.id, bytes: self.folders[0].read(file.id).unwrap_or_default() };
        let originals: Vec<SegmentFile> = ours.iter().map(read).collect();
        let (s, e) = range(&mut self.rng, (self.log.start_live, self.log.end_live));
        self.recover_files("crossed", &originals, &ours, s, e)
    }

    /// The images of this log, or made-up ones.
    fn some_files(&mut self) -> Vec<SegmentFile> {
        if self.log.count > 0 && self.rng.once_in(2) {
            self.our_files()
        } else {
            synthetic(&mut self.rng, model::shape_of(&self.log))
        }
    }

    /// Both recover from the same images, with a fault behind e's record or close before it.
    pub fn recover_around_e(&mut self) -> After {
        let mut files = self.some_files();
        let (s, e) = around_e(&mut self.rng, model::shape_of(&self.log), &mut files);
        self.recover_files("damaged", &files, &files, s, e)
    }

    /// Both recover from the same damaged images.
    pub fn recover_damaged(&mut self) -> After {
        let mut files = self.some_files();
        for _ in 0..self.rng.pick_number(&[0, 1, 1, 1, 1, 2, 3]) {
            damage(&mut self.rng, &mut files);
        }
        let shown = ids_shown(&files);
        let (s, e) = range(&mut self.rng, shown);
        self.recover_files("damaged", &files, &files, s, e)
    }

    /// Ours from one set of files laid into fresh slots, the original from the other in its second folder.
    fn recover_files(&mut self, how: &'static str, ours: &[SegmentFile], originals: &[SegmentFile], s: u64, e: u64) -> After {
        let mut shape = model::shape_of(&self.log);
        if self.rng.once_in(4) {
            shape.m = soft_size(&mut self.rng, shape.c);
        }
        let mut slots: Vec<u32> = (0..shape.k.max(ours.len() as u64) as u32).collect();
        shuffle(&mut self.rng, &mut slots[..shape.k as usize]);
        let mut area = vec![self.rng.next() as u8; (shape.k * shape.c) as usize];
        let mut images = Vec::new();
        for (file, slot) in ours.iter().zip(slots) {
            let at = slot as usize * shape.c as usize;
            let length = file.bytes.len().min(shape.c as usize);
            if let Some(place) = area.get_mut(at..at + length) {
                place.copy_from_slice(&file.bytes[..length]);
            }
            images.push(image(file.id, slot, file.bytes.len() as u64));
        }
        shuffle(&mut self.rng, &mut images);
        let how = if self.folders[1].write_all(originals) { how } else { NO_FOLDER };
        let mut given = Given { how, shape, area, images, folder: 1 };
        if self.rng.once_in(40) {
            self.spoil_rows(&mut given);
        }
        self.recover(given, s, e)
    }

    /// Rows that break the rules of the lent memory: 1 or 13.
    fn spoil_rows(&mut self, given: &mut Given) {
        let rng = &mut self.rng;
        given.how = NO_FOLDER;
        match (rng.below(4), given.images.last_mut()) {
            (0, Some(row)) => row.slot = rng.pick_number(&[given.shape.k, u32::MAX as u64, 0]) as u32,
            (1, Some(row)) => row.size = rng.pick_number(&[given.shape.c + 1, u64::MAX, given.shape.c]),
            (2, _) => given.images.resize(rng.range(64, 66) as usize, image(1, 0, 0)),
            _ => given.shape = any_shape(rng, given.shape),
        }
    }

    fn recover(&mut self, given: Given, s: u64, e: u64) -> After {
        let live = e.saturating_sub(s).saturating_add(1).min(400);
        let words = match self.rng.below(12) {
            0 => self.rng.below(4 * live),
            1 => 4 * live - 1,
            2 if self.rng.once_in(20) => (1 << 16) + self.rng.below(4),
            _ => 4 * live + self.rng.below(9),
        };
        let mut model_index = vec![self.rng.next(); words as usize];
        let mut index = Lent::new(&model_index, 0xA5A5_A5A5_A5A5_A5A5);
        let (mut area, mut model_area) = (Lent::new(&given.area, 0xA5), given.area.clone());
        let expected = model::recover(given.shape, &mut model_area, &given.images, s, e, &mut model_index);
        let images = Lent::new(&given.images, image(0xA5A5_A5A5, 0xA5A5_A5A5, 0xA5A5_A5A5));
        let answer = calls::recover(given.shape, area.content_mut(), images.content(), s, e, index.content_mut());
        self.steps.push(Step::Recover { how: given.how, s, e, images: given.images.clone(), index_words: words as usize });
        let (refusal, log, rows) = match &expected {
            Ok((log, rows)) => (0, *log, *rows),
            Err(refusal) => (refusal.number, NO_LOG, 0),
        };
        if (answer.refusal, answer.reserved, answer.rows, answer.log) != (refusal, 0, rows, log) {
            return self.differs(format!("recovery answers {}, document 01 {:?}", answer.refusal, expected.map(|(log, _)| log)));
        }
        if !area.unchanged(&model_area) || !index.unchanged(&model_index) || !images.unchanged(&given.images) {
            return self.differs("area, index or rows after recovery are not what document 01 has".to_string());
        }
        match expected {
            Ok(_) => self.accepted(given, log, area, index.content(), (s, e)),
            Err(refusal) => self.refused(given, refusal, (s, e), words),
        }
    }

    /// Ours accepts: so must the original, with the same log and the same payloads; where it refuses for what stands behind e, it must from
    /// the images cut there.
    fn accepted(&mut self, given: Given, log: Log, area: Lent<u8>, index: &[u64], (s, e): (u64, u64)) -> After {
        if given.how == NO_FOLDER {
            return self.departs("recover: accepted, rows that no folder gives", Some(&MEMORY), After::Together);
        }
        let mut payloads = Vec::new();
        for row in index.chunks_exact(4).take(if s == 0 { 0 } else { (e - s + 1) as usize }) {
            let row = [row[0], row[1], row[2], row[3]];
            let part = calls::payload(&log, area.content(), row);
            if calls::row_question(&log, area.content(), row) != 0 || part.refusal != 0 {
                return self.differs(format!("the row {:?} of a recovery is refused", row));
            }
            payloads.push((row[0], area.content()[part.at as usize..(part.at + part.length) as usize].to_vec()));
        }
        let folder = &self.folders[given.folder];
        let files = folder.files();
        let whole = WholeWalk::of(&files, (s, e));
        let (opened, refused_with) = whole.open(folder, &files, given.shape.m, (s, e));
        let original = match opened.log {
            Ok(log) => log,
            Err(number) => return self.differs(format!("recovery: ours accepts, the original refuses with {}", number)),
        };
        if payloads != opened.delivered {
            return self.differs("recovery: the original delivers other payloads".to_string());
        }
        if s > 0 && !(whole.allows(0) && whole.foretells(refused_with)) {
            return self.differs(format!("recovery: ours accepts, the original's files show {:?}", whole.fault));
        }
        self.folders.swap(0, given.folder);
        self.model_area = area.content().to_vec();
        self.area = area;
        self.log = log;
        self.original = original;
        match (refused_with, whole.fault) {
            _ if s == 0 => self.alike(&format!("recover: accepted, {}, range (0, 0)", given.how)),
            (None, None) => self.alike(&format!("recover: accepted, {}", given.how)),
            (None, Some(number)) => self.alike(&format!("recover: accepted, {} behind e, where the Rust has no test", number)),
            (Some(number), _) => match self.state_differs() {
                Some(what) => self.differs(what),
                None => {
                    let class = format!("recover: accepted, the Rust refuses with {} behind e", number);
                    self.departs(&class, Some(&BEHIND_E), After::Together)
                }
            },
        }
    }

    /// Ours refuses: the original refuses alike, or a departure explains what it does.
    fn refused(&mut self, given: Given, refusal: Refusal, (s, e): (u64, u64), words: u64) -> After {
        let Refusal { number, departure } = refusal;
        if [1, 13].contains(&number) {
            return self.departs(&format!("recover: {}, ours alone", number), departure, After::Together);
        }
        if given.how == NO_FOLDER {
            return self.departs(&format!("recover: {}, rows that no folder gives", number), Some(&MEMORY), After::Together);
        }
        let folder = &self.folders[given.folder];
        let files = folder.files();
        let whole = WholeWalk::of(&files, (s, e));
        if !whole.allows(number) {
            return self.differs(format!("recovery answers {}, the original's files show {:?} first", number, whole.fault));
        }
        let explained = |departure: &&Departure, delivered: &[(u64, Vec<u8>)]| {
            number == 23 || Opening { range: (s, e), files: &files, delivered }.explains(departure)
        };
        let reads_images = ![11, 14, 15].contains(&number);
        if reads_images && largest_claim(&whole.cut(&files)) > LARGEST_CLAIM {
            let class = format!("recover: {}, rust not run: claims over 1 MiB", number);
            let known = departure.map_or(true, |departure| explained(&departure, &[]));
            return self.departs(&class, Some(&CLAIMED_LENGTH).filter(|_| known), After::Together);
        }
        let (Opened { log, delivered }, refused_with) = whole.open(folder, &files, given.shape.m, (s, e));
        if reads_images && !whole.foretells(refused_with) {
            return self.differs(format!("recovery: {}, the original passes by {:?} behind e", number, whole.tested));
        }
        let deleted = folder.file_count() < files.len();
        let after = if given.folder == 0 { After::Apart } else { After::Together };
        let departure = departure.filter(|departure| explained(departure, &delivered));
        let short = log.is_ok() && words < 4 * delivered.len() as u64;
        if let Some(originals) = refused_with {
            let departs_too = departure.is_some() && log.is_ok() && (number == 21 || short);
            let class = format!("recover: {}, the Rust refuses with {} behind e", number, originals);
            return self.departs(&class, Some(&BEHIND_E).filter(|_| departs_too), after);
        }
        if number == 23 {
            return self.departs("recover: 23, the Rust accepts and delivers more", departure.filter(|_| short), after);
        }
        let originals = match log {
            Ok(_) => return self.departs(&format!("recover: {}, the Rust accepts", number), departure, after),
            Err(originals) => originals,
        };
        // A short header and a short payload have one text.
        let same = number == originals || number == 20 && originals == 17;
        if !same && deleted && departure.is_some() {
            return self.departs(&format!("recover: {}, the Rust refuses after deleting", number), Some(&DELETES_FIRST), after);
        }
        if !same || deleted {
            return self.departs(&format!("recover: {}, the Rust refuses with {}", number, originals), departure, after);
        }
        if !delivered.is_empty() {
            return self.departs(&format!("recover: {}, the Rust delivers records first", number), Some(&DELIVERS_FIRST), after);
        }
        self.table.alike(&format!("recover: {}", number));
        after
    }
}

fn image(id: u32, slot: u32, size: u64) -> Image {
    Image { id, slot, size }
}
