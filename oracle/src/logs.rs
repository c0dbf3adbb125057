//! Logs: whole histories of appends, prunes and recoveries, the original on a folder of files, ours on an area in memory.
//! Compared after each call: answers, live range, segments, sizes, every byte of each segment, and what must not have changed.

use crate::calls;
use crate::causes;
use crate::cuts::newest_at;
use crate::departures::*;
use crate::ffi::{self, Log, Segment};
use crate::lent::Lent;
use crate::log_cases::{payload_length, record_id, setting, small_length, SegmentFile, Setting};
use crate::log_model::{self as model, listed, Refusal};
use crate::original_log::{self, Folder, OriginalLog, FILE_MISSING, NO_SEGMENT_NAME, PREFIX};
use crate::rng::Rng;
use crate::table::Table;

pub fn run(size: u64, seed: u64) -> Table {
    let mut table = Table::new(String::new());
    let mut folders = [Folder::new("a"), Folder::new("b")];
    let mut histories = 0;
    while table.cases < size {
        histories += 1;
        History::play(&mut table, &mut folders, (seed, histories));
    }
    table.title = format!("logs, seed {}, {} histories", seed, histories);
    table
}

/// What was done, printed where a history differs.
#[allow(dead_code)]
#[derive(Debug)]
pub enum Step {
    Append { length: usize },
    PruneOldest(u64),
    PruneRecent(u64),
    Altered { segment: u32, size: usize },
    Recover { how: &'static str, s: u64, e: u64, images: Vec<ffi::Image>, index_words: usize },
    Reopen,
    LogValue,
    Row([u64; 4]),
    Names,
}

/// Where a step leaves the two sides.
pub enum After {
    Together,
    /// The original went where ours refuses to go: it is opened again from our images.
    Apart,
    Over,
}

pub struct History<'a> {
    pub table: &'a mut Table,
    /// The original's folder, and a second one to try recoveries in.
    pub folders: &'a mut [Folder; 2],
    pub rng: Rng,
    seed: (u64, u64),
    pub steps: Vec<Step>,
    pub log: Log,
    pub area: Lent<u8>,
    /// The area as document 01 has it.
    pub model_area: Vec<u8>,
    pub original: OriginalLog,
    /// The segment whose bytes are damaged now.
    pub altered: Option<u32>,
}

impl<'a> History<'a> {
    fn play(table: &'a mut Table, folders: &'a mut [Folder; 2], seed: (u64, u64)) {
        let mut rng = Rng::new(seed.0.wrapping_mul(0xD1B5_4A32_D192_ED03) ^ seed.1);
        let Setting { shape, first_appends } = setting(&mut rng);
        let model_area = vec![rng.next() as u8; (shape.k * shape.c) as usize];
        let mut area = Lent::new(&model_area, 0xA5);
        let log = calls::new(shape, area.content_mut()).log;
        folders[0].clear();
        let opened = original_log::open(&folders[0], shape.m, 0, 0);
        let original = opened.log.unwrap_or_else(|number| panic!("the original does not open an empty folder: {}", number));
        let mut history = History { table, folders, rng, seed, steps: Vec::new(), log, area, model_area, original, altered: None };
        if log != model::empty_log(shape) {
            history.differs("a new log is not the empty one".to_string());
            return;
        }
        let steps = history.rng.range(3, 20);
        for number in 0..first_appends + steps {
            history.table.cases += 1;
            let after = match number {
                number if number < first_appends => history.small_append(),
                number if number == first_appends && number > 0 => history.recover_whole(),
                _ => history.step(),
            };
            let after = match after {
                After::Apart => history.reopen(),
                after => after,
            };
            if let After::Over = after {
                return;
            }
        }
    }

    fn step(&mut self) -> After {
        match self.rng.below(100) {
            0..=38 => self.append(),
            39..=42 => self.prune_recent_around_the_newest(),
            43..=45 => self.any_log_value(),
            46..=50 => self.recover_around_e(),
            51..=58 => self.prune_oldest(),
            59..=68 => self.prune_recent(),
            69..=71 => self.prune_recent_over_altered_bytes(),
            72..=77 => self.recover_in_place(),
            78..=81 => self.recover_crossed(),
            82..=94 => self.recover_damaged(),
            95 => self.any_shape(),
            96..=98 => self.any_row(),
            _ => self.odd_names(),
        }
    }

    pub fn differs(&mut self, what: String) -> After {
        let (seed, steps, log) = (self.seed, &self.steps, &self.log);
        self.table.differs(steps.len(), || {
            let shape = model::shape_of(log);
            format!("  history {} of seed {}, {:?}: {:?}\n  log {:?}\n  {}", seed.1, seed.0, shape, steps, listed(log), what)
        });
        After::Over
    }

    pub fn alike(&mut self, class: &str) -> After {
        match self.state_differs() {
            Some(what) => self.differs(what),
            None => {
                self.table.alike(class);
                After::Together
            }
        }
    }

    pub fn departs(&mut self, class: &str, departure: Option<&'static Departure>, after: After) -> After {
        match departure {
            Some(departure) => self.table.departs(class, departure),
            None => return self.differs(format!("no departure explains: {}", class)),
        }
        after
    }

    /// What differs between the original's log with its files and our log with its slots.
    pub fn state_differs(&self) -> Option<String> {
        let ours: Vec<_> = listed(&self.log).iter().map(|segment| (segment.id, segment.min, segment.max)).collect();
        let originals = self.original.segments();
        if ours != originals {
            return Some(format!("the original's segments (id, min, max) are {:?}", originals));
        }
        let range = (self.log.start_live, self.log.end_live);
        if range != self.original.live_range() {
            return Some(format!("live {:?}, the original {:?}", range, self.original.live_range()));
        }
        if self.original.head_size() != listed(&self.log).last().map(|head| head.size) {
            return Some(format!("the original's head has size {:?}", self.original.head_size()));
        }
        if self.folders[0].file_count() != ours.len() {
            return Some("the original's folder holds other files too".to_string());
        }
        listed(&self.log).iter().find_map(|segment| self.segment_differs(segment))
    }

    /// What differs between the original's file of a segment and its slot, or in where its newest record begins.
    fn segment_differs(&self, segment: &Segment) -> Option<String> {
        let bytes = self.folders[0].read(segment.id).unwrap_or_default();
        if bytes != self.our_bytes(segment) {
            return Some(format!("the original's segment {} has other bytes", segment.id));
        }
        let newest = newest_at(&bytes, segment.max);
        // Of a damaged file that was not cut just now, its headers tell nothing.
        let untold = self.altered == Some(segment.id) && segment.max != self.log.end_live;
        if newest != Some(segment.newest_at) && !untold {
            return Some(format!("in the original's segment {} record {} stands at {:?}", segment.id, segment.max, newest));
        }
        None
    }

    pub fn our_bytes(&self, segment: &Segment) -> &[u8] {
        let at = segment.slot as usize * self.log.capacity as usize;
        &self.area.content()[at..at + segment.size as usize]
    }

    /// Our segments as files.
    pub fn our_files(&self) -> Vec<SegmentFile> {
        let file = |segment: &Segment| SegmentFile { id: segment.id, bytes: self.our_bytes(segment).to_vec() };
        listed(&self.log).iter().map(file).collect()
    }

    /// Takes our answer where it is document 01's, with every lent byte; gives back what differs else.
    pub fn take(&mut self, refusal: u32, log: Log, expected: &Result<Log, Refusal>) -> Option<String> {
        let expected = match expected {
            Ok(next) => (0, *next),
            Err(refusal) => (refusal.number, self.log),
        };
        if (refusal, log) != expected {
            return Some(format!("ours {} {:?}, document 01 {} {:?}", refusal, listed(&log), expected.0, listed(&expected.1)));
        }
        if self.area.content() != &self.model_area[..] || !self.area.guards_intact() {
            return Some("our area is not what document 01 has".to_string());
        }
        self.log = log;
        None
    }

    fn append(&mut self) -> After {
        if self.rng.once_in(400) {
            // It is not touched by either side: these zeros take no memory.
            let huge = Lent::zeros((1 << 30) + self.rng.below(2) as usize, 0x5A);
            return self.append_lent(&huge);
        }
        let length = payload_length(&mut self.rng, self.log.capacity);
        self.append_of(length)
    }

    /// One of the appends that a history may begin with.
    fn small_append(&mut self) -> After {
        let length = small_length(&mut self.rng);
        self.append_of(length)
    }

    fn append_of(&mut self, length: u64) -> After {
        let content = self.rng.bytes(length as usize);
        let payload = Lent::new(&content, 0x5A);
        match self.append_lent(&payload) {
            After::Over => After::Over,
            _ if !payload.unchanged(&content) => self.differs("append changed its payload".to_string()),
            after => after,
        }
    }

    fn append_lent(&mut self, payload: &Lent<u8>) -> After {
        let length = payload.content().len();
        self.steps.push(Step::Append { length });
        let before = self.log;
        let expected = model::append(&self.log, &mut self.model_area, payload.content());
        let answer = calls::append(&self.log, self.area.content_mut(), payload.content());
        if let Some(what) = self.take(answer.refusal, answer.log, &expected) {
            return self.differs(what);
        }
        if (answer.id, answer.reserved) != (expected.map_or(0, |next| next.end_live), 0) || !payload.guards_intact() {
            return self.differs(format!("append answers id {}", answer.id));
        }
        let shape = model::shape_of(&before);
        if length == 1 << 30 {
            let caused = causes::of_append_to_come(answer.refusal, &self.original, shape, model::padded(12 + length as u64));
            let class = format!("append: {}, rust not run: a record of 1 GiB", answer.refusal);
            return self.departs(&class, Some(&MEMORY).filter(|_| caused), After::Together);
        }
        let would_be = before.end_live.wrapping_add(1);
        match (expected, self.original.append(payload.content())) {
            (Ok(_), Ok(id)) if id == answer.id && self.log.count > before.count => self.alike("append: accepted, a new segment"),
            (Ok(_), Ok(id)) if id == answer.id => self.alike("append: accepted, to the head"),
            (Err(Refusal { number, departure: None }), Err(originals)) if number == originals => self.alike(&format!("append: {}", number)),
            (Err(Refusal { number, departure }), Ok(id)) if id == would_be => {
                let departure = departure.filter(|_| causes::of_append(number, &self.original, shape));
                self.departs(&format!("append: {}, the Rust accepts", number), departure, After::Apart)
            }
            (_, originals) => self.differs(format!("append: ours {}, the original {:?}", answer.refusal, originals)),
        }
    }

    pub fn some_id(&mut self) -> u64 {
        let borders: Vec<u64> = listed(&self.log).iter().flat_map(|segment| [segment.min, segment.max]).collect();
        record_id(&mut self.rng, self.log.start_live, self.log.end_live, &borders)
    }

    fn prune_oldest(&mut self) -> After {
        let new_start = self.some_id();
        self.steps.push(Step::PruneOldest(new_start));
        let expected = model::prune_oldest(&self.log, &self.model_area, new_start);
        let answer = calls::prune_oldest(&self.log, self.area.content_mut(), new_start);
        if let Some(what) = self.take(answer.refusal | answer.reserved, answer.log, &expected) {
            return self.differs(what);
        }
        match (expected, self.original.prune_oldest(new_start)) {
            (Ok(_), Ok(())) => self.alike("prune oldest: accepted"),
            (Err(Refusal { number, departure }), Err(originals)) if number == originals => match self.state_differs() {
                Some(what) => self.differs(what),
                None => self.departs(&format!("prune oldest: {}, the Rust panics", number), departure, After::Together),
            },
            (_, originals) => self.differs(format!("prune oldest: ours {}, the original {:?}", answer.refusal, originals)),
        }
    }

    /// The original opens our images.
    fn reopen(&mut self) -> After {
        self.table.cases += 1;
        self.steps.push(Step::Reopen);
        let (s, e) = (self.log.start_live, self.log.end_live);
        self.folders[0].write_all(&self.our_files());
        match original_log::open(&self.folders[0], self.log.soft_size, s, e).log {
            Ok(log) => {
                self.original = log;
                self.alike("reopen: our images, opened by the Rust")
            }
            Err(number) => self.differs(format!("the original does not open our images: {}", number)),
        }
    }

    /// File names that the original stumbles over. Ours is given rows; the plus sign's name, which its parse is asked for, it refuses.
    fn odd_names(&mut self) -> After {
        self.steps.push(Step::Names);
        let files = self.our_files();
        let (s, e) = (self.log.start_live, self.log.end_live);
        self.folders[1].clear();
        files.iter().skip(1).for_each(|file| self.folders[1].write(file.id, &file.bytes));
        match files.first() {
            Some(first) if files.len() > 1 && first.id < 1_000_000_000 && self.rng.once_in(2) => {
                let name = format!("{}.+{:09}.log", PREFIX, first.id);
                self.folders[1].write_named(&name, &first.bytes);
                let log = original_log::open(&self.folders[1], self.log.soft_size, s, e).log;
                let pruned = log.map(|mut log| (log.prune_oldest(e), log.live_range()));
                let ours = calls::name_parse(PREFIX.as_bytes(), name.as_bytes()).refusal;
                match pruned {
                    Ok((Err(FILE_MISSING), range)) if range == (e, e) && ours == 35 => {
                        let class = "a plus sign in a name: the Rust opens it and cannot prune it, ours refuses the name";
                        self.departs(class, Some(&PLUS_FILE), After::Together)
                    }
                    pruned => self.differs(format!("a plus sign in a name: the original {:?}, ours {}", pruned, ours)),
                }
            }
            _ => {
                self.folders[1].write_named(&format!("{}.notes", PREFIX), b"");
                match original_log::open(&self.folders[1], self.log.soft_size, s, e).log {
                    Err(NO_SEGMENT_NAME) => {
                        self.departs("a name that begins with the prefix: the Rust stops", Some(&STRAY_NAME), After::Together)
                    }
                    opened => self.differs(format!("a name that begins with the prefix: the original {:?}", opened.err())),
                }
            }
        }
    }
}
