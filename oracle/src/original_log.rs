//! The original's log on a folder of files, its answers in the terms of document 01.
//! A refusal is the number that its error text or its panic stands for; a short payload (20) and a short header (17) have one text.

use crate::log_cases::SegmentFile;
use crate::original::{self, number, seglog};
use seglog::{RecordId, SegmentedLog};
use std::fs::{self, File};
use std::path::PathBuf;
use std::sync::Arc;

pub const PREFIX: &str = "rollback";
/// Stands for an error of the file system: a file that should be there is not.
pub const FILE_MISSING: u32 = 100;
/// Stands for a file name that begins with the prefix and is none of a segment.
pub const NO_SEGMENT_NAME: u32 = 101;

const TEXTS: [(&str, u32); 14] = [
    ("Record payload size is too large", 3),
    ("New live start is greater than the live end", 8),
    ("is less than the existing live start", 9),
    ("Failed to find the last live record in the head segment", 10),
    ("must both be nil or both be non-nil", 11),
    ("Segment ID is nil", 14),
    ("Gap in segment IDs", 15),
    ("failed to fill whole buffer", 17),
    ("Record payload length is too large", 18),
    ("IDs are not ordered", 19),
    ("Failed to find the first live segment", 21),
    ("Failed to find the last live segment", 22),
    ("No such file or directory", FILE_MISSING),
    ("Invalid segment filename format", NO_SEGMENT_NAME),
];

/// A folder of segment files; removed with what it holds when it is dropped.
pub struct Folder {
    path: PathBuf,
}

impl Folder {
    /// A new folder in the one that oracle/run made and removes, whatever becomes of this program.
    pub fn new(name: &str) -> Folder {
        let place = std::env::var_os("IFLUGHAN_ORACLE_FOLDER").expect("started by oracle/run");
        let path = PathBuf::from(place).join(name);
        fs::create_dir_all(&path).expect("a folder for the original's files");
        Folder { path }
    }

    fn file(&self, id: u32) -> PathBuf {
        self.path.join(original::name_format(PREFIX, id))
    }

    pub fn read(&self, id: u32) -> Option<Vec<u8>> {
        fs::read(self.file(id)).ok()
    }

    pub fn write(&self, id: u32, content: &[u8]) {
        fs::write(self.file(id), content).expect("a segment file");
    }

    /// Lays out the files; false where one finds no name of its own. A second one of an id takes the spelling with a plus sign.
    pub fn write_all(&self, files: &[SegmentFile]) -> bool {
        self.clear();
        files.iter().all(|file| {
            let with_plus = format!("{}.+{:09}.log", PREFIX, file.id);
            if !self.file(file.id).exists() {
                self.write(file.id, &file.bytes);
            } else if file.id < 1_000_000_000 && !self.path.join(&with_plus).exists() {
                self.write_named(&with_plus, &file.bytes);
            } else {
                return false;
            }
            true
        })
    }

    pub fn write_named(&self, name: &str, content: &[u8]) {
        fs::write(self.path.join(name), content).expect("a file");
    }

    /// The segment files in the order of their ids.
    pub fn files(&self) -> Vec<SegmentFile> {
        let mut files = Vec::new();
        for entry in fs::read_dir(&self.path).expect("the folder").flatten() {
            if let Ok(id) = original::name_parse(PREFIX, &entry.file_name().to_string_lossy()) {
                files.push(SegmentFile { id, bytes: fs::read(entry.path()).expect("a segment file") });
            }
        }
        files.sort_by_key(|file| file.id);
        files
    }

    pub fn file_count(&self) -> usize {
        fs::read_dir(&self.path).map_or(0, Iterator::count)
    }

    pub fn clear(&self) {
        for entry in fs::read_dir(&self.path).expect("the folder").flatten() {
            fs::remove_file(entry.path()).expect("a file to remove");
        }
    }
}

impl Drop for Folder {
    fn drop(&mut self) {
        let _ = fs::remove_dir_all(&self.path);
    }
}

pub struct Opened {
    pub log: Result<OriginalLog, u32>,
    /// What the callback was given, before a refusal too.
    pub delivered: Vec<(u64, Vec<u8>)>,
}

pub struct OriginalLog(SegmentedLog);

pub fn open(folder: &Folder, soft_size: u64, s: u64, e: u64) -> Opened {
    let mut delivered = Vec::new();
    let directory = Arc::new(File::open(&folder.path).expect("the folder"));
    let deliver = |id: RecordId, payload: &[u8]| {
        delivered.push((id.0, payload.to_vec()));
        Ok(())
    };
    let log = seglog::open(folder.path.clone(), directory, PREFIX.to_string(), soft_size, s.into(), e.into(), deliver);
    Opened { log: log.map(OriginalLog).map_err(|error| number(&error, &TEXTS)), delivered }
}

impl OriginalLog {
    pub fn append(&mut self, payload: &[u8]) -> Result<u64, u32> {
        self.0.append(payload).map(|id| id.0).map_err(|error| number(&error, &TEXTS))
    }

    pub fn prune_oldest(&mut self, new_start: u64) -> Result<(), u32> {
        let pruned = original::catching(|| self.0.prune_oldest(new_start.into()));
        let pruned = pruned.map_err(|panic| number(&panic_text(panic), &TEXTS))?;
        pruned.map_err(|error| number(&error.into(), &TEXTS))
    }

    pub fn prune_recent(&mut self, new_end: u64) -> Result<(), u32> {
        self.0.prune_recent(new_end.into()).map_err(|error| number(&error.into(), &TEXTS))
    }

    pub fn live_range(&self) -> (u64, u64) {
        let (start, end) = self.0.live_range();
        (start.0, end.0)
    }

    /// Id, min and max of each segment.
    pub fn segments(&self) -> Vec<(u32, u64, u64)> {
        self.0.segment_rows().collect()
    }

    pub fn head_size(&self) -> Option<u64> {
        self.0.head_size()
    }
}

fn panic_text(panic: Box<dyn std::any::Any + Send>) -> anyhow::Error {
    match panic.downcast::<String>() {
        Ok(text) => anyhow::anyhow!(text),
        Err(_) => anyhow::anyhow!("a panic without a text"),
    }
}
