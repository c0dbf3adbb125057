//! Append and recovery.

use crate::calls::{self, Shape};
use crate::ffi::{Image, Log};
use crate::limit;
use crate::original::seglog::{self, RecordId, SegmentedLog};
use crate::timing::{compare, per_call};
use std::fs::{self, File};
use std::hint::black_box;
use std::path::PathBuf;
use std::sync::Arc;

const PREFIX: &str = "rollback";

/// A folder of the original's on a memory-backed file system.
pub struct Folder(PathBuf);

impl Folder {
    pub fn new(name: &str) -> Folder {
        let path = PathBuf::from("/dev/shm").join(format!("iflughan-bench-{}-{}", std::process::id(), name));
        fs::create_dir_all(&path).expect("a memory-backed folder");
        Folder(path)
    }

    pub fn open(&self, soft_size: u64, s: u64, e: u64, each: impl FnMut(RecordId, &[u8]) -> anyhow::Result<()>) -> SegmentedLog {
        let folder = Arc::new(File::open(&self.0).expect("the folder"));
        seglog::open(self.0.clone(), folder, PREFIX.into(), soft_size, s.into(), e.into(), each).expect("the original opens")
    }

    /// Another folder with the same files.
    pub fn copied(&self, name: &str) -> Folder {
        let copy = Folder::new(name);
        for file in fs::read_dir(&self.0).expect("the folder").map(|entry| entry.expect("a file").path()) {
            fs::copy(&file, copy.0.join(file.file_name().expect("a name"))).expect("a copy");
        }
        copy
    }
}

impl Drop for Folder {
    fn drop(&mut self) {
        let _ = fs::remove_dir_all(&self.0);
    }
}

pub fn grow(shape: Shape, area: &mut [u8], records: usize, payload: &[u8]) -> Log {
    let mut log = calls::new(shape, area).log;
    for _ in 0..records {
        let appended = calls::append(&log, area, payload);
        assert_eq!(appended.refusal, 0);
        log = appended.log;
    }
    log
}

/// Payloads of several sizes, one behind the other, with one segment listed and with 40 of 64. Each round starts from the same log: it is a value. The original
/// cannot be set back: its log is made anew in each round.
pub fn append(rounds: usize) {
    for listed in [1usize, 40] {
        for n in [0usize, 100, 4084, 4085, 4096, 1 << 20] {
            let capacity = 32 << 20;
            let shape = Shape { k: if listed == 1 { 1 } else { 64 }, c: capacity, m: if listed == 1 { capacity } else { 0 } };
            let mut area = vec![0u8; (shape.k * shape.c) as usize];
            let mut start = grow(shape, &mut area, listed, b"");
            start.soft_size = capacity;
            let payload = vec![7u8; n];
            let room = limit::padded(12 + n);
            let calls = if n > 100_000 { 20 } else { 500 };
            let mut plain = vec![0u8; capacity as usize];
            let folder = Folder::new("append");
            let ours = || {
                let mut log = start;
                per_call(calls, || {
                    let appended = calls::append(&log, &mut area, black_box(&payload));
                    assert_eq!(appended.refusal, 0);
                    log = appended.log;
                })
            };
            let bare = || {
                let mut at = 4096;
                per_call(calls, || {
                    limit::write_record(black_box(&mut plain), at, 2, black_box(&payload));
                    at += room;
                })
            };
            let theirs = || {
                let mut log = folder.open(1 << 40, 0, 0, |_, _| Ok(()));
                for _ in 0..listed {
                    log.append(b"").expect("an append");
                }
                let time = per_call(calls, || {
                    log.append(black_box(&payload)).expect("an append");
                });
                log.prune_oldest(RecordId::nil()).expect("a prune to nothing");
                time
            };
            let case = format!("{} bytes, K = {}", n, shape.k);
            compare("append", &case, rounds, vec![Some(Box::new(ours)), Some(Box::new(bare)), Some(Box::new(theirs))]);
        }
    }
}

/// Rows only: 256 one-page records of 100 bytes in each image. The original also copies each payload and calls back with it.
pub fn recover(rounds: usize) {
    let records = 256usize;
    let capacity = (records * 4096) as u64;
    for k in [1usize, 8, 64] {
        let shape = Shape { k: k as u64, c: capacity, m: capacity };
        let mut area = vec![0u8; k * capacity as usize];
        let payload = [7u8; 100];
        let log = grow(shape, &mut area, k * records, &payload);
        let rows: Vec<Image> = log.segments[..k].iter().map(|g| Image { id: g.id, slot: g.slot, size: g.size }).collect();
        let last = (k * records) as u64;
        let mut index = vec![0u64; 4 * k * records];
        let plain = area.clone();
        let folder = Folder::new("recover");
        let mut original = folder.open(capacity, 0, 0, |_, _| Ok(()));
        for _ in 0..k * records {
            original.append(&payload).expect("an append");
        }
        drop(original);
        let calls = (64 / k).max(1) as u32 * 4;
        let ours = || per_call(calls, || assert_eq!(black_box(calls::recover(shape, &mut area, &rows, 1, last, &mut index)).refusal, 0));
        let bare = || {
            per_call(calls, || {
                for slot in 0..k {
                    black_box(limit::walk(black_box(&plain[slot * capacity as usize..(slot + 1) * capacity as usize])));
                }
            })
        };
        let theirs = || {
            per_call(2, || {
                drop(folder.open(capacity, 1, last, |id, bytes| {
                    black_box((id, bytes.len()));
                    Ok(())
                }))
            })
        };
        compare(
            "recover",
            &format!("{} images of {} records", k, records),
            rounds,
            vec![Some(Box::new(ours)), Some(Box::new(bare)), Some(Box::new(theirs))],
        );
    }
}
