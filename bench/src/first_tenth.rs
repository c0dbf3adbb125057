//! Recovery of the first tenth of an archive beside the recovery of all of it: 64 MiB in 16 images. Nothing behind e is looked at, so the
//! tenth should take a tenth of the time or less. The original deletes what stands behind e: it opens a fresh copy each time.

use crate::calls::{self, Shape};
use crate::ffi::Image;
use crate::limit;
use crate::logs::{grow, Folder};
use crate::timing::{compare, per_call, ratios};
use std::hint::black_box;

const IMAGES: u64 = 16;
const CAPACITY: u64 = 4 << 20;
/// Payloads that fill 1 page, 16 pages and 256 pages with their headers.
const PAYLOADS: [usize; 3] = [4096 - 12, 65_536 - 12, 1_048_576 - 12];

pub fn recover(rounds: usize) {
    for payload in PAYLOADS {
        archive(rounds, payload);
    }
}

/// Both ranges of one archive, and the line that divides them.
fn archive(rounds: usize, payload: usize) {
    let shape = Shape { k: IMAGES, c: CAPACITY, m: CAPACITY };
    let records = IMAGES * CAPACITY / limit::padded(12 + payload) as u64;
    let mut area = vec![0u8; (IMAGES * CAPACITY) as usize];
    let log = grow(shape, &mut area, records as usize, &vec![7u8; payload]);
    let rows: Vec<Image> = log.segments[..log.count as usize].iter().map(|g| Image { id: g.id, slot: g.slot, size: g.size }).collect();
    let plain = area.clone();
    let whole = Folder::new("whole");
    let mut original = whole.open(CAPACITY, 0, 0, |_, _| Ok(()));
    for _ in 0..records {
        original.append(&vec![7u8; payload]).expect("an append");
    }
    drop(original);
    let mut index = vec![0u64; 4 * records as usize];
    let mut times = Vec::new();
    for last in [records, records / 10] {
        let calls = (65_536 / last).clamp(4, 200) as u32;
        let ours = || per_call(calls, || assert_eq!(black_box(calls::recover(shape, &mut area, &rows, 1, last, &mut index)).refusal, 0));
        let bare = || per_call(calls, || assert_eq!(black_box(limit::walk_to(black_box(&plain), CAPACITY as usize, last)), last));
        let theirs = || {
            let copy = whole.copied("copy");
            per_call(1, || {
                drop(copy.open(CAPACITY, 1, last, |id, bytes| {
                    black_box((id, bytes.len()));
                    Ok(())
                }))
            })
        };
        let case = if last == records { format!("all {records} records") } else { format!("first {last} of {records}") };
        times.push(compare("recover 64 MiB", &case, rounds, vec![Some(Box::new(ours)), Some(Box::new(bare)), Some(Box::new(theirs))]));
    }
    ratios("first tenth / all", &format!("of {records} records"), &times[1], &times[0]);
}
