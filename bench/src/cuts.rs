//! Prune recent of an image of n one-page records: at the last, whose header is all that is read, and at the one before it, which is looked
//! for from the image's front, as the last was too before the log held its place.

use crate::calls::{self, Shape};
use crate::limit;
use crate::logs::{grow, Folder};
use crate::original::seglog::RecordId;
use crate::timing::{compare, per_call, ratios};
use std::hint::black_box;

pub fn prune_recent(rounds: usize) {
    for n in [16, 256, 2048] {
        image(rounds, n);
    }
}

/// Both cuts of one image, and the line that divides them. The log is a value, and an original that was cut is cut again at the same place:
/// every call finds its record anew.
fn image(rounds: usize, n: u64) {
    let capacity = n * 4096;
    let shape = Shape { k: 1, c: capacity, m: capacity };
    let mut area = vec![0u8; capacity as usize];
    let log = grow(shape, &mut area, n as usize, b"abc");
    let plain = area.clone();
    let mut times = Vec::new();
    for end in [n, n - 1] {
        let folder = Folder::new("prune");
        let mut original = folder.open(1 << 40, 0, 0, |_, _| Ok(()));
        for _ in 0..n {
            original.append(b"abc").expect("an append");
        }
        let walks = (200_000 / n) as u32;
        let cuts = if end == n { 12_500 } else { walks };
        let ours = || per_call(cuts, || assert_eq!(black_box(calls::prune_recent(&log, &mut area, end)).refusal, 0));
        let bare = || per_call(walks, || assert_eq!(black_box(limit::walk_to(black_box(&plain), capacity as usize, end)), end));
        let theirs = || per_call(20, || original.prune_recent(RecordId(end)).expect("a prune"));
        let case = format!("{} of {n} records", if end == n { "last" } else { "last but one" });
        times.push(compare("prune recent", &case, rounds, vec![Some(Box::new(ours)), Some(Box::new(bare)), Some(Box::new(theirs))]));
    }
    ratios("last / last but one", &format!("of {n} records"), &times[0], &times[1]);
}
