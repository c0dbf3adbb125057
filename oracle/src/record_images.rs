//! Recoveries for the recorded sample from images that no log of it wrote: made up, damaged and shuffled, laid into slots line by line; and
//! what an accepted one answers to a few calls more. As many of each class as the sample has room for, and document 02's accident first.

use crate::calls::Shape;
use crate::causes::WholeWalk;
use crate::ffi::Image;
use crate::log_cases::{accident, around_e, damage, ids_shown, range, shuffle, soft_size, synthetic, SegmentFile};
use crate::log_model::{self as model, largest_claim};
use crate::original_log::{Folder, Opened};
use crate::record_logs::{delivered_digest, Recorder, NO_STATE};
use crate::rng::Rng;
use crate::table::hex;
use std::collections::HashMap;

const DRAWS: usize = 6_000;
/// Recoveries of one class, and the most bytes that its images may show.
const MOST: usize = 8;
const LARGEST: usize = 700;
const LARGEST_CLAIM: u64 = 1 << 20;
const PAGE: usize = 4096;

pub fn lines(seed: u64) -> Vec<String> {
    let folder = Folder::new("images");
    let mut rng = Rng::new(seed ^ 0x1F1F);
    let (mut lines, mut taken) = (the_accident(&mut rng, &folder), HashMap::new());
    for _ in 0..DRAWS {
        if let Some((class, recorded)) = draw(&mut rng, &folder) {
            let count = taken.entry(class).or_insert(0);
            if *count < MOST {
                *count += 1;
                lines.extend(recorded);
            }
        }
    }
    lines
}

/// The lines of the recovery that document 02's Ask 1 was asked for.
fn the_accident(rng: &mut Rng, folder: &Folder) -> Vec<String> {
    let shape = Shape { k: 1, c: 3 * PAGE as u64, m: 3 * PAGE as u64 };
    let files = [accident(rng)];
    folder.write_all(&files);
    recorded(rng, folder, shape, &files, (1, 2)).1
}

/// Ours where it departs, the original's refusal, the fault behind e, and what later appends meet.
type Class = (u32, u32, Option<u32>, bool, bool);

/// One recovery with its class and its lines; none where its images are too large to be written down.
fn draw(rng: &mut Rng, folder: &Folder) -> Option<(Class, Vec<String>)> {
    let c = PAGE as u64 * rng.pick_number(&[1, 2, 2, 4]);
    let shape = Shape { k: rng.range(1, 4), c, m: soft_size(rng, c) };
    let mut files = synthetic(rng, shape);
    let (s, e) = if rng.once_in(3) {
        around_e(rng, shape, &mut files)
    } else {
        for _ in 0..rng.pick_number(&[0, 1, 1, 1, 2]) {
            damage(rng, &mut files);
        }
        range(rng, ids_shown(&files))
    };
    let shown: usize = files.iter().flat_map(|file| file.bytes.chunks(PAGE)).map(|page| trimmed(page).len()).sum();
    let claims = files.iter().map(|file| largest_claim(&file.bytes)).max().unwrap_or(0);
    let too_many = files.len() as u64 > shape.k || files.iter().any(|file| file.bytes.len() as u64 > c);
    if shown > LARGEST || claims > LARGEST_CLAIM || too_many || !folder.write_all(&files) {
        return None;
    }
    Some(recorded(rng, folder, shape, &files, (s, e)))
}

fn recorded(rng: &mut Rng, folder: &Folder, shape: Shape, files: &[SegmentFile], (s, e): (u64, u64)) -> (Class, Vec<String>) {
    let mut lines = vec![format!("L {:08x} {:08x} {:08x}", shape.k, shape.c, shape.m)];
    let mut area = vec![0; (shape.k * shape.c) as usize];
    let images = laid(rng, shape, files, &mut area, &mut lines);
    let mut index = vec![0; 4 * area.len() / PAGE];
    let expected = model::recover(shape, &mut area, &images, s, e, &mut index);
    let originals_files = folder.files();
    let whole = WholeWalk::of(&originals_files, (s, e));
    let (Opened { log, delivered }, refused_with) = whole.open(folder, &originals_files, shape.m, (s, e));
    let ours = expected.as_ref().err().map_or(0, |refusal| refusal.number);
    // A short header and a short payload have one text.
    let originals = match refused_with.or(log.as_ref().err().copied()) {
        Some(17) if ours == 20 => 20,
        number => number.unwrap_or(0),
    };
    let departure = if ours == originals { 0 } else { ours };
    let rows: String = images.iter().map(|row| format!("{:08x}{:08x}{:08x}", row.id, row.slot, row.size)).collect();
    let rows = if rows.is_empty() { "-" } else { &rows };
    let digest = if ours == 0 { delivered_digest(&delivered) } else { 0 };
    let letter = if ours == 0 && refused_with.is_some() { "J" } else { "I" };
    let head = format!("{} {:02} {:016x} {:016x} {} {:02} {:016x}", letter, departure, s, e, rows, originals, digest);
    match (expected, log) {
        (Ok((next, _)), Ok(original)) => {
            let mut recorder = Recorder::over(folder, next, area, original);
            lines.push(format!("{} {}", head, recorder.state()));
            let calls = rng.range(2, 5);
            recorder.play(rng, calls, &mut lines);
        }
        _ => lines.push(format!("{} {}", head, NO_STATE)),
    }
    // What an append after it meets is a class of its own: 4 and 5.
    let meets = |number: &str| lines.iter().any(|line| line.starts_with(number));
    let behind_e = whole.fault.filter(|_| whole.faulty_behind_e());
    ((departure, originals, behind_e, meets("A 04"), meets("A 05")), lines)
}

/// Lays the files into slots, a line for each page that shows something or ends one; the rows, in any order.
fn laid(rng: &mut Rng, shape: Shape, files: &[SegmentFile], area: &mut [u8], lines: &mut Vec<String>) -> Vec<Image> {
    let mut slots: Vec<u32> = (0..shape.k as u32).collect();
    shuffle(rng, &mut slots);
    let mut images = Vec::new();
    for (file, slot) in files.iter().zip(slots) {
        let start = slot as usize * shape.c as usize;
        area[start..start + file.bytes.len()].copy_from_slice(&file.bytes);
        for (number, page) in file.bytes.chunks(PAGE).enumerate() {
            lines.push(format!("B {:08x} {:08x} {}", start + number * PAGE, page.len(), hex(trimmed(page))));
        }
        images.push(Image { id: file.id, slot, size: file.bytes.len() as u64 });
    }
    shuffle(rng, &mut images);
    images
}

/// The bytes up to the last that is not zero.
fn trimmed(page: &[u8]) -> &[u8] {
    &page[..page.iter().rposition(|byte| *byte != 0).map_or(0, |last| last + 1)]
}
