//! What the format cannot see, run so that nobody believes otherwise: nothing in it identifies a log, and which files belong together is
//! the manifest's to say. Each function is named by its result.

use crate::archive::{hold, Archive, Checked, Recovery, NO_LOG};
use crate::ffi::{Image, Log};

const C: usize = 8192;
/// Four slots of two pages, two one-page records a segment.
const SHAPE: (u64, u64, u64) = (4, C as u64, C as u64);

pub fn run(archive: &mut Archive) -> Checked<()> {
    a_segment_of_another_log_is_accepted_and_its_payload_delivered(archive)?;
    a_row_that_names_the_slot_rolled_back_delivers_the_old_5(archive)
}

/// A log and its area.
struct Written {
    log: Log,
    area: Vec<u8>,
}

impl Written {
    fn new() -> Written {
        Written { log: Log { slots: 4, capacity: C as u64, soft_size: C as u64, ..NO_LOG }, area: vec![0; 4 * C] }
    }

    fn append(&mut self, archive: &mut Archive, payloads: &[&str]) -> Checked<()> {
        for payload in payloads {
            let (answer, area) = archive.append(&self.log, &self.area, payload.as_bytes())?;
            hold(answer.refusal == 0, "hazards: an append is refused")?;
            (self.log, self.area) = (answer.log, area);
        }
        Ok(())
    }

    /// Recovers s..e from these rows; the payload delivered under an id.
    fn delivered(&self, archive: &mut Archive, images: &[Image], (s, e): (u64, u64), id: u64) -> Checked<Vec<u8>> {
        let asked = Recovery { shape: SHAPE, images, s, e, index_words: 4 * (e - s + 1) as usize };
        let (answer, area, index) = archive.recover(&asked, &self.area)?;
        hold(answer.refusal == 0, &format!("hazards: recovery is refused with {}", answer.refusal))?;
        let row = &index[4 * (id - s) as usize..][..4];
        let part = archive.row(&answer.log, &area, [row[0], row[1], row[2], row[3]])?;
        Ok(area[part.at as usize..][..part.length as usize].to_vec())
    }
}

fn row(id: u32, slot: u32) -> Image {
    Image { id, slot, size: C as u64 }
}

/// Logs A and B hold records 1-2 and 3-4. B's segment 2 lies where A's was.
fn a_segment_of_another_log_is_accepted_and_its_payload_delivered(archive: &mut Archive) -> Checked<()> {
    let (mut a, mut b) = (Written::new(), Written::new());
    a.append(archive, &["A's 1", "A's 2", "A's 3", "A's 4"])?;
    b.append(archive, &["B's 1", "B's 2", "B's 3", "B's 4"])?;
    let rows = [row(1, 0), row(2, 1)];
    hold(a.delivered(archive, &rows, (1, 4), 3)? == b"A's 3", "hazards: A's own segments deliver another 3")?;
    a.area[C..2 * C].copy_from_slice(&b.area[C..2 * C]);
    hold(a.delivered(archive, &rows, (1, 4), 2)? == b"A's 2", "hazards: A's first segment delivers another 2")?;
    hold(a.delivered(archive, &rows, (1, 4), 3)? == b"B's 3", "hazards: B's segment in A's place is seen: say so in the papers")
}

/// Append 1 to 6, prune recent to 4, prune oldest to 3, append 5 and 6 again: they lie in slot 0, and slot 2 keeps what was rolled back.
fn a_row_that_names_the_slot_rolled_back_delivers_the_old_5(archive: &mut Archive) -> Checked<()> {
    let mut it = Written::new();
    it.append(archive, &["1", "2", "3", "4", "the old 5", "the old 6"])?;
    let (recent, area) = archive.prune_recent(&it.log, &it.area, 4)?;
    let oldest = archive.prune_oldest(&recent.log, &area, 3)?;
    (it.log, it.area) = (oldest.log, area);
    it.append(archive, &["the new 5", "the new 6"])?;
    let slots: Vec<u32> = it.log.segments[..it.log.count as usize].iter().map(|segment| segment.slot).collect();
    hold(slots == [1, 0], "hazards: 5 and 6 were appended elsewhere")?;
    hold(it.delivered(archive, &[row(2, 1), row(3, 0)], (3, 6), 5)? == b"the new 5", "hazards: the log's own rows deliver another 5")?;
    hold(
        it.delivered(archive, &[row(2, 1), row(3, 2)], (3, 6), 5)? == b"the old 5",
        "hazards: the slot rolled back is seen: say so in the papers",
    )
}
