//! Document 02's ask 8 on one state: the newest record of each segment stands where the log says, and a cut behind it goes by the twelve
//! bytes of its header alone.

use crate::archive::{hold, Archive, Checked};
use crate::ffi;
use crate::model::Model;

/// Cuts at the newest record of each segment, and at the others of it, over an area in which only the newest header is left.
pub fn cut_by_one_header(archive: &mut Archive, model: &Model, area: &[u8]) -> Checked<()> {
    let log = model.log();
    for (segment, listed) in model.segments.iter().zip(&log.segments) {
        let (newest, at) = (segment.newest().bytes(), place(&log, listed));
        hold(area[at..at + newest.len()] == newest, &format!("record {} does not stand at newest_at", listed.max))?;
        let mut damaged = vec![0xff; area.len()];
        damaged[at..at + 12].copy_from_slice(&newest[..12]);
        let (answer, after) = archive.prune_recent(&log, &damaged, listed.max)?;
        let expected = model.prune_recent(listed.max).map(|model| model.log());
        hold(answer.refusal == 0, &format!("a cut at {} looks elsewhere: it is refused with {}", listed.max, answer.refusal))?;
        hold(Ok(answer.log) == expected, &format!("a cut at {} by its header alone gives another log", listed.max))?;
        hold(after == damaged, &format!("a cut at {} writes where no padding was missing", listed.max))?;
        for other in listed.min.max(model.start)..listed.max {
            let (answer, _) = archive.prune_recent(&log, &damaged, other)?;
            hold(answer.refusal == 10, &format!("a cut at {other} answers {} over an image of noise", answer.refusal))?;
        }
    }
    Ok(())
}

/// Where the newest record of a segment starts in the area.
fn place(log: &ffi::Log, segment: &ffi::Segment) -> usize {
    (segment.slot as u64 * log.capacity + segment.newest_at) as usize
}
