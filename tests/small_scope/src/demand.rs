//! Demand 3 on one state: what a recovery from the log's own images delivers, and that the log it returns is the one that pruning oldest
//! to s, then recent to e, leaves; also where any appends came between, as many as the slots have room for, and where what stands behind e
//! is damaged.

use crate::archive::{hold, Archive, Checked, Recovery, UNTOUCHED};
use crate::ffi::{Image, Log};
use crate::model::{Model, Payload};

/// What a recovery returned: the log and the index.
pub type Delivery = (Log, Vec<u64>);

/// Recovers s..e from the log's own images, rows in both orders, and holds it to the model: number, log, area, index, payloads.
/// A refusal comes back as its number.
pub fn recover_own(archive: &mut Archive, model: &Model, area: &[u8], (s, e): (u64, u64), words: usize) -> Checked<Result<Delivery, u32>> {
    let mut images = model.images();
    let first = recover_rows(archive, model, area, &images, (s, e), words)?;
    if images.len() > 1 {
        images.reverse();
        hold(recover_rows(archive, model, area, &images, (s, e), words)? == first, "the order of the image rows matters")?;
    }
    if let Ok((log, _)) = &first {
        payloads_stand(archive, log, area, &model.payloads(s, e))?;
    }
    Ok(first)
}

fn recover_rows(
    archive: &mut Archive,
    model: &Model,
    area: &[u8],
    images: &[Image],
    (s, e): (u64, u64),
    words: usize,
) -> Checked<Result<Delivery, u32>> {
    let asked = Recovery { shape: model.shape, images, s, e, index_words: words };
    let (answer, area_after, index) = archive.recover(&asked, area)?;
    let expected = match model.recover(s, e, words) {
        Err(number) => {
            hold(answer.refusal == number, &format!("recovery answers {}, document 01 says {number}", answer.refusal))?;
            return Ok(Err(number));
        }
        Ok(expected) => expected,
    };
    hold(answer.refusal == 0, &format!("recovery is refused with {}", answer.refusal))?;
    hold(answer.log == expected.log(), &format!("recovery returns another log: {:?}", listed(&answer.log)))?;
    hold(area_after == area, "recovery changed an area in which no padding was missing")?;
    let rows: Vec<u64> = expected.payloads(s, e).iter().flat_map(|(row, _)| *row).collect();
    hold(answer.rows == rows.len() as u64 / 4 && index[..rows.len()] == rows, &format!("recovery's rows are {index:?}"))?;
    hold(index[rows.len()..].iter().all(|word| *word == UNTOUCHED), "recovery changed later words of the index")?;
    Ok(Ok((answer.log, index)))
}

/// The library hands back, by each row, exactly the payload.
fn payloads_stand(archive: &mut Archive, log: &Log, area: &[u8], expected: &[([u64; 4], Payload)]) -> Checked<()> {
    for (row, payload) in expected {
        let part = archive.row(log, area, *row)?;
        let (at, length) = (part.at as usize, part.length as usize);
        let delivered = area.get(at..at + length);
        hold(part.refusal == 0 && delivered == Some(&payload.bytes()[..]), &format!("record {} has another payload", row[0]))?;
    }
    Ok(())
}

/// For each s..e inside the live range: the recovery now, and the one after each series of appends that may follow.
pub fn demand_3(archive: &mut Archive, model: &Model, area: &[u8], lengths: &[usize], stamp: u8) -> Checked<()> {
    let mut later = Vec::new();
    if model.end > 0 {
        append_on(archive, model, area, lengths, stamp, &mut later)?;
    }
    for s in model.start.max(1)..=model.end {
        for e in s..=model.end {
            let words = 4 * (e - s + 1) as usize;
            let say = |number| format!("demand 3: the live range {s}..{e} is refused with {number}");
            let delivery = recover_own(archive, model, area, (s, e), words)?.map_err(say)?;
            let pruned = prune_both(archive, &model.log(), area, (s, e))?;
            hold(delivery.0 == pruned, &format!("demand 3: recovering {s}..{e} and pruning to it give different logs"))?;
            unseen_behind(archive, model, area, (s, e), &delivery)?;
            for (log, bytes) in &later {
                let after = recover_own(archive, log, bytes, (s, e), words)?.map_err(say)?;
                hold(after == delivery, &format!("demand 3: later appends change the recovery of {s}..{e}"))?;
            }
        }
    }
    Ok(())
}

/// The same delivery where every byte behind e's record is damage: its image, where the slot has room, and each later one end in a torn header.
fn unseen_behind(archive: &mut Archive, model: &Model, area: &[u8], (s, e): (u64, u64), delivery: &Delivery) -> Checked<()> {
    let (log, capacity) = (delivery.0, model.shape.1);
    let head = log.segments[log.count as usize - 1];
    let (mut images, mut damaged) = (model.images(), area.to_vec());
    for image in images.iter_mut().filter(|image| image.id >= head.id) {
        let end = if image.id == head.id { head.size } else { 0 };
        damaged[(image.slot as u64 * capacity) as usize..][end as usize..capacity as usize].fill(0xff);
        image.size = capacity.min(end + 5);
    }
    let asked = Recovery { shape: model.shape, images: &images, s, e, index_words: delivery.1.len() };
    let (answer, area_after, index) = archive.recover(&asked, &damaged)?;
    hold(answer.refusal == 0, &format!("damage behind {e} is seen: {s}..{e} is refused with {}", answer.refusal))?;
    hold((answer.log, &index) == (log, &delivery.1), &format!("damage behind {e} changes the recovery of {s}..{e}"))?;
    hold(area_after == damaged, &format!("recovering {s}..{e} writes behind {e}"))
}

/// The logs and areas after each series of appends that is accepted.
fn append_on(
    archive: &mut Archive,
    model: &Model,
    area: &[u8],
    lengths: &[usize],
    stamp: u8,
    later: &mut Vec<(Model, Vec<u8>)>,
) -> Checked<()> {
    for length in lengths {
        let payload = Payload { length: *length, stamp };
        if let Ok(expected) = model.append(payload) {
            let (answer, bytes) = archive.append(&model.log(), area, &payload.bytes())?;
            hold(answer.refusal == 0 && answer.log == expected.log.log(), "a later append returns another log")?;
            append_on(archive, &expected.log, &bytes, lengths, stamp + 1, later)?;
            later.push((expected.log, bytes));
        }
    }
    Ok(())
}

/// The log that pruning oldest to s, then recent to e, leaves.
fn prune_both(archive: &mut Archive, log: &Log, area: &[u8], (s, e): (u64, u64)) -> Checked<Log> {
    let oldest = archive.prune_oldest(log, area, s)?;
    let (recent, _) = archive.prune_recent(&oldest.log, area, e)?;
    hold(oldest.refusal == 0 && recent.refusal == 0, &format!("pruning to {s}..{e} inside the live range is refused"))?;
    Ok(recent.log)
}

fn listed(log: &Log) -> (u64, u64, &[crate::ffi::Segment]) {
    (log.start_live, log.end_live, &log.segments[..(log.count as usize).min(64)])
}
