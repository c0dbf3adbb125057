//! Arguments in a history that only ours is given: log values, shapes and rows of any content. Ours is held to the model.

use crate::calls::{self, Shape, NO_LOG, NO_PART};
use crate::departures::*;
use crate::ffi::{Log, Part};
use crate::lent::Lent;
use crate::log_model as model;
use crate::logs::{After, History, Step};
use crate::rng::Rng;

impl History<'_> {
    /// Any log value, over the same area: 2, or what document 01 has for it.
    pub fn any_log_value(&mut self) -> After {
        self.steps.push(Step::LogValue);
        let mut log = self.log;
        let (kind, max) = if self.rng.once_in(2) {
            ("any newest place", spoil_newest(&mut self.rng, &mut log))
        } else {
            (0..self.rng.range(1, 2)).for_each(|_| spoil_log(&mut self.rng, &mut log));
            ("any log value", 1)
        };
        let shorter = self.rng.once_in(8) as usize;
        let mut model_area = self.model_area[shorter..].to_vec();
        let mut area = Lent::new(&model_area, 0xA5);
        let argument = self.rng.pick_number(&[0, log.start_live, log.end_live, max, max, max]);
        let (name, expected, answer) = match self.rng.below(4) {
            0 => {
                let answer = calls::append(&log, area.content_mut(), b"abc");
                let expected = model::append(&log, &mut model_area, b"abc");
                let id = answer.id.wrapping_sub(expected.map_or(0, |next| next.end_live));
                ("append", expected, (answer.refusal, answer.log, answer.reserved as u64 | id))
            }
            1 => {
                let answer = calls::prune_oldest(&log, area.content_mut(), argument);
                let expected = model::prune_oldest(&log, &model_area, argument);
                ("prune oldest", expected, (answer.refusal, answer.log, answer.reserved as u64))
            }
            _ => {
                let answer = calls::prune_recent(&log, area.content_mut(), argument);
                let expected = model::prune_recent(&log, &mut model_area, argument);
                ("prune recent", expected, (answer.refusal, answer.log, answer.reserved as u64))
            }
        };
        let (number, next) = expected.map_or_else(|refusal| (refusal.number, log), |next| (0, next));
        if answer != (number, next, 0) || !area.unchanged(&model_area) {
            return self.differs(format!("{} of the log value {:?}: {}, document 01 {}", name, log, answer.0, number));
        }
        self.departs(&format!("{}: {}, {}", kind, name, number), Some(&LOG_VALUE), After::Together)
    }

    /// A new log of any shape: accepted, or 1.
    pub fn any_shape(&mut self) -> After {
        let shape = any_shape(&mut self.rng, model::shape_of(&self.log));
        let expected = model::new(shape, self.area.content().len());
        let answer = calls::new(shape, self.area.content_mut());
        let (number, log) = expected.map_or_else(|refusal| (refusal.number, NO_LOG), |log| (0, log));
        if (answer.refusal, answer.reserved, answer.log) != (number, 0, log) || !self.area.unchanged(&self.model_area) {
            return self.differs(format!("a new log of {:?}: {}, document 01 {}", shape, answer.refusal, number));
        }
        self.departs(&format!("new log: {}", number), Some(&MEMORY), After::Together)
    }

    /// A row of any words: 2, 24 or good, and its place.
    pub fn any_row(&mut self) -> After {
        let (k, c) = (self.log.slots, self.log.capacity);
        let rng = &mut self.rng;
        let offset = rng.pick_number(&[0, 12, c - 1, c, c + 1, u64::MAX]);
        let length = rng.pick_number(&[
            0,
            1,
            c,
            c.wrapping_sub(offset),
            c.wrapping_sub(offset).wrapping_add(1),
            u64::MAX,
            1u64.wrapping_sub(offset),
        ]);
        let row = [rng.next(), rng.pick_number(&[0, k - 1, k, u64::MAX, 1 << 32]), offset, length];
        let mut log = self.log;
        if rng.once_in(8) {
            spoil_log(rng, &mut log);
        }
        self.steps.push(Step::Row(row));
        let number = model::row_question(&log, &self.model_area, row);
        let expected = match number {
            0 => Part { at: row[1] * c + offset, length, ..NO_PART },
            number => Part { refusal: number, ..NO_PART },
        };
        let question = calls::row_question(&log, self.area.content(), row);
        let part = calls::payload(&log, self.area.content(), row);
        if question != number || part != expected || !self.area.unchanged(&self.model_area) {
            return self.differs(format!("the row {:?}: {} {:?}, document 01 {:?}", row, question, part, expected));
        }
        self.departs(&format!("row: {}", number), Some(if number == 2 { &LOG_VALUE } else { &INDEX_ROWS }), After::Together)
    }
}

/// K, C or M another number: beside its border, or far out.
pub fn any_shape(rng: &mut Rng, mut shape: Shape) -> Shape {
    match rng.below(3) {
        0 => shape.k = rng.pick_number(&[0, 1, 64, 65, shape.k + 1, u64::MAX, 1 << 52]),
        1 => shape.c = rng.pick_number(&[0, 1, 4095, 4096, shape.c + 1, shape.c + 4096, 1 << 31, (1 << 31) + 4096, u64::MAX, 1 << 63]),
        _ => shape.m = rng.pick_number(&[0, shape.c, shape.c + 1, u64::MAX]),
    }
    shape
}

/// Where a segment's newest record begins another number: another page or record, no page, beside the last that fits, or far out. Mostly of
/// a listed segment, whose max it gives back.
fn spoil_newest(rng: &mut Rng, log: &mut Log) -> u64 {
    let any_listed = |rng: &mut Rng| if log.count == 0 || rng.once_in(6) { rng.below(64) } else { rng.below(log.count) };
    let (one, other) = (any_listed(rng) as usize, any_listed(rng) as usize);
    // The larger one has more pages to choose from.
    let place = if log.segments[one].size > log.segments[other].size { one } else { other };
    let segment = &mut log.segments[place];
    let (at, size) = (segment.newest_at, segment.size);
    let fits = size.wrapping_sub(12);
    segment.newest_at = match rng.below(6) {
        0..=2 => rng.below(size / 4096 + 1) * 4096,
        3 => rng.pick_number(&[at + 1, at + 12, at + 2048, at.wrapping_sub(1)]),
        4 => rng.pick_number(&[fits, fits.wrapping_add(1), fits.wrapping_add(12), size, size + 4096]),
        _ => rng.pick_number(&[at ^ 1 << 32, at ^ 1 << 31, u64::MAX, u64::MAX - 11, u64::MAX - 4095]),
    };
    segment.max
}

/// One field of a log value another number.
fn spoil_log(rng: &mut Rng, log: &mut Log) {
    let place = if rng.once_in(6) { rng.below(64) } else { rng.below(log.count.min(63) + 1) } as usize;
    let near = |rng: &mut Rng, number: u64| {
        let far = [0, 1, u64::MAX, number ^ 1 << 32, number ^ 1 << 31];
        if rng.once_in(2) {
            rng.pick_number(&far)
        } else {
            rng.pick_number(&[number.wrapping_add(1), number.wrapping_sub(1)])
        }
    };
    let other = log.segments[rng.below(64) as usize % (log.count.clamp(1, 64) as usize)];
    let segment = &mut log.segments[place];
    match rng.below(11) {
        0 => segment.id = near(rng, segment.id as u64) as u32,
        1 => segment.slot = rng.pick_number(&[other.slot as u64, log.slots, segment.slot as u64 + 1, u32::MAX as u64]) as u32,
        2 => {
            segment.size = rng.pick_number(&[
                0,
                1,
                segment.size + 1,
                segment.size.wrapping_sub(1),
                log.capacity,
                log.capacity.wrapping_add(1),
                u64::MAX,
            ])
        }
        3 => segment.min = near(rng, segment.min),
        4 => segment.max = near(rng, segment.max),
        5 => log.start_live = near(rng, log.start_live),
        6 => log.end_live = near(rng, log.end_live),
        7 => log.count = near(rng, log.count),
        8 => log.slots = near(rng, log.slots),
        9 => log.capacity = rng.pick_number(&[0, log.capacity.wrapping_add(1), log.capacity.wrapping_mul(2), log.capacity / 2, u64::MAX]),
        _ => log.soft_size = rng.pick_number(&[0, log.capacity, log.capacity.wrapping_add(1), u64::MAX]),
    }
}
