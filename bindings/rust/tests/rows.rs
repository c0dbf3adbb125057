//! The rows that a log keeps are those that recovery finds in its images, and the payloads are those last appended. The newest record of
//! each segment starts where the segment says.
use iflughan::{Log, Shape};
use std::collections::BTreeMap;

const SHAPE: Shape = Shape {
    slots: 3,
    capacity: 16384,
    soft_size: 8192,
};
const LENGTHS: [usize; 5] = [0, 1, 4084, 4085, 12000];

/// A seeded sequence of numbers below a bound (xorshift).
struct Numbers(u64);

impl Numbers {
    fn below(&mut self, bound: u64) -> u64 {
        self.0 ^= self.0 << 13;
        self.0 ^= self.0 >> 7;
        self.0 ^= self.0 << 17;
        self.0 % bound
    }
}

/// One append or prune, on the log and on the payloads by id.
fn step(log: &mut Log, payloads: &mut BTreeMap<u64, Vec<u8>>, numbers: &mut Numbers) {
    let argument = numbers.below(payloads.keys().last().copied().unwrap_or(0) + 2);
    match numbers.below(8) {
        0 => {
            if log.prune_oldest(argument).is_ok() {
                payloads.retain(|id, _| argument != 0 && *id >= argument);
            }
        }
        1 => {
            if log.prune_recent(argument).is_ok() {
                payloads.retain(|id, _| *id <= argument);
            }
        }
        _ => {
            let length = LENGTHS[numbers.below(LENGTHS.len() as u64) as usize];
            let payload = vec![numbers.below(256) as u8; length];
            if let Ok(id) = log.append(&payload) {
                payloads.insert(id, payload);
            }
        }
    }
}

/// The row of each live record that is its segment's newest lies twelve bytes behind `newest_at`.
fn newest_records_start_where_segments_say(log: &Log) {
    for segment in log.segments() {
        let newest = log.rows().iter().find(|row| row.id == segment.max).unwrap();
        let place = (newest.slot, newest.offset);
        assert_eq!(place, (u64::from(segment.slot), segment.newest_at + 12));
    }
}

#[test]
fn kept_rows_are_those_of_recovery() {
    let mut numbers = Numbers(1);
    let mut log = Log::new(SHAPE).unwrap();
    let mut payloads = BTreeMap::new();
    for _ in 0..2000 {
        step(&mut log, &mut payloads, &mut numbers);
        assert!(log
            .payloads()
            .eq(payloads.iter().map(|(id, payload)| (*id, &payload[..]))));
        let live = log.live_range().unwrap_or(0..=0);
        let (s, e) = (*live.start(), *live.end());
        let recovered = Log::recover(SHAPE, log.area().to_vec(), &log.images(), s, e).unwrap();
        assert_eq!(recovered, log);
        newest_records_start_where_segments_say(&log);
    }
    assert!(!payloads.is_empty());
}
