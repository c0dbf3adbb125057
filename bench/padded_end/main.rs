//! Times the two ways of rounding up to the page in a walk over 4096 records, in turns: by a call for each record, and by one for four, with
//! the bodies inside. Nanoseconds for one record, best and median of the rounds. Before that it holds the two ways to each other.

use std::hint::black_box;
use std::time::Instant;

extern "C" {
    fn end_by_sum(end: u32) -> u64;
    fn end_by_branch(end: u32) -> u64;
    fn four_by_sum(at: u64, a: u32, b: u32, c: u32, d: u32) -> u64;
    fn four_by_branch(at: u64, a: u32, b: u32, c: u32, d: u32) -> u64;
    fn four_unrounded(at: u64, a: u32, b: u32, c: u32, d: u32) -> u64;
}

const PAGE: u32 = 4096;
const HEADER: u32 = 12;
const RECORDS: usize = 4096;
const WALKS_A_ROUND: usize = 50;

/// The same numbers on every run.
struct Numbers(u64);

impl Numbers {
    fn new() -> Numbers {
        Numbers(88172645463325252)
    }

    fn next(&mut self) -> u32 {
        self.0 ^= self.0 << 13;
        self.0 ^= self.0 >> 7;
        self.0 ^= self.0 << 17;
        (self.0 >> 16) as u32
    }
}

/// Both ways at every end within two of a multiple, and at a million others; how many.
fn hold_to_each_other() -> usize {
    let mut numbers = Numbers::new();
    let near = (0..=u32::MAX / PAGE).flat_map(|page| (0..5).map(move |step| (page * PAGE).wrapping_add(step).wrapping_sub(2)));
    let others = (0..1_000_000).map(|_| numbers.next());
    near.chain(others).inspect(|end| unsafe { assert_eq!(end_by_sum(*end), end_by_branch(*end), "the end {end}") }).count()
}

/// Payload lengths, by which records end on a page.
fn lengths(ends_on_a_page: impl Fn(usize, u32) -> bool) -> Vec<u32> {
    let mut numbers = Numbers::new();
    let mut length = |i| {
        let pages = numbers.next() % 3 * PAGE;
        let rest = if ends_on_a_page(i, numbers.next()) { PAGE } else { HEADER + numbers.next() % (PAGE - HEADER) };
        pages + rest - HEADER
    };
    (0..RECORDS).map(&mut length).collect()
}

fn walk_one_by_one(end: unsafe extern "C" fn(u32) -> u64, lengths: &[u32]) -> u64 {
    lengths.iter().fold(0, |at, length| unsafe { end((at as u32).wrapping_add(HEADER + length)) })
}

fn walk_by_four(four: unsafe extern "C" fn(u64, u32, u32, u32, u32) -> u64, lengths: &[u32]) -> u64 {
    lengths.chunks_exact(4).fold(0, |at, of| unsafe { four(at, of[0], of[1], of[2], of[3]) })
}

fn per_record(walk: &dyn Fn(&[u32]) -> u64, lengths: &[u32]) -> f64 {
    let start = Instant::now();
    for _ in 0..WALKS_A_ROUND {
        black_box(walk(black_box(lengths)));
    }
    start.elapsed().as_nanos() as f64 / (WALKS_A_ROUND * lengths.len()) as f64
}

fn main() {
    let rounds: usize = std::env::args().nth(1).map_or(101, |word| word.parse().expect("a number of rounds"));
    println!("the two ways answer the same at {} ends", hold_to_each_other());
    println!("records that end on a page\tway\tns for a record, best\tmedian");
    let kinds = [
        ("none", lengths(|_, _| false)),
        ("each", lengths(|_, _| true)),
        ("every second", lengths(|i, _| i % 2 == 0)),
        ("half, by chance", lengths(|_, number| number % 2 == 0)),
    ];
    let ways: [(&str, &dyn Fn(&[u32]) -> u64); 5] = [
        ("sum and division, a call each", &|lengths| walk_one_by_one(end_by_sum, lengths)),
        ("division and branch, a call each", &|lengths| walk_one_by_one(end_by_branch, lengths)),
        ("sum and division, a call for four", &|lengths| walk_by_four(four_by_sum, lengths)),
        ("division and branch, a call for four", &|lengths| walk_by_four(four_by_branch, lengths)),
        ("no rounding, a call for four", &|lengths| walk_by_four(four_unrounded, lengths)),
    ];
    for (kind, lengths) in &kinds {
        let mut times = vec![Vec::new(); ways.len()];
        for _ in 0..rounds {
            for ((_, walk), times) in ways.iter().zip(&mut times) {
                times.push(per_record(walk, lengths));
            }
        }
        for ((way, _), mut times) in ways.iter().zip(times) {
            times.sort_by(f64::total_cmp);
            println!("{kind}\t{way}\t{:.2}\t{:.2}", times[0], times[times.len() / 2]);
        }
    }
}
