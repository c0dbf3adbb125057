//! Times append, prune recent, recovery, decode and encode: ours, the plain limit, and the original on a memory-backed folder.
//! The three are run in turns in one process; the best and the median of the rounds are printed, in nanoseconds for one call.

#[path = "../../oracle/src/calls.rs"]
mod calls;
#[allow(dead_code)]
#[path = "../../bindings/rust/src/ffi.rs"]
mod ffi;
#[path = "../../oracle/src/lent.rs"]
mod lent;
#[allow(dead_code)]
#[path = "../../oracle/src/original.rs"]
mod original;

mod cuts;
mod deltas;
mod first_tenth;
mod limit;
mod logs;
mod timing;

const PARTS: [(&str, fn(usize)); 6] = [
    ("append", logs::append),
    ("prune_recent", cuts::prune_recent),
    ("recover", logs::recover),
    ("first_tenth", first_tenth::recover),
    ("decode", deltas::decode),
    ("encode", deltas::encode),
];

fn main() {
    let words: Vec<String> = std::env::args().skip(1).collect();
    let rounds = words.first().map_or(31, |word| word.parse().expect("a number of rounds"));
    let wanted = words.get(1..).unwrap_or_default();
    assert!(wanted.iter().all(|word| PARTS.iter().any(|(name, _)| word == name)), "no such part");
    println!("what\tcase\tours best\tours median\tlimit best\tlimit median\toriginal best\toriginal median\tours/limit\tours/original");
    for (name, run) in PARTS {
        if wanted.is_empty() || wanted.iter().any(|word| word == name) {
            run(rounds);
        }
    }
}
