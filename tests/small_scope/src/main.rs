//! Exhaustive small scope through the archive: all histories up to a length at K = 2, C = 8192, and cases for every refusal number.
//! The last line counts states, calls and refusal numbers; at the first difference it is the difference, with its history before it.

mod archive;
#[path = "../../../oracle/src/calls.rs"]
mod calls;
mod cases_deltas;
mod cases_logs;
mod cases_names;
mod cases_newest;
mod cases_recovery;
mod cases_sizes;
mod cases_up_to_e;
mod demand;
#[allow(dead_code)]
#[path = "../../../bindings/rust/src/ffi.rs"]
mod ffi;
mod hazards;
#[path = "../../../oracle/src/lent.rs"]
mod lent;
mod model;
mod newest;
mod search;

use archive::{refusal_numbers, Archive, Checked};
use search::Search;

const SLOTS: u64 = 2;
const CAPACITY: u64 = 8192;
const SOFT_SIZES: [u64; 3] = [8192, 4096, 0];

fn main() {
    lent::watch_accesses();
    let longest = std::env::args().nth(1).map_or(5, |word| word.parse().expect("the longest history"));
    match everything(longest) {
        Ok(true) => (),
        Ok(false) => std::process::exit(1),
        Err(difference) => {
            println!("{difference}");
            std::process::exit(1);
        }
    }
}

/// Whether every refusal number was reached.
fn everything(longest: usize) -> Checked<bool> {
    let (mut states, mut histories, mut cases) = (0, Archive::new(), Archive::new());
    for soft_size in SOFT_SIZES {
        states += search(&mut histories, soft_size, longest)?;
    }
    cases_logs::run(&mut cases)?;
    cases_recovery::run(&mut cases)?;
    cases_up_to_e::run(&mut cases)?;
    cases_newest::run(&mut cases)?;
    cases_names::run(&mut cases)?;
    cases_deltas::run(&mut cases)?;
    cases_sizes::run(&mut cases)?;
    hazards::run(&mut cases)?;
    let (reached, all) = (table(&histories, &cases), refusal_numbers().count());
    println!("{states} states, {} calls, {reached} of {all} refusals reached, 0 differences", histories.calls + cases.calls);
    Ok(reached == all)
}

/// The number of states that were found.
fn search(archive: &mut Archive, soft_size: u64, longest: usize) -> Checked<usize> {
    let (before, begun) = (archive.calls, std::time::Instant::now());
    let search = Search::run(archive, (SLOTS, CAPACITY, soft_size), longest)?;
    let (states, histories, calls) = (search.states(), search.histories(), archive.calls - before);
    println!("M = {soft_size}: {histories} histories up to length {longest}, {states} states, {calls} calls, {:.1?}", begun.elapsed());
    Ok(states)
}

/// Prints how often each number was answered, in the histories and in the cases; how many numbers were.
fn table(histories: &Archive, cases: &Archive) -> usize {
    println!("No  histories      cases");
    let mut reached = 0;
    for number in std::iter::once(0).chain(refusal_numbers()) {
        let (first, second) = (histories.answered[number as usize], cases.answered[number as usize]);
        println!("{number:2} {first:10} {second:10}{}", if first + second == 0 { "  not reached" } else { "" });
        reached += (number > 0 && first + second > 0) as usize;
    }
    reached
}
