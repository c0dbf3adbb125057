//! Compares the proved code with the original Rust on the same inputs and prints a table of outcome classes.
//! Usage: driver names|deltas|logs|all [SIZE] [SEED]; driver gate [DIVISOR]; driver classes|claim|departures; driver record FILE [SEED].

mod calls;
mod causes;
mod claim;
mod cut_cases;
mod cuts;
mod delta_cases;
mod delta_model;
mod deltas;
mod departures;
#[allow(dead_code)]
#[path = "../../bindings/rust/src/ffi.rs"]
mod ffi;
mod lent;
mod log_cases;
mod log_cuts;
mod log_model;
mod log_recovery;
mod log_values;
mod logs;
mod name_cases;
mod names;
mod original;
mod original_log;
mod record;
mod record_cuts;
mod record_images;
mod record_logs;
mod rng;
mod table;

use table::Table;

/// A comparison: its name, its size where none is given, its size in the gate, and what runs it with a size and a seed.
struct Part {
    name: &'static str,
    usual: u64,
    gate: u64,
    run: fn(u64, u64) -> Table,
}

const PARTS: [Part; 3] = [
    Part { name: "names", usual: 500_000, gate: 500_000, run: names::run },
    Part { name: "deltas", usual: 300_000, gate: 300_000, run: deltas::run },
    Part { name: "logs", usual: 2_500_000, gate: 200_000, run: logs::run },
];

fn main() {
    lent::watch_accesses();
    original::silence_its_panics();
    let words: Vec<String> = std::env::args().skip(1).collect();
    let word = |at: usize| words.get(at).map_or("", String::as_str);
    let number = |at: usize| words.get(at).map(|word| word.parse::<u64>().unwrap_or_else(|_| usage()));
    match word(0) {
        "departures" => departures::ALL.iter().for_each(|row| println!("{}: {}", row.row, row.says)),
        "record" if words.len() >= 2 => record::write(word(1), number(2).unwrap_or(1)).expect("the sample cannot be written"),
        "claim" if words.len() == 1 => claim::measure(),
        "claim" => claim::child(word(1)),
        "gate" => gate(number(1).unwrap_or(1).max(1)),
        "classes" => PARTS.iter().flat_map(|part| (part.run)(part.gate / 2, 1).reached(part.name)).for_each(|class| println!("{}", class)),
        name => compare(name, number(1), number(2).unwrap_or(1)),
    }
}

fn compare(name: &str, size: Option<u64>, seed: u64) {
    let chosen: Vec<&Part> = PARTS.iter().filter(|part| name == "all" || name == part.name).collect();
    if chosen.is_empty() {
        usage();
    }
    let tables: Vec<Table> = chosen.iter().map(|part| (part.run)(size.unwrap_or(part.usual), seed)).collect();
    end(&tables, 0);
}

/// The gate's sizes, or a part of them, and every class of classes.txt reached.
fn gate(divisor: u64) {
    let tables: Vec<Table> = PARTS.iter().map(|part| (part.run)(part.gate / divisor, 1)).collect();
    let missing = PARTS.iter().zip(&tables).map(|(part, table)| table.missing(part.name)).sum();
    end(&tables, missing);
}

fn end(tables: &[Table], missing: u64) {
    tables.iter().for_each(Table::print);
    let cases: u64 = tables.iter().map(|table| table.cases).sum();
    let differences: u64 = tables.iter().map(|table| table.differences).sum();
    if missing > 0 {
        println!("{} classes of oracle/classes.txt have no case any more", missing);
    }
    println!("{} cases, {} differences", cases, differences);
    std::process::exit((differences > 0 || missing > 0) as i32);
}

fn usage() -> ! {
    eprintln!("usage: oracle/run names|deltas|logs|all [SIZE] [SEED], or gate [DIVISOR], classes, claim, departures, record FILE");
    std::process::exit(2)
}
