//! The table of outcome classes that a comparison prints, and what differs.
//! A class may name a departure (a row of docs/DIFFERENCES.md) that explains why the two sides do not answer alike there.

use crate::departures::Departure;
use std::collections::{BTreeMap, BTreeSet};
use std::time::Instant;

/// The classes that the gate's run must reach: part, class and row, as `oracle/run classes` prints them.
const EXPECTED: &str = include_str!("../classes.txt");
const ALIKE: &str = "both alike";

pub struct Table {
    pub title: String,
    started: Instant,
    /// By class and row; a class may have several rows.
    classes: BTreeMap<(String, &'static str), u64>,
    pub cases: u64,
    pub differences: u64,
    smallest: Option<(usize, String)>,
}

impl Table {
    pub fn new(title: String) -> Table {
        Table { title, started: Instant::now(), classes: BTreeMap::new(), cases: 0, differences: 0, smallest: None }
    }

    /// Counts one outcome in which both sides answer alike, or in which nothing but ours is asked.
    pub fn alike(&mut self, class: &str) {
        self.count(class, ALIKE);
    }

    /// Counts one outcome that a row of docs/DIFFERENCES.md explains.
    pub fn departs(&mut self, class: &str, departure: &'static Departure) {
        self.count(class, departure.row);
    }

    fn count(&mut self, class: &str, row: &'static str) {
        *self.classes.entry((class.to_string(), row)).or_insert(0) += 1;
    }

    /// Counts one case that no rule explains, and keeps its description where its input is the smallest so far.
    pub fn differs(&mut self, input_size: usize, describe: impl FnOnce() -> String) {
        self.differences += 1;
        if self.smallest.as_ref().map_or(true, |(size, _)| input_size < *size) {
            self.smallest = Some((input_size, describe()));
        }
    }

    pub fn print(&self) {
        println!("{} ({:.1} s)", self.title, self.started.elapsed().as_secs_f64());
        for ((class, row), count) in &self.classes {
            println!("  {:>9}  {:<70}  {}", count, class, row);
        }
        if let Some((_, description)) = &self.smallest {
            println!("  {} differences, the smallest input:\n{}", self.differences, description);
        }
    }

    /// The classes reached, as classes.txt has them.
    pub fn reached(&self, part: &str) -> BTreeSet<String> {
        self.classes.keys().map(|(class, row)| format!("{} | {} | {}", part, class, row)).collect()
    }

    /// Prints the classes that were expected and not reached; how many they are.
    pub fn missing(&self, part: &str) -> u64 {
        let reached = self.reached(part);
        let of_part = EXPECTED.lines().filter(|line| line.split(" | ").next() == Some(part));
        let missing: Vec<&str> = of_part.filter(|line| !reached.contains(*line)).collect();
        missing.iter().for_each(|class| println!("  no case any more: {}", class));
        missing.len() as u64
    }
}

/// Bytes in hex, for a description; `-` where there are none.
pub fn hex(bytes: &[u8]) -> String {
    if bytes.is_empty() {
        return "-".to_string();
    }
    let digit = |value: u8| char::from(b"0123456789abcdef"[value as usize]);
    bytes.iter().flat_map(|byte| [digit(byte >> 4), digit(byte & 15)]).collect()
}
