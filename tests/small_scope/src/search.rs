//! All histories up to a length, breadth first. Histories that lead to the same state (log, area, payloads, next stamp) are continued
//! once; each call of the alphabet is made on each state that has calls left, and held to the model: answer, log, every byte of the area.

use crate::archive::{hold, Archive, Checked};
use crate::demand::{demand_3, recover_own};
use crate::model::{Model, Payload};
use crate::newest::cut_by_one_header;
use std::collections::HashMap;
use std::fmt;

const PAGE: usize = 4096;
const APPENDED_LENGTHS: [usize; 4] = [0, 1, 4084, 4085];

#[derive(Clone, Copy, Debug)]
pub enum Call {
    Append(usize),
    PruneOldest(u64),
    PruneRecent(u64),
    Recover(u64, u64),
}

impl fmt::Display for Call {
    fn fmt(&self, out: &mut fmt::Formatter) -> fmt::Result {
        match self {
            Call::Append(length) => write!(out, "append {length} bytes"),
            Call::PruneOldest(id) => write!(out, "prune oldest to {id}"),
            Call::PruneRecent(id) => write!(out, "prune recent to {id}"),
            Call::Recover(s, e) => write!(out, "recover {s}..{e}"),
        }
    }
}

/// The calls of the alphabet at a state: prunes and recoveries with each id from 0 to the live end + 1.
fn alphabet(end: u64) -> Vec<Call> {
    let ids = 0..=end + 1;
    let mut calls: Vec<Call> = APPENDED_LENGTHS.iter().map(|length| Call::Append(*length)).collect();
    calls.extend(ids.clone().map(Call::PruneOldest));
    calls.extend(ids.clone().map(Call::PruneRecent));
    calls.extend(ids.clone().flat_map(|s| ids.clone().map(move |e| Call::Recover(s, e))));
    calls
}

/// The area stands here by the numbers of its pages' contents, so that states are small and still compared in full.
#[derive(Clone, PartialEq, Eq, Hash)]
struct State {
    model: Model,
    pages: Vec<u32>,
    stamp: u8,
}

/// Each content that a page had, once.
#[derive(Default)]
struct Pages {
    numbers: HashMap<Vec<u8>, u32>,
    contents: Vec<Vec<u8>>,
}

impl Pages {
    fn numbers(&mut self, area: &[u8]) -> Vec<u32> {
        area.chunks(PAGE).map(|page| self.number(page)).collect()
    }

    fn number(&mut self, page: &[u8]) -> u32 {
        if let Some(number) = self.numbers.get(page) {
            return *number;
        }
        self.contents.push(page.to_vec());
        self.numbers.insert(page.to_vec(), self.contents.len() as u32 - 1);
        self.contents.len() as u32 - 1
    }

    fn area(&self, numbers: &[u32]) -> Vec<u8> {
        numbers.iter().flat_map(|number| self.contents[*number as usize].iter().copied()).collect()
    }
}

/// A state that was found, how, and the states that each call of the alphabet leads to.
struct Found {
    state: State,
    from: Option<(usize, Call)>,
    length: usize,
    next: Vec<usize>,
}

pub struct Search {
    found: Vec<Found>,
    known: HashMap<State, usize>,
    pages: Pages,
    longest: usize,
}

impl Search {
    /// Finds all states; the difference, if there is one, comes with its history.
    pub fn run(archive: &mut Archive, shape: (u64, u64, u64), longest: usize) -> Checked<Search> {
        let mut search = Search { found: Vec::new(), known: HashMap::new(), pages: Pages::default(), longest };
        let area: Vec<u8> = (0..shape.0 * shape.1).map(|at| 0x80 | (at % 113) as u8).collect();
        let answer = archive.new_log(shape.0, shape.1, shape.2, &area)?;
        let empty = Model::empty(shape);
        hold(answer.refusal == 0 && answer.log == empty.log(), "a new log is not the empty one")?;
        search.add(empty, &area, 0, None);
        let mut at = 0;
        while at < search.found.len() {
            search.look_at(archive, at).map_err(|difference| format!("{}\n{difference}", search.history(at)))?;
            at += 1;
        }
        Ok(search)
    }

    fn add(&mut self, model: Model, area: &[u8], stamp: u8, from: Option<(usize, Call)>) -> usize {
        let state = State { model, pages: self.pages.numbers(area), stamp };
        if let Some(at) = self.known.get(&state) {
            return *at;
        }
        let length = from.map_or(0, |(at, _)| self.found[at].length + 1);
        self.known.insert(state.clone(), self.found.len());
        self.found.push(Found { state, from, length, next: Vec::new() });
        self.found.len() - 1
    }

    fn look_at(&mut self, archive: &mut Archive, at: usize) -> Checked<()> {
        let State { model, pages, stamp } = self.found[at].state.clone();
        let area = self.pages.area(&pages);
        demand_3(archive, &model, &area, &APPENDED_LENGTHS, stamp)?;
        cut_by_one_header(archive, &model, &area)?;
        rows_asked_for(archive, &model, &area)?;
        if self.found[at].length == self.longest {
            return Ok(());
        }
        for call in alphabet(model.end) {
            let outcome = make(archive, &model, &area, call, stamp).map_err(|difference| format!("{call}\n{difference}"))?;
            let next = match outcome {
                None => at,
                Some((log, bytes)) => self.add(log, &bytes, stamp + matches!(call, Call::Append(_)) as u8, Some((at, call))),
            };
            self.found[at].next.push(next);
        }
        Ok(())
    }

    /// The calls that led to a state, one a line.
    fn history(&self, at: usize) -> String {
        match self.found[at].from {
            None => format!("K, C, M = {:?}", self.found[at].state.model.shape),
            Some((before, call)) => format!("{}\n{call}", self.history(before)),
        }
    }

    pub fn states(&self) -> usize {
        self.found.len()
    }

    /// How many histories of up to the longest length these states stand for.
    pub fn histories(&self) -> u64 {
        let mut ways = vec![1u64; self.found.len()];
        let mut sum = ways[0];
        for _ in 0..self.longest {
            ways = self.found.iter().map(|found| found.next.iter().map(|next| ways[*next]).sum()).collect();
            sum += ways[0];
        }
        sum
    }
}

/// Makes one call and holds it to the model; the log and the area after it, or nothing where it is refused.
fn make(archive: &mut Archive, model: &Model, area: &[u8], call: Call, stamp: u8) -> Checked<Option<(Model, Vec<u8>)>> {
    let log = model.log();
    let (number, log_after, area_after, expected) = match call {
        Call::Append(length) => {
            let payload = Payload { length, stamp };
            let (answer, bytes) = archive.append(&log, area, &payload.bytes())?;
            let expected = model.append(payload).map(|append| {
                let mut area = area.to_vec();
                area[append.at..append.at + append.bytes.len()].copy_from_slice(&append.bytes);
                (append.log, area)
            });
            hold(expected.is_err() || answer.id == model.end + 1, "append answers another id")?;
            (answer.refusal, answer.log, bytes, expected)
        }
        Call::PruneOldest(id) => {
            let answer = archive.prune_oldest(&log, area, id)?;
            (answer.refusal, answer.log, area.to_vec(), model.prune_oldest(id).map(|log| (log, area.to_vec())))
        }
        Call::PruneRecent(id) => {
            let (answer, bytes) = archive.prune_recent(&log, area, id)?;
            (answer.refusal, answer.log, bytes, model.prune_recent(id).map(|log| (log, area.to_vec())))
        }
        Call::Recover(s, e) => return recover(archive, model, area, (s, e)),
    };
    match expected {
        Err(expected) => hold(number == expected, &format!("answers {number}, document 01 says {expected}")).map(|()| None),
        Ok((expected, bytes)) => {
            hold(number == 0, &format!("is refused with {number}"))?;
            hold(log_after == expected.log(), "another log comes back")?;
            hold(area_after == bytes, "the area has other bytes")?;
            Ok(Some((expected, bytes)))
        }
    }
}

/// A recovery with an index of exactly the words needed, with three more, and with one too few.
fn recover(archive: &mut Archive, model: &Model, area: &[u8], (s, e): (u64, u64)) -> Checked<Option<(Model, Vec<u8>)>> {
    let needed = if s == 0 { 0 } else { 4 * (e + 1).saturating_sub(s) as usize };
    recover_own(archive, model, area, (s, e), needed + 3)?.ok();
    if needed > 0 {
        recover_own(archive, model, area, (s, e), needed - 1)?.ok();
    }
    let delivered = recover_own(archive, model, area, (s, e), needed)?;
    Ok(delivered.ok().and_then(|_| model.recover(s, e, needed).ok()).map(|log| (log, area.to_vec())))
}

/// Rows at the borders of 24: good ones give their place, the others are refused.
fn rows_asked_for(archive: &mut Archive, model: &Model, area: &[u8]) -> Checked<()> {
    let (k, c, _) = model.shape;
    let log = model.log();
    for [slot, offset, length] in [[0, 0, c], [k - 1, c, 0], [k - 1, 12, 1]] {
        let part = archive.row(&log, area, [u64::MAX, slot, offset, length])?;
        hold((part.refusal, part.at, part.length) == (0, slot * c + offset, length), "a good row gives another place")?;
    }
    for [slot, offset, length] in [[k, 0, 0], [1 << 32, 0, 0], [0, c, 1], [k - 1, 1, c], [0, u64::MAX, 1], [0, 1, u64::MAX]] {
        hold(archive.row(&log, area, [1, slot, offset, length])?.refusal == 24, "24 is missing")?;
    }
    Ok(())
}
