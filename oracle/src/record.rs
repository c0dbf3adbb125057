//! Writes a sample of the original's answers over every class, a case a line, to be replayed without any Rust at hand.
//! README.md has the format. It needs nothing of the proved code.

use crate::causes;
use crate::delta_cases::{draft, input, usual_draft};
use crate::delta_model::{decode, sorted};
use crate::name_cases::{id_of, mutated_case, PREFIXES};
use crate::original;
use crate::record_cuts;
use crate::record_images;
use crate::record_logs;
use crate::rng::Rng;
use crate::table::hex;
use std::collections::HashMap;
use std::io::Write;

/// Lines of one class, and lines of one class that are longer than LONG.
const MOST: usize = 120;
const MOST_LONG: usize = 1;
const LONG: usize = 800;
/// No line is longer: the replay reads a line into a fixed buffer.
const LONGEST: usize = 40_000;
const DRAWS: usize = 12_000;

struct Sample {
    lines: Vec<String>,
    taken: HashMap<(String, bool), usize>,
}

impl Sample {
    /// Keeps the line unless its class has enough.
    fn offer(&mut self, class: String, line: impl FnOnce() -> String) {
        let full = |long: bool, most: usize| self.taken.get(&(class.clone(), long)).map_or(false, |taken| *taken >= most);
        if full(false, MOST) && full(true, MOST_LONG) {
            return;
        }
        let line = line();
        let long = line.len() > LONG;
        let taken = self.taken.entry((class, long)).or_insert(0);
        if line.len() <= LONGEST && *taken < if long { MOST_LONG } else { MOST } {
            *taken += 1;
            self.lines.push(line);
        }
    }
}

pub fn write(path: &str, seed: u64) -> std::io::Result<()> {
    let mut sample = Sample { lines: Vec::new(), taken: HashMap::new() };
    let mut rng = Rng::new(seed);
    for _ in 0..DRAWS {
        written_name(&mut sample, &mut rng);
        parsed_name(&mut sample, &mut rng);
        decoded_delta(&mut sample, &mut rng);
        encoded_delta(&mut sample, &mut rng);
    }
    sample.lines.sort_by_key(|line| line.as_bytes()[0]);
    sample.lines.extend(record_logs::lines(seed));
    sample.lines.extend(record_images::lines(seed));
    sample.lines.extend(record_cuts::lines(seed));
    let mut file = std::fs::File::create(path)?;
    sample.lines.iter().try_for_each(|line| writeln!(file, "{}", line))
}

fn written_name(sample: &mut Sample, rng: &mut Rng) {
    let (prefix, id) = (rng.pick(&PREFIXES), id_of(rng));
    let departure = if prefix.is_empty() { 30 } else { 0 };
    let name = original::name_format(prefix, id);
    let line = || format!("W {:02} {} {:08x} {}", departure, hex(prefix.as_bytes()), id, hex(name.as_bytes()));
    sample.offer(format!("W {}", departure), line);
}

fn parsed_name(sample: &mut Sample, rng: &mut Rng) {
    let (prefix, name) = mutated_case(rng);
    let (departure, number, id) = match original::name_parse(&prefix, &name) {
        Ok(id) if causes::of_plus_sign(&prefix, &name, id) => (35, 0, id),
        Ok(id) => (0, 0, id),
        Err(30) => (30, 30, 0),
        Err(number) => (0, number, 0),
    };
    let line = || format!("P {:02} {} {} {:02} {:08x}", departure, hex(prefix.as_bytes()), hex(name.as_bytes()), number, id);
    sample.offer(format!("P {} {}", departure, number), line);
}

fn decoded_delta(sample: &mut Sample, rng: &mut Rng) {
    let input = input(rng);
    if decode(&input, u64::MAX).largest_claim > 1 << 20 {
        return;
    }
    let departure = if decode(&input, 256).outcome == Err(41) { 41 } else { 0 };
    let (number, consumed, rows) = match original::delta_decode(&input) {
        Ok((map, position)) => (0, position, answer_rows(&map)),
        Err(number) => (number, 0, Vec::new()),
    };
    let line = || format!("D {:02} {} {:02} {:08x} {}", departure, hex(&input), number, consumed, hex(&rows));
    sample.offer(format!("D {} {}", departure, number), line);
}

/// The original's map in ascending key order: key, mark, value length (u32 LE), value.
fn answer_rows(map: &original::Priors) -> Vec<u8> {
    let mut keys: Vec<_> = map.keys().collect();
    keys.sort();
    let mut rows = Vec::new();
    for key in keys {
        let value = map[key].as_deref();
        rows.extend_from_slice(key);
        rows.push(value.is_some() as u8);
        rows.extend_from_slice(&(value.map_or(0, <[u8]>::len) as u32).to_le_bytes());
        rows.extend_from_slice(value.unwrap_or(&[]));
    }
    rows
}

fn encoded_delta(sample: &mut Sample, rng: &mut Rng) {
    let delta = if rng.once_in(400) { draft(rng, 256, 50) } else { usual_draft(rng) };
    if delta.rows.len() > 256 {
        return;
    }
    let input = delta.bytes();
    let encoded = original::delta_decode(&input).map(|(map, _)| original::delta_encode(map));
    if let Some(encoded) = encoded.ok().and_then(|bytes| sorted(&bytes)) {
        sample.offer("E".to_string(), || format!("E 00 {} {}", hex(&input), hex(&encoded)));
    }
}
