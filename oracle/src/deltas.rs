//! Deltas: both sides decode the same inputs and encode the same tables.
//! Compared: acceptance, number of the refusal, keys, marks, values, bytes consumed, bytes written and those that must stay.

use crate::calls::{NO_DELTA, NO_ROW, NO_WRITTEN};
use crate::causes;
use crate::delta_cases::{draft, input, usual_draft};
use crate::delta_model::{decode, has_duplicate, sorted, Row};
use crate::departures::{CLAIMED_LENGTH, DELTA_BUFFER, GROUP_ORDER, KEY_LIMIT, TABLE_DUPLICATE, VALUE_PLACE};
use crate::ffi::{Decoded, Delta, DeltaRow, Written};
use crate::lent::Lent;
use crate::original::Priors;
use crate::rng::Rng;
use crate::table::{hex, Table};
use crate::{calls, original};
use std::collections::HashMap;

const LIMIT: u64 = 256;
/// The original is not run on inputs that make it ask for more than this.
const LARGEST_CLAIM: u32 = 1 << 20;

pub fn run(size: u64, seed: u64) -> Table {
    let mut table = Table::new(format!("deltas, seed {}", seed));
    let mut rng = Rng::new(seed);
    while table.cases < size {
        match rng.below(200) {
            0 => every_truncation(&mut table, &mut rng),
            1..=149 => compare_decode(&mut table, &input(&mut rng)),
            _ => encode_case(&mut rng).compare(&mut table),
        }
    }
    table
}

fn every_truncation(table: &mut Table, rng: &mut Rng) {
    let count = rng.below(4) as usize;
    let whole = draft(rng, count, 50).bytes();
    for length in 0..=whole.len().min(200) {
        compare_decode(table, &whole[..length]);
    }
}

/// The map that the original holds for these rows.
pub fn priors(rows: &[Row], values: &[u8]) -> Priors {
    rows.iter().map(|row| (row.key, row.value.map(|(at, length)| values[at..at + length].to_vec()))).collect()
}

fn compare_decode(table: &mut Table, input: &[u8]) {
    table.cases += 1;
    let lent = Lent::new(input, 0xA5);
    let ours = calls::delta_decode(lent.content());
    let model = decode(input, LIMIT);
    if !answers(&ours, &model.outcome) || !lent.unchanged(input) {
        let answer = (ours.refusal, ours.consumed, ours.table.count);
        return table.differs(input.len(), || {
            format!("  decode {}: (refusal, consumed, count) {:?}, document 01 {:?}", hex(input), answer, model.outcome)
        });
    }
    let number = model.outcome.as_ref().err().copied().unwrap_or(0);
    let largest_claim = if number == 41 { decode(input, u64::MAX).largest_claim } else { model.largest_claim };
    if largest_claim > LARGEST_CLAIM && (number != 41 || causes::keys_claimed(input) > LIMIT) {
        return table.departs(&format!("decode: {}, rust not run: claims over 1 MiB", number), &CLAIMED_LENGTH);
    }
    match (&model.outcome, original::delta_decode(input)) {
        (Err(41), Ok((map, _))) if map.len() as u64 > LIMIT => table.departs("decode: 41, the Rust accepts", &KEY_LIMIT),
        (Err(41), Err(number)) if causes::keys_claimed(input) > LIMIT => {
            table.departs(&format!("decode: 41, the Rust refuses with {}", number), &KEY_LIMIT)
        }
        (Err(number), Err(originals)) if *number == originals => table.alike(&format!("decode: {}", number)),
        (Ok((rows, consumed)), Ok((map, position))) if map == priors(rows, input) && position == *consumed as u64 => {
            table.alike(if *consumed < input.len() { "decode: accepted, bytes follow" } else { "decode: accepted" })
        }
        (ours, originals) => {
            table.differs(input.len(), || format!("  decode {}: ours {:?}, the original {:?}", hex(input), ours, originals))
        }
    }
}

/// Whether a decoded answer is the one expected, all 256 rows of it.
fn answers(ours: &Decoded, expected: &Result<(Vec<Row>, usize), u32>) -> bool {
    let (refusal, consumed, rows) = match expected {
        Ok((rows, consumed)) => (0, *consumed as u64, &rows[..]),
        Err(number) => (*number, 0, &[][..]),
    };
    let expected_rows = rows.iter().map(|row| {
        let (offset, length) = row.value.unwrap_or((0, 0));
        DeltaRow { key: row.key, present: row.value.is_some() as u8, offset: offset as u64, length: length as u32, ..NO_ROW }
    });
    (ours.refusal, ours.reserved) == (refusal, 0)
        && ours.consumed == consumed
        && ours.table.count == rows.len() as u64
        && expected_rows.chain(std::iter::repeat(NO_ROW)).zip(&ours.table.rows).all(|(row, our)| row == *our)
}

/// A table to encode, the slice its values lie in and the length of the output.
struct EncodeCase {
    table: Delta,
    values: Vec<u8>,
    out_length: usize,
}

impl EncodeCase {
    /// 43, 42 or the rows, from document 01.
    fn rows(&self) -> Result<Vec<Row>, u32> {
        if self.table.count > LIMIT {
            return Err(43);
        }
        let listed = &self.table.rows[..self.table.count as usize];
        let outside = |row: &DeltaRow| row.present != 0 && row.offset as u128 + row.length as u128 > self.values.len() as u128;
        if listed.iter().any(outside) {
            return Err(43);
        }
        let place = |row: &DeltaRow| (row.offset as usize, row.length as usize);
        let value = |row: &DeltaRow| if row.present != 0 { Some(place(row)) } else { None };
        let rows: Vec<Row> = listed.iter().map(|row| Row { key: row.key, value: value(row) }).collect();
        if has_duplicate(&rows) {
            return Err(42);
        }
        Ok(rows)
    }

    /// How many keys the original's map would hold.
    fn map_size(&self) -> usize {
        self.table.rows[..self.table.count as usize].iter().map(|row| (row.key, ())).collect::<HashMap<_, _>>().len()
    }

    fn compare(&self, table: &mut Table) {
        table.cases += 1;
        let rows = self.rows();
        // What the original writes for the same map, its groups sorted.
        let original_bytes = rows.as_ref().ok().map(|rows| original::delta_encode(priors(rows, &self.values)));
        let expected = match &original_bytes {
            Some(bytes) => sorted(bytes).expect("the original decodes what it encodes"),
            None => Vec::new(),
        };
        let refusal = match rows {
            Err(number) => number,
            Ok(_) if self.out_length < expected.len() => 44,
            Ok(_) => 0,
        };
        let length = if refusal == 0 { expected.len() } else { 0 };
        let before: Vec<u8> = (0..self.out_length).map(|at| at as u8 ^ 0x5A).collect();
        let (values, mut out) = (Lent::new(&self.values, 0xA5), Lent::new(&before, 0xA5));
        let answer = calls::delta_encode(&self.table, values.content(), out.content_mut());
        let stays = values.unchanged(&self.values) && out.guards_intact();
        let written = out.content()[..length] == expected[..length] && out.content()[length..] == before[length..];
        if answer != (Written { refusal, length: length as u64, ..NO_WRITTEN }) || !stays || !written {
            return self.differs(table, format!("{:?}, expected {} and {} bytes", answer, refusal, length));
        }
        match refusal {
            42 if self.map_size() < self.table.count as usize => table.departs("encode: 42, not to be had in the Rust", &TABLE_DUPLICATE),
            42 => self.differs(table, "42, and the Rust's map has a place for each row".to_string()),
            43 if self.table.count > LIMIT => table.departs("encode: 43, over 256 rows", &KEY_LIMIT),
            43 => table.departs("encode: 43, a value outside its slice", &VALUE_PLACE),
            44 => table.departs("encode: 44, the Rust makes its own vector", &DELTA_BUFFER),
            _ => self.compare_decoded(table, out.content(), &original_bytes.unwrap_or_default()),
        }
    }

    /// Each side decodes what the other wrote, to the same map.
    fn compare_decoded(&self, table: &mut Table, ours: &[u8], originals: &[u8]) {
        let map = |delta: &[u8]| original::delta_decode(delta).map(|(map, position)| (map, position));
        let crossed = calls::delta_decode(originals);
        if map(ours) != map(originals) || !answers(&crossed, &decode(originals, LIMIT).outcome) {
            return self.differs(table, "decoded by the other side, it is another map".to_string());
        }
        if ours[..originals.len()] == *originals {
            table.alike("encode: accepted, the same bytes");
        } else {
            table.departs("encode: accepted, the same bytes once the Rust's groups are sorted", &GROUP_ORDER);
        }
    }

    fn differs(&self, table: &mut Table, what: String) {
        let rows = &self.table.rows[..self.table.count.min(LIMIT) as usize];
        table.differs(rows.len() * 56 + self.values.len() + self.out_length, || {
            format!(
                "  encode, count {}, rows {:?}, values {}, output {}: {}",
                self.table.count,
                rows,
                hex(&self.values),
                self.out_length,
                what
            )
        });
    }
}

/// A valid table in any order, with odd marks, and now and then damaged: a value outside, a key twice, a count over the limit.
fn encode_case(rng: &mut Rng) -> EncodeCase {
    // A count over the limit stands on 256 good rows, so that nothing but the count is wrong.
    let over_limit = rng.once_in(40);
    let mut draft = if over_limit { draft(rng, LIMIT as usize, 50) } else { usual_draft(rng) };
    draft.rows.truncate(LIMIT as usize);
    let encoded_length = draft.bytes().len();
    let mut table = Delta { count: draft.rows.len() as u64, ..NO_DELTA };
    for (place, row) in table.rows.iter_mut().enumerate() {
        *row = match draft.rows.get(place) {
            Some(row) => exported_row(rng, row),
            None if rng.once_in(2) => NO_ROW,
            None => DeltaRow { key: [rng.next() as u8; 32], present: 1, offset: rng.next(), length: rng.next() as u32, ..NO_ROW },
        };
    }
    let (values, count) = (draft.values, table.count);
    if rng.once_in(6) && count > 0 {
        let row = &mut table.rows[rng.below(count) as usize];
        let end = values.len() as u64;
        row.offset = rng.pick_number(&[end, end + 1, end.wrapping_sub(1), end.wrapping_sub(row.length as u64), u64::MAX, 1 << 32]);
        row.length = rng.pick_number(&[row.length as u64, 0, 1, end, u32::MAX as u64]) as u32;
    }
    if rng.once_in(6) && count > 1 {
        let mut key = table.rows[rng.below(count) as usize].key;
        key[31] ^= rng.below(2) as u8;
        table.rows[rng.below(count) as usize].key = key;
    }
    if over_limit {
        table.count = rng.pick_number(&[257, 258, 1 << 16, 1 << 32, u64::MAX]);
    }
    let out_length = match rng.below(6) {
        0 => rng.below(encoded_length as u64 + 1) as usize,
        1 => encoded_length - 1,
        2 => encoded_length,
        _ => encoded_length + rng.below(70) as usize,
    };
    EncodeCase { table, values, out_length }
}

/// A row as the C interface has it: any mark but 0 is present, an absent row's place and the reserved bytes are ignored.
fn exported_row(rng: &mut Rng, row: &Row) -> DeltaRow {
    let junk = rng.pick_number(&[0, 0, 1, u64::MAX]);
    let (present, offset, length) = match row.value {
        Some((at, length)) => (rng.pick_number(&[1, 1, 1, 2, 128, 255]) as u8, at as u64, length as u32),
        None => (0, junk, junk as u32),
    };
    DeltaRow { key: row.key, present, reserved: [junk as u8; 7], offset, length, reserved_too: junk as u32 }
}
