//! A small model of document 01's "Delta bytes", for what the original cannot be asked: 41, 43, 42 on encoding, 44, and huge claims.
//! Written from the document's words; the limit of keys is a parameter.

use std::collections::BTreeSet;

pub type Key = [u8; 32];

/// A key, and the place of its value in the input where it is present.
#[derive(Clone, Copy, PartialEq, Debug)]
pub struct Row {
    pub key: Key,
    pub value: Option<(usize, usize)>,
}

pub struct Reading {
    /// The rows in ascending key order and the bytes consumed, or 40, 41 or 42.
    pub outcome: Result<(Vec<Row>, usize), u32>,
    /// The largest value length that was read before the outcome was known.
    pub largest_claim: u32,
}

struct Reader<'a> {
    input: &'a [u8],
    at: usize,
}

impl Reader<'_> {
    fn take(&mut self, length: usize) -> Result<usize, u32> {
        if self.input.len() - self.at < length {
            return Err(40);
        }
        self.at += length;
        Ok(self.at - length)
    }

    fn number(&mut self) -> Result<u32, u32> {
        let at = self.take(4)?;
        Ok(u32::from_le_bytes([self.input[at], self.input[at + 1], self.input[at + 2], self.input[at + 3]]))
    }

    fn key(&mut self) -> Result<Key, u32> {
        let at = self.take(32)?;
        let mut key = [0; 32];
        key.copy_from_slice(&self.input[at..at + 32]);
        Ok(key)
    }
}

pub fn decode(input: &[u8], limit: u64) -> Reading {
    let mut largest_claim = 0;
    let mut reader = Reader { input, at: 0 };
    let outcome = rows(&mut reader, limit, &mut largest_claim).map(|mut rows| {
        rows.sort_by_key(|row| row.key);
        (rows, reader.at)
    });
    Reading { outcome, largest_claim }
}

fn rows(reader: &mut Reader, limit: u64, largest_claim: &mut u32) -> Result<Vec<Row>, u32> {
    let mut rows = Vec::new();
    let mut seen = BTreeSet::new();
    let mut total = 0;
    for present in [false, true] {
        let count = reader.number()?;
        total += count as u64;
        if total > limit {
            return Err(41);
        }
        for _ in 0..count {
            let key = reader.key()?;
            let mut value = None;
            if present {
                let length = reader.number()?;
                *largest_claim = length.max(*largest_claim);
                value = Some((reader.take(length as usize)?, length as usize));
            }
            if !seen.insert(key) {
                return Err(42);
            }
            rows.push(Row { key, value });
        }
    }
    Ok(rows)
}

/// The bytes of a delta with its rows in the order given, their values taken from `values`.
pub fn bytes(rows: &[Row], values: &[u8]) -> Vec<u8> {
    let erased: Vec<&Row> = rows.iter().filter(|row| row.value.is_none()).collect();
    let mut bytes = (erased.len() as u32).to_le_bytes().to_vec();
    erased.iter().for_each(|row| bytes.extend_from_slice(&row.key));
    bytes.extend_from_slice(&((rows.len() - erased.len()) as u32).to_le_bytes());
    for row in rows {
        if let Some((at, length)) = row.value {
            bytes.extend_from_slice(&row.key);
            bytes.extend_from_slice(&(length as u32).to_le_bytes());
            bytes.extend_from_slice(&values[at..at + length]);
        }
    }
    bytes
}

/// The delta's bytes with each group in ascending key order.
pub fn sorted(delta: &[u8]) -> Option<Vec<u8>> {
    let (rows, consumed) = decode(delta, u64::MAX).outcome.ok()?;
    Some(bytes(&rows, &delta[..consumed]))
}

/// Whether a key stands in two of the rows.
pub fn has_duplicate(rows: &[Row]) -> bool {
    rows.iter().map(|row| row.key).collect::<BTreeSet<Key>>().len() < rows.len()
}
