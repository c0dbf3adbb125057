//! Deltas: for each key what it held before a commit.
//!
//! Encoding and decoding take up to 144 KiB of stack, 192 KiB without optimization: the archive's table is handed on by value.
use crate::{calls, ffi, memory, Error, Refusal};
use alloc::vec::Vec;
use core::fmt;

const MOST_KEYS: usize = 256;

/// A key, and the value that it gets back. `Debug` prints the value's length alone.
#[derive(Clone, Copy, PartialEq, Eq)]
pub struct Entry<'a> {
    /// The key.
    pub key: [u8; 32],
    /// None where the key is to be erased.
    pub value: Option<&'a [u8]>,
}

impl fmt::Debug for Entry<'_> {
    fn fmt(&self, f: &mut fmt::Formatter<'_>) -> fmt::Result {
        f.debug_struct("Entry")
            .field("value_bytes", &self.value.map(<[u8]>::len))
            .finish_non_exhaustive()
    }
}

/// A decoded delta.
#[derive(Clone, Debug, PartialEq, Eq)]
pub struct Delta<'a> {
    /// In ascending key order.
    pub entries: Vec<Entry<'a>>,
    /// The bytes that the delta took of its input.
    pub consumed: usize,
}

/// Reads the delta at the front of `input`; the values stay where they lie. Refuses with 40, 41, 42.
pub fn decode(input: &[u8]) -> Result<Delta<'_>, Error> {
    let (consumed, table) = calls::delta_decode(input)?;
    let rows = &table.rows[..table.count as usize];
    let mut entries = Vec::new();
    memory::reserve(&mut entries, rows.len())?;
    entries.extend(rows.iter().map(|row| entry(row, input)));
    Ok(Delta { entries, consumed })
}

fn entry<'a>(row: &ffi::DeltaRow, input: &'a [u8]) -> Entry<'a> {
    let value = || &input[row.offset as usize..][..row.length as usize];
    Entry {
        key: row.key,
        value: if row.present == 0 {
            None
        } else {
            Some(value())
        },
    }
}

/// The bytes of a delta. The entries may stand in any order. Refuses with 43 (more than 256 entries, or a value of 2^32 bytes or
/// more, which no row can say) and 42.
///
/// ```
/// use iflughan::delta::{self, Entry};
///
/// let erased = Entry { key: [7; 32], value: None };
/// let given_back = Entry { key: [3; 32], value: Some(b"old") };
/// let bytes = delta::encode(&[erased, given_back])?;
/// let decoded = delta::decode(&bytes)?;
/// assert_eq!(decoded.entries, [given_back, erased]);
/// assert_eq!(decoded.consumed, bytes.len());
/// # Ok::<(), iflughan::Error>(())
/// ```
pub fn encode(entries: &[Entry<'_>]) -> Result<Vec<u8>, Error> {
    let given_back = || entries.iter().filter_map(|entry| entry.value);
    if entries.len() > MOST_KEYS || given_back().any(|value| u32::try_from(value.len()).is_err()) {
        return Err(Refusal::TableOutside.into());
    }
    let mut values = Vec::new();
    memory::reserve(&mut values, given_back().map(<[u8]>::len).sum())?;
    let table = table(entries, &mut values);
    let length = 8 + 32 * entries.len() + 4 * given_back().count() + values.len();
    let mut out = memory::zeros(length)?;
    calls::delta_encode(&table, &values, &mut out)?;
    Ok(out)
}

/// A row for each entry; the values stand in `values`, one behind the other.
fn table(entries: &[Entry<'_>], values: &mut Vec<u8>) -> ffi::Delta {
    let mut table = ffi::Delta {
        count: entries.len() as u64,
        rows: [ffi::DeltaRow::default(); MOST_KEYS],
    };
    for (row, entry) in table.rows.iter_mut().zip(entries) {
        row.key = entry.key;
        if let Some(value) = entry.value {
            row.present = 1;
            row.offset = values.len() as u64;
            row.length = value.len() as u32;
            values.extend_from_slice(value);
        }
    }
    table
}
