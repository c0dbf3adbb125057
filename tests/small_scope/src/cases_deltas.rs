//! Deltas: every refusal from 40 to 44, their order, the specimens, and all ways to order and mark three keys.
//! Decoding what was encoded gives the same keys, marks and values in ascending order.

use crate::archive::{hold, Archive, Checked, NO_DELTA, NO_ROW};
use crate::ffi::{Delta, DeltaRow};

fn key(number: u8) -> [u8; 32] {
    // Only the last bit and the first byte differ, so that a comparison of a part of the key shows.
    let mut key = [0x55; 32];
    (key[0], key[31]) = (number / 2, number % 2);
    key
}

fn delta(erased: &[[u8; 32]], reinstated: &[([u8; 32], &[u8])]) -> Vec<u8> {
    let mut bytes = (erased.len() as u32).to_le_bytes().to_vec();
    bytes.extend(erased.iter().flatten());
    bytes.extend((reinstated.len() as u32).to_le_bytes());
    for (key, value) in reinstated {
        bytes.extend(key);
        bytes.extend((value.len() as u32).to_le_bytes());
        bytes.extend(*value);
    }
    bytes
}

fn row(key: [u8; 32], present: u8, offset: u64, length: u32) -> DeltaRow {
    DeltaRow { key, present, offset, length, ..NO_ROW }
}

fn table(rows: &[DeltaRow]) -> Delta {
    let mut table = Delta { count: rows.len() as u64, ..NO_DELTA };
    table.rows[..rows.len()].copy_from_slice(rows);
    table
}

pub fn run(archive: &mut Archive) -> Checked<()> {
    decoded(archive)?;
    ends_early(archive)?;
    encoded(archive)?;
    for first in 0..3 {
        for second in (0..3).filter(|second| *second != first) {
            for marks in 0..8 {
                round_trip(archive, [first, second, 3 - first - second], marks)?;
            }
        }
    }
    Ok(())
}

fn many(count: u32) -> Vec<[u8; 32]> {
    (0..count).map(|at| [(at >> 8) as u8; 32].map(|byte| byte ^ (at as u8))).collect()
}

fn decoded(archive: &mut Archive) -> Checked<()> {
    let none: &[([u8; 32], &[u8])] = &[];
    let (mut over, mut no_more) = (delta(&many(256), none), delta(&[], none));
    over.truncate(4 + 256 * 32);
    over.extend(1u32.to_le_bytes());
    no_more[..4].copy_from_slice(&257u32.to_le_bytes());
    let mut wraps = delta(&[key(1)], none);
    wraps[36..].copy_from_slice(&u32::MAX.to_le_bytes());
    let cases: [(&str, Vec<u8>, u32); 12] = [
        ("empty", delta(&[], none), 0),
        ("one erased key", delta(&[key(1)], none), 0),
        ("one reinstated key", delta(&[], &[(key(1), b"abc")]), 0),
        ("256 keys", delta(&many(256), none), 0),
        ("the sum passes 256", over, 41),
        ("257 keys, before they are read", no_more, 41),
        ("1 + (2^32 - 1) keys", wraps, 41),
        ("a key in both groups", delta(&[key(1)], &[(key(1), b"abc")]), 42),
        ("a key erased twice", delta(&[key(0), key(1), key(0)], none), 42),
        ("a key reinstated twice", delta(&[], &[(key(1), b""), (key(1), b"")]), 42),
        ("42 before a later 40", delta(&[key(0), key(0)], none)[..68].to_vec(), 42),
        ("keys that differ in one bit", delta(&[key(0)], &[(key(1), b"")]), 0),
    ];
    for (case, input, number) in cases {
        let answer = archive.decode(&input)?;
        hold(answer.refusal == number, &format!("case {case}: decoding answers {}, document 01 says {number}", answer.refusal))?;
        hold(number != 0 || answer.consumed == input.len() as u64, &format!("case {case}: consumed {}", answer.consumed))?;
    }
    Ok(())
}

/// Each shorter input is 40, but for a longer one what follows is not read.
fn ends_early(archive: &mut Archive) -> Checked<()> {
    let whole = delta(&[key(3), key(1)], &[(key(2), b"abc"), (key(0), b"")]);
    for length in 0..whole.len() {
        hold(archive.decode(&whole[..length])?.refusal == 40, &format!("a delta cut to {length} bytes is not 40"))?;
    }
    let answer = archive.decode(&[&whole[..], &[0xff; 9]].concat())?;
    let expected = table(&[row(key(0), 1, 147, 0), row(key(1), 0, 0, 0), row(key(2), 1, 108, 3), row(key(3), 0, 0, 0)]);
    hold(answer.refusal == 0 && answer.consumed == whole.len() as u64, "what follows a delta is read")?;
    hold(answer.table == expected, "a delta decodes to other rows")
}

fn encoded(archive: &mut Archive) -> Checked<()> {
    let values = b"abcdef";
    let mut over = NO_DELTA;
    over.count = 257;
    let mut ignored = table(&[row(key(1), 0, u64::MAX, u32::MAX)]);
    ignored.rows[1] = row(key(1), 1, u64::MAX, u32::MAX);
    let cases: [(&str, Delta, usize, Result<u64, u32>); 14] = [
        ("empty", NO_DELTA, 8, Ok(8)),
        ("one erased key", table(&[row(key(1), 0, 0, 0)]), 40, Ok(40)),
        ("one reinstated key", table(&[row(key(1), 1, 3, 3)]), 47, Ok(47)),
        ("any mark but 0 is present", table(&[row(key(1), 255, 6, 0)]), 44, Ok(44)),
        ("an absent row's place and rows beyond the count", ignored, 40, Ok(40)),
        ("257 rows", over, 0, Err(43)),
        ("2^64 - 1 rows", Delta { count: u64::MAX, ..NO_DELTA }, 0, Err(43)),
        ("a value past its slice", table(&[row(key(1), 1, 4, 3)]), 99, Err(43)),
        ("an empty value past its slice", table(&[row(key(1), 1, 7, 0)]), 99, Err(43)),
        ("offset + length wraps", table(&[row(key(1), 1, u64::MAX, 1)]), 99, Err(43)),
        ("43 before 42", table(&[row(key(1), 0, 0, 0), row(key(1), 1, 7, 0)]), 0, Err(43)),
        ("42 before 44", table(&[row(key(1), 0, 0, 0), row(key(1), 1, 0, 1)]), 0, Err(42)),
        ("output one byte short", table(&[row(key(1), 1, 3, 3)]), 46, Err(44)),
        ("no output", NO_DELTA, 0, Err(44)),
    ];
    for (case, table, length, expected) in cases {
        let (answer, _) = archive.encode(&table, values, &vec![0x80; length])?;
        let answered = if answer.refusal == 0 { Ok(answer.length) } else { Err(answer.refusal) };
        hold(answered == expected, &format!("case {case}: encoding answers {answered:?}, document 01 says {expected:?}"))?;
    }
    Ok(())
}

/// Three keys in some order, each marked by a bit, with values of 0 to 2 bytes.
fn round_trip(archive: &mut Archive, order: [u8; 3], marks: u8) -> Checked<()> {
    let values = b"\x07xyzw";
    let place = |number: u8| (1 + (number as u64), number as u32);
    let present = |number: u8| marks >> number & 1;
    let rows = order.map(|number| row(key(number), 2 * present(number), place(number).0, place(number).1));
    let value = |number: u8| &values[place(number).0 as usize..][..place(number).1 as usize];
    let erased: Vec<_> = (0..3).filter(|number| present(*number) == 0).map(key).collect();
    let reinstated: Vec<_> = (0..3).filter(|number| present(*number) == 1).map(|number| (key(number), value(number))).collect();
    let expected = delta(&erased, &reinstated);
    let (answer, out) = archive.encode(&table(&rows), &values[..], &vec![0x80; expected.len() + 7])?;
    hold(answer.refusal == 0 && answer.length == expected.len() as u64, "a delta has another length")?;
    hold(out == [&expected[..], &[0x80; 7]].concat(), "a delta has other bytes")?;
    let back = archive.decode(&out)?;
    hold(back.refusal == 0 && back.consumed == expected.len() as u64 && back.table.count == 3, "a delta does not read back")?;
    for (number, row) in (0..3).zip(&back.table.rows) {
        let delivered = &out[row.offset as usize..][..row.length as usize];
        let wanted: &[u8] = if present(number) == 1 { value(number) } else { b"" };
        hold(row.key == key(number) && row.present == present(number) && delivered == wanted, "a row reads back otherwise")?;
    }
    Ok(())
}
