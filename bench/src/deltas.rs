//! Decoding and encoding of deltas, outputs compared. The original builds a hash map and copies each value.

use crate::calls;
use crate::original;
use crate::timing::{compare, per_call};
use std::hint::black_box;

/// Keys that differ in their first bytes, half of them to erase where there are no values.
fn priors(keys: usize, value: usize) -> original::Priors {
    (0..keys)
        .map(|i| {
            let mut key = [0u8; 32];
            key[..8].copy_from_slice(&(i as u64).wrapping_mul(0x9E37_79B9_7F4A_7C15).to_le_bytes());
            (key, Some(vec![i as u8; value]))
        })
        .collect()
}

const CASES: [(usize, usize); 6] = [(16, 0), (16, 40), (16, 4000), (256, 0), (256, 40), (256, 4000)];

pub fn decode(rounds: usize) {
    for (keys, value) in CASES {
        let bytes = original::delta_encode(priors(keys, value));
        let ours = calls::delta_decode(&bytes);
        let (theirs, consumed) = original::delta_decode(&bytes).expect("a delta");
        assert_eq!((ours.refusal, ours.consumed, ours.table.count), (0, consumed, theirs.len() as u64));
        for row in &ours.table.rows[..keys] {
            let held = &bytes[row.offset as usize..row.offset as usize + row.length as usize];
            assert_eq!(theirs[&row.key].as_deref(), Some(held));
        }
        let calls = if keys * value > 100_000 { 20 } else { 200 };
        let run_ours = || per_call(calls, || assert_eq!(black_box(calls::delta_decode(black_box(&bytes))).refusal, 0));
        let run_theirs = || per_call(calls, || drop(black_box(original::delta_decode(black_box(&bytes)))));
        compare(
            "decode",
            &format!("{} keys, values of {}", keys, value),
            rounds,
            vec![Some(Box::new(run_ours)), None, Some(Box::new(run_theirs))],
        );
    }
}

pub fn encode(rounds: usize) {
    for (keys, value) in CASES {
        let bytes = original::delta_encode(priors(keys, value));
        let table = calls::delta_decode(&bytes).table;
        let mut out = vec![0u8; bytes.len()];
        assert_eq!(calls::delta_encode(&table, &bytes, &mut out).length, bytes.len() as u64);
        assert_eq!(original::delta_decode(&out).expect("a delta").0, priors(keys, value));
        let delta = original::Delta { priors: priors(keys, value) };
        let calls = if keys * value > 100_000 { 20 } else { 200 };
        let run_ours = || per_call(calls, || assert_eq!(black_box(calls::delta_encode(black_box(&table), &bytes, &mut out)).refusal, 0));
        let run_theirs = || per_call(calls, || drop(black_box(original::encoded(&delta))));
        compare(
            "encode",
            &format!("{} keys, values of {}", keys, value),
            rounds,
            vec![Some(Box::new(run_ours)), None, Some(Box::new(run_theirs))],
        );
    }
}
