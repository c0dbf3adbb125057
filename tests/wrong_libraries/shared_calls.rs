//! A library that is document 01's model itself, so that an error of the model (shared.py) is one of the library too. It stands in the
//! place of oracle/src/calls.rs: what names a departure must then look at the original's side.

#![allow(dead_code)]

#[path = "right_calls.rs"]
mod right;

pub use right::*;

use crate::ffi::*;
use crate::{delta_model, log_model};
use std::sync::OnceLock;

/// Whether this is the error of the run.
pub fn wrong(name: &str) -> bool {
    static CHOSEN: OnceLock<String> = OnceLock::new();
    CHOSEN.get_or_init(|| std::env::var("IFLUGHAN_WRONG").unwrap_or_default()) == name
}

fn logged(answer: Result<Log, log_model::Refusal>, log: &Log) -> Logged {
    let (refusal, log) = answer.map_or_else(|refusal| (refusal.number, *log), |next| (0, next));
    Logged { refusal, reserved: 0, log }
}

pub fn append(log: &Log, area: &mut [u8], payload: &[u8]) -> Appended {
    let Logged { refusal, reserved, log } = logged(log_model::append(log, area, payload), log);
    Appended { refusal, reserved, id: if refusal == 0 { log.end_live } else { 0 }, log }
}

pub fn prune_oldest(log: &Log, area: &mut [u8], new_start_live: u64) -> Logged {
    logged(log_model::prune_oldest(log, area, new_start_live), log)
}

pub fn prune_recent(log: &Log, area: &mut [u8], new_end_live: u64) -> Logged {
    logged(log_model::prune_recent(log, area, new_end_live), log)
}

pub fn recover(shape: Shape, area: &mut [u8], images: &[Image], s: u64, e: u64, index: &mut [u64]) -> Recovered {
    match log_model::recover(shape, area, images, s, e, index) {
        Ok((log, rows)) => Recovered { refusal: 0, reserved: 0, rows, log },
        Err(refusal) => Recovered { refusal: refusal.number, reserved: 0, rows: 0, log: NO_LOG },
    }
}

pub fn delta_decode(input: &[u8]) -> Decoded {
    let mut answer = Decoded { refusal: 0, reserved: 0, consumed: 0, table: NO_DELTA };
    match delta_model::decode(input, 256).outcome {
        Err(number) => answer.refusal = number,
        Ok((rows, consumed)) => {
            (answer.consumed, answer.table.count) = (consumed as u64, rows.len() as u64);
            for (place, row) in answer.table.rows.iter_mut().zip(rows) {
                let (offset, length) = row.value.unwrap_or((0, 0));
                let present = row.value.is_some() as u8;
                *place = DeltaRow { key: row.key, present, offset: offset as u64, length: length as u32, ..NO_ROW };
            }
        }
    }
    answer
}
