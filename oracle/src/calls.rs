//! The archive's functions over slices: an empty one goes as NULL. Beside them the values that are all zero, and K, C and M as one.
//! The declarations are those of bindings/rust/src/ffi.rs, which tests/abi holds against header, archive and Rattle sources.

#![allow(dead_code)]

use crate::ffi::*;
use crate::lent::during;

/// K, C and M of a log.
#[derive(Clone, Copy, PartialEq, Debug)]
pub struct Shape {
    pub k: u64,
    pub c: u64,
    pub m: u64,
}

pub const NO_SEGMENT: Segment = Segment { id: 0, slot: 0, size: 0, min: 0, max: 0, newest_at: 0 };
pub const NO_LOG: Log = Log { slots: 0, capacity: 0, soft_size: 0, start_live: 0, end_live: 0, count: 0, segments: [NO_SEGMENT; 64] };
pub const NO_PART: Part = Part { refusal: 0, reserved: 0, at: 0, length: 0 };
pub const NO_WRITTEN: Written = Written { refusal: 0, reserved: 0, length: 0 };
pub const NO_ROW: DeltaRow = DeltaRow { key: [0; 32], present: 0, reserved: [0; 7], offset: 0, length: 0, reserved_too: 0 };
pub const NO_DELTA: Delta = Delta { count: 0, rows: [NO_ROW; 256] };

fn pointer<T>(slice: &[T]) -> *const T {
    if slice.is_empty() {
        std::ptr::null()
    } else {
        slice.as_ptr()
    }
}

fn pointer_mut<T>(slice: &mut [T]) -> *mut T {
    if slice.is_empty() {
        std::ptr::null_mut()
    } else {
        slice.as_mut_ptr()
    }
}

pub fn new(shape: Shape, area: &mut [u8]) -> Logged {
    during("iflughan_new", || unsafe { iflughan_new(shape.k, shape.c, shape.m, pointer_mut(area), area.len()) })
}

pub fn append(log: &Log, area: &mut [u8], payload: &[u8]) -> Appended {
    during("iflughan_append", || unsafe { iflughan_append(*log, pointer_mut(area), area.len(), pointer(payload), payload.len()) })
}

pub fn prune_oldest(log: &Log, area: &mut [u8], new_start_live: u64) -> Logged {
    during("iflughan_prune_oldest", || unsafe { iflughan_prune_oldest(*log, pointer_mut(area), area.len(), new_start_live) })
}

pub fn prune_recent(log: &Log, area: &mut [u8], new_end_live: u64) -> Logged {
    during("iflughan_prune_recent", || unsafe { iflughan_prune_recent(*log, pointer_mut(area), area.len(), new_end_live) })
}

pub fn recover(shape: Shape, area: &mut [u8], images: &[Image], s: u64, e: u64, index: &mut [u64]) -> Recovered {
    let Shape { k, c, m } = shape;
    let (area_len, rows, count, words) = (area.len(), pointer(images), images.len(), index.len());
    during("iflughan_recover", || unsafe {
        iflughan_recover(k, c, m, pointer_mut(area), area_len, rows, count, s, e, pointer_mut(index), words)
    })
}

pub fn row_question(log: &Log, area: &[u8], row: [u64; 4]) -> u32 {
    let [id, slot, offset, length] = row;
    during("iflughan_row_question", || unsafe { iflughan_row_question(*log, pointer(area), area.len(), id, slot, offset, length) })
}

pub fn payload(log: &Log, area: &[u8], row: [u64; 4]) -> Part {
    let [id, slot, offset, length] = row;
    during("iflughan_payload", || unsafe { iflughan_payload(*log, pointer(area), area.len(), id, slot, offset, length) })
}

pub fn name_write(prefix: &[u8], id: u32, out: &mut [u8]) -> Written {
    let (from, length) = (pointer(prefix), prefix.len());
    during("iflughan_name_write", || unsafe { iflughan_name_write(from, length, id, pointer_mut(out), out.len()) })
}

pub fn name_parse(prefix: &[u8], name: &[u8]) -> Parsed {
    during("iflughan_name_parse", || unsafe { iflughan_name_parse(pointer(prefix), prefix.len(), pointer(name), name.len()) })
}

pub fn delta_decode(input: &[u8]) -> Decoded {
    during("iflughan_delta_decode", || unsafe { iflughan_delta_decode(pointer(input), input.len()) })
}

pub fn delta_encode(table: &Delta, values: &[u8], out: &mut [u8]) -> Written {
    let (from, length) = (pointer(values), values.len());
    during("iflughan_delta_encode", || unsafe { iflughan_delta_encode(*table, from, length, pointer_mut(out), out.len()) })
}
