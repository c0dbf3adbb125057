//! One safe function for each function of the archive: slices in place of pointers and lengths, a `Result` in place of the number.
//!
//! They allocate nothing, and work on a log value and an area that the caller holds; [`crate::Log`] holds both for you. They are safe
//! for any argument: the archive is proved to stay inside what it is lent, whatever the log value says, and Rust keeps the lent slices
//! apart.
use crate::ffi::{self, Image};
use crate::{Refusal, Row, Shape};

const ROW_WORDS: usize = 4;

/// The answer where the number is 0, else the refusal.
fn accepted<T>(number: u32, answer: T) -> Result<T, Refusal> {
    match number {
        0 => Ok(answer),
        _ => {
            Err(Refusal::from_number(number)
                .expect("the archive gives no number but document 01's"))
        }
    }
}

/// An empty log over `area`; refuses with 1.
pub fn new(shape: Shape, area: &mut [u8]) -> Result<ffi::Log, Refusal> {
    let Shape {
        slots: k,
        capacity: c,
        soft_size: m,
    } = shape;
    // SAFETY: area's pointer is good for its length.
    let answer = unsafe { ffi::iflughan_new(k, c, m, area.as_mut_ptr(), area.len()) };
    accepted(answer.refusal, answer.log)
}

/// Appends a record: its id and the new log; refuses with 2 to 7.
pub fn append(log: &ffi::Log, area: &mut [u8], payload: &[u8]) -> Result<(u64, ffi::Log), Refusal> {
    // SAFETY: both pointers are good for their lengths, and a `&mut` overlaps nothing.
    let answer = unsafe {
        ffi::iflughan_append(
            *log,
            area.as_mut_ptr(),
            area.len(),
            payload.as_ptr(),
            payload.len(),
        )
    };
    accepted(answer.refusal, (answer.id, answer.log))
}

/// Drops what is older than a record; refuses with 2, 8, 9.
pub fn prune_oldest(
    log: &ffi::Log,
    area: &mut [u8],
    new_start_live: u64,
) -> Result<ffi::Log, Refusal> {
    // SAFETY: area's pointer is good for its length.
    let answer =
        unsafe { ffi::iflughan_prune_oldest(*log, area.as_mut_ptr(), area.len(), new_start_live) };
    accepted(answer.refusal, answer.log)
}

/// Takes back what is newer than a record; refuses with 2, 8, 9, 10.
pub fn prune_recent(
    log: &ffi::Log,
    area: &mut [u8],
    new_end_live: u64,
) -> Result<ffi::Log, Refusal> {
    // SAFETY: area's pointer is good for its length.
    let answer =
        unsafe { ffi::iflughan_prune_recent(*log, area.as_mut_ptr(), area.len(), new_end_live) };
    accepted(answer.refusal, answer.log)
}

/// The log of the records s..e from images in the area, and how many rows were written, from the first on; refuses with 1 and 11
/// to 23. In the images nothing behind the record e is looked at.
pub fn recover(
    shape: Shape,
    area: &mut [u8],
    images: &[Image],
    s: u64,
    e: u64,
    rows: &mut [Row],
) -> Result<(u64, ffi::Log), Refusal> {
    // SAFETY: the three pointers are good for their lengths and aligned, and a `&mut` overlaps nothing; a row is four words.
    let answer = unsafe {
        ffi::iflughan_recover(
            shape.slots,
            shape.capacity,
            shape.soft_size,
            area.as_mut_ptr(),
            area.len(),
            images.as_ptr(),
            images.len(),
            s,
            e,
            rows.as_mut_ptr().cast::<u64>(),
            rows.len() * ROW_WORDS,
        )
    };
    accepted(answer.refusal, (answer.rows, answer.log))
}

/// Whether a row is good for this log and area; refuses with 2, 24.
pub fn row_question(log: &ffi::Log, area: &[u8], row: Row) -> Result<(), Refusal> {
    let Row {
        id,
        slot,
        offset,
        length,
    } = row;
    // SAFETY: area's pointer is good for its length.
    let number = unsafe {
        ffi::iflughan_row_question(*log, area.as_ptr(), area.len(), id, slot, offset, length)
    };
    accepted(number, ())
}

/// A row's payload, as a part of the area; refuses with 2, 24.
pub fn payload<'a>(log: &ffi::Log, area: &'a [u8], row: Row) -> Result<&'a [u8], Refusal> {
    let Row {
        id,
        slot,
        offset,
        length,
    } = row;
    // SAFETY: area's pointer is good for its length.
    let part =
        unsafe { ffi::iflughan_payload(*log, area.as_ptr(), area.len(), id, slot, offset, length) };
    accepted(part.refusal, ())?;
    Ok(&area[part.at as usize..][..part.length as usize])
}

/// Writes a segment's name at the front of `out`, and answers its length; refuses with 30, 36.
pub fn name_write(prefix: &[u8], id: u32, out: &mut [u8]) -> Result<usize, Refusal> {
    // SAFETY: both pointers are good for their lengths, and a `&mut` overlaps nothing.
    let answer = unsafe {
        ffi::iflughan_name_write(
            prefix.as_ptr(),
            prefix.len(),
            id,
            out.as_mut_ptr(),
            out.len(),
        )
    };
    accepted(answer.refusal, answer.length as usize)
}

/// The segment id that a name says; refuses with 30 to 35.
pub fn name_parse(prefix: &[u8], name: &[u8]) -> Result<u32, Refusal> {
    // SAFETY: both pointers are good for their lengths.
    let answer = unsafe {
        ffi::iflughan_name_parse(prefix.as_ptr(), prefix.len(), name.as_ptr(), name.len())
    };
    accepted(answer.refusal, answer.id)
}

/// The delta at the front of `input`, and the bytes it takes; refuses with 40, 41, 42.
pub fn delta_decode(input: &[u8]) -> Result<(usize, ffi::Delta), Refusal> {
    // SAFETY: input's pointer is good for its length.
    let answer = unsafe { ffi::iflughan_delta_decode(input.as_ptr(), input.len()) };
    accepted(answer.refusal, (answer.consumed as usize, answer.table))
}

/// Writes a delta at the front of `out`, and answers its length; refuses with 43, 42, 44.
pub fn delta_encode(table: &ffi::Delta, values: &[u8], out: &mut [u8]) -> Result<usize, Refusal> {
    // SAFETY: both pointers are good for their lengths, and a `&mut` overlaps nothing.
    let answer = unsafe {
        ffi::iflughan_delta_encode(
            *table,
            values.as_ptr(),
            values.len(),
            out.as_mut_ptr(),
            out.len(),
        )
    };
    accepted(answer.refusal, answer.length as usize)
}
