//! The archive's structs and functions as they stand in `include/iflughan.h`, which says what each takes, answers and refuses.
//! `tests/abi` holds the two against each other.
//!
//! Plain declarations: another program may take this file as its own module. Every function is defined for every argument, as long
//! as each pointer is good for its length, no two lent slices overlap, and the stack is as large as the header says.

use core::fmt;

/// A listed segment: its image is the first `size` bytes of its slot.
#[repr(C)]
#[derive(Clone, Copy, Debug, Default, PartialEq, Eq)]
pub struct Segment {
    /// The segment's id, 1 or more.
    pub id: u32,
    /// The slot that holds its image.
    pub slot: u32,
    /// The bytes of its image.
    pub size: u64,
    /// The lowest record id in it.
    pub min: u64,
    /// The highest record id in it.
    pub max: u64,
    /// Where the header of the record `max`, the newest, starts in the slot.
    pub newest_at: u64,
}

/// The log value: K, C, M, the live range and the listed segments, the oldest first.
#[repr(C)]
#[derive(Clone, Copy, Debug, PartialEq, Eq)]
pub struct Log {
    /// K.
    pub slots: u64,
    /// C.
    pub capacity: u64,
    /// M.
    pub soft_size: u64,
    /// The lowest live record id; 0 where there is none.
    pub start_live: u64,
    /// The highest live record id; 0 where there is none.
    pub end_live: u64,
    /// How many segments are listed.
    pub count: u64,
    /// The first `count` are listed, the others are zero.
    pub segments: [Segment; 64],
}

/// An image row: the slot that holds the image of a segment, and its size in bytes.
#[repr(C)]
#[derive(Clone, Copy, Debug, Default, PartialEq, Eq)]
pub struct Image {
    /// The segment's id.
    pub id: u32,
    /// The slot that holds the image.
    pub slot: u32,
    /// The bytes of the image.
    pub size: u64,
}

/// Where a record's payload lies: four words of recovery's index.
#[repr(C)]
#[derive(Clone, Copy, Debug, Default, PartialEq, Eq)]
pub struct IndexRow {
    /// The record's id.
    pub id: u64,
    /// The slot that its payload lies in.
    pub slot: u64,
    /// Where the payload begins in the slot.
    pub offset: u64,
    /// The bytes of the payload.
    pub length: u64,
}

/// The answer of a new log and of the prunes.
#[repr(C)]
#[derive(Clone, Copy, Debug, PartialEq, Eq)]
pub struct Logged {
    /// 0, or the refusal's number.
    pub refusal: u32,
    /// 0.
    pub reserved: u32,
    /// The new log; where a prune is refused, the log given.
    pub log: Log,
}

/// The answer of an append.
#[repr(C)]
#[derive(Clone, Copy, Debug, PartialEq, Eq)]
pub struct Appended {
    /// 0, or the refusal's number.
    pub refusal: u32,
    /// 0.
    pub reserved: u32,
    /// The record's id.
    pub id: u64,
    /// The new log; where refused, the log given.
    pub log: Log,
}

/// The answer of a recovery.
#[repr(C)]
#[derive(Clone, Copy, Debug, PartialEq, Eq)]
pub struct Recovered {
    /// 0, or the refusal's number.
    pub refusal: u32,
    /// 0.
    pub reserved: u32,
    /// How many index rows were written.
    pub rows: u64,
    /// The recovered log.
    pub log: Log,
}

/// A payload's place in the area.
#[repr(C)]
#[derive(Clone, Copy, Debug, Default, PartialEq, Eq)]
pub struct Part {
    /// 0, or the refusal's number.
    pub refusal: u32,
    /// 0.
    pub reserved: u32,
    /// Where the payload begins in the area.
    pub at: u64,
    /// The bytes of the payload.
    pub length: u64,
}

/// The answer of a written name or delta.
#[repr(C)]
#[derive(Clone, Copy, Debug, Default, PartialEq, Eq)]
pub struct Written {
    /// 0, or the refusal's number.
    pub refusal: u32,
    /// 0.
    pub reserved: u32,
    /// The bytes written.
    pub length: u64,
}

/// The answer of a parsed name.
#[repr(C)]
#[derive(Clone, Copy, Debug, Default, PartialEq, Eq)]
pub struct Parsed {
    /// 0, or the refusal's number.
    pub refusal: u32,
    /// The segment's id.
    pub id: u32,
}

/// A row of a delta: a key, and where the value lies that it gets back.
#[repr(C)]
#[derive(Clone, Copy, Default, PartialEq, Eq)]
pub struct DeltaRow {
    /// The key.
    pub key: [u8; 32],
    /// 0 for a key to erase, anything else for one that gets a value back.
    pub present: u8,
    /// 0 in answers, not looked at in arguments.
    pub reserved: [u8; 7],
    /// Where the value begins in its slice.
    pub offset: u64,
    /// The bytes of the value.
    pub length: u32,
    /// 0 in answers, not looked at in arguments.
    pub reserved_too: u32,
}

/// Numbers only: a key is bytes of a payload.
impl fmt::Debug for DeltaRow {
    fn fmt(&self, f: &mut fmt::Formatter<'_>) -> fmt::Result {
        f.debug_struct("DeltaRow")
            .field("present", &self.present)
            .field("offset", &self.offset)
            .field("length", &self.length)
            .finish_non_exhaustive()
    }
}

/// A delta's table: the first `count` rows.
#[repr(C)]
#[derive(Clone, Copy, Debug, PartialEq, Eq)]
pub struct Delta {
    /// How many rows count.
    pub count: u64,
    /// The rows; those beyond the count are zero in answers and are not looked at in arguments.
    pub rows: [DeltaRow; 256],
}

/// The answer of a decoding.
#[repr(C)]
#[derive(Clone, Copy, Debug, PartialEq, Eq)]
pub struct Decoded {
    /// 0, or the refusal's number.
    pub refusal: u32,
    /// 0.
    pub reserved: u32,
    /// The bytes that the delta takes.
    pub consumed: u64,
    /// Its rows, in ascending key order.
    pub table: Delta,
}

#[link(name = "iflughan", kind = "static")]
extern "C" {
    /// An empty log over an area of k x c bytes; refuses with 1.
    pub fn iflughan_new(k: u64, c: u64, m: u64, area: *mut u8, area_len: usize) -> Logged;
    /// Appends a record; refuses with 2 to 7.
    pub fn iflughan_append(
        log: Log,
        area: *mut u8,
        area_len: usize,
        payload: *const u8,
        payload_len: usize,
    ) -> Appended;
    /// Drops what is older than a record; refuses with 2, 8, 9.
    pub fn iflughan_prune_oldest(
        log: Log,
        area: *mut u8,
        area_len: usize,
        new_start_live: u64,
    ) -> Logged;
    /// Takes back what is newer than a record; refuses with 2, 8, 9, 10.
    pub fn iflughan_prune_recent(
        log: Log,
        area: *mut u8,
        area_len: usize,
        new_end_live: u64,
    ) -> Logged;
    /// The log of the records s..e from images; refuses with 1 and 11 to 23.
    pub fn iflughan_recover(
        k: u64,
        c: u64,
        m: u64,
        area: *mut u8,
        area_len: usize,
        images: *const Image,
        image_count: usize,
        s: u64,
        e: u64,
        index: *mut u64,
        index_words: usize,
    ) -> Recovered;
    /// Whether an index row is good for this log and area: 0, 2 or 24.
    pub fn iflughan_row_question(
        log: Log,
        area: *const u8,
        area_len: usize,
        id: u64,
        slot: u64,
        offset: u64,
        length: u64,
    ) -> u32;
    /// The place of a row's payload in the area; refuses with 2, 24.
    pub fn iflughan_payload(
        log: Log,
        area: *const u8,
        area_len: usize,
        id: u64,
        slot: u64,
        offset: u64,
        length: u64,
    ) -> Part;
    /// Writes the name of a segment; refuses with 30, 36.
    pub fn iflughan_name_write(
        prefix: *const u8,
        prefix_len: usize,
        id: u32,
        out: *mut u8,
        out_len: usize,
    ) -> Written;
    /// The segment id that a name says; refuses with 30 to 35.
    pub fn iflughan_name_parse(
        prefix: *const u8,
        prefix_len: usize,
        name: *const u8,
        name_len: usize,
    ) -> Parsed;
    /// The delta at the front of `input`; refuses with 40, 41, 42.
    pub fn iflughan_delta_decode(input: *const u8, input_len: usize) -> Decoded;
    /// Writes a delta at the front of `out`; refuses with 43, 42, 44.
    pub fn iflughan_delta_encode(
        table: Delta,
        values: *const u8,
        values_len: usize,
        out: *mut u8,
        out_len: usize,
    ) -> Written;
}
