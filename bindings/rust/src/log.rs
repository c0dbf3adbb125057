//! A log with its area, which it owns or is lent.
use crate::delta::{self, Delta};
use crate::ffi::{self, Image, Segment};
use crate::{calls, memory, Error, Payloads, Refusal, Row, Shape};
use alloc::vec::Vec;
use core::fmt;
use core::ops::RangeInclusive;

const HEADER_LENGTH: u64 = 12;
const PAGE_LENGTH: usize = 4096;

/// A segment log with its area of K x C bytes: a `Vec` of its own, or memory that the caller has ([`LogView`]).
///
/// A refused call changes neither. The place of each live payload is kept beside the log: recovery answers it, and an append adds
/// one. Nothing but the log writes to the area, so the archive finds the log well shaped (2) and each kept row good (24); an `A` of
/// your own must hand out the same bytes each time.
///
/// `Debug` prints numbers and sizes, never bytes of the area.
///
/// ```
/// use iflughan::{Error, Log, Refusal, Shape};
///
/// let shape = Shape { slots: 2, capacity: 8192, soft_size: 8192 };
/// let mut log = Log::new(shape)?;
/// for payload in ["one", "two", "three", "four"] {
///     log.append(payload.as_bytes())?;
/// }
/// assert_eq!(log.append(b"five"), Err(Error::Refused(Refusal::SlotsTaken)));
/// assert_eq!(log.live_range(), Some(1..=4));
///
/// log.prune_oldest(3)?;
/// assert_eq!(log.append(b"five"), Ok(5));
/// assert_eq!(log.payload(5), Some(&b"five"[..]));
/// assert_eq!(log.payload(2), None);
/// # Ok::<(), Error>(())
/// ```
#[derive(Clone, PartialEq, Eq)]
pub struct Log<A = Vec<u8>> {
    area: A,
    value: ffi::Log,
    rows: Vec<Row>,
}

/// A log over memory that the caller has, such as a mapped file; dropping it leaves the bytes as they are.
///
/// ```
/// use iflughan::{Error, Log, LogView, Shape};
///
/// let shape = Shape { slots: 2, capacity: 8192, soft_size: 8192 };
/// let mut mapped = vec![0; shape.area_length()?];
/// let mut view: LogView = Log::over(shape, &mut mapped[..])?;
/// view.append(b"abc")?;
/// let images = view.images();
///
/// let view = Log::recover(shape, &mut mapped[..], &images, 1, 1)?;
/// assert_eq!(view.payload(1), Some(&b"abc"[..]));
/// assert_eq!(mapped[12..15], *b"abc");
/// # Ok::<(), Error>(())
/// ```
pub type LogView<'a> = Log<&'a mut [u8]>;

impl Log {
    /// An empty log over a fresh area of zeros; refuses with 1, before it asks for memory.
    pub fn new(shape: Shape) -> Result<Log, Error> {
        let area = memory::zeros(shape.area_length()?)?;
        Ok(Log::over(shape, area)?)
    }
}

impl<A: AsRef<[u8]> + AsMut<[u8]>> Log<A> {
    /// An empty log over an area that is given, of exactly K x C bytes; refuses with 1. No byte of it is read or changed.
    pub fn over(shape: Shape, mut area: A) -> Result<Log<A>, Refusal> {
        let value = calls::new(shape, area.as_mut())?;
        Ok(Log {
            area,
            value,
            rows: Vec::new(),
        })
    }

    /// The log of the records `s..=e` from the images that `images` lists, in any order; `area` holds them, each in its slot.
    ///
    /// Refuses with 1 and 11 to 22, and then hands the area back as it was. The range (0, 0) gives the empty log. In the images
    /// nothing behind the record `e` is looked at: a write that was cut short there refuses nothing.
    pub fn recover(
        shape: Shape,
        mut area: A,
        images: &[Image],
        s: u64,
        e: u64,
    ) -> Result<Log<A>, RecoveryRefused<A>> {
        match recovered(shape, area.as_mut(), images, s, e) {
            Ok((value, rows)) => Ok(Log { area, value, rows }),
            Err(error) => Err(RecoveryRefused { error, area }),
        }
    }

    /// Appends a record and answers its id; refuses with 3 to 7.
    pub fn append(&mut self, payload: &[u8]) -> Result<u64, Error> {
        memory::reserve(&mut self.rows, 1)?;
        let (id, value) = calls::append(&self.value, self.area.as_mut(), payload)?;
        self.value = value;
        let head = self.segments()[self.segments().len() - 1];
        self.rows.push(Row {
            id,
            slot: u64::from(head.slot),
            offset: head.newest_at + HEADER_LENGTH,
            length: payload.len() as u64,
        });
        Ok(id)
    }

    /// Drops the records before `new_start_live`, all of them for 0; refuses with 8, 9.
    pub fn prune_oldest(&mut self, new_start_live: u64) -> Result<(), Refusal> {
        self.value = calls::prune_oldest(&self.value, self.area.as_mut(), new_start_live)?;
        self.keep_live_rows();
        Ok(())
    }

    /// Takes back the records after `new_end_live`, all of them for 0; refuses with 8, 9, 10.
    pub fn prune_recent(&mut self, new_end_live: u64) -> Result<(), Refusal> {
        self.value = calls::prune_recent(&self.value, self.area.as_mut(), new_end_live)?;
        self.keep_live_rows();
        Ok(())
    }

    /// The bytes of an image: what a file of that segment holds. None where the row leads outside the area.
    pub fn image_bytes(&self, image: &Image) -> Option<&[u8]> {
        let slot = self
            .area()
            .chunks_exact(self.value.capacity as usize)
            .nth(image.slot as usize)?;
        slot.get(..usize::try_from(image.size).ok()?)
    }

    /// The payload of a live record, as a part of the area.
    pub fn payload(&self, id: u64) -> Option<&[u8]> {
        let place = id.checked_sub(self.rows.first()?.id)?;
        let (_, payload) = self.payloads().nth(usize::try_from(place).ok()?)?;
        Some(payload)
    }

    /// The live records in order: ids, and payloads as parts of the area.
    pub fn payloads(&self) -> Payloads<'_> {
        Payloads::new(&self.value, self.area(), &self.rows)
    }

    /// The payload of a live record read as a delta, straight from its place; refuses with 40, 41, 42.
    pub fn delta(&self, id: u64) -> Option<Result<Delta<'_>, Error>> {
        self.payload(id).map(delta::decode)
    }

    /// The slots, one after the other.
    pub fn area(&self) -> &[u8] {
        self.area.as_ref()
    }

    fn keep_live_rows(&mut self) {
        let (start, end) = (self.value.start_live, self.value.end_live);
        self.rows.retain(|row| start <= row.id && row.id <= end);
    }
}

impl<A> Log<A> {
    /// The ids of the live records; none where there are none.
    pub fn live_range(&self) -> Option<RangeInclusive<u64>> {
        match self.value.count {
            0 => None,
            _ => Some(self.value.start_live..=self.value.end_live),
        }
    }

    /// The listed segments, the oldest first.
    pub fn segments(&self) -> &[Segment] {
        &self.value.segments[..self.value.count as usize]
    }

    /// The image rows of the listed segments: what [`Log::recover`] takes.
    pub fn images(&self) -> Vec<Image> {
        let image = |segment: &Segment| Image {
            id: segment.id,
            slot: segment.slot,
            size: segment.size,
        };
        self.segments().iter().map(image).collect()
    }

    /// Where each live payload lies, in the order of the ids.
    pub fn rows(&self) -> &[Row] {
        &self.rows
    }

    /// The log value that the archive works on.
    pub fn value(&self) -> &ffi::Log {
        &self.value
    }

    /// Gives up the log and hands back its area.
    pub fn into_area(self) -> A {
        self.area
    }
}

/// Numbers and sizes: the bytes of the area are payloads.
impl<A: AsRef<[u8]>> fmt::Debug for Log<A> {
    fn fmt(&self, f: &mut fmt::Formatter<'_>) -> fmt::Result {
        f.debug_struct("Log")
            .field("slots", &self.value.slots)
            .field("capacity", &self.value.capacity)
            .field("soft_size", &self.value.soft_size)
            .field("live", &self.live_range())
            .field("segments", &self.segments())
            .field("area_bytes", &self.area.as_ref().len())
            .finish_non_exhaustive()
    }
}

impl<'a, A: AsRef<[u8]> + AsMut<[u8]>> IntoIterator for &'a Log<A> {
    type Item = (u64, &'a [u8]);
    type IntoIter = Payloads<'a>;

    fn into_iter(self) -> Payloads<'a> {
        self.payloads()
    }
}

/// The log value and the rows of the records `s..=e`.
fn recovered(
    shape: Shape,
    area: &mut [u8],
    images: &[Image],
    s: u64,
    e: u64,
) -> Result<(ffi::Log, Vec<Row>), Error> {
    let mut rows = memory::zeros(most_rows(area, s, e))?;
    let (count, value) = calls::recover(shape, area, images, s, e, &mut rows)?;
    rows.truncate(count as usize);
    Ok((value, rows))
}

/// A row for each record of s..e. Each record starts on a page of its own, so more than the area has pages are never needed: then s
/// or e is not found.
fn most_rows(area: &[u8], s: u64, e: u64) -> usize {
    let pages = area.len() / PAGE_LENGTH;
    let records = usize::try_from(e.saturating_sub(s))
        .unwrap_or(usize::MAX)
        .saturating_add(1);
    records.min(pages)
}

/// A refused recovery, with the area that was given, unchanged. `Debug` prints its size, not its bytes.
#[derive(Clone, PartialEq, Eq)]
pub struct RecoveryRefused<A = Vec<u8>> {
    /// The refusal, or that memory for the rows is short.
    pub error: Error,
    /// The area that was given.
    pub area: A,
}

impl<A: AsRef<[u8]>> fmt::Debug for RecoveryRefused<A> {
    fn fmt(&self, f: &mut fmt::Formatter<'_>) -> fmt::Result {
        f.debug_struct("RecoveryRefused")
            .field("error", &self.error)
            .field("area_bytes", &self.area.as_ref().len())
            .finish_non_exhaustive()
    }
}

impl<A> fmt::Display for RecoveryRefused<A> {
    fn fmt(&self, f: &mut fmt::Formatter<'_>) -> fmt::Result {
        self.error.fmt(f)
    }
}

#[cfg(feature = "std")]
impl<A: AsRef<[u8]>> std::error::Error for RecoveryRefused<A> {}

impl<A> From<RecoveryRefused<A>> for Error {
    fn from(refused: RecoveryRefused<A>) -> Error {
        refused.error
    }
}
