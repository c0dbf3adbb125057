//! The live records of a log, one after the other.
use crate::{calls, ffi, Row};
use core::fmt;
use core::iter::FusedIterator;
use core::slice;

/// The live records in the order of their ids, or backwards: each with its id and its payload, which is a part of the area.
///
/// [`crate::Log::payloads`] makes it.
#[derive(Clone)]
pub struct Payloads<'a> {
    value: &'a ffi::Log,
    area: &'a [u8],
    rows: slice::Iter<'a, Row>,
}

impl<'a> Payloads<'a> {
    pub(crate) fn new(value: &'a ffi::Log, area: &'a [u8], rows: &'a [Row]) -> Payloads<'a> {
        Payloads {
            value,
            area,
            rows: rows.iter(),
        }
    }

    fn record(&self, row: &Row) -> (u64, &'a [u8]) {
        let payload = calls::payload(self.value, self.area, *row);
        (row.id, payload.expect("a kept row is good for its log"))
    }
}

impl<'a> Iterator for Payloads<'a> {
    type Item = (u64, &'a [u8]);

    fn next(&mut self) -> Option<Self::Item> {
        let row = self.rows.next()?;
        Some(self.record(row))
    }

    fn nth(&mut self, n: usize) -> Option<Self::Item> {
        let row = self.rows.nth(n)?;
        Some(self.record(row))
    }

    fn size_hint(&self) -> (usize, Option<usize>) {
        self.rows.size_hint()
    }
}

impl DoubleEndedIterator for Payloads<'_> {
    fn next_back(&mut self) -> Option<Self::Item> {
        let row = self.rows.next_back()?;
        Some(self.record(row))
    }
}

impl ExactSizeIterator for Payloads<'_> {}
impl FusedIterator for Payloads<'_> {}

/// How many are left.
impl fmt::Debug for Payloads<'_> {
    fn fmt(&self, f: &mut fmt::Formatter<'_>) -> fmt::Result {
        f.debug_struct("Payloads")
            .field("left", &self.rows.len())
            .finish_non_exhaustive()
    }
}
