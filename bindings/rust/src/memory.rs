//! Memory that may be short: an answer in place of an abort.
use crate::{Error, Row};
use alloc::alloc::{alloc_zeroed, Layout};
use alloc::vec::Vec;

/// Types of which zero bytes are a value.
pub(crate) trait Zero: Copy {}
impl Zero for u8 {}
impl Zero for Row {}

/// `count` zeros as the allocator has them: a large area takes no memory before something is written to it.
pub(crate) fn zeros<T: Zero>(count: usize) -> Result<Vec<T>, Error> {
    let short = Error::MemoryShort {
        bytes: count.saturating_mul(core::mem::size_of::<T>()),
    };
    let layout = Layout::array::<T>(count).map_err(|_| short)?;
    if layout.size() == 0 {
        return Ok(Vec::new());
    }
    // SAFETY: the layout has a size; what the allocator answers has it, was made for `count` values of T, and its zeros are values.
    unsafe {
        let start = alloc_zeroed(layout).cast::<T>();
        if start.is_null() {
            return Err(short);
        }
        Ok(Vec::from_raw_parts(start, count, count))
    }
}

/// Room for `more` values behind those that are there.
pub(crate) fn reserve<T>(values: &mut Vec<T>, more: usize) -> Result<(), Error> {
    let bytes = more.saturating_mul(core::mem::size_of::<T>());
    values
        .try_reserve(more)
        .map_err(|_| Error::MemoryShort { bytes })
}
