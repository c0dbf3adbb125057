//! Where memory is short there is an error, no abort, and nothing has changed.
use iflughan::delta::{self, Entry};
use iflughan::{names, Error, Image, Log, Refusal, Shape};
use std::alloc::{GlobalAlloc, Layout, System};
use std::cell::Cell;
use std::ptr::null_mut;

thread_local! {
    /// The largest piece of memory that this thread gets.
    static MOST: Cell<usize> = const { Cell::new(usize::MAX) };
}

struct Short;

fn there_is(bytes: usize) -> bool {
    bytes <= MOST.with(Cell::get)
}

// SAFETY: the system's allocator, or no memory.
unsafe impl GlobalAlloc for Short {
    unsafe fn alloc(&self, layout: Layout) -> *mut u8 {
        if there_is(layout.size()) {
            System.alloc(layout)
        } else {
            null_mut()
        }
    }

    unsafe fn alloc_zeroed(&self, layout: Layout) -> *mut u8 {
        if there_is(layout.size()) {
            System.alloc_zeroed(layout)
        } else {
            null_mut()
        }
    }

    unsafe fn realloc(&self, old: *mut u8, layout: Layout, size: usize) -> *mut u8 {
        if there_is(size) {
            System.realloc(old, layout, size)
        } else {
            null_mut()
        }
    }

    unsafe fn dealloc(&self, old: *mut u8, layout: Layout) {
        System.dealloc(old, layout)
    }
}

#[global_allocator]
static ALLOCATOR: Short = Short;

/// What a call answers where no piece of memory is larger than `most`.
fn with_most<T>(most: usize, call: impl FnOnce() -> T) -> T {
    MOST.with(|limit| limit.set(most));
    let answer = call();
    MOST.with(|limit| limit.set(usize::MAX));
    answer
}

const LARGEST: Shape = Shape {
    slots: 64,
    capacity: 1 << 31,
    soft_size: 0,
};

#[test]
fn the_largest_log_is_an_error_where_memory_is_short() {
    let short = Error::MemoryShort { bytes: 1 << 37 };
    assert_eq!(with_most(1 << 36, || Log::new(LARGEST)), Err(short));
    let words = "memory is short: 137438953472 bytes wanted";
    assert_eq!(short.to_string(), words);
}

/// As the machine has it: the log is there, with memory that nothing has touched, or the same error.
#[test]
fn the_largest_log_does_not_abort() {
    match Log::new(LARGEST) {
        Ok(log) => assert_eq!(log.area().len(), 1 << 37),
        Err(error) => assert_eq!(error, Error::MemoryShort { bytes: 1 << 37 }),
    }
}

#[test]
fn numbers_are_tested_before_memory_is_asked_for() {
    let beyond = Shape {
        soft_size: 1 << 32,
        ..LARGEST
    };
    let refused = with_most(0, || Log::new(beyond));
    assert_eq!(refused, Err(Refusal::OutsideRules.into()));
}

#[test]
fn a_recovery_without_room_for_its_rows_hands_the_area_back() {
    let shape = Shape {
        slots: 1,
        capacity: 1 << 28,
        soft_size: 0,
    };
    let mut area = vec![0; 1 << 28];
    area[0] = 7;
    let image = Image {
        id: 1,
        slot: 0,
        size: 4096,
    };
    let recover = || Log::recover(shape, area, &[image], 1, u64::MAX);
    let refused = with_most(1 << 20, recover).unwrap_err();
    let bytes = (1 << 28) / 4096 * 32;
    assert_eq!(refused.error, Error::MemoryShort { bytes });
    assert_eq!((refused.area.len(), refused.area[0]), (1 << 28, 7));
}

#[test]
fn an_append_without_room_for_its_row_changes_nothing() {
    let shape = Shape {
        slots: 1,
        capacity: 8192,
        soft_size: 8192,
    };
    let mut log = Log::new(shape).unwrap();
    let before = log.clone();
    let short = Error::MemoryShort { bytes: 32 };
    assert_eq!(with_most(0, || log.append(b"abc")), Err(short));
    assert_eq!(log, before);
}

#[test]
fn deltas_and_names_without_room_are_errors() {
    let value = vec![0; 1 << 20];
    let entry = Entry {
        key: [1; 32],
        value: Some(&value),
    };
    let bytes = value.len();
    let encoded = with_most(1 << 10, || delta::encode(&[entry]));
    assert_eq!(encoded, Err(Error::MemoryShort { bytes }));
    let encoded = delta::encode(&[entry]).unwrap();
    let decoded = with_most(0, || delta::decode(&encoded));
    assert!(matches!(decoded, Err(Error::MemoryShort { .. })));
    let short = Error::MemoryShort { bytes: 16 };
    assert_eq!(with_most(0, || names::write("a", 1)), Err(short));
}
