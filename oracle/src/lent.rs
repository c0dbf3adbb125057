//! A slice that is lent to the proved code. One end of it lies against a page that nobody may touch, so that a read outside stops the
//! program too; which end, varies. On its other side stand guard items. What the call must not change is compared after it.

#![allow(dead_code)]

use std::cell::RefCell;
use std::marker::PhantomData;
use std::sync::atomic::{AtomicPtr, AtomicU64, AtomicUsize, Ordering};

const GUARDS: usize = 32;
const PAGE: usize = 4096;
/// Rooms above this are given back to the system, and take memory only where they are touched.
const LARGEST_KEPT: usize = 1 << 24;

const NO_ACCESS: i32 = 0;
const READ_WRITE: i32 = 3;
const PRIVATE_ANONYMOUS_NO_RESERVE: i32 = 0x2 | 0x20 | 0x4000;
const BAD_ACCESSES: [i32; 2] = [7, 11];

extern "C" {
    fn mmap(at: *mut u8, length: usize, protection: i32, flags: i32, file: i32, offset: i64) -> *mut u8;
    fn mprotect(at: *mut u8, length: usize, protection: i32) -> i32;
    fn munmap(at: *mut u8, length: usize) -> i32;
    fn signal(number: i32, handler: usize) -> usize;
    fn write(file: i32, bytes: *const u8, length: usize) -> isize;
    fn _exit(status: i32) -> !;
}

/// Pages between two that nobody may touch.
struct Room {
    start: *mut u8,
    bytes: usize,
}

thread_local! {
    static FREE: RefCell<Vec<Room>> = const { RefCell::new(Vec::new()) };
}

impl Room {
    fn of(bytes: usize) -> Room {
        let bytes = (bytes.max(1).div_ceil(PAGE)).next_power_of_two() * PAGE;
        let kept = FREE.with_borrow_mut(|free| free.iter().position(|room| room.bytes == bytes).map(|at| free.swap_remove(at)));
        kept.unwrap_or_else(|| Room::fresh(bytes))
    }

    fn fresh(bytes: usize) -> Room {
        unsafe {
            let pages = mmap(std::ptr::null_mut(), bytes + 2 * PAGE, NO_ACCESS, PRIVATE_ANONYMOUS_NO_RESERVE, -1, 0);
            assert!(pages as isize != -1, "no room for {bytes} bytes");
            let start = pages.add(PAGE);
            assert!(mprotect(start, bytes, READ_WRITE) == 0, "no access to {bytes} bytes");
            Room { start, bytes }
        }
    }
}

pub struct Lent<T> {
    room: Option<Room>,
    at: *mut T,
    length: usize,
    guards: *mut T,
    guard: T,
    owns: PhantomData<T>,
}

static LENT_SO_FAR: AtomicU64 = AtomicU64::new(0);

impl<T: Copy + PartialEq> Lent<T> {
    pub fn new(content: &[T], guard: T) -> Lent<T> {
        let lent = Lent::in_room(Room::of(std::mem::size_of_val(content) + GUARDS * std::mem::size_of::<T>()), content.len(), guard);
        unsafe { std::ptr::copy_nonoverlapping(content.as_ptr(), lent.at, content.len()) };
        lent
    }

    /// All zeros, with memory taken only where it is touched.
    pub fn zeros(length: usize, guard: T) -> Lent<T> {
        let bytes = (length + GUARDS) * std::mem::size_of::<T>();
        Lent::in_room(Room::fresh(bytes.div_ceil(PAGE) * PAGE), length, guard)
    }

    fn in_room(room: Room, length: usize, guard: T) -> Lent<T> {
        let turn = LENT_SO_FAR.fetch_add(1, Ordering::Relaxed).wrapping_mul(0x9E37_79B9_7F4A_7C15);
        let (at, guards) = unsafe {
            let (start, end) = (room.start as *mut T, room.start.add(room.bytes) as *mut T);
            if turn >> 63 == 0 {
                (start, start.add(length))
            } else {
                (end.sub(length), end.sub(length + GUARDS))
            }
        };
        (0..GUARDS).for_each(|place| unsafe { guards.add(place).write(guard) });
        Lent { room: Some(room), at, length, guards, guard, owns: PhantomData }
    }

    pub fn content(&self) -> &[T] {
        unsafe { std::slice::from_raw_parts(self.at, self.length) }
    }

    pub fn content_mut(&mut self) -> &mut [T] {
        unsafe { std::slice::from_raw_parts_mut(self.at, self.length) }
    }

    pub fn guards_intact(&self) -> bool {
        (0..GUARDS).all(|place| unsafe { self.guards.add(place).read() } == self.guard)
    }

    /// The content and the guards are as they were.
    pub fn unchanged(&self, content: &[T]) -> bool {
        self.content() == content && self.guards_intact()
    }
}

impl<T> Drop for Lent<T> {
    fn drop(&mut self) {
        if let Some(room) = self.room.take() {
            if room.bytes > LARGEST_KEPT || !room.bytes.is_power_of_two() {
                unsafe { munmap(room.start.sub(PAGE), room.bytes + 2 * PAGE) };
            } else {
                FREE.with_borrow_mut(|free| free.push(room));
            }
        }
    }
}

static CALLED: AtomicPtr<u8> = AtomicPtr::new(std::ptr::null_mut());
static CALLED_LENGTH: AtomicUsize = AtomicUsize::new(0);

/// Makes a call whose name is said where it touches what it was not lent.
pub fn during<T>(name: &'static str, call: impl FnOnce() -> T) -> T {
    CALLED_LENGTH.store(name.len(), Ordering::Relaxed);
    CALLED.store(name.as_ptr() as *mut u8, Ordering::Relaxed);
    call()
}

extern "C" fn say_and_stop(_: i32) {
    let say = |bytes: *const u8, length: usize| unsafe { write(1, bytes, length) };
    let (before, after) = ("an access outside what was lent; the last call was ", "\n");
    say(before.as_ptr(), before.len());
    say(CALLED.load(Ordering::Relaxed), CALLED_LENGTH.load(Ordering::Relaxed));
    say(after.as_ptr(), after.len());
    unsafe { _exit(1) }
}

/// From here on an access outside ends the program with words.
pub fn watch_accesses() {
    BAD_ACCESSES.iter().for_each(|number| unsafe {
        signal(*number, say_and_stop as *const () as usize);
    });
}
