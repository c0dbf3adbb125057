//! A log over lent memory answers as one that owns its area does, and leaves its bytes there; payloads come in order and backwards.
use iflughan::{Error, Log, LogView, Refusal, Shape};
use std::fs::OpenOptions;
use std::os::unix::io::AsRawFd;
use std::path::Path;
use std::ptr::null_mut;
use std::slice::from_raw_parts_mut;

const SHAPE: Shape = Shape {
    slots: 2,
    capacity: 8192,
    soft_size: 8192,
};

#[test]
fn a_view_answers_as_an_owned_log_does() {
    let mut lent = vec![0; SHAPE.area_length().unwrap()];
    let mut view: LogView = Log::over(SHAPE, &mut lent[..]).unwrap();
    let mut owned = Log::new(SHAPE).unwrap();
    for payload in [&b"one"[..], b"", b"three"] {
        assert_eq!(view.append(payload), owned.append(payload));
    }
    assert_eq!(view.prune_oldest(2), owned.prune_oldest(2));
    assert_eq!(view.prune_recent(2), owned.prune_recent(2));
    assert_eq!((view.value(), view.rows()), (owned.value(), owned.rows()));
    assert_eq!(lent, owned.area());

    let recovered = Log::recover(SHAPE, &mut lent[..], &owned.images(), 2, 2).unwrap();
    assert_eq!(recovered.value(), owned.value());
    assert!(recovered.payloads().eq(owned.payloads()));
}

#[test]
fn a_view_over_memory_of_another_length_is_refused() {
    let mut lent = [0; 8192];
    let refused = Log::over(SHAPE, &mut lent[..]);
    assert_eq!(refused.unwrap_err(), Refusal::OutsideRules);
}

/// The C library's, on x86-64 Linux.
mod mapping {
    use std::ffi::c_void;
    use std::os::raw::{c_int, c_long};

    pub const READ_AND_WRITE: c_int = 3;
    pub const SHARED: c_int = 1;

    extern "C" {
        pub fn mmap(
            at: *mut c_void,
            length: usize,
            access: c_int,
            flags: c_int,
            file: c_int,
            offset: c_long,
        ) -> *mut c_void;
        pub fn munmap(at: *mut c_void, length: usize) -> c_int;
    }
}

/// What a piece of work makes of the bytes of a file that is mapped into memory.
fn with_mapped<T>(path: &Path, work: impl FnOnce(&mut [u8]) -> T) -> T {
    let file = OpenOptions::new().read(true).write(true).open(path);
    let file = file.unwrap();
    let length = file.metadata().unwrap().len() as usize;
    let (access, flags) = (mapping::READ_AND_WRITE, mapping::SHARED);
    // SAFETY: a fresh mapping of the whole file, which nothing else maps, and which is given back after the work.
    unsafe {
        let start = mapping::mmap(null_mut(), length, access, flags, file.as_raw_fd(), 0);
        assert_ne!(start as isize, -1, "the file cannot be mapped");
        let answer = work(from_raw_parts_mut(start.cast::<u8>(), length));
        assert_eq!(mapping::munmap(start, length), 0);
        answer
    }
}

#[test]
fn a_view_over_a_mapped_file() {
    let path = std::env::temp_dir().join(format!("iflughan-view-{}", std::process::id()));
    std::fs::write(&path, vec![0; SHAPE.area_length().unwrap()]).unwrap();
    let images = with_mapped(&path, |mapped| {
        let mut view = Log::over(SHAPE, mapped).unwrap();
        view.append(b"kept").unwrap();
        view.images()
    });
    assert_eq!(std::fs::read(&path).unwrap()[12..16], *b"kept");

    with_mapped(&path, |mapped| {
        let view = Log::recover(SHAPE, mapped, &images, 1, 1).unwrap();
        assert_eq!(view.payload(1), Some(&b"kept"[..]));
        let refused = Log::recover(SHAPE, view.into_area(), &[], 1, 1).unwrap_err();
        assert_eq!(Error::from(refused), Refusal::StartNotFound.into());
    });
    std::fs::remove_file(&path).unwrap();
}

#[test]
fn payloads_come_in_order_and_backwards() {
    let mut log = Log::new(SHAPE).unwrap();
    for payload in ["one", "two", "three"] {
        log.append(payload.as_bytes()).unwrap();
    }
    log.prune_oldest(2).unwrap();
    let newest_first: Vec<_> = log.payloads().rev().collect();
    assert_eq!(newest_first, [(3, &b"three"[..]), (2, &b"two"[..])]);
    assert_eq!((log.payloads().len(), log.payloads().nth(2)), (2, None));
    let mut ids = Vec::new();
    for (id, payload) in &log {
        assert_eq!(log.payload(id), Some(payload));
        ids.push(id);
    }
    assert_eq!(ids, [2, 3]);
}

/// Document 01's longest chain of calls, with what this crate adds, in a build without optimization.
#[test]
fn deltas_fit_a_small_thread() {
    use iflughan::delta::{decode, encode, Entry};
    let work = || {
        let key = |i: u8| Entry {
            key: [i; 32],
            value: Some(b"value"),
        };
        let entries: Vec<Entry> = (0..=255).map(key).collect();
        let bytes = encode(&entries).unwrap();
        assert_eq!(decode(&bytes).unwrap().entries, entries);
    };
    let thread = std::thread::Builder::new().stack_size(224 << 10);
    thread.spawn(work).unwrap().join().unwrap();
}
