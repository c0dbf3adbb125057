//! The original Rust, built from its own files, unchanged (oracle/build lays them into target/oracle/original).
//! Its answers in the terms of document 01: a value, or the refusal number that its error text or its panic stands for.

use std::collections::HashMap;
use std::io::Cursor;
use std::panic::{catch_unwind, AssertUnwindSafe};
use std::sync::atomic::{AtomicBool, Ordering};

#[path = "../../target/oracle/original/delta.rs"]
mod delta;
#[path = "../../target/oracle/original/seglog/mod.rs"]
#[allow(dead_code)]
pub mod seglog;
#[path = "../../target/oracle/original/segment_filename.rs"]
mod segment_filename;

pub use delta::Delta;
pub type Priors = HashMap<[u8; 32], Option<Vec<u8>>>;

static PANIC_ALLOWED: AtomicBool = AtomicBool::new(false);

/// Keeps the panics of the original, which are answers here, from being printed.
pub fn silence_its_panics() {
    let usual = std::panic::take_hook();
    std::panic::set_hook(Box::new(move |panic| {
        if !PANIC_ALLOWED.load(Ordering::Relaxed) {
            usual(panic);
        }
    }));
}

/// Runs a function of the original that may panic.
pub fn catching<T>(call: impl FnOnce() -> T) -> std::thread::Result<T> {
    PANIC_ALLOWED.store(true, Ordering::Relaxed);
    let answer = catch_unwind(AssertUnwindSafe(call));
    PANIC_ALLOWED.store(false, Ordering::Relaxed);
    answer
}

/// The number that the error's text stands for.
pub fn number(error: &anyhow::Error, texts: &[(&str, u32)]) -> u32 {
    let text = format!("{:#}", error);
    let found = texts.iter().find(|(part, _)| text.contains(part));
    found.unwrap_or_else(|| unreachable!("an error text of the original that has no number: {}", text)).1
}

pub fn name_format(prefix: &str, id: u32) -> String {
    segment_filename::format(prefix, id)
}

pub fn name_parse(prefix: &str, name: &str) -> Result<u32, u32> {
    let texts = [
        ("missing prefix", 31),
        ("missing .log suffix", 32),
        ("missing dot separator", 33),
        ("must be exactly 10 digits", 34),
        ("Failed to parse segment ID", 35),
    ];
    let parsed = catching(|| segment_filename::parse(prefix, name)).map_err(|_| 30u32)?;
    parsed.map_err(|error| number(&error, &texts))
}

/// The map and the cursor's position after it, or 40 or 42.
pub fn delta_decode(input: &[u8]) -> Result<(Priors, u64), u32> {
    let mut cursor = Cursor::new(input);
    match Delta::decode(&mut cursor) {
        Ok(delta) => Ok((delta.priors, cursor.position())),
        Err(error) => Err(number(&error, &[("failed to fill whole buffer", 40), ("duplicate key path", 42)])),
    }
}

pub fn delta_encode(priors: Priors) -> Vec<u8> {
    encoded(&Delta { priors })
}

/// The bytes of a delta, which the original's own callers alone may ask for.
pub fn encoded(delta: &Delta) -> Vec<u8> {
    delta.encode()
}
