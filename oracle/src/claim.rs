//! Time and peak memory of decoding 44 bytes that claim a value of 4 GiB - 1, on each side.
//! Each side runs in a process of its own, so that its peak is its own.

use std::process::Command;
use std::time::Instant;

use crate::{calls, original};

/// No erased key, one reinstated: key of zeros, value length 2^32 - 1, no value byte.
fn claiming_input() -> [u8; 44] {
    let mut input = [0; 44];
    input[4] = 1;
    input[40..].copy_from_slice(&u32::MAX.to_le_bytes());
    input
}

pub fn measure() {
    println!("a delta of 44 bytes that claims a value of 4294967295 bytes");
    let driver = std::env::current_exe().expect("the driver has a path");
    for side in ["original", "ours"] {
        let run = Command::new(&driver).args(["claim", side]).output().expect("the driver runs itself");
        match run.status.success() {
            true => print!("  {:<9} {}", side, String::from_utf8_lossy(&run.stdout)),
            false => println!("  {:<9} ended with {}", side, run.status),
        }
    }
}

pub fn child(side: &str) {
    let input = claiming_input();
    let started = Instant::now();
    let refusal = match side {
        "original" => original::delta_decode(&input).err().unwrap_or(0),
        _ => calls::delta_decode(&input).refusal,
    };
    let seconds = started.elapsed().as_secs_f64();
    println!("refusal {}, {:.6} s, peak memory {}", refusal, seconds, peak_memory());
}

fn peak_memory() -> String {
    let status = std::fs::read_to_string("/proc/self/status").unwrap_or_default();
    let line = status.lines().find(|line| line.starts_with("VmHWM:"));
    line.map_or("unknown".to_string(), |line| line["VmHWM:".len()..].trim().to_string())
}
