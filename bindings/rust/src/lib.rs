#![doc = include_str!("../README.md")]
#![no_std]
#![deny(missing_docs)]
#![deny(missing_debug_implementations)]
#![deny(unsafe_code)]

extern crate alloc;
#[cfg(feature = "std")]
extern crate std;

#[allow(unsafe_code)]
pub mod calls;
pub mod delta;
mod error;
#[allow(unsafe_code)]
pub mod ffi;
mod log;
#[allow(unsafe_code)]
mod memory;
pub mod names;
mod payloads;
mod refusal;
mod shape;

pub use error::Error;
pub use ffi::{Image, IndexRow as Row, Segment};
pub use log::{Log, LogView, RecoveryRefused};
pub use payloads::Payloads;
pub use refusal::Refusal;
pub use shape::Shape;
