//! A plain Rust player of jobs ('the twin'), random jobs, comparisons and timings.

#![deny(unsafe_code)]

pub mod compare;
#[cfg(feature = "proved")]
#[allow(unsafe_code)]
pub mod ffi;
pub mod generate;
pub mod random;
pub mod timing;
pub mod twin;
pub mod writer;
