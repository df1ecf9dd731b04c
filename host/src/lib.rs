//! Framewitness says of an MP4 file whether the recording is whole.
//!
//! What is asked of a file is answered by a library that is proved: its answer is the one that its definition gives, for
//! every file, and always the same one for the same bytes. This crate maps a file, hands its bytes to that library
//! without a copy, and puts the answers into types. What a verdict says, and what it does not say, stands in the
//! project's README.md.
//!
//! The library works on the stack of its caller and needs 1 MiB of it, half of what a thread of Rust's has. It keeps nothing
//! between calls, so threads may ask at the same time.
//!
//! # To build with it
//!
//! `rt lib` in `crates/witness` proves the library and makes `out/libwitness.a` there. With that, cargo builds this folder
//! like any other crate, for Linux on x86-64; `FRAMEWITNESS_ARCHIVE` names another folder in which the archive is.
//!
//! # To audit a file
//!
//! ```no_run
#![doc = include_str!("../examples/audit.rs")]
//! ```
//!
//! # To read its samples
//!
//! ```no_run
#![doc = include_str!("../examples/samples.rs")]
//! ```
#![warn(missing_docs)]

#[cfg(not(all(target_arch = "x86_64", target_os = "linux")))]
compile_error!("the proved library is made for Linux on x86-64");

mod exports;
mod letters;
mod many;
mod map;
mod recording;
mod refusal;
mod track;
mod verdict;

pub use letters::FourLetters;
pub use recording::Recording;
pub use refusal::Refusal;
pub use track::{Sample, Summary, Track};
pub use verdict::{Finding, Verdict};
