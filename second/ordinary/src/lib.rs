//! An ordinary checker of paper 01's rules in Rust, to time the proved one by.
//!
//! It is the yardstick and not a second reading of the paper: `second` is that,
//! and both checkers here must answer as it does, slice by slice. `tuned` is
//! written for speed, `plain` to be short. Neither allocates: all they remember
//! is in the lent slices and a few words on the stack.

#![forbid(unsafe_code)]

mod header;
mod kinds;
pub mod plain;
mod report;
pub mod tuned;
mod words;

pub use report::Report;
