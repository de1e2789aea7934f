//! An independent reading of the tablegram rules and its comparison with vectors and with
//! the proved archive.

#![forbid(unsafe_code)]

pub mod archive;
pub mod bench;
pub mod generate;
pub mod random;
pub mod reading;
pub mod text;
pub mod trials;
pub mod vectors;

/// How many cases ran, and how many of them differ.
#[derive(Clone, Copy, Debug, Default, PartialEq, Eq)]
pub struct Totals {
    pub cases: u64,
    pub differ: u64,
}
