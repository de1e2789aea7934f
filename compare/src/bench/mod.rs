//! How long the archive and the reading take, on the same inputs in one process.

pub mod batches;
pub mod feeds;
pub mod look_ups;
pub mod pages;
pub mod sections;

/// The middle value of an odd number of them.
fn median(mut values: Vec<f64>) -> f64 {
    values.sort_by(f64::total_cmp);
    values[values.len() / 2]
}
