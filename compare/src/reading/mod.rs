//! The rules, read from the papers alone: one module for each piece of the format. Only `numbers`
//! goes by the definitions of the proofs. Nothing here knows the proved code.

pub mod arrival;
pub mod batch;
pub mod column;
pub mod encode;
pub mod error;
pub mod header;
pub mod numbers;
pub mod options;
pub mod page;
pub mod plan;
pub mod row;
pub mod schema;
pub mod section;
pub mod update;

pub use error::{Error, ErrorCode, Input};

/// The largest input that any call accepts, in bytes.
pub const MAX_INPUT: usize = 16_777_216;

/// Error 19 if the input `bytes` is over the limit.
pub fn check_size(bytes: &[u8], input: Input) -> Result<(), Error> {
    if bytes.len() > MAX_INPUT {
        return Err(Error::new(ErrorCode::Oversize, 0, input));
    }
    Ok(())
}
