//! The calls as `adtg.h` declares them, but over slices, and their replies as they come. For
//! programs that test the archive: a bridge needs nothing of this.

#[allow(unsafe_code)]
mod calls;
mod reply;

pub use calls::*;
pub(crate) use reply::{error, size};
pub use reply::{
    FedReply, Malformed, Numbers, PageReply, Paged, PlanReply, Reply, Value, UNTOUCHED,
};
