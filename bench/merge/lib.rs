//! The merge program without proofs, over any sources of bytes: the benchmark's baseline, and what large logs are
//! compared with, for which the merging by sets would need too much memory.

mod log_reader;
pub mod long_logs;
mod merging;

pub use merging::{merge, Failure, NAMES};
