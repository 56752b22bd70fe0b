//! The listing program without proofs, on the heap and with indexes: the benchmark's baseline, and what long inputs are
//! compared with, for which the set-building program is too slow.

mod line_reader;
pub mod long_logs;
mod play;
pub mod watch;

pub use play::{list, TABLE_ROWS};
