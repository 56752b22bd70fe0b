//! What the tests and the benchmarks share: the plain chart reader and the plain watch, the values of the C interface,
//! charts and inputs from fixed seeds, and how a test is run. No module of this crate uses proved code.

pub mod blocks;
pub mod careless;
pub mod chart_value;
pub mod harness;
pub mod interface;
pub mod left_out;
pub mod paper;
pub mod plain_chart;
pub mod plain_watch;
pub mod random;
pub mod random_charts;
pub mod random_inputs;
pub mod texts;
pub mod timing;
