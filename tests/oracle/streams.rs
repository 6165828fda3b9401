//! Stand-in for `streams.rs`: the names that `stats.rs` hands on, and nothing behind them.

pub struct BreakdownMode;
pub struct RunDensity;
pub struct StreamBreakdownLevel;
pub struct StreamCounts;
pub struct StreamSegment;
pub struct Token;

pub fn categorize_measure_density() {}
pub fn compute_stream_counts() {}
pub fn compute_stream_outputs() {}
pub fn compute_stream_outputs_with_scratch() {}
pub fn format_run_symbol() {}
pub fn generate_breakdown() {}
pub fn generate_breakdowns() {}
pub fn stream_breakdown() {}
pub fn stream_breakdowns() {}
pub fn stream_sequences() {}
pub fn visit_stream_sequences() {}
