//! Stand-in for `timing.rs`: only the names that `stats.rs` asks for.
//! The beat and row conversions are carried over to the letter; the timing data is empty.

pub const ROWS_PER_BEAT: i32 = 48;

/// The specification says ties go to even; the file that holds the original is not at hand.
/// Its result type makes no difference below 2^31, and no accepted text reaches that.
fn lrint_f64(value: f64) -> f64 {
    value.round_ties_even()
}

fn lrint_f32(value: f32) -> i32 {
    value.round_ties_even() as i32
}

#[inline(always)]
#[must_use]
pub fn note_row_to_beat(row: i32) -> f64 {
    f64::from(row) / f64::from(ROWS_PER_BEAT)
}

#[inline(always)]
#[must_use]
pub fn beat_to_note_row(beat: f64) -> i32 {
    lrint_f64(beat * f64::from(ROWS_PER_BEAT)) as i32
}

#[inline(always)]
pub(crate) fn beat_to_note_row_f32(beat: f32) -> i32 {
    lrint_f32(beat * ROWS_PER_BEAT as f32)
}

/// Timing data without a warp or a fake; flags stand in its place.
pub struct TimingData;

#[must_use]
pub fn has_nonjudgable_rows(_: &TimingData) -> bool {
    false
}

/// Judges every row, as the Rust does for timing data without a warp or a fake.
pub(crate) struct JudgableRowCursor;

impl JudgableRowCursor {
    pub(crate) fn new(_: &TimingData) -> Self {
        Self
    }

    pub(crate) fn is_judgable(&mut self, _: i32) -> bool {
        true
    }
}
