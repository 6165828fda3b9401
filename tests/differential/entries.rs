//! The entries of libpadcheck.a by what the oracle calls a loan, as the table of the Rust binding (`bindings/rust/src/lent.rs`) has them.
//! One line of `entries!` puts a chart call into `ENTRIES`. The list of dropped heads is lent where the notes of the main call are.

use oracle::calls::Call;
use oracle::entry::Loan;
use padcheck::{Refusal, lent};

/// An entry: text, lane number, flags and loan in, the number out. Only a call that is lent flags looks at them.
pub type Enter = fn(&[u8], usize, &[u8], &mut Loan) -> u32;

pub struct Entry {
    pub call: Call,
    pub enter: Enter,
}

/// The number that an entry returned.
pub fn number(answer: Result<(), Refusal>) -> u32 {
    answer.map_or_else(Refusal::number, |()| 0)
}

/// What stands before the `;` is given as it is; behind it are the slices of the loan that are lent, and the figures come last.
macro_rules! entries {
    (|$data:ident, $lanes:ident, $flags:ident| $($call:ident: $name:ident($($given:ident),*; $($slice:ident),*),)*) => {
        /// The entries of the chart calls, in the order of the interface's table.
        #[allow(unused_variables, reason = "one call is lent flags")]
        pub const ENTRIES: &[Entry] = &[$(Entry {
            call: Call::$call,
            enter: |$data, $lanes, $flags, loan| {
                number(lent::$name($($given,)* $(&mut loan.$slice,)* &mut loan.figures))
            },
        }),*];
    };
}

entries! { |data, lanes, flags|
    MinimizeChartCountRowsNotes: minimize_chart_count_rows_notes(data, lanes; text, densities, beats, work, notes),
    ProcessChartKept: process_chart_kept(data, lanes; text, densities, work),
    MinimizeTimingRows: minimize_timing_rows(data, lanes; text, beats),
    MeasureDensities: measure_densities(data, lanes; densities),
    EquallySpaced: equally_spaced(data, lanes; spacing),
    ChartLastBeat: chart_last_beat(data, lanes;),
    ProcessRowsJudgable: process_rows_judgable(data, lanes; work),
    ProcessTimingRows: process_timing_rows(data, lanes, flags; work),
    DroppedHolds: dropped_holds(data, lanes; text, notes),
}
