//! The ways to make a call: an exported entry over lent slices, and the binding's, each beside what the Rust does there.

use crate::entries::{ENTRIES, Entry};
use crate::loads::Load;
use crate::loans::{bytes, lent, marked};
use oracle::calls::{Call, MEASURES, NOTE_BYTES, NOTES, ROWS, TEXT_BYTES};
use oracle::entry::{Loan, enter};
use oracle::timed;
use padcheck::stats::{self, ChartNotesScratch};
use std::hint::black_box;

/// How a call is made.
#[derive(Clone, Copy, PartialEq, Eq, PartialOrd, Ord)]
pub enum Way {
    /// An exported entry over slices that are lent again and again, of which at first no page is resident; the Rust with its
    /// buffers reused.
    Entry,
    /// The same over slices of which every page is resident, since something was written to all of it before.
    Resident,
    /// `padcheck::Buffers`, one for all charts, the notes read one by one; the Rust in the same way.
    Buffers,
    /// `padcheck::stats`, which has the Rust's own signatures, with one scratch for all charts; the Rust in the same way.
    Stats,
    /// The functions of the binding's root, which allocate what they answer; the Rust with nothing kept.
    Anew,
    /// The same, and the thread lets go of the slices it has kept before each text, as in its first call.
    First,
}

impl Way {
    pub const ALL: [Self; 6] = [
        Self::Entry,
        Self::Resident,
        Self::Buffers,
        Self::Stats,
        Self::Anew,
        Self::First,
    ];

    pub fn name(self) -> &'static str {
        match self {
            Self::Entry => "entry",
            Self::Resident => "resident",
            Self::Buffers => "buffers",
            Self::Stats => "stats",
            Self::Anew => "anew",
            Self::First => "first",
        }
    }

    /// Whether the call can be made in this way.
    pub fn makes(self, call: Call) -> bool {
        match self {
            Self::Entry | Self::Anew => true,
            // The last beat needs no buffer.
            Self::Resident | Self::Buffers | Self::First => call != Call::ChartLastBeat,
            Self::Stats => matches!(
                call,
                Call::MinimizeChartCountRowsNotes
                    | Call::MeasureDensities
                    | Call::EquallySpaced
                    | Call::ChartLastBeat
            ),
        }
    }
}

/// One call made in one way, ours and the Rust's, with all that is kept from text to text.
pub struct Pair {
    pub call: Call,
    way: Way,
    entry: &'static Entry,
    /// Slices for the entry, given to the texts in turn.
    loans: Vec<Loan>,
    buffers: padcheck::Buffers,
    scratch: ChartNotesScratch,
    rust: timed::Buffers,
}

impl Pair {
    /// `sets` is how many sets of slices the texts are given in turn.
    pub fn new(way: Way, call: Call, load: &Load, sets: usize) -> Self {
        let entry = ENTRIES.iter().find(|entry| entry.call == call);
        let (len, lanes) = (load.longest(), load.lanes);
        let loans = match way {
            Way::Entry => (0..sets).map(|_| lent(call, len, lanes)).collect(),
            Way::Resident => (0..sets).map(|_| marked(call, len, lanes)).collect(),
            _ => Vec::new(),
        };
        Self {
            call,
            way,
            entry: entry.expect("every call has its entry"),
            loans,
            buffers: padcheck::Buffers::new(),
            scratch: ChartNotesScratch::default(),
            rust: timed::Buffers::default(),
        }
    }

    /// Our call on every text of the load.
    pub fn run_ours(&mut self, load: &Load) {
        let (lanes, flags) = (load.lanes, &load.flags);
        for (place, text) in load.texts.iter().enumerate() {
            match self.way {
                Way::Entry | Way::Resident => {
                    let set = place % self.loans.len();
                    (self.entry.enter)(text, lanes, flags, &mut self.loans[set]);
                }
                Way::Buffers => with_buffers(self.call, text, lanes, flags, &mut self.buffers),
                Way::Stats => with_stats(self.call, text, lanes, &mut self.scratch),
                Way::Anew => anew(self.call, text, lanes, flags),
                Way::First => {
                    padcheck::release_buffers();
                    anew(self.call, text, lanes, flags);
                }
            }
        }
    }

    /// The Rust's call on every text of the load.
    pub fn run_rust(&mut self, load: &Load) {
        let (call, lanes, flags) = (self.call, load.lanes, &load.flags);
        let buffers = &mut self.rust;
        for text in &load.texts {
            match self.way {
                Way::Entry | Way::Resident => timed::run(call, text, lanes, flags, buffers),
                Way::Buffers => timed::run_and_read(call, text, lanes, flags, buffers),
                Way::Stats if call == Call::MinimizeChartCountRowsNotes => {
                    timed::run_and_read(call, text, lanes, flags, buffers);
                }
                _ => timed::run_anew(call, text, lanes, flags),
            }
        }
    }

    /// Whether this is an entry that is lent a slice, and so leaves zeros.
    pub fn has_zeros(&self) -> bool {
        self.loans.iter().any(|loan| bytes(loan) > 0)
    }

    /// Looks at what the entry left as zeros once more, once for each text: all past its answer, and the work slice.
    pub fn run_zeros(&mut self, load: &Load) {
        let sets = self.loans.len();
        for place in 0..load.texts.len() {
            let Some(loan) = self.loans.get(place % sets.max(1)) else {
                return;
            };
            let figure = |place: usize| loan.figures[place] as usize;
            let (text, measures) = (figure(TEXT_BYTES), figure(MEASURES));
            let (rows, notes) = (figure(ROWS), NOTE_BYTES * figure(NOTES));
            let zeros = are_zero(past(&loan.text, text), |&byte| byte == 0)
                & are_zero(past(&loan.densities, measures), |&density| density == 0)
                & are_zero(past(&loan.spacing, measures), |&byte| byte == 0)
                & are_zero(past(&loan.beats, rows), |beat| beat.to_bits() == 0)
                & are_zero(past(&loan.notes, notes), |&byte| byte == 0)
                & are_zero(&loan.work, |&entry| entry == 0);
            take(zeros);
        }
    }
}

/// What a slice has from a place on; a slice that is not lent is empty.
fn past<T>(slice: &[T], place: usize) -> &[T] {
    slice.get(place..).unwrap_or_default()
}

/// Whether all of a slice is 0, asked as the entries ask: in parts, both halves of each in turns, to its end whatever is met.
fn are_zero<T>(slice: &[T], is_zero: impl Fn(&T) -> bool) -> bool {
    const PART: usize = 16_384;
    slice.chunks(PART).fold(true, |all, part| {
        let after = part.len() / 2;
        let halves = part[..part.len() - after].iter().zip(&part[after..]);
        halves.fold(all, |all, (x, y)| all & is_zero(x) & is_zero(y))
    })
}

/// Whether an entry answers every text of a load as the Rust does, zeros and figures included.
pub fn agrees(call: Call, load: &Load) -> bool {
    let mut pair = Pair::new(Way::Resident, call, load, 1);
    load.texts.iter().all(|text| {
        let loan = &mut pair.loans[0];
        let mut want = loan.clone();
        (pair.entry.enter)(text, load.lanes, &load.flags, loan);
        enter(call, text, load.lanes, &load.flags, &mut want);
        loan.same(&want)
    })
}

fn with_buffers(
    call: Call,
    data: &[u8],
    lanes: usize,
    flags: &[u8],
    buffers: &mut padcheck::Buffers,
) {
    let accepted = match call {
        Call::MinimizeChartCountRowsNotes => buffers
            .minimize_chart_count_rows_notes(data, lanes)
            .map(|chart| chart.notes.for_each(take)),
        Call::ProcessChartKept => buffers.process_chart_kept(data, lanes).map(take),
        Call::MinimizeTimingRows => buffers.minimize_timing_rows(data, lanes).map(take),
        Call::MeasureDensities => buffers.measure_densities(data, lanes).map(take),
        Call::EquallySpaced => buffers.equally_spaced(data, lanes).map(take),
        Call::ChartLastBeat => padcheck::chart_last_beat(data, lanes).map(take),
        Call::ProcessRowsJudgable => buffers.process_rows_judgable(data, lanes).map(take),
        Call::ProcessTimingRows => buffers.process_timing_rows(data, lanes, flags).map(take),
        Call::DroppedHolds => buffers
            .dropped_holds(data, lanes)
            .map(|dropped| dropped.heads.for_each(take)),
    };
    accepted.expect("no text here is too long");
}

fn with_stats(call: Call, data: &[u8], lanes: usize, scratch: &mut ChartNotesScratch) {
    match call {
        Call::MinimizeChartCountRowsNotes => {
            take(stats::minimize_chart_count_rows_notes(data, lanes, scratch));
            scratch.drain().for_each(take);
        }
        Call::MeasureDensities => take(stats::measure_densities(data, lanes)),
        Call::EquallySpaced => take(stats::measure_equally_spaced(data, lanes)),
        Call::ChartLastBeat => take(stats::chart_last_beat(data, lanes)),
        _ => unreachable!("`Way::makes` has no other for this way"),
    }
}

fn anew(call: Call, data: &[u8], lanes: usize, flags: &[u8]) {
    let accepted = match call {
        Call::MinimizeChartCountRowsNotes => {
            padcheck::minimize_chart_count_rows_notes(data, lanes).map(take)
        }
        Call::ProcessChartKept => padcheck::process_chart_kept(data, lanes).map(take),
        Call::MinimizeTimingRows => match lanes {
            5 => padcheck::minimize_timing_rows::<5>(data).map(take),
            6 => padcheck::minimize_timing_rows::<6>(data).map(take),
            8 => padcheck::minimize_timing_rows::<8>(data).map(take),
            10 => padcheck::minimize_timing_rows::<10>(data).map(take),
            _ => padcheck::minimize_timing_rows::<4>(data).map(take),
        },
        Call::MeasureDensities => padcheck::measure_densities(data, lanes).map(take),
        Call::EquallySpaced => padcheck::equally_spaced(data, lanes).map(take),
        Call::ChartLastBeat => padcheck::chart_last_beat(data, lanes).map(take),
        Call::ProcessRowsJudgable => padcheck::process_rows_judgable(data, lanes).map(take),
        Call::ProcessTimingRows => padcheck::process_timing_rows(data, lanes, flags).map(take),
        Call::DroppedHolds => padcheck::dropped_holds(data, lanes).map(take),
    };
    accepted.expect("no text here is too long");
}

/// Lets go of an answer that the compiler must make.
fn take<T>(answer: T) {
    drop(black_box(answer));
}
