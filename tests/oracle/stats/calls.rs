//! The nine chart calls of the outside interface at a lane count, each as the Rust answers it, which is asked about the text that `asked` says; what the Rust
//! does not have by a plain reference: the list of dropped heads (`dropped`), a tally's keysounds (`keysounds`) and the directions of its arrows
//! at six lanes (`directions`). All else at six lanes is what the Rust's functions over a const L answer where L is 6.
//! A text that a call would refuse is answered here all the same; `entry` has the refusals.

use super::*;
use crate::asked::{chart_text, read_back_text};
use crate::directions::{Directions, chart_directions, judged_directions};
use crate::dropped::{DroppedHead, dropped_heads, text_rows};
use crate::keysounds::{keysounds, rows_read_back};

/// Places in `figures`; the tally takes those from `TALLY` to `UP_RIGHT`.
pub const TEXT_BYTES: usize = 0;
pub const MEASURES: usize = 1;
pub const ROWS: usize = 2;
pub const NOTES: usize = 3;
pub const LAST_BEAT: usize = 4;
pub const HAS_HEADS: usize = 5;
pub const LAST_BEAT_48THS: usize = 6;
pub const TALLY: usize = 8;
pub const LEFT: usize = 9;
pub const RIGHT: usize = 12;
pub const KEYSOUNDS: usize = 22;
pub const UP_LEFT: usize = 23;
pub const UP_RIGHT: usize = 24;

/// Bytes of a note record, and the tail that stands for none.
pub const NOTE_BYTES: usize = 10;
pub const NO_TAIL: u32 = NO_TAIL_ROW;

pub type Figures = [u64; 32];

/// The fields of a tally in their order: those of the Rust's `ArrowStats`, the keysounds, and two directions.
pub type Tally = [u64; 17];

/// The Rust's fields alone.
pub type RustTally = [u64; 14];

pub const TALLY_NAMES: [&str; 17] = [
    "total_arrows",
    "left",
    "down",
    "up",
    "right",
    "total_steps",
    "jumps",
    "hands",
    "mines",
    "holds",
    "rolls",
    "lifts",
    "fakes",
    "holding",
    "keysounds",
    "up_left",
    "up_right",
];

/// The chart calls in the order of the interface's table.
#[derive(Clone, Copy, Debug, PartialEq, Eq)]
pub enum Call {
    MinimizeChartCountRowsNotes,
    ProcessChartKept,
    MinimizeTimingRows,
    MeasureDensities,
    EquallySpaced,
    ChartLastBeat,
    ProcessRowsJudgable,
    ProcessTimingRows,
    DroppedHolds,
}

pub const CALLS: [Call; 9] = [
    Call::MinimizeChartCountRowsNotes,
    Call::ProcessChartKept,
    Call::MinimizeTimingRows,
    Call::MeasureDensities,
    Call::EquallySpaced,
    Call::ChartLastBeat,
    Call::ProcessRowsJudgable,
    Call::ProcessTimingRows,
    Call::DroppedHolds,
];

impl Call {
    /// The entry's name without its prefix.
    #[must_use]
    pub fn name(self) -> &'static str {
        match self {
            Self::MinimizeChartCountRowsNotes => "minimize_chart_count_rows_notes",
            Self::ProcessChartKept => "process_chart_kept",
            Self::MinimizeTimingRows => "minimize_timing_rows",
            Self::MeasureDensities => "measure_densities",
            Self::EquallySpaced => "equally_spaced",
            Self::ChartLastBeat => "chart_last_beat",
            Self::ProcessRowsJudgable => "process_rows_judgable",
            Self::ProcessTimingRows => "process_timing_rows",
            Self::DroppedHolds => "dropped_holds",
        }
    }
}

/// What an accepted call answers. A slice that the call does not answer is empty.
#[derive(Clone, Debug, Default)]
pub struct Answer {
    pub figures: Figures,
    /// Minimised text, or the timing rows back to back.
    pub text: Vec<u8>,
    pub densities: Vec<u32>,
    /// 1 true, 0 false.
    pub spacing: Vec<u8>,
    pub beats: Vec<f32>,
    /// Note records back to back, or those of the dropped heads.
    pub notes: Vec<u8>,
}

impl Answer {
    /// The tally's part of the figures.
    #[must_use]
    pub fn tally(&self) -> Tally {
        let mut tally = Tally::default();
        tally.copy_from_slice(&self.figures[TALLY..=UP_RIGHT]);
        tally
    }

    /// The Rust's fields and the keysounds; at six lanes the directions that are told take the place of the Rust's.
    fn set_tally(&mut self, stats: &ArrowStats, keysounds: u64, six: Option<Directions>) {
        self.figures[TALLY..KEYSOUNDS].copy_from_slice(&tally_of(stats));
        self.figures[KEYSOUNDS] = keysounds;
        if let Some([directions @ .., up_left, up_right]) = six {
            self.figures[LEFT..=RIGHT].copy_from_slice(&directions);
            self.figures[UP_LEFT] = up_left;
            self.figures[UP_RIGHT] = up_right;
        }
    }

    /// The main or the kept tally of this minimised text.
    fn set_chart_tally(&mut self, stats: &ArrowStats, text: &[u8], lanes: usize) {
        let six = (lanes == 6).then(|| chart_directions(text_rows(text, lanes), lanes));
        self.set_tally(stats, keysounds(text_rows(text, lanes)), six);
    }

    fn set_text(&mut self, text: Vec<u8>) {
        self.figures[TEXT_BYTES] = text.len() as u64;
        self.text = text;
    }

    fn set_densities(&mut self, densities: &[usize]) {
        self.figures[MEASURES] = densities.len() as u64;
        self.densities = densities.iter().map(|&density| density as u32).collect();
    }

    fn set_last_beat(&mut self, last: f64) {
        self.figures[LAST_BEAT] = last.to_bits();
        self.figures[LAST_BEAT_48THS] = in_48ths(last);
    }
}

/// The answer of any of these calls. Only `process_timing_rows` looks at the flags.
#[must_use]
pub fn answer(call: Call, data: &[u8], lanes: usize, flags: &[u8]) -> Answer {
    match call {
        Call::MinimizeChartCountRowsNotes => minimize_chart_count_rows_notes(data, lanes),
        Call::ProcessChartKept => process_chart_kept(data, lanes),
        Call::MinimizeTimingRows => minimize_timing_rows(data, lanes),
        Call::MeasureDensities => measure_densities(data, lanes),
        Call::EquallySpaced => equally_spaced(data, lanes),
        Call::ChartLastBeat => chart_last_beat(data, lanes),
        Call::ProcessRowsJudgable => process_rows_judgable(data, lanes),
        Call::ProcessTimingRows => process_timing_rows(data, lanes, flags),
        Call::DroppedHolds => dropped_holds(data, lanes),
    }
}

/// The Rust's function of the main call, at six lanes too.
pub(super) fn main_call(
    data: &[u8],
    lanes: usize,
    notes: &mut ChartNotesScratch,
) -> (Vec<u8>, ArrowStats, Vec<usize>, Vec<f32>, f64) {
    match lanes {
        6 => minimize_rows_direct_notes::<6, true>(data, notes),
        _ => super::minimize_chart_count_rows_notes(data, lanes, notes),
    }
}

#[must_use]
pub fn minimize_chart_count_rows_notes(data: &[u8], lanes: usize) -> Answer {
    let mut chart_notes = ChartNotesScratch::default();
    let data = &chart_text(data, lanes);
    let (text, stats, densities, beats, last) = main_call(data, lanes, &mut chart_notes);
    let mut answer = Answer::default();
    answer.figures[ROWS] = beats.len() as u64;
    answer.figures[NOTES] = chart_notes.notes.len() as u64;
    answer.set_chart_tally(&stats, &text, lanes);
    answer.set_text(text);
    answer.set_densities(&densities);
    answer.set_last_beat(last);
    answer.beats = beats;
    answer.notes = chart_notes.drain().flat_map(note_record).collect();
    answer
}

/// The kept-row call: `process_chart_in_impl` with KEEP.
#[must_use]
pub fn process_chart_kept(data: &[u8], lanes: usize) -> Answer {
    let data = &chart_text(data, lanes);
    dispatch_lanes!(lanes, kept(data))
}

fn kept<const L: usize>(data: &[u8]) -> Answer {
    let mut rows: Vec<[u8; L]> = Vec::new();
    let (text, stats, densities) = process_chart_in_impl::<L, false, true, _, _>(
        data,
        &mut rows,
        &mut |_, _| {},
        &mut |_, _, _, _, _| {},
        &mut ChartNotesScratch::default(),
    );
    let mut answer = Answer::default();
    answer.figures[ROWS] = rows.len() as u64;
    answer.set_chart_tally(&stats, &text, L);
    answer.set_text(text);
    answer.set_densities(&densities);
    answer
}

#[must_use]
pub fn minimize_timing_rows(data: &[u8], lanes: usize) -> Answer {
    let data = &chart_text(data, lanes);
    dispatch_lanes!(lanes, timing_rows(data))
}

fn timing_rows<const L: usize>(data: &[u8]) -> Answer {
    let (rows, beats, has_heads) = super::minimize_timing_rows::<L>(data);
    let mut answer = Answer::default();
    answer.figures[ROWS] = rows.len() as u64;
    answer.figures[HAS_HEADS] = u64::from(has_heads);
    answer.set_text(rows.concat());
    answer.beats = beats;
    answer
}

#[must_use]
pub fn measure_densities(data: &[u8], lanes: usize) -> Answer {
    let data = &chart_text(data, lanes);
    let mut answer = Answer::default();
    let mut densities = Vec::new();
    match lanes {
        6 => fill_densities_impl::<6>(data, &mut densities),
        _ => densities = super::measure_densities(data, lanes),
    }
    answer.set_densities(&densities);
    answer
}

#[must_use]
pub fn equally_spaced(data: &[u8], lanes: usize) -> Answer {
    let data = &chart_text(data, lanes);
    let spacing = dispatch_lanes!(lanes, equally_spaced_impl(data));
    let mut answer = Answer::default();
    answer.figures[MEASURES] = spacing.len() as u64;
    answer.spacing = spacing.into_iter().map(u8::from).collect();
    answer
}

#[must_use]
pub fn chart_last_beat(data: &[u8], lanes: usize) -> Answer {
    let data = &chart_text(data, lanes);
    let mut answer = Answer::default();
    answer.set_last_beat(dispatch_lanes!(lanes, chart_last_beat_impl(data)));
    answer
}

/// The judged tally with every row judged, over the rows that `parse_minimized_rows` reads.
#[must_use]
pub fn process_rows_judgable(data: &[u8], lanes: usize) -> Answer {
    let asked = &read_back_text(data, lanes);
    let stats = dispatch_lanes!(lanes, judged_rows(asked));
    let six = (lanes == 6).then(|| judged_directions(rows_read_back(data, lanes), lanes, |_| true));
    tally_alone(&stats, keysounds(rows_read_back(data, lanes)), six)
}

fn judged_rows<const L: usize>(data: &[u8]) -> ArrowStats {
    super::process_rows_judgable::<L>(&parse_minimized_rows(data))
}

/// The judged tally with one flag a row: 0 unjudged, else judged, past the flags unjudged.
#[must_use]
pub fn process_timing_rows(data: &[u8], lanes: usize, flags: &[u8]) -> Answer {
    let asked = &read_back_text(data, lanes);
    let stats = dispatch_lanes!(lanes, judged_by_flags(asked, flags));
    let rows = rows_read_back(data, lanes).enumerate();
    let judged = rows.filter_map(|(i, row)| is_judged(flags, i).then_some(row));
    let judges = |row| is_judged(flags, row);
    let six = (lanes == 6).then(|| judged_directions(rows_read_back(data, lanes), lanes, judges));
    tally_alone(&stats, keysounds(judged), six)
}

fn judged_by_flags<const L: usize>(data: &[u8], flags: &[u8]) -> ArrowStats {
    super::process_timing_rows::<L>(&parse_minimized_rows(data), |row| is_judged(flags, row))
}

/// The minimised text, and the heads that come to nothing.
#[must_use]
pub fn dropped_holds(data: &[u8], lanes: usize) -> Answer {
    let main = minimize_chart_count_rows_notes(data, lanes);
    let heads = dropped_heads(&main.text, lanes);
    let mut answer = Answer::default();
    for place in [MEASURES, ROWS] {
        answer.figures[place] = main.figures[place];
    }
    answer.figures[NOTES] = heads.len() as u64;
    answer.set_text(main.text);
    answer.notes = heads.iter().flat_map(DroppedHead::record).collect();
    answer
}

fn tally_alone(stats: &ArrowStats, keysounds: u64, six: Option<Directions>) -> Answer {
    let mut answer = Answer::default();
    answer.set_tally(stats, keysounds, six);
    answer
}

/// Whether a row is judged, with one flag a row: a row past them is not.
#[must_use]
pub fn is_judged(flags: &[u8], row: usize) -> bool {
    flags.get(row).is_some_and(|&flag| flag != 0)
}

pub(super) fn tally_of(stats: &ArrowStats) -> RustTally {
    [
        stats.total_arrows.into(),
        stats.left.into(),
        stats.down.into(),
        stats.up.into(),
        stats.right.into(),
        stats.total_steps.into(),
        stats.jumps.into(),
        stats.hands.into(),
        stats.mines.into(),
        stats.holds.into(),
        stats.rolls.into(),
        stats.lifts.into(),
        stats.fakes.into(),
        // The Rust keeps `holding` at 0 or above.
        stats.holding as u64,
    ]
}

/// The whole number that was divided by 48 to give this last beat.
pub(super) fn in_48ths(last: f64) -> u64 {
    beat_to_note_row(last) as u64
}

/// A note as a record stores it: row, tail, column, kind.
pub(super) fn note_record(note: ParsedChartNote) -> [u8; NOTE_BYTES] {
    let tail = note.tail_row_index.map_or(NO_TAIL, |row| row as u32);
    let mut record = [0; NOTE_BYTES];
    record[..4].copy_from_slice(&(note.row_index as u32).to_le_bytes());
    record[4..8].copy_from_slice(&tail.to_le_bytes());
    record[8] = note.column as u8;
    record[9] = note.note_type as u8;
    record
}
