//! The functions below the chart calls, for runs against their ports one by one.
//! Rows pass as bytes back to back, L bytes a row; anything else but whole rows is a panic.

use super::calls::{RustTally, in_48ths, is_judged, note_record, tally_of};
use super::{compact_output_rows as compact_in_text, reduce_output_measure as reduce_in_text, *};

// Line reader

#[must_use]
pub fn skip_ws(line: &[u8]) -> &[u8] {
    super::skip_ws(line)
}

#[must_use]
pub fn trim_cr(line: &[u8]) -> &[u8] {
    super::trim_cr(line)
}

#[must_use]
pub fn find_byte(slice: &[u8], needle: u8) -> Option<usize> {
    super::find_byte(slice, needle)
}

#[must_use]
pub fn count_byte(slice: &[u8], needle: u8) -> usize {
    super::count_byte(slice, needle)
}

/// The line's start, its length and the next offset; none past the end.
#[must_use]
pub fn next_line(data: &[u8], offset: usize) -> Option<(usize, usize, usize)> {
    let mut next = offset;
    let line = super::next_line(data, &mut next)?;
    Some((offset, line.len(), next))
}

// Cells and tap masks

/// The line has at least 4 bytes.
#[must_use]
pub fn tap_mask4(line: &[u8]) -> Option<u8> {
    super::tap_mask4(line)
}

/// The line has at least 8 bytes.
#[must_use]
pub fn tap_mask8(line: &[u8]) -> Option<u8> {
    super::tap_mask8(line)
}

#[must_use]
pub fn tap_mask_counts(mask: u8) -> u16 {
    TAP_MASK_COUNTS[mask as usize]
}

#[must_use]
pub fn is_all_zero(lanes: usize, row: &[u8]) -> bool {
    dispatch_lanes!(lanes, all_zero(row))
}

fn all_zero<const L: usize>(row: &[u8]) -> bool {
    super::is_all_zero(one_row::<L>(row))
}

// Reduction

#[must_use]
pub fn measure_reduce_shift(lanes: usize, rows: &[u8]) -> usize {
    dispatch_lanes!(lanes, shift_of(rows))
}

fn shift_of<const L: usize>(rows: &[u8]) -> usize {
    super::measure_reduce_shift(whole_rows::<L>(rows))
}

/// The number of rows that stay, and all rows as they are left.
#[must_use]
pub fn reduce_rows(lanes: usize, rows: &[u8]) -> (usize, Vec<u8>) {
    dispatch_lanes!(lanes, reduced(rows))
}

fn reduced<const L: usize>(rows: &[u8]) -> (usize, Vec<u8>) {
    let mut rows = whole_rows::<L>(rows).to_vec();
    let stay = super::reduce_rows(&mut rows);
    (stay, rows.concat())
}

/// The number of rows that stay, and the text as it is left.
#[must_use]
pub fn reduce_output_measure(
    lanes: usize,
    output: &[u8],
    start: usize,
    rows: usize,
) -> (usize, Vec<u8>) {
    let mut output = output.to_vec();
    let stay = dispatch_lanes!(lanes, reduce_in_text(&mut output, start, rows));
    (stay, output)
}

/// The number of rows that stay, and the text as it is left.
#[must_use]
pub fn compact_output_rows(
    lanes: usize,
    output: &[u8],
    start: usize,
    rows: usize,
    shift: usize,
) -> (usize, Vec<u8>) {
    let mut output = output.to_vec();
    let stay = dispatch_lanes!(lanes, compact_in_text(&mut output, start, rows, shift));
    (stay, output)
}

// Beats

/// The beats of all rows of one measure.
#[must_use]
pub fn append_row_beats(measure: usize, rows: usize) -> Vec<f32> {
    let mut beats = Vec::new();
    super::append_row_beats(&mut beats, measure, rows);
    beats
}

/// The beat of one row. It makes the whole measure's beats: for many, use `append_row_beats`.
#[must_use]
pub fn row_beat(measure: usize, row: usize, rows: usize) -> f32 {
    append_row_beats(measure, rows)[row]
}

/// The last beat's bits, and the last beat in 48ths.
#[must_use]
pub fn calc_last_beat(measure: Option<usize>, row: usize, rows: usize) -> (u64, u64) {
    let last = super::calc_last_beat(measure, row, rows);
    (last.to_bits(), in_48ths(last))
}

/// Whether the row is an object row, with the depths before it (L of them) brought up to date.
pub fn row_has_object(lanes: usize, row: &[u8], depths: &mut [u32]) -> bool {
    dispatch_lanes!(lanes, has_object(row, depths))
}

fn has_object<const L: usize>(row: &[u8], depths: &mut [u32]) -> bool {
    let depths = depths.try_into().expect("a depth for each column");
    super::row_has_object(one_row::<L>(row), depths)
}

// Rows read back, and the hold tracker

#[must_use]
pub fn parse_minimized_rows(lanes: usize, data: &[u8]) -> Vec<u8> {
    dispatch_lanes!(lanes, rows_read_back(data))
}

fn rows_read_back<const L: usize>(data: &[u8]) -> Vec<u8> {
    super::parse_minimized_rows::<L>(data).concat()
}

/// The pairs (head row, column, tail row) in the order in which they are closed.
#[must_use]
pub fn track_holds_core(lanes: usize, rows: &[u8]) -> Vec<(usize, usize, usize)> {
    dispatch_lanes!(lanes, pairs(rows))
}

fn pairs<const L: usize>(rows: &[u8]) -> Vec<(usize, usize, usize)> {
    let mut pairs = Vec::new();
    super::track_holds_core::<L>(whole_rows::<L>(rows).iter(), |head, column, tail| {
        pairs.push((head, column, tail));
    });
    pairs
}

// Tallies

/// What `count_line` leaves after the last of a list of rows, and its two answers for each row.
#[derive(Clone, Debug, Default, PartialEq, Eq)]
pub struct Counted {
    pub tally: RustTally,
    pub holds: u32,
    pub ends: u32,
    /// A 1, M, L or F was met at a phantom depth that is not 0; depths left over are not in it.
    pub has_phantom: bool,
    pub phantom_depths: Vec<u32>,
    pub object_depths: Vec<u32>,
    pub density: Vec<bool>,
    pub object: Vec<bool>,
}

#[must_use]
pub fn count_line(lanes: usize, rows: &[u8]) -> Counted {
    dispatch_lanes!(lanes, counted(rows))
}

fn counted<const L: usize>(rows: &[u8]) -> Counted {
    let mut stats = ArrowStats::default();
    let mut counted = Counted::default();
    let (mut phantom_depths, mut object_depths) = ([0; L], [0; L]);
    for row in whole_rows::<L>(rows) {
        let count = super::count_line(
            row,
            &mut stats,
            &mut counted.holds,
            &mut counted.ends,
            &mut phantom_depths,
            &mut counted.has_phantom,
            &mut object_depths,
        );
        counted.density.push(count.density);
        counted.object.push(count.object);
    }
    counted.tally = tally_of(&stats);
    counted.phantom_depths = phantom_depths.to_vec();
    counted.object_depths = object_depths.to_vec();
    counted
}

/// The records of the notes of a list of rows.
#[must_use]
pub fn count_line_notes(lanes: usize, rows: &[u8]) -> Vec<u8> {
    dispatch_lanes!(lanes, noted(rows))
}

fn noted<const L: usize>(rows: &[u8]) -> Vec<u8> {
    let mut stats = ArrowStats::default();
    let (mut holds, mut ends, mut has_phantom) = (0, 0, false);
    let (mut phantom_depths, mut object_depths) = ([0; L], [0; L]);
    let mut notes = ChartNotesScratch::default();
    notes.begin(L, 0);
    for row in whole_rows::<L>(rows) {
        super::count_line_notes(
            row,
            &mut stats,
            &mut holds,
            &mut ends,
            &mut phantom_depths,
            &mut has_phantom,
            &mut object_depths,
            &mut notes,
        );
    }
    notes.finish();
    notes.drain().flat_map(note_record).collect()
}

/// The tally of rows with a phantom mask each; a row past the masks has none.
#[must_use]
pub fn count_line_masked(lanes: usize, rows: &[u8], masks: &[u16]) -> RustTally {
    dispatch_lanes!(lanes, counted_masked(rows, masks))
}

fn counted_masked<const L: usize>(rows: &[u8], masks: &[u16]) -> RustTally {
    let mut stats = ArrowStats::default();
    for (i, row) in whole_rows::<L>(rows).iter().enumerate() {
        super::count_line_masked(row, &mut stats, masks.get(i).copied().unwrap_or(0));
    }
    tally_of(&stats)
}

/// The tally counted anew with only tracker-paired heads; `total_steps` is its own.
#[must_use]
pub fn recalc_phantom_stats(lanes: usize, rows: &[u8]) -> RustTally {
    dispatch_lanes!(lanes, recalculated(rows))
}

fn recalculated<const L: usize>(rows: &[u8]) -> RustTally {
    tally_of(&super::recalc_phantom_stats(whole_rows::<L>(rows)))
}

/// The judged tally of given rows, all judged.
#[must_use]
pub fn process_rows_judgable(lanes: usize, rows: &[u8]) -> RustTally {
    dispatch_lanes!(lanes, judged(rows))
}

fn judged<const L: usize>(rows: &[u8]) -> RustTally {
    tally_of(&super::process_rows_judgable(whole_rows::<L>(rows)))
}

/// The judged tally of given rows with flags.
#[must_use]
pub fn process_timing_rows(lanes: usize, rows: &[u8], flags: &[u8]) -> RustTally {
    dispatch_lanes!(lanes, judged_by_flags(rows, flags))
}

fn judged_by_flags<const L: usize>(rows: &[u8], flags: &[u8]) -> RustTally {
    let rows = whole_rows::<L>(rows);
    tally_of(&super::process_timing_rows(rows, |row| {
        is_judged(flags, row)
    }))
}

// Bytes as rows

fn whole_rows<const L: usize>(bytes: &[u8]) -> &[[u8; L]] {
    let (rows, rest) = bytes.as_chunks::<L>();
    assert!(rest.is_empty(), "the bytes are not whole rows of {L}");
    rows
}

fn one_row<const L: usize>(bytes: &[u8]) -> &[u8; L] {
    bytes.try_into().expect("one row of L bytes")
}
