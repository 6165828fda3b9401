//! The calls with nothing around them, for timing: the Rust's own results, and its buffers reused where it takes them. For the list of
//! dropped heads, which the Rust does not have, it is the plain reference over the Rust's minimised text. At six lanes they are the Rust's functions
//! over a const L, which count directions by fours.

use super::calls::{Call, is_judged, main_call};
use super::*;
use crate::dropped::dropped_heads;
use std::hint::black_box;

/// What the Rust fills and a caller may keep from call to call.
#[derive(Default)]
pub struct Buffers {
    densities: Vec<usize>,
    notes: ChartNotesScratch,
}

/// Runs one call of the Rust. Its results are made and let go of.
pub fn run(call: Call, data: &[u8], lanes: usize, flags: &[u8], buffers: &mut Buffers) {
    match call {
        Call::MinimizeChartCountRowsNotes => {
            let notes = &mut buffers.notes;
            black_box(main_call(data, lanes, notes));
        }
        Call::ProcessChartKept => dispatch_lanes!(lanes, kept(data)),
        Call::MinimizeTimingRows => dispatch_lanes!(lanes, timing_rows(data)),
        Call::MeasureDensities => {
            buffers.densities.clear();
            dispatch_lanes!(lanes, fill_densities_impl(data, &mut buffers.densities));
            black_box(&buffers.densities);
        }
        Call::EquallySpaced => {
            black_box(dispatch_lanes!(lanes, equally_spaced_impl(data)));
        }
        Call::ChartLastBeat => {
            black_box(dispatch_lanes!(lanes, chart_last_beat_impl(data)));
        }
        Call::ProcessRowsJudgable => dispatch_lanes!(lanes, judged_rows(data)),
        Call::ProcessTimingRows => dispatch_lanes!(lanes, judged_by_flags(data, flags)),
        Call::DroppedHolds => {
            let text = dispatch_lanes!(lanes, minimize_hash_impl(data));
            black_box(dropped_heads(&text, lanes));
        }
    }
}

/// The same, and the notes of the main call are handed out one by one, as a loader takes them.
pub fn run_and_read(call: Call, data: &[u8], lanes: usize, flags: &[u8], buffers: &mut Buffers) {
    run(call, data, lanes, flags, buffers);
    for note in buffers.notes.drain() {
        black_box(note);
    }
}

/// Runs one call of the Rust with nothing kept from another. The notes of the main call are collected.
pub fn run_anew(call: Call, data: &[u8], lanes: usize, flags: &[u8]) {
    match call {
        Call::MinimizeChartCountRowsNotes => {
            let mut notes = ChartNotesScratch::default();
            let chart = main_call(data, lanes, &mut notes);
            black_box((chart, notes.drain().collect::<Vec<_>>()));
        }
        Call::MeasureDensities => {
            let mut densities = Vec::with_capacity(density_capacity(data.len(), lanes));
            dispatch_lanes!(lanes, fill_densities_impl(data, &mut densities));
            black_box(densities);
        }
        _ => run(call, data, lanes, flags, &mut Buffers::default()),
    }
}

fn kept<const L: usize>(data: &[u8]) {
    let mut rows: Vec<[u8; L]> = Vec::new();
    black_box(process_chart_in_impl::<L, false, true, _, _>(
        data,
        &mut rows,
        &mut |_, _| {},
        &mut |_, _, _, _, _| {},
        &mut ChartNotesScratch::default(),
    ));
}

fn timing_rows<const L: usize>(data: &[u8]) {
    black_box(minimize_timing_rows::<L>(data));
}

fn judged_rows<const L: usize>(data: &[u8]) {
    black_box(process_rows_judgable::<L>(&parse_minimized_rows(data)));
}

fn judged_by_flags<const L: usize>(data: &[u8], flags: &[u8]) {
    let rows = parse_minimized_rows::<L>(data);
    black_box(process_timing_rows(&rows, |row| is_judged(flags, row)));
}
