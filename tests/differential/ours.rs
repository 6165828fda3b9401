//! The leaves of libleaves.a, and the entries that read a note record, set a pad trace against records, write a sheet, write a chart and read an SM file, as
//! safe functions.
//! What a leaf does not take comes back as `None`.

mod leaves {
    unsafe extern "C" {
        pub fn leaves_skip_ws(line: *const u8, len: usize) -> usize;
        pub fn leaves_trim_cr(line: *const u8, len: usize) -> usize;
        pub fn leaves_find_byte(slice: *const u8, len: usize, needle: u8) -> usize;
        pub fn leaves_count_byte(slice: *const u8, len: usize, needle: u8) -> usize;
        pub fn leaves_next_line(data: *const u8, len: usize, start: usize) -> usize;
        pub safe fn leaves_cell_of(b: u8) -> u32;
        pub safe fn leaves_hold_effect(b: u8) -> u32;
        pub safe fn leaves_object_effect(b: u8) -> u32;
        pub fn leaves_row_has_note(row: *const u8, len: usize) -> bool;
        pub fn leaves_tap_mask4(row: *const u8, len: usize) -> u32;
        pub fn leaves_tap_mask8(row: *const u8, len: usize) -> u32;
        pub fn leaves_tap_sum(mask: u8, sum: *mut u32);
        pub fn leaves_is_all_zero(row: *const u8, len: usize) -> bool;
        pub safe fn leaves_lanes_of(lanes: usize) -> usize;
        pub fn leaves_stride(
            text: *const u8,
            len: usize,
            start: usize,
            rows: usize,
            width: usize,
            lanes: usize,
        ) -> usize;
        pub fn leaves_compact_output_rows(
            text: *mut u8,
            len: usize,
            start: usize,
            rows: usize,
            shift: usize,
            width: usize,
        ) -> usize;
        pub fn leaves_row_beat(m: u32, r: u32, n: u32, beat: *mut f32) -> u32;
        pub fn leaves_append_row_beats(
            beats: *mut f32,
            len: usize,
            at: usize,
            midx: u32,
            rows: u32,
        ) -> u32;
        pub fn leaves_calc_last_beat(m: u32, r: u32, n: u32, last: *mut u64) -> u32;
    }
}

use crate::entries::number;
use leaves::*;
pub use leaves::{
    leaves_cell_of as cell_of, leaves_hold_effect as hold_effect, leaves_lanes_of as lanes_of,
    leaves_object_effect as object_effect,
};
use oracle::calls::Figures;
use oracle::entry::Loan;
use oracle::presses::Places;
use oracle::written::Given;
use padcheck::lent;

// Below, each pointer goes with the length of its slice or points to an array of the size that the leaf names.

pub fn skip_ws(line: &[u8]) -> usize {
    unsafe { leaves_skip_ws(line.as_ptr(), line.len()) }
}

pub fn trim_cr(line: &[u8]) -> usize {
    unsafe { leaves_trim_cr(line.as_ptr(), line.len()) }
}

pub fn find_byte(slice: &[u8], needle: u8) -> Option<usize> {
    place(unsafe { leaves_find_byte(slice.as_ptr(), slice.len(), needle) })
}

pub fn count_byte(slice: &[u8], needle: u8) -> usize {
    unsafe { leaves_count_byte(slice.as_ptr(), slice.len(), needle) }
}

pub fn next_line(data: &[u8], start: usize) -> usize {
    unsafe { leaves_next_line(data.as_ptr(), data.len(), start) }
}

pub fn row_has_note(row: &[u8]) -> bool {
    unsafe { leaves_row_has_note(row.as_ptr(), row.len()) }
}

/// 256 for a row that is not of taps alone, 257 for one that is too short.
pub fn tap_mask4(row: &[u8]) -> u32 {
    unsafe { leaves_tap_mask4(row.as_ptr(), row.len()) }
}

pub fn tap_mask8(row: &[u8]) -> u32 {
    unsafe { leaves_tap_mask8(row.as_ptr(), row.len()) }
}

pub fn tap_sum(mask: u8) -> [u32; 14] {
    let mut sum = [u32::MAX; 14];
    unsafe { leaves_tap_sum(mask, sum.as_mut_ptr()) };
    sum
}

pub fn is_all_zero(row: &[u8]) -> bool {
    unsafe { leaves_is_all_zero(row.as_ptr(), row.len()) }
}

/// Rows of `lanes` bytes, one every `width`.
pub fn stride(text: &[u8], start: usize, rows: usize, width: usize, lanes: usize) -> Option<usize> {
    place(unsafe { leaves_stride(text.as_ptr(), text.len(), start, rows, width, lanes) })
}

/// How many blocks of `width` bytes stay, moved together.
pub fn compact_output_rows(
    text: &mut [u8],
    start: usize,
    rows: usize,
    shift: usize,
    width: usize,
) -> Option<usize> {
    let (text, len) = (text.as_mut_ptr(), text.len());
    place(unsafe { leaves_compact_output_rows(text, len, start, rows, shift, width) })
}

/// Writes the beat of a row; not taken, it writes nothing.
pub fn row_beat(m: u32, r: u32, n: u32, beat: &mut [f32; 1]) -> Option<()> {
    done(unsafe { leaves_row_beat(m, r, n, beat.as_mut_ptr()) })
}

pub fn append_row_beats(beats: &mut [f32], at: usize, measure: u32, rows: u32) -> Option<()> {
    done(unsafe { leaves_append_row_beats(beats.as_mut_ptr(), beats.len(), at, measure, rows) })
}

/// Writes the last beat's bits and 48ths; without rows there is no object row.
pub fn calc_last_beat(m: u32, r: u32, n: u32, last: &mut [u64; 2]) -> Option<()> {
    done(unsafe { leaves_calc_last_beat(m, r, n, last.as_mut_ptr()) })
}

/// The entry that reads a note record: its number, and the note where that is 0.
pub fn read_note(records: &[u8], index: usize, note: &mut [u64; 4]) -> u32 {
    number(lent::read_note(records, index, note))
}

/// The entry that sets a pad trace against note records: its number, and the 23 places where that is 0.
pub fn press_trace(records: &[u8], trace: &[u8], presses: &mut Places) -> u32 {
    number(lent::press_trace(records, trace, presses))
}

/// The entry that writes the sheet of a chart: its number.
pub fn chart_sheet(
    data: &[u8],
    lanes: usize,
    form: usize,
    loan: &mut Loan,
    sheet: &mut [u8],
) -> u32 {
    number(lent::chart_sheet(
        data,
        lanes,
        form,
        &mut loan.text,
        &mut loan.densities,
        &mut loan.spacing,
        &mut loan.beats,
        &mut loan.work,
        &mut loan.notes,
        sheet,
        &mut loan.figures,
    ))
}

/// The entry that writes a chart from notes: its number.
pub fn notes_to_chart(given: &Given, text: &mut [u8], figures: &mut Figures) -> u32 {
    let Given {
        records,
        lanes,
        counts,
    } = given;
    number(lent::notes_to_chart(records, *lanes, counts, text, figures))
}

/// The entry that finds a chart in an SM file: its number, and lane count, start and length where that is 0.
pub fn sm_chart(file: &[u8], k: usize, chart: &mut [u64; 3]) -> u32 {
    number(lent::sm_chart(file, k, chart))
}

fn place(number: usize) -> Option<usize> {
    (number != usize::MAX).then_some(number)
}

fn done(number: u32) -> Option<()> {
    (number == 0).then_some(())
}
