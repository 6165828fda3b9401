//! Checks over rows back to back: cells, tap masks, minimising, and the records of their notes.

use crate::case::{Case, Check, Compare};
use crate::ours;
use crate::random::Rng;
use oracle::entry;
use oracle::leaves;

pub fn checks() -> Vec<Check> {
    vec![
        Check::new("is_all_zero", is_all_zero),
        Check::new("row_has_note", row_has_note),
        Check::new("tap_mask4", tap_mask4),
        Check::new("tap_mask8", tap_mask8),
        Check::new("stride", stride),
        Check::new("compact_output_rows", compact_output_rows),
        Check::new("read_note", read_note),
    ]
}

/// The whole rows of a case; bytes that do not fill a row are left out.
fn whole(case: &Case) -> &[u8] {
    let rest = case.bytes.len() % case.lanes;
    &case.bytes[..case.bytes.len() - rest]
}

fn rows_of(case: &Case) -> impl Iterator<Item = &[u8]> {
    whole(case).chunks_exact(case.lanes)
}

fn is_all_zero(case: &Case, compared: &mut Compare) {
    for row in rows_of(case) {
        let rust = leaves::is_all_zero(case.lanes, row);
        compared.same("all zero", ours::is_all_zero(row), rust);
    }
    compared.same("no bytes", ours::is_all_zero(&[]), true);
}

fn row_has_note(case: &Case, compared: &mut Compare) {
    let rust = leaves::count_line(case.lanes, whole(case)).density;
    let ours: Vec<bool> = rows_of(case).map(ours::row_has_note).collect();
    compared.same_slices("step", &ours, &rust);
}

/// The number of a mask: 256 for a row that has none.
fn number(mask: Option<u8>) -> u32 {
    mask.map_or(256, u32::from)
}

fn tap_mask4(case: &Case, compared: &mut Compare) {
    for row in rows_of(case) {
        compared.same("mask", ours::tap_mask4(row), number(leaves::tap_mask4(row)));
        compared.same("mask of 3", ours::tap_mask4(&row[..3]), 257);
    }
    compared.same("mask of no row", ours::tap_mask4(&[]), 257);
}

fn tap_mask8(case: &Case, compared: &mut Compare) {
    for row in rows_of(case) {
        let rust = match row.len() {
            0..8 => 257,
            _ => number(leaves::tap_mask8(row)),
        };
        compared.same("mask", ours::tap_mask8(row), rust);
    }
    compared.same("mask of no row", ours::tap_mask8(&[]), 257);
}

/// The rows with other bytes before and after them.
fn framed(case: &Case, rows: &[u8]) -> (usize, Vec<u8>) {
    let mut rng = Rng::new(case.seed);
    let start = rng.below(12);
    let mut text = vec![b'7'; start];
    text.extend_from_slice(rows);
    text.resize(text.len() + rng.below(12), b'8');
    (start, text)
}

/// The rows as lines, a byte 10 after each.
fn lines(case: &Case) -> Vec<u8> {
    let line = |row: &[u8]| [row, b"\n"].concat();
    rows_of(case).flat_map(line).collect()
}

/// The stride of rows back to back and of rows in a text; too many rows, or rows of no bytes, are not taken.
fn stride(case: &Case, compared: &mut Compare) {
    let (lanes, rows) = (case.lanes, whole(case));
    let rust = Some(1 << leaves::measure_reduce_shift(lanes, rows));
    let count = rows.len() / lanes;
    for (what, width, bytes) in [("rows", lanes, rows), ("lines", lanes + 1, &lines(case))] {
        let (start, text) = framed(case, bytes);
        let ours = |rows, width, lanes| ours::stride(&text, start, rows, width, lanes);
        compared.same(what, ours(count, width, lanes), rust);
        let over = (text.len() - start) / width + 1;
        compared.same("too many rows", ours(over, width, lanes), None);
        compared.same("many more", ours(usize::MAX, width, lanes), None);
        compared.same("rows of no bytes", ours(count, width, 0), None);
        compared.same("rows that overlap", ours(count, lanes - 1, lanes), None);
    }
}

/// Compaction by the stride, of rows back to back beside `reduce_rows` and of lines beside `reduce_output_measure`, and by every smaller
/// stride beside `compact_output_rows`. What is not taken leaves the text as it was.
fn compact_output_rows(case: &Case, compared: &mut Compare) {
    let (lanes, rows) = (case.lanes, whole(case));
    let count = rows.len() / lanes;
    let found = leaves::measure_reduce_shift(lanes, rows);
    if count > 0 {
        let (stay, left) = leaves::reduce_rows(lanes, rows);
        let (start, before) = framed(case, rows);
        let mut text = before.clone();
        let ours = ours::compact_output_rows(&mut text, start, count, found, lanes);
        compared.same("rows that stay", ours, Some(stay));
        compared.same_slices("rows", &text, &framed(case, &left).1);
        let lines = lines(case);
        let (start, before) = framed(case, &lines);
        let given = &before[..start + lines.len()];
        for shift in 0..=found {
            let (stay, want) = leaves::compact_output_rows(lanes, given, start, count, shift);
            let mut text = before.clone();
            let ours = ours::compact_output_rows(&mut text, start, count, shift, lanes + 1);
            compared.same("lines that stay", ours, Some(stay));
            compared.same_slices("lines", &text[..want.len()], &want);
            compared.same_slices("after them", &text[want.len()..], &before[want.len()..]);
            if shift == found {
                let whole = leaves::reduce_output_measure(lanes, given, start, count);
                compared.same("lines of the measure", (stay, want), whole);
            }
        }
    }
    let (start, before) = framed(case, rows);
    let mut text = before.clone();
    for (rows, shift, width) in [
        (0, 0, lanes),
        (count + before.len(), 0, lanes),
        (count, 64, lanes),
        (count, 0, 0),
        (2 * count + 1, 1, 1),
    ] {
        let ours = ours::compact_output_rows(&mut text, start, rows, shift, width);
        compared.same("not taken", ours, None);
    }
    compared.same_slices("left alone", &text, &before);
}

/// Each record of the rows' notes, one past them, and one of them with a byte changed or with bytes too many.
fn read_note(case: &Case, compared: &mut Compare) {
    let mut rng = Rng::new(case.seed);
    let mut records = leaves::count_line_notes(case.lanes, whole(case));
    let count = records.len() / 10;
    for index in 0..=count {
        read_one(case, &records, index, compared);
    }
    if !records.is_empty() {
        let at = rng.below(records.len());
        records[at] = match rng.below(3) {
            0 => rng.byte(),
            1 => rng.pick(&[0, 1, 2, 5, 6, 9, 10, 255]),
            _ => records[at].wrapping_add(1),
        };
        read_one(case, &records, at / 10, compared);
        read_one(case, &records, usize::MAX - rng.below(3), compared);
    }
    records.resize(records.len() + 1 + rng.below(9), 0);
    read_one(case, &records, rng.below(count + 1), compared);
}

fn read_one(case: &Case, records: &[u8], index: usize, compared: &mut Compare) {
    let mut note = [7, 77, 777, 7777];
    let number = ours::read_note(records, index, &mut note);
    let (want, left) = match entry::read_note(records, index) {
        Ok(read) => (0, read),
        Err(refusal) => (refusal, [7, 77, 777, 7777]),
    };
    compared.number(case.lanes, number, want);
    compared.same("note", note, left);
}
