//! The list of dropped heads beside the notes, as the compiled entries leave both: of each text the list and the notes with a tail are
//! together as many as the heads, and each record stands at a head of the text that is left.

use crate::case::{Case, Check, Compare};
use crate::text_checks::left_by;
use oracle::calls::{Call, NOTE_BYTES, NOTES, TEXT_BYTES};
use oracle::dropped::{DROPPED_BYTES, heads_in, text_rows};
use oracle::entry::{Loan, is_lane_count};

pub fn listed_or_noted() -> Check {
    Check::new("dropped or noted", |case, compared| {
        if !is_lane_count(case.lanes) {
            return;
        }
        let dropped = left_by(Call::DroppedHolds, case);
        let main = left_by(Call::MinimizeChartCountRowsNotes, case);
        compare(case, &dropped, &main, compared);
    })
}

fn compare(case: &Case, dropped: &Loan, main: &Loan, compared: &mut Compare) {
    let figure = |loan: &Loan, place: usize| loan.figures[place] as usize;
    let text = &dropped.text[..figure(dropped, TEXT_BYTES)];
    let rows: Vec<&[u8]> = text_rows(text, case.lanes).collect();
    let listed = heads_in(&dropped.notes[..DROPPED_BYTES * figure(dropped, NOTES)]);
    let (notes, _) = main.notes[..NOTE_BYTES * figure(main, NOTES)].as_chunks::<NOTE_BYTES>();
    let noted = notes.iter().filter(|note| matches!(note[9], 1 | 2)).count();
    let is_head = |cell: &&u8| matches!(cell, b'2' | b'4');
    let heads = rows.iter().copied().flatten().filter(is_head).count();
    compared.same("heads listed or noted", listed.len() + noted, heads);
    let cells = listed.iter().filter_map(|head| {
        let row = rows.get(head.row as usize)?;
        row.get(usize::from(head.column))
    });
    let at_heads = cells.filter(is_head).count();
    compared.same("records at a head", at_heads, listed.len());
}
