//! Traces of presses that are made from the notes of a chart: one press on each played note, and what a player may do beside.

use crate::calls::NO_TAIL;
use crate::presses::{COLUMNS, Note, Place, is_played, place_of};
use std::iter::repeat_n;

/// How a trace differs from one press on each played note.
#[derive(Clone, Copy, Debug, PartialEq, Eq)]
pub enum Way {
    AsTheyAre,
    Dropped,
    Doubled,
    Moved,
    RowLate,
    OnTails,
    OnMines,
}

pub const WAYS: [Way; 7] = [
    Way::AsTheyAre,
    Way::Dropped,
    Way::Doubled,
    Way::Moved,
    Way::RowLate,
    Way::OnTails,
    Way::OnMines,
];

/// The presses that are made of notes in this way, or of each in another where none is given, in their order. `below` draws a number below its argument.
pub fn presses_on(
    notes: &[Note],
    way: Option<Way>,
    mut below: impl FnMut(usize) -> usize,
) -> Vec<Place> {
    let mut presses = Vec::with_capacity(notes.len());
    for note in notes {
        let way = way.unwrap_or_else(|| WAYS[below(WAYS.len())]);
        presses.extend(presses_of(note, way, &mut below));
    }
    presses.sort_unstable();
    presses
}

/// The presses for one note: two notes in three are pressed in this way, the others as they are.
fn presses_of(
    note: &Note,
    way: Way,
    below: &mut impl FnMut(usize) -> usize,
) -> impl Iterator<Item = Place> {
    let (place, [_, tail, ..]) = (place_of(note), *note);
    let (row, column) = place;
    let as_they_are = (is_played(note).then_some(place), None, 1);
    let (first, second, times) = match (way, is_played(note)) {
        _ if below(3) == 0 => as_they_are,
        (Way::Dropped, _) => (None, None, 1),
        (Way::Doubled, true) => (Some(place), None, 2 + below(2)),
        (Way::Moved, true) => (Some(moved(place, below)), None, 1),
        (Way::RowLate, true) => (Some((row + 1, column)), None, 1),
        (Way::OnTails, true) if tail != NO_TAIL.into() => (Some(place), Some((tail, column)), 1),
        (Way::OnMines, _) => (Some(place), None, 1),
        _ => as_they_are,
    };
    let first = first.into_iter().flat_map(move |at| repeat_n(at, times));
    first.chain(second)
}

/// Another column of the row, or that column some rows up or down.
fn moved((row, column): Place, below: &mut impl FnMut(usize) -> usize) -> Place {
    match below(3) {
        0 => (row.saturating_sub(1 + below(4) as u64), column),
        1 => (row + 1 + below(4) as u64, column),
        _ => (
            row,
            (column + 1 + below(COLUMNS - 1) as u64) % COLUMNS as u64,
        ),
    }
}
