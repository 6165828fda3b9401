//! Pad traces: the specification's table of examples, each kind of stray, the order of the refusals, and what holds of every text of the stored
//! sample with each way in which its notes are pressed.

use crate::Checks;
use crate::press_examples::examples;
use oracle::calls::{NO_TAIL, minimize_chart_count_rows_notes};
use oracle::entry::read_notes;
use oracle::presses::{
    COLUMNS, Note, Place, Pressed, REFUSALS, Sorted, is_played, place_of, presses_in, trace_of,
};
use oracle::traces::{WAYS, Way, presses_on};
use oracle::vectors::{SEED, samples};
use oracle::written::record;

pub fn run(checks: &mut Checks) {
    table(checks);
    kinds(checks);
    by_hand(checks);
    refused(checks);
    places(checks);
    every_text(checks);
}

fn table(checks: &mut Checks) {
    let examples = examples();
    checks.same("14 examples or more", examples.len() >= 14, true);
    for (i, example) in examples.iter().enumerate() {
        let got = example.pressed.answer();
        checks.same(&format!("press example {i}"), got, example.answer);
    }
    for number in [0].into_iter().chain(REFUSALS) {
        let mut answers = examples.iter().map(|example| example.answer);
        let some = answers.any(|answer| answer.err().unwrap_or(0) == number);
        checks.same(&format!("a press example of {number}"), some, true);
    }
}

/// Hits, strays and misses of presses on notes.
fn sorted(notes: &[Note], presses: &[Place]) -> [Vec<Place>; 3] {
    let Sorted {
        hits,
        strays,
        misses,
    } = Sorted::of(notes, presses);
    [hits, strays, misses]
}

/// A note of each kind, with a press on it, on its tail, a row late and beside it.
fn kinds(checks: &mut Checks) {
    const NONE: u64 = NO_TAIL as u64;
    for (kind, tail) in [(0, NONE), (1, 8), (2, 8), (3, NONE), (4, NONE), (5, NONE)] {
        let note = [5, tail, 3, kind];
        let at = vec![(5, 3)];
        let missed = if kind < 3 { at.clone() } else { vec![] };
        for press in [(8, 3), (6, 3), (4, 3), (5, 2), (5, 4), (tail, 3)] {
            let want = [vec![], vec![press], missed.clone()];
            checks.same("a press elsewhere", sorted(&[note], &[press]), want);
        }
        let want = if kind < 3 {
            [at, vec![], vec![]]
        } else {
            [vec![], at, vec![]]
        };
        checks.same("a press on a note", sorted(&[note], &[(5, 3)]), want);
        let want = [vec![], vec![], missed];
        checks.same("no press", sorted(&[note], &[]), want);
    }
}

fn by_hand(checks: &mut Checks) {
    let tap = |row, column| [row, u64::from(NO_TAIL), column, 0];
    let taps = [tap(0, 0), tap(0, 3), tap(1, 0)];
    let all = vec![(0, 0), (0, 3), (1, 0)];
    let want = [all.clone(), vec![], vec![]];
    checks.same("one on each", sorted(&taps, &all), want);
    let twice = [(0, 0), (0, 0), (0, 0), (1, 0)];
    let want = [vec![(0, 0), (1, 0)], vec![(0, 0); 2], vec![(0, 3)]];
    checks.same("the first of three", sorted(&taps, &twice), want);
    let beside = [(0, 1), (0, 1), (7, 9)];
    checks.same(
        "all strays",
        sorted(&taps, &beside),
        [vec![], beside.to_vec(), all],
    );
    // A tap where a hold ends is a note of its own.
    let notes = [[0, 4, 2, 1], tap(4, 2)];
    let want = [vec![(4, 2)], vec![], vec![(0, 2)]];
    checks.same("a tap on a tail", sorted(&notes, &[(4, 2)]), want);
}

/// The first of the refusals whose condition holds is told, wherever the records stand.
fn refused(checks: &mut Checks) {
    let tap = |row, column| record([row, NO_TAIL, column, 0]);
    let press = |row, column| trace_of(&[(row, column)]);
    let good = [tap(0, 1), tap(2, 0)].concat();
    let pressed = press(2, 0);
    let unlike = |records: &[u8]| [records, &[0]].concat();
    for (what, records, trace, want) in [
        ("accepted", good.clone(), pressed.clone(), 0),
        ("no notes", vec![], pressed.clone(), 0),
        ("no presses", good.clone(), vec![], 0),
        ("part of a record", unlike(&good), unlike(&pressed), 7),
        ("column 10", tap(0, 10).to_vec(), unlike(&pressed), 8),
        (
            "8 after 13",
            [tap(3, 0), tap(2, 0), record([4, 5, 0, 0])].concat(),
            pressed.clone(),
            8,
        ),
        ("7 after 8", unlike(&tap(0, 10)), pressed.clone(), 7),
        ("equal", [tap(2, 0), tap(2, 0)].concat(), unlike(&[]), 13),
        ("by row", [tap(2, 0), tap(1, 0)].concat(), vec![], 13),
        ("by column", [tap(2, 1), tap(2, 0)].concat(), vec![], 13),
        ("part of a press", good.clone(), unlike(&pressed), 16),
        ("press in column 10", good.clone(), press(0, 10), 16),
        ("in column 255", vec![], press(0, 255), 16),
        (
            "a fall by row",
            good.clone(),
            [press(2, 0), press(1, 9)].concat(),
            16,
        ),
        (
            "a fall by column",
            good.clone(),
            [press(2, 1), press(2, 0)].concat(),
            16,
        ),
        ("equal presses", good, [&pressed[..], &pressed].concat(), 0),
        ("the last row", vec![], press(u32::MAX.into(), 9), 0),
    ] {
        let pressed = Pressed { records, trace };
        let mut places = [7; 3 + 2 * COLUMNS];
        checks.same(what, pressed.enter(&mut places), want);
        checks.same(what, places == [7; 3 + 2 * COLUMNS], want != 0);
    }
}

/// The numbers and the columns, in their places.
fn places(checks: &mut Checks) {
    let tap = |(row, column)| [row, u64::from(NO_TAIL), column, 0];
    let played = [(0, 0), (0, 9), (1, 9), (2, 4), (3, 0), (4, 4)];
    let presses = [(0, 0), (0, 1), (0, 9), (1, 9), (5, 5)];
    let sorted = Sorted::of(&played.map(tap), &presses);
    let mut want = [0; 3 + 2 * COLUMNS];
    want[..3].copy_from_slice(&[3, 2, 3]);
    (want[3], want[12], want[13], want[17]) = (1, 2, 1, 2);
    checks.same("places", sorted.places(), want);
}

/// The sums of the specification, that the trace of the notes as they are is clean, and that each other way makes a difference.
fn every_text(checks: &mut Checks) {
    let mut differing = [0; WAYS.len()];
    for (i, sample) in samples(SEED).iter().enumerate() {
        let records = minimize_chart_count_rows_notes(&sample.text, sample.lanes).notes;
        let notes = read_notes(&records).unwrap_or_default();
        let played: Vec<Place> = notes
            .iter()
            .filter(|n| is_played(n))
            .map(place_of)
            .collect();
        for (way, differs) in WAYS.into_iter().zip(&mut differing) {
            let mut turn = i;
            let presses = presses_on(&notes, Some(way), |below| {
                turn += 1;
                turn % below
            });
            let what = format!("text {i}, {way:?}");
            let trace = trace_of(&presses);
            checks.same(&what, presses_in(&trace).as_ref(), Some(&presses));
            let [hits, strays, misses] = sorted(&notes, &presses);
            checks.same(&what, hits.len() + strays.len(), presses.len());
            checks.same(&what, hits.len() + misses.len(), played.len());
            let is_clean = strays.is_empty() && misses.is_empty();
            checks.same(&what, is_clean, presses == played);
            checks.same(&what, is_clean || way != Way::AsTheyAre, true);
            *differs += usize::from(!is_clean);
        }
    }
    let most = differing[1..].iter().all(|&count| count > 50);
    checks.same("texts of each way", most, true);
    checks.same("as they are", differing[0], 0);
}
