//! Records and traces that are not drawn: all lists of a few notes with every trace of up to four presses, the specification's table of examples, every
//! way in which records and trace are refused with every other, lengths around whole records, and lists of a million.

use crate::case::{Case, Check, LANE_COUNTS};
use crate::press_examples::{Example, examples};
use crate::random::Rng;
use crate::trace_checks::{entered, pressed_on};
use oracle::calls::{NO_TAIL, NOTE_BYTES};
use oracle::entry::read_notes;
use oracle::presses::{NAME, PRESS_BYTES, Place, Pressed, REFUSALS, trace_of};
use oracle::traces::WAYS;
use oracle::written::record;

/// Rows, the first of the two columns, and the kinds of which each cell has one or none: all lists of notes there, each with all traces of presses on
/// these rows and one more, and on these columns and one more.
const SHAPES: [(u32, u32, &[u32]); 2] = [(2, 0, &[TAP, MINE, HOLD]), (3, 7, &[TAP, MINE])];
const COLUMNS: u32 = 2;

const TAP: u32 = 0;
const HOLD: u32 = 1;
const MINE: u32 = 3;

/// Most presses of such a trace.
const MOST_PRESSES: usize = 4;

/// Every rising list of up to so many of these places, of which each may stand again.
fn rising(places: &[Place], most: usize) -> Vec<Vec<Place>> {
    let mut lists = vec![Vec::new()];
    if most > 0 {
        for (at, &first) in places.iter().enumerate() {
            let rests = rising(&places[at..], most - 1).into_iter();
            lists.extend(rests.map(|rest| [vec![first], rest].concat()));
        }
    }
    lists
}

fn places_of(rows: u32, first_column: u32, columns: u32) -> Vec<Place> {
    let rows = (0..rows).map(u64::from);
    let columns = first_column..first_column + columns;
    rows.flat_map(|row| columns.clone().map(move |column| (row, column.into())))
        .collect()
}

/// A case's bytes have for each cell, row by row, 0 or the number of its kind from 1 on; its seed is that of the shape.
pub fn listed() -> Check {
    let shapes = SHAPES.map(|(rows, first, kinds)| {
        let traces = rising(&places_of(rows + 1, first, COLUMNS + 1), MOST_PRESSES);
        let traces: Vec<_> = traces.iter().map(|presses| trace_of(presses)).collect();
        (places_of(rows, first, COLUMNS), kinds, traces)
    });
    Check::new(NAME, move |case, compared| {
        let (cells, kinds, traces) = &shapes[case.seed as usize];
        let mut records = Vec::new();
        for (&(row, column), &cell) in cells.iter().zip(&case.bytes) {
            let kind = usize::from(cell).checked_sub(1);
            if let Some(&kind) = kind.and_then(|kind| kinds.get(kind)) {
                let tail = if kind == HOLD {
                    row as u32 + 1
                } else {
                    NO_TAIL
                };
                records.extend(record([row as u32, tail, column as u32, kind]));
            }
        }
        let mut pressed = Pressed {
            records,
            trace: Vec::new(),
        };
        for trace in traces {
            pressed.trace.clone_from(trace);
            let (number, _) = entered(&pressed, case, compared);
            compared.same("accepted", number, 0);
        }
    })
}

pub fn every_list(check: &mut Check) {
    for (seed, (rows, _, kinds)) in SHAPES.into_iter().enumerate() {
        let (cells, choices) = (rows * COLUMNS, kinds.len() + 1);
        for number in 0..choices.pow(cells) {
            let cells = (0..cells).map(|cell| (number / choices.pow(cell) % choices) as u8);
            check.run(&Case {
                bytes: cells.collect(),
                lanes: 4,
                seed: seed as u64,
            });
        }
    }
}

/// The examples of the specification, a case's seed being an example's number.
pub fn example() -> Check {
    let examples = examples();
    Check::new(NAME, move |case, compared| {
        let Example { pressed, answer } = &examples[case.seed as usize];
        let (number, places) = entered(pressed, case, compared);
        compared.same("the example's number", number, answer.err().unwrap_or(0));
        if let Ok(answer) = answer {
            compared.same_slices("the example's places", &places, answer);
        }
    })
}

pub fn every_example(check: &mut Check) {
    for number in 0..examples().len() {
        check.run(&Case {
            lanes: 4,
            seed: number as u64,
            ..Case::default()
        });
    }
}

/// Row, tail row, column and kind of notes that are accepted, from the first row to the last that a note can have.
const NOTES: [[u32; 4]; 10] = [
    [0, NO_TAIL, 0, 0],
    [1, 2, 1, 1],
    [1, NO_TAIL, 9, 3],
    [3, 7, 0, 2],
    [3, NO_TAIL, 3, 4],
    [3, NO_TAIL, 4, 5],
    [6, NO_TAIL, 0, 0],
    [6, NO_TAIL, 5, 0],
    [9, 12, 2, 1],
    [LAST_ROW, NO_TAIL, 9, 0],
];
const LAST_ROW: u32 = 16_777_215;

/// Presses that are accepted, up to the last row that a press can have.
const PRESSES: [Place; 8] = [
    (1, 1),
    (1, 1),
    (1, 2),
    (3, 2),
    (4, 9),
    (6, 5),
    (9, 2),
    (u32::MAX as u64, 9),
];

/// How a note is changed that it breaks a limit of the writer.
type Breaks = fn(&mut [u32; 4]);

const BREAKS: [Breaks; 11] = [
    |note| note[2] = 10,
    |note| note[2] = 255,
    |note| note[3] = 6,
    |note| note[3] = 255,
    |note| note[0] = LAST_ROW + 1,
    // A tap and a mine with a tail.
    |note| (note[1], note[3]) = (note[0] + 1, 0),
    |note| (note[1], note[3]) = (note[0] + 1, 3),
    // A hold whose tail is not below its head, one without, and one whose tail is too far.
    |note| (note[1], note[3]) = (note[0], 1),
    |note| (note[1], note[3]) = (note[0].saturating_sub(1), 1),
    |note| (note[1], note[3]) = (NO_TAIL, 1),
    |note| (note[1], note[3]) = (LAST_ROW + 1, 2),
];

/// Which notes are changed so, and which are followed by one that does not stand below: none is of both.
const BROKEN: [usize; 3] = [0, 4, 9];
const FOLLOWED: [usize; 3] = [1, 5, 7];

/// Which presses have a column over 9, and which are followed by one that falls.
const WIDE: [usize; 3] = [0, 3, 7];
const FALLEN: [usize; 3] = [0, 3, 6];

/// In how many ways each of the refusals is met, none included: 1 to 9 bytes more; each change of each note; for three notes the same place, a row
/// less and a column less below; 1 to 4 bytes more, columns 10 and 255, a row less and a column less.
const WAYS_TO_REFUSE: [usize; REFUSALS.len()] = [
    1 + 9,
    1 + BREAKS.len() * BROKEN.len(),
    1 + 3 * FOLLOWED.len(),
    1 + 4 + 2 * WIDE.len() + 2 * FALLEN.len(),
];

/// A place a row or a column less than that one.
fn less(by_row: bool, (row, column): Place) -> Place {
    if by_row {
        (row - 1, 9)
    } else {
        (row, column - 1)
    }
}

/// The records with a way to be refused with 7, 8 and 13, each from 0 on, which is none.
fn wrong_records([bytes, broken, followed]: [usize; 3]) -> Vec<u8> {
    let mut notes = NOTES;
    if let Some(way) = broken.checked_sub(1) {
        BREAKS[way % BREAKS.len()](&mut notes[BROKEN[way / BREAKS.len()]]);
    }
    if let Some(way) = followed.checked_sub(1) {
        let at = FOLLOWED[way / 3];
        let [row, _, column, _] = notes[at];
        let place = (row.into(), column.into());
        let (row, column) = match way % 3 {
            0 => place,
            way => less(way == 1, place),
        };
        (notes[at + 1][0], notes[at + 1][2]) = (row as u32, column as u32);
    }
    let mut records = notes.map(record).concat();
    records.resize(records.len() + bytes, 0);
    records
}

/// The trace with a way to be refused with 16.
fn wrong_trace(way: usize) -> Vec<u8> {
    let mut presses = PRESSES;
    match way {
        5..11 => presses[WIDE[(way - 5) / 2]].1 = [10, 255][(way - 5) % 2],
        11.. => {
            let at = FALLEN[(way - 11) / 2];
            presses[at + 1] = less(way % 2 == 1, presses[at]);
        }
        _ => {}
    }
    let mut trace = trace_of(&presses);
    trace.resize(trace.len() + if way < 5 { way } else { 0 }, 0);
    trace
}

/// A case's bytes are the ways in which the refusals are met, in their order: the first that is met is told.
pub fn wrong() -> Check {
    Check::new(NAME, |case, compared| {
        let way = |place: usize| case.bytes.get(place).copied().unwrap_or(0).into();
        let pressed = Pressed {
            records: wrong_records([0, 1, 2].map(way)),
            trace: wrong_trace(way(3)),
        };
        let (number, _) = entered(&pressed, case, compared);
        let mut met = REFUSALS.into_iter().enumerate();
        let first = met.find(|&(place, _)| way(place) > 0);
        compared.same(
            "the first that is met",
            number,
            first.map_or(0, |(_, number)| number),
        );
    })
}

/// Every way of each refusal with every way of the others, so each alone and each pair.
pub fn every_wrong(check: &mut Check) {
    for number in 0..WAYS_TO_REFUSE.iter().product() {
        let mut rest = number;
        let ways = WAYS_TO_REFUSE.map(|ways| {
            let way = (rest % ways) as u8;
            rest /= ways;
            way
        });
        check.run(&Case {
            bytes: ways.to_vec(),
            lanes: LANE_COUNTS[number / WAYS_TO_REFUSE[0] % LANE_COUNTS.len()],
            seed: number as u64,
        });
    }
}

/// The first bytes of records and trace, as many as a case's two bytes say: 7 where that is no whole number of records, else 16 for presses.
pub fn lengths() -> Check {
    Check::new(NAME, |case, compared| {
        let len = |place: usize| usize::from(case.bytes.get(place).copied().unwrap_or(0));
        let mut pressed = Pressed {
            records: wrong_records([0; 3]),
            trace: wrong_trace(0),
        };
        pressed.records.truncate(len(0));
        pressed.trace.truncate(len(1));
        let (number, _) = entered(&pressed, case, compared);
        let whole = [(len(0), NOTE_BYTES, 7), (len(1), PRESS_BYTES, 16)];
        let mut uneven = whole.into_iter().filter(|(len, of, _)| len % of != 0);
        compared.same(
            "the first that is uneven",
            number,
            uneven.next().map_or(0, |(.., number)| number),
        );
    })
}

pub fn every_length(check: &mut Check) {
    for records in 0..=NOTES.len() * NOTE_BYTES {
        for trace in 0..=PRESSES.len() * PRESS_BYTES {
            check.run(&Case {
                bytes: vec![records as u8, trace as u8],
                lanes: 4,
                seed: (records * trace) as u64,
            });
        }
    }
}

/// How long the long lists are.
const MILLION: usize = 1_000_000;

/// A note of some kind in each cell of ten columns.
fn many_records() -> Vec<u8> {
    let mut rng = Rng::new(10);
    let note = |number: usize| {
        let (row, column) = (number as u32 / 10, number as u32 % 10);
        let kind = rng.pick(&[0, 0, 0, 1, 2, 3, 4, 5]);
        let tail = if matches!(kind, 1 | 2) {
            row + 1 + rng.below(9) as u32
        } else {
            NO_TAIL
        };
        record([row, tail, column, kind])
    };
    (0..MILLION).flat_map(note).collect()
}

/// A long list of presses on long records, the number that is told of them, and how many hits there are where each press is the same.
fn long_list(which: usize, records: &[u8]) -> (Pressed, u32, Option<u64>) {
    let way = WAYS.get(which).copied();
    let notes = read_notes(records).expect("notes that are accepted");
    let mut pressed = pressed_on(records, &notes, way, &mut Rng::new(which as u64));
    let last_row = u64::from(u32::MAX);
    let kinds = records.chunks_exact(NOTE_BYTES).map(|record| record[9]);
    let of_kind = |kind: u32| {
        let number = kinds.clone().position(|other| u32::from(other) == kind);
        let number = number.expect("a note of each kind") as u64;
        (number / 10, number % 10)
    };
    let same = |place| trace_of(&vec![place; MILLION]);
    let (mut number, mut hits) = (0, None);
    match which - which.min(WAYS.len()) {
        // The notes as they are, each in one way or each in its own.
        0 => {}
        1 => (pressed.trace, hits) = (same(of_kind(TAP)), Some(1)),
        2 => (pressed.trace, hits) = (same(of_kind(HOLD)), Some(1)),
        3 => (pressed.trace, hits) = (same(of_kind(MINE)), Some(0)),
        4 => (pressed.trace, hits) = (same((last_row, 0)), Some(0)),
        5 => {
            let rows = last_row + 1 - MILLION as u64..=last_row;
            let presses: Vec<Place> = rows.map(|row| (row, row % 10)).collect();
            (pressed.trace, hits) = (trace_of(&presses), Some(0));
        }
        6 => {
            pressed.trace.extend(trace_of(&[(last_row, 10)]));
            number = 16;
        }
        7 => {
            pressed.trace.extend(trace_of(&[(0, 0)]));
            number = 16;
        }
        8 => {
            pressed.trace.push(0);
            number = 16;
        }
        9 => {
            pressed.trace.push(0);
            pressed
                .records
                .extend_from_within(records.len() - NOTE_BYTES..);
            number = 13;
        }
        10 => {
            pressed.records.extend_from_within(..NOTE_BYTES);
            pressed.records.extend(record([LAST_ROW, NO_TAIL, 10, TAP]));
            number = 8;
        }
        _ => {
            pressed.records.extend(record([LAST_ROW, NO_TAIL, 10, TAP]));
            pressed.records.push(0);
            number = 7;
        }
    }
    (pressed, number, hits)
}

/// Lists of a million records and presses: each way to press the notes, the same press again and again, presses up to the last row, and what is wrong
/// at the end of a list alone.
pub fn long_lists() -> Check {
    let records = many_records();
    Check::new(NAME, move |case, compared| {
        let (pressed, wanted, hits) = long_list(case.seed as usize, &records);
        let (number, places) = entered(&pressed, case, compared);
        compared.same("number of a long list", number, wanted);
        if let Some(hits) = hits {
            compared.same(
                "hits and strays",
                [places[0], places[1]],
                [hits, MILLION as u64 - hits],
            );
        }
    })
}

pub fn every_long_list(check: &mut Check) {
    for seed in 0..=WAYS.len() + 11 {
        check.run(&Case {
            lanes: 4,
            seed: seed as u64,
            ..Case::default()
        });
    }
}
