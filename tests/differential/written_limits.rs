//! Notes and row counts that are not drawn: every list of up to three notes in a few cells with every list of up to four counts of their rows, the
//! specification's table of examples, every set of refusals at each lane number, and lengths at the limit.

use crate::case::{Case, Check, LANE_COUNTS};
use crate::random::HUGE_LANES;
use crate::written_checks::{SOME, back_again, entered, exact_len};
use crate::written_examples::{Example, examples};
use oracle::calls::NO_TAIL;
use oracle::entry::{MAX_LEN, is_lane_count};
use oracle::written::{Given, NAME, REFUSALS, record};

/// Columns and rows of the cells in which every list of notes is tried, at four lanes.
const SHAPES: [(u32, u32); 2] = [(1, 5), (2, 3)];
const LANES: usize = 4;

/// Most notes of such a list, and most counts of their rows.
const MOST_NOTES: u32 = 3;
const MOST_COUNTS: usize = 4;

/// A note of each kind at each cell, a hold or roll with each tail below.
fn notes_of((columns, rows): (u32, u32)) -> Vec<[u8; 10]> {
    let mut notes = Vec::new();
    for (column, row) in (0..columns).flat_map(|column| (0..rows).map(move |row| (column, row))) {
        notes.extend([0, 3, 4, 5].map(|kind| record([row, NO_TAIL, column, kind])));
        for tail in row + 1..rows {
            notes.extend([1, 2].map(|kind| record([row, tail, column, kind])));
        }
    }
    notes
}

/// Every list of up to so many counts of this sum.
fn counts_of(sum: u32, most: usize) -> Vec<Vec<u32>> {
    let mut lists = vec![vec![sum]];
    if most > 1 {
        for first in 0..=sum {
            let rests = counts_of(sum - first, most - 1).into_iter();
            lists.extend(rests.map(|rest| [vec![first], rest].concat()));
        }
    }
    lists
}

/// A case's bytes are the numbers of its notes, its seed that of the shape.
pub fn listed() -> Check {
    let shapes = SHAPES.map(|shape| (notes_of(shape), counts_of(shape.1, MOST_COUNTS)));
    Check::new(NAME, move |case, compared| {
        let (notes, lists) = &shapes[case.seed as usize];
        let numbers = case.bytes.iter();
        let records: Vec<u8> = numbers
            .flat_map(|&number| notes[usize::from(number)])
            .collect();
        let mut given = Given {
            records,
            lanes: case.lanes,
            counts: Vec::new(),
        };
        for counts in lists {
            given.counts.clone_from(counts);
            entered(&given, exact_len(&given), case.seed, compared);
        }
    })
}

pub fn every_list(check: &mut Check) {
    for (seed, shape) in SHAPES.into_iter().enumerate() {
        let notes = notes_of(shape).len();
        for count in 0..=MOST_NOTES {
            for number in 0..notes.pow(count) {
                let digits = (0..count).map(|digit| (number / notes.pow(digit) % notes) as u8);
                check.run(&Case {
                    bytes: digits.collect(),
                    lanes: LANES,
                    seed: seed as u64,
                });
            }
        }
    }
}

/// The examples of the specification, a case's seed being an example's number.
pub fn example() -> Check {
    let examples = examples();
    Check::new(NAME, move |case, compared| {
        let Example {
            given,
            room,
            answer,
        } = &examples[case.seed as usize];
        let (number, text) = entered(given, *room, case.seed, compared);
        match answer {
            Ok(wanted) => compared.same_slices("the example's text", &text, wanted),
            Err(wanted) => compared.same("the example's number", number, *wanted),
        }
    })
}

pub fn every_example(check: &mut Check) {
    for number in 0..examples().len() {
        check.run(&Case {
            seed: number as u64,
            ..Case::default()
        });
    }
}

/// Two rows of a tap and a hold, an edit for each refusal whose place in `REFUSALS` has its bit in `wrong`, and the slice's length.
fn wronged(lanes: usize, wrong: u64) -> (Given, usize) {
    let is = |number: u32| {
        let place = REFUSALS.iter().position(|&refusal| refusal == number);
        wrong >> place.expect("a refusal of the call") & 1 == 1
    };
    let mut notes = vec![record([0, NO_TAIL, 0, 0]), record([0, 2, 1, 1])];
    if is(14) {
        notes.push(record([1, NO_TAIL, 1, 0]));
    }
    if is(13) {
        notes.push(record([0, NO_TAIL, 0, 0]));
    }
    if is(8) {
        notes.push(record([5, NO_TAIL, 10, 0]));
    }
    let mut counts = vec![3, 0];
    if is(15) {
        counts[0] = 2;
    }
    if is(1) {
        counts.extend([858_993_460; 5]);
    }
    let mut records = notes.concat();
    if is(7) {
        records.push(0);
    }
    let given = Given {
        records,
        lanes,
        counts,
    };
    let room = if is(2) { 0 } else { 64 };
    (given, room)
}

/// A case's seed has a bit for each refusal whose condition holds: the first of them is told, and 12 before all at a lane number that is none.
pub fn wrong() -> Check {
    Check::new(NAME, |case, compared| {
        let (given, room) = wronged(case.lanes, case.seed);
        let (number, _) = entered(&given, room, case.seed, compared);
        let mut holds = REFUSALS.iter().enumerate();
        let first = holds.find(|(place, refusal)| match refusal {
            12 => !is_lane_count(case.lanes),
            _ => case.seed >> place & 1 == 1,
        });
        compared.same(
            "the first of those that hold",
            number,
            first.map_or(0, |(_, &n)| n),
        );
    })
}

/// Every set of refusals, so each alone and each pair, at the lane numbers 0 to 300 and some large ones.
pub fn every_wrong(check: &mut Check) {
    for lanes in (0..=300).chain([1 << 32]).chain(HUGE_LANES) {
        // The lowest bit is that of 12, which the lane number is.
        for seed in (0..1 << REFUSALS.len()).step_by(2) {
            check.run(&Case {
                bytes: Vec::new(),
                lanes,
                seed,
            });
        }
    }
}

/// Counts without notes at a lane count, and what is told of them; the case's seed is the place.
fn limits(lanes: usize) -> Vec<(Vec<u32>, u32)> {
    let mut limits = vec![
        (vec![], 15),
        (vec![0], 0),
        (vec![2], 15),
        (vec![3], 0),
        (vec![1, 0, 1], 0),
        (vec![0; 8_388_608], 0),
        (vec![0; 8_388_609], 1),
        (vec![858_993_460; 5], 1),
        (vec![858_993_460], 1),
        // A sum that is 0 in 32 bits.
        (vec![1 << 31, 1 << 31], 1),
    ];
    limits.extend((1..=9).map(|count| (vec![u32::MAX; count], 1)));
    // At five lanes every length is even.
    for len in MAX_LEN - 1..=MAX_LEN + 1 {
        let counts = counts_of_len(lanes, len);
        limits.extend(counts.map(|counts| (counts, u32::from(len > MAX_LEN))));
    }
    limits
}

/// Counts whose text would have this length and could not be minimised: one of an odd number of rows, others of one row or none.
fn counts_of_len(lanes: usize, len: usize) -> Option<Vec<u32>> {
    let mut lengths = (2..=lanes + 2).map(|counts| (counts, len - 2 * (counts - 1)));
    let (counts, rest) = lengths.find(|(_, rest)| rest.is_multiple_of(lanes + 1))?;
    let rows = (rest / (lanes + 1)) as u32;
    let mut list = vec![0; counts];
    list[1] = u32::from(rows.is_multiple_of(2));
    list[0] = rows - list[1];
    Some(list)
}

/// A case's seed is the place in the list of limits; one byte less than the exact slice is tried too, and no count beside a note.
pub fn limit() -> Check {
    Check::new(NAME, |case, compared| {
        let (counts, number) = limits(case.lanes).swap_remove(case.seed as usize);
        let mut given = Given {
            records: Vec::new(),
            lanes: case.lanes,
            counts,
        };
        let enough = exact_len(&given);
        let (told, _) = entered(&given, enough, case.seed, compared);
        compared.same("the limit's number", told, number);
        if number == 0 && enough > 0 {
            let (told, _) = entered(&given, enough - 1, case.seed, compared);
            compared.same("one byte less", told, 2);
        }
        if given.counts.is_empty() {
            given.records.extend(record([0, NO_TAIL, 0, 0]));
            let (told, _) = entered(&given, SOME, case.seed, compared);
            compared.same("a note and no count", told, 15);
        }
    })
}

pub fn every_limit(check: &mut Check) {
    for lanes in LANE_COUNTS {
        for seed in 0..limits(lanes).len() as u64 {
            check.run(&Case {
                bytes: Vec::new(),
                lanes,
                seed,
            });
        }
    }
}

/// More bytes of records than a text can have: a mine in each cell of so many rows, and then one of them once more.
pub fn long_records() -> Check {
    const ROWS: u32 = 420_001;
    Check::new(NAME, |case, compared| {
        let mut records = Vec::new();
        for row in 0..ROWS {
            for column in 0..case.lanes as u32 {
                records.extend(record([row, NO_TAIL, column, 3]));
            }
        }
        compared.same("longer than a text", records.len() > MAX_LEN, true);
        let mut given = Given {
            records,
            lanes: case.lanes,
            counts: vec![1, ROWS - 1],
        };
        let enough = exact_len(&given);
        back_again(&given, enough, case.seed, compared);
        given.records.extend(record([ROWS - 1, NO_TAIL, 3, 3]));
        entered(&given, enough, case.seed, compared);
    })
}
