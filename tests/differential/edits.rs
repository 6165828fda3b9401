//! Edits of the records and row counts that a call wrote: a note moved, taken out, put in, its tail moved, two swapped, a byte changed, and
//! counts changed, split and taken out. And records and counts that are drawn. All from a seed.

use crate::case::Case;
use crate::random::Rng;
use oracle::calls::{NO_TAIL, NOTE_BYTES};
use oracle::written::{Given, record};

/// Records of more notes than this are edited as they stand and not put in order again.
const MANY: usize = 10_000;

/// What is given after up to three edits of the case's seed; every fourth case is left as it is read.
pub fn edited(case: &Case, mut given: Given) -> Given {
    let mut rng = Rng::new(case.seed.rotate_left(17) ^ 0xED17);
    let edits = rng.below(4);
    let mut notes: Vec<[u8; NOTE_BYTES]> = given.records.as_chunks().0.to_vec();
    for _ in 0..edits {
        if rng.one_in(4) {
            edit_counts(&mut rng, &mut given.counts);
        } else {
            edit_notes(&mut rng, given.lanes, &mut notes);
        }
    }
    // In order again more often than not, so that what comes after 13 is met.
    if edits > 0 && notes.len() < MANY && !rng.one_in(3) {
        notes.sort_by_key(place);
    }
    given.records = notes.concat();
    if edits > 0 && rng.one_in(24) {
        given
            .records
            .truncate(given.records.len().saturating_sub(1 + rng.below(9)));
    }
    given
}

/// Row and column of a record.
fn place(record: &[u8; NOTE_BYTES]) -> (u32, u8) {
    let [r0, r1, r2, r3, ..] = *record;
    (u32::from_le_bytes([r0, r1, r2, r3]), record[8])
}

/// Row, tail row, column and kind of a record.
fn fields(record: &[u8; NOTE_BYTES]) -> [u32; 4] {
    let [_, _, _, _, t0, t1, t2, t3, column, kind] = *record;
    let tail = u32::from_le_bytes([t0, t1, t2, t3]);
    [place(record).0, tail, column.into(), kind.into()]
}

fn edit_notes(rng: &mut Rng, lanes: usize, notes: &mut Vec<[u8; NOTE_BYTES]>) {
    let at = rng.below(notes.len().max(1));
    let Some(note) = notes.get(at).copied() else {
        return notes.push(drawn_note(rng, lanes, 4));
    };
    let [row, tail, column, kind] = fields(&note);
    let near = |rng: &mut Rng, row: u32| row.wrapping_add(rng.below(5) as u32).saturating_sub(2);
    match rng.below(9) {
        0 => notes[at] = record([near(rng, row), tail, column, kind]),
        1 => notes[at] = record([row, tail, rng.below(lanes.min(300) + 1) as u32, kind]),
        2 => drop(notes.remove(at)),
        3 => notes.insert(at, drawn_note(rng, lanes, row + 3)),
        4 if tail != NO_TAIL => notes[at] = record([row, near(rng, tail), column, kind]),
        5 => {
            let other = rng.below(notes.len());
            notes.swap(at, other);
        }
        6 => notes.insert(at, note),
        7 if rng.one_in(4) => notes[at][rng.below(NOTE_BYTES)] ^= 1 << rng.below(8),
        _ => {
            notes[at] = record([
                row,
                row + 1 + rng.below(4) as u32,
                column,
                1 + rng.below(2) as u32,
            ])
        }
    }
}

fn edit_counts(rng: &mut Rng, counts: &mut Vec<u32>) {
    let at = rng.below(counts.len().max(1));
    let Some(count) = counts.get(at).copied() else {
        return counts.push(rng.below(4) as u32);
    };
    match rng.below(8) {
        0 => counts[at] = count.wrapping_add(rng.below(5) as u32).saturating_sub(2),
        1 => drop(counts.remove(at)),
        2 => counts.insert(at, rng.below(3) as u32),
        3 => {
            let part = rng.below(count as usize + 1) as u32;
            counts[at] = count - part;
            counts.insert(at, part);
        }
        4 => counts[at] = count * 2,
        5 if rng.one_in(8) => counts.clear(),
        6 if rng.one_in(4) => counts[at] = rng.pick(&[3_355_444, 858_993_460, 1 << 31, u32::MAX]),
        _ => counts.push(0),
    }
}

/// A note of one of the columns, now and then the one past them, in one of the first rows.
fn drawn_note(rng: &mut Rng, lanes: usize, rows: u32) -> [u8; NOTE_BYTES] {
    let columns = lanes.min(10) + usize::from(rng.one_in(20));
    let (row, column) = (
        rng.below(rows as usize) as u32,
        rng.below(columns.max(1)) as u32,
    );
    match rng.below(6) as u32 {
        kind @ (1 | 2) => record([row, row + 1 + rng.below(3) as u32, column, kind]),
        kind => record([row, NO_TAIL, column, kind]),
    }
}

/// Records of a few notes, in order more often than not.
pub fn records(rng: &mut Rng, lanes: usize) -> Vec<u8> {
    let rows = 1 + rng.below(12) as u32;
    let count = rng.below(9);
    let mut notes: Vec<_> = (0..count).map(|_| drawn_note(rng, lanes, rows)).collect();
    if !rng.one_in(4) {
        notes.sort_by_key(place);
        notes.dedup_by_key(|note| place(note));
    }
    notes.concat()
}

/// A few row counts.
pub fn counts(rng: &mut Rng) -> Vec<u32> {
    let count = rng.pick(&[0, 1, 1, 1, 2, 2, 3, 4]);
    (0..count)
        .map(|_| rng.pick(&[0, 1, 2, 3, 4, 5, 7, 8, 9, 15]))
        .collect()
}
