//! Checks of the entry that sets a pad trace against note records: number and 23 places beside the plain reference's, on the records that the main
//! call leaves of a text, pressed in each way, and on records and traces that are edited. Of every accepted case the sums that the
//! specification states hold of the entry's places alone.

use crate::case::{Case, Check, Compare};
use crate::edits;
use crate::ours;
use crate::random::{LONG, Rng};
use crate::written_checks::read;
use oracle::calls::NOTE_BYTES;
use oracle::entry::read_notes;
use oracle::presses::{COLUMNS, NAME, Note, PRESS_BYTES, Places, Pressed, trace_of};
use oracle::traces::{WAYS, Way, presses_on};

/// The records of a text, pressed in each way, those of a long text as they are and in one way more: the trace of the notes as they are is clean.
pub fn pressed() -> Check {
    Check::new(NAME, |case, compared| {
        let records = read(case).records;
        let notes = read_notes(&records).unwrap_or_default();
        let mut rng = Rng::new(case.seed);
        let one = 1 + rng.below(WAYS.len() - 1);
        for (number, way) in WAYS.into_iter().enumerate() {
            if case.bytes.len() >= LONG && number != 0 && number != one {
                continue;
            }
            let pressed = pressed_on(&records, &notes, Some(way), &mut rng);
            let (number, places) = entered(&pressed, case, compared);
            compared.same("accepted", number, 0);
            if way == Way::AsTheyAre {
                compared.same("neither strays nor misses", [places[1], places[2]], [0; 2]);
            }
        }
    })
}

/// The records edited, and a trace of each note in a way of its own, edited too: most refusals. Long texts are left out.
pub fn edited() -> Check {
    Check::new(NAME, |case, compared| {
        if case.bytes.len() >= LONG {
            return;
        }
        let read = read(case);
        let notes = read_notes(&read.records).unwrap_or_default();
        let mut rng = Rng::new(case.seed.rotate_left(29) ^ 0x7ACE);
        let mut pressed = pressed_on(&read.records, &notes, None, &mut rng);
        edit_trace(&mut rng, &mut pressed.trace);
        pressed.records = edits::edited(case, read).records;
        entered(&pressed, case, compared);
    })
}

/// Records with the trace that is made of their notes.
pub fn pressed_on(records: &[u8], notes: &[Note], way: Option<Way>, rng: &mut Rng) -> Pressed {
    Pressed {
        records: records.to_vec(),
        trace: trace_of(&presses_on(notes, way, |n| rng.below(n))),
    }
}

/// As it is more often than not; else a byte changed, bytes cut off, or a press that stands elsewhere.
fn edit_trace(rng: &mut Rng, trace: &mut Vec<u8>) {
    let at = rng.below(trace.len().max(1));
    match rng.below(12) {
        0 => trace.truncate(at),
        1 if at < trace.len() => trace[at] ^= 1 << rng.below(8),
        2 => trace.extend([255, 255, 255, 255, rng.pick(&[0, 9, 10, 255])]),
        3 => trace.rotate_left(at / PRESS_BYTES * PRESS_BYTES),
        _ => {}
    }
}

/// The entry's number and places beside what the reference leaves in equal ones full of garbage; records and trace stand at any address, and
/// what is next to the places is left alone.
pub fn entered(pressed: &Pressed, case: &Case, compared: &mut Compare) -> (u32, Places) {
    let mut left = [case.seed | 1; 2 + 3 + 2 * COLUMNS];
    let mut want = left;
    let number = {
        let records = Shifted::of(&pressed.records, case.seed as usize);
        let trace = Shifted::of(&pressed.trace, (case.seed >> 8) as usize);
        ours::press_trace(records.slice(), trace.slice(), places_in(&mut left))
    };
    let plain = pressed.enter(places_in(&mut want));
    compared.number(case.lanes, number, plain);
    compared.same_slices("places", &left, &want);
    let places = *places_in(&mut left);
    if number == 0 {
        sums(pressed, &places, compared);
    }
    (number, places)
}

/// The 23 places between two others.
fn places_in<const N: usize>(room: &mut [u64; N]) -> &mut Places {
    let (places, _) = room[1..].split_first_chunk_mut().expect("room for them");
    places
}

/// Bytes that begin at an address of any remainder by 8, with others around them.
struct Shifted {
    bytes: Vec<u8>,
    from: usize,
    len: usize,
}

impl Shifted {
    fn of(bytes: &[u8], by: usize) -> Self {
        let from = by % 8;
        let around = [0xA5; 8];
        Self {
            bytes: [&around[..from], bytes, &around].concat(),
            from,
            len: bytes.len(),
        }
    }

    fn slice(&self) -> &[u8] {
        &self.bytes[self.from..self.from + self.len]
    }
}

/// What holds of all that is accepted: hits and strays are the presses, hits and misses the played notes, in each column too, the ten columns are
/// all of them, and there are neither strays nor misses exactly if presses and played notes stand at the same places in their order.
fn sums(pressed: &Pressed, places: &Places, compared: &mut Compare) {
    let &[hits, strays, misses, ref columns @ ..] = places;
    let (columns_hits, columns_misses) = columns.split_at(COLUMNS);
    let (presses, _) = pressed.trace.as_chunks::<PRESS_BYTES>();
    compared.same("hits and strays", hits + strays, presses.len() as u64);
    let (records, _) = pressed.records.as_chunks::<NOTE_BYTES>();
    let played = || records.iter().filter(|record| record[9] < 3);
    compared.same("hits and misses", hits + misses, played().count() as u64);
    let mut notes = [0; COLUMNS];
    for record in played() {
        notes[usize::from(record[8])] += 1;
    }
    let both = columns_hits.iter().zip(columns_misses);
    let both: Vec<u64> = both.map(|(hits, misses)| hits + misses).collect();
    compared.same_slices("hits and misses of each column", &both, &notes);
    let all = [columns_hits, columns_misses].map(|columns| columns.iter().sum());
    compared.same("the ten columns", all, [hits, misses]);
    let places = played().map(|&[r0, r1, r2, r3, .., column, _]| [r0, r1, r2, r3, column]);
    let is_clean = presses.iter().copied().eq(places);
    compared.same("clean", strays == 0 && misses == 0, is_clean);
}
