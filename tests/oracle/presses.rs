//! The presses of a pad set against the notes: a plain reference, which the Rust does not have. For each press its place is sought among the
//! played notes and among the presses before it, and for each played note its place among all presses.

use crate::entry::read_notes;
use std::collections::BTreeSet;

/// The entry's name without its prefix.
pub const NAME: &str = "press_trace";

/// The refusals that the call can give, in their order.
pub const REFUSALS: [u32; 4] = [7, 8, 13, 16];

/// Bytes of a press, and the columns that it can have.
pub const PRESS_BYTES: usize = 5;
pub const COLUMNS: usize = 10;

/// Hits, strays, misses, the hits of each column, the misses of each.
pub type Places = [u64; 3 + 2 * COLUMNS];

/// A note as it is read back: row, tail row, column, kind.
pub type Note = [u64; 4];

/// Where a note or a press stands: row and column.
pub type Place = (u64, u64);

/// What the call is given: note records and the records of presses.
#[derive(Clone, Debug, Default, PartialEq, Eq)]
pub struct Pressed {
    pub records: Vec<u8>,
    pub trace: Vec<u8>,
}

impl Pressed {
    /// The 23 places.
    ///
    /// # Errors
    ///
    /// All refusals of the call.
    pub fn answer(&self) -> Result<Places, u32> {
        let notes = read_notes(&self.records)?;
        let places: Vec<Place> = notes.iter().map(place_of).collect();
        if !places.is_sorted_by(|one, next| one < next) {
            return Err(13);
        }
        let presses = presses_in(&self.trace).ok_or(16_u32)?;
        Ok(Sorted::of(&notes, &presses).places())
    }

    /// The call entire: returns its number and alters the places as the entry does.
    pub fn enter(&self, places: &mut Places) -> u32 {
        match self.answer() {
            Ok(answer) => {
                *places = answer;
                0
            }
            Err(number) => number,
        }
    }
}

/// Row and column of a note; where its tail stands does not matter.
#[must_use]
pub const fn place_of(&[row, _, column, _]: &Note) -> Place {
    (row, column)
}

/// Whether a note is a tap, a hold or a roll.
#[must_use]
pub const fn is_played(&[.., kind]: &Note) -> bool {
    kind < 3
}

/// The places of the presses that a trace stands for; none where the trace is refused.
#[must_use]
pub fn presses_in(trace: &[u8]) -> Option<Vec<Place>> {
    let (records, []) = trace.as_chunks::<PRESS_BYTES>() else {
        return None;
    };
    let place = |&[r0, r1, r2, r3, column]: &[u8; PRESS_BYTES]| {
        let row = u32::from_le_bytes([r0, r1, r2, r3]);
        (row.into(), column.into())
    };
    let presses: Vec<Place> = records.iter().map(place).collect();
    let is_right = presses.is_sorted() && presses.iter().all(|&(_, column)| column <= 9);
    is_right.then_some(presses)
}

/// The trace of presses that stand there; a row has four bytes, and a column one.
#[must_use]
pub fn trace_of(presses: &[Place]) -> Vec<u8> {
    let press = |&(row, column): &Place| {
        let [r0, r1, r2, r3] = (row as u32).to_le_bytes();
        [r0, r1, r2, r3, column as u8]
    };
    presses.iter().flat_map(press).collect()
}

/// Where the hits, strays and misses stand.
#[derive(Clone, Debug, Default, PartialEq, Eq)]
pub struct Sorted {
    pub hits: Vec<Place>,
    pub strays: Vec<Place>,
    pub misses: Vec<Place>,
}

impl Sorted {
    /// What becomes of each press and each played note.
    #[must_use]
    pub fn of(notes: &[Note], presses: &[Place]) -> Self {
        let played: Vec<Place> = notes
            .iter()
            .filter(|note| is_played(note))
            .map(place_of)
            .collect();
        let noted: BTreeSet<Place> = played.iter().copied().collect();
        let (mut pressed, mut sorted) = (BTreeSet::new(), Self::default());
        for &press in presses {
            if noted.contains(&press) && !pressed.contains(&press) {
                sorted.hits.push(press);
            } else {
                sorted.strays.push(press);
            }
            pressed.insert(press);
        }
        let is_missed = |place: &Place| !pressed.contains(place);
        sorted.misses = played.into_iter().filter(is_missed).collect();
        sorted
    }

    /// Their numbers, with those of each column.
    #[must_use]
    pub fn places(&self) -> Places {
        let mut places = [0; 3 + 2 * COLUMNS];
        let all = [&self.hits, &self.strays, &self.misses];
        places[..3].copy_from_slice(&all.map(|list| list.len() as u64));
        for (list, columns) in [(&self.hits, 3), (&self.misses, 3 + COLUMNS)] {
            for &(_, column) in list {
                places[columns + column as usize] += 1;
            }
        }
        places
    }
}
