//! Checks of the entry that writes a chart from notes: number, text slice and figures beside the plain reference's, of what the main call reads of a
//! text, as it is and edited, and of notes and row counts that are drawn. What is written is read again, which gives them back.

use crate::case::{Case, Check, Compare};
use crate::edits;
use crate::ours;
use crate::random::Rng;
use crate::text_checks::left_by;
use oracle::calls::{Call, NOTE_BYTES, NOTES, TEXT_BYTES};
use oracle::dropped::{dropped_heads, text_rows};
use oracle::entry::{MAX_LEN, is_lane_count};
use oracle::written::{Given, NAME, row_counts};

/// Bytes that are not lent, past the text slice.
const PAST: usize = 8;

/// The slice's length where no text is written: enough for most, none for a text that would be too long.
pub const SOME: usize = 64;

/// The entry on what is read of a text and then edited.
pub fn edited() -> Check {
    Check::new(NAME, |case, compared| {
        let given = edits::edited(case, read(case));
        let enough = exact_len(&given);
        let mut rng = Rng::new(!case.seed);
        let room = match rng.below(8) {
            0 => enough.saturating_sub(1),
            1 => enough / 2,
            2 | 3 => enough + 1 + rng.below(9),
            _ => enough,
        };
        back_again(&given, room, case.seed, compared);
    })
}

/// The entry on notes and row counts that are drawn: the case's bytes are the records.
pub fn drawn() -> Check {
    Check::new(NAME, |case, compared| {
        let given = Given {
            records: case.bytes.clone(),
            lanes: case.lanes,
            counts: edits::counts(&mut Rng::new(case.seed)),
        };
        back_again(&given, exact_len(&given), case.seed, compared);
    })
}

/// What the text's minimised rows can be written back from: "each cell is one of 0 1 2 3 4 M L F, no head is dropped, and each 3 closes a head".
pub fn comes_back(minimised: &[u8], lanes: usize) -> bool {
    let cells: Vec<u8> = text_rows(minimised, lanes).flatten().copied().collect();
    let many = |letters: &[u8]| cells.iter().filter(|cell| letters.contains(cell)).count();
    many(b"01234MLF") == cells.len()
        && many(b"24") == many(b"3")
        && dropped_heads(minimised, lanes).is_empty()
}

/// Read, written, read: the notes and row counts of a text are refused with 15 at most, and what is written for them is the minimised text exactly
/// where it can come back.
pub fn read_and_written() -> Check {
    Check::new("read and written", |case, compared| {
        if !is_lane_count(case.lanes) || case.bytes.len() > MAX_LEN {
            return;
        }
        let minimised = text_of(case);
        let given = read(case);
        let mut text = vec![0xA5; minimised.len()];
        let number = ours::notes_to_chart(&given, &mut text, &mut [7; 32]);
        compared.same("accepted, or 15", matches!(number, 0 | 15), true);
        let back = comes_back(&minimised, case.lanes);
        compared.same("comes back", number == 0 && text == minimised, back);
        if number == 0 {
            compared.same("all of it", text.len() as u128, given.text_len());
        }
    })
}

/// The minimised text that the main call leaves.
fn text_of(case: &Case) -> Vec<u8> {
    let main = left_by(Call::MinimizeChartCountRowsNotes, case);
    main.text[..main.figures[TEXT_BYTES] as usize].to_vec()
}

/// The records and row counts that the main call leaves; at a lane number that is refused those of 4 lanes, and of a text that is too long none.
pub fn read(case: &Case) -> Given {
    let lanes = if is_lane_count(case.lanes) {
        case.lanes
    } else {
        4
    };
    let read_at = Case {
        lanes,
        ..case.clone()
    };
    if case.bytes.len() > MAX_LEN {
        return Given {
            lanes: case.lanes,
            ..Given::default()
        };
    }
    let main = left_by(Call::MinimizeChartCountRowsNotes, &read_at);
    let figure = |place: usize| main.figures[place] as usize;
    Given {
        records: main.notes[..NOTE_BYTES * figure(NOTES)].to_vec(),
        lanes: case.lanes,
        counts: row_counts(&main.text[..figure(TEXT_BYTES)], lanes),
    }
}

/// The length of the text to be written, or some where it would be too long.
pub fn exact_len(given: &Given) -> usize {
    let len = given.text_len();
    if len > MAX_LEN as u128 {
        SOME
    } else {
        len as usize
    }
}

/// The entry beside the reference; an accepted chart is read again, and gives its notes and row counts.
pub fn back_again(given: &Given, room: usize, seed: u64, compared: &mut Compare) {
    let (number, text) = entered(given, room, seed, compared);
    if number != 0 {
        return;
    }
    let written = Case {
        bytes: text,
        lanes: given.lanes,
        seed,
    };
    compared.same_slices(
        "read again: records",
        &read(&written).records,
        &given.records,
    );
    compared.same_slices(
        "read again: row counts",
        &read(&written).counts,
        &given.counts,
    );
    compared.same_slices("its own minimised text", &text_of(&written), &written.bytes);
}

/// The entry's number, slice and figures beside what the reference leaves in equal ones full of garbage; answers the number and the text.
pub fn entered(given: &Given, room: usize, seed: u64, compared: &mut Compare) -> (u32, Vec<u8>) {
    let mut left = vec![seed as u8 | 1; room + PAST];
    let mut want = left.clone();
    let mut figures = [seed | 1; 32];
    let mut want_figures = figures;
    let number = ours::notes_to_chart(given, &mut left[..room], &mut figures);
    let plain = given.enter(&mut want[..room], &mut want_figures);
    compared.number(given.lanes, number, plain);
    compared.same_slices("text", &left, &want);
    compared.same_slices("figures", &figures, &want_figures);
    if number == 0 {
        left.truncate(figures[TEXT_BYTES] as usize);
    }
    (number, left)
}
