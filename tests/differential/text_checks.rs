//! Checks over texts: the line reader's leaves, and each exported entry with what it is lent.

use crate::case::{Case, Check, Compare};
use crate::entries::{ENTRIES, Enter};
use crate::ours;
use crate::random::{self, Rng};
use oracle::calls::{Call, TALLY, TALLY_NAMES};
use oracle::entry::{Loan, MAX_LEN, enter, is_lane_count, refusals};
use oracle::leaves;

pub fn checks() -> Vec<Check> {
    let mut checks = vec![
        Check::new("skip_ws", skip_ws),
        Check::new("trim_cr", trim_cr),
        Check::new("find_byte", find_byte),
        Check::new("count_byte", count_byte),
        Check::new("next_line", next_line),
        Check::new("lanes_of", lanes_of),
    ];
    checks.extend(entries());
    checks.push(tallies());
    checks.push(flags_of_every_length());
    checks
}

/// The exported entries alone.
pub fn entries() -> impl Iterator<Item = Check> {
    ENTRIES.iter().map(|entry| {
        Check::new(entry.call.name(), |case, compared| {
            entered(entry.call, entry.enter, case, compared);
        })
    })
}

/// The main tally beside the kept one, which are the same for every text.
pub fn tallies() -> Check {
    Check::new("main and kept tally", |case, compared| {
        if !is_lane_count(case.lanes) {
            return;
        }
        let [main, kept] = [Call::MinimizeChartCountRowsNotes, Call::ProcessChartKept]
            .map(|call| tally(call, case));
        compared.same_slices("main and kept tally", &main, &kept);
    })
}

/// The judged tally by flags of each length, from none to two more than the rows, where these are few.
fn flags_of_every_length() -> Check {
    const MOST_ROWS: usize = 8;
    Check::new("flags of every length", |case, compared| {
        let flags = random::most_flags(case);
        if flags.len() <= MOST_ROWS + 2 {
            for len in 0..=flags.len() {
                judged_by(&flags[..len], case, compared);
            }
        }
    })
}

/// The judged tally by every list of flags, from none to two more than the rows.
pub fn every_list_of_flags() -> Check {
    const VALUES: [u8; 3] = [0, 1, 255];
    Check::new("every list of flags", |case, compared| {
        let most = random::most_flags(case).len();
        let mut lists = vec![Vec::new()];
        for at in 0.. {
            let Some(flags) = lists.get(at).cloned() else {
                break;
            };
            judged_by(&flags, case, compared);
            if flags.len() < most {
                lists.extend(VALUES.map(|value| [&flags[..], &[value]].concat()));
            }
        }
    })
}

/// The judged tally by these flags, in a slice of the exact length.
fn judged_by(flags: &[u8], case: &Case, compared: &mut Compare) {
    const CALL: Call = Call::ProcessTimingRows;
    let len = case.bytes.len();
    let loan = random::lent(case.seed, !case.seed, CALL, len, case.lanes, |_, enough| {
        enough
    });
    entered_with(CALL, enter_of(CALL), case, flags, loan, compared);
}

/// The tally that a call answers.
fn tally(call: Call, case: &Case) -> Vec<u64> {
    left_by(call, case).figures[TALLY..TALLY + TALLY_NAMES.len()].to_vec()
}

/// What an entry leaves in slices of the exact lengths, which are full of garbage.
pub fn left_by(call: Call, case: &Case) -> Loan {
    let len = case.bytes.len();
    let mut loan = random::lent(case.seed, !case.seed, call, len, case.lanes, |_, enough| {
        enough
    });
    enter_of(call)(&case.bytes, case.lanes, &[], &mut loan);
    loan
}

fn enter_of(call: Call) -> Enter {
    let entry = ENTRIES.iter().find(|entry| entry.call == call);
    entry.expect("every call has its entry").enter
}

/// The exported entries with every combination of their slices too short, the others exact.
pub fn shortages() -> impl Iterator<Item = Check> {
    ENTRIES.iter().map(|entry| {
        Check::new(entry.call.name(), |case, compared| {
            // Refusals 12 and 1 are of no slice.
            for short in 0..1 << (refusals(entry.call).len() - 2) {
                let loan = shortened(entry.call, case, short);
                entered_with(entry.call, entry.enter, case, &[], loan, compared);
            }
        })
    })
}

/// Slices of the exact lengths, for too long a text those of a short one, but for those whose refusal has its bit in `short`.
fn shortened(call: Call, case: &Case, short: u32) -> Loan {
    let mut bit = 1;
    random::lent(
        case.seed,
        case.seed,
        call,
        short_len(case),
        case.lanes,
        |_, enough| {
            let is_short = short & bit != 0;
            bit <<= 1;
            if is_short {
                too_short(case.lanes, enough)
            } else {
                enough
            }
        },
    )
}

/// The text's length, or that of a short one where it is too long.
pub fn short_len(case: &Case) -> usize {
    match case.bytes.len() {
        len if len > MAX_LEN => 99,
        len => len,
    }
}

/// An entry less than enough; none at a lane number that is refused, so that too little is lent however the number is read.
pub fn too_short(lanes: usize, enough: usize) -> usize {
    if is_lane_count(lanes) { enough - 1 } else { 0 }
}

fn skip_ws(case: &Case, compared: &mut Compare) {
    let text = &case.bytes;
    compared.same("rest", ours::skip_ws(text), leaves::skip_ws(text).len());
}

fn trim_cr(case: &Case, compared: &mut Compare) {
    let text = &case.bytes;
    compared.same("length", ours::trim_cr(text), leaves::trim_cr(text).len());
}

/// A byte of the text or any, looked for from a place in the text on.
fn needle(case: &Case) -> (&[u8], u8) {
    let mut rng = Rng::new(case.seed);
    let from = rng.below(case.bytes.len().min(9) + 1);
    let needle = match rng.below(3) {
        0 => b'\n',
        1 => rng.pick(b"\x00\x01\x80\xff0,;"),
        _ => case.bytes.last().copied().unwrap_or_default(),
    };
    (&case.bytes[from..], needle)
}

fn find_byte(case: &Case, compared: &mut Compare) {
    let (part, needle) = needle(case);
    let rust = leaves::find_byte(part, needle);
    compared.same("place", ours::find_byte(part, needle), rust);
}

fn count_byte(case: &Case, compared: &mut Compare) {
    let (part, needle) = needle(case);
    let rust = leaves::count_byte(part, needle);
    compared.same("count", ours::count_byte(part, needle), rust);
}

/// All lines one after the other: the next one starts a byte past the line's end. Past the text's end the Rust has none, and ours is empty.
fn next_line(case: &Case, compared: &mut Compare) {
    let text = &case.bytes;
    let (mut ours, mut rust) = (Vec::new(), Vec::new());
    let mut start = 0;
    while let Some((_, len, next)) = leaves::next_line(text, start) {
        let line = ours::next_line(text, start);
        ours.push((line, start.saturating_add(line).saturating_add(1)));
        rust.push((len, next));
        start = next;
    }
    compared.same_slices("length and next line's start", &ours, &rust);
    for past in [text.len() + 1, text.len() + 2, usize::MAX] {
        compared.same("length past the end", ours::next_line(text, past), 0);
    }
}

fn lanes_of(case: &Case, compared: &mut Compare) {
    let counts = is_lane_count(case.lanes);
    let lanes = if counts { case.lanes } else { usize::MAX };
    compared.same("lanes", ours::lanes_of(case.lanes), lanes);
}

/// An entry's number, figures and slices beside what the oracle leaves in an equal loan, which is drawn.
fn entered(call: Call, ours: Enter, case: &Case, compared: &mut Compare) {
    let loan = random::loan(&mut Rng::new(case.seed), call, case);
    let flags = match call {
        Call::ProcessTimingRows => random::flags(case),
        _ => Vec::new(),
    };
    entered_with(call, ours, case, &flags, loan, compared);
}

/// The same with a loan at hand.
fn entered_with(
    call: Call,
    ours: Enter,
    case: &Case,
    flags: &[u8],
    mut left: Loan,
    compared: &mut Compare,
) {
    let mut want = left.clone();
    let number = ours(&case.bytes, case.lanes, flags, &mut left);
    let rust = enter(call, &case.bytes, case.lanes, flags, &mut want);
    compared.number(case.lanes, number, rust);
    compared.same_slices("figures", &left.figures, &want.figures);
    for number in refusals(call) {
        match number {
            2 => compared.same_slices("text", &left.text, &want.text),
            3 if call == Call::EquallySpaced => {
                compared.same_slices("spacing", &left.spacing, &want.spacing);
            }
            3 => compared.same_slices("densities", &left.densities, &want.densities),
            4 => compared.same_slices("beats", &bits(&left.beats), &bits(&want.beats)),
            5 => compared.same_slices("work", &left.work, &want.work),
            6 => compared.same_slices("notes", &left.notes, &want.notes),
            _ => {}
        }
    }
}

pub fn bits(beats: &[f32]) -> Vec<u32> {
    beats.iter().map(|beat| beat.to_bits()).collect()
}
