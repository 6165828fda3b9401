//! What a run must have compared: every entry of the header with each of its numbers at each lane count, and with 12 at another lane number, every export of `leaves`, every
//! kind of text at each lane count, every kind of file, each call on a chart of a file at each lane count, and as many comparisons as the
//! caller asks for.

use crate::case::{Answers, Check, LANE_COUNTS};
use crate::file_checks::Files;
use crate::kinds::Kinds;
use crate::sheet_checks;
use oracle::calls::{CALLS, Call};
use oracle::{entry, presses, sheet_entry, written};

const HEADER: &str = include_str!("../../include/padcheck.h");

/// The crate's root, which names its files, and those files.
const LEAVES_ROOT: &str = include_str!("../../crates/leaves/src/lib.rt");
const LEAVES: [&str; 4] = [
    include_str!("../../crates/leaves/src/beat.rt"),
    include_str!("../../crates/leaves/src/cell.rt"),
    include_str!("../../crates/leaves/src/line.rt"),
    include_str!("../../crates/leaves/src/measure.rt"),
];

/// Prints what is missing; returns how many things are.
pub fn missing(checks: &[&Check], kinds: &Kinds, files: &Files) -> u64 {
    let mut missing = missing_answers(checks);
    missing.extend(missing_leaves(checks));
    for (kind, lanes) in kinds.missing() {
        missing.push(format!("no text of this kind at {lanes} lanes: {kind}"));
    }
    for kind in files.kinds.missing() {
        missing.push(format!("no file of this kind: {kind}"));
    }
    missing.extend(missing_charts(&files.charts));
    for line in &missing {
        println!("failed: {line}");
    }
    missing.len() as u64
}

/// The numbers of each entry that it never returned. The entries are those of the header, and all that the oracle has are among them.
fn missing_answers(checks: &[&Check]) -> Vec<String> {
    let mut missing = Vec::new();
    let entries: Vec<&str> = names(HEADER, "\nuint32_t padcheck_").collect();
    for call in CALLS {
        if !entries.contains(&call.name()) {
            missing.push(format!("{} is not in the header", call.name()));
        }
    }
    for entry in entries {
        let Some(numbers) = numbers(entry) else {
            missing.push(format!("{entry} is in the header and not known here"));
            continue;
        };
        let answers = answers(checks.iter().copied(), entry);
        for number in numbers {
            let counts = answers.map(|counts| counts[number as usize]);
            missing.extend(missing_number(entry, number, counts));
        }
    }
    missing
}

/// The lane counts at which a number was never returned; a file that is refused has none, nor has a lane number that is.
fn missing_number(entry: &str, number: u32, counts: [u64; LANE_COUNTS.len() + 1]) -> Vec<String> {
    let never = format!("{entry} never returned {number}");
    if number == 12 || (entry == "sm_chart" && number != 0) {
        let is_missing = counts.iter().all(|&count| count == 0);
        return is_missing.then_some(never).into_iter().collect();
    }
    let counts = counts.iter().zip(LANE_COUNTS);
    let missing = counts.filter(|(count, _)| **count == 0);
    missing
        .map(|(_, lanes)| format!("{never} at {lanes} lanes"))
        .collect()
}

/// The calls that accepted no chart of a file, with the lane count.
fn missing_charts(charts: &[Check]) -> Vec<String> {
    let mut missing = Vec::new();
    let names = CALLS.into_iter().map(Call::name);
    for name in names.chain([sheet_checks::NAME]) {
        let accepted = answers(charts, name).map(|counts| counts[0]);
        for (count, lanes) in accepted.iter().zip(LANE_COUNTS) {
            if *count == 0 {
                missing.push(format!("{name} had no chart of a file at {lanes} lanes"));
            }
        }
    }
    missing
}

/// The exports of `leaves` that no check compared.
fn missing_leaves(checks: &[&Check]) -> Vec<String> {
    let mut missing = Vec::new();
    if LEAVES_ROOT.matches("\nmod ").count() != LEAVES.len() {
        missing.push(String::from("a file of the leaves is not known here"));
    }
    for source in LEAVES {
        let mut leaves = names(source, "\npub extern \"C\" fn leaves_").peekable();
        if leaves.peek().is_none() {
            missing.push(String::from("a file of the leaves has no export"));
        }
        for leaf in leaves {
            let mut alike = checks.iter().filter(|check| check.name() == leaf);
            if !alike.any(|check| check.comparisons() > 0) {
                missing.push(format!("the leaf {leaf} was never compared"));
            }
        }
    }
    missing
}

/// The names in a source that stand between a prefix and an opening parenthesis.
fn names<'a>(source: &'a str, prefix: &str) -> impl Iterator<Item = &'a str> {
    let ends = source.split(prefix).skip(1);
    ends.filter_map(|rest| rest.split('(').next())
}

/// The numbers that an entry can return.
fn numbers(entry: &str) -> Option<Vec<u32>> {
    let refusals = match CALLS.into_iter().find(|call| call.name() == entry) {
        Some(call) => entry::refusals(call),
        None if entry == "read_note" => &[7, 8],
        None if entry == "sm_chart" => &[1, 9, 10, 11],
        None if entry == sheet_checks::NAME => &sheet_entry::REFUSALS,
        None if entry == written::NAME => &written::REFUSALS,
        None if entry == presses::NAME => &presses::REFUSALS,
        None => return None,
    };
    Some([&[0], refusals].concat())
}

/// What all checks of this name returned.
fn answers<'a>(checks: impl IntoIterator<Item = &'a Check>, name: &str) -> Answers {
    let mut sums = Answers::default();
    let alike = checks.into_iter().filter(|check| check.name() == name);
    for check in alike {
        for (sums, counts) in sums.iter_mut().zip(check.answers()) {
            for (sum, count) in sums.iter_mut().zip(counts) {
                *sum += count;
            }
        }
    }
    sums
}
