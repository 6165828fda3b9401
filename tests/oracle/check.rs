//! Self-check of the oracle: the specification's examples, refusals, leaves, directions, dropped heads, sheets, the charts inside an SM file, written charts,
//! pad traces, and the stored samples.
//! Ends with `N passed, M failed`; the exit status is not 0 if anything failed.

mod check_directions;
mod check_dropped;
mod check_examples;
mod check_files;
mod check_presses;
mod check_sample;
mod check_sheet;
mod check_sm;
mod check_written;
mod press_examples;
#[path = "../vectors/reader.rs"]
mod reader;
mod table;
mod written_examples;

use oracle::calls::{CALLS, Call};
use oracle::entry::{Lengths, Loan, MAX_LEN, enter, is_lane_count, read_note, refusal};
use oracle::leaves;
use std::env;
use std::fmt::Debug;
use std::panic::{self, AssertUnwindSafe};
use std::process::ExitCode;

/// Counts of what was compared.
#[derive(Default)]
pub struct Checks {
    passed: usize,
    failed: usize,
}

impl Checks {
    /// Compares one thing with what it should be.
    pub fn same<T: PartialEq + Debug>(&mut self, what: &str, got: T, want: T) {
        if got == want {
            self.passed += 1;
        } else {
            self.failed += 1;
            println!("failed: {what}: got {got:?}, want {want:?}");
        }
    }

    /// Runs a group; a panic in it is a failure.
    fn group(&mut self, name: &str, run: impl FnOnce(&mut Self)) {
        if panic::catch_unwind(AssertUnwindSafe(|| run(self))).is_err() {
            self.failed += 1;
            println!("failed: {name}: stopped by a panic");
        }
    }
}

/// The stored sample: each program that replays it reads a copy of its own.
const COPIES: [&str; 2] = ["crates/replay_charts/stdin", "crates/replay_figures/stdin"];

/// The stored sample of SM files.
const FILES: &str = "crates/replay_files/stdin";

fn main() -> ExitCode {
    let mut stored: Vec<String> = env::args().skip(1).collect();
    if stored.iter().any(|path| path.starts_with('-')) {
        eprintln!("check: use `check [ANSWERS..]`, ANSWERS being copies of the stored sample");
        return ExitCode::FAILURE;
    }
    if stored.is_empty() {
        stored = COPIES.map(String::from).to_vec();
    }
    let mut checks = Checks::default();
    checks.group("examples", check_examples::run);
    checks.group("lane numbers", lane_numbers);
    checks.group("refusals", refusals);
    checks.group("loans", loans);
    checks.group("longest texts", longest_texts);
    checks.group("note records", note_records);
    checks.group("line reader", line_reader);
    checks.group("tap masks", tap_masks);
    checks.group("reduction", reduction);
    checks.group("beats", beats);
    checks.group("object rows", object_rows);
    checks.group("directions", check_directions::run);
    checks.group("dropped heads", check_dropped::run);
    checks.group("sheets", check_sheet::run);
    checks.group("charts in files", check_sm::run);
    checks.group("written charts", check_written::run);
    checks.group("pad traces", check_presses::run);
    checks.group("sample", |checks| check_sample::run(checks, &stored));
    checks.group("files", |checks| check_files::run(checks, FILES));
    println!("{} passed, {} failed", checks.passed, checks.failed);
    ExitCode::from(u8::from(checks.failed != 0))
}

/// The lane counts, and the refusal of every other number, whatever else would be refused.
fn lane_numbers(checks: &mut Checks) {
    let counts: Vec<usize> = (0..=300).filter(|&number| is_lane_count(number)).collect();
    checks.same("lane counts", counts, vec![4, 5, 6, 8, 10]);
    for lanes in [0, 3, 7, 9, 11, (1 << 32) + 4, (1 << 62) - 1, usize::MAX] {
        for call in CALLS {
            for (len, lent) in [
                (9, Lengths::enough(9, lanes)),
                (9, Lengths::default()),
                (MAX_LEN + 1, Lengths::default()),
            ] {
                let what = format!("{} at {lanes} lanes", call.name());
                checks.same(&what, refusal(call, len, lanes, &lent), 12);
            }
        }
    }
}

/// What each call returns when the text, measure, beat, work or note slice is one too short.
const WHEN_SHORT: [(Call, [u32; 5]); 9] = [
    (Call::MinimizeChartCountRowsNotes, [2, 3, 4, 5, 6]),
    (Call::ProcessChartKept, [2, 3, 0, 5, 0]),
    (Call::MinimizeTimingRows, [2, 0, 4, 0, 0]),
    (Call::MeasureDensities, [0, 3, 0, 0, 0]),
    (Call::EquallySpaced, [0, 3, 0, 0, 0]),
    (Call::ChartLastBeat, [0, 0, 0, 0, 0]),
    (Call::ProcessRowsJudgable, [0, 0, 0, 5, 0]),
    (Call::ProcessTimingRows, [0, 0, 0, 5, 0]),
    (Call::DroppedHolds, [2, 0, 0, 0, 6]),
];

fn lengths([text, measure, beat, work, note]: [usize; 5]) -> Lengths {
    Lengths {
        text,
        measure,
        beat,
        work,
        note,
    }
}

fn refusals(checks: &mut Checks) {
    // Text length, lane number, and the shortest slices (Specification, Refusals).
    for (len, lanes, enough) in [
        (9, 4, [10, 6, 2, 2, 80]),
        (8, 4, [9, 5, 1, 1, 40]),
        (21, 10, [22, 12, 2, 2, 200]),
        (20, 10, [21, 11, 1, 1, 100]),
        (17, 8, [18, 10, 2, 2, 160]),
        (11, 5, [12, 7, 2, 2, 100]),
        (13, 6, [14, 8, 2, 2, 120]),
        (12, 6, [13, 7, 1, 1, 60]),
        (0, 4, [1, 1, 0, 0, 0]),
    ] {
        for (call, numbers) in WHEN_SHORT {
            let what = format!("{} at length {len}, {lanes} lanes", call.name());
            checks.same(&what, refusal(call, len, lanes, &lengths(enough)), 0);
            for place in (0..5).filter(|&place| enough[place] > 0) {
                let mut lent = enough;
                lent[place] -= 1;
                let got = refusal(call, len, lanes, &lengths(lent));
                checks.same(&what, got, numbers[place]);
            }
        }
    }
    for (call, numbers) in WHEN_SHORT {
        let none = Lengths::default();
        let first = numbers.into_iter().find(|&number| number != 0).unwrap_or(0);
        checks.same("lent nothing", refusal(call, 9, 4, &none), first);
        let too_long = refusal(call, MAX_LEN + 1, 4, &none);
        checks.same("too long and lent nothing", too_long, 1);
        let longest = Lengths::enough(16_777_215, 4);
        checks.same("longest", refusal(call, 16_777_215, 4, &longest), 0);
        checks.same("one longer", refusal(call, 16_777_216, 4, &longest), 1);
    }
}

/// A refusal writes nothing; an accepted call leaves zeros past its answer.
fn loans(checks: &mut Checks) {
    refused_loans(checks);
    let text = b"2000\n3000\n";
    let mut loan = Loan::marked(&lengths([13, 7, 4, 3, 81]));
    let number = enter(CALLS[0], text, 4, &[], &mut loan);
    checks.same("accepted", number, 0);
    checks.same("text", &loan.text[..], b"2000\n3000\n\0\0\0");
    checks.same("densities", loan.densities, vec![1, 0, 0, 0, 0, 0, 0]);
    checks.same("beats", loan.beats, vec![0.0, 2.0, 0.0, 0.0]);
    checks.same("work", loan.work, vec![0; 3]);
    checks.same("note", &loan.notes[..10], &[0, 0, 0, 0, 1, 0, 0, 0, 0, 1]);
    checks.same("past the notes", &loan.notes[10..], &[0; 71]);
    checks.same("not lent", loan.spacing, vec![0xA5; 7]);
    let want = [10, 1, 2, 1, 2f64.to_bits(), 0, 96, 0];
    checks.same("figures", &loan.figures[..8], &want);
    checks.same("figures kept for later", &loan.figures[25..], &[0; 7]);
    let mut loan = Loan::marked(&lengths([0, 7, 0, 0, 0]));
    let number = enter(Call::EquallySpaced, b",\n0000", 4, &[], &mut loan);
    checks.same("spacing accepted", number, 0);
    checks.same("spacing", loan.spacing, vec![1, 0, 0, 0, 0, 0, 0]);
    checks.same("densities not lent", loan.densities, vec![0xA5A5_A5A5; 7]);
}

/// One slice has an entry too few, the others have room to spare, and there is something in each. A call that is not lent the short one
/// is accepted and writes.
fn refused_loans(checks: &mut Checks) {
    let text = b"2000\n3000\n";
    let enough = [11, 6, 2, 2, 80];
    for (call, numbers) in WHEN_SHORT {
        for (place, &number) in numbers.iter().enumerate() {
            let mut lent = enough.map(|length| length + 3);
            lent[place] = enough[place] - 1;
            let before = Loan::marked(&lengths(lent));
            let mut loan = before.clone();
            let what = format!("{}, slice {place} short", call.name());
            checks.same(&what, enter(call, text, 4, &[], &mut loan), number);
            checks.same(&what, loan.same(&before), number != 0);
        }
    }
}

/// Texts of the greatest length, the one past it, and the greatest last beat near it.
fn longest_texts(checks: &mut Checks) {
    let call = Call::ChartLastBeat;
    let mut text = b",\n".repeat(8_388_605);
    text.extend(b"1000\n");
    checks.same("length", text.len(), 16_777_215);
    let mut loan = Loan::default();
    checks.same("longest", enter(call, &text, 4, &[], &mut loan), 0);
    checks.same("its last beat in 48ths", loan.figures[6], 1_610_612_160);
    text.push(b'\n');
    let before = Loan::marked(&lengths([9; 5]));
    for call in CALLS {
        let mut loan = before.clone();
        checks.same("one longer", enter(call, &text, 4, &[], &mut loan), 1);
        checks.same("a refusal writes nothing", loan.same(&before), true);
    }
}

fn note_records(checks: &mut Checks) {
    let hold = [5, 0, 0, 0, 7, 0, 0, 0, 9, 1];
    let mine = [255, 255, 255, 0, 255, 255, 255, 255, 0, 3];
    let both = [hold, mine].concat();
    checks.same("hold", read_note(&both, 0), Ok([5, 7, 9, 1]));
    let want = Ok([16_777_215, 4_294_967_295, 0, 3]);
    checks.same("mine", read_note(&both, 1), want);
    checks.same("past the records", read_note(&both, 2), Err(7));
    checks.same("no record", read_note(&[], 0), Err(7));
    checks.same(
        "a byte over",
        read_note(&[&both[..], &[0]].concat(), 0),
        Err(7),
    );
    checks.same("a byte short", read_note(&both[..19], 0), Err(7));
    for (what, record, place, byte) in [
        ("column", hold, 8, 10),
        ("kind", mine, 9, 6),
        ("row", mine, 3, 1),
        ("tail row", hold, 7, 1),
        ("tail at its row", hold, 4, 5),
        ("tap with a tail", hold, 9, 0),
        ("hold without a tail", mine, 9, 1),
        ("roll without a tail", mine, 9, 2),
    ] {
        let mut record = record;
        record[place] = byte;
        checks.same(what, read_note(&record, 0), Err(8));
    }
}

fn line_reader(checks: &mut Checks) {
    let blanks: Vec<u8> = (0..=255)
        .filter(|&b| leaves::skip_ws(&[b]).is_empty())
        .collect();
    checks.same("blanks", blanks, vec![9, 10, 12, 13, 32]);
    checks.same("skip_ws", leaves::skip_ws(b" \t1 "), b"1 ");
    checks.same("trim_cr", leaves::trim_cr(b"1\r\r"), b"1\r");
    for place in 0..20 {
        let mut bytes = vec![11; 20];
        bytes[place..].fill(10);
        checks.same("find_byte", leaves::find_byte(&bytes, 10), Some(place));
        checks.same("count_byte", leaves::count_byte(&bytes, 10), 20 - place);
    }
    checks.same("find_byte, none", leaves::find_byte(&[11; 20], 10), None);
    checks.same("empty text", leaves::next_line(b"", 0), Some((0, 0, 1)));
    checks.same("past the end", leaves::next_line(b"", 1), None);
    checks.same(
        "first line",
        leaves::next_line(b"ab\nc\n", 0),
        Some((0, 2, 3)),
    );
    checks.same(
        "last line",
        leaves::next_line(b"ab\nc\n", 5),
        Some((5, 0, 6)),
    );
}

/// Ones of the mask in bits 0 to 3, then 2 bits for each direction from bit 4.
fn tap_masks(checks: &mut Checks) {
    for mask in 0..=255u8 {
        let ones = |places: u8| (mask & places).count_ones() as u16;
        let want = ones(255) + 16 * ones(17) + 64 * ones(34) + 256 * ones(68) + 1024 * ones(136);
        checks.same("TAP_MASK_COUNTS", leaves::tap_mask_counts(mask), want);
    }
    checks.same("tap_mask4", leaves::tap_mask4(b"1011"), Some(13));
    checks.same("tap_mask4, a head", leaves::tap_mask4(b"1021"), None);
    checks.same("tap_mask4, below 48", leaves::tap_mask4(b"10/1"), None);
    checks.same("tap_mask8", leaves::tap_mask8(b"10110001"), Some(141));
    checks.same("tap_mask8, a mine", leaves::tap_mask8(b"0000000M"), None);
}

fn reduction(checks: &mut Checks) {
    checks.same("all zero", leaves::is_all_zero(5, b"00000"), true);
    checks.same("not all zero", leaves::is_all_zero(4, b"000\0"), false);
    let rows = b"1000000001000000";
    checks.same("shift", leaves::measure_reduce_shift(4, rows), 1);
    let left = (2, b"1000010001000000".to_vec());
    checks.same("reduce_rows", leaves::reduce_rows(4, rows), left);
    let text = b",\n1000\n0000\n0100\n0000\n";
    let left = (2, b",\n1000\n0100\n".to_vec());
    let got = leaves::reduce_output_measure(4, text, 2, 4);
    checks.same("reduce_output_measure", got, left);
    let left = (1, b",\n1000\n".to_vec());
    let got = leaves::compact_output_rows(4, text, 2, 4, 2);
    checks.same("compact_output_rows", got, left);
}

fn beats(checks: &mut Checks) {
    checks.same("no rows", leaves::append_row_beats(3, 0), vec![]);
    let beats = leaves::append_row_beats(1, 4);
    checks.same("four rows", beats, vec![4.0, 5.0, 6.0, 7.0]);
    // r * step is not rounded before the addition: that would end in 38.
    let fused = leaves::row_beat(1, 6, 9).to_bits();
    checks.same("fused step", fused, 1_087_722_837);
    // Ties go to even from 4 m = 2^24 on.
    checks.same("tie", leaves::row_beat(4_194_305, 1, 4), 16_777_220.0);
    checks.same("tie", leaves::row_beat(4_194_305, 3, 4), 16_777_224.0);
    let last = leaves::calc_last_beat(None, 0, 0);
    checks.same("no object row", last, (0, 0));
    // Row 1 of 128 is one and a half 48ths, which goes to 2; row 1 of 384 is half, to 0.
    let (bits, in_48ths) = leaves::calc_last_beat(Some(0), 1, 128);
    checks.same("tie of the last beat", in_48ths, 2);
    checks.same("its bits", f64::from_bits(bits), 2.0 / 48.0);
    checks.same("half", leaves::calc_last_beat(Some(0), 1, 384), (0, 0));
}

fn object_rows(checks: &mut Checks) {
    let mut depths = [0, 1, 2, 3];
    let object = leaves::row_has_object(4, b"3m2K", &mut depths);
    checks.same("K makes an object row", object, true);
    checks.same("depths", depths, [0, 1, 3, 0]);
    let object = leaves::row_has_object(4, b"3m24", &mut depths);
    checks.same("no object row", object, false);
    let object = leaves::row_has_object(4, b"0300", &mut depths);
    checks.same("a tail", (object, depths), (true, [0, 0, 4, 1]));
}
