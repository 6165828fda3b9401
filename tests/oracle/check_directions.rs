//! The directions of six lanes: by hand, and beside the Rust's at the lane counts that the Rust has. As in the specification, `|` stands for byte 10.

use crate::Checks;
use oracle::calls::{self, Answer, LEFT, RIGHT, TALLY, UP_LEFT, UP_RIGHT};
use oracle::directions::{Directions, chart_directions, judged_directions};
use oracle::dropped::text_rows;
use oracle::keysounds::rows_read_back;
use oracle::vectors::{SEED, samples};

pub fn run(checks: &mut Checks) {
    charts(checks);
    judged(checks);
    other_lanes(checks);
    beside_the_rust(checks);
}

/// Left, down, up, right, up-left, up-right of an answer.
fn directions(answer: &Answer) -> Directions {
    [LEFT, LEFT + 1, LEFT + 2, RIGHT, UP_LEFT, UP_RIGHT].map(|place| answer.figures[place])
}

fn bytes(text: &str) -> Vec<u8> {
    text.replace('|', "\n").into_bytes()
}

/// The main and the kept tally.
fn charts(checks: &mut Checks) {
    for (text, want) in [
        (
            "111111|011111|001111|000111|000011|000001",
            [1, 3, 4, 6, 2, 5],
        ),
        ("010000", [0, 0, 0, 0, 1, 0]),
        ("000010", [0, 0, 0, 0, 0, 1]),
        ("000002|000003", [0, 0, 0, 1, 0, 0]),
        ("020040|030030", [0, 0, 0, 0, 1, 1]),
        ("0100001|01000|100001\r", [1, 0, 0, 1, 1, 0]),
        ("LlMmFf|K00000", [0; 6]),
        // Counted anew: heads and tails are not as many, a 1 is met, a depth is left over.
        ("020000|010000", [0, 0, 0, 0, 1, 0]),
        ("020000|010000|030000", [0, 0, 0, 0, 1, 0]),
        ("030000|020000", [0; 6]),
        ("222200|MLF100|333300", [0, 0, 1, 0, 0, 0]),
        ("222222|KmlfKK|333333|020000", [1; 6]),
        ("", [0; 6]),
    ] {
        let text = bytes(text);
        let main = calls::minimize_chart_count_rows_notes(&text, 6);
        let kept = calls::process_chart_kept(&text, 6);
        let what = text.escape_ascii().to_string();
        checks.same(
            &what,
            [main, kept].map(|answer| directions(&answer)),
            [want; 2],
        );
    }
    let nest = |tails| ["020000|".repeat(9), "030000|".repeat(tails)].concat();
    for (tails, count) in [(9, 9), (10, 8)] {
        let main = calls::minimize_chart_count_rows_notes(&bytes(&nest(tails)), 6);
        checks.same("nine heads", main.figures[UP_LEFT], count);
    }
}

fn judged(checks: &mut Checks) {
    for (text, flags, want) in [
        ("0L0010|00l000", &[1, 2][..], [0, 1, 0, 0, 1, 1]),
        ("020000|000040|030000", &[1, 1, 1], [0, 0, 0, 0, 1, 0]),
        ("010000|000010|100000", &[0, 1], [0, 0, 0, 0, 0, 1]),
        ("020000|030000", &[0], [0; 6]),
        (
            " 10000|/10000|010000\r|01000\r|,00001|;00001",
            &[1; 6],
            [0, 0, 0, 0, 3, 0],
        ),
    ] {
        let text = bytes(text);
        let answer = calls::process_timing_rows(&text, 6, flags);
        let what = text.escape_ascii().to_string();
        checks.same(&what, directions(&answer), want);
        if !flags.contains(&0) {
            let answer = calls::process_rows_judgable(&text, 6);
            checks.same(&what, directions(&answer), want);
        }
    }
}

/// The same rows at the other lane counts.
fn other_lanes(checks: &mut Checks) {
    for (lanes, want) in [
        (4, [1, 1, 1, 1, 0, 0]),
        (5, [2, 1, 1, 1, 0, 0]),
        (8, [2, 2, 2, 2, 0, 0]),
        (10, [3, 3, 2, 2, 0, 0]),
    ] {
        let main = calls::minimize_chart_count_rows_notes(b"1111111111", lanes);
        checks.same("a row of taps", directions(&main), want);
    }
}

/// On the texts of the stored sample: this reference's directions are those of every tally, and they are all of its arrows.
fn beside_the_rust(checks: &mut Checks) {
    for (i, sample) in samples(SEED).iter().enumerate() {
        let (text, lanes) = (&sample.text[..], sample.lanes);
        let main = calls::minimize_chart_count_rows_notes(text, lanes);
        let kept = calls::process_chart_kept(text, lanes);
        let judged = calls::process_rows_judgable(text, lanes);
        let flagged = calls::process_timing_rows(text, lanes, &sample.flags);
        let of_chart = chart_directions(text_rows(&main.text, lanes), lanes);
        let all = judged_directions(rows_read_back(text, lanes), lanes, |_| true);
        let by_flags = judged_directions(rows_read_back(text, lanes), lanes, |row| {
            calls::is_judged(&sample.flags, row)
        });
        let want = [of_chart, of_chart, all, by_flags];
        let answers = [main, kept, judged, flagged];
        let what = format!("text {i}");
        checks.same(&what, answers.each_ref().map(directions), want);
        let arrows = answers.map(|answer| answer.figures[TALLY]);
        checks.same(
            &what,
            arrows,
            want.map(|directions| directions.iter().sum()),
        );
    }
}
