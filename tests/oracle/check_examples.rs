//! The specification's examples P1 to P11 and its card, keysounds, the wrong readings it names, and deep nests.
//! As there, `|` stands for byte 10.

use crate::Checks;
use oracle::calls::{self, Answer};
use oracle::card::{CARD_LEN, card};
use oracle::leaves;
use oracle::sheet::{ChartFigures, Form, note_lines};

pub fn run(checks: &mut Checks) {
    proved_one_to_four(checks);
    proved_five_to_eight(checks);
    proved_nine_to_eleven(checks);
    keysounds(checks);
    card_sheet(checks);
    line_kinds(checks);
    corrected(checks);
    deep_nests(checks);
    judged(checks);
}

// Places of the tally.
const ARROWS: usize = 0;
const LEFT: usize = 1;
const STEPS: usize = 5;
const JUMPS: usize = 6;
const HANDS: usize = 7;
const MINES: usize = 8;
const HOLDS: usize = 9;
const FAKES: usize = 12;
const KEYSOUNDS: usize = 14;

fn bytes(text: &str) -> Vec<u8> {
    text.replace('|', "\n").into_bytes()
}

fn main_call(text: &str) -> Answer {
    calls::minimize_chart_count_rows_notes(&bytes(text), 4)
}

fn kept_call(text: &str) -> Answer {
    calls::process_chart_kept(&bytes(text), 4)
}

fn spacing(text: &str) -> Vec<u8> {
    calls::equally_spaced(&bytes(text), 4).spacing
}

/// The last beat, where the main call and the scan agree on it.
fn last(text: &str) -> Option<f64> {
    let of_main = main_call(text).figures[calls::LAST_BEAT];
    let of_scan = calls::chart_last_beat(&bytes(text), 4).figures[calls::LAST_BEAT];
    (of_main == of_scan).then_some(f64::from_bits(of_main))
}

/// The minimised text with `|` for byte 10.
fn minimised(text: &str) -> String {
    String::from_utf8_lossy(&main_call(text).text).replace('\n', "|")
}

fn notes(text: &str) -> Vec<String> {
    note_lines(&main_call(text).notes)
}

fn judged_tally(text: &str) -> calls::Tally {
    calls::process_rows_judgable(&bytes(text), 4).tally()
}

fn proved_one_to_four(checks: &mut Checks) {
    let p1 = main_call("");
    checks.same("P1 text", p1.text, vec![]);
    checks.same("P1 density", p1.densities, vec![0]);
    checks.same("P1 spacing", spacing(""), vec![1]);
    checks.same("P1 beats", p1.beats, vec![]);
    checks.same("P1 last", last(""), Some(0.0));

    let text = "0000|0000|0000|0000";
    let p2 = main_call(text);
    checks.same("P2 rows", minimised(text), String::from("0000|"));
    checks.same("P2 density", p2.densities, vec![0]);
    checks.same("P2 spacing", spacing(text), vec![0]);
    checks.same("P2 beats", p2.beats, vec![0.0]);

    let p3 = main_call(&"0000|".repeat(12));
    checks.same("P3 rows", p3.figures[calls::ROWS], 3);

    let text = "1000|0000|0100|0000";
    let p4 = main_call(text);
    checks.same("P4 text", minimised(text), String::from("1000|0100|"));
    checks.same("P4 density", p4.densities, vec![2]);
    checks.same("P4 spacing", spacing(text), vec![1]);
    checks.same("P4 beats", p4.beats, vec![0.0, 2.0]);
    checks.same("P4 last", last(text), Some(2.0));
}

fn proved_five_to_eight(checks: &mut Checks) {
    let text = "2000|3000";
    checks.same("P5 notes", notes(text), vec![String::from("0 0 1 1")]);
    checks.same("P5 last", last(text), Some(2.0));
    checks.same("P5 spacing", spacing(text), vec![0]);

    let text = "2000|m000|3000|0000";
    let tally = main_call(text).tally();
    checks.same("P6 notes", notes(text), vec![String::from("1 0 3 -")]);
    checks.same("P6 holds", tally[HOLDS], 1);
    checks.same("P6 mines", tally[MINES], 1);
    checks.same("P6 last", last(text), Some(2.0));

    let text = "2000|K000|3000|0000";
    checks.same("P7 notes", notes(text), vec![String::from("0 0 1 2")]);
    checks.same("P7 last", last(text), Some(1.0));

    let text = nest(9, 9);
    checks.same("P8 notes", notes(&text), vec![String::from("8 0 1 9")]);
    checks.same("P8 main", main_call(&text).tally()[HOLDS], 9);
    checks.same("P8 judged", judged_tally(&text)[HOLDS], 8);
}

fn proved_nine_to_eleven(checks: &mut Checks) {
    let text = "100\r|2000";
    let (main, kept) = (main_call(text).tally(), kept_call(text).tally());
    checks.same("P9 text", minimised(text), String::from("2000|"));
    checks.same("P9 arrows", (main[ARROWS], kept[ARROWS]), (0, 0));
    checks.same("P9 steps", (main[STEPS], kept[STEPS]), (1, 1));

    let text = "1000|,1111|0100";
    let p10 = main_call(text);
    checks.same("P10 measures", p10.figures[calls::MEASURES], 2);
    checks.same("P10 text", minimised(text), String::from("1000|,|0100|"));

    let tally = calls::minimize_chart_count_rows_notes(b"00001", 5).tally();
    checks.same("P11 arrows", tally[ARROWS], 1);
    checks.same("P11 left", tally[LEFT], 1);
}

/// Cells K of all minimised rows, and of judged rows alone; K5 is of flags.
fn keysounds(checks: &mut Checks) {
    for (text, count) in [
        ("K000|K0K0|000K|0000", 4),
        ("k000", 0),
        ("2000|1000|K000", 1),
        ("2000|K000|3000|0000", 1),
        ("2K00|K100|30K0|0K02", 4),
        ("", 0),
    ] {
        let tallies = [
            main_call(text).tally(),
            kept_call(text).tally(),
            judged_tally(text),
        ];
        checks.same(text, tallies.map(|tally| tally[KEYSOUNDS]), [count; 3]);
    }
    let none = main_call("K000|K0K0|000K|0000").tally();
    checks.same("nothing else", none[..KEYSOUNDS].iter().sum(), 0);
    // The text that is read back has other rows than the chart.
    let text = "/K00| K00|,K00|K0\rK|K000\r|;K00|K000";
    let counts = [main_call(text).tally(), judged_tally(text)].map(|tally| tally[KEYSOUNDS]);
    checks.same("rows of a chart and rows read back", counts, [1, 4]);
    let text = bytes("K000|K000");
    for (flags, count) in [([0, 1], 1), ([0, 0], 0), ([1, 1], 2)] {
        let tally = calls::process_timing_rows(&text, 4, &flags).tally();
        checks.same("K5", tally[KEYSOUNDS], count);
    }
    for lanes in [4, 5, 6, 8, 10] {
        let row = vec![b'K'; lanes + 2];
        let tally = calls::process_chart_kept(&row, lanes).tally();
        checks.same("a row of keysounds", tally[KEYSOUNDS], lanes as u64);
        let card = ChartFigures::of(&row, lanes).sheet(Form::Card);
        let keys = format!("\nkeys {lanes}\n");
        checks.same("keys on the card", card.contains(&keys), true);
    }
}

fn card_sheet(checks: &mut Checks) {
    let want =
        "measures 1|rows 2|arrows 2|steps 2|keys 0|notes 2|last 96|m 0 2 1|n 0 0 0 -|n 1 1 0 -|";
    let sheet = card(&bytes("1000|0000|0100|0000|;|"));
    checks.same("card", sheet, want.replace('|', "\n"));
    let want =
        "measures 2|rows 2|arrows 1|steps 1|keys 0|notes 1|last 192|m 0 1 1|m 1 0 0|n 0 3 2 1|";
    let sheet = card(&bytes("0004|,|0003|"));
    checks.same("card with a tail", sheet, want.replace('|', "\n"));
    let sheet = card(&[b'\n'; CARD_LEN + 1]);
    checks.same("card refuses", sheet, String::from("refused 1\n"));
    let accepted = card(&[b'\n'; CARD_LEN]).starts_with("measures 1\n");
    checks.same("card at its limit", accepted, true);
}

fn line_kinds(checks: &mut Checks) {
    for (text, want) in [
        ("100", ""),
        ("1000 x", "1000|"),
        (" 100", ""),
        (" \t1000", "1000|"),
        ("\x0b1000", "\x0b100|"),
        ("/1000|0100", "0100|"),
        ("0100|;|1000|,", "0100|"),
        (" ;1000", ""),
        (",|,|", ",|,|"),
        ("000/|000,|000;", "000/|000,|000;|"),
        ("100\r|1\r00|1000\r", "1000|"),
        (" 10\r0|\r1000", "1000|"),
    ] {
        checks.same(text, minimised(text), String::from(want));
    }
    let densities = main_call("1000|;|1000|,|1000").densities;
    checks.same("no density past `;`", densities, vec![1]);
    let read_back = leaves::parse_minimized_rows(4, b" 100\n/000\n;000\n100\r\n1000\r\n,\n0010");
    checks.same("rows read back", &read_back[..], b" 100/00010000010");
    let odd = main_call("0000|000x|0000|0000");
    checks.same("an odd byte keeps its row", odd.figures[calls::ROWS], 4);
    let timing = calls::minimize_timing_rows(b"0000\n0000\n,\n0004", 4);
    checks.same("timing rows", &timing.text[..], b"00000004");
    checks.same("timing beats", timing.beats, vec![0.0, 4.0]);
    checks.same("has heads", timing.figures[calls::HAS_HEADS], 1);
}

/// The corrected tally takes off every 3 from `holding`, though only paired heads were added.
fn corrected(checks: &mut Checks) {
    let text = "0200|3200|1300|0300";
    checks.same("corrected hands", main_call(text).tally()[HANDS], 0);
    checks.same("kept hands", kept_call(text).tally()[HANDS], 0);
    checks.same("judged hands", judged_tally(text)[HANDS], 1);
    let tally = main_call("2000|1000").tally();
    let want = (1, 0, 2);
    let got = (tally[ARROWS], tally[HOLDS], tally[STEPS]);
    checks.same("a phantom head counts as a step only", got, want);
    // No head: no correction, whatever the tails.
    let counted = leaves::count_line(4, b"30001000");
    checks.same("tails alone", (counted.holds, counted.ends), (0, 1));
    // Phantom depth is not reset by the 1 that meets it.
    let counted = leaves::count_line(4, b"20001000");
    checks.same("phantom met", counted.has_phantom, true);
    checks.same("phantom depths", counted.phantom_depths, vec![1, 0, 0, 0]);
    checks.same("object depths", counted.object_depths, vec![0; 4]);
    let tally = leaves::recalc_phantom_stats(4, b"20001000");
    checks.same("counted anew", (tally[ARROWS], tally[STEPS]), (1, 1));
    let tally = leaves::count_line_masked(4, b"22002200", &[1]);
    checks.same("masked", (tally[HOLDS], tally[JUMPS]), (3, 1));
}

/// So many heads in column 0, then so many tails.
fn nest(heads: usize, tails: usize) -> String {
    "2000|".repeat(heads) + &"3000|".repeat(tails)
}

fn deep_nests(checks: &mut Checks) {
    for (heads, tails, main, judged) in [
        (8, 8, 8, 8),
        (9, 9, 9, 8),
        (10, 10, 10, 8),
        (9, 8, 8, 8),
        (10, 3, 3, 3),
        (10, 12, 8, 8),
    ] {
        let text = nest(heads, tails);
        let what = format!("{heads} heads, {tails} tails");
        checks.same(&what, main_call(&text).tally()[HOLDS], main);
        checks.same(&what, kept_call(&text).tally()[HOLDS], main);
        checks.same(&what, main_call(&text).tally()[STEPS], heads as u64);
        checks.same(&what, judged_tally(&text)[HOLDS], judged);
        let note = format!("{} 0 1 {heads}", heads - 1);
        checks.same(&what, notes(&text), vec![note]);
    }
    let rows = nest(10, 10).replace('|', "");
    let pairs = leaves::track_holds_core(4, rows.as_bytes());
    let want: Vec<_> = (0..8).map(|i| (7 - i, 0, 10 + i)).collect();
    checks.same("pairs of ten heads", pairs, want);
    let pairs = leaves::track_holds_core(4, b"22222M2mK3333333");
    let want = vec![(1, 2, 2), (0, 3, 2), (1, 0, 3), (0, 2, 3)];
    checks.same("pairs past cells", pairs, want);
}

fn judged(checks: &mut Checks) {
    let text = bytes("2200|1110|3300|LlMm");
    let tally = |flags: &[u8]| calls::process_timing_rows(&text, 4, flags).tally();
    let all = calls::process_rows_judgable(&text, 4).tally();
    checks.same("a flag for each row", tally(&[255, 1, 2, 128]), all);
    checks.same("flags past the rows", tally(&[255, 1, 2, 128, 0]), all);
    checks.same("hands", all[HANDS], 1);
    checks.same("holds", all[HOLDS], 0);
    let unjudged = tally(&[0, 0, 0, 0]);
    checks.same("no flags", tally(&[]), unjudged);
    checks.same("all unjudged", unjudged[FAKES], 7);
    checks.same("no arrow", unjudged[ARROWS], 0);
    let text = b"2200\n3300\n1000";
    let fakes = calls::process_timing_rows(text, 4, &[0]).tally();
    checks.same("paired heads and past the flags fakes", fakes[FAKES], 3);
    checks.same("the row past the flags", fakes[ARROWS], 0);
    let rows = b"220033001000";
    checks.same(
        "rows alone",
        &leaves::process_timing_rows(4, rows, &[0])[..],
        &fakes[..KEYSOUNDS],
    );
    let through_tail = leaves::process_rows_judgable(4, b"22003310");
    checks.same("open through its tail's row", through_tail[HANDS], 1);
    let through_tail = leaves::process_timing_rows(4, b"22003310", &[0]);
    checks.same("unjudged heads open nothing", through_tail[HANDS], 0);
}
