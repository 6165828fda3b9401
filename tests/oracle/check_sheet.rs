//! The sheet: its forms on texts by hand, its refusals in their order, and what it leaves in a loan.

use crate::Checks;
use oracle::entry::{Lengths, Loan, MAX_LEN};
use oracle::sheet::{ChartFigures, Form};
use oracle::sheet_entry::{SHEET_BYTES, enter, refusal, sheet_len};

pub fn run(checks: &mut Checks) {
    forms(checks);
    tallies_apart(checks);
    columns(checks);
    refusals(checks);
    loans(checks);
}

fn sheet(text: &str, form: Form) -> String {
    ChartFigures::of(text.as_bytes(), 4).sheet(form)
}

/// A hold, a roll that ends in the second measure, a mine.
const CHART: &str = "1000\n0000\n0200\n0304\n,\n0003\n000M\n";

const CARD: &str = "\
measures 2
rows 6
arrows 3
steps 3
keys 0
notes 4
last 288
m 0 3 0
m 1 0 0
n 0 0 0 -
n 2 1 1 3
n 3 3 2 4
n 5 3 3 -
";

const PRINT: &str = "\
measures            2
rows                6
notes               4
last beat           6 + 0/48
in 48ths          288

                 main     kept   judged
total_arrows        3        3        3
left                1        1        1
down                1        1        1
up                  0        0        0
right               1        1        1
total_steps         3        3        3
jumps               0        0        0
hands               0        0        0
mines               1        1        1
holds               1        1        1
rolls               1        1        1
lifts               0        0        0
fakes               0        0        0
holding             0        0        0
keysounds           0        0        0
up_left             0        0        0
up_right            0        0        0

densities, 16 measures to a line; = equally spaced, - not
      0:  3-  0-

holds and rolls
          row   column     tail
hold        2        1        3
roll        3        3        4
";

fn forms(checks: &mut Checks) {
    checks.same("card", sheet(CHART, Form::Card), CARD.to_string());
    checks.same("print", sheet(CHART, Form::Print), PRINT.to_string());
    let tally = r#"{"total_arrows":3,"left":1,"down":1,"up":0,"right":1,"total_steps":3,"jumps":0,"hands":0,"mines":1,"holds":1,"rolls":1,"lifts":0,"fakes":0,"holding":0,"keysounds":0,"up_left":0,"up_right":0}"#;
    let json = format!(
        r#"{{"measures":2,"rows":6,"notes":4,"last_beat":{{"beats":6,"over_48":0,"in_48ths":288}},"main":{tally},"kept":{tally},"judged":{tally},"densities":[3,0],"equally_spaced":[false,false],"note_records":[[0,0,0,null],[2,1,1,3],[3,3,2,4],[5,3,3,null]]}}"#
    );
    checks.same("json", sheet(CHART, Form::Json), json);
}

/// The line of the print that begins so.
fn line(text: &str, begins: &str) -> Option<String> {
    let print = sheet(text, Form::Print);
    let mut lines = print.lines();
    lines
        .find(|line| line.starts_with(begins))
        .map(String::from)
}

/// P8 and P9, where the judged tally differs from the two others.
fn tallies_apart(checks: &mut Checks) {
    let nest = ["2000\n".repeat(9), "3000\n".repeat(9)].concat();
    let holds = "holds               9        9        8";
    checks.same("holds", line(&nest, "holds").as_deref(), Some(holds));
    let text = "100\r\n2000\n";
    let rows = "rows                1";
    checks.same("rows", line(text, "rows").as_deref(), Some(rows));
    let steps = "total_steps         1        1        0";
    checks.same("steps", line(text, "total_steps").as_deref(), Some(steps));
}

/// Sixteen measures to a line, numbers wider than their columns, a last beat between two beats, no hold and no roll.
fn columns(checks: &mut Checks) {
    let text = [
        "1000\n".repeat(1000),
        ",\n".repeat(32),
        "0000\n0100\n0000\n".into(),
    ]
    .concat();
    let print = sheet(&text, Form::Print);
    let lines: Vec<&str> = print.lines().skip(25).collect();
    let zeros = "  0=".repeat(15);
    let want = [
        "densities, 16 measures to a line; = equally spaced, - not",
        &format!("      0:1000={zeros}"),
        &format!("     16:  0={zeros}"),
        "     32:  1-",
        "",
        "holds and rolls",
        "          row   column     tail",
    ];
    checks.same("densities", lines, want.to_vec());
    let last = "last beat         129 + 16/48";
    checks.same("last beat", line(&text, "last").as_deref(), Some(last));
    let last = "in 48ths         6208";
    checks.same("in 48ths", line(&text, "in 48").as_deref(), Some(last));
}

/// Slices of the exact lengths for a text of `len` bytes, but for the one at `short`, which lacks an entry.
fn lent(len: usize, lanes: usize, short: usize) -> (Loan, usize) {
    let mut loan = Loan::marked(&Lengths::enough(len, lanes));
    let mut sheet = sheet_len(len);
    match short {
        0 => loan.text.truncate(loan.text.len() - 1),
        1 => loan.densities.truncate(loan.densities.len() - 1),
        2 => loan.spacing.truncate(loan.spacing.len() - 1),
        3 => loan.beats.truncate(loan.beats.len() - 1),
        4 => loan.work.truncate(loan.work.len() - 1),
        5 => loan.notes.truncate(loan.notes.len() - 1),
        6 => sheet -= 1,
        _ => {}
    }
    (loan, sheet)
}

fn refusals(checks: &mut Checks) {
    checks.same("the sheet of no text", sheet_len(0), 3042);
    checks.same("of the longest", sheet_len(MAX_LEN), 704_646_072);
    for (len, lanes) in [(9, 4), (11, 5), (13, 6), (17, 8), (21, 10)] {
        let what = format!("length {len}, {lanes} lanes");
        for (short, number) in [2, 3, 3, 4, 5, 6, 19, 0].into_iter().enumerate() {
            let (loan, sheet) = lent(len, lanes, short);
            checks.same(&what, refusal(len, lanes, 2, &loan, sheet), number);
            // Another form is refused last.
            let last = if number == 0 { 20 } else { number };
            checks.same(&what, refusal(len, lanes, 3, &loan, sheet), last);
        }
    }
    let none = Loan::default();
    checks.same("lent nothing", refusal(9, 4, 9, &none, 0), 2);
    checks.same("too long", refusal(MAX_LEN + 1, 4, 9, &none, 0), 1);
    for lanes in [0, 7, 9, usize::MAX] {
        let number = refusal(MAX_LEN + 1, lanes, 9, &none, 0);
        checks.same("another lane number", number, 12);
    }
}

/// A refusal writes nothing; an accepted call leaves zeros past each answer, and the sheet's bytes among the figures.
fn loans(checks: &mut Checks) {
    let data = b"2000\n3000\n";
    for (short, form) in [(6, 0), (7, 3), (2, 1)] {
        let (mut loan, sheet) = lent(data.len(), 4, short);
        let before = loan.clone();
        checks.same(
            "refused",
            enter(data, 4, form, &mut loan, sheet).is_err(),
            true,
        );
        checks.same("nothing is written", loan.same(&before), true);
    }
    let (mut loan, sheet) = lent(data.len(), 4, 7);
    let card =
        "measures 1\nrows 2\narrows 1\nsteps 1\nkeys 0\nnotes 1\nlast 96\nm 0 1 0\nn 0 0 1 1\n";
    let bytes = enter(data, 4, 0, &mut loan, sheet);
    checks.same("sheet", bytes, Ok(card.as_bytes().to_vec()));
    checks.same("text", &loan.text[..], b"2000\n3000\n\0");
    checks.same("densities", loan.densities, vec![1, 0, 0, 0, 0, 0]);
    checks.same("spacing", loan.spacing, vec![0; 6]);
    checks.same("beats", loan.beats, vec![0.0, 2.0]);
    checks.same("work", loan.work, vec![0; 2]);
    checks.same("past the notes", &loan.notes[10..], &[0; 70]);
    let bytes = loan.figures[SHEET_BYTES];
    checks.same("bytes of the sheet", bytes, card.len() as u64);
    let want = [10, 1, 2, 1, 2f64.to_bits(), 0, 96];
    checks.same("figures", &loan.figures[..7], &want);
    checks.same("arrows", loan.figures[8], 1);
}
