//! Writing a chart: the specification's table of examples, texts that come back and those that cannot, the order of the refusals, and that on
//! every text of the stored sample reading, writing and reading again give the same notes.

use crate::Checks;
use crate::written_examples::examples;
use oracle::calls::{MEASURES, NO_TAIL, NOTES, ROWS, TEXT_BYTES, minimize_chart_count_rows_notes};
use oracle::entry::MAX_LEN;
use oracle::vectors::{SEED, samples};
use oracle::written::{Given, REFUSALS, record, row_counts};

pub fn run(checks: &mut Checks) {
    table(checks);
    letters(checks);
    by_hand(checks);
    lengths(checks);
    figures(checks);
    back_and_forth(checks);
}

/// What the reference answers, 2 included.
fn answer(given: &Given, room: usize) -> Result<Vec<u8>, u32> {
    let (mut text, mut figures) = (vec![7; room], [7; 32]);
    match given.enter(&mut text, &mut figures) {
        0 => Ok(text[..figures[TEXT_BYTES] as usize].to_vec()),
        number => {
            assert!(text == vec![7; room] && figures == [7; 32], "untouched");
            Err(number)
        }
    }
}

fn table(checks: &mut Checks) {
    let examples = examples();
    checks.same("38 examples or more", examples.len() >= 38, true);
    for (i, example) in examples.iter().enumerate() {
        let got = answer(&example.given, example.room);
        checks.same(&format!("example {i}"), &got, &example.answer);
    }
    for number in [0].into_iter().chain(REFUSALS) {
        let is_it = |answer: &Result<Vec<u8>, u32>| answer.as_ref().err().copied().unwrap_or(0);
        let some = examples.iter().any(|e| is_it(&e.answer) == number);
        checks.same(&format!("an example of {number}"), some, true);
    }
}

/// Each byte as a cell that is read and written: seven letters and the tail that closes a head come back, a small letter as its capital, all else as a `0`.
fn letters(checks: &mut Checks) {
    for byte in (0..=255_u8).filter(|&byte| !b"\n\r\t\x0c ,;/".contains(&byte)) {
        let given = Given::of_text(&[b'0', byte, b'0', b'0'], 4);
        let want = match byte {
            b'1' | b'M' | b'L' | b'F' => byte,
            b'm' | b'l' | b'f' => byte.to_ascii_uppercase(),
            _ => b'0',
        };
        let want = [b'0', want, b'0', b'0', b'\n'];
        checks.same(&format!("byte {byte}"), given.chart(), Ok(want.to_vec()));
    }
    for head in [b'2', b'4'] {
        let text = [head, b'0', b'0', b'0', b'\n', b'3', b'0', b'0', b'0', b'\n'];
        let given = Given::of_text(&text, 4);
        checks.same("a head and its tail", given.chart(), Ok(text.to_vec()));
    }
}

fn by_hand(checks: &mut Checks) {
    let tap = |row, column| record([row, NO_TAIL, column, 0]);
    let hold = |row, tail, column| record([row, tail, column, 1]);
    for (what, records, counts, want) in [
        ("nothing at all", vec![], vec![], Err(15)),
        ("a note and no count", vec![tap(0, 0)], vec![], Err(15)),
        ("a count of 0", vec![], vec![0], Ok("")),
        ("two of 0", vec![], vec![0, 0], Ok(",|")),
        ("rows in pairs", vec![], vec![2], Err(15)),
        (
            "a note on the second of two rows",
            vec![tap(1, 3)],
            vec![2],
            Ok("0000|0001|"),
        ),
        ("on the third of four", vec![tap(2, 3)], vec![4], Err(15)),
        (
            "on the second of the second measure",
            vec![tap(2, 0)],
            vec![1, 2],
            Ok("0000|,|0000|1000|"),
        ),
        // The second and fourth row are numbered through all measures.
        (
            "even rows of the chart, odd ones of the measure",
            vec![tap(2, 0)],
            vec![1, 2, 2],
            Err(15),
        ),
        (
            "a hold over two measures",
            vec![hold(0, 1, 2)],
            vec![1, 1],
            Ok("0020|,|0030|"),
        ),
        (
            "tails alone keep a row",
            vec![hold(0, 1, 2)],
            vec![2],
            Ok("0020|0030|"),
        ),
        (
            "a hold right after another",
            vec![hold(0, 1, 0), hold(2, 3, 0)],
            vec![4],
            Ok("2000|3000|2000|3000|"),
        ),
        (
            "two that cross",
            vec![hold(0, 2, 0), hold(1, 3, 0)],
            vec![4],
            Err(14),
        ),
        (
            "one tail for two",
            vec![hold(0, 3, 0), hold(1, 3, 0)],
            vec![4],
            Err(14),
        ),
        (
            "side by side",
            vec![hold(0, 3, 0), hold(1, 3, 1)],
            vec![4],
            Ok("2000|0200|0000|3300|"),
        ),
        (
            "a tail past the rows",
            vec![hold(0, 4, 0)],
            vec![4],
            Err(15),
        ),
        (
            "a later record that breaks a limit",
            vec![hold(0, 2, 0), tap(1, 0), record([2, 0, 0, 0])],
            vec![3],
            Err(8),
        ),
        ("a column too far", vec![tap(0, 4)], vec![1], Err(13)),
        ("by column", vec![tap(0, 1), tap(0, 0)], vec![1], Err(13)),
        ("by row", vec![tap(1, 0), tap(0, 1)], vec![2], Err(13)),
    ] {
        let given = Given {
            records: records.concat(),
            lanes: 4,
            counts,
        };
        let want = want.map(|text: &str| text.replace('|', "\n").into_bytes());
        checks.same(what, given.chart(), want);
    }
}

/// The limit of the text's length, of the true sum; and the slice that is just long enough.
fn lengths(checks: &mut Checks) {
    let given = |lanes, counts: &[u32]| Given {
        records: Vec::new(),
        lanes,
        counts: counts.to_vec(),
    };
    for (lanes, counts, want) in [
        (4, vec![3_355_443], 0),
        (4, vec![3_355_444], 1),
        (4, vec![858_993_460; 5], 1),
        (4, vec![u32::MAX; 9], 1),
        (10, vec![u32::MAX, 1], 1),
        (5, vec![0; 8_388_608], 0),
        (5, vec![0; 8_388_609], 1),
        (9, vec![u32::MAX], 12),
    ] {
        let number = given(lanes, &counts).chart().err().unwrap_or(0);
        let what = format!("{} counts of {} at {lanes} lanes", counts.len(), counts[0]);
        checks.same(&what, number, want);
    }
    let most = given(4, &[3_355_443]).text_len();
    checks.same("the longest text", most, MAX_LEN as u128);
    let one = given(10, &[1, 0]);
    checks.same("exact", answer(&one, 13), Ok(b"0000000000\n,\n".to_vec()));
    checks.same("one byte less", answer(&one, 12), Err(2));
}

fn figures(checks: &mut Checks) {
    let given = Given::of_text(b"2000\n0000\n3400\n0000\n,\n,\n00L0\n0300\n", 4);
    let mut figures = [7; 32];
    let number = given.enter(&mut [7; 40], &mut figures);
    let places = [TEXT_BYTES, MEASURES, ROWS, NOTES].map(|place| figures[place]);
    checks.same("figures", (number, places), (0, [24, 3, 4, 3]));
    checks.same("no other figure", figures[4..].iter().sum(), 0);
}

/// The notes and row counts of a text pass 13 and 14, and what is written for them is read as them.
fn back_and_forth(checks: &mut Checks) {
    let (mut written, mut refused) = (0, 0);
    for (i, sample) in samples(SEED).iter().enumerate() {
        let given = Given::of_text(&sample.text, sample.lanes);
        let what = format!("text {i}");
        let stored = Given::writable(&sample.text, sample.lanes);
        checks.same(&what, stored.chart().err(), None);
        match given.chart() {
            Ok(text) => {
                let again = minimize_chart_count_rows_notes(&text, sample.lanes);
                checks.same(&what, &again.text, &text);
                checks.same(&what, &again.notes, &given.records);
                let counts = row_counts(&text, sample.lanes);
                checks.same(&what, &counts, &given.counts);
                written += 1;
            }
            Err(number) => {
                checks.same(&what, number, 15);
                refused += 1;
            }
        }
    }
    checks.same("both", (written > 100, refused > 10), (true, true));
}
