//! The list of dropped heads: texts by hand, and that on every text of the stored sample each head is listed or noted.

use crate::Checks;
use oracle::calls::{self, MEASURES, NOTES, ROWS, TEXT_BYTES, dropped_holds};
use oracle::dropped::{DroppedHead, heads_in, text_rows};
use oracle::vectors::{SEED, samples};

pub fn run(checks: &mut Checks) {
    by_hand(checks);
    letters(checks);
    columns(checks);
    figures(checks);
    heads_add_up(checks);
}

/// Row, column, the row that dropped it and the reason of each listed head; `|` stands for byte 10.
fn listed(text: &str, lanes: usize) -> Vec<(u32, u8, Option<u32>, u8)> {
    let answer = dropped_holds(text.replace('|', "\n").as_bytes(), lanes);
    let heads = heads_in(&answer.notes).into_iter();
    heads
        .map(|head| (head.row, head.column, head.by, head.reason))
        .collect()
}

fn by_hand(checks: &mut Checks) {
    for (text, want) in [
        ("2000|K000|x000|3000", vec![]),
        ("2000|4000|3000", vec![(0, 0, Some(1), 0)]),
        ("2000|1000|3000", vec![(0, 0, Some(1), 1)]),
        ("4000|m000|3000", vec![(0, 0, Some(1), 1)]),
        ("4000|,0000", vec![(0, 0, None, 2)]),
        ("1000|0000|,|2000|0000|1000|0000", vec![(1, 0, Some(2), 1)]),
        ("2002|0100|0001", vec![(0, 0, None, 2), (0, 3, Some(2), 1)]),
        // A 3 of another column closes nothing, and one without a head neither.
        ("0300|2000|0300", vec![(1, 0, None, 2)]),
        // Each head that drops one is open itself.
        (
            "2000|4000|2000|1000",
            vec![(0, 0, Some(1), 0), (1, 0, Some(2), 0), (2, 0, Some(3), 1)],
        ),
        // What follows the `;` is not read.
        ("2000|;|3000", vec![(0, 0, None, 2)]),
        ("", vec![]),
    ] {
        checks.same(text, listed(text, 4), want);
    }
}

/// What each byte does to an open head: 2 and 4 are another head, seven letters another cell, a 3 closes it.
fn letters(checks: &mut Checks) {
    for byte in 0..=127_u8 {
        let text = format!("02000|0{}000|03000", char::from(byte));
        let want = match byte {
            b'2' | b'4' => vec![(0, 1, Some(1), 0)],
            b'1' | b'M' | b'L' | b'F' | b'm' | b'l' | b'f' => vec![(0, 1, Some(1), 1)],
            _ => vec![],
        };
        // Byte 10 and `|`, which stands for it, part the row.
        if byte != b'\n' && byte != b'|' {
            checks.same(&format!("byte {byte}"), listed(&text, 5), want);
        }
    }
}

/// A row of heads is listed by its columns, and those beyond the lanes are not read.
fn columns(checks: &mut Checks) {
    for lanes in [4, 5, 6, 8, 10] {
        let want: Vec<_> = (0..lanes as u8)
            .map(|column| (0, column, None, 2))
            .collect();
        checks.same("columns", listed("222222222222", lanes), want);
    }
}

fn figures(checks: &mut Checks) {
    let answer = dropped_holds(b"2000\n0000\n1400\n0000\n,\n,\n0000\n", 4);
    let figures = answer.figures;
    let places = [TEXT_BYTES, MEASURES, ROWS, NOTES].map(|place| figures[place]);
    checks.same("figures", places, [19, 3, 3, 2]);
    checks.same("no other figure", figures[4..].iter().sum(), 0);
    checks.same("text", &answer.text[..], b"2000\n1400\n,\n,\n0000\n");
    let records = [
        [0, 0, 0, 0, 1, 0, 0, 0, 0, 1],
        [1, 0, 0, 0, 255, 255, 255, 255, 1, 2],
    ];
    checks.same("records", &answer.notes[..], records.as_flattened());
}

/// The list and the holds and rolls among the notes are as many as the heads, and each record stands at a head of the text, above
/// the next one.
fn heads_add_up(checks: &mut Checks) {
    let mut dropped = [0; 3];
    for (i, sample) in samples(SEED).iter().enumerate() {
        let (text, lanes) = (&sample.text[..], sample.lanes);
        let main = calls::minimize_chart_count_rows_notes(text, lanes);
        let answer = dropped_holds(text, lanes);
        let rows: Vec<&[u8]> = text_rows(&answer.text, lanes).collect();
        let heads = rows.concat().iter().filter(|cell| is_head(cell)).count();
        let tailed = |note: &&[u8; 10]| note[9] == 1 || note[9] == 2;
        let noted = main.notes.as_chunks().0.iter().filter(tailed).count();
        let listed = heads_in(&answer.notes);
        let what = format!("text {i}");
        checks.same(&what, &answer.text, &main.text);
        checks.same(&what, listed.len() + noted, heads);
        checks.same(&what, listed.is_sorted_by_key(place), true);
        let cell = |head: &DroppedHead| &rows[head.row as usize][usize::from(head.column)];
        let at_heads = listed.iter().all(|head| is_head(cell(head)));
        checks.same(&what, at_heads, true);
        for head in &listed {
            dropped[usize::from(head.reason)] += 1;
        }
    }
    checks.same("each reason", dropped.iter().all(|&count| count > 50), true);
}

fn is_head(cell: &u8) -> bool {
    matches!(cell, b'2' | b'4')
}

fn place(head: &DroppedHead) -> (u32, u8) {
    (head.row, head.column)
}
