//! The stored sample of the oracle's answers: its texts and how they are written.
//! The layout is described in `tests/vectors/README.md`.

use crate::asked::read_back_text;
use crate::calls::{Answer, CALLS, answer, minimize_chart_count_rows_notes};
use crate::deciding::{Deciding, TEXTS};
use crate::entry::read_notes;
use crate::leaves::parse_minimized_rows;
use crate::presses::{Pressed, trace_of};
use crate::traces::{WAYS, presses_on};
use crate::written::Given;
use std::panic::{self, AssertUnwindSafe};

/// The seed of the stored sample.
pub const SEED: u64 = 4810;

/// The first bytes of the file.
pub const MARK: &[u8; 8] = b"ANSWERS1";

/// One question: a text, a lane count, and flags.
#[derive(Clone, Debug, PartialEq, Eq)]
pub struct Sample {
    pub lanes: usize,
    pub text: Vec<u8>,
    pub flags: Vec<u8>,
}

const LANE_COUNTS: [usize; 5] = [4, 5, 6, 8, 10];

const LETTERS: &[u8] = b"01234MLFKmlf5";
const BLANKS: [u8; 5] = [9, 10, 12, 13, 32];

// Writing

/// The whole file for a seed.
#[must_use]
pub fn file(seed: u64) -> Vec<u8> {
    let samples = samples(seed);
    let mut out = head(MARK, seed, samples.len());
    for sample in &samples {
        out.extend(record(sample));
    }
    out
}

/// What a sample begins with.
pub(crate) fn head(mark: &[u8; 8], seed: u64, records: usize) -> Vec<u8> {
    let mut head = mark.to_vec();
    head.extend(seed.to_le_bytes());
    head.extend((records as u64).to_le_bytes());
    head
}

/// A record with its length before it.
pub(crate) fn sized(rest: &[u8]) -> Vec<u8> {
    let total = (rest.len() + 4) as u32;
    [&total.to_le_bytes()[..], rest].concat()
}

/// One record of the file.
#[must_use]
pub fn record(sample: &Sample) -> Vec<u8> {
    let mut rest = Vec::new();
    push_length(&mut rest, &sample.text);
    push_length(&mut rest, &sample.flags);
    rest.extend((sample.lanes as u64).to_le_bytes());
    rest.extend(&sample.text);
    rest.extend(&sample.flags);
    for call in CALLS {
        let answer = answer(call, &sample.text, sample.lanes, &sample.flags);
        push_answer(&mut rest, &answer);
    }
    push_answer(&mut rest, &written(&sample.text, sample.lanes));
    push_answer(&mut rest, &pressed(&sample.text, sample.lanes));
    sized(&rest)
}

/// What is written for the notes and row counts of a text, or of the chart that they make, as an answer: the chart is its text, the counts stand as
/// its measure contents and the records as its notes.
#[must_use]
pub fn written(text: &[u8], lanes: usize) -> Answer {
    let given = Given::writable(text, lanes);
    let mut answer = Answer {
        text: vec![0; given.text_len() as usize],
        densities: given.counts.clone(),
        notes: given.records.clone(),
        ..Answer::default()
    };
    given.enter(&mut answer.text, &mut answer.figures);
    answer
}

/// What becomes of presses on the notes of a text, by its length in one of the ways or each note in its own, as an answer: the trace is its text, the
/// records are its notes, and the 23 places stand at the front of its figures.
#[must_use]
pub fn pressed(text: &[u8], lanes: usize) -> Answer {
    let records = minimize_chart_count_rows_notes(text, lanes).notes;
    let way = WAYS.get(text.len() % (WAYS.len() + 1)).copied();
    let mut numbers = Numbers(text.len() as u64);
    let notes = read_notes(&records).expect("notes that are written");
    let presses = presses_on(&notes, way, |bound| numbers.below(bound));
    let pressed = Pressed {
        records,
        trace: trace_of(&presses),
    };
    let mut answer = Answer::default();
    pressed.enter(answer.figures.first_chunk_mut().expect("the places"));
    answer.text = pressed.trace;
    answer.notes = pressed.records;
    answer
}

fn push_answer(out: &mut Vec<u8>, answer: &Answer) {
    for figure in answer.figures {
        out.extend(figure.to_le_bytes());
    }
    let slices = answer_slices(answer);
    for slice in &slices {
        push_length(out, slice);
    }
    out.extend(slices.concat());
}

/// The contents of the text, measure, beat and note slice as bytes, low byte first.
#[must_use]
pub fn answer_slices(answer: &Answer) -> [Vec<u8>; 4] {
    // No call answers both densities and spacing.
    let measure = match answer.spacing.as_slice() {
        [] => answer
            .densities
            .iter()
            .flat_map(|d| d.to_le_bytes())
            .collect(),
        spacing => spacing.to_vec(),
    };
    let beat = answer.beats.iter().flat_map(|b| b.to_le_bytes()).collect();
    [answer.text.clone(), measure, beat, answer.notes.clone()]
}

fn push_length(out: &mut Vec<u8>, bytes: &[u8]) {
    out.extend((bytes.len() as u32).to_le_bytes());
}

/// The numbers of the texts of a file whose answers are not those that are stored.
#[must_use]
pub fn differing(file: &[u8]) -> Vec<usize> {
    numbers_of_differing(file, |_, stored| record(&question(stored)))
}

/// The numbers of the records that are written otherwise now, by their number and what is stored.
pub(crate) fn numbers_of_differing(
    file: &[u8],
    written: impl Fn(usize, &[u8]) -> Vec<u8>,
) -> Vec<usize> {
    let mut rest = &file[24..];
    let mut numbers = Vec::new();
    for index in 0.. {
        let Some(head) = rest.first_chunk::<4>() else {
            break;
        };
        let (stored, after) = rest.split_at(u32::from_le_bytes(*head) as usize);
        // What stops in between is another answer: the plain references ask of the Rust's what they need.
        let answer = panic::catch_unwind(AssertUnwindSafe(|| written(index, stored)));
        if answer.map_or(true, |written| written != stored) {
            numbers.push(index);
        }
        rest = after;
    }
    numbers
}

/// The question of a stored record.
fn question(record: &[u8]) -> Sample {
    let number = |at: usize, bytes: usize| {
        let low_first = record[at..at + bytes].iter().rev();
        low_first.fold(0, |number, &byte| number << 8 | usize::from(byte))
    };
    let (text, flags) = (number(4, 4), number(8, 4));
    Sample {
        lanes: number(12, 8),
        text: record[20..20 + text].to_vec(),
        flags: record[20 + text..20 + text + flags].to_vec(),
    }
}

// The samples

#[must_use]
pub fn samples(seed: u64) -> Vec<Sample> {
    let mut numbers = Numbers(seed);
    let mut texts = Vec::new();
    for lanes in LANE_COUNTS {
        let all = [limits(lanes), letters(lanes), nests(lanes), strides(lanes)].concat();
        texts.extend(all.into_iter().map(|text| (lanes, text)));
    }
    texts.extend(letter_texts().into_iter().map(|text| (4, text)));
    for lanes in LANE_COUNTS {
        texts.push((lanes, long_rows()));
        texts.push((lanes, mixed_text(&mut numbers, lanes, 12)));
    }
    for i in 0..90 {
        let lanes = LANE_COUNTS[i % LANE_COUNTS.len()];
        let lines = numbers.below(1800 / (lanes + 1)) + 1;
        texts.push((lanes, mixed_text(&mut numbers, lanes, lines)));
    }
    let mut samples = with_flags(&mut numbers, texts);
    samples.extend(TEXTS.iter().map(deciding));
    samples
}

/// Where a text states no flags each of its rows is judged, so that it decides its rule in both judged tallies.
fn deciding(text: &Deciding) -> Sample {
    let (lanes, bytes) = (text.lanes, text.bytes());
    let flags = match text.flags {
        [] => vec![1; row_count(lanes, &bytes)],
        flags => flags.to_vec(),
    };
    Sample {
        lanes,
        text: bytes,
        flags,
    }
}

/// How many rows are read back.
fn row_count(lanes: usize, text: &[u8]) -> usize {
    parse_minimized_rows(lanes, &read_back_text(text, lanes)).len() / lanes
}

/// Flags by turns: none, too few, as many as rows, too many, as many and all 0.
fn with_flags(numbers: &mut Numbers, texts: Vec<(usize, Vec<u8>)>) -> Vec<Sample> {
    let mut samples = Vec::new();
    for (i, (lanes, text)) in texts.into_iter().enumerate() {
        let rows = row_count(lanes, &text);
        let count = [0, rows / 2, rows, rows + 3, rows][i % 5];
        let values: &[u8] = if i % 5 == 4 { &[0] } else { &[0, 0, 1, 255] };
        let flags = (0..count).map(|_| *numbers.pick(values)).collect();
        samples.push(Sample { lanes, text, flags });
    }
    samples
}

/// A row of L bytes that begins with these cells and goes on with `0`.
fn row(lanes: usize, cells: &[u8]) -> Vec<u8> {
    let mut row = cells.to_vec();
    row.resize(lanes, b'0');
    row
}

/// Rows of the given first cells, each with byte 10 after it.
fn rows(lanes: usize, cells: &[&[u8]]) -> Vec<u8> {
    let lines = cells.iter().map(|cells| row(lanes, cells));
    lines
        .flat_map(|line| [line, vec![b'\n']].concat())
        .collect()
}

/// Texts at the limits of the line reader and of the line kinds.
fn limits(lanes: usize) -> Vec<Vec<u8>> {
    let (tap, head) = (&row(lanes, b"1")[..], &row(lanes, b"02")[..]);
    let short = &tap[..lanes - 1];
    let mut texts = vec![Vec::new()];
    texts.extend(b"\n,;/1 \r\0".map(|byte| vec![byte]));
    for parts in [
        // With and without a newline at the end; L bytes and L - 1 bytes.
        &[tap][..],
        &[tap, b"\n"],
        &[short],
        &[short, b"\n", tap],
        &[tap, b"\n,"],
        // Byte 13 among the first L bytes, and before byte 10.
        &[short, b"\r\n", &row(lanes, b"2")],
        &[tap, b"\r\n", head, b"\r\n,\r\n", tap, b"\r\n;\r\n"],
        &[b"1\r2", &row(lanes, b"")],
        // More than L bytes; a blank that makes up the L bytes; bytes that are no blanks.
        &[tap, b" x\n", head, b"0"],
        &[b" ", short, b"\n\t", head],
        &[b"\x0B", tap, b"\n\0", tap, b"\n\xA0,\n\x85", tap],
        // Lines passed over, measures that end early, text after `,` and `;`.
        &[tap, b"\n/", tap, b"\n //x\n", tap, b"\n"],
        &[
            tap,
            b"\n,",
            tap,
            b"\n",
            tap,
            b" , x;\n , 1111111111\n",
            head,
        ],
        &[tap, b"\n;\n", tap, b"\n,\n", tap, b"\n"],
        &[tap, b"\n ;1\n", head],
        &[b";", tap, b"\n", tap],
        &[b",\n,\n,\n"],
        &[b"\n\n,\n\n;\n,\n"],
        &[tap, b"\n,\n,\n", tap, b"\n", tap, b"\n,\n"],
        &[b"1,;/,;/,;/0\n", tap],
    ] {
        texts.push(parts.concat());
    }
    for blank in BLANKS {
        let b = &[blank][..];
        texts.push(
            [
                b, tap, b"\n", b, b",\n", b, head, b"\n", b, b"/\n", b, b";\n", tap,
            ]
            .concat(),
        );
    }
    texts.push(line_lengths(lanes));
    texts
}

/// Rows with ever longer rests, so that byte 10 falls on each place of a word of eight.
fn line_lengths(lanes: usize) -> Vec<u8> {
    let lines = (0..20).map(|rest| [row(lanes, b"1"), vec![b'x'; rest], vec![b'\n']].concat());
    lines.flatten().collect()
}

/// Every byte as a cell, in two halves, and every cell letter inside a hold.
fn letters(lanes: usize) -> Vec<Vec<u8>> {
    let cell_at = |byte: u8| {
        let mut line = row(lanes, b"");
        line[usize::from(byte) % lanes] = byte;
        line.push(b'\n');
        line
    };
    let holds = LETTERS
        .iter()
        .map(|&letter| rows(lanes, &[b"2", &[letter], b"3", b"01"]));
    vec![
        (0..=127).flat_map(cell_at).collect(),
        (128..=255).flat_map(cell_at).collect(),
        holds.collect::<Vec<_>>().join(&b",\n"[..]),
    ]
}

/// Each cell letter alone inside a hold, one text a letter.
fn letter_texts() -> Vec<Vec<u8>> {
    let text = |&letter: &u8| rows(4, &[b"2", &[letter, b'1'], b"3", b""]);
    LETTERS.iter().map(text).collect()
}

/// Eight, nine and ten heads in a column: closed, closed too often, and broken off by a cell.
fn nests(lanes: usize) -> Vec<Vec<u8>> {
    let (wide_head, wide_tail) = (vec![b'2'; lanes], vec![b'3'; lanes]);
    let mut texts = Vec::new();
    for heads in [8, 9, 10] {
        let nest = |head: &[u8], middle: &[&[u8]], tail: &[u8], tails: usize| {
            let all = [&vec![head; heads][..], middle, &vec![tail; tails]].concat();
            rows(lanes, &all)
        };
        texts.push(nest(b"2", &[], b"3", heads));
        texts.push(nest(b"04", &[b"2", b"1"], b"33", heads + 2));
        texts.push(nest(b"2", &[b"0M", b"m", b"K", b"L3"], b"3", heads - 1));
        texts.push(nest(&wide_head, &[b"11"], &wide_tail, 4));
    }
    // Heads met and closed out of turn: the corrected tally takes off every tail.
    texts.push(rows(lanes, &[b"02", b"32", b"13", b"03"]));
    texts
}

/// Odd and even row counts, large strides, and odd bytes off the stride.
fn strides(lanes: usize) -> Vec<Vec<u8>> {
    let zeros = |count: usize| rows(lanes, &vec![&b""[..]; count]);
    let with = |count: usize, places: &[usize], cells: &[u8]| {
        let cells_at = |r: usize| if places.contains(&r) { cells } else { &b""[..] };
        rows(lanes, &(0..count).map(cells_at).collect::<Vec<_>>())
    };
    let counts = [1, 2, 3, 4, 5, 6, 7, 8, 12, 16, 24];
    vec![
        counts.map(zeros).join(&b",\n"[..]),
        with(64, &[32], b"01"),
        with(192, &[0, 64, 128], b"1"),
        with(96, &[24, 72], b"x"),
        // The last beat is 4 and a half 48ths, a tie that goes to 4.
        with(128, &[0, 3], b"1"),
        [with(3, &[1], b"2"), b",\n".to_vec(), with(5, &[4], b"3")].concat(),
        [
            with(48, &[0, 32], b"4"),
            b",\n".to_vec(),
            with(7, &[6], b"3"),
        ]
        .concat(),
    ]
}

/// Lines longer than ten bytes, which each lane count reads as other rows.
fn long_rows() -> Vec<u8> {
    b"10020000031\n00300100200\n,\n0000000001M\n00000000000\n2141200M0LF\n3333300K0f0\n;".to_vec()
}

/// Cells to draw from, from tame to wild.
const CELLS: [&[u8]; 5] = [
    b"00000001",
    b"000001234",
    b"0001234MLFKmlf",
    b"000001122334MLFKmlf59x:? \t\r\x0B\0\xFF",
    b"00122333,;/ \r",
];

fn mixed_text(numbers: &mut Numbers, lanes: usize, lines: usize) -> Vec<u8> {
    let cells = *numbers.pick(&CELLS);
    let zero_share = *numbers.pick(&[0, 3, 7]);
    let line_end = *numbers.pick(&[&b"\n"[..], b"\n", b"\n", b"\r\n"]);
    let mut text = Vec::new();
    for i in 0..lines {
        if i > 0 {
            text.extend(line_end);
        }
        if numbers.below(10) < zero_share {
            text.extend(row(lanes, b""));
        } else {
            text.extend(mixed_line(numbers, lanes, cells));
        }
    }
    if numbers.below(2) == 0 {
        text.extend(line_end);
    }
    text
}

fn mixed_line(numbers: &mut Numbers, lanes: usize, cells: &[u8]) -> Vec<u8> {
    let drawn = |numbers: &mut Numbers, count: usize| -> Vec<u8> {
        (0..count).map(|_| *numbers.pick(cells)).collect()
    };
    match numbers.below(200) {
        0 => b";".to_vec(),
        1..=24 => b",".to_vec(),
        25..=27 => [b", ".to_vec(), drawn(numbers, lanes)].concat(),
        28..=30 => [b"//".to_vec(), drawn(numbers, lanes)].concat(),
        31..=33 => Vec::new(),
        34..=39 => drawn(numbers, lanes - 1),
        40..=45 => drawn(numbers, lanes + 1),
        46..=51 => [vec![*numbers.pick(&BLANKS)], drawn(numbers, lanes)].concat(),
        _ => drawn(numbers, lanes),
    }
}

/// A small generator of numbers (splitmix64), the same for a seed everywhere.
pub(crate) struct Numbers(pub(crate) u64);

impl Numbers {
    fn next(&mut self) -> u64 {
        self.0 = self.0.wrapping_add(0x9E37_79B9_7F4A_7C15);
        let mut z = self.0;
        z = (z ^ (z >> 30)).wrapping_mul(0xBF58_476D_1CE4_E5B9);
        z = (z ^ (z >> 27)).wrapping_mul(0x94D0_49BB_1331_11EB);
        z ^ (z >> 31)
    }

    pub(crate) fn below(&mut self, bound: usize) -> usize {
        (self.next() % bound as u64) as usize
    }

    pub(crate) fn pick<'a, T>(&mut self, from: &'a [T]) -> &'a T {
        &from[self.below(from.len())]
    }
}
