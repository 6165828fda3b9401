//! Shows that the replays are not blind: in copies of the stored samples one compared part is changed, and the program
//! that compares it must say which call differs. Arguments: the sample of texts, `replay_charts`, `replay_figures`, the
//! sample of files, `replay_files`.

mod changed_files;
mod reader;

use reader::Reader;
use std::env;
use std::fs;
use std::io::Write;
use std::process::{Command, ExitCode, Stdio};

const HEAD: usize = 24;
const FIGURES: usize = 256;
const CALLS: usize = 11;

/// The calls that `replay_charts` compares; `replay_figures` has the others.
const CHART_CALLS: usize = 2;

/// Bytes of an element in the text, measure, beat and note contents; spacing has one byte a measure.
const ELEMENTS: [usize; 4] = [1, 4, 4, 10];
const SPACING: usize = 4;

/// The last answer, and the bytes of a press and of a note.
const PRESSED: usize = CALLS - 1;
const PRESS_BYTES: usize = 5;
const NOTE_BYTES: usize = 10;

struct Replays {
    charts: String,
    figures: String,
    passed: usize,
    failed: usize,
}

impl Replays {
    /// What the program that compares this call must say of a sample.
    fn expect(&mut self, what: &str, call: usize, sample: &[u8], want: &str) {
        let program = if call < CHART_CALLS {
            &self.charts
        } else {
            &self.figures
        };
        let said = said(program, sample);
        self.same(&format!("{what} of call {call}"), &said, want);
    }

    /// Compares what a program said with what it must say.
    fn same(&mut self, what: &str, said: &str, want: &str) {
        if said == want {
            self.passed += 1;
        } else {
            self.failed += 1;
            println!("failed: {what}: said {said:?}, should be {want:?}");
        }
    }
}

/// What a program says of a sample.
fn said(program: &str, sample: &[u8]) -> String {
    let mut child = Command::new(program)
        .stdin(Stdio::piped())
        .stdout(Stdio::piped())
        .spawn()
        .unwrap_or_else(|error| panic!("cannot run `{program}`: {error}"));
    // A program that has seen a difference reads no further.
    let _ = child.stdin.take().expect("a pipe").write_all(sample);
    let out = child.wait_with_output().expect("its output");
    String::from_utf8_lossy(&out.stdout).into_owned()
}

/// Where an answer of a record begins, and the places of its four contents.
struct Answer {
    at: usize,
    contents: [(usize, usize); 4],
}

fn answers(record: &[u8]) -> Vec<Answer> {
    let mut reader = Reader(record);
    reader.length();
    let (text, flags) = (reader.length(), reader.length());
    let mut at = 20 + text + flags;
    let mut answers = Vec::new();
    for _ in 0..CALLS {
        let mut lengths = Reader(&record[at + FIGURES..]);
        let mut place = at + FIGURES + 16;
        let contents = std::array::from_fn(|_| {
            let start = place;
            place += lengths.length();
            (start, place)
        });
        answers.push(Answer { at, contents });
        at = place;
    }
    assert_eq!(at, record.len());
    answers
}

/// A sample of these records.
fn sample(head: &[u8], records: &[&[u8]]) -> Vec<u8> {
    let mut sample = head[..16].to_vec();
    sample.extend((records.len() as u64).to_le_bytes());
    sample.extend(records.concat());
    sample
}

fn records(file: &[u8]) -> Vec<&[u8]> {
    let mut rest = &file[HEAD..];
    let mut records = Vec::new();
    while !rest.is_empty() {
        let (record, after) = rest.split_at(Reader(rest).length());
        records.push(record);
        rest = after;
    }
    records
}

/// Every figure and the ends of every contents of one record, changed one at a time.
fn change_each(replays: &mut Replays, head: &[u8], record: &[u8]) {
    for (call, answer) in answers(record).iter().enumerate() {
        let want = format!("text 0: call {call} differs\n");
        for (what, changed) in changes(record, answer, call) {
            replays.expect(&what, call, &sample(head, &[&changed]), &want);
        }
    }
}

/// The changed records of one call: what was changed, and the record.
fn changes(record: &[u8], answer: &Answer, call: usize) -> Vec<(String, Vec<u8>)> {
    let mut changes = Vec::new();
    let mut change = |what: String, at: usize| {
        let mut changed = record.to_vec();
        changed[at] ^= 1;
        changes.push((what, changed));
    };
    for place in 0..FIGURES / 8 {
        let at = answer.at + 8 * place;
        change(format!("low byte of figure {place}"), at);
        change(format!("high byte of figure {place}"), at + 7);
    }
    let filled = |&(_, &(start, end)): &(usize, &(usize, usize))| start < end;
    for (kind, &(start, end)) in answer.contents.iter().enumerate().filter(filled) {
        change(format!("first byte of contents {kind}"), start);
        change(format!("last byte of contents {kind}"), end - 1);
    }
    for (kind, _) in answer.contents.iter().enumerate().filter(filled) {
        let what = format!("contents {kind} without the last element");
        changes.push((what, without_last(record, answer, call, kind)));
    }
    changes
}

/// Whether every call that answers contents has some, none of them ends with a 0, and each note has a press, and none beside: so a changed note or press
/// tells.
fn shows_all(record: &[u8]) -> bool {
    let answers = answers(record);
    let [(trace_start, trace_end), .., (notes_start, notes_end)] = answers[PRESSED].contents;
    let mut places = Reader(&record[answers[PRESSED].at..]);
    let [hits, strays, misses] = std::array::from_fn(|_| places.number(8) as usize);
    let are_hit = [hits * PRESS_BYTES, hits * NOTE_BYTES, 0, 0];
    let given = [
        trace_end - trace_start,
        notes_end - notes_start,
        strays,
        misses,
    ];
    let mut filled = Vec::new();
    for (call, answer) in answers.iter().enumerate() {
        for (kind, &(start, end)) in answer.contents.iter().enumerate() {
            let last = &record[start..end];
            let last = &last[last.len().saturating_sub(element(call, kind))..];
            filled.push(last.iter().any(|&byte| byte != 0));
        }
    }
    // Main: all four; kept: text and measures; timing rows: text and beats; densities; spacing; dropped heads: text and list; what is written: the
    // text, and the counts and records that are asked; presses: the trace and the records.
    let filled = filled.into_iter().filter(|&is| is).count();
    filled == 4 + 2 + 2 + 1 + 1 + 2 + 3 + 2 && given == are_hit
}

fn element(call: usize, kind: usize) -> usize {
    if call == SPACING { 1 } else { ELEMENTS[kind] }
}

/// A record in which one of the contents lacks its last element, so that the slice has one more than zeros there.
fn without_last(record: &[u8], answer: &Answer, call: usize, kind: usize) -> Vec<u8> {
    let (start, end) = answer.contents[kind];
    let element = element(call, kind);
    let length = ((end - start - element) as u32).to_le_bytes();
    let total = ((record.len() - element) as u32).to_le_bytes();
    let at = answer.at + FIGURES + 4 * kind;
    let mut short = record.to_vec();
    short[at..at + 4].copy_from_slice(&length);
    short[..4].copy_from_slice(&total);
    short.drain(end - element..end);
    short
}

/// The whole sample: as it is, changed in its last record, and at its ends.
fn change_ends(replays: &mut Replays, file: &[u8], records: &[&[u8]]) {
    let last = records.len() - 1;
    let last_answers = answers(records[last]);
    let start = file.len() - records[last].len();
    for (call, answers) in [(0, CHART_CALLS), (CALLS - 1, CALLS - CHART_CALLS)] {
        let agree =
            |texts: usize| format!("{} answers agree, for {texts} texts\n", texts * answers);
        replays.expect("the sample as it is", call, file, &agree(records.len()));
        let mut changed = file.to_vec();
        changed[start + last_answers[call].at] ^= 1;
        let want = format!("text {last}: call {call} differs\n");
        replays.expect("a figure of the last text", call, &changed, &want);
        let more = [file, &[0]].concat();
        let want = "something stands after the last record\n";
        replays.expect("a byte more", call, &more, want);
        let want = format!("text {last}: the record is not as long as it says\n");
        replays.expect("a byte less", call, &file[..file.len() - 1], &want);
        let mut other = file.to_vec();
        other[0] ^= 1;
        let want = "standard input is no stored sample\n";
        replays.expect("another mark", call, &other, want);
        replays.expect("no text", call, &sample(file, &[]), &agree(0));
    }
}

fn main() -> ExitCode {
    let args: Vec<String> = env::args().skip(1).collect();
    let [path, charts, figures, files, replay_files] =
        args.try_into().expect("two samples and three programs");
    let file = fs::read(path).expect("the stored sample");
    let files = fs::read(files).expect("the stored sample of files");
    let records = records(&file);
    let mut replays = Replays {
        charts,
        figures,
        passed: 0,
        failed: 0,
    };
    let shown = records.iter().find(|record| shows_all(record));
    let full = shown.expect("a text with something at the end of every contents");
    change_each(&mut replays, &file, full);
    change_ends(&mut replays, &file, &records);
    changed_files::run(&mut replays, &replay_files, &files);
    println!("{} passed, {} failed", replays.passed, replays.failed);
    if replays.failed == 0 {
        ExitCode::SUCCESS
    } else {
        ExitCode::FAILURE
    }
}
