//! The changes of the sample of files: in each answer's number and three places, in k, in the file, and at the ends of a record and of the sample.

use crate::reader::Reader;
use crate::{Replays, records, said, sample};

/// Bytes of an answer, and of the numbers in it: k, the number that is answered, three places.
const ANSWER: usize = 40;
const NUMBER: usize = 8;

/// Where the answers of a record begin.
fn answers_at(record: &[u8]) -> usize {
    8 + Reader(&record[4..]).length()
}

/// How many answers a record has.
fn answers(record: &[u8]) -> usize {
    (record.len() - answers_at(record)) / ANSWER
}

/// Whether an answer of each kind stands in the record: accepted, and refused with 9, 10 and 11.
fn shows_all(record: &[u8]) -> bool {
    let answers = record[answers_at(record)..].chunks(ANSWER);
    let numbers: Vec<u8> = answers.map(|answer| answer[NUMBER]).collect();
    [0, 9, 10, 11].iter().all(|number| numbers.contains(number))
}

/// A record with its length put right.
fn resized(mut record: Vec<u8>) -> Vec<u8> {
    let total = (record.len() as u32).to_le_bytes();
    record[..4].copy_from_slice(&total);
    record
}

pub fn run(replays: &mut Replays, program: &str, file: &[u8]) {
    let records = records(file);
    let shown = records.iter().find(|record| shows_all(record));
    let full = shown.expect("a file with an answer of each kind");
    let mut expect = |what: &str, changed: &[u8], want: &str| {
        replays.same(&format!("files: {what}"), &said(program, changed), want);
    };
    change_answers(&mut expect, file, full);
    change_record(&mut expect, file, full);
    change_ends(&mut expect, file, &records);
}

/// Every number of every answer, in its low and its high byte; and zeros in the places of a refused call.
fn change_answers(expect: &mut impl FnMut(&str, &[u8], &str), head: &[u8], record: &[u8]) {
    for call in 0..answers(record) {
        let at = answers_at(record) + ANSWER * call;
        let want = format!("text 0: call {call} differs\n");
        for number in 1..ANSWER / NUMBER {
            for place in [0, NUMBER - 1] {
                let mut changed = record.to_vec();
                changed[at + NUMBER * number + place] ^= 1;
                let what = format!("byte {place} of number {number} of answer {call}");
                expect(&what, &sample(head, &[&changed]), &want);
            }
        }
        if record[at + NUMBER] != 0 {
            let mut changed = record.to_vec();
            changed[at + 2 * NUMBER..at + ANSWER].fill(0);
            let what = format!("zeros in the places of answer {call}");
            expect(&what, &sample(head, &[&changed]), &want);
        }
    }
}

/// Another k, another file, and a record that has not whole answers.
fn change_record(expect: &mut impl FnMut(&str, &[u8], &str), head: &[u8], record: &[u8]) {
    let at = answers_at(record);
    let differs = "text 0: call 0 differs\n";
    let mut changed = record.to_vec();
    changed[at + NUMBER - 1] ^= 1;
    expect("high byte of k", &sample(head, &[&changed]), differs);
    let tag = record.windows(7).position(|bytes| bytes == b"#NOTES:");
    let mut changed = record.to_vec();
    changed[tag.expect("a tag")] ^= 1;
    expect("the first tag", &sample(head, &[&changed]), differs);
    let malformed = "text 0: the record is not as long as it says\n";
    for (what, end) in [
        ("an answer without its last byte", record.len() - 1),
        ("no answer", at),
        ("the file without its last byte", at - 1),
        ("no byte", 4),
    ] {
        let changed = resized(record[..end].to_vec());
        expect(what, &sample(head, &[&changed]), malformed);
    }
}

/// The whole sample: as it is, changed in its last answer, and at its ends.
fn change_ends(expect: &mut impl FnMut(&str, &[u8], &str), file: &[u8], records: &[&[u8]]) {
    let last = records.len() - 1;
    let all: usize = records.iter().map(|record| answers(record)).sum();
    let agree =
        |answers: usize, files: usize| format!("{answers} answers agree, for {files} texts\n");
    expect("the sample as it is", file, &agree(all, records.len()));
    let mut changed = file.to_vec();
    changed[file.len() - 1] ^= 1;
    let call = answers(records[last]) - 1;
    let want = format!("text {last}: call {call} differs\n");
    expect("the last answer", &changed, &want);
    let more = [file, &[0]].concat();
    let want = "something stands after the last record\n";
    expect("a byte more", &more, want);
    let want = format!("text {last}: the record is not as long as it says\n");
    expect("a byte less", &file[..file.len() - 1], &want);
    for place in [0, 7] {
        let mut other = file.to_vec();
        other[place] ^= 1;
        let want = "standard input is no stored sample\n";
        expect("another mark", &other, want);
    }
    expect("no file", &sample(file, &[]), &agree(0, 0));
}
