//! The stored sample of SM files: that it is what the oracle writes, that its layout is as described,
//! and that every answer and every sentence is met in it.

use crate::Checks;
use crate::check_sample::stored_bytes;
use crate::reader::Reader;
use oracle::sm::{SmChart, blocks, sm_chart};
use oracle::sm_deciding::FILES;
use oracle::sm_vectors::{LENT, MARK, files, sample};
use oracle::vectors::SEED;
use std::fs;

pub fn run(checks: &mut Checks, path: &str) {
    let (written, files) = (sample(SEED), files(SEED));
    let stored = fs::read(path).unwrap_or_default();
    stored_bytes(checks, path, &stored, &written);
    let other = sample(SEED + 1);
    checks.same("another seed gives other files", other == written, false);
    layout(checks, &written, &files);
    coverage(checks, &files);
    described(checks, &files);
}

fn layout(checks: &mut Checks, written: &[u8], files: &[Vec<u8>]) {
    let mut reader = Reader(written);
    checks.same("mark of the files", reader.bytes(8), MARK);
    checks.same("seed of the files", reader.number(8), SEED);
    checks.same("number of files", reader.number(8), files.len() as u64);
    for (i, file) in files.iter().enumerate() {
        let total = reader.length();
        let mut record = Reader(reader.bytes(total - 4));
        let len = record.length();
        checks.same(&format!("file {i}"), record.bytes(len), &file[..]);
        let answers = record.0.chunks(40).map(|answer| answer_holds(file, answer));
        let asked: Vec<usize> = answers.map_while(|k| k).collect();
        let count = blocks(file).len();
        let what = format!("blocks of file {i} that are asked for");
        let known = asked.len().min(count + 1);
        checks.same(&what, &asked[..known], &(0..=count).collect::<Vec<_>>()[..]);
        checks.same(&what, asked.len(), count + 2);
        let far = asked.last().is_some_and(|&far| far > count);
        checks.same(&format!("{what}: the last"), far, true);
        checks.same(&what, record.0.len(), 40 * (count + 2));
    }
    checks.same("bytes past the files", reader.0.len(), 0);
}

/// The k of a stored answer, where that is what the reference answers.
fn answer_holds(file: &[u8], answer: &[u8]) -> Option<usize> {
    let mut reader = Reader(answer);
    let k = reader.number(8) as usize;
    let number = reader.number(8);
    let chart = [(); 3].map(|()| reader.number(8));
    let holds = match sm_chart(file, k) {
        Ok(SmChart { lanes, start, len }) => {
            number == 0 && chart == [lanes, start, len].map(|number| number as u64)
        }
        Err(refusal) => number == u64::from(refusal) && chart == [LENT; 3],
    };
    holds.then_some(k)
}

/// Every lane count and every refusal but 1 is answered often, and no file is long.
fn coverage(checks: &mut Checks, files: &[Vec<u8>]) {
    checks.same("at least 100 files", files.len() >= 100, true);
    let longest = files.iter().map(Vec::len).max();
    checks.same("files below 4,000 bytes", longest < Some(4000), true);
    let answers: Vec<Result<SmChart, u32>> = files
        .iter()
        .flat_map(|file| (0..=blocks(file).len()).map(|k| sm_chart(file, k)))
        .collect();
    for lanes in [4, 5, 6, 8, 10] {
        let is_here = |answer: &&Result<SmChart, u32>| {
            answer.as_ref().is_ok_and(|chart| chart.lanes == lanes)
        };
        let count = answers.iter().filter(is_here).count();
        checks.same(&format!("charts of {lanes} lanes"), count >= 10, true);
    }
    for number in [9, 10, 11] {
        let count = answers.iter().filter(|&&answer| answer == Err(number));
        checks.same(&format!("refused with {number}"), count.count() >= 30, true);
    }
}

/// The description has the number of files, and each file that one sentence decides under its number and name.
fn described(checks: &mut Checks, files: &[Vec<u8>]) {
    let readme = fs::read_to_string("tests/vectors/README.md").unwrap_or_default();
    let count = format!(" for {} SM files,", files.len());
    checks.same("files in README.md", readme.contains(&count), true);
    for (i, file) in FILES.iter().enumerate() {
        let what = format!("`{}` in README.md", file.name);
        let line = format!("\n| {i} | {} | ", file.name);
        checks.same(&what, readme.contains(&line), true);
        let text = file.text.escape_debug().to_string().replace('|', "\\|");
        let shown = file.text.is_empty() || readme.contains(&shown_text(&text));
        checks.same(&format!("the text of {what}"), shown, true);
        checks.same(&what, files[i] == file.bytes(), true);
    }
}

/// A text as the description has it.
fn shown_text(escaped: &str) -> String {
    let hex = escaped
        .replace("\\u{b}", "\\x0B")
        .replace("\\u{c}", "\\x0C");
    format!(" | `{hex}` | ")
}
