//! The stored sample: that it is what the oracle writes, that its layout is as described,
//! and that the Rust's readers agree with each other on its texts.

use crate::Checks;
use crate::reader::Reader;
use oracle::asked::chart_text;
use oracle::calls::{self, Answer, CALLS};
use oracle::deciding::TEXTS;
use oracle::entry::{Lengths, Loan, enter, is_lane_count};
use oracle::vectors::{MARK, SEED, Sample, answer_slices, file, pressed, samples, written};
use std::fs;

pub fn run(checks: &mut Checks, copies: &[String]) {
    let (written, samples) = (file(SEED), samples(SEED));
    for path in copies {
        let stored = fs::read(path).unwrap_or_else(|error| {
            println!("cannot read `{path}`: {error}");
            Vec::new()
        });
        stored_bytes(checks, path, &stored, &written);
    }
    let other = file(SEED + 1);
    checks.same("another seed gives another sample", other == written, false);
    layout(checks, &written, &samples);
    coverage(checks, &samples);
    described(checks, &samples);
    agreement(checks, &samples);
}

/// That a stored sample has the bytes that the oracle writes.
pub fn stored_bytes(checks: &mut Checks, path: &str, stored: &[u8], written: &[u8]) {
    let differs = stored.iter().zip(written).position(|(a, b)| a != b);
    checks.same(&format!("first place where {path} differs"), differs, None);
    checks.same(&format!("length of {path}"), stored.len(), written.len());
    checks.same(
        &format!("{path} below 3 MB"),
        stored.len() < 3_000_000,
        true,
    );
}

fn layout(checks: &mut Checks, written: &[u8], samples: &[Sample]) {
    let mut reader = Reader(written);
    checks.same("mark", reader.bytes(8), MARK);
    checks.same("seed", reader.number(8), SEED);
    checks.same("records", reader.number(8), samples.len() as u64);
    for (i, sample) in samples.iter().enumerate() {
        let total = reader.length();
        let mut record = Reader(reader.bytes(total - 4));
        let good = record_holds(&mut record, sample);
        checks.same(&format!("record {i}"), good, true);
        checks.same(&format!("bytes past record {i}"), record.0.len(), 0);
    }
    checks.same("bytes past the records", reader.0.len(), 0);
}

fn record_holds(record: &mut Reader, sample: &Sample) -> bool {
    let (text, flags) = (record.length(), record.length());
    let lanes = record.number(8);
    lanes == sample.lanes as u64
        && record.bytes(text) == sample.text
        && record.bytes(flags) == sample.flags
        && CALLS.into_iter().all(|call| {
            let answer = calls::answer(call, &sample.text, sample.lanes, &sample.flags);
            answer_holds(record, &answer)
        })
        && answer_holds(record, &written(&sample.text, sample.lanes))
        && answer_holds(record, &pressed(&sample.text, sample.lanes))
}

fn answer_holds(record: &mut Reader, answer: &Answer) -> bool {
    let figures: Vec<u64> = (0..32).map(|_| record.number(8)).collect();
    let lengths: Vec<usize> = (0..4).map(|_| record.length()).collect();
    let slices: Vec<&[u8]> = lengths.into_iter().map(|n| record.bytes(n)).collect();
    figures == answer.figures && slices == answer_slices(answer)
}

/// The description has the number of texts, and each text that one rule decides under its number and name.
fn described(checks: &mut Checks, samples: &[Sample]) {
    let readme = fs::read_to_string("tests/vectors/README.md").unwrap_or_default();
    let count = format!(" for {} texts,", samples.len());
    checks.same("texts in README.md", readme.contains(&count), true);
    let first = samples.len() - TEXTS.len();
    for (i, text) in TEXTS.iter().enumerate() {
        let line = format!("\n| {} | {} | ", first + i, text.name);
        let what = format!("`{}` in README.md", text.name);
        checks.same(&what, readme.contains(&line), true);
        checks.same(&what, samples[first + i].text == text.bytes(), true);
    }
}

fn coverage(checks: &mut Checks, samples: &[Sample]) {
    checks.same("at least 300 texts", samples.len() >= 300, true);
    for lanes in 0..=12 {
        let some = samples.iter().any(|sample| sample.lanes == lanes);
        checks.same(&format!("lane number {lanes}"), some, is_lane_count(lanes));
    }
    let judged_by_flags = samples.iter().filter(|sample| {
        let (text, lanes) = (&sample.text, sample.lanes);
        let all = calls::process_rows_judgable(text, lanes).figures;
        let none = calls::process_timing_rows(text, lanes, &[]).figures;
        let by_flags = calls::process_timing_rows(text, lanes, &sample.flags).figures;
        by_flags != all && by_flags != none
    });
    checks.same("flags that matter", judged_by_flags.count() > 50, true);
    let asked_another = samples
        .iter()
        .filter(|sample| chart_text(&sample.text, sample.lanes) != sample.text);
    let count = asked_another.count();
    checks.same("texts asked about in another's place", count > 20, true);
    checks.same("and as they stand", samples.len() - count > 300, true);
    let mut met = [0; 4];
    for sample in samples {
        let [hits, strays, misses, ..] = pressed(&sample.text, sample.lanes).figures;
        let is_clean = hits > 0 && strays == 0 && misses == 0;
        let are_met = [hits > 0, strays > 0, misses > 0, is_clean];
        for (count, is_met) in met.iter_mut().zip(are_met) {
            *count += usize::from(is_met);
        }
    }
    let enough = met.iter().all(|&count| count > 50);
    checks.same("hits, strays, misses and clean traces", enough, true);
}

/// There is one definition of each figure: whichever call answers it, it is the same.
fn agreement(checks: &mut Checks, samples: &[Sample]) {
    for (i, sample) in samples.iter().enumerate() {
        let (text, lanes) = (&sample.text[..], sample.lanes);
        let main = calls::minimize_chart_count_rows_notes(text, lanes);
        let kept = calls::process_chart_kept(text, lanes);
        let timing = calls::minimize_timing_rows(text, lanes);
        let last = calls::chart_last_beat(text, lanes).figures[calls::LAST_BEAT];
        let what = |name: &str| format!("text {i}: {name}");
        checks.same(&what("kept text"), &kept.text, &main.text);
        checks.same(&what("kept tally"), kept.tally(), main.tally());
        checks.same(&what("kept densities"), &kept.densities, &main.densities);
        let scanned = calls::measure_densities(text, lanes).densities;
        checks.same(&what("scanned densities"), &scanned, &main.densities);
        let spacing = calls::equally_spaced(text, lanes).spacing;
        checks.same(&what("spacing"), spacing, spacing_of(&main, lanes));
        checks.same(&what("last beat"), last, main.figures[calls::LAST_BEAT]);
        checks.same(&what("timing beats"), &timing.beats, &main.beats);
        checks.same(&what("rows kept"), kept.figures[2], main.figures[2]);
        checks.same(&what("timing rows"), timing.figures[2], main.figures[2]);
        checks.same(&what("room"), fits_shortest_loan(sample), true);
    }
}

/// Spacing from the minimised rows: no rows, or as many steps as rows.
fn spacing_of(main: &Answer, lanes: usize) -> Vec<u8> {
    let mut rows = vec![0; main.densities.len()];
    let (mut measure, mut rest) = (0, &main.text[..]);
    while !rest.is_empty() {
        // A minimised row never begins with `,`.
        if rest[0] == b',' {
            measure += 1;
            rest = &rest[2..];
        } else {
            rows[measure] += 1;
            rest = &rest[lanes + 1..];
        }
    }
    let counts = rows.into_iter().zip(&main.densities);
    counts
        .map(|(rows, &steps)| u8::from(rows == steps))
        .collect()
}

/// Whether every call is accepted at the shortest lengths; an answer with no room would panic.
fn fits_shortest_loan(sample: &Sample) -> bool {
    let enough = Lengths::enough(sample.text.len(), sample.lanes);
    CALLS.into_iter().all(|call| {
        let mut loan = Loan::marked(&enough);
        enter(call, &sample.text, sample.lanes, &sample.flags, &mut loan) == 0
    })
}
