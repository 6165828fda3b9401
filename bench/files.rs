//! Times `padcheck_sm_chart` beside the plain reference of the oracle, which the Rust does not have: files of 16 MB, and what longer files cost.

use crate::options::Options;
use crate::sm_files::{Answer, File, enter};
use oracle::entry::MAX_LEN;
use oracle::sm::{blocks, sm_chart};
use std::hint::black_box;

/// The speeds on files of 16 MB, and the times at 1, 4 and 16 MB.
pub fn run(options: &Options) -> Result<(), String> {
    println!("| file | block | ours, ms | reference, ms | ours, MB/s | reference, MB/s | ratio |");
    println!("|---|---|---|---|---|---|---|");
    for file in File::ALL {
        let bytes = file.bytes(MAX_LEN, b"\n");
        for (name, k) in asked(&bytes) {
            compare(&bytes, k)?;
            let [ours, reference] = both(&bytes, k, options);
            let speed = |seconds: f64| bytes.len() as f64 / 1e6 / seconds;
            println!(
                "| {} | {name} | {:.3} | {:.3} | {:.0} | {:.0} | {:.2} |",
                file.name(),
                ours * 1e3,
                reference * 1e3,
                speed(ours),
                speed(reference),
                reference / ours
            );
        }
    }
    println!();
    growth(options)
}

/// What a file of 1, 4 and 16 MB costs, and how often the longest costs the shortest: 16 where each byte costs the same.
fn growth(options: &Options) -> Result<(), String> {
    println!("| file | block | ms at 1 MB | at 4 MB | at 16 MB | 16 MB by 1 MB |");
    println!("|---|---|---|---|---|---|");
    for file in File::ALL {
        let names = asked(&file.bytes(1_000_000, b"\n")).into_iter();
        for (place, (name, _)) in names.enumerate() {
            let mut times = [0.0; 3];
            for (time, len) in times.iter_mut().zip([1_000_000, 4_000_000, 16_000_000]) {
                // As many files as make 16 MB, so that no length is favoured by the processor's cache.
                let bytes = file.bytes(len, b"\n");
                let (_, k) = asked(&bytes)[place];
                compare(&bytes, k)?;
                let count = 16_000_000 / len;
                let files = vec![bytes; count];
                let files: Vec<&[u8]> = files.iter().map(|file| &file[..]).collect();
                let times = (0..options.runs).map(|_| once(&files, k, enter, options));
                *time = times.fold(f64::MAX, f64::min) / count as f64;
            }
            let [one, four, sixteen] = times.map(|seconds| seconds * 1e3);
            println!(
                "| {} | {name} | {one:.3} | {four:.3} | {sixteen:.3} | {:.1} |",
                file.name(),
                sixteen / one
            );
        }
    }
    Ok(())
}

/// The blocks of a file that are asked for: the first, the last, and the one past it.
fn asked(file: &[u8]) -> Vec<(&'static str, usize)> {
    let count = blocks(file).len();
    match count {
        0 => vec![("past the last", 0)],
        1 => vec![("the only one", 0), ("past the last", 1)],
        _ => vec![("first", 0), ("last", count - 1), ("past the last", count)],
    }
}

fn compare(file: &[u8], k: usize) -> Result<(), String> {
    if enter(file, k) == sm_chart(file, k) {
        return Ok(());
    }
    Err("sm_chart and its reference differ; nothing is timed".into())
}

/// The best times in seconds of the entry and of the reference, in turns.
fn both(file: &[u8], k: usize, options: &Options) -> [f64; 2] {
    let mut best = [f64::MAX; 2];
    for _ in 0..options.runs {
        let [ours, reference] = &mut best;
        *ours = ours.min(once(&[file], k, enter, options));
        *reference = reference.min(once(&[file], k, sm_chart, options));
    }
    best
}

/// The seconds of a call on some files, one after the other.
fn once(files: &[&[u8]], k: usize, call: fn(&[u8], usize) -> Answer, options: &Options) -> f64 {
    let start = options.clock.seconds();
    for file in files {
        let _ = black_box(call(black_box(file), k));
    }
    options.clock.seconds() - start
}
