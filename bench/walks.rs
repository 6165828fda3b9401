//! Times what looks for ends of lines: walks by the leaves `next_line` and `find_byte`, each call, and `sm_chart`. `walks.sh` runs it over one
//! library or over two in turns. It prints a line for each: name, text, what is counted and how many, and the seconds that all of them took. With
//! `--lines BYTES` it walks once by `next_line` over lines of so many bytes, for callgrind, and prints how many lines.

mod chart;
#[path = "../tests/differential/entries.rs"]
mod entries;
#[allow(dead_code)] // Not every text is walked over.
mod loads;
#[allow(dead_code)] // Every slice is lent anew.
mod loans;
mod sm_files;

use entries::ENTRIES;
use loads::{Lines, Load, Text};
use oracle::entry::MAX_LEN;
use sm_files::File;
use std::hint::black_box;
use std::time::Instant;

/// Each is timed so often in a run, and the best is printed.
const TURNS: u32 = 3;

/// The lane count of all texts: with the newline a row has five bytes, and a `,` line two.
const LANES: usize = 4;

/// Bytes of the lines that `find_byte` walks over, and of all of them together.
const LENGTHS: [usize; 9] = [1, 4, 8, 11, 15, 16, 17, 24, 200];
const TOGETHER: usize = 4_000_000;

/// Lines that are walked over for callgrind.
const COUNTED: usize = 1000;

unsafe extern "C" {
    fn leaves_next_line(data: *const u8, len: usize, start: usize) -> usize;
    fn leaves_find_byte(slice: *const u8, len: usize, needle: u8) -> usize;
}

fn main() {
    let args: Vec<String> = std::env::args().skip(1).collect();
    match args.iter().map(String::as_str).collect::<Vec<_>>()[..] {
        [] => time_all(),
        ["--lines", bytes] => {
            let bytes = bytes.parse().expect("--lines wants a number");
            let text = lines_of(bytes, COUNTED);
            println!("{}", by_next_line(&text));
        }
        _ => panic!("walks takes nothing, or --lines BYTES; walks.sh says what it prints"),
    }
}

fn time_all() {
    // The drawn text ends in blanks, which no newline ends: without them every line ends within eleven bytes.
    let mut text = Load::new(Text::Long, Lines::Lf, LANES);
    for bytes in &mut text.texts {
        let end = bytes.trim_ascii_end().len() + 1;
        bytes.truncate(end);
    }
    let pack = Load::new(Text::Pack, Lines::Lf, LANES);
    let loads = [("text", text), ("pack", pack)];
    for (name, load) in &loads {
        time(&format!("next_line {name} lines"), newlines(load), || {
            load.texts.iter().map(|text| by_next_line(text)).sum()
        });
    }
    for entry in ENTRIES {
        for (name, load) in &loads {
            let mut loan = loans::lent(entry.call, load.longest(), LANES);
            let name = format!("{} {name} lines", entry.call.name());
            time(&name, newlines(load), || {
                for text in &load.texts {
                    let number = (entry.enter)(text, LANES, &load.flags, &mut loan);
                    assert_eq!(number, 0, "no call is refused here");
                }
                newlines(load)
            });
        }
    }
    for file in File::ALL {
        let bytes = file.bytes(MAX_LEN, b"\n");
        let count = count(&bytes);
        time(&format!("sm_chart {} lines", file.name()), count, || {
            assert!(sm_files::enter(&bytes, usize::MAX).is_err());
            count
        });
    }
    for bytes in LENGTHS {
        let text = lines_of(bytes, TOGETHER / (bytes + 1));
        time(&format!("find_byte {bytes} lines"), count(&text), || {
            by_find_byte(&text)
        });
    }
}

/// Prints the best of some turns of a walk, which answers how many lines it met.
fn time(name: &str, lines: usize, mut walk: impl FnMut() -> usize) {
    let mut best = f64::MAX;
    for _ in 0..TURNS {
        let start = Instant::now();
        let met = black_box(walk());
        best = best.min(start.elapsed().as_secs_f64());
        assert_eq!(met, lines, "{name}: as many lines as newlines");
    }
    println!("{name} {lines} {best:.9}");
}

fn newlines(load: &Load) -> usize {
    load.texts.iter().map(|text| count(text)).sum()
}

fn count(text: &[u8]) -> usize {
    text.iter().filter(|&&byte| byte == b'\n').count()
}

/// So many lines of so many bytes.
fn lines_of(bytes: usize, lines: usize) -> Vec<u8> {
    let mut line = vec![b'0'; bytes];
    line.push(b'\n');
    line.repeat(lines)
}

/// How many lines end with a newline, one after the other.
fn by_next_line(text: &[u8]) -> usize {
    let mut lines = 0;
    let mut start = 0;
    while start < text.len() {
        // The pointer goes with the text's length.
        start += unsafe { leaves_next_line(text.as_ptr(), text.len(), start) } + 1;
        lines += usize::from(start <= text.len());
    }
    lines
}

fn by_find_byte(text: &[u8]) -> usize {
    let mut lines = 0;
    let mut rest = text;
    while !rest.is_empty() {
        // The pointer goes with what is left of the text; there is a newline in it.
        let place = unsafe { leaves_find_byte(rest.as_ptr(), rest.len(), b'\n') };
        rest = &rest[place + 1..];
        lines += 1;
    }
    lines
}
