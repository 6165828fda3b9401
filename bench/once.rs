//! Makes each call once on each of a list of short texts, for callgrind, which counts the instructions of every call by itself
//! (`instructions.sh`), and after each the Rust's on the same text. It prints a line for each, in the order in which they are made: call, text, line
//! ends, lane count, rows; the Rust's calls have `rust` before their name. For `sm_chart` these are the call, the file, line ends, 4 lanes, and the
//! file's lines. For `notes_to_chart` they are the text whose notes are written and the rows that it writes, and what stands with `rust` is the main call
//! on the text that it writes. For `press_trace` they are the text whose notes are pressed, how they are pressed, and the records of both lists, and what
//! stands with `rust` is its plain reference.

use crate::entries::ENTRIES;
use crate::loads::{EVERY_LANES, LANES, Lines, Load, Text};
use crate::loans::lent;
use crate::sm_files::{self, File};
use crate::traces::{Trace, Traced};
use crate::written::{self, Written};
use oracle::calls::Call;
use oracle::timed::{self, Buffers};

/// Bytes of a text: enough that what a call does once does not show, few enough that all of it takes seconds.
const LEN: usize = 60_000;

/// Bytes of a text of the other kinds, and of one whose notes are pressed, of which there are many.
const KIND_LEN: usize = 20_000;

/// The texts that are counted. CRLF takes other ways through the reader, and an unclosed head another through the tallies.
const TEXTS: [(Text, Lines); 4] = [
    (Text::Long, Lines::Lf),
    (Text::Long, Lines::Crlf),
    (Text::Sparse, Lines::Lf),
    (Text::Unclosed, Lines::Lf),
];

/// The files that are counted, each asked for the block past its last, so that all of it is read.
const FILES: [(File, Lines); 5] = [
    (File::One, Lines::Lf),
    (File::One, Lines::Crlf),
    (File::Pack, Lines::Lf),
    (File::Short, Lines::Lf),
    (File::None, Lines::Lf),
];

pub fn run() {
    run_texts();
    run_files();
    run_kinds();
    run_written();
    run_traces();
}

fn run_files() {
    for (file, lines) in FILES {
        let data = file.bytes(LEN, lines.bytes());
        let answer = sm_files::enter(&data, usize::MAX);
        assert_eq!(answer, Err(11), "no file has so many blocks");
        let count = data.split(|&byte| byte == b'\n').count();
        println!("sm_chart {} {} 4 {count}", file.name(), lines.name());
    }
}

fn run_written() {
    for text in written::TEXTS {
        for lanes in EVERY_LANES {
            let mut written = Written::new(text, lanes, LEN);
            written.write();
            written.read();
            for who in ["", "rust_"] {
                println!("{who}notes_to_chart {} LF {lanes} {}", text.name(), written.rows());
            }
        }
    }
}

fn run_traces() {
    for text in written::TEXTS {
        for trace in Trace::ALL {
            for lanes in EVERY_LANES {
                let mut traced = Traced::new(text, trace, lanes, KIND_LEN);
                traced.count();
                rust_call(&mut || traced.count_plainly());
                let (text, trace, records) = (text.name(), trace.name(), traced.records());
                for who in ["", "rust_"] {
                    println!("{who}press_trace {text} {trace} {lanes} {records}");
                }
            }
        }
    }
}

fn run_texts() {
    for call in ENTRIES.iter().map(|entry| entry.call) {
        for (text, lines) in TEXTS {
            for lanes in EVERY_LANES {
                run_call(call, text, lines, lanes, LEN);
            }
        }
    }
}

/// The other kinds of text, at the lane counts that the Rust knows, and without the list of dropped heads, which it does not have.
fn run_kinds() {
    let calls = ENTRIES.iter().map(|entry| entry.call);
    for call in calls.filter(|&call| call != Call::DroppedHolds) {
        for text in Text::KINDS {
            for lines in Lines::ALL {
                for lanes in LANES {
                    run_call(call, text, lines, lanes, KIND_LEN);
                }
            }
        }
    }
}

/// One call on one text, ours and then the Rust's.
fn run_call(call: Call, text: Text, lines: Lines, lanes: usize, len: usize) {
    let load = Load::of(1, len, text.kind(), lines, lanes);
    let (data, flags) = (&load.texts[0], &load.flags);
    let mut loan = lent(call, len, lanes);
    let entry = ENTRIES.iter().find(|entry| entry.call == call);
    let enter = entry.expect("every call has its entry").enter;
    assert_eq!(enter(data, lanes, flags, &mut loan), 0, "no call is refused here");
    let mut buffers = Buffers::default();
    rust_call(&mut || timed::run(call, data, lanes, flags, &mut buffers));
    let (name, text, lines, rows) = (call.name(), text.name(), lines.name(), rows(data, lanes));
    for who in ["", "rust_"] {
        println!("{who}{name} {text} {lines} {lanes} {rows}");
    }
}

/// The Rust's call, or a reference's, under a name that callgrind is told.
#[unsafe(no_mangle)]
#[inline(never)]
pub fn rust_call(call: &mut dyn FnMut()) {
    call();
}

/// How many rows a drawn text has: every line but those of commas and the blank last one.
fn rows(data: &[u8], lanes: usize) -> usize {
    let lines = data.split(|&byte| byte == b'\n');
    lines
        .filter(|line| lanes <= line.trim_ascii().len())
        .count()
}
