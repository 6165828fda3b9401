//! The differential run: libpadcheck.a and libleaves.a beside the Rust, in one process, on random, short and long texts and SM files.
//! At six lanes, which the Rust reads as four, it is asked by its functions over a const L, and the directions of a tally are those of a plain
//! reference (`tests/oracle/directions.rs`). Where a row would have a byte 13 the Rust is asked about another text (`tests/oracle/asked.rs`).
//! Ends with `N passed, M failed`; the exit status is not 0 if anything differs or was left out.

mod beat_checks;
mod case;
mod coverage;
mod dropped_checks;
mod edits;
mod entries;
mod file_checks;
mod file_kinds;
mod file_limits;
mod files;
mod kinds;
mod limits;
mod long_texts;
mod ours;
mod places;
#[path = "../oracle/press_examples.rs"]
mod press_examples;
mod random;
mod row_checks;
mod sheet_checks;
#[path = "../oracle/table.rs"]
mod table;
mod text_checks;
mod trace_checks;
mod trace_limits;
mod written_checks;
#[path = "../oracle/written_examples.rs"]
mod written_examples;
mod written_limits;

use case::{Case, Check};
use file_checks::Files;
use kinds::Kinds;
use random::Rng;
use std::process::ExitCode;

const HELP: &str = "\
differential [--long | --cases N] [--at-least COUNT] [SEED..]

Compares the exported entries and the leaves with the Rust, and at 6 lanes, which it reads as 4, with its
functions over a const L and a plain count of each direction's arrows. For each SEED (1 where none is given):
N random texts, N random lists of rows, which are read as texts too, N beats, and random texts of 10,000 to
1,000,000 bytes. Then every short text over a few letters, every row of six cells over four, every short column
of cells, every byte at every place of a row's line, texts for each case of the correction, every list of flags on
texts of up to three rows, each entry with every combination of its slices too short, at the lane numbers 0 to 300
and at large ones, and texts of the greatest length. On texts of few rows the judged tally by flags is asked for
with each number of flags from none to two more than the rows. The search for a byte is made with it at every place
of short slices, beside bytes that differ from it in one bit. The main and the kept tally are compared with each other
too. Where a line has a byte 13 among its first L bytes, which is a row for the Rust alone, it is asked about a
text in which that line is none; both sorts of text are counted. What the main call reads of each text is edited
and written as a chart beside a plain reference, and read again; so are notes and row counts that are drawn,
every list of up to three notes in a few cells with every list of their counts, the specification's examples,
every set of refusals at every lane number, and lengths at their limit. Traces of presses are made of the notes of each
text, as they are and with presses dropped, doubled, moved, a row late, on tails and on mines, and set against them
beside a plain reference; so are all lists of a few notes with every trace of up to four presses, the specification's
examples, every way to be refused with every other, and lists of a million. The sheet is compared with the reference
in Rust, on half of the random texts and some of the long ones. SM files are compared with the reference in
Rust, every block and the numbers past them: for each SEED N random files, then every short file over a few
tokens, a file by hand with each byte struck or changed, and files of the greatest length; the calls are made on
the data of each accepted block, the sheet's on one in four. N is 200000, or 10000000 with --long. A text or
file that differs is shown as short as it can be made. An entry, a leaf, a number that an entry can return, a
lane count or a kind of text or file that was not met is a failure, and so are fewer comparisons than COUNT.
The last line is 'N passed, M failed', counted in comparisons.";

struct Options {
    cases: u64,
    at_least: u64,
    seeds: Vec<u64>,
}

fn options(args: impl Iterator<Item = String>) -> Result<Option<Options>, String> {
    let mut options = Options {
        cases: 200_000,
        at_least: 0,
        seeds: Vec::new(),
    };
    let mut args = args;
    while let Some(arg) = args.next() {
        match arg.as_str() {
            "--help" | "-h" => return Ok(None),
            "--long" => options.cases = 10_000_000,
            "--cases" | "--at-least" => {
                let number = args.next().and_then(|number| number.parse().ok());
                let number = number.ok_or(format!("{arg} wants a number"))?;
                if arg == "--cases" {
                    options.cases = number;
                } else {
                    options.at_least = number;
                }
            }
            _ => {
                let seed = arg.parse().map_err(|_| format!("{arg} is no seed"))?;
                options.seeds.push(seed);
            }
        }
    }
    if options.seeds.is_empty() {
        options.seeds.push(1);
    }
    Ok(Some(options))
}

fn main() -> ExitCode {
    match options(std::env::args().skip(1)) {
        Ok(Some(options)) => run(&options),
        Ok(None) => {
            println!("{HELP}");
            ExitCode::SUCCESS
        }
        Err(message) => {
            eprintln!("differential: {message}; --help says more");
            ExitCode::FAILURE
        }
    }
}

fn run(options: &Options) -> ExitCode {
    let mut kinds = Kinds::new();
    let mut texts = text_checks::checks();
    texts.push(dropped_checks::listed_or_noted());
    texts.push(written_checks::edited());
    texts.push(written_checks::read_and_written());
    texts.push(trace_checks::pressed());
    texts.push(trace_checks::edited());
    let mut drawn = [written_checks::drawn()];
    let mut sheet = sheet_checks::drawn(1);
    let mut rows = row_checks::checks();
    let mut beats = beat_checks::drawn();
    let mut bytes = beat_checks::bytes();
    let mut files = Files::new();
    for &seed in &options.seeds {
        let mut rng = Rng::new(seed);
        for number in 0..options.cases {
            let text = text_case(&mut rng);
            run_text(&text, &mut texts, &mut kinds);
            let case = row_case(&mut rng);
            rows.iter_mut().for_each(|check| check.run(&case));
            beats.iter_mut().for_each(|check| check.run(&case));
            let lines = lines_case(&mut rng, case);
            run_text(&lines, &mut texts, &mut kinds);
            drawn[0].run(&notes_case(&mut rng));
            // The sheet is of one of the two in turn.
            sheet.run(if number % 2 == 0 { &text } else { &lines });
        }
        long_texts::run(&mut rng, options.cases, |case| {
            run_text(case, &mut texts, &mut kinds);
            sheet.run(case);
        });
        files::run(&mut rng, options.cases, &mut files);
    }
    for seed in 0..256 {
        let case = Case {
            seed,
            ..Case::default()
        };
        bytes.iter_mut().for_each(|check| check.run(&case));
    }
    let mut places = [places::check()];
    places.iter_mut().for_each(places::every_place);
    texts.push(sheet);
    limits::short_texts(&mut texts, &mut kinds);
    limits::six_cells(&mut texts, &mut kinds);
    limits::columns(&mut texts, &mut kinds);
    limits::bytes_in_rows(&mut texts, &mut kinds);
    limits::corrections(&mut texts, &mut kinds);
    let mut flagged = [text_checks::every_list_of_flags()];
    limits::few_rows(&mut flagged[0]);
    let written = written();
    let traces = traces();
    let mut shortages: Vec<_> = text_checks::shortages().collect();
    shortages.push(sheet_checks::shortages());
    shortages.push(text_checks::tallies());
    limits::every_lane(&mut shortages);
    file_limits::short_files(&mut files);
    file_limits::written(&mut files);
    let mut longest: Vec<_> = text_checks::entries().collect();
    longest.push(text_checks::tallies());
    let mut longest_sheet = sheet_checks::exact();
    if case::any_differs(&texts) || files.any_differs() {
        println!("the longest texts and files are left out: shorter ones differ already");
    } else {
        limits::long_texts(&mut longest);
        sheet_checks::longest(&mut longest_sheet);
        file_limits::longest_files(&mut files);
    }
    longest.push(longest_sheet);
    let groups: [(&str, &[Check]); 13] = [
        ("texts", &texts),
        ("rows", &rows),
        ("beats", &beats),
        ("bytes", &bytes),
        ("the places of a byte", &places),
        (
            "every combination of slices too short, at every lane number",
            &shortages,
        ),
        ("every list of flags on up to three rows", &flagged),
        ("longest texts", &longest),
        ("notes and row counts, drawn", &drawn),
        ("notes and row counts, every list and the limits", &written),
        ("pad traces, every list and the limits", &traces),
        ("files", &files.entry),
        ("charts of files", &files.charts),
    ];
    report(options, &groups, &kinds, &files)
}

/// Every list of a few notes with every list of their counts, the examples, every set of refusals, and the lengths at their limit.
fn written() -> [Check; 5] {
    let mut checks = [
        written_limits::listed(),
        written_limits::example(),
        written_limits::wrong(),
        written_limits::limit(),
        written_limits::long_records(),
    ];
    let [listed, example, wrong, limit, long] = &mut checks;
    written_limits::every_list(listed);
    written_limits::every_example(example);
    written_limits::every_wrong(wrong);
    written_limits::every_limit(limit);
    long.run(&Case {
        lanes: 4,
        ..Case::default()
    });
    checks
}

/// Every list of a few notes with every trace of a few presses, the examples, every way to be refused, lengths around whole records, and long lists.
fn traces() -> [Check; 5] {
    let mut checks = [
        trace_limits::listed(),
        trace_limits::example(),
        trace_limits::wrong(),
        trace_limits::lengths(),
        trace_limits::long_lists(),
    ];
    let [listed, example, wrong, lengths, long_lists] = &mut checks;
    trace_limits::every_list(listed);
    trace_limits::every_example(example);
    trace_limits::every_wrong(wrong);
    trace_limits::every_length(lengths);
    trace_limits::every_long_list(long_lists);
    checks
}

fn run_text(case: &Case, texts: &mut [Check], kinds: &mut Kinds) {
    kinds.note(case);
    texts.iter_mut().for_each(|check| check.run(case));
}

/// Prints the totals and what was left out.
fn report(
    options: &Options,
    groups: &[(&str, &[Check])],
    kinds: &Kinds,
    files: &Files,
) -> ExitCode {
    let (mut passed, mut failed) = (0, 0);
    for (title, checks) in groups {
        println!("{title}:");
        let (same, differ) = case::totals(checks);
        passed += same;
        failed += differ;
    }
    for (lanes, as_it_stands, another) in kinds.asked() {
        println!(
            "{lanes} lanes: {as_it_stands} texts that the Rust was asked about, {another} in whose place it was asked another"
        );
    }
    let checks: Vec<&Check> = groups.iter().flat_map(|(_, checks)| *checks).collect();
    failed += coverage::missing(&checks, kinds, files);
    if passed < options.at_least {
        println!("failed: fewer than {} comparisons passed", options.at_least);
        failed += 1;
    }
    println!("{passed} passed, {failed} failed");
    if failed == 0 {
        ExitCode::SUCCESS
    } else {
        ExitCode::FAILURE
    }
}

fn text_case(rng: &mut Rng) -> Case {
    let lanes = random::lanes(rng);
    let bytes = random::text(rng, lanes);
    Case {
        bytes,
        lanes,
        seed: rng.next(),
    }
}

fn row_case(rng: &mut Rng) -> Case {
    let (lanes, bytes) = random::rows(rng);
    Case {
        bytes,
        lanes,
        seed: rng.next(),
    }
}

/// Records of notes.
fn notes_case(rng: &mut Rng) -> Case {
    let lanes = random::lanes(rng);
    let bytes = edits::records(rng, lanes);
    Case {
        bytes,
        lanes,
        seed: rng.next(),
    }
}

/// The text of a case that is rows.
fn lines_case(rng: &mut Rng, rows: Case) -> Case {
    let bytes = random::lines_of(rng, rows.lanes, &rows.bytes);
    Case {
        bytes,
        lanes: rows.lanes,
        seed: rng.next(),
    }
}
