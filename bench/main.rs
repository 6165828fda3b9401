//! Times each call beside the Rust: one process, the same texts, what can be kept from text to text kept, the best of some runs each.

mod chart;
mod clock;
#[path = "../tests/differential/entries.rs"]
mod entries;
mod files;
mod loads;
mod loans;
mod once;
mod options;
mod report;
mod sm_files;
mod traces;
mod ways;
mod written;

use loads::{Lines, Load, Text};
use options::{HELP, Options};
use oracle::calls::Call;
use report::Cell;
use std::process::ExitCode;
use ways::{Pair, Way};

fn main() -> ExitCode {
    let done = match options::parse(std::env::args().skip(1)) {
        Ok(None) => {
            println!("{HELP}");
            Ok(())
        }
        Ok(Some(options)) if options.once => {
            once::run();
            Ok(())
        }
        Ok(Some(options)) if options.memory => {
            report::print_memory(&options.calls, &options.lanes);
            Ok(())
        }
        Ok(Some(options)) if options.files => files::run(&options),
        Ok(Some(options)) if options.written => written::run(&options),
        Ok(Some(options)) if options.traces => traces::run(&options),
        Ok(Some(options)) if options.growth => growth(&options),
        Ok(Some(options)) => table(&options),
        Err(message) => Err(message),
    };
    match done {
        Ok(()) => ExitCode::SUCCESS,
        Err(message) => {
            eprintln!("bench: {message}; --help says more");
            ExitCode::FAILURE
        }
    }
}

/// Every cell that is asked for; what is being timed is said on the error output.
fn table(options: &Options) -> Result<(), String> {
    let mut cells = Vec::new();
    for &lines in &options.lines {
        for &text in &options.texts {
            for &lanes in &options.lanes {
                eprintln!("{} {} {lanes} lanes", text.name(), lines.name());
                cells.extend(cells_of(text, lines, lanes, options)?);
            }
        }
    }
    cells.sort_by_key(|cell| {
        let Cell {
            way, text, lines, ..
        } = *cell;
        (way, cell.call as usize, text, lines, cell.lanes)
    });
    report::print_worst(&cells);
    report::print_under_by_zeros(&cells);
    report::print_ranges(&cells, &options.calls, &options.ways);
    report::print_ratios(&cells, &options.lines, &options.lanes);
    if options.speeds {
        report::print_speeds(cells.iter());
    }
    Ok(())
}

/// The cells of one load.
fn cells_of(
    text: Text,
    lines: Lines,
    lanes: usize,
    options: &Options,
) -> Result<Vec<Cell>, String> {
    let load = Load::new(text, lines, lanes);
    let mut cells = Vec::new();
    for &call in &options.calls {
        compare(call, &load)?;
        for &way in options.ways.iter().filter(|way| way.makes(call)) {
            let parts: [Part; 3] = [Pair::run_ours, Pair::run_rust, Pair::run_zeros];
            let mut pair = Pair::new(way, call, &load, 1);
            let [ours, rust, zeros] = timed(&mut pair, &load, parts, options);
            cells.push(Cell {
                way,
                call,
                text,
                lines,
                lanes,
                bytes: load.bytes(),
                ours,
                rust,
                zeros: pair.has_zeros().then_some(zeros),
            });
        }
    }
    Ok(cells)
}

/// What a byte costs in nanoseconds in a text of 16 MB, and in brackets the largest by the smallest of this and what it costs at 1 and 4 MB.
fn growth(options: &Options) -> Result<(), String> {
    report::print_head("| call | lines |", report::lane_names(&options.lanes));
    for &lines in &options.lines {
        for &call in &options.calls {
            print!("| `{}` | {} |", call.name(), lines.name());
            for &lanes in &options.lanes {
                let mut costs = [0.0; 3];
                for (cost, len) in costs.iter_mut().zip([1_000_000, 4_000_000, 16_000_000]) {
                    // As many texts as make 16 MB, each with slices of its own, so that no length is favoured by the processor's cache.
                    let count = 16_000_000 / len as u64;
                    let load = Load::of(count, len, chart::Kind::Closed, lines, lanes);
                    compare(call, &load)?;
                    let mut pair = Pair::new(Way::Resident, call, &load, load.texts.len());
                    let [ours] = timed(&mut pair, &load, [Pair::run_ours], options);
                    *cost = ours * 1e9 / load.bytes();
                }
                let [one, four, sixteen] = costs;
                let most = one.max(four).max(sixteen) / one.min(four).min(sixteen);
                print!(" {sixteen:.2} ({most:.2}) |");
            }
            println!();
        }
    }
    Ok(())
}

fn compare(call: Call, load: &Load) -> Result<(), String> {
    if ways::agrees(call, load) {
        return Ok(());
    }
    let name = call.name();
    Err(format!("{name} and the Rust differ; nothing is timed"))
}

/// What is timed of a pair.
type Part = fn(&mut Pair, &Load);

/// The best times in seconds of some parts over all texts of a load, in turns.
fn timed<const N: usize>(
    pair: &mut Pair,
    load: &Load,
    parts: [Part; N],
    options: &Options,
) -> [f64; N] {
    options.best(pair, parts.map(|part| move |pair: &mut Pair| part(pair, load)))
}
