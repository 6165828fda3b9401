//! The oracle as a program: figures of a text, the charts of an SM file, the sheet of a chart, a chart written from notes, a pad trace set against notes,
//! and the stored samples.

use oracle::calls::{self, Answer, CALLS, Call, TALLY_NAMES};
use oracle::card::card;
use oracle::deciding::TEXTS;
use oracle::dropped::heads_in;
use oracle::entry::{MAX_LEN, is_lane_count};
use oracle::presses::Pressed;
use oracle::sheet::{ChartFigures, Form, note_lines};
use oracle::sm::{SmChart, charts};
use oracle::sm_deciding::FILES;
use oracle::written::Given;
use oracle::{sm_vectors, vectors};
use std::env;
use std::fs;
use std::io::{self, Read, Write};
use std::panic;
use std::process::ExitCode;

const HELP: &str = "\
oracle figures LANES [FLAGSFILE] < TEXT   every figure of the nine chart calls
oracle sm < FILE                          the charts of an SM file
oracle card < TEXT                        what the program card prints
oracle sheet FORM LANES < TEXT            the sheet of a chart; FORM is card, print or json
oracle write LANES ROWSFILE < RECORDS     the chart that is written from note records
oracle press TRACEFILE < RECORDS          hits, strays and misses of a pad trace set against note records
oracle vectors SEED OUT                   write the sample of answers to the file OUT
oracle files SEED OUT                     write the sample of SM files to the file OUT
oracle differing SAMPLE                   the texts or files of a sample that are answered differently
oracle --help                             this help

LANES is a lane count, 4, 5, 6, 8 or 10. FLAGSFILE holds one byte a row,
0 for unjudged; a row past them is unjudged, without it every row is.
ROWSFILE has the row count of each measure on a line, TRACEFILE the records of presses.
The line of `oracle press` has the 23 places or the refusal. `oracle sm` has a line for each
block: its number from 0, then lane count, start and length of its data, or the
refusal.
";

fn main() -> ExitCode {
    let args: Vec<String> = env::args().skip(1).collect();
    let args: Vec<&str> = args.iter().map(String::as_str).collect();
    match run(&args) {
        Ok(()) => ExitCode::SUCCESS,
        Err(message) => {
            eprintln!("oracle: {message}");
            ExitCode::FAILURE
        }
    }
}

fn run(args: &[&str]) -> Result<(), String> {
    match args {
        ["--help" | "-h"] => print(HELP.as_bytes()),
        ["figures", lanes] => figures(lanes, &[]),
        ["figures", lanes, flags] => figures(lanes, &read_file(flags)?),
        ["sm"] => print_charts(),
        ["card"] => print(card(&read_text()?).as_bytes()),
        ["sheet", form, lanes] => print_sheet(form, lanes),
        ["write", lanes, rows] => write_chart(lanes, rows),
        ["press", trace] => print_presses(trace),
        ["vectors", seed, out] => write_sample(vectors::file, seed, out),
        ["files", seed, out] => write_sample(sm_vectors::sample, seed, out),
        ["differing", sample] => print_differing(sample),
        [] => Err(String::from("what to do? `oracle --help` lists it")),
        _ => Err(format!(
            "not understood: `{}`; see `oracle --help`",
            args.join(" ")
        )),
    }
}

fn figures(lanes: &str, flags: &[u8]) -> Result<(), String> {
    let lanes = parse_lanes(lanes)?;
    let text = read_text()?;
    let mut lines = Vec::new();
    for call in CALLS {
        lines.push(call.name().to_string());
        let answer = calls::answer(call, &text, lanes, flags);
        lines.extend(answer_lines(call, &answer).iter().map(|l| format!("  {l}")));
    }
    lines.push(String::new());
    print(lines.join("\n").as_bytes())
}

/// The figures and slices that this call answers, one a line.
fn answer_lines(call: Call, answer: &Answer) -> Vec<String> {
    match call {
        Call::MinimizeChartCountRowsNotes => [
            text_lines(answer),
            vec![measures_line(answer), rows_line(answer)],
            last_beat_lines(answer),
            tally_lines(answer),
            vec![densities_line(answer), beats_line(answer)],
            notes_lines(answer),
        ]
        .concat(),
        Call::ProcessChartKept => [
            text_lines(answer),
            vec![measures_line(answer), rows_line(answer)],
            tally_lines(answer),
            vec![densities_line(answer)],
        ]
        .concat(),
        Call::MinimizeTimingRows => [
            text_lines(answer),
            vec![
                rows_line(answer),
                format!("has_heads {}", answer.figures[calls::HAS_HEADS]),
                beats_line(answer),
            ],
        ]
        .concat(),
        Call::MeasureDensities => vec![measures_line(answer), densities_line(answer)],
        Call::EquallySpaced => vec![measures_line(answer), listed("spacing", &answer.spacing)],
        Call::ChartLastBeat => last_beat_lines(answer),
        Call::ProcessRowsJudgable | Call::ProcessTimingRows => tally_lines(answer),
        Call::DroppedHolds => [
            text_lines(answer),
            vec![measures_line(answer), rows_line(answer)],
            dropped_lines(answer),
        ]
        .concat(),
    }
}

fn text_lines(answer: &Answer) -> Vec<String> {
    vec![
        format!("text_bytes {}", answer.figures[calls::TEXT_BYTES]),
        format!("text \"{}\"", answer.text.escape_ascii()),
    ]
}

fn measures_line(answer: &Answer) -> String {
    format!("measures {}", answer.figures[calls::MEASURES])
}

fn rows_line(answer: &Answer) -> String {
    format!("rows {}", answer.figures[calls::ROWS])
}

fn densities_line(answer: &Answer) -> String {
    listed("densities", &answer.densities)
}

fn beats_line(answer: &Answer) -> String {
    listed("beats", &answer.beats)
}

fn last_beat_lines(answer: &Answer) -> Vec<String> {
    let bits = answer.figures[calls::LAST_BEAT];
    vec![
        format!("last_beat {} bits {bits}", f64::from_bits(bits)),
        format!("last_beat_48ths {}", answer.figures[calls::LAST_BEAT_48THS]),
    ]
}

fn tally_lines(answer: &Answer) -> Vec<String> {
    let named = TALLY_NAMES.iter().zip(answer.tally());
    named
        .map(|(name, count)| format!("{name} {count}"))
        .collect()
}

fn notes_lines(answer: &Answer) -> Vec<String> {
    let mut lines = vec![format!("notes {}", answer.figures[calls::NOTES])];
    lines.extend(
        note_lines(&answer.notes)
            .iter()
            .map(|l| format!("note {l}")),
    );
    lines
}

/// Row, column, reason and the row that dropped it of each dropped head.
fn dropped_lines(answer: &Answer) -> Vec<String> {
    let heads = heads_in(&answer.notes);
    let mut lines = vec![format!("dropped {}", heads.len())];
    lines.extend(heads.iter().map(|head| {
        let by = head.by.map_or(String::from("-"), |by| by.to_string());
        format!("dropped {} {} {} {by}", head.row, head.column, head.reason)
    }));
    lines
}

fn listed<T: ToString>(name: &str, values: &[T]) -> String {
    let mut words = vec![name.to_string()];
    words.extend(values.iter().map(T::to_string));
    words.join(" ")
}

fn print_sheet(form: &str, lanes: &str) -> Result<(), String> {
    let form = match form {
        "card" => Form::Card,
        "print" => Form::Print,
        "json" => Form::Json,
        _ => return Err(format!("`{form}` is no form; see `oracle --help`")),
    };
    let lanes = parse_lanes(lanes)?;
    let sheet = ChartFigures::of(&read_text()?, lanes).sheet(form);
    print(sheet.as_bytes())
}

/// The text that is written, or the refusal, whatever the lane number is.
fn write_chart(lanes: &str, rows: &str) -> Result<(), String> {
    let lanes = parse_number("LANES", lanes)?;
    let counts = String::from_utf8_lossy(&read_file(rows)?)
        .lines()
        .map(|line| {
            line.parse()
                .map_err(|_| format!("`{line}` is no row count"))
        })
        .collect::<Result<Vec<u32>, String>>()?;
    let given = Given {
        records: read_text()?,
        lanes: usize::try_from(lanes).unwrap_or(usize::MAX),
        counts,
    };
    match given.chart() {
        Ok(text) => print(&text),
        Err(refusal) => print(format!("refused {refusal}\n").as_bytes()),
    }
}

/// The 23 places, or the refusal.
fn print_presses(trace: &str) -> Result<(), String> {
    let pressed = Pressed {
        records: read_text()?,
        trace: read_file(trace)?,
    };
    let line = match pressed.answer() {
        Ok(places) => listed("presses", &places),
        Err(refusal) => format!("refused {refusal}"),
    };
    print(format!("{line}\n").as_bytes())
}

/// What is answered for each block of a file; a file that is too long has one answer for all.
fn print_charts() -> Result<(), String> {
    let file = read_text()?;
    if file.len() > MAX_LEN {
        return print(b"refused 1\n");
    }
    let line = |(k, answer): (usize, Result<SmChart, u32>)| match answer {
        Ok(chart) => format!(
            "{k} lanes {} start {} length {}\n",
            chart.lanes, chart.start, chart.len
        ),
        Err(refusal) => format!("{k} refused {refusal}\n"),
    };
    let lines: String = charts(&file).enumerate().map(line).collect();
    print(lines.as_bytes())
}

fn write_sample(sample: fn(u64) -> Vec<u8>, seed: &str, out: &str) -> Result<(), String> {
    let bytes = sample(parse_number("SEED", seed)?);
    fs::write(out, bytes).map_err(|error| format!("cannot write `{out}`: {error}"))
}

/// The number of each text or file, and its name where one rule decides it.
fn print_differing(sample: &str) -> Result<(), String> {
    let stored = read_file(sample)?;
    // A text whose answer stops is listed, and no more is said of it.
    panic::set_hook(Box::new(|_| {}));
    let lines: String = if stored.starts_with(sm_vectors::MARK) {
        let name = |number: usize| FILES.get(number).map(|file| file.name);
        let numbers = sm_vectors::differing(&stored).into_iter();
        numbers.map(|n| differing_line(n, name(n))).collect()
    } else {
        let first = vectors::samples(vectors::SEED).len() - TEXTS.len();
        let name = |number: usize| number.checked_sub(first).map(|i| TEXTS[i].name);
        let numbers = vectors::differing(&stored).into_iter();
        numbers.map(|n| differing_line(n, name(n))).collect()
    };
    print(lines.as_bytes())
}

fn differing_line(number: usize, name: Option<&str>) -> String {
    format!("{number} {}\n", name.unwrap_or("-"))
}

fn parse_number(name: &str, text: &str) -> Result<u64, String> {
    text.parse()
        .map_err(|_| format!("{name} is a whole number below 2^64, not `{text}`"))
}

fn parse_lanes(text: &str) -> Result<usize, String> {
    let lanes = parse_number("LANES", text)?;
    let lanes = usize::try_from(lanes).ok();
    lanes
        .filter(|&lanes| is_lane_count(lanes))
        .ok_or_else(|| format!("LANES is 4, 5, 6, 8 or 10, not `{text}`"))
}

fn read_file(path: &str) -> Result<Vec<u8>, String> {
    fs::read(path).map_err(|error| format!("cannot read `{path}`: {error}"))
}

fn read_text() -> Result<Vec<u8>, String> {
    let mut text = Vec::new();
    io::stdin()
        .read_to_end(&mut text)
        .map_err(|error| format!("cannot read the text: {error}"))?;
    Ok(text)
}

fn print(bytes: &[u8]) -> Result<(), String> {
    io::stdout()
        .write_all(bytes)
        .map_err(|error| format!("cannot print: {error}"))
}
