//! What was measured, and the tables it is printed in.

use crate::loads::{Lines, Text};
use crate::loans;
use crate::ways::Way;
use oracle::calls::Call;
use oracle::entry::MAX_LEN;

/// What is printed as 1.00 or more is at least this.
const ROUNDED_ONE: f64 = 0.995;

/// What is printed as 1.20 or more, the main call's goal, is at least this.
const MAIN_GOAL: f64 = 1.195;

/// One cell: a call made in one way on one load, the best times in seconds.
pub struct Cell {
    pub way: Way,
    pub call: Call,
    pub text: Text,
    pub lines: Lines,
    pub lanes: usize,
    pub bytes: f64,
    pub ours: f64,
    pub rust: f64,
    /// A look at the same bytes as the call's zeros; an entry that is lent a slice has it.
    pub zeros: Option<f64>,
}

impl Cell {
    fn ratio(&self) -> f64 {
        self.rust / self.ours
    }

    /// The ratio that the call has less its zeros.
    fn less_zeros(&self) -> Option<f64> {
        self.zeros.map(|zeros| self.rust / (self.ours - zeros))
    }

    /// Whether it is printed as less than 1.00.
    fn is_under(&self) -> bool {
        self.ratio() < ROUNDED_ONE
    }

    /// Whether it is printed as less than its goal.
    fn misses_goal(&self) -> bool {
        let goal = match self.call {
            Call::MinimizeChartCountRowsNotes => MAIN_GOAL,
            _ => ROUNDED_ONE,
        };
        self.ratio() < goal
    }

    /// Millions of bytes of text a second.
    fn speed(&self, seconds: f64) -> f64 {
        self.bytes / 1e6 / seconds
    }

    fn has_line_of(&self, other: &Self) -> bool {
        self.way == other.way && self.call == other.call && self.text == other.text
    }

    fn line_name(&self) -> String {
        let (way, call, text) = (self.way.name(), self.call.name(), self.text.name());
        format!("| {way} | `{call}` | {text} |")
    }
}

/// How many cells under 1.00 are printed with their speeds of each of the three kinds.
const WORST: usize = 5;

/// How many cells are under 1.00, the entries', those over resident slices and the binding's apart, and the worst of them first.
pub fn print_worst(cells: &[Cell]) {
    for name in [ENTRIES, RESIDENT, BINDING] {
        let is_here = |cell: &&Cell| kind(cell.way) == name;
        let count = cells.iter().filter(is_here).count();
        let mut worst: Vec<&Cell> = cells.iter().filter(is_here).collect();
        worst.retain(|cell| cell.is_under());
        worst.sort_by(|a, b| a.ratio().total_cmp(&b.ratio()));
        println!("Under 1.00, {name}: {} of {count} cells.\n", worst.len());
        if !worst.is_empty() {
            print_speeds(worst.into_iter().take(WORST));
        }
    }
}

const ENTRIES: &str = "entries";
const RESIDENT: &str = "entries over resident slices";
const BINDING: &str = "the binding's calls";

/// What a way's cells are told with.
fn kind(way: Way) -> &'static str {
    match way {
        Way::Entry => ENTRIES,
        Way::Resident => RESIDENT,
        _ => BINDING,
    }
}

/// How many cells of the entries are under 1.00 and would not be less their zeros, and the ratios that these have less them.
pub fn print_under_by_zeros(cells: &[Cell]) {
    let less = cells
        .iter()
        .filter(|cell| cell.is_under())
        .filter_map(Cell::less_zeros)
        .filter(|&less| less >= ROUNDED_ONE);
    let count = less.clone().count();
    print!("Under 1.00 by the zeros alone: {count} cells");
    if let Some(range) = range(less) {
        print!("; less a look at them {range}");
    }
    println!(".\n");
}

/// The least and the greatest ratio of each call made in each way, over all texts, line ends and lane counts.
pub fn print_ranges(cells: &[Cell], calls: &[Call], ways: &[Way]) {
    print_head("| call |", ways.iter().map(|way| way.name().to_owned()));
    for &call in calls {
        print!("| `{}` |", call.name());
        for &way in ways {
            let here = cells
                .iter()
                .filter(|cell| cell.way == way && cell.call == call);
            print!(" {} |", range(here.map(Cell::ratio)).unwrap_or_default());
        }
        println!();
    }
    println!();
}

/// The least and the greatest of some ratios, in words; none where there are none.
fn range(ratios: impl Iterator<Item = f64>) -> Option<String> {
    let (least, most) = ratios.fold((f64::MAX, f64::MIN), |(least, most), ratio| {
        (least.min(ratio), most.max(ratio))
    });
    (least <= most).then(|| format!("{least:.2} to {most:.2}"))
}

/// How many bytes the slices have that an entry is lent for the longest text.
pub fn print_memory(calls: &[Call], lanes: &[usize]) {
    print_head("| call |", lane_names(lanes));
    for &call in calls {
        print!("| `{}` |", call.name());
        for &lanes in lanes {
            print!(
                " {} |",
                grouped(loans::bytes(&loans::lent(call, MAX_LEN, lanes)))
            );
        }
        println!();
    }
}

/// A number with a comma between thousands.
fn grouped(number: usize) -> String {
    match number / 1000 {
        0 => number.to_string(),
        rest => format!("{},{:03}", grouped(rest), number % 1000),
    }
}

/// A table's head: some columns, and more of these names.
pub fn print_head(columns: &str, names: impl Iterator<Item = String>) {
    let head = names.fold(columns.to_owned(), |head, name| format!("{head} {name} |"));
    println!("{head}\n|{}", "---|".repeat(head.matches('|').count() - 1));
}

/// The names of columns, one for each lane count.
pub fn lane_names(lanes: &[usize]) -> impl Iterator<Item = String> {
    lanes.iter().map(|lanes| format!("{lanes} lanes"))
}

/// The speeds of cells, one a line.
pub fn print_speeds<'a>(cells: impl Iterator<Item = &'a Cell>) {
    println!(
        "| way | call | text | lines | lanes | ours, MB/s | the Rust, MB/s | ratio | a look at its zeros, MB/s | ratio less zeros |"
    );
    println!("|---|---|---|---|---|---|---|---|---|---|");
    for cell in cells {
        let optional = |number: Option<String>| number.unwrap_or_default();
        let zeros = cell.zeros.map(|zeros| cell.speed(zeros));
        println!(
            "{} {} | {} | {:.0} | {:.0} | {:.2} | {} | {} |",
            cell.line_name(),
            cell.lines.name(),
            cell.lanes,
            cell.speed(cell.ours),
            cell.speed(cell.rust),
            cell.ratio(),
            optional(zeros.map(|speed| format!("{speed:.0}"))),
            optional(cell.less_zeros().map(|ratio| format!("{ratio:.2}"))),
        );
    }
    println!();
}

/// The ratios of all cells, one line for the line ends and lane counts of a call on a text; those under 1.00 are bold.
pub fn print_ratios(cells: &[Cell], lines: &[Lines], lanes: &[usize]) {
    let columns: Vec<(Lines, usize)> = lines
        .iter()
        .flat_map(|&lines| lanes.iter().map(move |&lanes| (lines, lanes)))
        .collect();
    let names = columns
        .iter()
        .map(|(lines, lanes)| format!("{} {lanes}", lines.name()));
    print_head("| way | call | text |", names);
    for (place, first) in cells.iter().enumerate() {
        if cells[..place].iter().any(|cell| cell.has_line_of(first)) {
            continue;
        }
        print!("{}", first.line_name());
        for &(lines, lanes) in &columns {
            let is_here = |cell: &&Cell| {
                cell.lines == lines && cell.lanes == lanes && cell.has_line_of(first)
            };
            let cell = cells.iter().find(is_here);
            print!(" {} |", cell.map(ratio_words).unwrap_or_default());
        }
        println!();
    }
    println!();
}

/// A ratio; under 1.00 it is bold, and under its goal what it is less the zeros follows in brackets.
fn ratio_words(cell: &Cell) -> String {
    let mut words = format!("{:.2}", cell.ratio());
    if cell.is_under() {
        words = format!("**{words}**");
    }
    match cell.less_zeros() {
        Some(less) if cell.misses_goal() => format!("{words} ({less:.2})"),
        _ => words,
    }
}
