//! The sheet of a chart in its three forms, each written from the figures that the Rust answers: the program card's lines, a print in
//! columns, and a JSON object.

use crate::calls::{
    self, Answer, KEYSOUNDS, LAST_BEAT_48THS, MEASURES, NOTES, ROWS, TALLY, TALLY_NAMES,
};
use crate::entry::read_note;
use std::fmt::Write;

#[derive(Clone, Copy, Debug, PartialEq, Eq)]
pub enum Form {
    Card,
    Print,
    Json,
}

/// The forms, each at its number.
pub const FORMS: [Form; 3] = [Form::Card, Form::Print, Form::Json];

/// What a sheet is made of: the main call's answer, the spacing, and the tallies of the kept-row call and of all rows judged.
pub struct ChartFigures {
    pub main: Answer,
    pub spacing: Vec<u8>,
    pub kept: calls::Tally,
    pub judged: calls::Tally,
}

impl ChartFigures {
    #[must_use]
    pub fn of(data: &[u8], lanes: usize) -> Self {
        let main = calls::minimize_chart_count_rows_notes(data, lanes);
        let judged = calls::process_rows_judgable(&main.text, lanes).tally();
        Self {
            spacing: calls::equally_spaced(data, lanes).spacing,
            kept: calls::process_chart_kept(data, lanes).tally(),
            judged,
            main,
        }
    }

    #[must_use]
    pub fn sheet(&self, form: Form) -> String {
        match form {
            Form::Card => self.card(),
            Form::Print => self.print(),
            Form::Json => self.json(),
        }
    }

    fn figure(&self, place: usize) -> u64 {
        self.main.figures[place]
    }

    /// The card's lines.
    fn card(&self) -> String {
        let heads = [
            ("measures", MEASURES),
            ("rows", ROWS),
            ("arrows", TALLY),
            ("steps", TALLY + 5),
            ("keys", KEYSOUNDS),
            ("notes", NOTES),
            ("last", LAST_BEAT_48THS),
        ];
        let mut sheet = String::new();
        for (name, place) in heads {
            let _ = writeln!(sheet, "{name} {}", self.figure(place));
        }
        for (m, (density, spaced)) in self.measures().enumerate() {
            let _ = writeln!(sheet, "m {m} {density} {}", u8::from(spaced));
        }
        for line in note_lines(&self.main.notes) {
            let _ = writeln!(sheet, "n {line}");
        }
        sheet
    }

    /// Each measure's density and whether it is equally spaced.
    fn measures(&self) -> impl Iterator<Item = (u32, bool)> {
        let densities = self.main.densities.iter().copied();
        densities.zip(self.spacing.iter().map(|&spaced| spaced == 1))
    }

    /// The print: names in 12 columns, numbers in 9.
    fn print(&self) -> String {
        let last = self.figure(LAST_BEAT_48THS);
        let mut sheet = String::new();
        for (name, place) in [("measures", MEASURES), ("rows", ROWS), ("notes", NOTES)] {
            let _ = writeln!(sheet, "{name:12}{:9}", self.figure(place));
        }
        let _ = writeln!(
            sheet,
            "{:12}{:9} + {}/48",
            "last beat",
            last / 48,
            last % 48
        );
        let _ = writeln!(sheet, "{:12}{last:9}\n", "in 48ths");
        self.print_tallies(&mut sheet);
        self.print_densities(&mut sheet);
        self.print_holds(&mut sheet);
        sheet
    }

    fn print_tallies(&self, sheet: &mut String) {
        let _ = writeln!(sheet, "{:12}{:>9}{:>9}{:>9}", "", "main", "kept", "judged");
        let main = self.main.tally();
        for (place, name) in TALLY_NAMES.iter().enumerate() {
            let counts = [main, self.kept, self.judged].map(|tally| tally[place]);
            let [main, kept, judged] = counts;
            let _ = writeln!(sheet, "{name:12}{main:9}{kept:9}{judged:9}");
        }
        sheet.push('\n');
    }

    fn print_densities(&self, sheet: &mut String) {
        sheet.push_str("densities, 16 measures to a line; = equally spaced, - not");
        for (m, (density, spaced)) in self.measures().enumerate() {
            if m % 16 == 0 {
                let _ = write!(sheet, "\n{m:7}:");
            }
            let mark = if spaced { '=' } else { '-' };
            let _ = write!(sheet, "{density:3}{mark}");
        }
        sheet.push_str("\n\n");
    }

    fn print_holds(&self, sheet: &mut String) {
        sheet.push_str("holds and rolls\n");
        let _ = writeln!(sheet, "{:4}{:>9}{:>9}{:>9}", "", "row", "column", "tail");
        for [row, tail, column, kind] in notes_of(&self.main.notes) {
            let name = match kind {
                1 => "hold",
                2 => "roll",
                _ => continue,
            };
            let _ = writeln!(sheet, "{name}{row:9}{column:9}{tail:9}");
        }
    }

    /// The object: no blank and no newline.
    fn json(&self) -> String {
        let last = self.figure(LAST_BEAT_48THS);
        let densities = self.main.densities.iter().map(ToString::to_string);
        let spacing = self.measures().map(|(_, spaced)| spaced.to_string());
        let notes = notes_of(&self.main.notes).map(|[row, tail, column, kind]| {
            let tail = tail_or(tail, "null");
            listed([row.to_string(), column.to_string(), kind.to_string(), tail])
        });
        let last = [
            ("beats", (last / 48).to_string()),
            ("over_48", (last % 48).to_string()),
            ("in_48ths", last.to_string()),
        ];
        object([
            ("measures", self.figure(MEASURES).to_string()),
            ("rows", self.figure(ROWS).to_string()),
            ("notes", self.figure(NOTES).to_string()),
            ("last_beat", object(last)),
            ("main", tally_object(self.main.tally())),
            ("kept", tally_object(self.kept)),
            ("judged", tally_object(self.judged)),
            ("densities", listed(densities)),
            ("equally_spaced", listed(spacing)),
            ("note_records", listed(notes)),
        ])
    }
}

fn tally_object(tally: calls::Tally) -> String {
    let counts = tally.into_iter().map(|count| count.to_string());
    object(TALLY_NAMES.into_iter().zip(counts))
}

/// Members by their names, which want no escape.
fn object<'a>(members: impl IntoIterator<Item = (&'a str, String)>) -> String {
    let members = members.into_iter();
    let members: Vec<_> = members
        .map(|(name, value)| format!("\"{name}\":{value}"))
        .collect();
    format!("{{{}}}", members.join(","))
}

fn listed(values: impl IntoIterator<Item = String>) -> String {
    let values: Vec<_> = values.into_iter().collect();
    format!("[{}]", values.join(","))
}

/// The notes of records back to back: row, tail, column, kind.
fn notes_of(notes: &[u8]) -> impl Iterator<Item = [u64; 4]> {
    let count = notes.len() / calls::NOTE_BYTES;
    (0..count)
        .map(|index| read_note(notes, index).expect("the writer keeps to the limits of a record"))
}

/// A line for each record: row, column, kind, tail or `-`.
#[must_use]
pub fn note_lines(notes: &[u8]) -> Vec<String> {
    let line = |[row, tail, column, kind]: [u64; 4]| {
        format!("{row} {column} {kind} {}", tail_or(tail, "-"))
    };
    notes_of(notes).map(line).collect()
}

fn tail_or(tail: u64, none: &str) -> String {
    if tail == u64::from(calls::NO_TAIL) {
        none.to_string()
    } else {
        tail.to_string()
    }
}
