//! What stands around the library's sheet: head and foot on paper, the names of file and chart in JSON.

mod trace;

pub use trace::{Answer, Broken, First, Pad, Place};

use crate::charts::shortened;
use crate::checksum::Sum;
use crate::help::{KIT, LIBRARY};
use crate::input::shown;
use crate::json::quoted;
use crate::measures::{Measures, Spot};
use padcheck::{DropCause, Refusal, SheetForm};
use std::fmt::Display;
use std::io::{self, Write};
use std::mem;
use std::path::Path;

/// Whose sheet it is.
pub struct Subject<'a> {
    /// The file.
    pub path: &'a Path,
    /// Its length and checksum; none where it is too long.
    pub sum: Option<Sum>,
    /// The chart's number in it and its type as it is written; none for bare note data, or where the whole file is refused.
    pub chart: Option<(usize, &'a [u8])>,
    /// Why the file and the chart are doubtful, where they are taken all the same.
    pub forced: Vec<String>,
}

/// The columns of a line on paper.
const COLUMNS: usize = 80;

/// The columns that stand before the first density of a line of the library's.
const DENSITY_INDENT: usize = 8;

/// The names of the columns of dropped heads: where each stands, and what dropped it.
const DROPPED_HEAD: &str =
    "         row column measure in it        beat  dropped by          row measure";

/// The names of the columns of holds and rolls, as the library writes them.
const HELD_HEAD: &[u8] = b"          row   column     tail\n";

/// Where the rows of a chart stand.
#[derive(Default)]
pub struct Places<'a> {
    /// In which measure.
    pub measures: Measures,
    /// At which beat.
    pub beats: &'a [f32],
}

/// A head that has no note.
pub struct Dropped {
    /// `hold` or `roll`.
    pub name: &'static str,
    pub column: usize,
    /// Where it stands.
    pub at: Spot,
    pub beat: f32,
    /// What dropped it, and where that stands; the chart's end stands nowhere.
    pub cause: DropCause,
    pub by: Option<Spot>,
}

/// Writes sheets in one form.
pub struct Sheets<'a> {
    form: SheetForm,
    out: &'a mut dyn Write,
    /// Whether a sheet stands there, which an empty line sets off from the next on paper.
    begun: bool,
}

impl<'a> Sheets<'a> {
    pub fn new(form: SheetForm, out: &'a mut dyn Write) -> Self {
        let begun = false;
        Self { form, out, begun }
    }

    /// Where lines between sheets are to go.
    pub fn out(&mut self) -> &mut dyn Write {
        self.out
    }

    /// The sheet of a chart, of which the library wrote `figures`.
    pub fn sheet(
        &mut self,
        subject: &Subject,
        lanes: usize,
        figures: &[u8],
        places: &Places,
    ) -> io::Result<()> {
        match self.form {
            SheetForm::Card => {
                if let Some((number, name)) = subject.chart {
                    writeln!(self.out, "chart {number} {}", shortened(name))?;
                }
                for why in &subject.forced {
                    writeln!(self.out, "forced: {why}")?;
                }
                self.out.write_all(figures)
            }
            SheetForm::Print => {
                self.head_with_lanes(subject, lanes)?;
                self.figures_on_paper(figures, places)?;
                writeln!(self.out, "\nlibrary {LIBRARY}, kit {KIT}\n")?;
                self.forced_on_paper(subject)?;
                writeln!(
                    self.out,
                    "checked by ____________________  date ____________"
                )
            }
            SheetForm::Json => {
                let head = json_head(subject, lanes);
                write!(self.out, "{{{head},\"figures\":")?;
                self.out.write_all(figures)?;
                self.out.write_all(b"}\n")
            }
        }
    }

    /// The heads of a chart that have no note.
    pub fn dropped(
        &mut self,
        subject: &Subject,
        lanes: usize,
        heads: impl Iterator<Item = Dropped>,
    ) -> io::Result<()> {
        match self.form {
            SheetForm::Json => self.dropped_in_json(subject, lanes, heads),
            SheetForm::Card | SheetForm::Print => self.dropped_on_paper(subject, lanes, heads),
        }
    }

    fn dropped_on_paper(
        &mut self,
        subject: &Subject,
        lanes: usize,
        heads: impl Iterator<Item = Dropped>,
    ) -> io::Result<()> {
        self.head_with_lanes(subject, lanes)?;
        self.forced_on_paper(subject)?;
        let mut heads = heads.peekable();
        if heads.peek().is_none() {
            return writeln!(self.out, "no hold came to nothing");
        }
        writeln!(
            self.out,
            "holds and rolls that came to nothing\n{DROPPED_HEAD}"
        )?;
        for head in heads {
            let Dropped {
                name,
                column,
                at,
                beat,
                cause,
                by,
            } = head;
            let cause = match cause {
                DropCause::OtherHead(_) => "another head",
                DropCause::OtherCell(_) => "another cell",
                DropCause::ChartEnd => "the chart's end",
            };
            let Spot {
                row,
                measure,
                row_in_measure,
            } = at;
            // A number that is wider than its column still has a blank before it.
            write!(
                self.out,
                "{name} {row:>7} {column:>6} {measure:>7} {row_in_measure:>5} {beat:>11}"
            )?;
            match by {
                None => writeln!(self.out, "  {cause}")?,
                Some(Spot { row, measure, .. }) => {
                    writeln!(self.out, "  {cause:<15} {row:>7} {measure:>7}")?;
                }
            }
        }
        Ok(())
    }

    fn dropped_in_json(
        &mut self,
        subject: &Subject,
        lanes: usize,
        heads: impl Iterator<Item = Dropped>,
    ) -> io::Result<()> {
        let head = json_head(subject, lanes);
        write!(self.out, "{{{head},\"dropped\":[")?;
        let mut comma = "";
        for head in heads {
            let Dropped {
                name,
                column,
                at,
                beat,
                cause,
                by,
            } = head;
            let cause = match cause {
                DropCause::OtherHead(_) => "other_head",
                DropCause::OtherCell(_) => "other_cell",
                DropCause::ChartEnd => "chart_end",
            };
            let Spot {
                row,
                measure,
                row_in_measure,
            } = at;
            write!(
                self.out,
                "{comma}{{\"row\":{row},\"measure\":{measure},\"row_in_measure\":{row_in_measure},\"beat\":{beat},\
                 \"column\":{column},\"head\":\"{name}\",\"cause\":\"{cause}\","
            )?;
            match by {
                None => write!(self.out, "\"by_row\":null,\"by_measure\":null}}")?,
                Some(Spot { row, measure, .. }) => {
                    write!(self.out, "\"by_row\":{row},\"by_measure\":{measure}}}")?;
                }
            }
            comma = ",";
        }
        self.out.write_all(b"]}\n")
    }

    /// What stands in place of a sheet that is refused.
    pub fn refused(&mut self, subject: &Subject, refusal: Refusal, words: &str) -> io::Result<()> {
        let number = refusal.number();
        match (self.form, subject.chart) {
            (SheetForm::Card, Some((chart, b""))) => {
                writeln!(self.out, "chart {chart} refused {number}: {words}")
            }
            (SheetForm::Card, Some((chart, name))) => {
                let name = shortened(name);
                writeln!(self.out, "chart {chart} {name} refused {number}: {words}")
            }
            (SheetForm::Card, None) => writeln!(self.out, "refused {number}: {words}"),
            (SheetForm::Print, _) => {
                self.head(subject)?;
                self.sentence(&format!("refused {number}: {words}"))
            }
            (SheetForm::Json, _) => {
                let (subject, words) = (json_subject(subject), quoted(words));
                writeln!(
                    self.out,
                    "{{{subject},\"refused\":{number},\"words\":{words}}}"
                )
            }
        }
    }

    /// The head on paper: the file, its length and checksum, the chart's number and type.
    fn head(&mut self, subject: &Subject) -> io::Result<()> {
        if self.begun {
            writeln!(self.out)?;
        }
        self.begun = true;
        self.file("file", subject.path, subject.sum)?;
        if let Some((number, name)) = subject.chart {
            let line = format!("{:<11}{number:>10}  {}", "chart", shortened(name));
            writeln!(self.out, "{}", line.trim_end())?;
        }
        Ok(())
    }

    /// The head of a chart that is read, on paper.
    fn head_with_lanes(&mut self, subject: &Subject, lanes: usize) -> io::Result<()> {
        self.head(subject)?;
        self.number("lanes", lanes)?;
        writeln!(self.out)
    }

    /// A file on paper, with its length and checksum where it has them.
    fn file(&mut self, label: &str, path: &Path, sum: Option<Sum>) -> io::Result<()> {
        let mut label = label;
        for part in folded(&shown(path), COLUMNS - 12) {
            writeln!(self.out, "{label:<12}{part}")?;
            label = "";
        }
        if let Some(Sum { length, cksum }) = sum {
            self.number("length", length)?;
            self.number("cksum", cksum)?;
        }
        Ok(())
    }

    /// A number on paper, behind what it is.
    fn number(&mut self, label: &str, number: impl Display) -> io::Result<()> {
        writeln!(self.out, "{label:<11}{number:>10}")
    }

    /// A sentence on paper.
    fn sentence(&mut self, sentence: &str) -> io::Result<()> {
        for line in wrapped(sentence) {
            writeln!(self.out, "{line}")?;
        }
        Ok(())
    }

    /// The library's lines on paper, with measure and beat beside those of holds and rolls.
    fn figures_on_paper(&mut self, figures: &[u8], places: &Places) -> io::Result<()> {
        let mut lines = figures.split_inclusive(|&byte| byte == b'\n');
        for line in lines.by_ref() {
            if line == HELD_HEAD {
                self.beside(line, "measure", "beat")?;
                break;
            }
            self.line_on_paper(line)?;
        }
        for line in lines {
            let row = held_row(line).expect("the library writes a row's number there");
            self.beside(line, places.measures.of_row(row), places.beats[row])?;
        }
        Ok(())
    }

    /// A line, and beside it two columns more.
    fn beside(&mut self, line: &[u8], measure: impl Display, beat: impl Display) -> io::Result<()> {
        self.out.write_all(line.trim_ascii_end())?;
        writeln!(self.out, "{measure:>9} {beat:>12}")
    }

    /// A line of the library's. Of one of densities that is too long, some of 1,000 or more, the rest stands below.
    fn line_on_paper(&mut self, line: &[u8]) -> io::Result<()> {
        let (mut rest, mut columns) = (line, COLUMNS);
        while rest.trim_ascii_end().len() > columns {
            let mark = rest[..columns]
                .iter()
                .rposition(|byte| b"=-".contains(byte));
            let (part, after) = rest.split_at(mark.map_or(columns, |place| place + 1));
            self.out.write_all(part)?;
            write!(self.out, "\n{:DENSITY_INDENT$}", "")?;
            (rest, columns) = (after, COLUMNS - DENSITY_INDENT);
        }
        self.out.write_all(rest)
    }

    /// Why a sheet on paper is doubtful, in lines that an empty one sets off.
    fn forced_on_paper(&mut self, subject: &Subject) -> io::Result<()> {
        for why in &subject.forced {
            self.sentence(&format!("forced: {why}"))?;
        }
        if !subject.forced.is_empty() {
            writeln!(self.out)?;
        }
        Ok(())
    }
}

/// The row in a line of holds and rolls, which stands after the first word.
fn held_row(line: &[u8]) -> Option<usize> {
    let line = str::from_utf8(line).ok()?;
    line.split_ascii_whitespace().nth(1)?.parse().ok()
}

/// A text in parts of so many columns, of which a letter that is not ASCII may take two; an empty one is one empty part.
fn folded(text: &str, columns: usize) -> Vec<String> {
    let mut parts = Vec::new();
    let (mut part, mut taken) = (String::new(), 0);
    for letter in text.chars() {
        let wide = if letter.is_ascii() { 1 } else { 2 };
        if taken + wide > columns {
            parts.push(mem::take(&mut part));
            taken = 0;
        }
        part.push(letter);
        taken += wide;
    }
    parts.push(part);
    parts
}

/// A sentence in lines that end between words; those after the first are set in.
fn wrapped(sentence: &str) -> Vec<String> {
    let mut lines = Vec::new();
    let mut line = String::new();
    for word in sentence.split(' ') {
        if line.is_empty() {
            line += word;
        } else if line.len() + 1 + word.len() <= COLUMNS {
            line = line + " " + word;
        } else {
            lines.push(line);
            line = format!("{:4}{word}", "");
        }
    }
    lines.push(line);
    lines
}

/// The file and the chart in JSON.
fn json_subject(subject: &Subject) -> String {
    let file = json_file(subject.path, subject.sum);
    format!("{file},{}", json_chart(subject))
}

/// A file in JSON, and its length and checksum where it has them.
fn json_file(path: &Path, sum: Option<Sum>) -> String {
    let file = quoted(&path.to_string_lossy());
    let sum = sum.map_or_else(String::new, |Sum { length, cksum }| {
        format!(",\"length\":{length},\"cksum\":{cksum}")
    });
    format!("\"file\":{file}{sum}")
}

/// What stands in JSON before the figures: the file and the chart, its lanes, and why it is doubtful where it is taken all the
/// same.
fn json_head(subject: &Subject, lanes: usize) -> String {
    let forced: Vec<_> = subject.forced.iter().map(|why| quoted(why)).collect();
    let forced = match &forced[..] {
        [] => String::new(),
        forced => format!(",\"forced\":[{}]", forced.join(",")),
    };
    format!("{},\"lanes\":{lanes}{forced}", json_subject(subject))
}

fn json_chart(subject: &Subject) -> String {
    match subject.chart {
        None => String::from("\"chart\":null,\"type\":null"),
        Some((number, name)) => {
            let name = quoted(&String::from_utf8_lossy(name));
            format!("\"chart\":{number},\"type\":{name}")
        }
    }
}

#[cfg(test)]
mod tests {
    use super::*;

    /// What is written in a form.
    fn written(form: SheetForm, write: impl Fn(&mut Sheets) -> io::Result<()>) -> String {
        let mut out = Vec::new();
        write(&mut Sheets::new(form, &mut out)).unwrap();
        String::from_utf8(out).unwrap()
    }

    fn subject<'a>(path: &'a str, chart: Option<(usize, &'a [u8])>) -> Subject<'a> {
        Subject {
            path: Path::new(path),
            sum: Some(Sum {
                length: 7,
                cksum: 4_294_967_295,
            }),
            chart,
            forced: Vec::new(),
        }
    }

    #[test]
    fn a_sheet_on_paper_has_head_and_foot() {
        let of = subject("a.sm", Some((2, b"dance-single")));
        let sheet = written(SheetForm::Print, |sheets| {
            sheets.sheet(&of, 4, b"measures\n", &Places::default())
        });
        let wanted = "file        a.sm\n\
                      length              7\n\
                      cksum      4294967295\n\
                      chart               2  dance-single\n\
                      lanes               4\n\n\
                      measures\n\n\
                      library 0.5.0, kit rattle-kit-13f logic dac8208d650f15bf\n\n\
                      checked by ____________________  date ____________\n";
        assert_eq!(sheet, wanted);
    }

    #[test]
    fn a_long_name_is_folded_within_80_columns() {
        let path = "x".repeat(150);
        let of = subject(&path, None);
        let sheet = written(SheetForm::Print, |sheets| {
            sheets.sheet(&of, 4, b"", &Places::default())
        });
        let names: Vec<_> = sheet.lines().take(3).collect();
        assert_eq!(
            names.iter().map(|line| line.len()).collect::<Vec<_>>(),
            [80, 80, 26]
        );
        assert!(names[0].starts_with("file        x") && names[1].starts_with("            x"));
        assert_eq!(folded("", 68), [""]);
        assert_eq!(
            folded("ab\u{97f3}c\u{97f3}\u{97f3}", 4),
            ["ab\u{97f3}", "c\u{97f3}", "\u{97f3}"]
        );
    }

    #[test]
    fn a_long_line_of_densities_is_broken_after_marks() {
        let of = subject("a", None);
        let entries = |count| "1234-".repeat(count);
        let line = format!("      0:{}\n", entries(29));
        let sheet = written(SheetForm::Print, |sheets| {
            sheets.sheet(&of, 4, line.as_bytes(), &Places::default())
        });
        let parts = sheet.lines().filter(|line| line.contains("1234-"));
        let wanted = [("      0:", 14), ("        ", 14), ("        ", 1)];
        assert!(parts.eq(wanted.map(|(start, count)| start.to_owned() + &entries(count))));
    }

    #[test]
    fn an_object_has_its_names() {
        let of = subject("a\"b", Some((0, b"dance-single")));
        let sheet = written(SheetForm::Json, |sheets| {
            sheets.sheet(&of, 4, b"{}", &Places::default())
        });
        assert_eq!(
            sheet,
            "{\"file\":\"a\\\"b\",\"length\":7,\"cksum\":4294967295,\"chart\":0,\
             \"type\":\"dance-single\",\"lanes\":4,\"figures\":{}}\n"
        );
        let bare = |of: &Subject| {
            written(SheetForm::Json, |sheets| {
                sheets.refused(of, Refusal::LongText, "long")
            })
        };
        let mut of = subject("a", None);
        let end = "\"chart\":null,\"type\":null,\"refused\":1,\"words\":\"long\"}\n";
        let sum = "\"length\":7,\"cksum\":4294967295,";
        assert_eq!(bare(&of), format!("{{\"file\":\"a\",{sum}{end}"));
        of.sum = None;
        assert_eq!(bare(&of), format!("{{\"file\":\"a\",{end}"));
    }

    #[test]
    fn a_refusal_on_the_card_names_the_chart() {
        let told = |chart| {
            let of = subject("a", chart);
            written(SheetForm::Card, |sheets| {
                sheets.refused(&of, Refusal::OtherType, "x")
            })
        };
        assert_eq!(told(Some((1, b"lights"))), "chart 1 lights refused 10: x\n");
        assert_eq!(told(Some((1, b""))), "chart 1 refused 10: x\n");
        assert_eq!(told(None), "refused 10: x\n");
    }
}
