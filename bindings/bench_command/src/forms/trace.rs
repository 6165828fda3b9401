//! What is written of a trace beside the notes of a chart.

use super::{Sheets, Subject, json_file, json_head};
use crate::checksum::Sum;
use crate::columns::{direction, label, name};
use crate::json::quoted;
use crate::left::words;
use crate::measures::Spot;
use crate::output::Status;
use padcheck::{ColumnPresses, Press, PressCounts, Refusal, SheetForm};
use std::io;
use std::path::Path;

/// The names of the columns of the first miss and stray.
const FIRST_HEAD: &str = "                   row measure   in it         beat  column";

/// A trace, and what comes of it beside the notes.
pub struct Pad<'a> {
    pub path: &'a Path,
    pub sum: Sum,
    /// The lane count of the chart.
    pub lanes: usize,
    pub answer: Result<Answer, Broken>,
}

/// What an accepted trace comes to.
pub struct Answer {
    /// The counts of the library.
    pub counts: PressCounts,
    /// The columns that are listed: those of the layout, and any other that was pressed.
    pub columns: Vec<usize>,
    pub miss: First,
    pub stray: First,
}

/// The first of the played notes or presses that are counted.
pub enum First {
    /// None is counted.
    None,
    /// Some are counted, and none is found. So the program or the library is broken.
    Lost,
    At(Place),
}

impl First {
    /// The first of so many, which is looked for where there are any.
    pub fn of(count: usize, find: impl FnOnce() -> Option<Place>) -> Self {
        if count == 0 {
            return Self::None;
        }
        find().map_or(Self::Lost, Self::At)
    }
}

/// Where a press or a note stands.
pub struct Place {
    pub press: Press,
    /// Its row in the measures, and the beat of that; none below the last row.
    pub spot: Option<(Spot, f32)>,
}

/// Why a trace is refused.
pub struct Broken {
    pub refusal: Refusal,
    /// The number of the first record that breaks it, and how. Where none is found the program or the library is broken.
    pub record: Option<(usize, String)>,
}

/// What is said at the end.
#[derive(Clone, Copy, Debug, PartialEq, Eq)]
enum Verdict {
    Pass,
    /// The same of a chart that is doubtful.
    PassForced,
    /// There is no played note.
    NothingToPress,
    /// There are strays or misses.
    NotClean,
    /// There are, and the first is not found.
    Violated,
}

impl Pad<'_> {
    /// How it went.
    pub fn status(&self) -> Status {
        match self.answer.as_ref().map(|answer| answer.verdict(false)) {
            Ok(Verdict::Pass | Verdict::PassForced) => Status::Done,
            _ => Status::Refused,
        }
    }
}

impl Verdict {
    /// Its name in JSON.
    fn name(self) -> &'static str {
        match self {
            Self::Pass => "pass",
            Self::PassForced => "pass_forced",
            Self::NothingToPress => "nothing_to_press",
            Self::NotClean => "not_clean",
            Self::Violated => "violated",
        }
    }
}

impl Answer {
    /// What is said of it at the end.
    fn verdict(&self, forced: bool) -> Verdict {
        match (&self.miss, &self.stray) {
            (First::Lost, _) | (_, First::Lost) => Verdict::Violated,
            _ if self.played() == 0 => Verdict::NothingToPress,
            (First::None, First::None) if forced => Verdict::PassForced,
            (First::None, First::None) => Verdict::Pass,
            _ => Verdict::NotClean,
        }
    }

    /// How many played notes there are.
    fn played(&self) -> usize {
        self.counts.hits + self.counts.misses
    }

    /// Whether no played note stands in a column of the layout.
    fn is_bare(&self, column: usize, lanes: usize) -> bool {
        let counts = self.counts.columns[column];
        column < lanes && counts.hits + counts.misses == 0
    }

    /// The columns of the layout without a played note.
    fn bare(&self, lanes: usize) -> impl Iterator<Item = usize> {
        (0..lanes).filter(move |&column| self.is_bare(column, lanes))
    }

    /// The line of a PASS.
    fn pass(&self, lanes: usize, forced: bool) -> String {
        let forced = if forced { ", forced" } else { "" };
        let pass = format!("PASS{forced}, {} of {}", self.counts.hits, self.played());
        let bare: Vec<_> = self.bare(lanes).map(|column| name(column, lanes)).collect();
        match &bare[..] {
            [] => pass,
            bare => format!("{pass}, no note on {}", bare.join(", ")),
        }
    }
}

impl Sheets<'_> {
    /// A trace beside the notes of a chart.
    pub fn trace(&mut self, subject: &Subject, pad: &Pad) -> io::Result<()> {
        match self.form {
            SheetForm::Json => {
                let head = json_head(subject, pad.lanes);
                let trace = json_file(pad.path, Some(pad.sum));
                let answer = match &pad.answer {
                    Ok(answer) => json_answer(answer, pad.lanes, !subject.forced.is_empty()),
                    Err(broken) => json_broken(broken),
                };
                writeln!(self.out, "{{{head},\"trace\":{{{trace}}},{answer}}}")
            }
            SheetForm::Card | SheetForm::Print => {
                self.head_with_lanes(subject, pad.lanes)?;
                self.file("trace", pad.path, Some(pad.sum))?;
                writeln!(self.out)?;
                match &pad.answer {
                    Ok(answer) => self.answer(subject, answer, pad.lanes),
                    Err(broken) => self.broken(subject, broken),
                }
            }
        }
    }

    /// Why a trace is refused, on paper.
    fn broken(&mut self, subject: &Subject, broken: &Broken) -> io::Result<()> {
        let Broken { refusal, record } = broken;
        self.forced_on_paper(subject)?;
        self.sentence(&format!(
            "refused {}: {}",
            refusal.number(),
            words(*refusal)
        ))?;
        match record {
            Some((number, how)) => writeln!(self.out, "record {number} {how}"),
            None => writeln!(self.out, "VIOLATED: no record is found that breaks it"),
        }
    }

    /// What an accepted trace comes to, on paper.
    fn answer(&mut self, subject: &Subject, answer: &Answer, lanes: usize) -> io::Result<()> {
        let PressCounts {
            hits,
            strays,
            misses,
            ..
        } = answer.counts;
        self.number("hits", hits)?;
        self.number("strays", strays)?;
        self.number("misses", misses)?;
        self.columns(answer, lanes)?;
        self.forced_on_paper(subject)?;
        match answer.verdict(!subject.forced.is_empty()) {
            Verdict::Pass => self.sentence(&answer.pass(lanes, false))?,
            Verdict::PassForced => self.sentence(&answer.pass(lanes, true))?,
            Verdict::NothingToPress => writeln!(self.out, "nothing to press")?,
            Verdict::NotClean | Verdict::Violated => {}
        }
        self.firsts(answer, lanes)
    }

    /// The hits and misses of each column.
    fn columns(&mut self, answer: &Answer, lanes: usize) -> io::Result<()> {
        writeln!(
            self.out,
            "\n{:<11}{:>10} {:>10}",
            "column", "hits", "misses"
        )?;
        for &column in &answer.columns {
            let ColumnPresses { hits, misses } = answer.counts.columns[column];
            let label = label(column, lanes);
            let besides = if lanes <= column {
                "  not in the layout"
            } else if answer.is_bare(column, lanes) {
                "  no press"
            } else {
                ""
            };
            writeln!(self.out, "{label:<11}{hits:>10} {misses:>10}{besides}")?;
        }
        writeln!(self.out)
    }

    /// Where the first miss and the first stray stand, of those that are counted.
    fn firsts(&mut self, answer: &Answer, lanes: usize) -> io::Result<()> {
        let PressCounts { strays, misses, .. } = answer.counts;
        let firsts = [
            ("first miss", misses, &answer.miss),
            ("first stray", strays, &answer.stray),
        ];
        if strays + misses != 0 {
            writeln!(self.out, "{FIRST_HEAD}")?;
        }
        for (title, count, first) in firsts {
            match first {
                First::None => {}
                First::Lost => writeln!(
                    self.out,
                    "{title:<11} VIOLATED: {count} counted and none is found"
                )?,
                First::At(place) => self.place(title, place, lanes)?,
            }
        }
        Ok(())
    }

    /// Where a press or a note stands, on paper.
    fn place(&mut self, title: &str, place: &Place, lanes: usize) -> io::Result<()> {
        let Press { row, column } = place.press;
        let [measure, in_it, beat] = match place.spot {
            None => ["-"; 3].map(String::from),
            Some((spot, beat)) => [
                spot.measure.to_string(),
                spot.row_in_measure.to_string(),
                beat.to_string(),
            ],
        };
        let column = label(column.into(), lanes);
        // A number that is wider than its column still has a blank before it.
        writeln!(
            self.out,
            "{title:<11} {row:>10} {measure:>7} {in_it:>7} {beat:>12}  {column}"
        )
    }
}

/// What an accepted trace comes to, in JSON.
fn json_answer(answer: &Answer, lanes: usize, forced: bool) -> String {
    let PressCounts {
        hits,
        strays,
        misses,
        ..
    } = answer.counts;
    let columns: Vec<_> = answer
        .columns
        .iter()
        .map(|&column| json_column(answer, column, lanes))
        .collect();
    let bare: Vec<_> = answer
        .bare(lanes)
        .map(|column| column.to_string())
        .collect();
    let (miss, stray) = (json_first(&answer.miss), json_first(&answer.stray));
    let verdict = answer.verdict(forced).name();
    format!(
        "\"hits\":{hits},\"strays\":{strays},\"misses\":{misses},\"columns\":[{}],\"verdict\":\"{verdict}\",\
         \"no_note\":[{}],\"first_miss\":{miss},\"first_stray\":{stray}",
        columns.join(","),
        bare.join(",")
    )
}

fn json_column(answer: &Answer, column: usize, lanes: usize) -> String {
    let ColumnPresses { hits, misses } = answer.counts.columns[column];
    let direction = direction(column, lanes).map_or_else(|| String::from("null"), quoted);
    let no_press = answer.is_bare(column, lanes);
    format!(
        "{{\"column\":{column},\"direction\":{direction},\"hits\":{hits},\"misses\":{misses},\"no_press\":{no_press}}}"
    )
}

fn json_first(first: &First) -> String {
    let First::At(Place {
        press: Press { row, column },
        spot,
    }) = first
    else {
        return String::from("null");
    };
    let spot = match spot {
        None => String::from("\"measure\":null,\"row_in_measure\":null,\"beat\":null"),
        Some((spot, beat)) => format!(
            "\"measure\":{},\"row_in_measure\":{},\"beat\":{beat}",
            spot.measure, spot.row_in_measure
        ),
    };
    format!("{{\"row\":{row},{spot},\"column\":{column}}}")
}

/// Why a trace is refused, in JSON.
fn json_broken(broken: &Broken) -> String {
    let Broken { refusal, record } = broken;
    let (number, words) = (refusal.number(), quoted(&words(*refusal)));
    let record = match record {
        None => String::from("\"record\":null,\"breaks\":null"),
        Some((record, how)) => format!("\"record\":{record},\"breaks\":{}", quoted(how)),
    };
    format!("\"refused\":{number},\"words\":{words},{record}")
}

#[cfg(test)]
mod tests {
    use super::*;
    use crate::json::after_value;

    /// What is written of an answer about a trace on four lanes, below what stands of the trace, and the status.
    fn written(form: SheetForm, answer: Result<Answer, Broken>) -> (String, Status) {
        let sum = Sum {
            length: 5,
            cksum: 7,
        };
        let pad = Pad {
            path: Path::new("y"),
            sum,
            lanes: 4,
            answer,
        };
        let subject = Subject {
            path: Path::new("x"),
            sum: Some(sum),
            chart: None,
            forced: Vec::new(),
        };
        let mut out = Vec::new();
        Sheets::new(form, &mut out).trace(&subject, &pad).unwrap();
        let written = String::from_utf8(out).unwrap();
        let (_, below) = match form {
            SheetForm::Json => {
                assert_eq!(after_value(written.trim_end()), Some(""));
                written.split_once("},").unwrap()
            }
            _ => written.split_once("\ncksum               7\n\n").unwrap(),
        };
        (below.to_owned(), pad.status())
    }

    /// Counts beside which the program finds nothing.
    fn lost(strays: usize, misses: usize) -> Answer {
        let counts = PressCounts {
            hits: 1,
            strays,
            misses,
            ..PressCounts::default()
        };
        Answer {
            counts,
            columns: Vec::new(),
            miss: First::of(misses, || None),
            stray: First::of(strays, || None),
        }
    }

    #[test]
    fn a_count_beside_which_none_is_found_is_told() {
        let [miss, stray] = ["miss  VIOLATED: 3", "stray VIOLATED: 2"]
            .map(|first| format!("first {first} counted and none is found\n"));
        for (strays, misses, lines) in [
            (2, 0, stray.clone()),
            (0, 3, miss.clone()),
            (2, 3, miss + &stray),
        ] {
            let (paper, status) = written(SheetForm::Print, Ok(lost(strays, misses)));
            assert!(
                paper.ends_with(&format!("{FIRST_HEAD}\n{lines}")),
                "{paper}"
            );
            assert_eq!(status, Status::Refused);
            let (object, status) = written(SheetForm::Json, Ok(lost(strays, misses)));
            let end = "\"verdict\":\"violated\",\"no_note\":[0,1,2,3],\"first_miss\":null,\"first_stray\":null}\n";
            assert!(object.ends_with(end), "{object}");
            assert_eq!(status, Status::Refused);
        }
        // Where none is counted, none is looked for.
        let (paper, status) = written(SheetForm::Print, Ok(lost(0, 0)));
        assert!(!paper.contains("VIOLATED") && paper.contains("\nPASS, 1 of 1"));
        assert_eq!(status, Status::Done);
    }

    #[test]
    fn a_refusal_by_no_record_is_told() {
        let broken = || {
            Err(Broken {
                refusal: Refusal::OutOfOrder,
                record: None,
            })
        };
        let (paper, status) = written(SheetForm::Print, broken());
        assert!(
            paper.starts_with("refused 13: a note does not stand before"),
            "{paper}"
        );
        assert!(paper.ends_with("\nVIOLATED: no record is found that breaks it\n"));
        assert_eq!(status, Status::Refused);
        let (object, status) = written(SheetForm::Json, broken());
        assert!(object.starts_with("\"refused\":13,\"words\":"));
        assert!(object.ends_with(",\"record\":null,\"breaks\":null}\n"));
        assert_eq!(status, Status::Refused);
    }
}
