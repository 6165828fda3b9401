//! The arguments.

use crate::help;
use crate::select::Selection;
use padcheck::SheetForm;
use std::ffi::{OsStr, OsString};
use std::os::unix::ffi::OsStrExt;
use std::path::PathBuf;

/// What is asked for.
#[derive(Debug, PartialEq)]
pub enum Request {
    /// A text of the program's own.
    Text(String),
    /// The charts of files.
    Charts(Charts),
    /// The sheets of files.
    Sheet(Sheet),
    /// The holds of files that came to nothing.
    Dropped(Sheet),
    /// Records and beats of a chart.
    Rig(Rig),
    /// From notes back to a chart.
    Write(Write),
    /// A pad trace beside the notes of a chart.
    Trace(Trace),
    /// Two files side by side.
    Diff(Diff),
}

/// `padcheck charts`.
#[derive(Debug, PartialEq)]
pub struct Charts {
    pub files: Vec<PathBuf>,
    pub force: bool,
}

/// What is wanted of a file: which of its charts, in which form, and whether doubtful ones are taken.
#[derive(Clone, Copy, Debug, PartialEq)]
pub struct Wanted {
    pub selection: Selection,
    pub form: SheetForm,
    pub force: bool,
}

/// `padcheck sheet`, and `padcheck dropped`, whose form is never the card.
#[derive(Debug, PartialEq)]
pub struct Sheet {
    pub files: Vec<PathBuf>,
    pub wanted: Wanted,
}

/// `padcheck trace`, whose form is never the card. Of an SM file with one chart alone the selection may be all charts.
#[derive(Debug, PartialEq)]
pub struct Trace {
    pub file: PathBuf,
    pub trace: PathBuf,
    pub wanted: Wanted,
}

/// `padcheck rig`; its selection is never all charts.
#[derive(Debug, PartialEq)]
pub struct Rig {
    pub file: PathBuf,
    pub selection: Selection,
    pub notes: PathBuf,
    pub beats: PathBuf,
    pub rows: Option<PathBuf>,
    pub force: bool,
}

/// `padcheck write`.
#[derive(Debug, PartialEq)]
pub struct Write {
    pub notes: PathBuf,
    pub rows: PathBuf,
    pub lanes: usize,
}

/// `padcheck diff`.
#[derive(Debug, PartialEq)]
pub struct Diff {
    pub old: PathBuf,
    pub new: PathBuf,
    pub selection: Selection,
    pub force: bool,
}

/// What the arguments ask for, or a line that says what is wrong with them.
pub fn request(mut words: impl Iterator<Item = OsString>) -> Result<Request, String> {
    let Some(word) = words.next() else {
        return Err(usage(
            "charts, sheet, dropped, rig, write, trace or diff is wanted",
        ));
    };
    let word = word.to_string_lossy().into_owned();
    let (help, known): (&str, &[&str]) = match &*word {
        "--help" | "-h" => return Ok(Request::Text(help::WHOLE.to_owned())),
        "--version" | "-V" => return Ok(Request::Text(help::version())),
        "charts" => (help::CHARTS, &["--force"]),
        "sheet" => (help::SHEET, &["--chart", "--lanes", "--form", "--force"]),
        "dropped" => (help::DROPPED, &["--chart", "--lanes", "--form", "--force"]),
        "rig" => (
            help::RIG,
            &[
                "--chart", "--lanes", "--notes", "--beats", "--rows", "--force",
            ],
        ),
        "write" => (help::WRITE, &["--lanes"]),
        "trace" => (help::TRACE, &["--chart", "--lanes", "--form", "--force"]),
        "diff" => (help::DIFF, &["--chart", "--lanes", "--force"]),
        _ => {
            let word = word.escape_debug();
            return Err(usage(&format!(
                "`{word}` is no word; the words are charts, sheet, dropped, rig, write, trace and diff"
            )));
        }
    };
    let made = Options::read(words, known).and_then(|options| {
        if options.help {
            return Ok(Request::Text(help.to_owned()));
        }
        match &*word {
            "charts" => options.charts(),
            "sheet" => options.sheet(),
            "dropped" => options.dropped(),
            "rig" => options.rig(),
            "write" => options.write(),
            "trace" => options.trace(),
            _ => options.diff(),
        }
    });
    made.map_err(|message| format!("{word}: {message}; `padcheck {word} --help` says more"))
}

fn usage(message: &str) -> String {
    format!("{message}; `padcheck --help` says more")
}

/// The words after the first one, sorted.
#[derive(Debug, Default)]
struct Options {
    files: Vec<PathBuf>,
    chart: Option<usize>,
    lanes: Option<usize>,
    form: Option<SheetForm>,
    notes: Option<PathBuf>,
    beats: Option<PathBuf>,
    rows: Option<PathBuf>,
    force: bool,
    help: bool,
}

impl Options {
    /// Sorts the words; only the known options are taken.
    fn read(words: impl Iterator<Item = OsString>, known: &[&str]) -> Result<Self, String> {
        let mut options = Self::default();
        let mut words = words;
        while let Some(word) = words.next() {
            if word == "--" {
                options.files.extend(words.by_ref().map(PathBuf::from));
            } else if word == "--help" || word == "-h" {
                options.help = true;
            } else if word.as_bytes().starts_with(b"-") && word.len() > 1 {
                let (name, value) = split(&word);
                if !known.contains(&&*name) {
                    return Err(format!("`{}` is not known here", name.escape_debug()));
                }
                options.set(&name, value, &mut words)?;
            } else {
                options.files.push(PathBuf::from(word));
            }
        }
        Ok(options)
    }

    /// Takes one option; its value stands after `=` or is the next word.
    fn set(
        &mut self,
        name: &str,
        value: Option<OsString>,
        words: &mut dyn Iterator<Item = OsString>,
    ) -> Result<(), String> {
        if name == "--force" {
            self.force = true;
            return value.map_or(Ok(()), |_| Err(String::from("--force has no value")));
        }
        let value = value.or_else(|| words.next());
        let value = value.ok_or_else(|| format!("{name} needs a value"))?;
        let taken = match name {
            "--chart" => self.chart.replace(number(name, &value)?).is_some(),
            "--lanes" => self.lanes.replace(number(name, &value)?).is_some(),
            "--form" => self.form.replace(form(&value)?).is_some(),
            "--notes" => self.notes.replace(value.into()).is_some(),
            "--rows" => self.rows.replace(value.into()).is_some(),
            _ => self.beats.replace(value.into()).is_some(),
        };
        if taken {
            return Err(format!("{name} stands there twice"));
        }
        Ok(())
    }

    fn selection(&self) -> Result<Selection, String> {
        match (self.chart, self.lanes) {
            (None, None) => Ok(Selection::All),
            (Some(chart), None) => Ok(Selection::Chart(chart)),
            (None, Some(lanes)) => Ok(Selection::Bare(lanes)),
            (Some(_), Some(_)) => Err(String::from(
                "--chart is for an SM file and --lanes for bare note data",
            )),
        }
    }

    /// The files, of which there must be one at least.
    fn files(self) -> Result<Vec<PathBuf>, String> {
        if self.files.is_empty() {
            return Err(String::from("a file is wanted"));
        }
        Ok(self.files)
    }

    fn charts(self) -> Result<Request, String> {
        let force = self.force;
        let files = self.files()?;
        Ok(Request::Charts(Charts { files, force }))
    }

    /// Which charts are wanted, and in this form.
    fn wanted(&self, form: SheetForm) -> Result<Wanted, String> {
        Ok(Wanted {
            selection: self.selection()?,
            form,
            force: self.force,
        })
    }

    /// The same of a word that has no card.
    fn wanted_but_card(&self) -> Result<Wanted, String> {
        match self.form {
            Some(SheetForm::Card) => Err(String::from(
                "--form needs print or json here, and not `card`",
            )),
            form => self.wanted(form.unwrap_or(SheetForm::Print)),
        }
    }

    fn sheet(self) -> Result<Request, String> {
        let wanted = self.wanted(self.form.unwrap_or(SheetForm::Print))?;
        let files = self.files()?;
        Ok(Request::Sheet(Sheet { files, wanted }))
    }

    fn dropped(self) -> Result<Request, String> {
        let wanted = self.wanted_but_card()?;
        let files = self.files()?;
        Ok(Request::Dropped(Sheet { files, wanted }))
    }

    fn rig(self) -> Result<Request, String> {
        let selection = self.selection()?;
        if selection == Selection::All {
            return Err(String::from("--chart K is wanted, or --lanes N"));
        }
        let (Some(notes), Some(beats)) = (self.notes, self.beats) else {
            return Err(String::from("--notes OUT and --beats OUT are wanted"));
        };
        let [file] = <[PathBuf; 1]>::try_from(self.files)
            .map_err(|files| format!("one file is wanted, not {}", files.len()))?;
        Ok(Request::Rig(Rig {
            file,
            selection,
            notes,
            beats,
            rows: self.rows,
            force: self.force,
        }))
    }

    /// The files, of which there must be two.
    fn two_files(self) -> Result<[PathBuf; 2], String> {
        <[PathBuf; 2]>::try_from(self.files)
            .map_err(|files| format!("two files are wanted, not {}", files.len()))
    }

    fn write(self) -> Result<Request, String> {
        let lanes = self.lanes.ok_or("--lanes N is wanted")?;
        let [notes, rows] = self.two_files()?;
        Ok(Request::Write(Write { notes, rows, lanes }))
    }

    fn trace(self) -> Result<Request, String> {
        let wanted = self.wanted_but_card()?;
        let [file, trace] = self.two_files()?;
        Ok(Request::Trace(Trace {
            file,
            trace,
            wanted,
        }))
    }

    fn diff(self) -> Result<Request, String> {
        let (selection, force) = (self.selection()?, self.force);
        let [old, new] = self.two_files()?;
        Ok(Request::Diff(Diff {
            old,
            new,
            selection,
            force,
        }))
    }
}

/// An option's name, and what stands after its `=`.
fn split(word: &OsStr) -> (String, Option<OsString>) {
    let bytes = word.as_bytes();
    let (name, value) = match bytes.iter().position(|&byte| byte == b'=') {
        Some(place) => (&bytes[..place], Some(&bytes[place + 1..])),
        None => (bytes, None),
    };
    let value = value.map(|value| OsStr::from_bytes(value).to_owned());
    (String::from_utf8_lossy(name).into_owned(), value)
}

fn number(name: &str, word: &OsStr) -> Result<usize, String> {
    let digits = word.to_str().filter(|word| !word.starts_with('+'));
    let number = digits.and_then(|digits| digits.parse().ok());
    number.ok_or_else(|| {
        let word = word.to_string_lossy();
        format!(
            "{name} needs a number, and `{}` is none",
            word.escape_debug()
        )
    })
}

fn form(word: &OsStr) -> Result<SheetForm, String> {
    match word.to_str() {
        Some("card") => Ok(SheetForm::Card),
        Some("print") => Ok(SheetForm::Print),
        Some("json") => Ok(SheetForm::Json),
        _ => {
            let word = word.to_string_lossy();
            Err(format!(
                "--form needs card, print or json, and not `{}`",
                word.escape_debug()
            ))
        }
    }
}

#[cfg(test)]
mod tests {
    use super::*;

    fn asked(words: &str) -> Result<Request, String> {
        request(words.split_whitespace().map(OsString::from))
    }

    #[test]
    fn options_and_files_stand_in_any_order() {
        let wanted = Wanted {
            selection: Selection::Chart(2),
            form: SheetForm::Json,
            force: true,
        };
        let want = Sheet {
            files: vec![PathBuf::from("a"), PathBuf::from("--b")],
            wanted,
        };
        for words in [
            "sheet --chart 2 --form json a --force -- --b",
            "sheet --force --chart=2 a --form=json -- --b",
        ] {
            let Ok(Request::Sheet(sheet)) = asked(words) else {
                panic!("{words}");
            };
            assert_eq!(sheet, want);
        }
    }

    #[test]
    fn the_print_form_of_all_charts_is_the_default() {
        let wanted = Wanted {
            selection: Selection::All,
            form: SheetForm::Print,
            force: false,
        };
        let [a, b] = ["a", "b"].map(PathBuf::from);
        let sheet = |files| Sheet { files, wanted };
        let one = || vec![a.clone()];
        assert_eq!(asked("sheet a"), Ok(Request::Sheet(sheet(one()))));
        assert_eq!(asked("dropped a"), Ok(Request::Dropped(sheet(one()))));
        let (file, trace) = (a.clone(), b);
        let trace = Trace {
            file,
            trace,
            wanted,
        };
        assert_eq!(asked("trace a b"), Ok(Request::Trace(trace)));
    }

    #[test]
    fn a_trace_stands_behind_its_chart() {
        let want = Trace {
            file: PathBuf::from("a"),
            trace: PathBuf::from("b"),
            wanted: Wanted {
                selection: Selection::Bare(4),
                form: SheetForm::Json,
                force: true,
            },
        };
        let words = "trace --form=json a --lanes 4 b --force";
        assert_eq!(asked(words), Ok(Request::Trace(want)));
    }

    #[test]
    fn notes_and_rows_are_written_with_lanes() {
        for words in ["write n r --lanes 7", "write --lanes=7 n r"] {
            let want = Write {
                notes: PathBuf::from("n"),
                rows: PathBuf::from("r"),
                lanes: 7,
            };
            assert_eq!(asked(words), Ok(Request::Write(want)));
        }
        let Ok(Request::Rig(rig)) = asked("rig a --chart 0 --notes n --beats b --rows r") else {
            panic!("rig takes rows");
        };
        assert_eq!(rig.rows, Some(PathBuf::from("r")));
    }

    #[test]
    fn what_is_wrong_is_said() {
        let wrong = [
            (
                "",
                "charts, sheet, dropped, rig, write, trace or diff is wanted",
            ),
            (
                "print a",
                "`print` is no word; the words are charts, sheet, dropped, rig, write, trace and diff;",
            ),
            ("charts", "charts: a file is wanted"),
            ("charts a --chart 0", "`--chart` is not known here"),
            ("sheet a --chart", "--chart needs a value"),
            (
                "sheet a --chart one",
                "--chart needs a number, and `one` is none",
            ),
            (
                "sheet a --lanes -4",
                "--lanes needs a number, and `-4` is none",
            ),
            ("sheet a --lanes 4 --lanes 4", "--lanes stands there twice"),
            ("sheet a --lanes 4 --chart 0", "--chart is for an SM file"),
            ("sheet a --form pdf", "--form needs card, print or json"),
            ("sheet a --force=1", "--force has no value"),
            ("dropped", "dropped: a file is wanted"),
            (
                "dropped a --form card",
                "--form needs print or json here, and not `card`",
            ),
            (
                "rig a --notes b --beats c",
                "--chart K is wanted, or --lanes N",
            ),
            (
                "rig a --chart 0 --notes b",
                "--notes OUT and --beats OUT are wanted",
            ),
            (
                "rig a b --chart 0 --notes c --beats d",
                "one file is wanted, not 2",
            ),
            ("write a b", "--lanes N is wanted"),
            ("write a --lanes 4", "two files are wanted, not 1"),
            ("write a b c --lanes 4", "two files are wanted, not 3"),
            ("write a b --chart 0", "`--chart` is not known here"),
            ("diff a", "two files are wanted, not 1"),
            ("trace", "trace: two files are wanted, not 0"),
            ("trace a b c", "two files are wanted, not 3"),
            ("trace a b --chart 0 --lanes 4", "--chart is for an SM file"),
            (
                "trace a b --form card",
                "--form needs print or json here, and not `card`",
            ),
            ("trace a b --rows c", "`--rows` is not known here"),
        ];
        for (words, message) in wrong {
            let said = asked(words).unwrap_err();
            assert!(said.contains(message), "{words}: {said}");
            assert!(said.contains("--help` says more") && !said.contains('\n'));
        }
    }

    #[test]
    fn help_is_given_for_each_word() {
        let words = [
            "charts", "sheet", "dropped", "rig", "write", "trace", "diff",
        ];
        for word in words {
            let Ok(Request::Text(text)) = asked(&format!("{word} --help")) else {
                panic!("{word} has no help");
            };
            assert!(text.starts_with(&format!("padcheck {word} ")));
            assert!(help::WHOLE.contains(&format!("\n  {word} ")));
        }
        assert_eq!(asked("-h"), asked("--help"));
        assert_eq!(asked("--version"), Ok(Request::Text(help::version())));
    }
}
