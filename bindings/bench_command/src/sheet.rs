//! The word `sheet`: every figure of a chart, as the library writes it.

use crate::args::{Sheet, Wanted};
use crate::checksum::Sum;
use crate::forms::{Places, Sheets, Subject};
use crate::input::{contents, shown};
use crate::left::Left;
use crate::measures::Measures;
use crate::memory::NoMemory;
use crate::output::{Status, doubtful, fault, remark};
use crate::select::selected;
use crate::slices::Slices;
use padcheck::SheetForm;
use std::io::{self, Write};
use std::path::Path;

/// What is made and written of each chart.
#[derive(Clone, Copy)]
pub struct Word<'a> {
    /// Asks the library, and answers the measures of the chart where they are wanted.
    pub make: fn(&mut Slices, &[u8], usize, SheetForm) -> Result<Measures, Left>,
    pub write: &'a Written<'a>,
}

/// Writes what the slices hold of a chart of so many lanes, and says how that went.
type Written<'a> =
    dyn Fn(&mut Sheets, &Subject, usize, &Slices, Measures) -> io::Result<Status> + 'a;

const SHEET: Word = Word {
    make: |slices, data, lanes, form| {
        slices.make_sheet(data, lanes, form)?;
        Ok(measures(slices, lanes, form)?)
    },
    write: &|sheets, subject, lanes, slices, measures| {
        let beats = slices.beats();
        sheets.sheet(subject, lanes, slices.sheet(), &Places { measures, beats })?;
        Ok(Status::Done)
    },
};

/// `padcheck sheet`.
pub fn run(asked: &Sheet, out: &mut dyn Write) -> io::Result<Status> {
    each_chart(asked, SHEET, out)
}

/// Writes something of each chart that is asked for.
pub fn each_chart(asked: &Sheet, word: Word, out: &mut dyn Write) -> io::Result<Status> {
    let mut sheets = Sheets::new(asked.wanted.form, out);
    let mut slices = Slices::default();
    let mut worst = Status::Done;
    for path in &asked.files {
        let status = match contents(path) {
            Ok(file) => of_file(asked.wanted, word, path, &file, &mut slices, &mut sheets)?,
            Err(message) => fault(sheets.out(), &message)?,
        };
        worst = worst.max(status);
    }
    Ok(worst)
}

/// The same of one file. It is refused where all its charts that are asked for are; beside another the reason in the place of
/// what is written of a refused one will do.
pub fn of_file(
    wanted: Wanted,
    word: Word,
    path: &Path,
    file: &[u8],
    slices: &mut Slices,
    sheets: &mut Sheets,
) -> io::Result<Status> {
    let mut subject = Subject {
        path,
        sum: Sum::of(file),
        chart: None,
        forced: Vec::new(),
    };
    let found = match selected(file, wanted.selection, wanted.force) {
        Ok(found) => found,
        Err(left) => return left_out(&subject, &left, sheets),
    };
    let mut worst = None;
    for chart in &found.charts {
        subject.chart = chart.chart;
        let made = chart.taken(wanted.force).and_then(|chart| {
            let measures = (word.make)(slices, chart.data, chart.lanes, wanted.form)?;
            Ok((chart, measures))
        });
        let status = match made {
            Ok((chart, measures)) => {
                if let Some(odd) = chart.odd {
                    remark(sheets.out(), &whose(&subject), &odd)?;
                }
                subject.forced = found.forced.iter().cloned().chain(chart.forced).collect();
                (word.write)(sheets, &subject, chart.lanes, slices, measures)?
            }
            Err(left) => left_out(&subject, &left, sheets)?,
        };
        if status != Status::Refused {
            worst = worst.max(Some(status));
        }
    }
    Ok(worst.unwrap_or(Status::Refused))
}

/// The measures of a chart, which a sheet on paper names beside holds and rolls.
fn measures(slices: &Slices, lanes: usize, form: SheetForm) -> Result<Measures, NoMemory> {
    match form {
        SheetForm::Print => slices.measures(lanes),
        _ => Ok(Measures::default()),
    }
}

/// Says why there is nothing of a chart: a refusal in its place, anything else on standard error.
fn left_out(subject: &Subject, left: &Left, sheets: &mut Sheets) -> io::Result<Status> {
    match left {
        Left::Refused(refusal, words) => {
            sheets.refused(subject, *refusal, words)?;
            Ok(Status::Refused)
        }
        Left::Doubtful(why) => doubtful(sheets.out(), &whose(subject), why),
        Left::NoMemory(lack) => fault(sheets.out(), &format!("{}: {lack}", whose(subject))),
    }
}

/// What a chart is called on standard error, or a file where no chart of it is meant.
fn whose(subject: &Subject) -> String {
    let path = shown(subject.path);
    subject.chart.map_or_else(
        || path.clone(),
        |(number, _)| format!("{path} chart {number}"),
    )
}

#[cfg(test)]
mod tests {
    use super::*;
    use crate::json::after_value;
    use crate::select::Selection;
    use padcheck::MAX_LEN;

    /// All that is printed of a file, and the status.
    fn printed(file: &[u8], selection: Selection, form: SheetForm) -> (String, Status) {
        said(file, selection, form, false)
    }

    fn said(file: &[u8], selection: Selection, form: SheetForm, force: bool) -> (String, Status) {
        let wanted = Wanted {
            selection,
            form,
            force,
        };
        let mut out = Vec::new();
        let mut sheets = Sheets::new(form, &mut out);
        let mut slices = Slices::default();
        let path = Path::new("x");
        let status = of_file(wanted, SHEET, path, file, &mut slices, &mut sheets).unwrap();
        (String::from_utf8(out).unwrap(), status)
    }

    const SM_FILE: &[u8] = include_bytes!("../../../examples/first-steps.sm");
    const SM_SHEET: &str = include_str!("../../../examples/first-steps.sm.sheet.txt");

    #[test]
    fn every_chart_of_an_sm_file_has_its_sheet_or_its_refusal() {
        let (sheets, status) = printed(SM_FILE, Selection::All, SheetForm::Card);
        assert_eq!((&*sheets, status), (SM_SHEET, Status::Done));
        let crlf = String::from_utf8_lossy(SM_FILE).replace('\n', "\r\n");
        let (sheets, _) = printed(crlf.as_bytes(), Selection::All, SheetForm::Card);
        assert_eq!(sheets, SM_SHEET);
    }

    #[test]
    fn a_file_is_refused_where_all_that_is_asked_for_is() {
        let status = |file: &[u8], selection| printed(file, selection, SheetForm::Card).1;
        assert_eq!(status(SM_FILE, Selection::Chart(0)), Status::Done);
        assert_eq!(status(SM_FILE, Selection::Chart(1)), Status::Refused);
        let lights = b"#NOTES:lights-cabinet:::::\n;\n#NOTES:a:;\n";
        assert_eq!(status(lights, Selection::All), Status::Refused);
        let doubted = [&lights[..], b"#NOTES:dance-single:::::\n100\n;\n"].concat();
        assert_eq!(status(&doubted, Selection::All), Status::Doubtful);
    }

    #[test]
    fn bare_note_data_has_the_cards_lines() {
        let (sheet, status) = printed(
            b"1000\n0000\n0100\n0000\n;\n",
            Selection::Bare(4),
            SheetForm::Card,
        );
        let lines = "measures 1\nrows 2\narrows 2\nsteps 2\nkeys 0\nnotes 2\nlast 96\nm 0 2 1\nn 0 0 0 -\nn 1 1 0 -\n";
        assert_eq!((&*sheet, status), (lines, Status::Done));
    }

    #[test]
    fn six_lanes_are_a_layout() {
        let data = b"000010\n010010\n";
        let (sheet, status) = printed(data, Selection::Bare(6), SheetForm::Print);
        assert_eq!(status, Status::Done);
        assert!(sheet.contains("\nlanes               6\n"));
        assert!(sheet.contains(
            "\nup_left             1        1        1\nup_right            2        2        2\n"
        ));
    }

    #[test]
    fn a_doubtful_chart_prints_nothing_of_a_sheet() {
        for form in [SheetForm::Card, SheetForm::Print, SheetForm::Json] {
            let printed = printed(b"100\n", Selection::Bare(4), form);
            assert_eq!(printed, (String::new(), Status::Doubtful));
        }
    }

    #[test]
    fn what_is_forced_is_said_in_each_form() {
        let file = b"#NOTES:dance-single:::::\n1000\n01000\n;\n#Notes:\n";
        let tag = "line 5 begins with #Notes:, which starts no chart: write #NOTES:";
        let row = "line 3 has `0` behind its 4 cells, where nothing is read: put it on a line of its own or take it out";
        let of = |form| said(file, Selection::All, form, true).0;
        let card = format!("chart 0 dance-single\nforced: {tag}\nforced: {row}\nmeasures 1\n");
        assert!(of(SheetForm::Card).starts_with(&card));
        let print = of(SheetForm::Print);
        let (_, foot) = print.split_once("\nlibrary ").unwrap();
        let lines: Vec<_> = foot.lines().skip(1).collect();
        let forced = format!("forced: {tag} forced: {row}  checked by");
        assert!(
            lines.join(" ").replace("     ", " ").contains(&forced),
            "{foot}"
        );
        assert!(print.lines().all(|line| line.len() <= 80));
        let json = of(SheetForm::Json);
        let forced = format!("\"lanes\":4,\"forced\":[\"{tag}\",\"{row}\"],\"figures\":{{");
        assert!(json.contains(&forced), "{json}");
        assert_eq!(after_value(json.trim_end()), Some(""));
    }

    #[test]
    fn numbers_wider_than_their_columns_stand_apart() {
        // The longest text: every number of holds and rolls has its most digits.
        let mut data = ",\n".repeat(1_000_000);
        data += &"0000\n".repeat(2_200_000);
        data += "0020\n0000\n0030\n0000\n0000\n";
        let (sheet, status) = printed(data.as_bytes(), Selection::Bare(4), SheetForm::Print);
        assert_eq!(status, Status::Done);
        let held = sheet.lines().find(|line| line.starts_with("hold "));
        let columns: Vec<_> = held.unwrap().split_whitespace().collect();
        assert_eq!(
            columns,
            ["hold", "2200000", "2", "2200002", "1000000", "4000004"]
        );
        for line in sheet.lines() {
            assert!(line.len() <= 80, "{line}");
        }
    }

    #[test]
    fn each_line_of_json_is_one_object() {
        let file = [SM_FILE, b"#NOTES:\n\"\\x\t\xFF :::::;\n#NOTES:;\n"].concat();
        let (sheets, status) = printed(&file, Selection::All, SheetForm::Json);
        assert_eq!((sheets.lines().count(), status), (5, Status::Done));
        for line in sheets.lines() {
            assert!(line.starts_with("{\"file\":\"x\","));
            assert_eq!(after_value(line), Some(""), "{line}");
        }
    }

    /// As many measures as a line of densities has, each of so many taps.
    fn measures_of(taps: usize) -> String {
        let measure = "1000\n".repeat(taps);
        let data = vec![measure; 16].join(",\n");
        format!("#NOTES:dance-single:::::\n{data};\n")
    }

    #[test]
    fn a_sheet_on_paper_has_80_columns_at_most() {
        let dense: String = [999, 1000, 12_345].map(measures_of).concat();
        let long_type = [b"#NOTES:", &[0xFF; 99][..], b":::::;\n"].concat();
        let too_long = vec![b'0'; MAX_LEN + 1];
        let files: [(&[u8], usize); 8] = [
            (SM_FILE, 2),
            (dense.as_bytes(), 3),
            (&long_type, 0),
            (&too_long, 0),
            (b"1000\n", 0),
            (b"#Notes:;\n", 0),
            (b"#NOTEDATA:;\n#NOTES:;\n", 0),
            (b"#NOTES:a;\n", 0),
        ];
        for (file, count) in files {
            for selection in [Selection::All, Selection::Chart(9)] {
                let (sheets, _) = printed(file, selection, SheetForm::Print);
                for line in sheets.lines() {
                    assert!(line.chars().count() <= 80, "{line}");
                }
                let wanted = if selection == Selection::All {
                    count
                } else {
                    0
                };
                assert_eq!(sheets.matches("checked by").count(), wanted);
            }
        }
    }

    #[test]
    fn holds_and_rolls_have_measure_and_beat_beside_their_rows() {
        let data = b"2000\n0000\n3000\n0000\n,\n,\n1000\n0400\n0300\n,\n0000\n2000\n3000\n";
        let (sheet, _) = printed(data, Selection::Bare(4), SheetForm::Print);
        let (_, held) = sheet.split_once("holds and rolls\n").unwrap();
        let wanted = "          row   column     tail  measure         beat\n\
                      hold        0        0        1        0            0\n\
                      roll        3        1        4        2     9.333333\n\
                      hold        6        0        7        3    13.333333\n\n";
        assert!(held.starts_with(wanted), "{held}");
    }

    #[test]
    fn densities_of_1000_and_more_go_on_below() {
        let (sheet, _) = printed(
            measures_of(1000).as_bytes(),
            Selection::All,
            SheetForm::Print,
        );
        let (_, densities) = sheet.split_once("not\n").unwrap();
        let lines: Vec<_> = densities.lines().take(3).collect();
        let [first, second] = [14, 2].map(|count| "1000=".repeat(count));
        assert_eq!(
            lines,
            [
                format!("      0:{first}"),
                format!("        {second}"),
                String::new()
            ]
        );
    }
}
