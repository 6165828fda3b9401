//! The word `trace`: a pad trace beside the notes of a chart.

use crate::args::Trace;
use crate::charts::listed;
use crate::checksum::Sum;
use crate::forms::{Answer, Broken, First, Pad, Place, Sheets};
use crate::input::{contents, shown, whole};
use crate::measures::Measures;
use crate::output::{Status, fault};
use crate::presses::{first_broken, first_miss, first_stray, presses};
use crate::select::Selection;
use crate::sheet::{Word, of_file};
use crate::slices::Slices;
use padcheck::{MAX_LEN, PRESS_BYTES, Press, press_trace};
use std::io::{self, Write};

/// More bytes than a trace has that hits each note of a chart once: a press for each byte of the longest text.
const MOST_TRACE: usize = PRESS_BYTES * MAX_LEN;

/// What none is longer than.
const LONGEST: &str = "any trace that is read";

/// `padcheck trace`.
pub fn run(asked: &Trace, out: &mut dyn Write) -> io::Result<Status> {
    let file = contents(&asked.file);
    let given = file.and_then(|file| Ok((file, whole(&asked.trace, MOST_TRACE, LONGEST)?)));
    match given {
        Ok((file, trace)) => of_files(asked, &file, &trace, out),
        Err(message) => fault(out, &message),
    }
}

/// The same of the bytes of both files.
fn of_files(asked: &Trace, file: &[u8], trace: &[u8], out: &mut dyn Write) -> io::Result<Status> {
    if asked.wanted.selection == Selection::All
        && let Ok(charts) = listed(file)
        && charts.len() > 1
    {
        let (file, count) = (shown(&asked.file), charts.len());
        return fault(
            out,
            &format!("{file} has {count} charts: --chart K is wanted"),
        );
    }
    let sum = Sum::of_whole(trace);
    let word = Word {
        make: |slices, data, lanes, _| {
            slices.main_call(data, lanes)?;
            Ok(slices.measures(lanes)?)
        },
        write: &|sheets, subject, lanes, slices, measures| {
            let pad = Pad {
                path: &asked.trace,
                sum,
                lanes,
                answer: answer(trace, lanes, slices, &measures),
            };
            sheets.trace(subject, &pad)?;
            Ok(pad.status())
        },
    };
    let mut sheets = Sheets::new(asked.wanted.form, out);
    let mut slices = Slices::default();
    of_file(
        asked.wanted,
        word,
        &asked.file,
        file,
        &mut slices,
        &mut sheets,
    )
}

/// What a trace comes to beside the notes that the main call left in the slices.
fn answer(
    trace: &[u8],
    lanes: usize,
    slices: &Slices,
    measures: &Measures,
) -> Result<Answer, Broken> {
    let counts = press_trace(slices.records(), trace).map_err(|refusal| Broken {
        refusal,
        record: first_broken(trace),
    })?;
    let pressed = |column| presses(trace).any(|press| usize::from(press.column) == column);
    let columns = 0..counts.columns.len();
    let columns = columns.filter(|&column| column < lanes || pressed(column));
    let place = |press| place(press, slices, measures);
    Ok(Answer {
        columns: columns.collect(),
        miss: First::of(counts.misses, || first_miss(slices, trace).map(place)),
        stray: First::of(counts.strays, || first_stray(slices, trace).map(place)),
        counts,
    })
}

/// Where a press or a note stands in the chart.
fn place(press: Press, slices: &Slices, measures: &Measures) -> Place {
    let row = press.row as usize;
    let beat = slices.beats().get(row);
    Place {
        press,
        spot: beat.map(|&beat| (measures.spot(row), beat)),
    }
}

#[cfg(test)]
mod tests {
    use super::*;
    use crate::args::Wanted;
    use crate::json::after_value;
    use crate::presses::{Places, trace_of};
    use padcheck::SheetForm;
    use std::path::PathBuf;

    /// All that is printed of a trace beside a chart, and the status.
    fn said(file: &[u8], presses: Places, wanted: Wanted) -> (String, Status) {
        let asked = Trace {
            file: PathBuf::from("x"),
            trace: PathBuf::from("y"),
            wanted,
        };
        let mut out = Vec::new();
        let status = of_files(&asked, file, &trace_of(presses), &mut out).unwrap();
        (String::from_utf8(out).unwrap(), status)
    }

    const BARE: Wanted = Wanted {
        selection: Selection::Bare(4),
        form: SheetForm::Print,
        force: false,
    };

    /// What stands on paper below the lines of the trace, and the status.
    fn printed(data: &[u8], presses: Places) -> (String, Status) {
        let (paper, status) = said(data, presses, BARE);
        assert!(paper.lines().all(|line| line.len() <= 80), "{paper}");
        let parts: Vec<_> = paper.splitn(3, "\n\n").collect();
        assert!(parts[0].ends_with("\nlanes               4"), "{paper}");
        assert!(parts[1].starts_with("trace       y\nlength   "), "{paper}");
        (parts[2].to_owned(), status)
    }

    /// What stands below the lines of the columns.
    fn end(data: &[u8], presses: Places) -> (String, Status) {
        let (paper, status) = printed(data, presses);
        let end = paper.splitn(3, "\n\n").nth(2).unwrap().to_owned();
        (end, status)
    }

    /// A tap, a hold from row 1 to row 3, a tap beside a mine, an empty measure, a tap, and a roll from row 6 to row 7.
    const DATA: &[u8] = b"1000\n0200\n00M1\n0300\n,\n,\n0010\n0000\n4000\n3000\n";

    /// A press on each of its played notes.
    const CLEAN: [(u32, u8); 5] = [(0, 0), (1, 1), (2, 3), (4, 2), (6, 0)];

    const FIRSTS: &str = "                   row measure   in it         beat  column\n";

    #[test]
    fn a_press_on_each_note_passes() {
        let wanted = "\
hits                5
strays              0
misses              0

column           hits     misses
0 left              2          0
1 down              1          0
2 up                1          0
3 right             1          0

PASS, 5 of 5
";
        assert_eq!(printed(DATA, &CLEAN), (wanted.to_owned(), Status::Done));
    }

    #[test]
    fn a_note_without_a_press_is_named() {
        let presses = [&CLEAN[..3], &CLEAN[4..]].concat();
        let wanted = "\
hits                4
strays              0
misses              1

column           hits     misses
0 left              2          0
1 down              1          0
2 up                0          1
3 right             1          0

                   row measure   in it         beat  column
first miss           4       2       0            8  2 up
";
        let printed = printed(DATA, &presses);
        assert_eq!(printed, (wanted.to_owned(), Status::Refused));
        let miss = "first miss           0       0       0            0  0 left\n";
        assert_eq!(end(DATA, &[]), (FIRSTS.to_owned() + miss, Status::Refused));
    }

    #[test]
    fn each_kind_of_stray_is_named() {
        let miss = "first miss           2       0       2            2  3 right\n";
        let late = "first stray          3       0       3            3  3 right\n";
        let mut presses = CLEAN;
        presses[2].0 = 3;
        let moved = (format!("{FIRSTS}{miss}{late}"), Status::Refused);
        assert_eq!(end(DATA, &presses), moved);
        for (place, press, stray) in [
            (1, (0, 0), "0 0 0 0 0 left"),
            (2, (2, 2), "2 0 2 2 2 up"),
            (3, (3, 1), "3 0 3 3 1 down"),
            (3, (2, 7), "2 0 2 2 7"),
            (5, (8, 3), "8 - - - 3 right"),
            (5, (u32::MAX, 9), "4294967295 - - - 9"),
        ] {
            let mut presses = CLEAN.to_vec();
            presses.insert(place, press);
            let (end, status) = end(DATA, &presses);
            let line = end.strip_prefix(FIRSTS).unwrap();
            let words: Vec<_> = line.split_whitespace().collect();
            assert_eq!(words.join(" "), format!("first stray {stray}"));
            assert_eq!(status, Status::Refused);
        }
    }

    #[test]
    fn a_column_past_the_layout_has_a_line_where_it_was_pressed() {
        let (paper, _) = printed(DATA, &[(0, 4), (0, 9), (1, 9)]);
        let wanted = "
0 left              0          2
1 down              0          1
2 up                0          1
3 right             0          1
4                   0          0  not in the layout
9                   0          0  not in the layout

";
        assert!(paper.contains(wanted), "{paper}");
    }

    #[test]
    fn a_column_without_a_note_is_named_in_the_pass() {
        let (paper, status) = printed(b"1000\n00M0\n0001\n00L0\n", &[(0, 0), (2, 3)]);
        assert_eq!(status, Status::Done);
        for line in [
            "1 down              0          0  no press\n",
            "2 up                0          0  no press\n",
        ] {
            assert!(paper.contains(line), "{paper}");
        }
        assert!(
            paper.ends_with("\n\nPASS, 2 of 2, no note on down, up\n"),
            "{paper}"
        );
        let wide = Wanted {
            selection: Selection::Bare(10),
            ..BARE
        };
        let (paper, status) = said(b"0000010000\n", &[(0, 5)], wide);
        let wanted = "\n\nPASS, 1 of 1, no note on 0, 1, 2, 3, 4, 6, 7, 8, 9\n";
        assert!(paper.ends_with(wanted), "{paper}");
        assert_eq!(status, Status::Done);
    }

    #[test]
    fn of_no_note_there_is_no_pass() {
        let nothing = String::from("nothing to press\n");
        for data in [&b"0000\n"[..], b"M0L0\nK0F0\n2000\n0000\n"] {
            assert_eq!(end(data, &[]), (nothing.clone(), Status::Refused));
        }
        let stray = "first stray          1       0       1            2  0 left\n";
        let wanted = (format!("{nothing}{FIRSTS}{stray}"), Status::Refused);
        assert_eq!(end(b"0000\nM000\n", &[(1, 0), (1, 0)]), wanted);
    }

    #[test]
    fn of_doubtful_note_data_the_pass_is_forced() {
        let forced = Wanted {
            force: true,
            ..BARE
        };
        let data = b"1000\n01000\n";
        let doubted = said(data, &[(0, 0), (1, 1)], BARE);
        assert_eq!(doubted, (String::new(), Status::Doubtful));
        let (paper, status) = said(data, &[(0, 0), (1, 1)], forced);
        assert_eq!(status, Status::Done);
        let doubt = "forced: line 2 has `0` behind its 4 cells";
        let (_, end) = paper.split_once(doubt).unwrap();
        assert!(
            end.ends_with("\n\nPASS, forced, 2 of 2, no note on up, right\n"),
            "{paper}"
        );
        let (paper, status) = said(data, &[(0, 0)], forced);
        assert!(
            paper.contains(doubt) && paper.contains("\nfirst miss ") && !paper.contains("PASS")
        );
        assert_eq!(status, Status::Refused);
        // Where there is nothing to force, --force changes nothing.
        assert_eq!(said(DATA, &CLEAN, forced), said(DATA, &CLEAN, BARE));
    }

    #[test]
    fn an_object_has_its_names() {
        let json = Wanted {
            form: SheetForm::Json,
            ..BARE
        };
        let (object, status) = said(DATA, &CLEAN, json);
        let wanted = "{\"file\":\"x\",\"length\":44,\"cksum\":891868620,\"chart\":null,\"type\":null,\"lanes\":4,\
            \"trace\":{\"file\":\"y\",\"length\":25,\"cksum\":999732668},\"hits\":5,\"strays\":0,\"misses\":0,\"columns\":[\
            {\"column\":0,\"direction\":\"left\",\"hits\":2,\"misses\":0,\"no_press\":false},\
            {\"column\":1,\"direction\":\"down\",\"hits\":1,\"misses\":0,\"no_press\":false},\
            {\"column\":2,\"direction\":\"up\",\"hits\":1,\"misses\":0,\"no_press\":false},\
            {\"column\":3,\"direction\":\"right\",\"hits\":1,\"misses\":0,\"no_press\":false}],\
            \"verdict\":\"pass\",\"no_note\":[],\"first_miss\":null,\"first_stray\":null}\n";
        assert_eq!((object, status), (wanted.to_owned(), Status::Done));
    }

    #[test]
    fn an_object_says_what_paper_does() {
        let json = Wanted {
            form: SheetForm::Json,
            force: true,
            ..BARE
        };
        let late = "\"verdict\":\"not_clean\",\"no_note\":[],\
            \"first_miss\":{\"row\":6,\"measure\":2,\"row_in_measure\":2,\"beat\":10,\"column\":0},\
            \"first_stray\":{\"row\":8,\"measure\":null,\"row_in_measure\":null,\"beat\":null,\"column\":0}}\n";
        let mut presses = CLEAN;
        presses[4].0 = 8;
        let told: [(&[u8], Places, &str); 5] = [
            (DATA, &presses, late),
            (
                DATA,
                &[(0, 9)],
                "{\"column\":9,\"direction\":null,\"hits\":0,\"misses\":0,\"no_press\":false}]",
            ),
            (
                b"0000\n",
                &[],
                "\"verdict\":\"nothing_to_press\",\"no_note\":[0,1,2,3],",
            ),
            (
                b"1000\n",
                &[(0, 0)],
                "\"no_press\":true}],\"verdict\":\"pass\",\"no_note\":[1,2,3],",
            ),
            (b"1000x\n", &[(0, 0)], "\"verdict\":\"pass_forced\","),
        ];
        for (data, presses, part) in told {
            let (object, _) = said(data, presses, json);
            assert!(object.contains(part), "{object}");
            assert_eq!(after_value(object.trim_end()), Some(""), "{object}");
        }
    }

    const SM_FILE: &[u8] = include_bytes!("../../../examples/first-steps.sm");

    #[test]
    fn a_file_with_one_chart_needs_no_number() {
        let all = Wanted {
            selection: Selection::All,
            ..BARE
        };
        let (paper, status) = said(SM_FILE, &[], all);
        assert_eq!((&*paper, status), ("", Status::Fault));
        let one = [b"#NOTES:dance-single:::::\n", DATA, b";\n"].concat();
        let (paper, status) = said(&one, &CLEAN, all);
        assert!(paper.contains("\nchart               0  dance-single\n"));
        assert!(paper.ends_with("\n\nPASS, 5 of 5\n"));
        assert_eq!(status, Status::Done);
        // Charts that are refused and files without charts are told as everywhere.
        for (file, selection) in [
            (DATA, all.selection),
            (SM_FILE, Selection::Chart(1)),
            (SM_FILE, Selection::Chart(3)),
        ] {
            let (paper, status) = said(file, &[], Wanted { selection, ..BARE });
            assert!(paper.contains("\nrefused 1"), "{paper}");
            assert_eq!(status, Status::Refused);
        }
    }

    #[test]
    fn a_refused_trace_is_told_with_its_record() {
        let presses = [(0, 0), (2, 3), (1, 1)];
        let wanted = "\
refused 16: the trace has part of a press, a column over 9, or a press that
    falls, by whoever records the trace
record 2 falls: row 1 after row 2
";
        assert_eq!(
            printed(DATA, &presses),
            (wanted.to_owned(), Status::Refused)
        );
        let json = Wanted {
            form: SheetForm::Json,
            ..BARE
        };
        let (object, status) = said(DATA, &presses, json);
        let wanted = "},\"refused\":16,\"words\":\"the trace has part of a press, a column over 9, or a press that falls, \
                      by whoever records the trace\",\"record\":2,\"breaks\":\"falls: row 1 after row 2\"}\n";
        assert!(object.ends_with(wanted), "{object}");
        assert_eq!(after_value(object.trim_end()), Some(""));
        assert_eq!(status, Status::Refused);
    }
}
