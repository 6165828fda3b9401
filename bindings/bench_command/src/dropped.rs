//! The word `dropped`: the heads that have no note, each with where it stands and what dropped it.

use crate::args::Sheet;
use crate::forms::Dropped;
use crate::measures::Measures;
use crate::output::Status;
use crate::sheet::{Word, each_chart};
use crate::slices::Slices;
use padcheck::{DroppedHead, DroppedHeads};
use std::io::{self, Write};

/// `padcheck dropped`.
pub fn run(asked: &Sheet, out: &mut dyn Write) -> io::Result<Status> {
    each_chart(asked, DROPPED, out)
}

const DROPPED: Word = Word {
    make: |slices, data, lanes, _| {
        slices.dropped_holds(data, lanes)?;
        Ok(slices.measures(lanes)?)
    },
    write: &|sheets, subject, lanes, slices, measures| {
        let heads = DroppedHeads::new(slices.records());
        let heads = heads.map(|head| told(&head, lanes, slices, &measures));
        sheets.dropped(subject, lanes, heads)?;
        Ok(Status::Done)
    },
};

/// All that is said of a head.
fn told(head: &DroppedHead, lanes: usize, slices: &Slices, measures: &Measures) -> Dropped {
    let &DroppedHead { row, column, cause } = head;
    let cell = slices.text()[measures.place_of_row(row, lanes) + column];
    Dropped {
        name: if cell == b'2' { "hold" } else { "roll" },
        column,
        at: measures.spot(row),
        beat: slices.beats()[row],
        cause,
        by: cause.row().map(|row| measures.spot(row)),
    }
}

#[cfg(test)]
mod tests {
    use super::*;
    use crate::args::Wanted;
    use crate::forms::Sheets;
    use crate::json::after_value;
    use crate::select::Selection;
    use crate::sheet::of_file;
    use padcheck::SheetForm;
    use std::path::Path;

    /// All that is printed of a file, and the status.
    fn printed(file: &[u8], selection: Selection, form: SheetForm) -> (String, Status) {
        let wanted = Wanted {
            selection,
            form,
            force: false,
        };
        let mut out = Vec::new();
        let mut sheets = Sheets::new(form, &mut out);
        let (path, mut slices) = (Path::new("x"), Slices::default());
        let status = of_file(wanted, DROPPED, path, file, &mut slices, &mut sheets).unwrap();
        (String::from_utf8(out).unwrap(), status)
    }

    /// A hold that another head drops, which a tail closes; a roll that a mine drops measures later; two heads at the chart's end.
    const DATA: &[u8] = b"2000\n0000\n4004\n0000\n,\n3000\n0020\n0000\n,\n,\n000M\n0400\n";

    #[test]
    fn each_head_is_listed_with_what_dropped_it() {
        let (printed, status) = printed(DATA, Selection::Bare(4), SheetForm::Print);
        let wanted = "\
holds and rolls that came to nothing
         row column measure in it        beat  dropped by          row measure
hold       0      0       0     0           0  another head          1       0
roll       1      3       0     1           2  another cell          5       3
hold       3      2       1     1   5.3333335  the chart's end
roll       6      1       3     1          14  the chart's end
";
        let (head, list) = printed.split_once("\n\n").unwrap();
        assert!(head.ends_with("\nlanes               4"), "{head}");
        assert_eq!((list, status), (wanted, Status::Done));
        assert!(list.lines().all(|line| line.len() <= 80));
    }

    #[test]
    fn an_object_has_its_names() {
        let (printed, status) = printed(DATA, Selection::Bare(4), SheetForm::Json);
        assert_eq!(status, Status::Done);
        assert_eq!(after_value(printed.trim_end()), Some(""));
        let (_, list) = printed.split_once("\"lanes\":4,\"dropped\":").unwrap();
        let first = "[{\"row\":0,\"measure\":0,\"row_in_measure\":0,\"beat\":0,\"column\":0,\"head\":\"hold\",\
                     \"cause\":\"other_head\",\"by_row\":1,\"by_measure\":0},{\"row\":1,";
        let last = "\"beat\":14,\"column\":1,\"head\":\"roll\",\"cause\":\"chart_end\",\
                    \"by_row\":null,\"by_measure\":null}]}\n";
        assert!(list.starts_with(first) && list.ends_with(last), "{list}");
        assert_eq!(
            list.matches("\"cause\":\"other_cell\",\"by_row\":5,")
                .count(),
            1
        );
    }

    #[test]
    fn numbers_wider_than_their_columns_stand_apart() {
        // Row 1 of 307, a row of 7 digits in a measure of 7 digits, and a cause in a row of 7 digits.
        let rows = |count| "0000\n".repeat(count);
        let few = format!("0000\n2000\n0000\n1000\n{}", rows(303));
        let many = format!(
            "{}{}0020\n0000\n0010\n{}0200\n",
            ",\n".repeat(1_000_000),
            rows(1_100_000),
            rows(1_100_000)
        );
        let wanted = [
            vec!["hold 1 0 0 1 0.0130293155 another cell 3 0"],
            vec![
                "hold 1100000 2 1000000 1100000 4000002 another cell 1100002 1000000",
                "hold 2200003 1 1000000 2200003 4000004 the chart's end",
            ],
        ];
        for (data, wanted) in [few, many].iter().zip(wanted) {
            let (list, _) = printed(data.as_bytes(), Selection::Bare(4), SheetForm::Print);
            let heads = list.lines().filter(|line| line.starts_with("hold "));
            let heads: Vec<_> = heads
                .map(|line| line.split_whitespace().collect::<Vec<_>>().join(" "))
                .collect();
            assert_eq!(heads, wanted);
        }
    }

    #[test]
    fn a_chart_may_have_none() {
        let whole = include_bytes!("../../../examples/first-steps.sm");
        let (paper, status) = printed(whole, Selection::All, SheetForm::Print);
        assert_eq!(status, Status::Done);
        assert_eq!(paper.matches("\n\nno hold came to nothing\n").count(), 2);
        assert_eq!(paper.matches("\nrefused 10: ").count(), 1);
        let (json, _) = printed(whole, Selection::All, SheetForm::Json);
        assert_eq!(json.matches(",\"dropped\":[]}\n").count(), 2);
        assert_eq!(json.matches(",\"refused\":10,").count(), 1);
        for selection in [Selection::Chart(1), Selection::Chart(3)] {
            assert_eq!(
                printed(whole, selection, SheetForm::Print).1,
                Status::Refused
            );
        }
        let doubted = printed(b"100\n", Selection::Bare(4), SheetForm::Json);
        assert_eq!(doubted, (String::new(), Status::Doubtful));
    }
}
