//! When note data looks like something else, or not all of it is read. The library reads any text; what is doubtful is this
//! program's matter alone.

use crate::input::{behind_mark, has_chart};
use crate::lines::{LineKind, line_kind, lines};
use crate::odd::{Odd, OddMeasures};

/// The bytes that a cell may be.
const CELLS: &[u8] = b"01234MKLFmlf";

/// Note data, and where it stands in its file.
#[derive(Clone, Copy, Debug, PartialEq)]
pub struct NoteData<'a> {
    pub data: &'a [u8],
    pub lanes: usize,
    /// On which line of the file it begins, counted from 1.
    pub line: usize,
    /// What follows the chart's block in its file. Bare note data is a whole file, and ends with the line that ends the reading.
    pub behind: Option<&'a [u8]>,
}

/// What is told of note data beside its figures.
#[derive(Debug, Default, PartialEq, Eq)]
pub struct Look {
    /// Why it is doubtful, and what to mend.
    pub doubt: Option<String>,
    /// The measures whose rows do not divide 192, which is no doubt.
    pub odd: Option<Odd>,
}

impl NoteData<'_> {
    /// Looks at the note data of one chart.
    pub fn look(&self) -> Look {
        let seen = Seen::of(self);
        let doubt = self
            .start_doubt()
            .or_else(|| seen.line_doubt(self))
            .or_else(|| seen.row_doubt(self.lanes))
            .or_else(|| seen.loss_doubt(self));
        let odd = seen.odd.found().map(|odd| odd.below(self.line));
        Look { doubt, odd }
    }

    /// Why it is no note data at all.
    fn start_doubt(&self) -> Option<String> {
        let Self { data, line, .. } = *self;
        let start = data.trim_ascii_start();
        let is_bare = self.behind.is_none();
        if is_bare && behind_mark(start).is_some() {
            return Some(String::from(
                "it begins with a byte-order mark, which makes another of its first row: save it without one",
            ));
        }
        if start.starts_with(b"#") && is_bare {
            return Some(String::from(
                "its first byte is #, as that of an SM file, which is read without --lanes",
            ));
        }
        if start.starts_with(b"#") {
            let line = line + newlines(&data[..data.len() - start.len()]);
            return Some(format!(
                "line {line} begins with #, as a tag does, where the first row is to stand: end the chart above it with ;"
            ));
        }
        if is_bare && has_chart(data) {
            return Some(String::from(
                "one of its lines begins with #NOTES:, as a chart in an SM file does, which is read without --lanes",
            ));
        }
        let place = data.iter().position(|&byte| byte == 0)?;
        let line = line + newlines(&data[..place]);
        Some(format!("line {line} has a NUL byte: save it as UTF-8"))
    }
}

fn newlines(text: &[u8]) -> usize {
    text.iter().filter(|&&byte| byte == b'\n').count()
}

/// What a byte that is not read stands behind.
#[derive(Clone, Copy, Debug, PartialEq, Eq)]
enum Behind {
    Cells,
    Comma,
    Semicolon,
}

/// What is seen in the lines of note data, up to the one that ends the reading. The places are those of lines, from 0.
#[derive(Debug, Default)]
struct Seen {
    /// How many rows there are.
    rows: usize,
    /// How many lines are too short for a row, or are none for a byte 13.
    shorter: usize,
    /// The first of these.
    short: Option<usize>,
    /// The first line with a `:` outside its comment.
    colon: Option<usize>,
    /// The first line that has such a byte among its cells, which none may be; for a byte 13 it is no row.
    cell: Option<(usize, u8)>,
    /// The first byte that is neither blank nor in a comment, behind cells or a mark.
    unread: Option<(usize, Behind, u8)>,
    /// A row with a `;` right behind its cells, by which nothing is lost unless a row follows.
    ended: Option<usize>,
    /// The line whose `;` ends the chart though it stands in a comment.
    comment: Option<usize>,
    /// The first line that looks like a row, below the `;` that ends the chart.
    below: Option<usize>,
    odd: OddMeasures,
}

impl Seen {
    fn of(chart: &NoteData) -> Self {
        let NoteData { data, lanes, .. } = *chart;
        let mut seen = Self::default();
        // What follows the `;`, and its line.
        let mut end = None;
        let mut start = 0;
        for (place, line) in lines(data).enumerate() {
            let next = start + line.len() + 1;
            let kind = line_kind(line, lanes);
            let line = line.trim_ascii_start();
            if kind == LineKind::Semi {
                end = Some((place, &data[next - line.len()..]));
                break;
            }
            seen.line(place, line, kind, lanes);
            start = next;
        }
        seen.odd.end_measure();
        if let Some(behind) = chart.behind
            && data.ends_with(b";")
        {
            let place = newlines(data);
            let last = data.rsplit(|&byte| byte == b'\n').next();
            seen.comment = last.is_some_and(in_comment).then_some(place);
            end = Some((place, behind));
        }
        if let Some((place, rest)) = end {
            seen.end(place, rest, lanes);
        }
        seen
    }

    /// Sees a line, without its leading blanks, above the one that ends the reading.
    fn line(&mut self, place: usize, line: &[u8], kind: LineKind, lanes: usize) {
        if has_colon(line) {
            self.colon.get_or_insert(place);
        }
        match kind {
            LineKind::Row => {
                self.odd.row(place);
                let (cells, rest) = line.split_at(lanes);
                self.row(place, cells, rest);
            }
            LineKind::Short => {
                self.shorter += 1;
                self.short.get_or_insert(place);
                if lanes <= line.len() {
                    self.cell.get_or_insert((place, b'\r'));
                }
            }
            LineKind::Comma => {
                self.odd.end_measure();
                self.unread(place, Behind::Comma, &line[1..]);
            }
            LineKind::Passed | LineKind::Semi => {}
        }
    }

    /// Sees a row.
    fn row(&mut self, place: usize, cells: &[u8], rest: &[u8]) {
        self.rows += 1;
        if let Some(ended) = self.ended.take() {
            self.unread(ended, Behind::Cells, b";");
        }
        if rest.starts_with(b";") && unread(&rest[1..]).is_none() {
            self.ended = Some(place);
        } else {
            self.unread(place, Behind::Cells, rest);
        }
        let other = cells.iter().find(|cell| !CELLS.contains(cell));
        self.cell = self.cell.or(other.map(|&cell| (place, cell)));
    }

    /// Sees what follows the `;` that ends the chart, in the file or below.
    fn end(&mut self, place: usize, rest: &[u8], lanes: usize) {
        let mut rest = lines(rest);
        self.unread(place, Behind::Semicolon, rest.next().unwrap_or_default());
        let rest = rest.map(<[u8]>::trim_ascii_start);
        let mut rest = rest.take_while(|line| !line.starts_with(b"#"));
        let row = rest.position(|line| {
            let cells = line.get(..lanes);
            cells.is_some_and(|cells| cells.iter().all(|cell| CELLS.contains(cell)))
        });
        self.below = row.map(|row| place + 1 + row);
    }

    /// Sees what stands behind cells or a mark.
    fn unread(&mut self, place: usize, behind: Behind, rest: &[u8]) {
        if let Some(byte) = unread(rest) {
            self.unread.get_or_insert((place, behind, byte));
        }
    }

    /// Why a line like these is no line of note data.
    fn line_doubt(&self, chart: &NoteData) -> Option<String> {
        if let Some(place) = self.colon {
            let line = chart.line + place;
            return Some(format!(
                "line {line} has a : outside comments, as the fields before note data have: write none in a field, \
                 not even as \\:"
            ));
        }
        let (place, cell) = self.cell?;
        let (line, lanes, cell) = (chart.line + place, chart.lanes, cell.escape_ascii());
        Some(format!(
            "line {line} has the byte `{cell}` among its {lanes} cells: each is to be one of 0 1 2 3 4 M K L F m l f"
        ))
    }

    /// Why these are no rows, or of another width.
    fn row_doubt(&self, lanes: usize) -> Option<String> {
        match (self.rows, self.shorter) {
            (0, 0) => Some(format!("it has no rows at all: a row has {lanes} cells")),
            (0, _) => Some(format!(
                "every line is shorter than {lanes} lanes: it is of another lane count"
            )),
            _ => None,
        }
    }

    /// Why not all of the note data is read.
    fn loss_doubt(&self, chart: &NoteData) -> Option<String> {
        let line = |place| chart.line + place;
        let lanes = chart.lanes;
        if let Some(place) = self.comment {
            let line = line(place);
            return Some(format!(
                "line {line} has a ; in a comment, which ends the chart there: take it out of the comment"
            ));
        }
        if let Some((place, behind, byte)) = self.unread {
            let (line, byte) = (line(place), byte.escape_ascii());
            return Some(match behind {
                Behind::Cells => format!(
                    "line {line} has `{byte}` behind its {lanes} cells, where nothing is read: put it on a line of its own or \
                     take it out"
                ),
                Behind::Comma => format!(
                    "line {line} has `{byte}` behind its comma, where nothing is read: put it on a line of its own or take it out"
                ),
                Behind::Semicolon => format!(
                    "line {line} has `{byte}` behind the ; that ends the chart, where nothing is read: put it on a line of its own \
                     or take it out"
                ),
            });
        }
        if let Some(place) = self.short {
            let line = line(place);
            return Some(format!(
                "line {line} is too short for a row of {lanes} cells, and is dropped: fill it up or take it out"
            ));
        }
        let line = line(self.below?);
        Some(format!(
            "line {line} looks like a row and stands below the ; that ends the chart: put the ; below it or take it out"
        ))
    }
}

/// Whether a line has a `:` before its comment. One that begins with `/` is a comment.
fn has_colon(line: &[u8]) -> bool {
    let first = line.iter().position(|&byte| byte == b':');
    first.is_some_and(|place| !in_comment(&line[..place]))
}

/// Whether what follows this beginning of a line stands in a comment.
fn in_comment(beginning: &[u8]) -> bool {
    let beginning = beginning.trim_ascii_start();
    beginning.starts_with(b"/") || beginning.windows(2).any(|pair| pair == b"//")
}

/// The first byte of what follows a row's cells or a mark that is neither blank nor in a comment.
fn unread(rest: &[u8]) -> Option<u8> {
    let rest = rest.trim_ascii_start();
    let comment = rest.starts_with(b"//");
    rest.first().copied().filter(|_| !comment)
}

#[cfg(test)]
mod tests {
    use super::*;

    /// Why bare note data is doubtful.
    fn bare(data: &[u8], lanes: usize) -> Option<String> {
        let chart = NoteData {
            data,
            lanes,
            line: 1,
            behind: None,
        };
        chart.look().doubt
    }

    /// Why the note data of a chart in a file is doubtful, of which the text stands there and what follows in its file.
    fn in_file(text: &[u8]) -> Option<String> {
        let end = text.iter().position(|&byte| byte == b';');
        let (data, behind) = text.split_at(end.map_or(text.len(), |place| place + 1));
        let chart = NoteData {
            data,
            lanes: 4,
            line: 1,
            behind: Some(behind),
        };
        chart.look().doubt
    }

    /// Whether this is doubtful for a reason with these words at its front.
    fn doubted(why: Option<String>, words: &str) -> bool {
        why.is_some_and(|why| why.starts_with(words))
    }

    #[test]
    fn a_chart_is_not_doubtful() {
        let charts: [&[u8]; 10] = [
            b"1000\n",
            b"\n  // measure 0\r\n1000\r\n,  // x\r\n0000 // y\r\n;",
            b"0000",
            b"1000\t \r\n0100\n",
            b"1000\n0001;",
            b"2000\n3000\n,\n; // x\n\n// 1000\n",
            b"1234\nMKLF\nmlf0\n",
            b"// a: b\n1000 // c: d\n/ e:\n,// f:\n0000\n;\nh:\n100\n",
            b"1000\n \t\r\n0100\n,\n,\n1000\n",
            b"\n,\n1000//\n;\n#X:\n1000\n",
        ];
        for data in charts {
            assert_eq!(bare(data, 4), None, "{}", data.escape_ascii());
            assert_eq!(in_file(data), None, "{}", data.escape_ascii());
        }
        let chart = include_bytes!("../../../examples/first-steps.txt");
        assert_eq!(bare(chart, 4), None);
        // In a file the `;` ends the chart wherever it stands, else only at a line's front.
        assert_eq!(bare(b"1000 // x; y\n0100\n", 4), None);
        assert_eq!(bare(b"1000\n0001; // x\n\n", 4), None);
    }

    #[test]
    fn what_is_not_note_data_is_doubtful() {
        let marked = "it begins with a byte-order mark";
        assert!(doubted(
            bare(b" \n#TITLE:x;\n1000\n", 4),
            "its first byte is #"
        ));
        assert!(doubted(
            bare(b"// x\n1000\n #NOTES:x", 4),
            "one of its lines begins with #NOTES:"
        ));
        assert!(doubted(bare(b"\xEF\xBB\xBF1000\n", 4), marked));
        assert!(doubted(bare(b"\n\xFF\xFE1\x000\x000\x000\x00", 4), marked));
        assert!(doubted(bare(b"\xFE\xFF", 4), marked));
        assert!(doubted(
            bare(b"1000\n0\x0000\n", 4),
            "line 2 has a NUL byte"
        ));
        // Within a file a mark is a byte among cells.
        assert!(doubted(
            in_file(b"\n\xEF\xBB\xBF1000\n;"),
            "line 2 has the byte `\\xef` among its 4 cells"
        ));
        assert!(doubted(
            in_file(b"\n #X:1;"),
            "line 2 begins with #, as a tag does"
        ));
    }

    #[test]
    fn a_line_that_is_none_is_named() {
        let told: [(&[u8], &str); 10] = [
            (b"0.1,0.2:\n1000\n", "line 1 has a : outside comments"),
            (b"1000\n, a:b // c\n0000\n", "line 2 has a :"),
            (
                b"1000\n1[12]000\n",
                "line 2 has the byte `[` among its 4 cells",
            ),
            (b"1000\n0100\n100\r\n", "line 3 has the byte `\\r` among"),
            (b"100\r\n1000\n", "line 1 has the byte `\\r` among"),
            (
                b"1000\n,\n 1\r00 // x\n,\n",
                "line 3 has the byte `\\r` among",
            ),
            (b"1\r00", "line 1 has the byte `\\r` among"),
            (b"10 0\n", "line 1 has the byte ` ` among"),
            (b"10x0\n1000\n,:\n", "line 3 has a :"),
            (b"1000\n1\n1000\n1x00\n", "line 4 has the byte"),
        ];
        for (data, words) in told {
            assert!(doubted(bare(data, 4), words), "{}", data.escape_ascii());
            assert!(doubted(in_file(data), words), "{}", data.escape_ascii());
        }
    }

    #[test]
    fn rows_of_another_width_are_doubtful() {
        assert!(doubted(bare(b"", 4), "it has no rows at all"));
        assert!(doubted(
            bare(b"// x\n,\n;\n1000\n", 4),
            "it has no rows at all"
        ));
        assert!(doubted(
            bare(b"100\n010\n", 4),
            "every line is shorter than 4 lanes"
        ));
        assert!(doubted(
            bare(b"0000\n10000\n", 4),
            "line 2 has `0` behind its 4 cells"
        ));
        assert_eq!(bare(b"10000\n00100\n", 5), None);
        assert_eq!(bare(b"100000\n", 6), None);
        assert!(doubted(
            bare(b"1000000\n", 6),
            "line 1 has `0` behind its 6 cells"
        ));
    }

    #[test]
    fn what_is_not_read_is_doubtful() {
        let told: [(&[u8], &str); 20] = [
            (b"1000\n0100,\n0010\n", "line 2 has `,` behind its 4 cells"),
            (b"1000\n0100 x\n0010\n", "line 2 has `x` behind its 4 cells"),
            (b"1000\n0100 / x\n", "line 2 has `/` behind its 4 cells"),
            (b"1000\n01000\n", "line 2 has `0` behind its 4 cells"),
            (b"1000\n,0100\n0010\n", "line 2 has `0` behind its comma"),
            (b"1000\n, / x\n", "line 2 has `/` behind its comma"),
            (b"1000\n,,\n0010 x\n", "line 2 has `,` behind its comma"),
            (b"1000\n,;", "line 2 has `;` behind its comma"),
            (b"1000\n0001 ;\n", "line 2 has `;` behind its 4 cells"),
            (b"1000\n;;\n", "line 2 has `;` behind the ; that ends"),
            (b"1000\n; / x\n", "line 2 has `/` behind the ; that ends"),
            (
                b"1000\n; #NOTES:\n",
                "line 2 has `#` behind the ; that ends",
            ),
            (b"100\n1000\n", "line 1 is too short for a row of 4 cells"),
            (b"1000\n\n10\n// x\n0100\n", "line 3 is too short"),
            (b"1000\n0100\n100\n,\n1000\n", "line 3 is too short"),
            (b"1000\n,\n10\n,\n1000\n", "line 3 is too short"),
            (b"1000\n,\n100\n1000", "line 3 is too short"),
            (b"1000\n;\n\n 0100\n", "line 4 looks like a row"),
            (b"1000\n;\nx\nMLFf0\n#X:;\n", "line 4 looks like a row"),
            (b"1000\n; // x\n1111 // x\n", "line 3 looks like a row"),
        ];
        for (data, words) in told {
            assert!(doubted(in_file(data), words), "{}", data.escape_ascii());
            // Of these `,` is the one that such bare data would read on from.
            assert!(doubted(bare(data, 4), words), "{}", data.escape_ascii());
        }
    }

    #[test]
    fn a_semicolon_behind_a_row_is_doubtful_where_rows_follow() {
        let words = "line 2 has `;` behind its 4 cells";
        assert!(doubted(bare(b"1000\n0100;\n0010\n", 4), words));
        assert!(doubted(bare(b"1000\n0100; x\n", 4), words));
        assert_eq!(bare(b"1000\n0100;\n,\n", 4), None);
        assert!(doubted(
            in_file(b"1000\n0100;\n0010\n"),
            "line 3 looks like a row and stands below the ;"
        ));
        assert!(doubted(
            in_file(b"1000\n0100;x\n"),
            "line 2 has `x` behind the ; that ends"
        ));
    }

    #[test]
    fn a_semicolon_in_a_comment_is_doubtful() {
        let told: [(&[u8], usize); 6] = [
            (b"\n1000\n0100 // x; y\n0010\n", 3),
            (b"\n1000\n,  // x;", 3),
            (b"\n1000\n /x;\n", 3),
            (b"1000 // x;\n", 1),
            (b"1000 //;\n0100\n;\n", 1),
            (b"1000\n0100 x // y;\n0010\n;\n", 2),
        ];
        for (text, line) in told {
            let words = format!("line {line} has a ; in a comment");
            assert!(doubted(in_file(text), &words), "{}", text.escape_ascii());
        }
        for text in [
            &b"1000\n0100;"[..],
            b"1000 // x\n;",
            b"1000\n0100 // x",
            b"1000\n; // x; y\n",
        ] {
            assert_eq!(in_file(text), None);
        }
    }

    #[test]
    fn lines_are_counted_through_the_file() {
        let chart = NoteData {
            data: b"\n1000\n100x\n;",
            lanes: 4,
            line: 7,
            behind: Some(b"\n1000\n"),
        };
        assert!(doubted(chart.look().doubt, "line 9 has the byte `x`"));
        let chart = NoteData {
            data: b"\n1000\n1000\n;",
            ..chart
        };
        assert!(doubted(chart.look().doubt, "line 11 looks like a row"));
    }

    #[test]
    fn odd_measures_are_told_beside_a_doubt() {
        let rows = |count| "1000\n".repeat(count);
        let text = format!(
            "\n{},\n,\n{}// x\n{},\n{};",
            rows(4),
            rows(3),
            rows(2),
            rows(7)
        );
        let chart = NoteData {
            data: text.as_bytes(),
            lanes: 4,
            line: 5,
            behind: Some(b""),
        };
        let Look { doubt, odd } = chart.look();
        let odd = odd.map(|odd| (odd.measure, odd.line, odd.rows, odd.count));
        assert_eq!((doubt, odd), (None, Some((2, 12, 5, 2))));
    }
}
