//! The lines of note data (Specification, Lines): for doubt and for the comparison of two files. Figures are not made from these.

use crate::memory::{NoMemory, push};
use std::ops::Range;

/// What a line is.
#[derive(Clone, Copy, Debug, PartialEq, Eq)]
pub enum LineKind {
    /// Blank or a comment.
    Passed,
    /// Too short for a row, or with a byte 13 among a row's bytes, and passed over too.
    Short,
    /// Ends a measure.
    Comma,
    /// Ends the last measure and the reading.
    Semi,
    /// A row: its first bytes, one a lane.
    Row,
}

/// The lines of a text; an empty text is one empty line.
pub fn lines(text: &[u8]) -> impl Iterator<Item = &[u8]> {
    text.split(|&byte| byte == b'\n')
}

/// What a line is at this lane count.
pub fn line_kind(line: &[u8], lanes: usize) -> LineKind {
    let line = line.trim_ascii_start();
    match line.first() {
        None | Some(b'/') => LineKind::Passed,
        Some(b',') => LineKind::Comma,
        Some(b';') => LineKind::Semi,
        Some(_) => match line.get(..lanes) {
            Some(cells) if !cells.contains(&b'\r') => LineKind::Row,
            _ => LineKind::Short,
        },
    }
}

/// Lines of a text that stand one after the other. They are the same as others where their number and their bytes are.
#[derive(Clone, Copy, Debug, Default, PartialEq, Eq)]
pub struct Part<'a> {
    count: usize,
    text: &'a [u8],
}

#[cfg(test)]
impl<'a> Part<'a> {
    /// The lines.
    pub fn lines(self) -> impl Iterator<Item = &'a [u8]> {
        lines(self.text).take(self.count)
    }
}

/// A text's lines by the measure they stand in.
#[derive(Debug, Default, PartialEq, Eq)]
pub struct MeasureLines<'a> {
    /// For each measure the lines in it, without the one that ends it.
    pub measures: Vec<Part<'a>>,
    /// The lines that end a measure or the reading.
    pub ends: Vec<&'a [u8]>,
    /// What follows the line that ends the reading, if any line does.
    pub rest: Option<&'a [u8]>,
}

impl<'a> MeasureLines<'a> {
    /// The lines of a text at this lane count.
    pub fn of(text: &'a [u8], lanes: usize) -> Result<Self, NoMemory> {
        let mut cut = Self::default();
        let (mut start, mut place, mut count) = (0, 0, 0);
        for line in lines(text) {
            let next = place + line.len() + 1;
            let kind = line_kind(line, lanes);
            if matches!(kind, LineKind::Comma | LineKind::Semi) {
                push(&mut cut.ends, line)?;
                push(&mut cut.measures, part(text, start..place, count))?;
                (start, count) = (next, 0);
            } else {
                count += 1;
            }
            if kind == LineKind::Semi {
                cut.rest = text.get(next..);
                return Ok(cut);
            }
            place = next;
        }
        push(&mut cut.measures, part(text, start..place, count))?;
        Ok(cut)
    }
}

/// So many lines of a text, each with the place of the byte that ends it.
fn part(text: &[u8], places: Range<usize>, count: usize) -> Part<'_> {
    let text = match count {
        0 => &[],
        _ => &text[places.start..places.end - 1],
    };
    Part { count, text }
}

#[cfg(test)]
mod tests {
    use super::*;

    #[test]
    fn kinds_are_the_specifications() {
        use LineKind::*;
        let kinds = [
            (&b""[..], Passed),
            (b" \t\r\x0C", Passed),
            (b"// 1000", Passed),
            (b"/1000", Passed),
            (b" ,1111", Comma),
            (b";", Semi),
            (b"100", Short),
            (b"\x0B100", Row),
            (b"100\r", Short),
            (b" 1\r00 x", Short),
            (b"1000", Row),
            (b"\r1000\r", Row),
            (b"  1000 x", Row),
        ];
        for (line, kind) in kinds {
            assert_eq!(line_kind(line, 4), kind, "{}", line.escape_ascii());
        }
        assert_eq!(line_kind(b"1000", 5), Short);
    }

    /// For each measure its lines, and what follows the reading.
    fn cut(text: &[u8]) -> (Vec<Vec<&[u8]>>, Option<&[u8]>) {
        let cut = MeasureLines::of(text, 4).unwrap();
        let measures = cut.measures.iter().map(|part| part.lines().collect());
        (measures.collect(), cut.rest)
    }

    #[test]
    fn lines_stand_in_their_measures() {
        let text = b"1000\n, x\n// y\n0100\n;\n,\n";
        let measures = vec![vec![&b"1000"[..]], vec![&b"// y"[..], b"0100"]];
        assert_eq!(cut(text), (measures, Some(&b",\n"[..])));
        let ends = MeasureLines::of(text, 4).unwrap().ends;
        assert_eq!(ends, [&b", x"[..], b";"]);
    }

    #[test]
    fn a_text_without_a_semicolon_ends_its_last_measure() {
        assert_eq!(cut(b"1000\n,"), (vec![vec![&b"1000"[..]], vec![]], None));
        assert_eq!(cut(b",\n\n"), (vec![vec![], vec![&b""[..]; 2]], None));
        assert_eq!(cut(b""), (vec![vec![&b""[..]]], None));
    }

    #[test]
    fn an_empty_line_is_one() {
        assert_eq!(cut(b";"), (vec![vec![]], None));
        assert_eq!(cut(b"\n;\n"), (vec![vec![&b""[..]]], Some(&b""[..])));
        let [none, one] = [&b",\n;"[..], b"\n,\n;"].map(|text| MeasureLines::of(text, 4).unwrap());
        assert_ne!(none.measures[0], one.measures[0]);
        assert_eq!(none.measures[1], one.measures[1]);
    }
}
