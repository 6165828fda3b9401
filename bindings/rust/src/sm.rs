//! The charts inside an SM file.

use crate::{Refusal, lent};
use std::iter::FusedIterator;

/// A chart inside an SM file.
#[derive(Clone, Copy, Debug, PartialEq, Eq, Hash)]
pub struct SmChart<'a> {
    /// Its lane count: 4 for `dance-single`, 5 for `pump-single`, 6 for `dance-solo`, 8 for `dance-double`, 10 for `pump-double`.
    pub lanes: usize,
    /// Its note data, a part of the file: what follows the fifth field, through the `;` that ends it.
    pub data: &'a [u8],
}

/// Chart number `k` of an SM file, counted from 0.
///
/// A chart is a block. It starts at a line that begins, after blanks, with `#NOTES:` and whose first byte lies in no
/// earlier block, and runs through the first `;` after that tag, or to the end of the file. Five fields follow the tag,
/// each ended by `:`, of which the first, without blanks at its ends, is the type; then come the notes. Comments are not
/// known here: a `;` or `:` in one counts.
///
/// ```
/// use padcheck::{Refusal, sm_chart};
///
/// let file = b"#TITLE:Short;\n#NOTES:\n  dance-single:\n  me:\n  Easy:\n  3:\n  0,0,0,0,0:\n1000\n0110\n;\n";
/// let chart = sm_chart(file, 0)?;
/// assert_eq!((chart.lanes, chart.data), (4, &b"\n1000\n0110\n;"[..]));
/// assert_eq!(padcheck::measure_densities(chart.data, chart.lanes)?, [2]);
/// assert_eq!(sm_chart(file, 1), Err(Refusal::NoChart));
/// assert_eq!(sm_chart(b"#NOTES:lights-cabinet:::::;", 0), Err(Refusal::OtherType));
/// # Ok::<(), Refusal>(())
/// ```
///
/// The file is walked from its start for each call; [`sm_charts`] shows all charts without that.
///
/// # Errors
///
/// The first of these that holds, in this order:
///
/// - [`Refusal::LongText`] for a file longer than [`MAX_LEN`](crate::MAX_LEN),
/// - [`Refusal::NoChart`] where `k` is not below the number of blocks,
/// - [`Refusal::FewFields`] where the block has fewer than five `:` after its tag,
/// - [`Refusal::OtherType`] where its type is another than the four that [`SmChart::lanes`] names, in these letters.
pub fn sm_chart(file: &[u8], k: usize) -> Result<SmChart<'_>, Refusal> {
    placed(file, k).map(|(chart, _)| chart)
}

/// A chart, and the place in the file where its data ends, and its block with it.
fn placed(file: &[u8], k: usize) -> Result<(SmChart<'_>, usize), Refusal> {
    let mut chart = [0; 3];
    lent::sm_chart(file, k, &mut chart)?;
    let [lanes, start, len] = chart.map(|number| number as usize);
    let end = start + len;
    let data = &file[start..end];
    Ok((SmChart { lanes, data }, end))
}

/// All charts of an SM file in their order, each with its own answer: that of [`sm_chart`] for 0, 1, 2 and so on, up to
/// the number that is answered [`Refusal::NoChart`], which is not shown.
///
/// A refused chart does not hinder those after it. A file that is too long gives [`Refusal::LongText`] once.
///
/// ```
/// use padcheck::{Refusal, sm_charts};
///
/// let file = b"#NOTES:dance-single:::::\n1000\n;\n#NOTES:lights-cabinet:::::\n;\n#NOTES:pump-single:::::\n00100\n;\n";
/// let answers: Vec<_> = sm_charts(file).collect();
/// assert_eq!(answers.len(), 3);
/// assert_eq!(answers[0].map(|chart| chart.lanes), Ok(4));
/// assert_eq!(answers[1], Err(Refusal::OtherType));
/// assert_eq!(answers[2].map(|chart| chart.data), Ok(&b"\n00100\n;"[..]));
///
/// // Those that can be read, each with its notes.
/// for chart in sm_charts(file).flatten() {
///     assert_eq!(padcheck::minimize_chart_count_rows_notes(chart.data, chart.lanes)?.notes.len(), 1);
/// }
/// # Ok::<(), Refusal>(())
/// ```
///
/// The file is walked a few times in all, however many charts it has: each is asked for as the first one of what follows
/// the line on which the one before it ends. That what follows has the other charts, each with the same answer, is proved
/// of every file (`rest-answered`, `crates/files`). Where a refused chart ends the library does not say: behind it the
/// walk goes on at the line on which the next one starts, the last line of the shortest front of the file that has one
/// more chart. That this side goes on at these lines is tested.
#[must_use]
pub fn sm_charts(file: &[u8]) -> SmCharts<'_> {
    SmCharts { rest: Some(file) }
}

/// The charts of an SM file, as [`sm_charts`] shows them.
#[derive(Clone, Debug)]
pub struct SmCharts<'a> {
    /// What follows the charts that were shown, from the start of a line on; none where all were.
    rest: Option<&'a [u8]>,
}

impl<'a> Iterator for SmCharts<'a> {
    type Item = Result<SmChart<'a>, Refusal>;

    fn next(&mut self) -> Option<Self::Item> {
        let file = self.rest.take()?;
        match placed(file, 0) {
            Err(Refusal::NoChart) => None,
            Err(Refusal::LongText) => Some(Err(Refusal::LongText)),
            Err(refusal) => {
                self.rest = tag_end(file, 1).map(|end| &file[line_start(&file[..end])..]);
                Some(Err(refusal))
            }
            Ok((chart, end)) => {
                self.rest = after_line(&file[end..]);
                Some(Ok(chart))
            }
        }
    }
}

impl FusedIterator for SmCharts<'_> {}

/// What follows the first line, if anything does.
fn after_line(text: &[u8]) -> Option<&[u8]> {
    let end = text.iter().position(|&byte| byte == b'\n')?;
    Some(&text[end + 1..])
}

/// Where the last line of a text starts.
fn line_start(text: &[u8]) -> usize {
    let end = text.iter().rposition(|&byte| byte == b'\n');
    end.map_or(0, |place| place + 1)
}

/// How long the shortest front of a file is that has a chart of this number, read or refused, if the file has one. It ends
/// with the tag at which that chart's block starts.
///
/// A front has the charts of every shorter one, so longer and longer ones are asked for, and then those between two.
fn tag_end(file: &[u8], k: usize) -> Option<usize> {
    const FIRST: usize = 32;
    let has_chart =
        |len: usize| lent::sm_chart(&file[..len], k, &mut [0; 3]) != Err(Refusal::NoChart);
    let (mut without, mut with) = (0, file.len().min(FIRST));
    while !has_chart(with) {
        if with == file.len() {
            return None;
        }
        (without, with) = (with, file.len().min(2 * with));
    }
    while without + 1 < with {
        let between = without.midpoint(with);
        if has_chart(between) {
            with = between;
        } else {
            without = between;
        }
    }
    Some(with)
}

/// A chart inside an SM file that may be refused, and where it starts.
#[derive(Clone, Copy, Debug, PartialEq, Eq)]
pub struct SmBlock<'a> {
    /// What stands in the file behind the tag of its block: its fields first, of which the library says no more where the
    /// chart is refused.
    pub after_tag: &'a [u8],
    /// What [`sm_charts`] shows of it.
    pub chart: Result<SmChart<'a>, Refusal>,
}

/// All charts of an SM file, those that are refused too, each with the place at which it starts. A file that is too long
/// shows none.
///
/// ```
/// use padcheck::{Refusal, sm_blocks};
///
/// let file = b"#NOTES:lights-cabinet:::::\n;\n#NOTES:dance-single:::::\n1000\n;\n";
/// let blocks: Vec<_> = sm_blocks(file).collect();
/// assert_eq!(blocks.len(), 2);
/// assert_eq!(blocks[0].chart, Err(Refusal::OtherType));
/// assert!(blocks[0].after_tag.starts_with(b"lights-cabinet:"));
/// assert_eq!(blocks[1].chart.map(|chart| chart.data), Ok(&b"\n1000\n;"[..]));
/// ```
#[must_use]
pub fn sm_blocks(file: &[u8]) -> SmBlocks<'_> {
    SmBlocks {
        charts: sm_charts(file),
    }
}

/// The charts of an SM file, as [`sm_blocks`] shows them.
#[derive(Clone, Debug)]
pub struct SmBlocks<'a> {
    charts: SmCharts<'a>,
}

impl<'a> Iterator for SmBlocks<'a> {
    type Item = SmBlock<'a>;

    fn next(&mut self) -> Option<Self::Item> {
        let file = self.charts.rest?;
        let chart = self.charts.next()?;
        if chart == Err(Refusal::LongText) {
            return None;
        }
        let after_tag = &file[tag_end(file, 0)?..];
        Some(SmBlock { after_tag, chart })
    }
}

impl FusedIterator for SmBlocks<'_> {}
