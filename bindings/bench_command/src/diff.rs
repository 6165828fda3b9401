//! The word `diff`: which measures of a chart differ between two files, and what the damage theorem says of the rest.

use crate::args::Diff;
use crate::checksum::Sum;
use crate::damage::Damage;
use crate::figures::Figures;
use crate::input::{contents, shown};
use crate::left::Left;
use crate::lines::MeasureLines;
use crate::output::{Status, doubtful, fault, remark};
use crate::select::{Selected, Taken, selected};
use std::io::{self, Write};
use std::path::Path;

/// One of the two files.
struct Side<'a> {
    /// `old` or `new`.
    name: &'static str,
    path: &'a Path,
    bytes: Vec<u8>,
}

/// `padcheck diff`.
pub fn run(asked: &Diff, out: &mut dyn Write) -> io::Result<Status> {
    let mut sides = Vec::new();
    for (name, path) in [("old", &asked.old), ("new", &asked.new)] {
        match contents(path) {
            Ok(bytes) => sides.push(Side { name, path, bytes }),
            Err(message) => return fault(out, &message),
        }
    }
    for side in &sides {
        let sum = Sum::of(&side.bytes).map_or_else(String::new, |Sum { length, cksum }| {
            format!(": length {length}, cksum {cksum}")
        });
        writeln!(out, "{} {}{sum}", side.name, shown(side.path))?;
    }
    let mut charts = Vec::new();
    for side in &sides {
        match selected(&side.bytes, asked.selection, asked.force) {
            Ok(found) => {
                forced(side, "", found.forced.as_deref(), out)?;
                charts.push(found.charts);
            }
            Err(left) => return left_out(side, "", &left, out),
        }
    }
    let mut worst = Status::Done;
    let (old, new) = (&charts[0], &charts[1]);
    for place in 0..old.len().max(new.len()) {
        let pair = [old.get(place), new.get(place)];
        worst = worst.max(chart(asked.force, &sides, pair, out)?);
    }
    Ok(worst)
}

/// Says why a file or a chart is not compared.
fn left_out(side: &Side, title: &str, left: &Left, out: &mut dyn Write) -> io::Result<Status> {
    match left {
        Left::Refused(refusal, words) => {
            writeln!(
                out,
                "{}{title} refused {}: {words}",
                side.name,
                refusal.number()
            )?;
            Ok(Status::Refused)
        }
        Left::Doubtful(why) => doubtful(out, &format!("{}{title}", shown(side.path)), why),
        Left::NoMemory(lack) => fault(out, &format!("{}{title}: {lack}", shown(side.path))),
    }
}

/// Says why a file or a chart is doubtful that is compared all the same.
fn forced(side: &Side, title: &str, why: Option<&str>, out: &mut dyn Write) -> io::Result<()> {
    why.map_or(Ok(()), |why| {
        writeln!(out, "{}{title} forced: {why}", side.name)
    })
}

/// The comparison of one chart, which one of the files may not have.
fn chart(
    force: bool,
    sides: &[Side],
    pair: [Option<&Selected>; 2],
    out: &mut dyn Write,
) -> io::Result<Status> {
    let here: Vec<_> = sides
        .iter()
        .zip(pair)
        .filter_map(|(side, chart)| Some((side, chart?)))
        .collect();
    let title = here
        .first()
        .map_or_else(String::new, |(_, chart)| chart.title());
    if let [(side, _)] = here[..] {
        writeln!(out, "\nonly {} has{title}", side.name)?;
    } else if !title.is_empty() {
        writeln!(out, "\n{}", title.trim_start())?;
    }
    let mut worst = Status::Done;
    let mut read = Vec::new();
    for (side, chart) in here {
        match Read::of(chart, force) {
            Ok((taken, chart)) => {
                if let Some(odd) = taken.odd {
                    remark(out, &format!("{}{title}", shown(side.path)), &odd)?;
                }
                forced(side, &title, taken.forced.as_deref(), out)?;
                read.push(chart);
            }
            Err(left) => worst = worst.max(left_out(side, &title, &left, out)?),
        }
        // Without memory for the one the other is not asked about.
        if worst == Status::Fault {
            break;
        }
    }
    if let [old, new] = &read[..] {
        compare(old, new, out)?;
    }
    Ok(worst)
}

/// A chart that is compared.
struct Read<'a> {
    lines: MeasureLines<'a>,
    figures: Figures,
}

impl<'a> Read<'a> {
    fn of(chart: &Selected<'a>, force: bool) -> Result<(Taken<'a>, Self), Left> {
        let taken = chart.taken(force)?;
        let figures = Figures::of(taken.data, taken.lanes)?;
        let lines = MeasureLines::of(taken.data, figures.lanes())?;
        Ok((taken, Self { lines, figures }))
    }
}

/// The comparison of two charts.
fn compare(old: &Read, new: &Read, out: &mut dyn Write) -> io::Result<()> {
    let (lanes, other) = (old.figures.lanes(), new.figures.lanes());
    if lanes != other {
        return writeln!(out, "lanes {lanes} and {other}: these are not compared");
    }
    writeln!(
        out,
        "lanes {lanes}, measures {}, rows {}",
        both(old.figures.measures(), new.figures.measures()),
        both(old.figures.row_count(), new.figures.row_count())
    )?;
    let differing = measures(old, new, out)?;
    tallies(&old.figures, &new.figures, out)?;
    let ends = old.lines.ends != new.lines.ends;
    if ends {
        writeln!(out, "the lines that end measures differ")?;
    }
    let rest = old.lines.rest != new.lines.rest;
    if rest {
        writeln!(out, "the lines after the `;` differ")?;
    }
    match differing[..] {
        [] if ends || rest => Ok(()),
        [] => writeln!(out, "every line is the same"),
        [d] if !ends && !rest => theorem(d, &old.figures, &new.figures, out),
        _ => writeln!(
            out,
            "the damage theorem says nothing here: it is of a difference in lines of one measure alone"
        ),
    }
}

/// A line for each measure that differs, and the numbers of the first two that differ by their lines.
fn measures(old: &Read, new: &Read, out: &mut dyn Write) -> io::Result<Vec<usize>> {
    let mut differing = Vec::new();
    let count = old.figures.measures().max(new.figures.measures());
    for measure in 0..count {
        let lines = old.lines.measures.get(measure) != new.lines.measures.get(measure);
        let told = differences(&old.figures, &new.figures, measure);
        // More than two say no more than two.
        if lines && differing.len() < 2 {
            differing.push(measure);
        }
        match (lines, told.is_empty()) {
            (false, true) => continue,
            (false, false) => writeln!(out, "measure {measure} differs by its figures alone")?,
            (true, true) => writeln!(out, "measure {measure} differs by its lines alone")?,
            (true, false) => writeln!(out, "measure {measure} differs by its lines and figures")?,
        }
        for line in told {
            writeln!(out, "  {line}")?;
        }
    }
    Ok(differing)
}

/// A line for each field in which the tallies differ.
fn tallies(old: &Figures, new: &Figures, out: &mut dyn Write) -> io::Result<()> {
    let fields = old.tally().zip(new.tally());
    let mut fields = fields.filter(|(old, new)| old != new).peekable();
    if fields.peek().is_some() {
        writeln!(out, "the tallies differ")?;
    }
    for ((name, count), (_, other)) in fields {
        writeln!(out, "  {name} {count} and {other}")?;
    }
    Ok(())
}

/// The figures by which a measure differs.
fn differences(old: &Figures, new: &Figures, measure: usize) -> Vec<String> {
    let (Some(density), Some(other)) = (old.density(measure), new.density(measure)) else {
        let side = if measure < old.measures() {
            "old"
        } else {
            "new"
        };
        return vec![format!("only {side} has it")];
    };
    let mut told = Vec::new();
    let (rows, others) = (old.range(measure).len(), new.range(measure).len());
    if rows != others {
        told.push(format!("rows {rows} and {others}"));
    } else {
        let mut pairs = old.rows(measure).zip(new.rows(measure)).enumerate();
        if let Some((row, (cells, others))) = pairs.find(|(_, (cells, others))| cells != others) {
            let (cells, others) = (cells.escape_ascii(), others.escape_ascii());
            let count = 1 + pairs.filter(|(_, (cells, others))| cells != others).count();
            told.push(format!(
                "{count} of {rows} rows, first its row {row}: {cells} and {others}"
            ));
        }
    }
    if density != other {
        told.push(format!("density {density} and {other}"));
    }
    if old.spacing(measure) != new.spacing(measure) {
        let spaced = if old.spacing(measure) == Some(true) {
            "old"
        } else {
            "new"
        };
        told.push(format!("equally spaced in {spaced} alone"));
    }
    told
}

/// One number where both are the same, else both.
fn both(old: usize, new: usize) -> String {
    if old == new {
        old.to_string()
    } else {
        format!("{old} and {new}")
    }
}

/// What the damage theorem says of a difference in lines of measure d alone, and what was found.
fn theorem(d: usize, old: &Figures, new: &Figures, out: &mut dyn Write) -> io::Result<()> {
    writeln!(
        out,
        "only lines of measure {d} differ; the damage theorem on these two:"
    )?;
    for (part, found) in (Damage { d, old, new }).parts() {
        let found = found.unwrap_or_else(|how| format!("VIOLATED: {how}"));
        writeln!(out, "  {part}: {found}")?;
    }
    Ok(())
}

#[cfg(test)]
mod tests {
    use super::*;

    /// What is said of two texts, and the status.
    fn said(old: &[u8], new: &[u8]) -> String {
        let [old, new] = [old, new].map(|data| {
            let lines = MeasureLines::of(data, 4).unwrap();
            let figures = Figures::of(data, 4).unwrap();
            Read { lines, figures }
        });
        let mut out = Vec::new();
        compare(&old, &new, &mut out).unwrap();
        String::from_utf8(out).unwrap()
    }

    #[test]
    fn the_same_text_has_no_difference() {
        let told = said(b"1000\n,\n;\nx", b"1000\n,\n;\nx");
        assert_eq!(
            told,
            "lanes 4, measures 2, rows 1\nevery line is the same\n"
        );
    }

    #[test]
    fn a_measure_differs_by_lines_and_figures() {
        let told = said(b"1000\n,\n0100\n0000\n", b"1000\n,\n0100\n0010\n");
        let head = "lanes 4, measures 2, rows 2 and 3\n\
                    measure 1 differs by its lines and figures\n  \
                    rows 1 and 2\n  density 1 and 2\n\
                    the tallies differ\n  \
                    total_arrows 2 and 3\n  up 0 and 1\n  total_steps 2 and 3\n\
                    only lines of measure 1 differ; the damage theorem on these two:\n";
        assert!(told.starts_with(head), "{told}");
        assert!(!told.contains("VIOLATED") && told.lines().count() == 18);
        let told = said(b"1000\n0001\n", b"1000\n00x1\n");
        assert!(told.contains("\n  1 of 2 rows, first its row 1: 0001 and 00x1\nonly lines"));
        let told = said(b"1000\n0001\n", b"1000\nK0K1\n");
        assert!(told.contains(": 0001 and K0K1\nthe tallies differ\n  keysounds 0 and 2\nonly"));
        let told = said(b"1000\n", b"// x\n1000\n");
        assert!(told.contains("\nmeasure 0 differs by its lines alone\nonly lines"));
        let told = said(b"1000\n", b"M000\n");
        assert!(
            told.contains(
                "\n  density 1 and 0\n  equally spaced in old alone\nthe tallies differ\n"
            )
        );
    }

    #[test]
    fn the_theorem_is_of_one_measure() {
        let nothing = "the damage theorem says nothing here";
        let told = said(b"1000\n,\n0100\n", b"0100\n,\n1000\n");
        assert!(
            told.contains("measure 0 ") && told.contains("measure 1 ") && told.contains(nothing)
        );
        let told = said(b"1000\n,\n0100\n", b"1000\n, x\n0010\n");
        assert!(told.contains("the lines that end measures differ") && told.contains(nothing));
        let told = said(b"1000\n,\n0100\n;\n", b"1000\n,\n0100\n;");
        assert!(
            told.ends_with("rows 2\nthe lines after the `;` differ\n"),
            "{told}"
        );
        let told = said(b"1000\n,\n0100", b"1000\n");
        assert!(told.contains("measure 1 differs by its lines and figures\n  only old has it\n"));
    }
}
