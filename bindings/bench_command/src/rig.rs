//! The word `rig`: note records, row beats and row counts in files, each whole or not there.

use crate::args::Rig;
use crate::charts::shortened;
use crate::input::{contents, shown};
use crate::left::Left;
use crate::memory::room;
use crate::output::{Status, fault, left_out, remark};
use crate::select::selected;
use crate::slices::Slices;
use crate::together::{Output, Together, check_targets};
use padcheck::NOTE_BYTES;
use std::io::{self, Write};
use std::path::Path;

/// Bytes of a beat.
const BEAT_BYTES: usize = 4;

/// `padcheck rig`.
pub fn run(asked: &Rig, out: &mut dyn Write) -> io::Result<Status> {
    let file = match contents(&asked.file) {
        Ok(file) => file,
        Err(message) => return fault(out, &message),
    };
    let path = shown(&asked.file);
    let found = match selected(&file, asked.selection, asked.force) {
        Ok(found) => found,
        Err(left) => return left_out(&path, &left, out),
    };
    // One chart is selected, since this word is never asked for all.
    let chart = found.charts[0];
    let title = format!("{path}{}", chart.title());
    let mut slices = Slices::default();
    let taken = chart.taken(asked.force).and_then(|taken| {
        let beats = rig_beats(taken.data, taken.lanes, &mut slices)?;
        let rows = match asked.rows {
            Some(_) => rig_rows(taken.lanes, &slices)?,
            None => Vec::new(),
        };
        Ok((taken, beats, rows))
    });
    let (taken, beats, rows) = match taken {
        Ok(taken) => taken,
        Err(left) => return left_out(&title, &left, out),
    };
    if let Some(odd) = taken.odd {
        remark(out, &title, &odd)?;
    }
    let mut outputs = vec![
        output("--notes", &asked.notes, slices.records()),
        output("--beats", &asked.beats, &beats),
    ];
    let rows_path = asked.rows.as_deref();
    outputs.extend(rows_path.map(|path| output("--rows", path, &rows)));
    let checked = check_targets(&asked.file, &outputs);
    let written = checked.and_then(|()| Together::write(&outputs));
    if let Err(message) = written.and_then(Together::take_names) {
        return fault(out, &message);
    }
    // Nothing is said before all files stand.
    let name = chart.chart.map_or(&b""[..], |(_, name)| name);
    let kind = format!("{title} {}", shortened(name));
    write!(out, "{}, {} lanes", kind.trim_end(), taken.lanes)?;
    for why in found.forced.iter().chain(&taken.forced) {
        write!(out, "; forced: {why}")?;
    }
    writeln!(out)?;
    let notes = slices.records().len() / NOTE_BYTES;
    let each = [
        (notes, "note records"),
        (beats.len() / BEAT_BYTES, "row beats"),
        (slices.measure_count(), "row counts"),
    ];
    for (output, (count, what)) in outputs.iter().zip(each) {
        let (path, bytes) = (shown(output.path), output.bytes.len());
        writeln!(out, "{path}: {count} {what}, {bytes} bytes")?;
    }
    Ok(Status::Done)
}

fn output<'a>(option: &'a str, path: &'a Path, bytes: &'a [u8]) -> Output<'a> {
    Output {
        option,
        path,
        bytes,
    }
}

/// Makes the main call, and answers the row beats as they stand in the file; the note records stand in the slices.
fn rig_beats(data: &[u8], lanes: usize, slices: &mut Slices) -> Result<Vec<u8>, Left> {
    slices.main_call(data, lanes)?;
    let mut bytes = room(BEAT_BYTES * slices.beats().len())?;
    for beat in slices.beats() {
        bytes.extend(beat.to_le_bytes());
    }
    Ok(bytes)
}

/// The most digits of a row count, and the end of its line.
const ROW_COUNT_BYTES: usize = 8;

/// The row count of each measure of the chart that stands in the slices, one on each line.
fn rig_rows(lanes: usize, slices: &Slices) -> Result<Vec<u8>, Left> {
    let counts = slices.row_counts(lanes)?;
    let mut lines = room(ROW_COUNT_BYTES * counts.len())?;
    for count in counts {
        lines.extend(format!("{count}\n").into_bytes());
    }
    Ok(lines)
}

#[cfg(test)]
mod tests {
    use super::*;

    #[test]
    fn a_row_count_stands_on_each_line() {
        let mut slices = Slices::default();
        let data = b"0000\n2001\n3000\n,\n,\n0100\n0000\n";
        rig_beats(data, 4, &mut slices).unwrap();
        assert_eq!(rig_rows(4, &slices).as_deref(), Ok(&b"3\n0\n1\n"[..]));
    }

    #[test]
    fn records_and_beats_have_their_low_byte_first() {
        let mut slices = Slices::default();
        let data = b"0000\n2001\n3000\n0000\n";
        let beats = rig_beats(data, 4, &mut slices).unwrap();
        let hold = [1, 0, 0, 0, 2, 0, 0, 0, 0, 1];
        let tap = [1, 0, 0, 0, 255, 255, 255, 255, 3, 0];
        assert_eq!(slices.records(), [hold, tap].as_flattened());
        let want = [0.0f32, 1.0, 2.0, 3.0].map(f32::to_le_bytes);
        assert_eq!(beats, want.as_flattened());
    }
}
