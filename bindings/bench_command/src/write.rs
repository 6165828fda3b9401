//! The word `write`: from note records and row counts back to note data.

use crate::args::Write as Asked;
use crate::input::{shown, whole};
use crate::memory::{NoMemory, push};
use crate::output::{Status, fault, left_out};
use crate::slices::Slices;
use padcheck::{MAX_LEN, NOTE_BYTES};
use std::io::{self, Write};

/// More bytes than the records of any chart have: a note for each byte of the longest text.
const MOST_RECORDS: usize = NOTE_BYTES * MAX_LEN;

/// More bytes than the row counts of any chart have, with two bytes at each line's end.
const MOST_COUNTS: usize = 2 * MAX_LEN;

/// What neither is longer than.
const LONGEST: &str = "those of any chart";

/// `padcheck write`.
pub fn run(asked: &Asked, out: &mut dyn Write) -> io::Result<Status> {
    let given = whole(&asked.notes, MOST_RECORDS, LONGEST).and_then(|records| {
        let rows = whole(&asked.rows, MOST_COUNTS, LONGEST)?;
        let counts =
            row_counts(&rows).map_err(|wrong| format!("{}: {wrong}", shown(&asked.rows)))?;
        Ok((records, counts))
    });
    let (records, counts) = match given {
        Ok(given) => given,
        Err(message) => return fault(out, &message),
    };
    let mut slices = Slices::default();
    if let Err(left) = slices.notes_to_chart(&records, asked.lanes, &counts) {
        let whose = format!("{} with {}", shown(&asked.notes), shown(&asked.rows));
        return left_out(&whose, &left, out);
    }
    out.write_all(slices.text())?;
    Ok(Status::Done)
}

/// The row counts of a file with one on each line, or what is wrong with it.
fn row_counts(rows: &[u8]) -> Result<Vec<u32>, String> {
    let mut counts = Vec::new();
    let lines = rows
        .strip_suffix(b"\n")
        .unwrap_or(rows)
        .split(|&byte| byte == b'\n');
    for (number, line) in lines.enumerate().filter(|_| !rows.is_empty()) {
        let line = line.strip_suffix(b"\r").unwrap_or(line);
        let count =
            row_count(line).ok_or_else(|| format!("line {} is no row count", number + 1))?;
        push(&mut counts, count).map_err(|lack: NoMemory| lack.to_string())?;
    }
    Ok(counts)
}

/// A number in digits and nothing else.
fn row_count(line: &[u8]) -> Option<u32> {
    let digits = line.iter().all(u8::is_ascii_digit);
    let line = str::from_utf8(line).ok().filter(|_| digits)?;
    line.parse().ok()
}

#[cfg(test)]
mod tests {
    use super::*;

    #[test]
    fn a_count_stands_on_each_line() {
        for (rows, counts) in [
            ("", &[][..]),
            ("0\n", &[0]),
            ("4", &[4]),
            ("12\n0\n007\n", &[12, 0, 7]),
            ("12\r\n0\r\n", &[12, 0]),
            ("4294967295\n1\r", &[u32::MAX, 1]),
        ] {
            assert_eq!(
                row_counts(rows.as_bytes()).as_deref(),
                Ok(counts),
                "{rows:?}"
            );
        }
    }

    #[test]
    fn a_line_that_is_no_count_is_named() {
        for (rows, line) in [
            ("\n", 1),
            ("4\n\n4\n", 2),
            ("4\n4\n\n", 3),
            ("4 \n", 1),
            ("+4\n", 1),
            ("4\n-1\n", 2),
            ("4\n4,4\n", 2),
            ("4294967296\n", 1),
            ("\r\n", 1),
            ("4\n\u{660}\n", 2),
        ] {
            let want = Err(format!("line {line} is no row count"));
            assert_eq!(row_counts(rows.as_bytes()), want, "{rows:?}");
        }
        assert!(row_counts(b"4\n\xFF\n").is_err());
    }
}
