//! Files that are read.

use crate::memory::room;
use padcheck::{MAX_LEN, Refusal, sm_chart};
use std::error::Error;
use std::fs::File;
use std::io::Read;
use std::path::Path;

/// A file's bytes; of one that is too long just enough to be refused.
pub fn contents(path: &Path) -> Result<Vec<u8>, String> {
    contents_to(path, MAX_LEN)
}

/// A file's bytes, of which no more are taken than `longest` has.
pub fn whole(path: &Path, most: usize, longest: &str) -> Result<Vec<u8>, String> {
    let data = contents_to(path, most)?;
    if data.len() > most {
        return Err(format!("{} is longer than {longest}", shown(path)));
    }
    Ok(data)
}

/// A file's bytes; of one with more than these, one more.
fn contents_to(path: &Path, most: usize) -> Result<Vec<u8>, String> {
    read(path, most).map_err(|error| format!("cannot read {}: {error}", shown(path)))
}

fn read(path: &Path, most: usize) -> Result<Vec<u8>, Box<dyn Error>> {
    let file = File::open(path)?;
    let found = file.metadata()?;
    let length = usize::try_from(found.len()).unwrap_or(most);
    // A pipe or a device does not say how long it is.
    let length = if found.is_file() {
        length.min(most)
    } else {
        most
    };
    let mut data = room(length + 1)?;
    file.take(most as u64 + 1).read_to_end(&mut data)?;
    Ok(data)
}

/// A path on one line, whatever its letters are.
pub fn shown(path: &Path) -> String {
    let name = path.to_string_lossy();
    let letters = name.chars().map(|letter| {
        if letter.is_control() {
            letter.escape_default().to_string()
        } else {
            letter.to_string()
        }
    });
    letters.collect()
}

/// The marks with which a text may say how its letters are written: UTF-8, and UTF-16 in both orders.
pub const BYTE_ORDER_MARKS: [&[u8]; 3] = [b"\xEF\xBB\xBF", b"\xFE\xFF", b"\xFF\xFE"];

/// What follows a byte-order mark at the front of a text, if one stands there.
pub fn behind_mark(text: &[u8]) -> Option<&[u8]> {
    let mut marks = BYTE_ORDER_MARKS.iter();
    marks.find_map(|mark| text.strip_prefix(*mark))
}

/// Whether a text is an SM file with a chart, read or refused. Taken for note data it would give a sheet, but of wrong beats.
pub fn has_chart(data: &[u8]) -> bool {
    !matches!(sm_chart(data, 0), Err(Refusal::NoChart | Refusal::LongText))
}

#[cfg(test)]
mod tests {
    use super::*;

    #[test]
    fn an_sm_file_is_known_by_its_charts() {
        assert!(has_chart(include_bytes!(
            "../../../examples/first-steps.sm"
        )));
        assert!(has_chart(b"#NOTES:"));
        assert!(has_chart(b"\n #NOTES:lights-cabinet:::::;"));
        assert!(!has_chart(b"1000\n;\n"));
        assert!(!has_chart(b"// #NOTES:\n1000\n"));
        assert!(!has_chart(&vec![b'0'; MAX_LEN + 1]));
    }

    #[test]
    fn a_file_that_cannot_be_read_is_named() {
        let message = contents(Path::new("no/such\nchart.txt")).unwrap_err();
        assert!(message.starts_with("cannot read no/such\\nchart.txt: "));
        assert!(contents(Path::new(".")).is_err());
    }
}
