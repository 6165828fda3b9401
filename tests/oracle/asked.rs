//! The text that the Rust is asked about in place of another. Here a line with a byte 13 among its first L bytes is no row (Specification, Lines
//! and Rows read back), and the Rust takes it for one. So in each such line one byte is changed to one by which the Rust takes it for none: what the
//! Rust then answers is what holds here. The text keeps its length and its lines, and where it has no such line it is the text itself.
//! `lanes` is the lane count.

use std::borrow::Cow;

/// In place of the text of a call on a chart: past its blanks the line begins with `/`.
#[must_use]
pub fn chart_text(data: &[u8], lanes: usize) -> Cow<'_, [u8]> {
    changed(data, b'/', |line| {
        let past = line.trim_ascii_start();
        let refused = !past.starts_with(b"/") && is_refused(past, lanes);
        refused.then_some(line.len() - past.len())
    })
}

/// In place of the text of a judged call, which is read back: the line begins with `,`, since that reading knows no `/`.
#[must_use]
pub fn read_back_text(data: &[u8], lanes: usize) -> Cow<'_, [u8]> {
    changed(data, b',', |line| {
        let line = line.strip_suffix(b"\r").unwrap_or(line);
        is_refused(line, lanes).then_some(0)
    })
}

/// Whether a line as it is handed out would be a row but for a byte 13 among its first L bytes.
fn is_refused(line: &[u8], lanes: usize) -> bool {
    let cells = line.get(..lanes);
    !line.starts_with(b",") && !line.starts_with(b";") && cells.is_some_and(|row| row.contains(&13))
}

/// The text with this byte at the places in its lines that are told.
fn changed(data: &[u8], byte: u8, place: impl Fn(&[u8]) -> Option<usize>) -> Cow<'_, [u8]> {
    let mut text = Cow::Borrowed(data);
    let mut start = 0;
    for line in data.split(|&b| b == b'\n') {
        if let Some(at) = place(line) {
            text.to_mut()[start + at] = byte;
        }
        start += line.len() + 1;
    }
    text
}
