//! The keysounds of a tally, which the Rust does not count: a plain count of the cells K, and the rows of a text read back, both as the
//! specification has them.

/// The cell that is counted.
const KEYSOUND: u8 = b'K';

/// How many cells of these rows are keysounds.
pub fn keysounds<'a>(rows: impl Iterator<Item = &'a [u8]>) -> u64 {
    let cells = rows.flatten();
    cells.filter(|&&cell| cell == KEYSOUND).count() as u64
}

/// The rows that a judged call counts: lines of at least L bytes, without one byte 13 at their end, that have no byte 13 among their first L
/// and do not begin with `,` or `;`.
pub fn rows_read_back(text: &[u8], lanes: usize) -> impl Iterator<Item = &[u8]> {
    text.split(|&byte| byte == b'\n').filter_map(move |line| {
        let line = line.strip_suffix(b"\r").unwrap_or(line);
        let row = line.get(..lanes)?;
        (!row.contains(&b'\r') && !row.starts_with(b",") && !row.starts_with(b";")).then_some(row)
    })
}
