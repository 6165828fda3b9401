//! Long charts like those people play: mostly 16 rows a measure, taps, jumps, holds and rolls with their tails, mines, empty rows.

/// Rows of a measure; most have 16.
const ROWS: [usize; 8] = [16, 16, 16, 16, 16, 8, 24, 32];

/// How a chart is drawn.
#[derive(Clone, Copy, PartialEq, Eq, PartialOrd, Ord)]
pub enum Kind {
    /// The last row closes every head.
    Closed,
    /// A row after it opens one more.
    Unclosed,
    /// Of 20 measures 10 have every second row empty and 4 keep one row in four, so that 7 in 10 minimise to half or
    /// less; of all rows 6 in 10 are empty. Every head is closed.
    Sparse,
    /// Each row has two heads beside each other, and the next their tails.
    Heads,
    /// Nine rows have a head in one column and nine more its tails, column by column.
    Deep,
    /// Each row has mines, in half of its cells or more.
    Mines,
    /// Each row has keysounds, in half of its cells or more.
    Keysounds,
    /// As `Closed`, with a comment after each row.
    Comments,
    /// As `Closed`, with two blanks before each row.
    Indented,
    /// As `Closed`, but the first line ends otherwise than all others: with byte 10 alone where they have 13 and 10, and the other way round.
    Mixed,
    /// One line without an end, of zeros.
    Line,
}

impl Kind {
    pub fn name(self) -> &'static str {
        match self {
            Self::Closed => "closed",
            Self::Unclosed => "unclosed",
            Self::Sparse => "sparse",
            Self::Heads => "heads",
            Self::Deep => "deep",
            Self::Mines => "mines",
            Self::Keysounds => "keysounds",
            Self::Comments => "comments",
            Self::Indented => "indented",
            Self::Mixed => "mixed",
            Self::Line => "line",
        }
    }
}

struct Draw(u64);

impl Draw {
    /// Below `n`, by a linear congruence of which only the high bits are used.
    fn below(&mut self, n: usize) -> usize {
        self.0 = self
            .0
            .wrapping_mul(6_364_136_223_846_793_005)
            .wrapping_add(1_442_695_040_888_963_407);
        ((self.0 >> 33) as usize) % n
    }

    /// From how many rows on one is drawn; the others stay empty.
    fn step(&mut self, kind: Kind) -> usize {
        if kind != Kind::Sparse {
            return 1;
        }
        match self.below(20) {
            0..6 => 1,
            6..16 => 2,
            _ => 4,
        }
    }
}

/// A text of exactly `len` bytes, at least 1,000, whose lines end with `newline`; the last line is blank. Another seed draws another chart.
pub fn text(lanes: usize, len: usize, newline: &[u8], seed: u64, kind: Kind) -> Vec<u8> {
    if kind == Kind::Line {
        return vec![b'0'; len];
    }
    let mut draw = Draw(lanes as u64 + 16 * seed);
    let mut held = vec![false; lanes];
    let mut text = Vec::with_capacity(len);
    let (before, after): (&[u8], &[u8]) = match kind {
        Kind::Comments => (b"", b" // beat"),
        Kind::Indented => (b"  ", b""),
        _ => (b"", b""),
    };
    if kind == Kind::Mixed {
        text.resize(lanes, b'0');
        text.extend_from_slice(if newline == b"\n" { b"\r\n" } else { b"\n" });
    }
    let mut all = 0;
    while text.len() + 800 < len {
        let rows = ROWS[draw.below(ROWS.len())];
        let step = draw.step(kind);
        for number in 0..rows {
            text.extend_from_slice(before);
            let start = text.len();
            text.resize(start + lanes, b'0');
            let cells = &mut text[start..];
            match kind {
                Kind::Heads | Kind::Deep | Kind::Mines | Kind::Keysounds => {
                    put_all(kind, &mut draw, all, &mut held, cells);
                }
                _ if number % step == 0 => row(&mut draw, &mut held, cells),
                _ => {}
            }
            all += 1;
            text.extend_from_slice(after);
            text.extend_from_slice(newline);
        }
        text.push(b',');
        text.extend_from_slice(newline);
    }
    text.extend(held.iter().map(|&held| if held { b'3' } else { b'0' }));
    text.extend_from_slice(newline);
    if kind == Kind::Unclosed {
        text.push(b'2');
        text.resize(text.len() + lanes - 1, b'0');
        text.extend_from_slice(newline);
    }
    text.resize(len, b' ');
    text
}

/// Of 20 rows 7 stay empty, 9 have a tap, 2 a jump, 1 a head and 1 a mine; a column that is held gets its tail instead.
fn row(draw: &mut Draw, held: &mut [bool], cells: &mut [u8]) {
    let column = draw.below(cells.len());
    let other = (column + 1) % cells.len();
    match draw.below(20) {
        0..7 => {}
        7..16 => put(held, cells, column, b'1'),
        16 | 17 => {
            put(held, cells, column, b'1');
            put(held, cells, other, b'1');
        }
        18 => {
            let head = if draw.below(4) == 0 { b'4' } else { b'2' };
            put(held, cells, column, head);
        }
        _ => put(held, cells, column, b'M'),
    }
}

/// The cells of a row of the kinds in which each row has some, by how many rows stand before it.
fn put_all(kind: Kind, draw: &mut Draw, all: usize, held: &mut [bool], cells: &mut [u8]) {
    let lanes = cells.len();
    match kind {
        Kind::Heads => {
            let column = all / 2 % lanes;
            for column in [column, (column + 1) % lanes] {
                put(held, cells, column, b'2');
            }
        }
        Kind::Deep => cells[all / 18 % lanes] = if all % 18 < 9 { b'2' } else { b'3' },
        _ => {
            let cell = if kind == Kind::Mines { b'M' } else { b'K' };
            for it in cells.iter_mut() {
                if draw.below(2) == 0 {
                    *it = cell;
                }
            }
            cells[draw.below(lanes)] = cell;
        }
    }
}

fn put(held: &mut [bool], cells: &mut [u8], column: usize, cell: u8) {
    cells[column] = if held[column] { b'3' } else { cell };
    held[column] = matches!(cells[column], b'2' | b'4');
}
