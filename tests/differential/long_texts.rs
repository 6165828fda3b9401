//! Random texts of 10,000 to 1,000,000 bytes: of every lane count, with LF, with CRLF and with both, heads that all pair and heads that
//! need not, and odd lines among the rows.

use crate::case::{Case, LANE_COUNTS};
use crate::random::{BLANKS, LONG, Rng, STYLES, with_return};

const LONGEST: usize = 1_000_000;

/// How the lines of a text end.
const NEWLINES: [&[&[u8]]; 3] = [&[b"\n"], &[b"\r\n"], &[b"\n", b"\r\n"]];

/// Rows of a measure.
const ROWS: [usize; 16] = [0, 1, 2, 3, 4, 4, 6, 8, 8, 12, 16, 16, 24, 48, 64, 192];

/// Hands each text to `run`: two of each sort, or one for every 10,000 short cases.
pub fn run(rng: &mut Rng, cases: u64, mut run: impl FnMut(&Case)) {
    for lanes in LANE_COUNTS {
        // Each doubling of the least length in turn.
        let mut doublings = (0..7).cycle();
        for _ in 0..(cases / 10_000).max(2) {
            for newlines in NEWLINES {
                for pairs in [true, false] {
                    let len = LONG << doublings.next().unwrap_or_default();
                    let len = (len + rng.below(len)).min(LONGEST);
                    let case = Case {
                        bytes: text(rng, lanes, len, newlines, pairs),
                        lanes,
                        seed: rng.next(),
                    };
                    run(&case);
                }
            }
        }
    }
}

/// A text under way.
struct Writer<'a> {
    text: Vec<u8>,
    lanes: usize,
    newlines: &'a [&'a [u8]],
    /// Whether each column has an open head, where heads are to pair.
    open: Option<Vec<bool>>,
}

fn text(rng: &mut Rng, lanes: usize, len: usize, newlines: &[&[u8]], pairs: bool) -> Vec<u8> {
    let mut writer = Writer {
        text: Vec::with_capacity(len + 4096),
        lanes,
        newlines,
        open: pairs.then(|| vec![false; lanes]),
    };
    while writer.text.len() < len {
        writer.measure(rng);
        writer.line(rng, b",");
    }
    writer.close();
    if rng.one_in(3) {
        writer.line(rng, b";");
        writer.measure(rng);
    }
    writer.text
}

impl Writer<'_> {
    fn line(&mut self, rng: &mut Rng, line: &[u8]) {
        self.text.extend_from_slice(line);
        self.text.extend_from_slice(rng.pick(self.newlines));
    }

    /// A measure of one style, whose rows are all zero but at the multiples of a power of two.
    fn measure(&mut self, rng: &mut Rng) {
        let step = rng.pick(&[1, 1, 2, 4, 8]);
        let cells = rng.pick(&STYLES);
        for row in 0..rng.pick(&ROWS) {
            if rng.one_in(200) {
                self.odd_line(rng);
            }
            if rng.one_in(100) {
                self.text.push(rng.pick(BLANKS));
            }
            let line = match row % step {
                0 => self.row(rng, cells),
                _ => vec![b'0'; self.lanes],
            };
            self.text.extend_from_slice(&line);
            if rng.one_in(100) {
                self.text.extend_from_slice(b" x");
            }
            self.line(rng, b"");
        }
    }

    /// A row, at times of a cell too few, so that a byte 13 after it is the last of L bytes.
    fn row(&mut self, rng: &mut Rng, cells: &[u8]) -> Vec<u8> {
        let Some(open) = &mut self.open else {
            let len = self.lanes - usize::from(rng.one_in(300));
            return (0..len).map(|_| rng.pick(cells)).collect();
        };
        let paired = |open: &mut bool| {
            let cell = if *open {
                rng.pick(b"000000003Km")
            } else {
                rng.pick(b"000000000000000011112244MLFKmlf3x")
            };
            match cell {
                b'2' | b'4' => *open = true,
                b'3' if *open => *open = false,
                b'3' => return b'0',
                _ => {}
            }
            cell
        };
        open.iter_mut().map(paired).collect()
    }

    /// A line that is passed over, mostly, or a row of no letters.
    fn odd_line(&mut self, rng: &mut Rng) {
        match rng.below(6) {
            0 => self.line(rng, b""),
            1 => self.line(rng, b"// 1111111111"),
            2 => self.line(rng, b"0"),
            3 => self.line(rng, b"\x00\x80\xff#########"),
            4 => {
                let line = with_return(rng, self.lanes, b"0");
                self.line(rng, &line);
            }
            _ => self.line(rng, b"\t \x0c"),
        }
    }

    /// Tails for the heads that are open, in a row of their own.
    fn close(&mut self) {
        if let Some(open) = &mut self.open {
            let tail = |open: &mut bool| if std::mem::take(open) { b'3' } else { b'0' };
            self.text.extend(open.iter_mut().map(tail));
            self.text.push(b'\n');
        }
    }
}
