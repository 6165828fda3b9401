//! Random texts, rows, lane numbers, flags and loans, all from a seed.

use crate::case::{Case, LANE_COUNTS};
use oracle::calls::Call;
use oracle::entry::{Lengths, Loan, is_lane_count, refusals};
use oracle::keysounds::rows_read_back;

pub struct Rng(u64);

impl Rng {
    pub fn new(seed: u64) -> Self {
        Self(seed)
    }

    /// The next number of the sequence called splitmix64.
    pub fn next(&mut self) -> u64 {
        self.0 = self.0.wrapping_add(0x9E37_79B9_7F4A_7C15);
        let mut z = self.0;
        z = (z ^ (z >> 30)).wrapping_mul(0xBF58_476D_1CE4_E5B9);
        z = (z ^ (z >> 27)).wrapping_mul(0x94D0_49BB_1331_11EB);
        z ^ (z >> 31)
    }

    /// Below `n`, which is not 0.
    pub fn below(&mut self, n: usize) -> usize {
        (self.next() % n as u64) as usize
    }

    pub fn one_in(&mut self, n: usize) -> bool {
        self.below(n) == 0
    }

    pub fn pick<T: Copy>(&mut self, from: &[T]) -> T {
        from[self.below(from.len())]
    }

    pub fn byte(&mut self) -> u8 {
        self.next() as u8
    }
}

/// What cells are drawn from; a letter that stands twice is drawn twice as often.
pub const STYLES: [&[u8]; 6] = [
    b"00000001",
    b"0011",
    b"0000123",
    b"012344MLFKmlfk",
    b"000000000000000000M",
    b"223",
];

/// From this length on a text is long.
pub const LONG: usize = 10_000;

/// Bytes that mean something to the line reader, and some that do not.
const MARKS: &[u8] = b"0000111234MLFKmlfk\n\n\n\n\n\r\t\x0b\x0c  ,,;/x\x00\x80\xff";

pub const BLANKS: &[u8] = b"\t\x0c\r ";

/// Lane numbers that are lane counts where they are cut to 8, 16 or 32 bits, and those near the ends.
pub const HUGE_LANES: [usize; 12] = [
    usize::MAX,
    usize::MAX - 1,
    (1 << 62) - 1,
    1 << 63,
    (1 << 32) + 4,
    (1 << 32) + 5,
    (1 << 32) + 6,
    (1 << 32) + 8,
    (1 << 16) + 10,
    260,
    262,
    266,
];

/// A lane count, and now and then a number that is refused.
pub fn lanes(rng: &mut Rng) -> usize {
    match rng.below(40) {
        0 => rng.pick(&HUGE_LANES),
        1 => rng.below(13),
        _ => rng.pick(&LANE_COUNTS),
    }
}

pub fn text(rng: &mut Rng, lanes: usize) -> Vec<u8> {
    match rng.below(16) {
        0 => (0..rng.below(3)).map(|_| rng.pick(MARKS)).collect(),
        1 | 2 => (0..rng.below(90)).map(|_| rng.pick(MARKS)).collect(),
        3 => (0..rng.below(90)).map(|_| rng.byte()).collect(),
        _ if is_lane_count(lanes) => chart(rng, lanes),
        _ => chart(rng, 4),
    }
}

/// Measures of rows with odd lines among them, an early `;` and a missing newline now and then.
fn chart(rng: &mut Rng, width: usize) -> Vec<u8> {
    let mut text = Vec::new();
    let measures = 1 + rng.below(4);
    for measure in 0..measures {
        let cells = rng.pick(&STYLES);
        let zeros = rng.below(4);
        for _ in 0..rng.pick(&[0, 1, 2, 3, 4, 4, 6, 8, 8, 12, 16]) {
            line(rng, width, cells, zeros, &mut text);
        }
        if measure + 1 < measures || rng.one_in(4) {
            end_line(rng, b',', &mut text);
        }
    }
    if rng.one_in(3) {
        end_line(rng, b';', &mut text);
        if rng.one_in(2) {
            line(rng, width, STYLES[1], 0, &mut text);
            end_line(rng, b',', &mut text);
        }
    }
    if rng.one_in(3) {
        text.pop();
    }
    text
}

/// A line: mostly a row, which is all zero more often for more `zeros`.
fn line(rng: &mut Rng, width: usize, cells: &[u8], zeros: usize, text: &mut Vec<u8>) {
    if rng.one_in(8) {
        text.push(rng.pick(BLANKS));
    }
    match rng.below(24) {
        0 => {}
        1 => text.extend((0..rng.below(6)).map(|_| rng.byte())),
        2 => text.extend_from_slice(b"/0000100001"),
        3 => text.extend((1..width).map(|_| rng.pick(cells))),
        4 => text.extend((0..=width + rng.below(3)).map(|_| rng.pick(cells))),
        5 if rng.one_in(6) => text.extend(with_return(rng, width, cells)),
        _ if rng.below(4) < zeros => text.extend((0..width).map(|_| b'0')),
        _ => text.extend((0..width).map(|_| rng.pick(cells))),
    }
    match rng.below(12) {
        0 => text.push(b'\r'),
        1 => text.extend_from_slice(b" x"),
        2 if rng.one_in(4) => text.extend_from_slice(b"\r0"),
        _ => {}
    }
    text.push(b'\n');
}

/// A line of a row's bytes or more, one of which is byte 13.
pub fn with_return(rng: &mut Rng, width: usize, cells: &[u8]) -> Vec<u8> {
    let len = width + rng.below(3);
    let mut line: Vec<u8> = (0..len).map(|_| rng.pick(cells)).collect();
    line[rng.below(len)] = b'\r';
    line
}

fn end_line(rng: &mut Rng, mark: u8, text: &mut Vec<u8>) {
    if rng.one_in(8) {
        text.push(rng.pick(BLANKS));
    }
    text.push(mark);
    match rng.below(6) {
        0 => text.extend_from_slice(b"1111"),
        1 => text.extend_from_slice(b" // 2"),
        _ => {}
    }
    text.push(b'\n');
}

/// Rows back to back, of one of the lane counts: all cells, nests deeper than eight, and any bytes.
pub fn rows(rng: &mut Rng) -> (usize, Vec<u8>) {
    let lanes = rng.pick(&LANE_COUNTS);
    let count = rng.pick(&[0, 1, 2, 3, 4, 5, 6, 8, 8, 12, 16, 16, 24, 32]);
    let cells = rng.pick(&STYLES);
    let zeros = rng.pick(&[0, 0, 2, 3, 3]);
    let any = rng.one_in(16);
    let mut rows = Vec::with_capacity(lanes * count);
    for row in 0..count {
        let is_zero = row % 4 != 0 && rng.below(4) < zeros;
        for _ in 0..lanes {
            rows.push(match (is_zero, any) {
                (true, _) => b'0',
                (false, true) => rng.byte(),
                (false, false) => rng.pick(cells),
            });
        }
    }
    if count > 0 && rng.one_in(6) {
        nest(rng, lanes, count, &mut rows);
    }
    (lanes, rows)
}

/// Heads one after the other down a column, then tails.
fn nest(rng: &mut Rng, lanes: usize, count: usize, rows: &mut [u8]) {
    let column = rng.below(lanes);
    let heads = rng.below(count + 1);
    for row in 0..count {
        rows[row * lanes + column] = if row < heads { rng.pick(b"24") } else { b'3' };
    }
}

/// Rows back to back as a text: a line each, with the ends of measures among them or none.
pub fn lines_of(rng: &mut Rng, lanes: usize, rows: &[u8]) -> Vec<u8> {
    let newline: &[u8] = if rng.one_in(4) { b"\r\n" } else { b"\n" };
    let commas = rng.pick(&[0, 0, 3, 9]);
    let mut text = Vec::with_capacity(rows.len() * 2);
    for row in rows.chunks_exact(lanes) {
        text.extend_from_slice(row);
        text.extend_from_slice(newline);
        if commas > 0 && rng.one_in(commas) {
            text.push(b',');
            text.extend_from_slice(newline);
        }
    }
    text
}

/// What a call is lent: slices exact, with room to spare, or, for a text that is not long, one entry too short; all full of garbage.
pub fn loan(rng: &mut Rng, call: Call, case: &Case) -> Loan {
    let (figure, garbage) = (rng.next(), rng.next());
    let (len, is_long) = (case.bytes.len(), case.bytes.len() >= LONG);
    lent(
        figure,
        garbage,
        call,
        len,
        case.lanes,
        |_, enough| match rng.below(16) {
            0 if !is_long => enough.saturating_sub(1),
            1 if !is_long => enough / 2,
            2..=6 => enough + 1 + rng.below(9),
            _ => enough,
        },
    )
}

/// Slices full of garbage, of the lengths that `length` gives for each refusal's number and the shortest length without it.
pub fn lent(
    figure: u64,
    garbage: u64,
    call: Call,
    len: usize,
    lanes: usize,
    mut length: impl FnMut(u32, usize) -> usize,
) -> Loan {
    let enough = Lengths::enough(len, lanes);
    let mut loan = Loan {
        figures: [figure | 1; 32],
        ..Loan::default()
    };
    let garbage = garbage | 0x0101_0101_0101_0101;
    for &number in refusals(call) {
        match number {
            2 => loan.text = vec![garbage as u8; length(number, enough.text)],
            3 if call == Call::EquallySpaced => {
                loan.spacing = vec![garbage as u8; length(number, enough.measure)];
            }
            3 => loan.densities = vec![garbage as u32; length(number, enough.measure)],
            4 => {
                loan.beats = vec![f32::from_bits(garbage as u32); length(number, enough.beat)];
            }
            5 => loan.work = vec![garbage as u16; length(number, enough.work)],
            6 => loan.notes = vec![garbage as u8; length(number, enough.note)],
            _ => {}
        }
    }
    loan
}

/// The flags of a case, as many as are drawn from none to two more than the rows of its text.
pub fn flags(case: &Case) -> Vec<u8> {
    let mut flags = most_flags(case);
    let len = Rng::new(case.seed.rotate_left(32)).below(flags.len() + 1);
    flags.truncate(len);
    flags
}

/// Two flags more than the rows of a case's text, at times with one judged row alone.
pub fn most_flags(case: &Case) -> Vec<u8> {
    let mut rng = Rng::new(!case.seed);
    let rows = rows_read_back(&case.bytes, case.lanes).count();
    let mut flags = vec![0; rows + 2];
    if rng.one_in(4) {
        flags[rng.below(rows.max(1))] = 1;
    } else {
        flags.fill_with(|| rng.pick(&[0, 0, 1, 2, 255]));
    }
    flags
}
