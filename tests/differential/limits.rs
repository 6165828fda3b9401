//! Texts that are not drawn: every short text over a few letters, every row of six cells over some, every short column of cells, every byte at every place of a row's line, texts for each case of the correction,
//! a few texts and too long a one for each lane number whose slices are lent too short, and texts of the greatest length and one byte more.

use crate::case::{Case, Check, LANE_COUNTS};
use crate::kinds::Kinds;
use crate::random::{HUGE_LANES, Rng};
use oracle::entry::MAX_LEN;

/// Letters whose every text is tried, and up to which length.
const ALPHABETS: [(&[u8], u32); 4] = [
    (b"01\n,;", 7),
    (b"03\n ", 7),
    (b"12M\n", 6),
    (b"\t\n\x0b\x0c\r /,;0", 4),
];

/// Lane counts that the short texts are read by in turn, and one that all are read by: the Rust alone answers none of six lanes.
const LANES: [usize; 2] = [4, 5];
const SIX: usize = 6;

pub fn short_texts(checks: &mut [Check], kinds: &mut Kinds) {
    for (letters, longest) in ALPHABETS {
        for len in 0..=longest {
            for number in 0..letters.len().pow(len) {
                for lanes in [LANES[number % LANES.len()], SIX] {
                    let case = Case {
                        seed: number as u64,
                        lanes,
                        bytes: word(letters, len, number),
                    };
                    kinds.note(&case);
                    checks.iter_mut().for_each(|check| check.run(&case));
                }
            }
        }
    }
}

fn word(letters: &[u8], len: u32, number: usize) -> Vec<u8> {
    let mut rest = number;
    (0..len)
        .map(|_| {
            let letter = letters[rest % letters.len()];
            rest /= letters.len();
            letter
        })
        .collect()
}

/// Every row of six cells over four letters, with a row of tails after it or without.
pub fn six_cells(checks: &mut [Check], kinds: &mut Kinds) {
    const LETTERS: &[u8] = b"012L";
    for number in 0..LETTERS.len().pow(6) {
        let row = word(LETTERS, 6, number);
        for (seed, tails) in [&b"\n333333"[..], b""].into_iter().enumerate() {
            let case = Case {
                seed: seed as u64,
                lanes: SIX,
                bytes: [&row, tails].concat(),
            };
            kinds.note(&case);
            checks.iter_mut().for_each(|check| check.run(&case));
        }
    }
}

/// Every column of up to five cells over some letters, beside empty ones: what becomes of a head by the cells below it.
pub fn columns(checks: &mut [Check], kinds: &mut Kinds) {
    const LETTERS: &[u8] = b"0123MKx";
    for len in 0..=5 {
        for number in 0..LETTERS.len().pow(len) {
            let column = word(LETTERS, len, number);
            let lines = column.iter().map(|&cell| [b'0', cell, b'0', b'0', b'\n']);
            let case = Case {
                seed: number as u64,
                lanes: 4,
                bytes: lines.collect::<Vec<_>>().concat(),
            };
            kinds.note(&case);
            checks.iter_mut().for_each(|check| check.run(&case));
        }
    }
}

/// Every byte at every place of the second of three rows' lines, and right after it, where lines end with byte 10 and with bytes 13 and 10: the readers
/// tell most rows by a look of several bytes at once.
pub fn bytes_in_rows(checks: &mut [Check], kinds: &mut Kinds) {
    for lanes in LANE_COUNTS {
        for newline in [&b"\n"[..], b"\r\n"] {
            let rows = [&b"1000000000"[..], b"2100000001", b"0010000000"];
            let text = rows.map(|row| [&row[..lanes], newline].concat()).concat();
            let second = lanes + newline.len();
            for place in second..=2 * second {
                for byte in 0..=u8::MAX {
                    let mut bytes = text.clone();
                    bytes[place] = byte;
                    let case = Case {
                        bytes,
                        lanes,
                        seed: u64::from(byte),
                    };
                    kinds.note(&case);
                    checks.iter_mut().for_each(|check| check.run(&case));
                }
            }
        }
    }
}

/// A column's cells for each case of the correction: no head, heads that all pair, and in the order of its conditions heads other than tails, a 1,
/// M, L or F at a phantom depth, a phantom depth left over.
const COLUMNS: [&[u8]; 12] = [
    b"0", b"23", b"43", b"3", b"2", b"233", b"223", b"213", b"2M3", b"2L3", b"2F3", b"32",
];

/// Nine heads and nine tails in a second column stand beside each of these columns. The ninth is not paired, and only in a tally that is counted
/// anew is it missing: so both tallies show whether they were.
pub fn corrections(checks: &mut [Check], kinds: &mut Kinds) {
    const NEST: [u8; 18] = *b"222222222333333333";
    for lanes in LANE_COUNTS {
        for column in COLUMNS {
            for place in 0..lanes {
                let mut bytes = Vec::new();
                for row in 0..NEST.len() {
                    let mut cells = vec![b'0'; lanes];
                    cells[place] = column.get(row).copied().unwrap_or(b'0');
                    cells[(place + 1) % lanes] = NEST[row];
                    bytes.extend_from_slice(&cells);
                    bytes.push(b'\n');
                }
                // A seed of its own, so that the slices lent differ; the last one leaves the text without its last newline.
                for seed in 0..4 {
                    if seed == 3 {
                        bytes.pop();
                    }
                    let case = Case {
                        bytes: bytes.clone(),
                        lanes,
                        seed,
                    };
                    kinds.note(&case);
                    checks.iter_mut().for_each(|check| check.run(&case));
                }
            }
        }
    }
}

/// Every text of up to three rows that begin with these cells, at each lane count.
pub fn few_rows(check: &mut Check) {
    const FIRST: [&[u8]; 7] = [b"0", b"1", b"011", b"2", b"3", b"M", b"K"];
    for lanes in LANE_COUNTS {
        for rows in 0..=3 {
            for number in 0..FIRST.len().pow(rows) {
                let mut bytes = Vec::new();
                for place in word(&[0, 1, 2, 3, 4, 5, 6], rows, number) {
                    let mut row = FIRST[usize::from(place)].to_vec();
                    row.resize(lanes, b'0');
                    bytes.extend(row);
                    bytes.push(b'\n');
                }
                check.run(&Case {
                    bytes,
                    lanes,
                    seed: number as u64,
                });
            }
        }
    }
}

/// A few texts of at least a row, and one that is too long, at the lane numbers 0 to 300 and some large ones.
pub fn every_lane(checks: &mut [Check]) {
    let too_long = vec![b'1'; MAX_LEN + 1];
    let texts: [&[u8]; 5] = [
        b"1000000000\n0000000000\n,\n0200000000\n0300000000\n",
        b"2000000000\n0M0000000K\r\n,\n,\n;\n1111111111\n",
        b"           ",
        b"1111\n22222\n33333333\n4444444444",
        &too_long,
    ];
    for (seed, text) in texts.iter().enumerate() {
        let mut case = Case {
            bytes: text.to_vec(),
            lanes: 0,
            seed: seed as u64,
        };
        for lanes in (0..=300).chain([1 << 32]).chain(HUGE_LANES) {
            case.lanes = lanes;
            checks.iter_mut().for_each(|check| check.run(&case));
        }
    }
}

/// Texts of the greatest length and of one byte more; the seeds lend exact slices and others.
pub fn long_texts(checks: &mut [Check]) {
    let patterns: [(usize, &[u8]); 7] = [
        (4, b"1000\n0000\n0200\n0300\n,\n"),
        (5, b"00001\n20000\n30000\n00000\n00M00\n0K000\n,\n"),
        (6, b"010000\n200010\n0M0001\n300000\n,\n"),
        (8, b"00000000\n00000001\n,\n"),
        (10, b"0000000000\n2222222222\n3333333333\n4000000000\n"),
        (4, b",\n"),
        (4, b"0"),
    ];
    for (lanes, pattern) in patterns {
        for len in [MAX_LEN, MAX_LEN + 1] {
            let mut bytes: Vec<u8> = pattern.iter().copied().cycle().take(len).collect();
            bytes[len - 1] = b'1';
            let mut case = Case {
                bytes,
                lanes,
                seed: 0,
            };
            for check in &mut *checks {
                case.seed = Rng::new(case.seed).next();
                check.run(&case);
            }
        }
    }
}
