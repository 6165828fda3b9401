//! The search for a byte beside the Rust's: the byte at every place, absent, and several times, beside bytes that differ from it in one bit.

use crate::case::{Case, Check, Compare};
use crate::ours;
use oracle::leaves;

/// Slices have 0 to this many bytes, and the byte stands first at one of the places from 0 to `FARTHEST`.
const LONGEST: usize = 96;
const FARTHEST: usize = 80;

const NEEDLES: [u8; 4] = [b'\n', b'0', 0, 255];

/// A case's seed is the byte that is looked for.
pub fn check() -> Check {
    Check::new("find_byte", find_byte)
}

fn find_byte(case: &Case, compared: &mut Compare) {
    let needle = case.seed as u8;
    let rust = leaves::find_byte(&case.bytes, needle);
    compared.same("place", ours::find_byte(&case.bytes, needle), rust);
}

pub fn every_place(check: &mut Check) {
    for needle in NEEDLES {
        for len in 0..=LONGEST {
            // One bit for all other bytes, or the eight in turn.
            for bit in 0..=8 {
                let other = |at: usize| needle ^ (1 << if bit < 8 { bit } else { at % 8 });
                let others: Vec<u8> = (0..len).map(other).collect();
                run(check, needle, &others);
                for place in 0..len.min(FARTHEST + 1) {
                    let mut bytes = others.clone();
                    bytes[place] = needle;
                    run(check, needle, &bytes);
                    bytes[len - 1] = needle;
                    run(check, needle, &bytes);
                    bytes[place..].fill(needle);
                    run(check, needle, &bytes);
                }
            }
        }
    }
}

fn run(check: &mut Check, needle: u8, bytes: &[u8]) {
    check.run(&Case {
        bytes: bytes.to_vec(),
        lanes: 0,
        seed: u64::from(needle),
    });
}
