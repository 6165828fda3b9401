//! Checks without a text: row beats and last beats by their bits, and what has 256 cases by all of them.

use crate::case::{Case, Check, Compare};
use crate::ours;
use crate::random::Rng;
use oracle::leaves;

/// Most measures and rows of an accepted text, as the leaves take them.
const MOST_MEASURE: u32 = 8_388_608;
const MOST_ROWS: u32 = 4_194_303;

/// Cases drawn from their seed.
pub fn drawn() -> Vec<Check> {
    vec![
        Check::new("row_beat", row_beat),
        Check::new("append_row_beats", append_row_beats),
        Check::new("calc_last_beat", calc_last_beat),
    ]
}

/// Cases whose seed is one of 256 numbers.
pub fn bytes() -> Vec<Check> {
    vec![
        Check::new("cell_of", cell_of),
        Check::new("hold_effect", hold_effect),
        Check::new("object_effect", object_effect),
        Check::new("tap_sum", tap_sum),
        Check::new("find_byte", find_byte),
        Check::new("count_byte", count_byte),
    ]
}

fn measure(rng: &mut Rng) -> u32 {
    match rng.below(8) {
        0 => MOST_MEASURE - rng.below(3) as u32,
        1..=4 => rng.below(300) as u32,
        _ => (rng.next() as u32 % MOST_MEASURE) >> rng.below(23),
    }
}

fn rows(rng: &mut Rng) -> u32 {
    match rng.below(10_000) {
        0 => MOST_ROWS - rng.below(3) as u32,
        1..=4000 => rng.pick(&[4, 8, 12, 16, 24, 32, 48, 64, 192]),
        4001..=9900 => 1 + rng.below(70) as u32,
        _ => 1 + rng.below(5000) as u32,
    }
}

fn row_beat(case: &Case, compared: &mut Compare) {
    let mut rng = Rng::new(case.seed);
    let (m, n) = (measure(&mut rng), rows(&mut rng));
    let r = rng.below(n as usize) as u32;
    let rust = leaves::row_beat(m as usize, r as usize, n as usize);
    let mut beat = [-7.5];
    compared.same("taken", ours::row_beat(m, r, n, &mut beat), Some(()));
    let what = format!("bits for measure {m}, row {r} of {n}");
    compared.same(&what, beat[0].to_bits(), rust.to_bits());
    let mut beat = [-7.5];
    for (m, r, n) in [(m, n, n), (MOST_MEASURE + 1, r, n), (m, r, MOST_ROWS + 1)] {
        compared.same("not taken", ours::row_beat(m, r, n, &mut beat), None);
    }
    compared.same("left alone", beat, [-7.5]);
}

fn append_row_beats(case: &Case, compared: &mut Compare) {
    let mut rng = Rng::new(!case.seed);
    let m = measure(&mut rng);
    let n = if rng.one_in(50) { 0 } else { rows(&mut rng) };
    let (before, after) = (rng.below(4), rng.below(4));
    let mut beats = vec![-7.5; before + n as usize + after];
    let mut want = beats.clone();
    let rust = leaves::append_row_beats(m as usize, n as usize);
    want[before..before + n as usize].copy_from_slice(&rust);
    compared.same(
        "taken",
        ours::append_row_beats(&mut beats, before, m, n),
        Some(()),
    );
    compared.same_slices(
        &format!("measure {m}, {n} rows"),
        &bits(&beats),
        &bits(&want),
    );
    let over = n + after as u32 + 1;
    for (at, m, n) in [
        (before, m, over),
        (beats.len() + 1, m, 0),
        (before, MOST_MEASURE + 1, n),
    ] {
        compared.same(
            "not taken",
            ours::append_row_beats(&mut beats, at, m, n),
            None,
        );
    }
    compared.same_slices("left alone", &bits(&beats), &bits(&want));
}

fn calc_last_beat(case: &Case, compared: &mut Compare) {
    let mut rng = Rng::new(case.seed.rotate_left(32));
    let m = measure(&mut rng);
    let n = (1 + rng.next() as u32 % MOST_ROWS) >> rng.below(22);
    let r = rng.below(n.max(1) as usize) as u32;
    let rust = match n {
        0 => leaves::calc_last_beat(None, 0, 0),
        _ => leaves::calc_last_beat(Some(m as usize), r as usize, n as usize),
    };
    let mut last = [7; 2];
    compared.same("taken", ours::calc_last_beat(m, r, n, &mut last), Some(()));
    let what = format!("bits and 48ths for measure {m}, row {r} of {n}");
    compared.same(&what, (last[0], last[1]), rust);
    let mut last = [7; 2];
    let n = n.max(1);
    for (m, r, n) in [(m, n, n), (MOST_MEASURE + 1, r, n), (m, r, MOST_ROWS + 1)] {
        compared.same("not taken", ours::calc_last_beat(m, r, n, &mut last), None);
    }
    compared.same("left alone", last, [7; 2]);
}

fn bits(beats: &[f32]) -> Vec<u32> {
    beats.iter().map(|beat| beat.to_bits()).collect()
}

/// Letters in the order of the variants.
fn cell_of(case: &Case, compared: &mut Compare) {
    let b = case.seed as u8;
    let number = b"1234MLFKmlf".iter().position(|&letter| letter == b);
    compared.same(
        "cell",
        ours::cell_of(b),
        number.map_or(0, |at| at as u32 + 1),
    );
}

/// The number of an effect, from whether the cell blocks and what becomes of a depth of 1.
fn effect(blocks: bool, depth: u32) -> u32 {
    match (blocks, depth) {
        (true, _) => 1,
        (false, 2) => 2,
        (false, 0) => 3,
        _ => 0,
    }
}

/// The Rust has no table of effects, so a row of one such byte is counted after a head.
fn counted(b: u8) -> leaves::Counted {
    leaves::count_line(4, &[b'2', b'0', b'0', b'0', b, b'0', b'0', b'0'])
}

fn hold_effect(case: &Case, compared: &mut Compare) {
    let b = case.seed as u8;
    let counted = counted(b);
    let rust = effect(counted.has_phantom, counted.phantom_depths[0]);
    compared.same("effect", ours::hold_effect(b), rust);
}

fn object_effect(case: &Case, compared: &mut Compare) {
    let b = case.seed as u8;
    let counted = counted(b);
    let rust = effect(counted.object[1] && b != b'3', counted.object_depths[0]);
    compared.same("effect", ours::object_effect(b), rust);
}

/// Slices of up to 33 bytes with this byte from each place on or there alone, others around it that differ from it in a bit or two.
fn haystacks(byte: u8) -> impl Iterator<Item = Vec<u8>> {
    (0..=33).flat_map(move |len| {
        (0..=len).flat_map(move |at| {
            [1, 0x80, 0x81, 0xff].into_iter().flat_map(move |bits| {
                let mut alone = vec![byte ^ bits; len];
                if let Some(there) = alone.get_mut(at) {
                    *there = byte;
                }
                let mut onward = alone.clone();
                onward[at..].fill(byte);
                [alone, onward]
            })
        })
    })
}

/// The first place is each of those of a word, and of the bytes past the last word.
fn find_byte(case: &Case, compared: &mut Compare) {
    let byte = case.seed as u8;
    for slice in haystacks(byte) {
        let rust = leaves::find_byte(&slice, byte);
        compared.same("place", ours::find_byte(&slice, byte), rust);
    }
}

fn count_byte(case: &Case, compared: &mut Compare) {
    let byte = case.seed as u8;
    for slice in haystacks(byte) {
        let rust = leaves::count_byte(&slice, byte);
        compared.same("count", ours::count_byte(&slice, byte), rust);
    }
}

fn tap_sum(case: &Case, compared: &mut Compare) {
    let mask = case.seed as u8;
    let counts = u32::from(leaves::tap_mask_counts(mask));
    let mut want = [0; 14];
    want[0] = counts & 15;
    for direction in 0..4 {
        want[1 + direction] = (counts >> (4 + 2 * direction)) & 3;
    }
    compared.same_slices("sum", &ours::tap_sum(mask), &want);
}
