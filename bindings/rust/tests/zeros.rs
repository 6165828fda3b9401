//! Zeros stand past every answer whatever a slice held before: one entry that is not 0, anywhere, or none that is, among them floats which equal 0
//! and are not, and what is no number.

use padcheck::{Lengths, lent};

const LANES: usize = 4;

/// How many entries are looked at at a time; no more than so many are written without a look.
const PART: usize = 16_384;

/// A length of which every slice is few entries, and one of which each is several parts that are looked at.
const LENGTHS: [usize; 2] = [1000, 200_000];

/// Two rows, and blanks up to a length.
fn data(len: usize) -> Vec<u8> {
    let mut data = b"1000\n0110\n".to_vec();
    data.resize(len, b' ');
    data
}

/// The slices of the main call.
#[derive(Clone, Debug, PartialEq)]
struct Slices {
    text: Vec<u8>,
    densities: Vec<u32>,
    /// Row beats by their bits.
    beats: Vec<u32>,
    work: Vec<u16>,
    notes: Vec<u8>,
}

impl Slices {
    /// Slices for a text of a length that are 0 throughout.
    fn fresh(len: usize) -> Self {
        let lengths = Lengths::of(len, LANES);
        Self {
            text: vec![0; lengths.text],
            densities: vec![0; lengths.measures],
            beats: vec![0; lengths.beats],
            work: vec![0; lengths.work],
            notes: vec![0; lengths.notes],
        }
    }

    /// What the call leaves of them.
    fn called(mut self, data: &[u8]) -> Self {
        let mut beats: Vec<f32> = self.beats.iter().copied().map(f32::from_bits).collect();
        lent::minimize_chart_count_rows_notes(
            data,
            LANES,
            &mut self.text,
            &mut self.densities,
            &mut beats,
            &mut self.work,
            &mut self.notes,
            &mut [0; 32],
        )
        .unwrap();
        self.beats = beats.into_iter().map(f32::to_bits).collect();
        self
    }
}

/// The answer, and zeros past it, written out by hand.
fn answer(len: usize) -> Slices {
    let mut want = Slices::fresh(len);
    want.text[..10].copy_from_slice(b"1000\n0110\n");
    want.densities[0] = 2;
    want.beats[1] = 2.0_f32.to_bits();
    for (note, (row, column)) in want.notes.chunks_mut(10).zip([(0, 0), (1, 1), (1, 2)]) {
        note.copy_from_slice(&[row, 0, 0, 0, 255, 255, 255, 255, column, 0]);
    }
    want
}

#[test]
fn fresh_slices() {
    for len in LENGTHS {
        assert_eq!(Slices::fresh(len).called(&data(len)), answer(len));
    }
}

/// The greatest number, 1, −0.0, the least float past 0, the infinities, and numbers that are none, quiet and not.
#[test]
fn slices_full_of_one_thing() {
    let floats = [
        0x8000_0000,
        1,
        0x3F80_0000,
        0x7F80_0000,
        0xFF80_0000,
        0x7FC0_0000,
        0xFFC0_0001,
        0x7F80_0001,
    ];
    for len in LENGTHS {
        for (bits, byte) in floats.into_iter().zip([255, 1, 2, 4, 8, 16, 32, 128]) {
            let mut slices = Slices::fresh(len);
            slices.text.fill(byte);
            slices.densities.fill(bits);
            slices.beats.fill(bits);
            slices.work.fill(byte.into());
            slices.notes.fill(byte);
            assert_eq!(slices.called(&data(len)), answer(len));
        }
    }
}

/// The places where one half of a part that is looked at ends and the next begins, past each answer, and the last one.
#[test]
fn one_entry_that_is_not_0() {
    let answers = [0, 1, 2, 10, 30].into_iter();
    let halves = answers.flat_map(|answer| (1..=4).map(move |half| answer + half * PART / 2 + 1));
    let ends: Vec<usize> = halves.chain([100, usize::MAX]).collect();
    for len in LENGTHS {
        let (data, want) = (data(len), answer(len));
        for &end in &ends {
            for before in 1..=2 {
                let place = |len: usize| end.min(len) - before;
                let mut slices = Slices::fresh(len);
                let at = place(slices.text.len());
                slices.text[at] = 1;
                let at = place(slices.densities.len());
                slices.densities[at] = 1 << 31;
                let at = place(slices.beats.len());
                slices.beats[at] = 1 << 31;
                let at = place(slices.work.len());
                slices.work[at] = 1 << 15;
                let at = place(slices.notes.len());
                slices.notes[at] = 1;
                assert_eq!(slices.called(&data), want);
            }
        }
    }
}
