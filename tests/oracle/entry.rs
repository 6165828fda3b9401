//! The calls as they are met from outside: the refusals, what an accepted call
//! leaves in the slices it was lent, and the reading back of a note record.

use crate::calls::{Answer, Call, Figures, NO_TAIL, NOTE_BYTES, answer};

/// The longest text that is accepted.
pub const MAX_LEN: usize = 16_777_215;

/// Rows and tail rows of a note record are below this.
const ROW_LIMIT: u32 = 16_777_216;

/// Whether a lane number is a lane count. Every other number is refused.
#[must_use]
pub const fn is_lane_count(lanes: usize) -> bool {
    matches!(lanes, 4 | 5 | 6 | 8 | 10)
}

/// Lengths of the slices lent; a slice that a call is not lent does not matter to it.
#[derive(Clone, Copy, Debug, Default, PartialEq, Eq)]
pub struct Lengths {
    pub text: usize,
    /// Densities or spacing.
    pub measure: usize,
    pub beat: usize,
    pub work: usize,
    /// Notes, or the list of dropped heads.
    pub note: usize,
}

impl Lengths {
    /// The shortest lengths at which no call is refused, for a text that is not too long; at a lane number that is refused, those of four lanes.
    #[must_use]
    pub fn enough(len: usize, lanes: usize) -> Self {
        let lanes = if is_lane_count(lanes) { lanes } else { 4 };
        Self {
            text: len + 1,
            measure: (len + 1) / 2 + 1,
            beat: most_rows(len, lanes),
            work: most_rows(len, lanes),
            note: NOTE_BYTES * lanes * most_rows(len, lanes),
        }
    }
}

/// R, the most rows a text can hold.
#[must_use]
pub fn most_rows(len: usize, lanes: usize) -> usize {
    (len + 1) / (lanes + 1)
}

/// The refusals that a call can give, in their order: one for each thing it is lent.
#[must_use]
pub fn refusals(call: Call) -> &'static [u32] {
    match call {
        Call::MinimizeChartCountRowsNotes => &[12, 1, 2, 3, 4, 5, 6],
        Call::ProcessChartKept => &[12, 1, 2, 3, 5],
        Call::MinimizeTimingRows => &[12, 1, 2, 4],
        Call::MeasureDensities | Call::EquallySpaced => &[12, 1, 3],
        Call::ChartLastBeat => &[12, 1],
        Call::ProcessRowsJudgable | Call::ProcessTimingRows => &[12, 1, 5],
        Call::DroppedHolds => &[12, 1, 2, 6],
    }
}

/// The number a call returns for a text of this length: 0 for accepted, else the refusal.
#[must_use]
pub fn refusal(call: Call, len: usize, lanes: usize, lent: &Lengths) -> u32 {
    if !is_lane_count(lanes) {
        return 12;
    }
    if len > MAX_LEN {
        return 1;
    }
    let enough = Lengths::enough(len, lanes);
    let is_short = |number: &&u32| match number {
        2 => lent.text < enough.text,
        3 => lent.measure < enough.measure,
        4 => lent.beat < enough.beat,
        5 => lent.work < enough.work,
        6 => lent.note < enough.note,
        _ => false,
    };
    refusals(call)
        .iter()
        .find(is_short)
        .copied()
        .unwrap_or_default()
}

/// What is lent to a call for writing. `densities` and `spacing` are lent together to the sheet's call alone.
#[derive(Clone, Debug, Default)]
pub struct Loan {
    pub text: Vec<u8>,
    pub densities: Vec<u32>,
    pub spacing: Vec<u8>,
    pub beats: Vec<f32>,
    pub work: Vec<u16>,
    pub notes: Vec<u8>,
    pub figures: Figures,
}

impl Loan {
    /// A loan of these lengths in which nothing is 0, so that what is not written shows.
    #[must_use]
    pub fn marked(lengths: &Lengths) -> Self {
        Self {
            text: vec![0xA5; lengths.text],
            densities: vec![0xA5A5_A5A5; lengths.measure],
            spacing: vec![0xA5; lengths.measure],
            beats: vec![-1.5; lengths.beat],
            work: vec![0xA5A5; lengths.work],
            notes: vec![0xA5; lengths.note],
            figures: [u64::MAX; 32],
        }
    }

    /// The lengths as this call sees them.
    #[must_use]
    pub fn lengths(&self, call: Call) -> Lengths {
        Lengths {
            text: self.text.len(),
            measure: match call {
                Call::EquallySpaced => self.spacing.len(),
                _ => self.densities.len(),
            },
            beat: self.beats.len(),
            work: self.work.len(),
            note: self.notes.len(),
        }
    }

    /// Whether all that is lent is the same, floats by their bits.
    #[must_use]
    pub fn same(&self, other: &Self) -> bool {
        let bits = |beats: &[f32]| beats.iter().map(|beat| beat.to_bits()).collect::<Vec<_>>();
        self.text == other.text
            && self.densities == other.densities
            && self.spacing == other.spacing
            && bits(&self.beats) == bits(&other.beats)
            && self.work == other.work
            && self.notes == other.notes
            && self.figures == other.figures
    }

    /// Writes an answer: zeros past it, the work slice 0 throughout, what is not lent left alone.
    pub(crate) fn take(&mut self, call: Call, answer: &Answer) {
        for number in refusals(call) {
            match number {
                2 => lay(&mut self.text, &answer.text),
                3 if call == Call::EquallySpaced => lay(&mut self.spacing, &answer.spacing),
                3 => lay(&mut self.densities, &answer.densities),
                4 => lay(&mut self.beats, &answer.beats),
                5 => self.work.fill(0),
                6 => lay(&mut self.notes, &answer.notes),
                _ => {}
            }
        }
        self.figures = answer.figures;
    }
}

/// Contents at the start of a slice, zeros past them.
pub(crate) fn lay<T: Copy + Default>(slice: &mut [T], contents: &[T]) {
    let (head, rest) = slice.split_at_mut(contents.len());
    head.copy_from_slice(contents);
    rest.fill(T::default());
}

/// A chart call entire: returns its number and alters the loan as the entry does.
pub fn enter(call: Call, data: &[u8], lanes: usize, flags: &[u8], loan: &mut Loan) -> u32 {
    let number = refusal(call, data.len(), lanes, &loan.lengths(call));
    if number == 0 {
        loan.take(call, &answer(call, data, lanes, flags));
    }
    number
}

/// A note read back: row, tail (4294967295 for none), column, kind.
///
/// # Errors
///
/// The refusals 7 and 8.
pub fn read_note(records: &[u8], index: usize) -> Result<[u64; 4], u32> {
    let (notes, rest) = records.as_chunks::<NOTE_BYTES>();
    if !rest.is_empty() || index >= notes.len() {
        return Err(7);
    }
    let [r0, r1, r2, r3, t0, t1, t2, t3, column, kind] = notes[index];
    let row = u32::from_le_bytes([r0, r1, r2, r3]);
    let tail = u32::from_le_bytes([t0, t1, t2, t3]);
    let tail_fits = match kind {
        1 | 2 => row < tail && tail < ROW_LIMIT,
        _ => tail == NO_TAIL,
    };
    if column < 10 && kind < 6 && row < ROW_LIMIT && tail_fits {
        Ok([row.into(), tail.into(), column.into(), kind.into()])
    } else {
        Err(8)
    }
}

/// All notes of records, as they are read back.
///
/// # Errors
///
/// 7 for part of a record, before 8 for any.
pub fn read_notes(records: &[u8]) -> Result<Vec<[u64; 4]>, u32> {
    match records.as_chunks::<NOTE_BYTES>() {
        (records, []) => records.iter().map(|record| read_note(record, 0)).collect(),
        _ => Err(7),
    }
}
