//! The sheet's call as it is met from outside: its refusals, and what an accepted call leaves in the slices it was lent.

use crate::calls::Call;
use crate::entry::{Lengths, Loan, MAX_LEN, is_lane_count, lay};
use crate::sheet::{ChartFigures, FORMS};

/// The place of the sheet's bytes in the figures.
pub const SHEET_BYTES: usize = 7;

/// The refusals that the call can give, in their order.
pub const REFUSALS: [u32; 9] = [12, 1, 2, 3, 4, 5, 6, 19, 20];

/// The length of the shortest sheet slice that is accepted.
#[must_use]
pub fn sheet_len(len: usize) -> usize {
    42 * (len + 1) + 3000
}

/// The number that the call returns for a text of this length and a sheet slice of `sheet` bytes.
#[must_use]
pub fn refusal(len: usize, lanes: usize, form: usize, lent: &Loan, sheet: usize) -> u32 {
    if !is_lane_count(lanes) {
        return 12;
    }
    if len > MAX_LEN {
        return 1;
    }
    let enough = Lengths::enough(len, lanes);
    let wrong = [
        (2, lent.text.len() < enough.text),
        (3, lent.densities.len() < enough.measure),
        (3, lent.spacing.len() < enough.measure),
        (4, lent.beats.len() < enough.beat),
        (5, lent.work.len() < enough.work),
        (6, lent.notes.len() < enough.note),
        (19, sheet < sheet_len(len)),
        (20, form >= FORMS.len()),
    ];
    let first = wrong.into_iter().find(|(_, holds)| *holds);
    first.map_or(0, |(number, _)| number)
}

/// The call entire, with a sheet slice of `sheet` bytes: alters the loan as the entry does, and answers the bytes of the sheet, which stand
/// in that slice before its zeros.
///
/// # Errors
///
/// The refusals.
pub fn enter(
    data: &[u8],
    lanes: usize,
    form: usize,
    loan: &mut Loan,
    sheet: usize,
) -> Result<Vec<u8>, u32> {
    match refusal(data.len(), lanes, form, loan, sheet) {
        0 => {}
        number => return Err(number),
    }
    let figures = ChartFigures::of(data, lanes);
    let bytes = figures.sheet(FORMS[form]).into_bytes();
    loan.take(Call::MinimizeChartCountRowsNotes, &figures.main);
    lay(&mut loan.spacing, &figures.spacing);
    loan.figures[SHEET_BYTES] = bytes.len() as u64;
    Ok(bytes)
}
