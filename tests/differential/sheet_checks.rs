//! Checks of the sheet's entry: number, every slice and the figures beside the reference's, with slices drawn, with every combination of
//! them too short, and on texts of the greatest length and one byte more.

use crate::case::{Case, Check, Compare, LANE_COUNTS};
use crate::ours;
use crate::random::{self, LONG, Rng};
use crate::text_checks::{bits, short_len, too_short};
use oracle::calls::Call;
use oracle::entry::{Loan, MAX_LEN};
use oracle::sheet::FORMS;
use oracle::sheet_entry::{enter, sheet_len};

/// The entry's name without its prefix.
pub const NAME: &str = "chart_sheet";

/// Numbers that are no form, each other than one in a part of its bits.
const OTHER_FORMS: [usize; 6] = [3, 4, 256, 1 << 32, (1 << 32) + 2, usize::MAX];

/// Of the long texts one in so many is taken: their sheet slices are 42 times as long.
const LONG_ONE_IN: usize = 8;

/// What the entry is lent for writing, and the byte that the sheet slice is full of.
struct Lent {
    loan: Loan,
    sheet: Vec<u8>,
    mark: u8,
}

impl Lent {
    /// Slices full of garbage, of the lengths that `length` gives for the shortest ones: the main call's but for the spacing, which is
    /// asked for after the densities, and the sheet's at last.
    fn new(seed: u64, len: usize, lanes: usize, mut length: impl FnMut(usize) -> usize) -> Self {
        let mark = seed as u8 | 1;
        let mut spacing = Vec::new();
        let main = Call::MinimizeChartCountRowsNotes;
        let loan = random::lent(seed, !seed, main, len, lanes, |number, enough| {
            let asked = length(enough);
            if number == 3 {
                spacing = vec![mark; length(enough)];
            }
            asked
        });
        Self {
            loan: Loan { spacing, ..loan },
            sheet: vec![mark; length(sheet_len(len))],
            mark,
        }
    }

    /// Slices that would do for an empty text.
    fn small(seed: u64, lanes: usize) -> Self {
        Self::new(seed, 0, lanes, |enough| enough)
    }
}

/// The entry with slices and a form that are drawn, on one in so many texts.
pub fn drawn(one_in: usize) -> Check {
    Check::new(NAME, move |case, compared| {
        let is_long = case.bytes.len() >= LONG;
        let mut rng = Rng::new(case.seed);
        if !rng.one_in(if is_long { LONG_ONE_IN } else { one_in }) {
            return;
        }
        let form = match rng.below(16) {
            0 => rng.pick(&OTHER_FORMS),
            number => number % FORMS.len(),
        };
        let may_lack = !is_long && rng.one_in(3);
        let (seed, len) = (rng.next(), case.bytes.len());
        let lent = Lent::new(seed, len, case.lanes, |enough| match rng.below(8) {
            0 if may_lack => enough.saturating_sub(1),
            1 if may_lack => enough / 2,
            2 | 3 => enough + 1 + rng.below(9),
            _ => enough,
        });
        entered(case, form, lent, compared);
    })
}

/// The entry with every combination of its slices too short, the others exact, in a form and in none.
pub fn shortages() -> Check {
    const SLICES: u32 = 7;
    Check::new(NAME, |case, compared| {
        for short in 0..1_u32 << SLICES {
            let form = (case.seed as usize + short as usize) % FORMS.len();
            for form in [form, OTHER_FORMS[short as usize % OTHER_FORMS.len()]] {
                let mut rest = short;
                let lent = Lent::new(case.seed, short_len(case), case.lanes, |enough| {
                    let is_short = rest & 1 != 0;
                    rest >>= 1;
                    if is_short {
                        too_short(case.lanes, enough)
                    } else {
                        enough
                    }
                });
                entered(case, form, lent, compared);
            }
        }
    })
}

/// A text of the greatest length, and one byte more at each lane count.
pub fn longest(check: &mut Check) {
    let mut case = Case {
        bytes: vec![b'1'; MAX_LEN],
        lanes: 10,
        seed: 0,
    };
    check.run(&case);
    case.bytes.push(b'1');
    for lanes in LANE_COUNTS {
        case.lanes = lanes;
        check.run(&case);
    }
}

/// The entry with exact slices, or, where the text is too long, with small ones and in every form and another.
pub fn exact() -> Check {
    Check::new(NAME, |case, compared| {
        if case.bytes.len() <= MAX_LEN {
            let lent = Lent::new(case.seed, case.bytes.len(), case.lanes, |enough| enough);
            return entered(case, case.seed as usize % FORMS.len(), lent, compared);
        }
        for form in 0..=FORMS.len() {
            let lent = Lent::small(case.seed, case.lanes);
            entered(case, form, lent, compared);
        }
    })
}

/// The entry's number, figures and slices beside what the reference leaves in an equal loan.
fn entered(case: &Case, form: usize, lent: Lent, compared: &mut Compare) {
    let Lent {
        loan: mut left,
        mut sheet,
        mark,
    } = lent;
    let mut want = left.clone();
    let number = ours::chart_sheet(&case.bytes, case.lanes, form, &mut left, &mut sheet);
    let rust = enter(&case.bytes, case.lanes, form, &mut want, sheet.len());
    compared.number(
        case.lanes,
        number,
        rust.as_ref().err().copied().unwrap_or_default(),
    );
    compared.same_slices("figures", &left.figures, &want.figures);
    compared.same_slices("text", &left.text, &want.text);
    compared.same_slices("densities", &left.densities, &want.densities);
    compared.same_slices("spacing", &left.spacing, &want.spacing);
    compared.same_slices("beats", &bits(&left.beats), &bits(&want.beats));
    compared.same_slices("work", &left.work, &want.work);
    compared.same_slices("notes", &left.notes, &want.notes);
    let (bytes, past) = rust.map_or((Vec::new(), mark), |bytes| (bytes, 0));
    let (written, rest) = sheet.split_at(bytes.len().min(sheet.len()));
    compared.same_slices("sheet", written, &bytes);
    let other = rest.iter().fold(0, |other, &byte| other | (byte ^ past));
    compared.same("bits past the sheet that differ", other, 0);
}
