//! The 32 figures that every chart call fills, and the tally in them.

/// Places in [`Figures`]; a place that a call does not answer is 0.
pub mod place {
    /// Bytes of the answer in the text slice.
    pub const TEXT_BYTES: usize = 0;
    /// Measures; of a chart that is written, the counts.
    pub const MEASURES: usize = 1;
    /// Minimised rows, also the number of beats; of a chart that is written, the sum of the counts.
    pub const ROWS: usize = 2;
    /// Note records, those of dropped heads, or those of which a chart is written.
    pub const NOTES: usize = 3;
    /// Last beat, the bits of the `f64`.
    pub const LAST_BEAT: usize = 4;
    /// 1 where a timing row has a 2 or 4, else 0.
    pub const HAS_HEADS: usize = 5;
    /// Last beat in 48ths of a beat.
    pub const LAST_BEAT_48THS: usize = 6;
    /// Bytes of the sheet.
    pub const SHEET_BYTES: usize = 7;
    /// The first of the seventeen fields of [`ArrowStats`](crate::ArrowStats), in their order.
    pub const TALLY: usize = 8;
    /// Of them, cells K.
    pub const KEYSOUNDS: usize = 22;
    /// Of them, arrows up-left.
    pub const UP_LEFT: usize = 23;
    /// The last of them: arrows up-right.
    pub const UP_RIGHT: usize = 24;
}

/// What a chart call answers in numbers; [`place`] says what stands where.
pub type Figures = [u64; 32];

/// The tally of a chart: the fields of rssp's, in their order, then the keysounds and the two directions that
/// six lanes alone have.
#[derive(Debug, Default, Clone, PartialEq, Eq)]
#[expect(missing_docs, reason = "the fields say what they count")]
pub struct ArrowStats {
    pub total_arrows: u32,
    pub left: u32,
    pub down: u32,
    pub up: u32,
    pub right: u32,
    pub total_steps: u32,
    pub jumps: u32,
    pub hands: u32,
    pub mines: u32,
    pub holds: u32,
    pub rolls: u32,
    pub lifts: u32,
    pub fakes: u32,
    pub holding: i32,
    pub keysounds: u32,
    pub up_left: u32,
    pub up_right: u32,
}

impl ArrowStats {
    /// The tally in the figures of an accepted call.
    #[must_use]
    pub fn from_figures(figures: &Figures) -> Self {
        // At most ten cells of each of at most 3,355,443 rows are counted, so every field fits.
        let field = |i: usize| figures[place::TALLY + i] as u32;
        Self {
            total_arrows: field(0),
            left: field(1),
            down: field(2),
            up: field(3),
            right: field(4),
            total_steps: field(5),
            jumps: field(6),
            hands: field(7),
            mines: field(8),
            holds: field(9),
            rolls: field(10),
            lifts: field(11),
            fakes: field(12),
            holding: field(13) as i32,
            keysounds: field(14),
            up_left: field(15),
            up_right: field(16),
        }
    }
}

/// A count in the figures. It never passes the length of a slice, so it fits.
pub(crate) fn count(figures: &Figures, place: usize) -> usize {
    figures[place] as usize
}

#[cfg(test)]
mod tests {
    use super::place::*;

    #[test]
    fn places_are_those_of_the_header() {
        let texts = [TEXT_BYTES, MEASURES, ROWS, NOTES];
        assert_eq!(texts, [0, 1, 2, 3]);
        let beats = [LAST_BEAT, HAS_HEADS, LAST_BEAT_48THS];
        assert_eq!(beats, [4, 5, 6]);
        assert_eq!((SHEET_BYTES, TALLY, KEYSOUNDS), (7, 8, 22));
        assert_eq!((UP_LEFT, UP_RIGHT), (23, 24));
    }
}
