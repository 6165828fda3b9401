//! How long the slices must be that are lent to a call.

/// The longest text that is accepted, and the longest SM file, in bytes.
pub const MAX_LEN: usize = 16_777_215;

/// Bytes of a note record.
pub const NOTE_BYTES: usize = 10;

/// Bytes of a dropped head's record.
pub const DROPPED_BYTES: usize = 10;

/// Bytes of a press's record.
pub const PRESS_BYTES: usize = 5;

/// Bytes of a sheet: so many for each byte of the text and one more, and so many besides.
const SHEET_BYTES: usize = 42;
const SHEET_HEAD: usize = 3000;

/// Whether a lane number is a lane count, L. Every other number is refused ([`OtherLanes`](crate::Refusal::OtherLanes)).
///
/// ```
/// assert!([4, 5, 6, 8, 10].into_iter().all(padcheck::is_lane_count));
/// assert!(![0, 7, 9].into_iter().any(padcheck::is_lane_count));
/// ```
#[must_use]
pub const fn is_lane_count(lanes: usize) -> bool {
    matches!(lanes, 4 | 5 | 6 | 8 | 10)
}

/// The shortest lengths, in elements, at which no call is refused.
#[derive(Clone, Copy, Debug, Default, PartialEq, Eq)]
pub struct Lengths {
    /// Text, bytes.
    pub text: usize,
    /// Densities or spacing, one a measure.
    pub measures: usize,
    /// Row beats; also R, the most rows that a text of this length can hold.
    pub beats: usize,
    /// Work slice.
    pub work: usize,
    /// Note records, or those of dropped heads, bytes.
    pub notes: usize,
    /// Sheet, bytes: 42 × (len + 1) + 3,000, whatever its form.
    pub sheet: usize,
}

impl Lengths {
    /// The lengths for a text of `len` bytes. A text that is too long and a lane number that is no lane count are refused
    /// whatever is lent, so 0 will do for them.
    ///
    /// ```
    /// let lengths = padcheck::Lengths::of(22, 4);
    /// assert_eq!((lengths.text, lengths.measures, lengths.beats, lengths.notes), (23, 12, 4, 160));
    /// assert_eq!(lengths.sheet, 3966);
    /// ```
    #[must_use]
    pub const fn of(len: usize, lanes: usize) -> Self {
        if len > MAX_LEN || !is_lane_count(lanes) {
            return Self {
                text: 0,
                measures: 0,
                beats: 0,
                work: 0,
                notes: 0,
                sheet: 0,
            };
        }
        let rows = (len + 1) / (lanes + 1);
        Self {
            text: len + 1,
            // (len + 1) div 2 + 1
            measures: len.div_ceil(2) + 1,
            beats: rows,
            work: rows,
            notes: NOTE_BYTES * lanes * rows,
            sheet: SHEET_BYTES * (len + 1) + SHEET_HEAD,
        }
    }

    /// The bytes of the chart that is written with these row counts ([`lent::notes_to_chart`](crate::lent::notes_to_chart)): L + 1 for each row, and
    /// 2 between two measures. A text that would be too long and a lane number that is no lane count are refused whatever is lent, so 0 will
    /// do for them.
    ///
    /// ```
    /// use padcheck::Lengths;
    ///
    /// assert_eq!(Lengths::written(4, &[2, 0, 3]), 29);
    /// assert_eq!((Lengths::written(4, &[0]), Lengths::written(4, &[])), (0, 0));
    /// assert_eq!(Lengths::written(4, &[u32::MAX; 9]), 0);
    /// ```
    #[must_use]
    pub fn written(lanes: usize, counts: &[u32]) -> usize {
        if !is_lane_count(lanes) {
            return 0;
        }
        let rows = counts.iter().map(|&count| count as usize);
        let mut lengths = rows.enumerate().map(|(measure, rows)| {
            let comma = if measure == 0 { 0 } else { 2 };
            (lanes + 1) * rows + comma
        });
        // It goes no further than the limit, so that no sum is too large.
        let len = lengths.try_fold(0, |len, more| {
            Some(len + more).filter(|&len| len <= MAX_LEN)
        });
        len.unwrap_or_default()
    }
}
