//! Why a call was refused.

use std::error::Error;
use std::fmt;

/// A refusal, by the library's names, numbers and words. A refused call has written nothing.
///
/// With slices that the binding allocates a chart can only be refused by [`Refusal::OtherLanes`], ahead of all others, and
/// [`Refusal::LongText`]. 2 to 6, 19 and 20 are met by whoever lends slices of his own ([`crate::lent`]), 7 and 8 by whoever stores note records,
/// 13 to 15 by whoever edits notes or counts rows, 16 by whoever records a trace. A chart inside an SM file ([`crate::sm_chart`]) is refused by 9
/// and 10 for what the file's author wrote, by 11 for what the caller asked.
///
/// ```
/// use padcheck::Refusal;
///
/// let refusal = Refusal::ShortBeats;
/// assert_eq!(refusal.number(), 4);
/// assert_eq!(refusal.words(), "the beat slice is shorter than R");
/// assert_eq!(refusal.caused_by(), "whoever wires up the call");
/// let said = "refused 4: the beat slice is shorter than R, by whoever wires up the call";
/// assert_eq!(refusal.to_string(), said);
/// ```
#[derive(Clone, Copy, Debug, PartialEq, Eq, Hash, PartialOrd, Ord)]
#[non_exhaustive]
#[repr(u32)]
pub enum Refusal {
    /// The text or the SM file, or the text to be written, is longer than [`MAX_LEN`](crate::MAX_LEN).
    LongText = 1,
    /// The text slice is shorter than len + 1, or than the text to be written.
    ShortText = 2,
    /// The measure slice, densities or spacing, is shorter than (len + 1) div 2 + 1.
    ShortMeasures = 3,
    /// The beat slice is shorter than R, the most rows a text can hold.
    ShortBeats = 4,
    /// The work slice is shorter than R.
    ShortWork = 5,
    /// The note slice is shorter than 10 × L × R.
    ShortNotes = 6,
    /// The records' length is not a multiple of 10, or the asked record's number is not below length div 10.
    NoRecord = 7,
    /// A record breaks one of the limits of what the writer makes.
    BadRecord = 8,
    /// Fewer than five `:` stand in the chart's block of the SM file after its tag.
    FewFields = 9,
    /// The chart's type in the SM file is not `dance-single`, `pump-single`, `dance-solo`, `dance-double` or `pump-double`.
    OtherType = 10,
    /// The asked chart's number is not below the number of blocks in the SM file.
    NoChart = 11,
    /// The lane number is none of 4, 5, 6, 8 and 10.
    OtherLanes = 12,
    /// A note does not stand before the next by row, then column, or a column is not below L.
    OutOfOrder = 13,
    /// Two notes of a column meet: a cell is wanted twice, or a note stands inside a hold or roll.
    NotesMeet = 14,
    /// No count is given, a row or a tail row is not below the sum of the counts, or a measure could be minimised further.
    OtherCounts = 15,
    /// The trace's length is not a multiple of 5, a press's column is over 9, or a press falls in row, or in column within a row.
    BadTrace = 16,
    /// The sheet slice is shorter than 42 × (len + 1) + 3,000 bytes.
    ShortSheet = 19,
    /// The sheet's form has a number over 2.
    OtherForm = 20,
}

impl Refusal {
    /// Every refusal, in rising order.
    pub const ALL: [Self; 18] = [
        Self::LongText,
        Self::ShortText,
        Self::ShortMeasures,
        Self::ShortBeats,
        Self::ShortWork,
        Self::ShortNotes,
        Self::NoRecord,
        Self::BadRecord,
        Self::FewFields,
        Self::OtherType,
        Self::NoChart,
        Self::OtherLanes,
        Self::OutOfOrder,
        Self::NotesMeet,
        Self::OtherCounts,
        Self::BadTrace,
        Self::ShortSheet,
        Self::OtherForm,
    ];

    /// The number that the entry returned.
    #[must_use]
    pub const fn number(self) -> u32 {
        self as u32
    }

    /// Whose mistake it is.
    #[must_use]
    pub const fn caused_by(self) -> &'static str {
        match self {
            Self::LongText
            | Self::ShortText
            | Self::ShortMeasures
            | Self::ShortBeats
            | Self::ShortWork
            | Self::ShortNotes
            | Self::ShortSheet
            | Self::OtherForm => "whoever wires up the call",
            Self::NoRecord | Self::BadRecord => "whoever stores note records",
            Self::FewFields | Self::OtherType => "whoever writes the SM file",
            Self::NoChart => "whoever asks for the chart",
            Self::OtherLanes => "whoever gives the lane number",
            Self::OutOfOrder | Self::NotesMeet => "whoever edits the notes",
            Self::OtherCounts => "whoever counts the rows",
            Self::BadTrace => "whoever records the trace",
        }
    }

    /// What is wrong. len is the length of the text or SM file in bytes, L the lane count, R the most rows that such a text
    /// can hold.
    #[must_use]
    pub const fn words(self) -> &'static str {
        match self {
            Self::LongText => {
                "the text or file, or the text to be written, is longer than the call takes"
            }
            Self::ShortText => "the text slice is shorter than the call needs",
            Self::ShortMeasures => "the measure slice is shorter than the call needs",
            Self::ShortBeats => "the beat slice is shorter than R",
            Self::ShortWork => "the work slice is shorter than R",
            Self::ShortNotes => "the note slice is shorter than 10 * L * R",
            Self::NoRecord => {
                "the records end in part of a record, or there is none of that number"
            }
            Self::BadRecord => "a record breaks a limit",
            Self::FewFields => "the block has fewer than five fields",
            Self::OtherType => "the chart has another type name",
            Self::NoChart => "the file has no such block",
            Self::OtherLanes => "the lane number is none of 4, 5, 6, 8 and 10",
            Self::OutOfOrder => {
                "a note does not stand before the next, or its column is not below L"
            }
            Self::NotesMeet => "two notes of a column meet",
            Self::OtherCounts => {
                "the row counts are not those of the notes, or a measure could be minimised"
            }
            Self::BadTrace => {
                "the trace has part of a press, a column over 9, or a press that falls"
            }
            Self::ShortSheet => "the sheet slice is shorter than 42 * (len + 1) + 3000",
            Self::OtherForm => "the form's number is over 2",
        }
    }

    /// What an entry's number says: `Ok` for 0.
    ///
    /// # Panics
    ///
    /// If the linked archive gives a number that this binding does not know.
    pub(crate) fn of(number: u32) -> Result<(), Self> {
        if number == 0 {
            return Ok(());
        }
        let refusal = Self::ALL
            .into_iter()
            .find(|refusal| refusal.number() == number);
        Err(refusal.unwrap_or_else(|| {
            panic!("libpadcheck.a answered {number}, which this binding does not know")
        }))
    }
}

impl fmt::Display for Refusal {
    fn fmt(&self, f: &mut fmt::Formatter<'_>) -> fmt::Result {
        let (number, words, cause) = (self.number(), self.words(), self.caused_by());
        write!(f, "refused {number}: {words}, by {cause}")
    }
}

impl Error for Refusal {}

#[cfg(test)]
mod tests {
    use super::*;

    /// The library's source with its own `Refusal`, whose words are proved.
    const SOURCE: &str = include_str!(concat!(
        env!("CARGO_MANIFEST_DIR"),
        "/../../crates/definitions/src/lib.rt"
    ));

    /// What stands in the source behind one text and before the next other one.
    fn between(before: &str, after: &str) -> &'static str {
        let (_, rest) = SOURCE.split_once(before).expect(before);
        rest.split_once(after).expect(after).0
    }

    /// The names of the library's refusals, each with its number.
    fn numbers() -> Vec<(&'static str, u32)> {
        let lines = between("pub enum Refusal {", "\n}").lines();
        let variants = lines.filter_map(|line| line.trim().trim_end_matches(',').split_once(" = "));
        variants
            .map(|(name, number)| (name, number.parse().unwrap()))
            .collect()
    }

    /// What a method of the library's answers for the refusal of this name.
    fn told(method: &str, name: &str) -> &'static str {
        let body = between(&format!("pub fn {method}(self)"), "\n    }\n");
        // The names of an arm and its text in turn.
        let parts: Vec<_> = body.split('"').collect();
        let mut arms = parts.chunks_exact(2).filter(|arm| {
            let mut words = arm[0].split(|letter: char| !letter.is_alphanumeric());
            words.any(|word| word == name)
        });
        match (arms.next(), arms.next()) {
            (Some(arm), None) => arm[1],
            _ => panic!("{method} has not one arm for {name}"),
        }
    }

    #[test]
    fn names_and_numbers_are_the_librarys() {
        let names = Refusal::ALL.map(|refusal| format!("{refusal:?}"));
        let ours = names.iter().zip(Refusal::ALL);
        let ours = ours.map(|(name, refusal)| (&**name, refusal.number()));
        assert_eq!(ours.collect::<Vec<_>>(), numbers());
        for refusal in Refusal::ALL {
            assert_eq!(Refusal::of(refusal.number()), Err(refusal));
        }
        assert_eq!(Refusal::of(0), Ok(()));
    }

    #[test]
    fn words_are_the_librarys() {
        // As the library's `Refusal` is printed.
        assert!(SOURCE.contains(r#"write!(f, "{}, by {}", self.words(), self.caused_by())"#));
        for (refusal, (name, number)) in Refusal::ALL.into_iter().zip(numbers()) {
            let (words, cause) = (told("words", name), told("caused_by", name));
            assert_eq!((refusal.words(), refusal.caused_by()), (words, cause));
            let said = format!("refused {number}: {words}, by {cause}");
            assert_eq!(refusal.to_string(), said);
        }
    }

    #[test]
    #[should_panic(expected = "answered 99")]
    fn an_unknown_number_is_not_taken_for_another() {
        let _ = Refusal::of(99);
    }
}
