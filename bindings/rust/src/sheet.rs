//! The forms of a chart's sheet.

/// The form of a chart's sheet ([`chart_sheet`](crate::chart_sheet)).
///
/// ```
/// use padcheck::SheetForm;
///
/// assert_eq!([SheetForm::Card, SheetForm::Print, SheetForm::Json].map(SheetForm::number), [0, 1, 2]);
/// ```
#[derive(Clone, Copy, Debug, PartialEq, Eq, Hash, PartialOrd, Ord)]
pub enum SheetForm {
    /// The lines of the program card, for any lane count and accepted length.
    Card,
    /// The figures in columns: the three tallies side by side, the densities 16 to a line, holds and rolls.
    Print,
    /// The figures and note records as one JSON object on one line, which has neither blanks nor a newline.
    Json,
}

impl SheetForm {
    /// The number that the entry knows this form by.
    #[must_use]
    pub const fn number(self) -> usize {
        match self {
            Self::Card => 0,
            Self::Print => 1,
            Self::Json => 2,
        }
    }
}
