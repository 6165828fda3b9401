//! What the program card prints: the card of a text read with 4 lanes.

use crate::sheet::{ChartFigures, Form};

/// The longest text the program reads.
pub const CARD_LEN: usize = 4095;

#[must_use]
pub fn card(data: &[u8]) -> String {
    if data.len() > CARD_LEN {
        return String::from("refused 1\n");
    }
    ChartFigures::of(data, 4).sheet(Form::Card)
}
