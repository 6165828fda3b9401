//! Slices that are lent to a call, each as short as is accepted.

#![allow(dead_code, reason = "no test lends them to every call")]

use padcheck::{Figures, Lengths, Refusal, lent};

/// What is lent for writing, in the order in which a call looks at it.
#[derive(Clone, Copy, Debug)]
pub enum Lent {
    Text,
    Densities,
    Spacing,
    Beats,
    Work,
    Notes,
    Sheet,
}

impl Lent {
    /// How a call is refused where this is too short.
    pub fn refusal(self) -> Refusal {
        match self {
            Self::Text => Refusal::ShortText,
            Self::Densities | Self::Spacing => Refusal::ShortMeasures,
            Self::Beats => Refusal::ShortBeats,
            Self::Work => Refusal::ShortWork,
            Self::Notes => Refusal::ShortNotes,
            Self::Sheet => Refusal::ShortSheet,
        }
    }
}

/// The number with which each entry of a loan is marked.
const MARK: u8 = 7;

/// All that can be lent.
pub struct Loan {
    pub text: Vec<u8>,
    pub densities: Vec<u32>,
    pub spacing: Vec<u8>,
    pub beats: Vec<f32>,
    pub work: Vec<u16>,
    pub notes: Vec<u8>,
    pub sheet: Vec<u8>,
    pub figures: Figures,
}

impl Loan {
    /// Slices of these lengths, each entry of them this number. Of zeros no page is resident.
    pub fn of(lengths: Lengths, entry: u8) -> Self {
        Self {
            text: vec![entry; lengths.text],
            densities: vec![entry.into(); lengths.measures],
            spacing: vec![entry; lengths.measures],
            beats: vec![entry.into(); lengths.beats],
            work: vec![entry.into(); lengths.work],
            notes: vec![entry; lengths.notes],
            sheet: vec![entry; lengths.sheet],
            figures: [entry.into(); 32],
        }
    }

    /// Slices for a text of so many bytes, each entry of them marked.
    pub fn marked(len: usize, lanes: usize) -> Self {
        Self::of(Lengths::of(len, lanes), MARK)
    }

    /// Whether every entry is marked still.
    pub fn is_marked(&self) -> bool {
        let bytes = [&self.text, &self.spacing, &self.notes, &self.sheet];
        bytes.into_iter().flatten().all(|&byte| byte == MARK)
            && self.densities.iter().all(|&density| density == MARK.into())
            && self.beats.iter().all(|&beat| beat == MARK.into())
            && self.work.iter().all(|&work| work == MARK.into())
            && self.figures == [MARK.into(); 32]
    }

    /// Takes the last entry of a slice away.
    pub fn shorten(&mut self, lent: Lent) {
        match lent {
            Lent::Text => drop(self.text.pop()),
            Lent::Densities => drop(self.densities.pop()),
            Lent::Spacing => drop(self.spacing.pop()),
            Lent::Beats => drop(self.beats.pop()),
            Lent::Work => drop(self.work.pop()),
            Lent::Notes => drop(self.notes.pop()),
            Lent::Sheet => drop(self.sheet.pop()),
        }
    }

    /// Makes the main call.
    pub fn main_call(&mut self, data: &[u8], lanes: usize) -> Result<(), Refusal> {
        lent::minimize_chart_count_rows_notes(
            data,
            lanes,
            &mut self.text,
            &mut self.densities,
            &mut self.beats,
            &mut self.work,
            &mut self.notes,
            &mut self.figures,
        )
    }

    /// Asks for the dropped heads; the note slice is the list.
    pub fn dropped_holds(&mut self, data: &[u8], lanes: usize) -> Result<(), Refusal> {
        let (text, list) = (&mut self.text, &mut self.notes);
        lent::dropped_holds(data, lanes, text, list, &mut self.figures)
    }

    /// Asks for the sheet in the form of this number.
    pub fn chart_sheet(&mut self, data: &[u8], lanes: usize, form: usize) -> Result<(), Refusal> {
        lent::chart_sheet(
            data,
            lanes,
            form,
            &mut self.text,
            &mut self.densities,
            &mut self.spacing,
            &mut self.beats,
            &mut self.work,
            &mut self.notes,
            &mut self.sheet,
            &mut self.figures,
        )
    }
}
