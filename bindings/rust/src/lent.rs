//! The entries as they are, over slices that the caller lends: nothing is allocated here.
//!
//! [`Lengths`](crate::Lengths) has the lengths that suffice. After an accepted call every entry past the answer in a slice is 0, the
//! work slice is 0 throughout, and a place of the figures that the call does not answer is 0. A refused call has
//! written nothing.
//!
//! ```
//! use padcheck::{Lengths, Refusal, lent, place};
//!
//! let data = b"1000\n0000\n0100\n0000\n,\n0011\n";
//! let mut densities = vec![0; Lengths::of(data.len(), 4).measures];
//! let mut figures = [0; 32];
//! lent::measure_densities(data, 4, &mut densities, &mut figures)?;
//! assert_eq!(densities[..figures[place::MEASURES] as usize], [2, 1]);
//!
//! let short = lent::measure_densities(data, 4, &mut densities[1..], &mut figures);
//! assert_eq!(short, Err(Refusal::ShortMeasures));
//! # Ok::<(), Refusal>(())
//! ```

use crate::{Figures, Refusal};

/// The table of the calls. Of each it has the words, the name, which is the entry's without `padcheck_`, and by name and type what the entry is
/// lent, in its order. From these follow the entry's declaration, which is that of `include/padcheck.h`, and a safe function over it.
macro_rules! calls {
    ($($(#[$said:meta])* pub fn $name:ident($($lent:tt)*);)*) => {
        $(call! { ($(#[$said])* $name($($lent)*)) [] [] $($lent)* })*
    };
}

/// One call. What it is lent is read from the left, each to how it is declared and to what is handed over for it; then stands the function.
macro_rules! call {
    ($call:tt [$($declared:tt)*] [$($handed:tt)*] $lent:ident: &[$element:ty] $(, $($rest:tt)*)?) => {
        call! {
            $call
            [$($declared)* $lent: *const $element, _: usize,]
            [$($handed)* $lent.as_ptr(), $lent.len(),]
            $($($rest)*)?
        }
    };
    ($call:tt [$($declared:tt)*] [$($handed:tt)*] $lent:ident: &mut [$element:ty] $(, $($rest:tt)*)?) => {
        call! {
            $call
            [$($declared)* $lent: *mut $element, _: usize,]
            [$($handed)* $lent.as_mut_ptr(), $lent.len(),]
            $($($rest)*)?
        }
    };
    ($call:tt [$($declared:tt)*] [$($handed:tt)*] $lent:ident: &mut $numbers:ty $(, $($rest:tt)*)?) => {
        call! {
            $call
            [$($declared)* $lent: *mut $numbers,]
            [$($handed)* $lent,]
            $($($rest)*)?
        }
    };
    ($call:tt [$($declared:tt)*] [$($handed:tt)*] $lent:ident: usize $(, $($rest:tt)*)?) => {
        call! {
            $call
            [$($declared)* $lent: usize,]
            [$($handed)* $lent,]
            $($($rest)*)?
        }
    };
    (($(#[$said:meta])* $name:ident($($lent:tt)*)) [$($declared:tt)*] [$($handed:tt)*]) => {
        $(#[$said])*
        #[allow(clippy::too_many_arguments, reason = "the entry is lent these")]
        pub fn $name($($lent)*) -> Result<(), Refusal> {
            unsafe extern "C" {
                #[link_name = concat!("padcheck_", stringify!($name))]
                fn entry($($declared)*) -> u32;
            }
            // A pointer goes with the length of its slice, and what is answered in numbers has the size that the entry names.
            Refusal::of(unsafe { entry($($handed)*) })
        }
    };
}

calls! {
    /// The main call: minimised text, densities, row beats, note records, last beat, and the tally corrected over the
    /// minimised text read back.
    ///
    /// # Errors
    ///
    /// Refusals 12, 1 to 6.
    pub fn minimize_chart_count_rows_notes(
        data: &[u8],
        lanes: usize,
        text: &mut [u8],
        densities: &mut [u32],
        beats: &mut [f32],
        work: &mut [u16],
        notes: &mut [u8],
        figures: &mut Figures,
    );

    /// The kept-row call: minimised text, densities, and the tally, which is that of the main call.
    ///
    /// # Errors
    ///
    /// Refusals 12, 1, 2, 3 and 5.
    pub fn process_chart_kept(
        data: &[u8],
        lanes: usize,
        text: &mut [u8],
        densities: &mut [u32],
        work: &mut [u16],
        figures: &mut Figures,
    );

    /// The minimised rows, L bytes each and back to back in the text slice, their beats, and whether any has a 2 or 4.
    ///
    /// # Errors
    ///
    /// Refusals 12, 1, 2 and 4.
    pub fn minimize_timing_rows(
        data: &[u8],
        lanes: usize,
        text: &mut [u8],
        beats: &mut [f32],
        figures: &mut Figures,
    );

    /// For each measure how many of its minimised rows have a 1, 2 or 4.
    ///
    /// # Errors
    ///
    /// Refusals 12, 1 and 3.
    pub fn measure_densities(
        data: &[u8],
        lanes: usize,
        densities: &mut [u32],
        figures: &mut Figures,
    );

    /// For each measure 1 where it has no rows or each minimised row has a 1, 2 or 4, else 0.
    ///
    /// # Errors
    ///
    /// Refusals 12, 1 and 3.
    pub fn equally_spaced(data: &[u8], lanes: usize, spacing: &mut [u8], figures: &mut Figures);

    /// The last object row's beat, by its bits and in 48ths.
    ///
    /// # Errors
    ///
    /// Refusals 12 and 1.
    pub fn chart_last_beat(data: &[u8], lanes: usize, figures: &mut Figures);

    /// The judged tally of minimised text, every row judged; no flags are lent.
    ///
    /// # Errors
    ///
    /// Refusals 12, 1 and 5.
    pub fn process_rows_judgable(
        data: &[u8],
        lanes: usize,
        work: &mut [u16],
        figures: &mut Figures,
    );

    /// The judged tally of minimised text with one flag a row: 0 unjudged, else judged. A row past the flags is unjudged,
    /// so without flags every row is: [`process_rows_judgable`] judges every row.
    ///
    /// # Errors
    ///
    /// Refusals 12, 1 and 5.
    pub fn process_timing_rows(
        data: &[u8],
        lanes: usize,
        flags: &[u8],
        work: &mut [u16],
        figures: &mut Figures,
    );

    /// The heads that come to nothing: minimised text, and for each 2 or 4 of its rows that has no note a record of
    /// [`DROPPED_BYTES`](crate::DROPPED_BYTES) in `list`, their number at [`place::NOTES`](crate::place::NOTES).
    /// [`DroppedHeads::new`](crate::DroppedHeads::new) reads them.
    ///
    /// # Errors
    ///
    /// Refusals 12, 1, 2 and 6; 6 is of the list, which has the length of the notes.
    pub fn dropped_holds(
        data: &[u8],
        lanes: usize,
        text: &mut [u8],
        list: &mut [u8],
        figures: &mut Figures,
    );

    /// From notes back to a chart: minimised text of note records with a row count for each measure.
    ///
    /// # Errors
    ///
    /// Refusals 12, 1 of the text to be written, 7, 8, 13, 14, 15, and 2, which asks for no byte more than that text has
    /// ([`Lengths::written`](crate::Lengths::written)).
    pub fn notes_to_chart(
        records: &[u8],
        lanes: usize,
        counts: &[u32],
        text: &mut [u8],
        figures: &mut Figures,
    );

    /// Note record number `index`: row, tail (4,294,967,295 for none), column, kind.
    ///
    /// # Errors
    ///
    /// Refusals 7 and 8.
    pub fn read_note(records: &[u8], index: usize, note: &mut [u64; 4]);

    /// A pad trace, records of [`PRESS_BYTES`](crate::PRESS_BYTES), set against note records: hits, strays and misses, then the hits of the
    /// columns 0 to 9 and the misses of each. [`PressCounts::from_presses`](crate::PressCounts::from_presses) reads them.
    ///
    /// # Errors
    ///
    /// Refusals 7, 8, 13 and 16.
    pub fn press_trace(records: &[u8], trace: &[u8], presses: &mut [u64; 23]);

    /// The sheet of a chart in the form of this number ([`SheetForm::number`](crate::SheetForm::number)). Text, densities, beats, work, notes
    /// and figures are left as the main call leaves them, the spacing as [`equally_spaced`] does; the bytes of the sheet stand at
    /// [`place::SHEET_BYTES`](crate::place::SHEET_BYTES).
    ///
    /// # Errors
    ///
    /// Refusals 12, 1 to 6, 3 for the densities before 3 for the spacing, then 19 and 20.
    pub fn chart_sheet(
        data: &[u8],
        lanes: usize,
        form: usize,
        text: &mut [u8],
        densities: &mut [u32],
        spacing: &mut [u8],
        beats: &mut [f32],
        work: &mut [u16],
        notes: &mut [u8],
        sheet: &mut [u8],
        figures: &mut Figures,
    );

    /// Chart number `k` of an SM file, counted from 0: its lane count, where its note data begins in the file, how long that is.
    ///
    /// # Errors
    ///
    /// Refusals 1, 11, 9 and 10, checked in this order.
    pub fn sm_chart(file: &[u8], k: usize, chart: &mut [u64; 3]);
}
