//! The calls over buffers that are kept from one chart to the next.

use crate::figures::{ArrowStats, Figures, count, place};
use crate::{
    DROPPED_BYTES, DroppedHeads, Lengths, NOTE_BYTES, Notes, Refusal, SheetForm, large_pages, lent,
};
use std::cell::Cell;
use std::mem;

/// Slices to lend, kept and grown as charts need them: reuse one for many charts, and a chart allocates only what those
/// before it did not need.
///
/// What a call answers is borrowed from the buffers and stands until the next call.
///
/// ```
/// use padcheck::{Buffers, Refusal};
///
/// let mut buffers = Buffers::new();
/// for (data, steps) in [(&b"1000\n0110\n"[..], 2), (b"0000\n", 0)] {
///     let chart = buffers.process_chart_kept(data, 4)?;
///     assert_eq!(chart.text, data);
///     assert_eq!(chart.stats.total_steps, steps);
///     assert_eq!(chart.densities, [steps]);
/// }
/// # Ok::<(), Refusal>(())
/// ```
#[derive(Clone, Debug, Default)]
pub struct Buffers {
    text: Vec<u8>,
    densities: Vec<u32>,
    spacing: Vec<u8>,
    beats: Vec<f32>,
    work: Vec<u16>,
    pub(crate) notes: Vec<u8>,
    sheet: Vec<u8>,
    figures: Figures,
}

/// What the main call answers.
#[derive(Clone, Debug)]
pub struct Chart<'a> {
    /// Minimised text.
    pub text: &'a [u8],
    /// The tally, corrected over the minimised text read back.
    pub stats: ArrowStats,
    /// For each measure how many of its minimised rows have a 1, 2 or 4.
    pub densities: &'a [u32],
    /// One beat a minimised row.
    pub beats: &'a [f32],
    /// The notes, in rising row, then column.
    pub notes: Notes<'a>,
    /// Where the last object row stands.
    pub last: LastBeat,
}

/// What the kept-row call answers.
#[derive(Clone, Debug, PartialEq)]
pub struct KeptChart<'a> {
    /// Minimised text.
    pub text: &'a [u8],
    /// The tally, which is that of the main call.
    pub stats: ArrowStats,
    /// For each measure how many of its minimised rows have a 1, 2 or 4.
    pub densities: &'a [u32],
    /// How many minimised rows there are.
    pub rows: usize,
}

/// Minimised rows with their beats.
#[derive(Clone, Debug, PartialEq)]
pub struct TimingRows<'a> {
    /// The rows, L bytes each, back to back.
    pub rows: &'a [u8],
    /// One beat a row.
    pub beats: &'a [f32],
    /// Whether any row has a 2 or 4.
    pub has_heads: bool,
}

/// The heads that come to nothing.
#[derive(Clone, Debug)]
pub struct DroppedHolds<'a> {
    /// Minimised text, of which each line is a row or a `,`: the rows that the heads are told by stand there.
    pub text: &'a [u8],
    /// How many measures there are.
    pub measures: usize,
    /// How many minimised rows there are.
    pub rows: usize,
    /// The heads, in rising row, then column.
    pub heads: DroppedHeads<'a>,
}

/// Where the last object row stands.
#[derive(Clone, Copy, Debug, PartialEq)]
pub struct LastBeat {
    /// In beats.
    pub beat: f64,
    /// In 48ths of a beat; `beat` is this number divided by 48.
    pub in_48ths: u64,
}

impl LastBeat {
    pub(crate) fn from_figures(figures: &Figures) -> Self {
        Self {
            beat: f64::from_bits(figures[place::LAST_BEAT]),
            in_48ths: figures[place::LAST_BEAT_48THS],
        }
    }
}

/// The first `len` elements of a buffer. One that is shorter gives way to a new one, at least twice as long: what it
/// had is not copied, and `vec!` asks the allocator for zeros instead of writing them.
fn part<T: Clone + Default>(buffer: &mut Vec<T>, len: usize) -> &mut [T] {
    if buffer.len() < len {
        let grown = len.max(2 * buffer.len());
        *buffer = Vec::new();
        *buffer = vec![T::default(); grown];
        large_pages::advise(buffer);
    }
    &mut buffer[..len]
}

thread_local! {
    /// What the calls that allocate their answers lend besides, kept by each thread for its next call.
    static KEPT: Cell<Buffers> = const { Cell::new(Buffers::EMPTY) };
}

/// Makes a call with the buffers that this thread has kept, and keeps them again.
pub(crate) fn with_kept<T>(call: impl FnOnce(&mut Buffers) -> T) -> T {
    // While a thread ends it may have none any more: then they are new, and let go of.
    let mut buffers = KEPT.try_with(Cell::take).unwrap_or_default();
    let answer = call(&mut buffers);
    let _ = KEPT.try_with(|kept| kept.set(buffers));
    answer
}

/// Lets go of what this thread has kept for the calls that allocate their answers.
///
/// An entry is lent the most that a text of that length could need: some 12 bytes for each byte of the text in the main
/// call ([`Lengths`]). Of fresh slices that is address space: memory takes what an answer was written to. The functions of
/// the crate's root and of [`stats`](crate::stats) keep these slices from call to call, each thread its own, since a call
/// over fresh ones takes longer. They are at most twice as long as the thread's longest text needed, and go with the thread.
///
/// ```
/// let densities = padcheck::measure_densities(b"1000\n", 4)?;
/// padcheck::release_buffers();
/// assert_eq!(padcheck::measure_densities(b"1000\n", 4)?, densities);
/// # Ok::<(), padcheck::Refusal>(())
/// ```
pub fn release_buffers() {
    with_kept(|buffers| *buffers = Buffers::EMPTY);
}

/// A buffer itself, cut to an answer's length.
fn taken<T>(buffer: &mut Vec<T>, len: usize) -> Vec<T> {
    let mut answer = mem::take(buffer);
    answer.truncate(len);
    answer
}

impl Buffers {
    const EMPTY: Self = Self {
        text: Vec::new(),
        densities: Vec::new(),
        spacing: Vec::new(),
        beats: Vec::new(),
        work: Vec::new(),
        notes: Vec::new(),
        sheet: Vec::new(),
        figures: [0; 32],
    };

    /// Empty buffers; the first call allocates.
    #[must_use]
    pub const fn new() -> Self {
        Self::EMPTY
    }

    /// The text of the last call, taken out of the buffers instead of copied.
    pub(crate) fn take_text(&mut self) -> Vec<u8> {
        taken(&mut self.text, count(&self.figures, place::TEXT_BYTES))
    }

    /// The beats of the last call, taken out of the buffers instead of copied.
    pub(crate) fn take_beats(&mut self) -> Vec<f32> {
        taken(&mut self.beats, count(&self.figures, place::ROWS))
    }

    /// The sheet of the last call, taken out of the buffers instead of copied. What it leaves of the slice, most of it, goes
    /// back to the allocator.
    pub(crate) fn take_sheet(&mut self) -> Vec<u8> {
        let mut sheet = taken(&mut self.sheet, count(&self.figures, place::SHEET_BYTES));
        sheet.shrink_to_fit();
        sheet
    }

    /// The main call: minimised text, tally, densities, row beats, notes and last beat.
    ///
    /// ```
    /// use padcheck::{Buffers, ChartNoteType};
    ///
    /// let mut buffers = Buffers::new();
    /// let chart = buffers.minimize_chart_count_rows_notes(b"2000\n0000\n3000\n0000\n", 4)?;
    /// assert_eq!(chart.beats, [0.0, 2.0]);
    /// let hold = chart.notes.clone().next().unwrap();
    /// assert_eq!((hold.note_type, hold.tail_row_index), (ChartNoteType::Hold, Some(1)));
    /// # Ok::<(), padcheck::Refusal>(())
    /// ```
    ///
    /// # Errors
    ///
    /// [`Refusal::OtherLanes`] or [`Refusal::LongText`].
    pub fn minimize_chart_count_rows_notes(
        &mut self,
        data: &[u8],
        lanes: usize,
    ) -> Result<Chart<'_>, Refusal> {
        let lengths = Lengths::of(data.len(), lanes);
        lent::minimize_chart_count_rows_notes(
            data,
            lanes,
            part(&mut self.text, lengths.text),
            part(&mut self.densities, lengths.measures),
            part(&mut self.beats, lengths.beats),
            part(&mut self.work, lengths.work),
            part(&mut self.notes, lengths.notes),
            &mut self.figures,
        )?;
        Ok(Chart {
            text: &self.text[..count(&self.figures, place::TEXT_BYTES)],
            stats: ArrowStats::from_figures(&self.figures),
            densities: &self.densities[..count(&self.figures, place::MEASURES)],
            beats: &self.beats[..count(&self.figures, place::ROWS)],
            notes: Notes::new(&self.notes[..NOTE_BYTES * count(&self.figures, place::NOTES)]),
            last: LastBeat::from_figures(&self.figures),
        })
    }

    /// The kept-row call: minimised text, tally and densities.
    ///
    /// # Errors
    ///
    /// [`Refusal::OtherLanes`] or [`Refusal::LongText`].
    pub fn process_chart_kept(
        &mut self,
        data: &[u8],
        lanes: usize,
    ) -> Result<KeptChart<'_>, Refusal> {
        let lengths = Lengths::of(data.len(), lanes);
        lent::process_chart_kept(
            data,
            lanes,
            part(&mut self.text, lengths.text),
            part(&mut self.densities, lengths.measures),
            part(&mut self.work, lengths.work),
            &mut self.figures,
        )?;
        Ok(KeptChart {
            text: &self.text[..count(&self.figures, place::TEXT_BYTES)],
            stats: ArrowStats::from_figures(&self.figures),
            densities: &self.densities[..count(&self.figures, place::MEASURES)],
            rows: count(&self.figures, place::ROWS),
        })
    }

    /// Minimised rows, their beats, and whether any has a 2 or 4.
    ///
    /// # Errors
    ///
    /// [`Refusal::OtherLanes`] or [`Refusal::LongText`].
    pub fn minimize_timing_rows(
        &mut self,
        data: &[u8],
        lanes: usize,
    ) -> Result<TimingRows<'_>, Refusal> {
        let lengths = Lengths::of(data.len(), lanes);
        lent::minimize_timing_rows(
            data,
            lanes,
            part(&mut self.text, lengths.text),
            part(&mut self.beats, lengths.beats),
            &mut self.figures,
        )?;
        Ok(TimingRows {
            rows: &self.text[..count(&self.figures, place::TEXT_BYTES)],
            beats: &self.beats[..count(&self.figures, place::ROWS)],
            has_heads: self.figures[place::HAS_HEADS] == 1,
        })
    }

    /// For each measure how many of its minimised rows have a 1, 2 or 4.
    ///
    /// # Errors
    ///
    /// [`Refusal::OtherLanes`] or [`Refusal::LongText`].
    pub fn measure_densities(&mut self, data: &[u8], lanes: usize) -> Result<&[u32], Refusal> {
        let len = Lengths::of(data.len(), lanes).measures;
        lent::measure_densities(
            data,
            lanes,
            part(&mut self.densities, len),
            &mut self.figures,
        )?;
        Ok(&self.densities[..count(&self.figures, place::MEASURES)])
    }

    /// For each measure 1 where it has no rows or each minimised row has a 1, 2 or 4, else 0.
    ///
    /// # Errors
    ///
    /// [`Refusal::OtherLanes`] or [`Refusal::LongText`].
    pub fn equally_spaced(&mut self, data: &[u8], lanes: usize) -> Result<&[u8], Refusal> {
        let len = Lengths::of(data.len(), lanes).measures;
        lent::equally_spaced(data, lanes, part(&mut self.spacing, len), &mut self.figures)?;
        Ok(&self.spacing[..count(&self.figures, place::MEASURES)])
    }

    /// The judged tally of minimised text, every row judged; no flags are lent.
    ///
    /// # Errors
    ///
    /// [`Refusal::OtherLanes`] or [`Refusal::LongText`].
    pub fn process_rows_judgable(
        &mut self,
        data: &[u8],
        lanes: usize,
    ) -> Result<ArrowStats, Refusal> {
        let len = Lengths::of(data.len(), lanes).work;
        lent::process_rows_judgable(data, lanes, part(&mut self.work, len), &mut self.figures)?;
        Ok(ArrowStats::from_figures(&self.figures))
    }

    /// The judged tally of minimised text with one flag a row: 0 unjudged, else judged. A row past the flags is unjudged,
    /// so without flags every row is: [`Buffers::process_rows_judgable`] judges every row.
    ///
    /// # Errors
    ///
    /// [`Refusal::OtherLanes`] or [`Refusal::LongText`].
    pub fn process_timing_rows(
        &mut self,
        data: &[u8],
        lanes: usize,
        flags: &[u8],
    ) -> Result<ArrowStats, Refusal> {
        let len = Lengths::of(data.len(), lanes).work;
        lent::process_timing_rows(
            data,
            lanes,
            flags,
            part(&mut self.work, len),
            &mut self.figures,
        )?;
        Ok(ArrowStats::from_figures(&self.figures))
    }

    /// The holds and rolls that came to nothing: each 2 or 4 of the minimised rows that the main call has no note of, with what
    /// dropped it.
    ///
    /// ```
    /// use padcheck::{Buffers, DropCause, DroppedHead};
    ///
    /// let mut buffers = Buffers::new();
    /// let dropped = buffers.dropped_holds(b"2004\n0100\n1000\n", 4)?;
    /// let want = [
    ///     DroppedHead { row: 0, column: 0, cause: DropCause::OtherCell(2) },
    ///     DroppedHead { row: 0, column: 3, cause: DropCause::ChartEnd },
    /// ];
    /// assert!(dropped.heads.eq(want));
    /// assert_eq!((dropped.measures, dropped.rows), (1, 3));
    /// # Ok::<(), padcheck::Refusal>(())
    /// ```
    ///
    /// # Errors
    ///
    /// [`Refusal::OtherLanes`] or [`Refusal::LongText`].
    pub fn dropped_holds(
        &mut self,
        data: &[u8],
        lanes: usize,
    ) -> Result<DroppedHolds<'_>, Refusal> {
        let lengths = Lengths::of(data.len(), lanes);
        lent::dropped_holds(
            data,
            lanes,
            part(&mut self.text, lengths.text),
            part(&mut self.notes, lengths.notes),
            &mut self.figures,
        )?;
        let records = &self.notes[..DROPPED_BYTES * count(&self.figures, place::NOTES)];
        Ok(DroppedHolds {
            text: &self.text[..count(&self.figures, place::TEXT_BYTES)],
            measures: count(&self.figures, place::MEASURES),
            rows: count(&self.figures, place::ROWS),
            heads: DroppedHeads::new(records),
        })
    }

    /// From notes back to a chart: minimised text of note records, ten bytes each, with a row count for each measure. Reading it gives these
    /// records and counts.
    ///
    /// ```
    /// use padcheck::{Buffers, Refusal};
    ///
    /// let mut buffers = Buffers::new();
    /// let chart = buffers.minimize_chart_count_rows_notes(b"2000\n0000\n3000\n0000\n,\n0100\n", 4)?;
    /// let records = chart.notes.records().to_vec();
    /// assert_eq!(buffers.notes_to_chart(&records, 4, &[2, 1])?, b"2000\n3000\n,\n0100\n");
    /// // The tail stands on the second row.
    /// assert_eq!(buffers.notes_to_chart(&records, 4, &[1]), Err(Refusal::OtherCounts));
    /// # Ok::<(), Refusal>(())
    /// ```
    ///
    /// # Errors
    ///
    /// [`Refusal::OtherLanes`], [`Refusal::LongText`] of the text to be written, [`Refusal::NoRecord`], [`Refusal::BadRecord`],
    /// [`Refusal::OutOfOrder`], [`Refusal::NotesMeet`] or [`Refusal::OtherCounts`].
    pub fn notes_to_chart(
        &mut self,
        records: &[u8],
        lanes: usize,
        counts: &[u32],
    ) -> Result<&[u8], Refusal> {
        let text = part(&mut self.text, Lengths::written(lanes, counts));
        lent::notes_to_chart(records, lanes, counts, text, &mut self.figures)?;
        Ok(&self.text[..count(&self.figures, place::TEXT_BYTES)])
    }

    /// The sheet of a chart, in bytes of ASCII. The slice that it is written to has 42 bytes for each byte of the text, of which
    /// memory takes what the sheet has, and stays with the buffers.
    ///
    /// ```
    /// use padcheck::{Buffers, SheetForm};
    ///
    /// let mut buffers = Buffers::new();
    /// let sheet = buffers.chart_sheet(b"2000\n3000\n", 4, SheetForm::Card)?;
    /// assert!(sheet.ends_with(b"last 96\nm 0 1 0\nn 0 0 1 1\n"));
    /// # Ok::<(), padcheck::Refusal>(())
    /// ```
    ///
    /// # Errors
    ///
    /// [`Refusal::OtherLanes`] or [`Refusal::LongText`].
    pub fn chart_sheet(
        &mut self,
        data: &[u8],
        lanes: usize,
        form: SheetForm,
    ) -> Result<&[u8], Refusal> {
        let lengths = Lengths::of(data.len(), lanes);
        lent::chart_sheet(
            data,
            lanes,
            form.number(),
            part(&mut self.text, lengths.text),
            part(&mut self.densities, lengths.measures),
            part(&mut self.spacing, lengths.measures),
            part(&mut self.beats, lengths.beats),
            part(&mut self.work, lengths.work),
            part(&mut self.notes, lengths.notes),
            part(&mut self.sheet, lengths.sheet),
            &mut self.figures,
        )?;
        Ok(&self.sheet[..count(&self.figures, place::SHEET_BYTES)])
    }
}

#[cfg(test)]
mod tests {
    use super::*;

    #[test]
    fn a_buffer_grows_and_is_lent_in_part() {
        let mut buffer = vec![7_u8; 4];
        assert_eq!(part(&mut buffer, 3), [7; 3]);
        assert_eq!(part(&mut buffer, 5), [0; 5]);
        assert_eq!(buffer.len(), 8);
        assert_eq!(part(&mut buffer, 20).len(), 20);
    }

    #[test]
    fn what_a_thread_keeps_serves_calls_of_any_length() {
        let measure = "1000\n0100\n,\n";
        for measures in [1, 40, 2, 0, 41, 41, 3] {
            let text = measure.repeat(measures);
            let chart = crate::minimize_chart_count_rows_notes(text.as_bytes(), 4).unwrap();
            let densities = crate::measure_densities(text.as_bytes(), 4).unwrap();
            assert_eq!(chart.text, text.as_bytes());
            assert_eq!(chart.densities, densities);
            assert_eq!(densities[..measures], vec![2; measures]);
            assert_eq!(chart.beats.len(), 2 * measures);
            assert_eq!(chart.notes.len(), 2 * measures);
            assert_eq!(chart.stats.total_steps, 2 * measures as u32);
        }
        let kept = with_kept(|buffers| (buffers.notes.len(), buffers.text.len()));
        // The note slice is kept, the answer's text was handed out.
        assert!(kept.0 >= Lengths::of(41 * measure.len(), 4).notes);
        assert_eq!(kept.1, 0);
        release_buffers();
        assert_eq!(with_kept(|buffers| buffers.notes.capacity()), 0);
    }
}
