//! What the library is lent, kept from one chart to the next. Each slice is as long as the longest chart so far needs.

use crate::left::Left;
use crate::measures::Measures;
use crate::memory::{NoMemory, part, room};
use padcheck::{Figures, Lengths, NOTE_BYTES, ParsedChartNote, SheetForm, lent, place, read_note};

/// The slices that are lent to a call, and after it its answers.
#[derive(Default)]
pub struct Slices {
    text: Vec<u8>,
    densities: Vec<u32>,
    spacing: Vec<u8>,
    beats: Vec<f32>,
    work: Vec<u16>,
    notes: Vec<u8>,
    sheet: Vec<u8>,
    figures: Figures,
}

impl Slices {
    /// Makes the sheet of a chart, and the figures of the main call.
    pub fn make_sheet(&mut self, data: &[u8], lanes: usize, form: SheetForm) -> Result<(), Left> {
        let lengths = Lengths::of(data.len(), lanes);
        lent::chart_sheet(
            data,
            lanes,
            form.number(),
            part(&mut self.text, lengths.text)?,
            part(&mut self.densities, lengths.measures)?,
            part(&mut self.spacing, lengths.measures)?,
            part(&mut self.beats, lengths.beats)?,
            part(&mut self.work, lengths.work)?,
            part(&mut self.notes, lengths.notes)?,
            part(&mut self.sheet, lengths.sheet)?,
            &mut self.figures,
        )?;
        Ok(())
    }

    /// Makes the main call.
    pub fn main_call(&mut self, data: &[u8], lanes: usize) -> Result<(), Left> {
        let lengths = Lengths::of(data.len(), lanes);
        lent::minimize_chart_count_rows_notes(
            data,
            lanes,
            part(&mut self.text, lengths.text)?,
            part(&mut self.densities, lengths.measures)?,
            part(&mut self.beats, lengths.beats)?,
            part(&mut self.work, lengths.work)?,
            part(&mut self.notes, lengths.notes)?,
            &mut self.figures,
        )?;
        Ok(())
    }

    /// Writes the chart of note records with these row counts.
    pub fn notes_to_chart(
        &mut self,
        records: &[u8],
        lanes: usize,
        counts: &[u32],
    ) -> Result<(), Left> {
        let text = part(&mut self.text, Lengths::written(lanes, counts))?;
        lent::notes_to_chart(records, lanes, counts, text, &mut self.figures)?;
        Ok(())
    }

    /// Asks for the heads that come to nothing, whose records stand where those of the notes do, and for the beats of the rows.
    pub fn dropped_holds(&mut self, data: &[u8], lanes: usize) -> Result<(), Left> {
        let lengths = Lengths::of(data.len(), lanes);
        lent::minimize_timing_rows(
            data,
            lanes,
            part(&mut self.text, lengths.text)?,
            part(&mut self.beats, lengths.beats)?,
            &mut self.figures,
        )?;
        lent::dropped_holds(
            data,
            lanes,
            part(&mut self.text, lengths.text)?,
            part(&mut self.notes, lengths.notes)?,
            &mut self.figures,
        )?;
        Ok(())
    }

    /// Asks for the spacing of a chart, beside the figures of the main call.
    pub fn equally_spaced(&mut self, data: &[u8], lanes: usize) -> Result<(), Left> {
        let measures = Lengths::of(data.len(), lanes).measures;
        lent::equally_spaced(
            data,
            lanes,
            part(&mut self.spacing, measures)?,
            &mut Figures::default(),
        )?;
        Ok(())
    }

    /// The sheet.
    pub fn sheet(&self) -> &[u8] {
        &self.sheet[..self.count(place::SHEET_BYTES)]
    }

    /// Minimised text.
    pub fn text(&self) -> &[u8] {
        &self.text[..self.count(place::TEXT_BYTES)]
    }

    /// How many rows each measure of the minimised text has. No row of it begins with `,`.
    pub fn row_counts(&self, lanes: usize) -> Result<Vec<u32>, NoMemory> {
        let mut counts = room(self.measure_count())?;
        let (mut rows, mut rest) = (0, self.text());
        while let Some(first) = rest.first() {
            if *first == b',' {
                counts.push(rows);
                (rows, rest) = (0, &rest[2..]);
            } else {
                (rows, rest) = (rows + 1, &rest[lanes + 1..]);
            }
        }
        counts.push(rows);
        Ok(counts)
    }

    /// Where the rows of the minimised text stand in its measures.
    pub fn measures(&self, lanes: usize) -> Result<Measures, NoMemory> {
        Measures::of(self.text(), lanes, self.measure_count())
    }

    /// How many measures there are.
    pub fn measure_count(&self) -> usize {
        self.count(place::MEASURES)
    }

    /// The density of each measure.
    pub fn densities(&self) -> &[u32] {
        &self.densities[..self.count(place::MEASURES)]
    }

    /// For each measure 1 where it is equally spaced, else 0.
    pub fn spacing(&self) -> &[u8] {
        &self.spacing[..self.count(place::MEASURES)]
    }

    /// The beat of each minimised row.
    pub fn beats(&self) -> &[f32] {
        &self.beats[..self.count(place::ROWS)]
    }

    /// The note records, or those of the dropped heads, back to back.
    pub fn records(&self) -> &[u8] {
        &self.notes[..NOTE_BYTES * self.count(place::NOTES)]
    }

    /// The notes.
    pub fn notes(&self) -> impl Iterator<Item = ParsedChartNote> {
        let records = self.records();
        let notes = (0..records.len() / NOTE_BYTES).map(|number| read_note(records, number));
        notes.map(|note| note.expect("the library reads the records that it wrote"))
    }

    /// The counts of the main tally, in the order of its fields.
    pub fn tally(&self) -> &[u64] {
        &self.figures[place::TALLY..=place::UP_RIGHT]
    }

    /// The last beat, by its bits.
    pub fn last_bits(&self) -> u64 {
        self.figures[place::LAST_BEAT]
    }

    /// The last beat in 48ths.
    pub fn last_in_48ths(&self) -> u64 {
        self.figures[place::LAST_BEAT_48THS]
    }

    /// A count in the figures. It never passes the length of a slice, so it fits.
    fn count(&self, place: usize) -> usize {
        self.figures[place] as usize
    }
}

#[cfg(test)]
mod tests {
    use super::*;

    #[test]
    fn answers_are_those_of_the_last_chart() {
        let mut slices = Slices::default();
        for (data, notes, densities) in [
            (&b"1000\n0100\n,\n2000\n3000\n"[..], 3, &[2, 1][..]),
            (b"", 0, &[0]),
            (b"1000\n,\n", 1, &[1, 0]),
        ] {
            slices.main_call(data, 4).unwrap();
            slices.equally_spaced(data, 4).unwrap();
            assert_eq!(slices.text(), data);
            assert_eq!(slices.records().len(), notes * NOTE_BYTES);
            assert_eq!(slices.densities(), densities);
            assert_eq!(slices.spacing().len(), densities.len());
        }
        assert_eq!((slices.beats(), slices.last_in_48ths()), (&[0.0][..], 0));
    }

    #[test]
    fn rows_are_counted_by_measure_and_written_again() {
        let mut slices = Slices::default();
        for (data, counts) in [
            (&b"1000\n0100\n,\n,\n2000\n0000\n3000\n"[..], &[2, 0, 3][..]),
            (b"", &[0]),
            (b",\n", &[0, 0]),
            (b"0,00\n,\n;,00\n", &[1, 0]),
        ] {
            slices.main_call(data, 4).unwrap();
            assert_eq!(slices.row_counts(4).as_deref(), Ok(counts));
        }
        let data = b"1000\n0100\n,\n,\n2000\n0000\n3000\n";
        slices.main_call(data, 4).unwrap();
        let records = slices.records().to_vec();
        slices.notes_to_chart(&records, 4, &[2, 0, 3]).unwrap();
        assert_eq!(slices.text(), data);
    }

    #[test]
    fn dropped_heads_stand_beside_text_and_beats() {
        let mut slices = Slices::default();
        slices.main_call(&b"1000\n0100\n".repeat(9), 4).unwrap();
        let data = b",\n2000\n0000\n1040\n0000\n";
        slices.dropped_holds(data, 4).unwrap();
        assert_eq!(
            (slices.text(), slices.measure_count()),
            (&b",\n2000\n1040\n"[..], 2)
        );
        assert_eq!(slices.beats(), [4.0, 6.0]);
        let records = [
            [0, 0, 0, 0, 1, 0, 0, 0, 0, 1],
            [1, 0, 0, 0, 255, 255, 255, 255, 2, 2],
        ];
        assert_eq!(slices.records(), records.as_flattened());
    }

    #[test]
    fn the_sheet_slice_is_kept() {
        let mut slices = Slices::default();
        let long = b"1000\n0100\n0010\n".repeat(9);
        slices.make_sheet(&long, 4, SheetForm::Json).unwrap();
        let kept = slices.sheet.as_ptr();
        let short = b"2000\n3000\n";
        slices.make_sheet(short, 4, SheetForm::Card).unwrap();
        let lines = b"last 96\nm 0 1 0\nn 0 0 1 1\n";
        assert!(slices.sheet().ends_with(lines));
        assert_eq!(slices.sheet.as_ptr(), kept);
    }
}
