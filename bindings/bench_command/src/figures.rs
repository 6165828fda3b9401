//! The library's figures of a chart, each measure's by itself, for the comparison of two charts.

use crate::left::Left;
use crate::measures::Measures;
use crate::slices::Slices;
use padcheck::ParsedChartNote;
use std::ops::Range;

/// The fields of a tally.
const FIELDS: [&str; 17] = [
    "total_arrows",
    "left",
    "down",
    "up",
    "right",
    "total_steps",
    "jumps",
    "hands",
    "mines",
    "holds",
    "rolls",
    "lifts",
    "fakes",
    "holding",
    "keysounds",
    "up_left",
    "up_right",
];

/// The figures of a chart.
pub struct Figures {
    /// The answers of the main call, and the spacing.
    chart: Slices,
    /// The minimised rows of each measure.
    measures: Measures,
    /// The lane count.
    lanes: usize,
}

impl Figures {
    /// The figures of note data.
    pub fn of(data: &[u8], lanes: usize) -> Result<Self, Left> {
        let mut chart = Slices::default();
        chart.main_call(data, lanes)?;
        chart.equally_spaced(data, lanes)?;
        let measures = chart.measures(lanes)?;
        Ok(Self {
            chart,
            measures,
            lanes,
        })
    }

    /// How many measures there are.
    pub fn measures(&self) -> usize {
        self.measures.count()
    }

    /// How many minimised rows there are.
    pub fn row_count(&self) -> usize {
        self.measures.row_count()
    }

    /// The lane count.
    pub fn lanes(&self) -> usize {
        self.lanes
    }

    /// The rows of a measure; none where there is no such measure.
    pub fn range(&self, measure: usize) -> Range<usize> {
        self.measures.rows(measure)
    }

    /// The cells of a row. In the text a line of two bytes ends each measure before its own.
    pub fn row(&self, row: usize) -> &[u8] {
        let place = row * (self.lanes + 1) + 2 * self.measures.of_row(row);
        &self.chart.text()[place..][..self.lanes]
    }

    /// The rows of a measure, each by its cells.
    pub fn rows(&self, measure: usize) -> impl Iterator<Item = &[u8]> {
        self.range(measure).map(|row| self.row(row))
    }

    /// The row beats of a measure, by their bits.
    pub fn beats(&self, measure: usize) -> impl Iterator<Item = u32> {
        let beats = &self.chart.beats()[self.range(measure)];
        beats.iter().map(|beat| beat.to_bits())
    }

    /// The density of a measure.
    pub fn density(&self, measure: usize) -> Option<u32> {
        self.chart.densities().get(measure).copied()
    }

    /// Whether a measure is equally spaced.
    pub fn spacing(&self, measure: usize) -> Option<bool> {
        self.chart.spacing().get(measure).map(|&spaced| spaced == 1)
    }

    /// The fields of the main tally, each with its count.
    pub fn tally(&self) -> impl Iterator<Item = (&'static str, u64)> {
        FIELDS.into_iter().zip(self.chart.tally().iter().copied())
    }

    /// The notes.
    pub fn notes(&self) -> impl Iterator<Item = ParsedChartNote> {
        self.chart.notes()
    }

    /// The last beat, by its bits.
    pub fn last_bits(&self) -> u64 {
        self.chart.last_bits()
    }

    /// The last beat in 48ths.
    pub fn last_in_48ths(&self) -> u64 {
        self.chart.last_in_48ths()
    }
}

#[cfg(test)]
mod tests {
    use super::*;
    use crate::lines::{LineKind, MeasureLines, line_kind};
    use padcheck::ArrowStats;

    #[test]
    fn each_measure_has_its_own_rows() {
        let text = b"1000\n0000\n0100\n0000\n,\n,\n00x0\r\n100\r\n2;,2\n3003\n";
        let figures = Figures::of(text, 4).unwrap();
        assert_eq!((figures.measures(), figures.row_count()), (3, 5));
        assert_eq!(
            [0, 1, 2, 3].map(|m| figures.range(m)),
            [0..2, 2..2, 2..5, 0..0]
        );
        let rows: Vec<_> = figures.rows(2).collect();
        assert_eq!(rows, [&b"00x0"[..], b"2;,2", b"3003"]);
        assert_eq!(
            figures.beats(0).collect::<Vec<_>>(),
            [0.0f32, 2.0].map(f32::to_bits)
        );
        assert_eq!(
            [0, 1, 2, 3].map(|m| figures.density(m)),
            [Some(2), Some(0), Some(1), None]
        );
        assert_eq!(figures.spacing(1), Some(true));
    }

    #[test]
    fn the_fields_are_the_tallys() {
        let figures = Figures::of(b"2K00\n1000\n0M00\nK0kK\n", 4).unwrap();
        let counts: Vec<_> = figures.tally().filter(|(_, count)| *count != 0).collect();
        let steps = [("total_arrows", 1), ("left", 1), ("total_steps", 2)];
        assert_eq!(
            counts,
            [&steps[..], &[("mines", 1), ("keysounds", 3)]].concat()
        );
        let named = figures.tally().map(|(name, _)| format!("{name}: 0"));
        let fields = named.collect::<Vec<_>>().join(", ");
        let tally = format!("{:?}", ArrowStats::default());
        assert_eq!(tally, format!("ArrowStats {{ {fields} }}"));
    }

    #[test]
    fn an_empty_text_has_one_measure() {
        let figures = Figures::of(b"", 5).unwrap();
        assert_eq!(
            (figures.measures(), figures.row_count(), figures.lanes()),
            (1, 0, 5)
        );
    }

    /// Every text of five of these words: measures, rows and beats agree with the library's, and a measure has
    /// minimised rows where it has lines that are rows.
    #[test]
    fn measures_of_short_texts_are_the_librarys() {
        const WORDS: [&str; 8] = [",", ";", "\n", "1000", "00", "/", " ", "\r"];
        for number in 0..8usize.pow(5) {
            let words = (0..5).map(|place| WORDS[number / 8usize.pow(place) % 8]);
            let text: String = words.collect();
            let figures = Figures::of(text.as_bytes(), 4).unwrap();
            assert_eq!(figures.measures(), figures.chart.densities().len());
            assert_eq!(figures.row_count(), figures.chart.beats().len());
            let parts = MeasureLines::of(text.as_bytes(), 4).unwrap().measures;
            assert_eq!(figures.measures(), parts.len(), "{text:?}");
            for (measure, part) in parts.into_iter().enumerate() {
                let rows = part.lines().any(|line| line_kind(line, 4) == LineKind::Row);
                assert_eq!(rows, !figures.range(measure).is_empty(), "{text:?}");
            }
        }
    }
}
