//! Where the minimised rows of a chart stand in its measures.

use crate::memory::{NoMemory, room};
use std::ops::Range;

/// Where a row stands.
#[derive(Clone, Copy, Debug, PartialEq, Eq)]
pub struct Spot {
    /// Through the whole chart.
    pub row: usize,
    pub measure: usize,
    pub row_in_measure: usize,
}

/// The rows of each measure.
#[derive(Clone, Debug, Default, PartialEq, Eq)]
pub struct Measures {
    /// For each measure its first row, and behind them all the number of rows.
    starts: Vec<usize>,
}

impl Measures {
    /// Those of minimised text with so many measures. Each of its lines is a row or a `,`, and no row begins with that.
    pub fn of(text: &[u8], lanes: usize, count: usize) -> Result<Self, NoMemory> {
        let mut starts = room(count + 1)?;
        starts.push(0);
        let (mut place, mut rows) = (0, 0);
        while let Some(&byte) = text.get(place) {
            if byte == b',' {
                starts.push(rows);
                place += 2;
            } else {
                rows += 1;
                place += lanes + 1;
            }
        }
        starts.push(rows);
        Ok(Self { starts })
    }

    /// How many there are.
    pub fn count(&self) -> usize {
        self.starts.len() - 1
    }

    /// How many rows there are.
    pub fn row_count(&self) -> usize {
        self.starts[self.count()]
    }

    /// The rows of a measure; none where there is no such measure.
    pub fn rows(&self, measure: usize) -> Range<usize> {
        match self.starts.get(measure..measure + 2) {
            Some(&[start, end]) => start..end,
            _ => 0..0,
        }
    }

    /// Where the cells of a row begin in the minimised text: a line stands there for each row before it, and one of `,` for each
    /// measure that has ended.
    pub fn place_of_row(&self, row: usize, lanes: usize) -> usize {
        (lanes + 1) * row + 2 * self.of_row(row)
    }

    /// The measure that a row stands in.
    pub fn of_row(&self, row: usize) -> usize {
        self.starts.partition_point(|&start| start <= row) - 1
    }

    /// Where a row stands.
    pub fn spot(&self, row: usize) -> Spot {
        let measure = self.of_row(row);
        Spot {
            row,
            measure,
            row_in_measure: row - self.starts[measure],
        }
    }
}

#[cfg(test)]
mod tests {
    use super::*;

    #[test]
    fn a_row_stands_in_the_measure_that_has_it() {
        let measures = Measures::of(b"1000\n0100\n,\n,\n0010\n,\n0001\n2000\n,\n", 4, 5).unwrap();
        assert_eq!((measures.count(), measures.row_count()), (5, 5));
        let rows = [0..2, 2..2, 2..3, 3..5, 5..5, 0..0];
        assert_eq!(
            [0, 1, 2, 3, 4, 5].map(|measure| measures.rows(measure)),
            rows
        );
        assert_eq!(
            [0, 1, 2, 3, 4].map(|row| measures.of_row(row)),
            [0, 0, 2, 3, 3]
        );
        assert_eq!(
            [0, 1, 2, 3, 4].map(|row| measures.place_of_row(row, 4)),
            [0, 5, 14, 21, 26]
        );
        let spot = measures.spot(4);
        assert_eq!((spot.row, spot.measure, spot.row_in_measure), (4, 3, 1));
    }

    #[test]
    fn an_empty_text_has_one_measure() {
        let measures = Measures::of(b"", 4, 1).unwrap();
        assert_eq!((measures.count(), measures.row_count()), (1, 0));
    }
}
