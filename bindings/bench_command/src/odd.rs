//! Measures whose rows do not divide 192, as they stand in note data. They are read and no doubt, but no editor writes them,
//! and a row that is lost or doubled makes one.

use std::fmt;

/// The places of a measure that an editor knows.
const PLACES: usize = 192;

/// The measures whose rows do not divide 192.
#[derive(Clone, Copy, Debug, PartialEq, Eq)]
pub struct Odd {
    /// The first of them.
    pub measure: usize,
    /// The line of its first row.
    pub line: usize,
    /// How many rows it has.
    pub rows: usize,
    /// How many such measures there are.
    pub count: usize,
}

impl Odd {
    /// The same, its line counted from another one on.
    pub fn below(self, first: usize) -> Self {
        let line = self.line + first;
        Self { line, ..self }
    }
}

impl fmt::Display for Odd {
    fn fmt(&self, f: &mut fmt::Formatter<'_>) -> fmt::Result {
        let Self {
            measure,
            line,
            rows,
            count,
        } = self;
        let such = if *count == 1 {
            "such measure"
        } else {
            "such measures"
        };
        write!(
            f,
            "measure {measure} on line {line} has {rows} rows, which do not divide 192, as where a row is lost or doubled; \
             {count} {such}"
        )
    }
}

/// Counts the rows of measures, one after the other.
#[derive(Debug, Default)]
pub struct OddMeasures {
    /// The measure that has not ended.
    measure: usize,
    /// How many rows it has so far, and the line of the first.
    rows: usize,
    line: usize,
    odd: Option<Odd>,
}

impl OddMeasures {
    /// A row on this line.
    pub fn row(&mut self, line: usize) {
        if self.rows == 0 {
            self.line = line;
        }
        self.rows += 1;
    }

    /// The end of a measure. One without rows is not odd.
    pub fn end_measure(&mut self) {
        let Self {
            measure,
            rows,
            line,
            ..
        } = *self;
        if rows > 0 && !PLACES.is_multiple_of(rows) {
            let count = 0;
            let odd = self.odd.get_or_insert(Odd {
                measure,
                line,
                rows,
                count,
            });
            odd.count += 1;
        }
        self.measure += 1;
        self.rows = 0;
    }

    /// Those that were found.
    pub fn found(&self) -> Option<Odd> {
        self.odd
    }
}

#[cfg(test)]
mod tests {
    use super::*;

    /// The odd ones of measures with so many rows, each on a line after the last measure's end.
    fn found(measures: &[usize]) -> Option<Odd> {
        let mut odd = OddMeasures::default();
        let mut line = 0;
        for &rows in measures {
            for _ in 0..rows {
                odd.row(line);
                line += 1;
            }
            odd.end_measure();
            line += 1;
        }
        odd.found()
    }

    #[test]
    fn divisors_of_192_are_not_odd() {
        for rows in 1..=500 {
            let is_odd = ![1, 2, 3, 4, 6, 8, 12, 16, 24, 32, 48, 64, 96, 192].contains(&rows);
            assert_eq!(found(&[rows]).is_some(), is_odd, "{rows}");
        }
        assert_eq!(found(&[0, 4, 0]), None);
    }

    #[test]
    fn the_first_is_named_and_all_are_counted() {
        let odd = found(&[4, 0, 7, 192, 5, 193]).unwrap().below(10);
        assert_eq!(
            odd.to_string(),
            "measure 2 on line 16 has 7 rows, which do not divide 192, as where a row is lost or doubled; 3 such measures"
        );
        let odd = found(&[5]).unwrap().below(1).to_string();
        assert!(
            odd.starts_with("measure 0 on line 1 has 5 rows") && odd.ends_with("; 1 such measure")
        );
    }
}
