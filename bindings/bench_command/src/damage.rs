//! What the damage theorem says of two texts that differ only in lines of one measure, checked on the figures of both.

use crate::figures::Figures;
use padcheck::{ChartNoteType, ParsedChartNote};

/// What was found of one part of the theorem, in words: what is the same, or how it fails.
pub type Found = Result<String, String>;

fn same() -> Found {
    Ok(String::from("same"))
}

/// Two charts whose texts differ only in lines of measure `d`.
pub struct Damage<'a> {
    pub d: usize,
    pub old: &'a Figures,
    pub new: &'a Figures,
}

/// A 2 or 4 before measure d that is open where d begins.
#[derive(Debug, PartialEq)]
struct OpenHead {
    row: usize,
    column: usize,
    kind: ChartNoteType,
}

impl Damage<'_> {
    /// Each part of the theorem in its words, with what was found.
    pub fn parts(&self) -> [(&'static str, Found); 9] {
        [
            ("number of measures", self.same_count()),
            ("minimised rows of the other measures", self.same_rows()),
            (
                "row beats of the other measures, bit by bit",
                self.same_beats(),
            ),
            ("densities of the other measures", self.same_densities()),
            ("spacing of the other measures", self.same_spacing()),
            ("notes headed in later measures", self.later_notes()),
            ("notes headed in earlier measures", self.earlier_notes()),
            ("heads open where the measure begins", self.open_heads()),
            ("last beat", self.last_beat()),
        ]
    }

    fn same_count(&self) -> Found {
        let (old, new) = (self.old.measures(), self.new.measures());
        if old == new {
            same()
        } else {
            Err(format!("{old} and {new}"))
        }
    }

    /// Whether all measures but d are the same in both by this test.
    fn others(&self, equal: impl Fn(usize) -> bool) -> Found {
        let count = self.old.measures().max(self.new.measures());
        match (0..count).find(|&measure| measure != self.d && !equal(measure)) {
            None => same(),
            Some(measure) => Err(format!("measure {measure}")),
        }
    }

    fn same_rows(&self) -> Found {
        self.others(|measure| self.old.rows(measure).eq(self.new.rows(measure)))
    }

    fn same_beats(&self) -> Found {
        self.others(|measure| self.old.beats(measure).eq(self.new.beats(measure)))
    }

    fn same_densities(&self) -> Found {
        self.others(|measure| self.old.density(measure) == self.new.density(measure))
    }

    fn same_spacing(&self) -> Found {
        self.others(|measure| self.old.spacing(measure) == self.new.spacing(measure))
    }

    /// "their number, order and fields, but for one shift of rows and tail rows"
    fn later_notes(&self) -> Found {
        let [old, new] = [self.old, self.new].map(|figures| {
            let end = figures.range(self.d).end;
            figures.notes().filter(move |note| note.row_index >= end)
        });
        let (before, after) = (self.old.range(self.d).len(), self.new.range(self.d).len());
        let shifted = old.map(|note| ParsedChartNote {
            row_index: note.row_index - before + after,
            tail_row_index: note.tail_row_index.map(|row| row - before + after),
            ..note
        });
        let words = match after as i64 - before as i64 {
            0 => String::from("same"),
            shift => format!("same, rows shifted by {shift:+}"),
        };
        same_notes(shifted, new).map(|()| words)
    }

    /// The same in number, order and every field, leaving out those of the heads open where d begins.
    fn earlier_notes(&self) -> Found {
        let [old, new] = [self.old, self.new].map(|figures| {
            let (start, open) = (figures.range(self.d).start, self.heads(figures));
            figures.notes().filter(move |note| {
                note.row_index < start && !open.iter().any(|head| head.is(note))
            })
        });
        same_notes(old, new).and_then(|()| same())
    }

    /// The heads open where d begins: in each column the last of 1 2 3 4 M L F m l f before d, where that is a 2 or 4.
    fn heads(&self, figures: &Figures) -> Vec<OpenHead> {
        let start = figures.range(self.d).start;
        let last = |column: usize| {
            (0..start)
                .rev()
                .map(|row| (row, figures.row(row)[column]))
                .find(|(_, cell)| b"1234MLFmlf".contains(cell))
        };
        let open = (0..figures.lanes()).filter_map(|column| {
            let (row, cell) = last(column)?;
            let kind = match cell {
                b'2' => ChartNoteType::Hold,
                b'4' => ChartNoteType::Roll,
                _ => return None,
            };
            Some(OpenHead { row, column, kind })
        });
        open.collect()
    }

    /// The note of such a head is in each text missing, or has its row, column and kind and a tail in d or later.
    fn open_heads(&self) -> Found {
        let heads = self.heads(self.old);
        if heads != self.heads(self.new) {
            return Err(String::from("they are others in the two texts"));
        }
        for head in &heads {
            for (name, figures) in [("old", self.old), ("new", self.new)] {
                self.missing_or_late(head, figures)
                    .map_err(|note| format!("{name} {note}"))?;
            }
        }
        Ok(match heads.len() {
            0 => String::from("none"),
            count => {
                format!("{count}, each without a note or with a tail in this measure or later")
            }
        })
    }

    fn missing_or_late(&self, head: &OpenHead, figures: &Figures) -> Result<(), String> {
        let start = figures.range(self.d).start;
        let mut here = figures.notes().filter(|note| head.is(note));
        match (here.next(), here.next()) {
            (None, _) => Ok(()),
            (Some(note), None) if note.note_type == head.kind && late(&note, start, figures) => {
                Ok(())
            }
            (Some(note), _) => Err(said(Some(&note))),
        }
    }

    /// The same bits, where the later measures hold a 1, M, L, F or K and, in each of their columns with a 3, such a cell
    /// stands before the first 3.
    fn last_beat(&self) -> Found {
        let (old, new) = (self.old.last_in_48ths(), self.new.last_in_48ths());
        if !self.last_is_later() {
            return Ok(format!("not covered here: {old} and {new} in 48ths"));
        }
        if self.old.last_bits() == self.new.last_bits() {
            same()
        } else {
            Err(format!("{old} and {new} in 48ths"))
        }
    }

    /// Whether the later measures are such that the last beat does not hang on measure d. Minimising drops only rows that
    /// are all zero, so that its rows will do.
    fn last_is_later(&self) -> bool {
        let object = |cell: u8| b"1MLFK".contains(&cell);
        let later = self.old.range(self.d).end..self.old.row_count();
        let column_ok = |column: usize| {
            let cells = later.clone().map(|row| self.old.row(row)[column]);
            let first = cells.clone().find(|&cell| cell == b'3' || object(cell));
            first != Some(b'3')
        };
        let any = later
            .clone()
            .any(|row| self.old.row(row).iter().any(|&cell| object(cell)));
        any && (0..self.old.lanes()).all(column_ok)
    }
}

impl OpenHead {
    /// Whether a note stands at this head.
    fn is(&self, note: &ParsedChartNote) -> bool {
        (note.row_index, note.column) == (self.row, self.column)
    }
}

/// Whether a note has a tail from this row on, within the chart.
fn late(note: &ParsedChartNote, start: usize, figures: &Figures) -> bool {
    let rows = start..figures.row_count();
    note.tail_row_index.is_some_and(|row| rows.contains(&row))
}

/// That both give the same notes, or the first one that differs.
fn same_notes(
    mut old: impl Iterator<Item = ParsedChartNote>,
    mut new: impl Iterator<Item = ParsedChartNote>,
) -> Result<(), String> {
    loop {
        match (old.next(), new.next()) {
            (None, None) => return Ok(()),
            (old, new) if old == new => {}
            (old, new) => {
                let (old, new) = (said(old.as_ref()), said(new.as_ref()));
                return Err(format!("old {old}, new {new}"));
            }
        }
    }
}

/// A note in words.
fn said(note: Option<&ParsedChartNote>) -> String {
    let Some(note) = note else {
        return String::from("none");
    };
    let tail = note
        .tail_row_index
        .map_or_else(String::new, |row| format!(" tail {row}"));
    let kind = format!("{:?}", note.note_type).to_lowercase();
    format!("{kind} row {} column {}{tail}", note.row_index, note.column)
}

#[cfg(test)]
mod tests {
    use super::*;

    /// The parts that fail, and those of which more than `same` is said, of two texts and a measure.
    fn found(old: &[u8], new: &[u8], d: usize) -> Vec<(usize, Found)> {
        let (old, new) = (Figures::of(old, 4).unwrap(), Figures::of(new, 4).unwrap());
        let (old, new) = (&old, &new);
        let parts = Damage { d, old, new }.parts();
        let parts = parts.into_iter().map(|(_, found)| found).enumerate();
        parts.filter(|(_, found)| *found != same()).collect()
    }

    #[test]
    fn damage_in_one_measure_stays_there() {
        let old = b"2001\n,\n0100\n0010\n,\n1000\n4000\n3000\n1000\n";
        let new = b"2001\n,\n0100\n,\n1000\n4000\n3000\n1000\n";
        let told = found(old, new, 1);
        let remarks = [
            (5, Ok(String::from("same, rows shifted by -1"))),
            (
                7,
                Ok(String::from(
                    "1, each without a note or with a tail in this measure or later",
                )),
            ),
        ];
        assert_eq!(told, remarks);
    }

    /// Three measures out of these, and another in place of each: no part fails.
    #[test]
    fn no_part_fails_on_charts_of_three_measures() {
        const MEASURES: [&str; 7] = [
            "",
            "2000\n",
            "3000\n0000\n0000\n",
            "1000\n0004\n",
            "4030\n// x\nm000\n0000\n0000\n",
            "0003\n2000\nK000\n3001\n",
            "M002\n0000\n",
        ];
        for number in 0..7usize.pow(4) {
            let [a, b, c, other] = [0, 1, 2, 3].map(|i| MEASURES[number / 7usize.pow(i) % 7]);
            let old = format!("{a},\n{b},\n{c}");
            let news = [
                format!("{other},\n{b},\n{c}"),
                format!("{a},\n{other},\n{c}"),
                format!("{a},\n{b},\n{other}"),
            ];
            for (d, new) in news.iter().enumerate() {
                let told = found(old.as_bytes(), new.as_bytes(), d);
                let fails = told.iter().any(|(_, found)| found.is_err());
                assert!(!fails, "{old:?} {new:?} {d}: {told:?}");
            }
        }
    }

    #[test]
    fn the_last_beat_is_said_only_of_later_objects() {
        let not_said = |old: &[u8], new: &[u8], d| {
            let told = found(old, new, d);
            told.iter().any(|(part, found)| {
                *part == 8
                    && found
                        .as_ref()
                        .is_ok_and(|words| words.starts_with("not covered"))
            })
        };
        assert!(not_said(b"1000\n", b"0000\n", 0));
        assert!(not_said(
            b"2000\n,\n3000\n1000\n",
            b"0000\n,\n3000\n1000\n",
            0
        ));
        assert!(not_said(
            b"1000\n,\n2000\nm000\n",
            b"0000\n,\n2000\nm000\n",
            0
        ));
        assert!(!not_said(
            b"2000\n,\n1000\n3000\n",
            b"0000\n,\n1000\n3000\n",
            0
        ));
        assert!(!not_said(
            b"2000\n,\nK010\n0030\n",
            b"0000\n,\nK010\n0030\n",
            0
        ));
    }

    /// Texts that differ elsewhere than the measure that is named: every part notices it.
    #[test]
    fn what_does_not_stay_is_told() {
        let failing = |old: &[u8], new: &[u8], d| -> Vec<usize> {
            let told = found(old, new, d).into_iter();
            told.filter(|(_, found)| found.is_err())
                .map(|(part, _)| part)
                .collect()
        };
        let old = b"1000\n,\n0100\n,\n0010\n";
        assert_eq!(failing(old, old, 1), []);
        assert_eq!(failing(old, b"1000\n,\n0100\n", 0), [0, 1, 2, 3, 4, 5, 8]);
        assert_eq!(failing(old, b"1000\n,\n0100\n,\n0001\n", 1), [1, 5]);
        assert_eq!(
            failing(old, b"1000\n,\n0100\n,\n0000\n", 1),
            [1, 3, 4, 5, 8]
        );
        assert_eq!(failing(old, b"0100\n,\n0100\n,\n0010\n", 1), [1, 6]);
        assert_eq!(failing(old, b"2000\n,\n3100\n,\n0010\n", 1), [1, 6, 7]);
        assert_eq!(
            failing(old, b"1000\n0010\n,\n0100\n,\n0010\n", 1),
            [1, 2, 3, 5, 6]
        );
    }
}
