//! The presses of a trace: which miss, which stray and which broken record is the first. How many there are is the library's
//! answer.

use crate::slices::Slices;
use padcheck::{ChartNoteType, PRESS_BYTES, Press};

/// The presses of a trace; part of one at its end is none.
pub fn presses(trace: &[u8]) -> impl Iterator<Item = Press> {
    trace.as_chunks().0.iter().copied().map(Press::from_bytes)
}

/// Where the taps, holds and rolls of a chart stand.
fn played(slices: &Slices) -> impl Iterator<Item = Press> {
    use ChartNoteType::{Fake, Hold, Lift, Mine, Roll, Tap};
    slices.notes().filter_map(|note| match note.note_type {
        Tap | Hold | Roll => Some(Press {
            row: note.row_index as u32,
            column: note.column as u8,
        }),
        Mine | Lift | Fake => None,
    })
}

/// Where the first tap, hold or roll stands that has no press, of the notes that the main call left in the slices.
pub fn first_miss(slices: &Slices, trace: &[u8]) -> Option<Press> {
    first_alone(played(slices), presses(trace))
}

/// The first press that is no hit.
pub fn first_stray(slices: &Slices, trace: &[u8]) -> Option<Press> {
    first_alone(presses(trace), played(slices))
}

/// The first of these places beside which none of those is left. Both rise, and each of those stands beside one of these alone: so a
/// second press on a note is alone.
fn first_alone(
    mut these: impl Iterator<Item = Press>,
    those: impl Iterator<Item = Press>,
) -> Option<Press> {
    let mut those = those.peekable();
    these.find(|place| {
        while those.next_if(|other| other < place).is_some() {}
        those.next_if_eq(place).is_none()
    })
}

/// The number of the first record by which a trace is refused, and how it breaks the trace.
pub fn first_broken(trace: &[u8]) -> Option<(usize, String)> {
    let mut before = None;
    let mut records = presses(trace).enumerate();
    let broken = records.find_map(|(number, press)| {
        let how = breaks(before.replace(press), press)?;
        Some((number, how))
    });
    broken.or_else(|| {
        let (whole, part) = (trace.len() / PRESS_BYTES, trace.len() % PRESS_BYTES);
        (part != 0).then(|| (whole, format!("has {part} of its {PRESS_BYTES} bytes")))
    })
}

/// How a press breaks its trace, in which one stands before it or none.
fn breaks(before: Option<Press>, press: Press) -> Option<String> {
    let Press { row, column } = press;
    if column > 9 {
        return Some(format!("has column {column}, over 9"));
    }
    let before = before.filter(|&before| press < before)?;
    Some(if row < before.row {
        format!("falls: row {row} after row {}", before.row)
    } else {
        let other = before.column;
        format!("falls: in row {row} column {column} after column {other}")
    })
}

/// Rows and columns.
#[cfg(test)]
pub type Places<'a> = &'a [(u32, u8)];

/// A trace with a press at each of these.
#[cfg(test)]
pub fn trace_of(places: Places) -> Vec<u8> {
    let records = places.iter().map(|&(row, column)| Press { row, column });
    records.flat_map(Press::to_bytes).collect()
}

#[cfg(test)]
mod tests {
    use super::*;
    use padcheck::{Refusal, press_trace};

    /// Every list of up to so many of these.
    fn lists<T: Copy>(of: &[T], most: usize) -> Vec<Vec<T>> {
        let mut lists = vec![Vec::new()];
        let mut shorter = 0;
        for _ in 0..most {
            let end = lists.len();
            for list in shorter..end {
                let longer = of.iter().map(|&next| [&lists[list][..], &[next]].concat());
                let longer: Vec<_> = longer.collect();
                lists.extend(longer);
            }
            shorter = end;
        }
        lists
    }

    /// Of every chart of two rows and columns and every trace of up to four presses in three rows: the firsts are those of a plain
    /// search, and there are some exactly where the library counts any.
    #[test]
    fn firsts_are_those_of_a_plain_search() {
        let places = [(0, 0), (0, 1), (1, 0), (1, 1), (2, 0), (2, 1)];
        let mut traces = lists(&places, 4);
        traces.retain(|trace| trace.is_sorted());
        let mut charts = lists(b"01M", 4);
        charts.retain(|cells| cells.len() == 4);
        for cells in charts {
            let (first, second) = cells.split_at(2);
            let data = [first, b"00\n", second, b"00\n"].concat();
            let mut slices = Slices::default();
            slices.main_call(&data, 4).unwrap();
            let taps = places.iter().zip(&cells).filter(|(_, cell)| **cell == b'1');
            let taps: Vec<_> = taps.map(|(&place, _)| place).collect();
            for presses in &traces {
                let trace = trace_of(presses);
                let place = |press: Press| (press.row, press.column);
                let miss = first_miss(&slices, &trace).map(place);
                let stray = first_stray(&slices, &trace).map(place);
                let mut misses = taps.iter().filter(|tap| !presses.contains(tap));
                let mut strays = (0..presses.len()).filter(|&number| {
                    let press = &presses[number];
                    !taps.contains(press) || presses[..number].contains(press)
                });
                let counts = press_trace(slices.records(), &trace).unwrap();
                assert_eq!(
                    (miss.is_some(), stray.is_some()),
                    (counts.misses > 0, counts.strays > 0)
                );
                assert_eq!(miss, misses.next().copied());
                assert_eq!(stray, strays.next().map(|number| presses[number]));
            }
        }
    }

    #[test]
    fn holds_and_rolls_are_played_and_tails_are_not() {
        let mut slices = Slices::default();
        slices.main_call(b"24ML\n3000\n03F0\n0000\n", 4).unwrap();
        let places = played(&slices).map(|place| (place.row, place.column));
        assert!(places.eq([(0, 0), (0, 1)]));
    }

    #[test]
    fn the_record_that_breaks_a_trace_is_named() {
        let told: [(Places, usize, &str); 9] = [
            (&[(0, 10)], 0, "0 has column 10, over 9"),
            (&[(0, 0), (5, 255)], 0, "1 has column 255, over 9"),
            (&[(3, 0), (3, 0), (2, 9)], 0, "2 falls: row 2 after row 3"),
            (
                &[(3, 1), (3, 0)],
                0,
                "1 falls: in row 3 column 0 after column 1",
            ),
            (
                &[(u32::MAX, 0), (0, 0)],
                0,
                "1 falls: row 0 after row 4294967295",
            ),
            (&[], 1, "0 has 1 of its 5 bytes"),
            (&[(0, 0), (0, 1)], 4, "2 has 4 of its 5 bytes"),
            // The first of several; of one that breaks it in two ways the column.
            (
                &[(0, 1), (0, 0), (0, 10)],
                3,
                "1 falls: in row 0 column 0 after column 1",
            ),
            (&[(1, 0), (0, 10)], 2, "1 has column 10, over 9"),
        ];
        for (presses, more, record) in told {
            let mut trace = trace_of(presses);
            trace.extend(vec![0; more]);
            assert_eq!(press_trace(&[], &trace), Err(Refusal::BadTrace));
            let (number, how) = first_broken(&trace).unwrap();
            assert_eq!(format!("{number} {how}"), record);
        }
    }

    /// Of every trace of up to three of these presses, whole or not: a record is found exactly where the library refuses the trace.
    #[test]
    fn a_record_is_found_where_the_library_refuses() {
        for presses in lists(&[(0, 0), (0, 9), (1, 1), (1, 10), (256, 0)], 3) {
            for part in 0..PRESS_BYTES {
                let mut trace = trace_of(&presses);
                trace.extend(vec![9; part]);
                let refused = press_trace(&[], &trace) == Err(Refusal::BadTrace);
                assert_eq!(first_broken(&trace).is_some(), refused, "{trace:?}");
            }
        }
    }

    /// 3,355,443 rows with a tap each: a press on each of them, and on all but the last.
    #[test]
    fn the_longest_chart_is_searched_to_its_end() {
        let data = &b"1000\n".repeat(3_355_443)[..];
        let mut slices = Slices::default();
        slices.main_call(data, 4).unwrap();
        let presses: Vec<_> = (0..3_355_443).map(|row| (row, 0)).collect();
        let trace = trace_of(&presses);
        let counts = press_trace(slices.records(), &trace).unwrap();
        assert_eq!(
            (counts.hits, counts.strays, counts.misses),
            (3_355_443, 0, 0)
        );
        let last = Press {
            row: 3_355_442,
            column: 0,
        };
        let most = &trace[..trace.len() - PRESS_BYTES];
        assert_eq!(first_miss(&slices, most), Some(last));
        let more = [&trace[..], &last.to_bytes()].concat();
        assert_eq!(first_stray(&slices, &more), Some(last));
    }
}
