//! A pad trace set against notes: what is a hit, a stray and a miss, every refusal in its order, rows at their limit, and presses by their bytes.

mod records;

use padcheck::{
    Buffers, ChartNoteType, ColumnPresses, ParsedChartNote, Press, PressCounts, Refusal, lent,
    minimize_chart_count_rows_notes, parsed_press_trace, press_trace,
};
use records::{record, tap};
use std::array;

/// A trace with presses of these rows and columns.
fn trace(presses: &[(u32, u8)]) -> Vec<u8> {
    let bytes = |&(row, column)| Press { row, column }.to_bytes();
    presses.iter().flat_map(bytes).collect()
}

/// What a trace comes to beside these records.
fn counted(records: &[[u8; 10]], presses: &[(u32, u8)]) -> Result<PressCounts, Refusal> {
    press_trace(records.as_flattened(), &trace(presses))
}

/// Counts with so many strays, and hits and misses in the columns that have them.
fn counts(strays: usize, columns: &[(usize, ColumnPresses)]) -> PressCounts {
    let mut counts = PressCounts {
        strays,
        ..PressCounts::default()
    };
    for &(column, presses) in columns {
        counts.hits += presses.hits;
        counts.misses += presses.misses;
        counts.columns[column] = presses;
    }
    counts
}

fn hits(hits: usize) -> ColumnPresses {
    ColumnPresses { hits, misses: 0 }
}

fn misses(misses: usize) -> ColumnPresses {
    ColumnPresses { hits: 0, misses }
}

#[test]
fn hits_strays_and_misses() {
    let notes = [
        tap(0, 0),
        record(0, 3, 3, 1),
        record(2, 5, 9, 2),
        record(3, u32::MAX, 0, 3),
        record(3, u32::MAX, 1, 4),
        record(4, u32::MAX, 0, 5),
        tap(6, 3),
    ];
    let clean = [(0, 0), (0, 3), (2, 9), (6, 3)];
    let want = counts(0, &[(0, hits(1)), (3, hits(2)), (9, hits(1))]);
    assert_eq!(counted(&notes, &clean), Ok(want));

    let nothing = counts(0, &[(0, misses(1)), (3, misses(2)), (9, misses(1))]);
    assert_eq!(counted(&notes, &[]), Ok(nothing));
    assert_eq!(counted(&[], &clean), Ok(counts(4, &[])));
    assert_eq!(counted(&[], &[]), Ok(PressCounts::default()));

    // On a tail, inside a roll, on the mine, the lift and the fake, and below all notes.
    let beside = [(3, 3), (4, 9), (3, 0), (3, 1), (4, 0), (7, 3)];
    for press in beside {
        let mut presses = [&clean[..], &[press]].concat();
        presses.sort_unstable();
        let want = PressCounts { strays: 1, ..want };
        assert_eq!(counted(&notes, &presses), Ok(want), "{press:?}");
    }

    // A row late, and a column beside.
    for moved in [(1, 3), (0, 2)] {
        let presses = [(0, 0), moved, (2, 9), (6, 3)];
        let both = ColumnPresses { hits: 1, misses: 1 };
        let want = counts(1, &[(0, hits(1)), (3, both), (9, hits(1))]);
        assert_eq!(counted(&notes, &presses), Ok(want), "{moved:?}");
    }
}

#[test]
fn a_press_again_and_again() {
    let notes = [tap(0, 4), tap(5, 4)];
    let presses = vec![(5, 4); 1_000_000];
    let both = ColumnPresses { hits: 1, misses: 1 };
    assert_eq!(counted(&notes, &presses), Ok(counts(999_999, &[(4, both)])));
    assert_eq!(counted(&[], &presses), Ok(counts(1_000_000, &[])));
}

/// A note has a row of at most 16,777,215, a press any row.
#[test]
fn rows_at_their_limit() {
    let notes = [tap(16_777_215, 9)];
    let presses = [(16_777_215, 9), (16_777_216, 9), (u32::MAX, 9)];
    let want = counts(2, &[(9, hits(1))]);
    assert_eq!(counted(&notes, &presses), Ok(want));
    // Rows that have three of their four bytes in common.
    let notes = [tap(0x65_4321, 0)];
    let rows = [0x55_4321, 0x65_3321, 0x65_4320, 0x165_4321, 0x6543_2100];
    let presses = rows.map(|row| (row, 0));
    let want = counts(5, &[(0, misses(1))]);
    assert_eq!(counted(&notes, &presses), Ok(want));
}

/// Each refusal, alone and before those after it.
#[test]
fn each_refusal() {
    let (good, bad) = (tap(0, 0), record(0, 1, 0, 0));
    let falls = [tap(0, 1), tap(0, 0)];
    let right = trace(&[(0, 0), (0, 0), (0, 1), (1, 0)]);
    let wrong = trace(&[(1, 0), (0, 0)]);
    for trace in [&right, &wrong] {
        for len in 1..10 {
            let part = [bad, falls[0], falls[1]];
            let part = &part.as_flattened()[..20 + len];
            assert_eq!(press_trace(part, trace), Err(Refusal::NoRecord));
        }
        for bad in [
            bad,
            tap(0, 10),
            record(0, u32::MAX, 0, 6),
            tap(16_777_216, 0),
            record(0, u32::MAX, 0, 1),
            record(5, 5, 0, 2),
        ] {
            // Behind records that fall, too.
            let records = [falls[0], falls[1], bad];
            for records in [&records[..], &records[2..]] {
                let refused = press_trace(records.as_flattened(), trace);
                assert_eq!(refused, Err(Refusal::BadRecord), "{bad:?}");
            }
        }
        for records in [
            [good, good],
            falls,
            [tap(1, 0), tap(0, 1)],
            [tap(256, 0), tap(1, 0)],
        ] {
            let refused = press_trace(records.as_flattened(), trace);
            assert_eq!(refused, Err(Refusal::OutOfOrder), "{records:?}");
        }
    }
    for records in [&[][..], &good] {
        assert!(press_trace(records, &right).is_ok());
        assert_eq!(press_trace(records, &wrong), Err(Refusal::BadTrace));
        for len in (16..20).chain(1..5) {
            let refused = press_trace(records, &right[..len]);
            assert_eq!(refused, Err(Refusal::BadTrace), "{len} bytes");
        }
    }
    for presses in [
        [(0, 0), (0, 10)],
        [(0, 255), (1, 0)],
        [(0, 1), (0, 0)],
        [(1, 0), (0, 9)],
        [(256, 0), (1, 0)],
        [(1 << 24, 0), (1 << 16, 0)],
    ] {
        let refused = counted(&[good], &presses);
        assert_eq!(refused, Err(Refusal::BadTrace), "{presses:?}");
    }
}

#[test]
fn a_refused_call_leaves_the_numbers() {
    let marked: [u64; 23] = array::from_fn(|place| 100 + place as u64);
    let good = tap(0, 0);
    let press = trace(&[(0, 0)]);
    for (records, trace, want) in [
        (&good[1..], &press[..], Refusal::NoRecord),
        (&[255; 10], &press, Refusal::BadRecord),
        (&[good, good].concat(), &press, Refusal::OutOfOrder),
        (&good, &press[1..], Refusal::BadTrace),
    ] {
        let mut presses = marked;
        let refused = lent::press_trace(records, trace, &mut presses);
        assert_eq!((refused, presses), (Err(want), marked));
    }
    let mut presses = marked;
    assert_eq!(lent::press_trace(&good, &press, &mut presses), Ok(()));
    assert_eq!(
        presses,
        array::from_fn(|place| [0, 3].contains(&place).into())
    );
}

/// Each of the 23 numbers, by a place of its own and by what the call answers for notes that are pressed and missed in all columns.
#[test]
fn the_counts_are_the_23_numbers() {
    let read = PressCounts::from_presses(&array::from_fn(|place| place as u64));
    assert_eq!((read.hits, read.strays, read.misses), (0, 1, 2));
    for (column, presses) in read.columns.iter().enumerate() {
        assert_eq!((presses.hits, presses.misses), (3 + column, 13 + column));
    }

    let (mut records, mut presses) = (Vec::new(), Vec::new());
    for row in 0..40 {
        for column in 0..10 {
            let pressed = 1 + u32::from(column);
            if row < pressed || row > 30 {
                presses.push((row, column));
            }
            if row < 2 * pressed + 10 {
                records.push(tap(row, column));
            }
        }
    }
    let (records, trace) = (records.as_flattened(), trace(&presses));
    let mut numbers = [7; 23];
    assert_eq!(lent::press_trace(records, &trace, &mut numbers), Ok(()));
    let columns = array::from_fn(|column| ColumnPresses {
        hits: 1 + column,
        misses: 11 + column,
    });
    let want = PressCounts {
        hits: 55,
        strays: 90,
        misses: 155,
        columns,
    };
    assert_eq!(PressCounts::from_presses(&numbers), want);
    assert_eq!(press_trace(records, &trace), Ok(want));
}

/// Of a chart that is read: a trace of its notes is clean, and a note that no record can hold is refused as it is.
#[test]
fn notes_of_a_chart() {
    let data = b"2001\n0000\n3000\n0000\n,\n,\n04M0\n0000\n0000\nL3F1\n";
    let notes = minimize_chart_count_rows_notes(data, 4).unwrap().notes;
    let mut buffers = Buffers::new();
    let chart = buffers.minimize_chart_count_rows_notes(data, 4).unwrap();
    let is_played = |note: &&ParsedChartNote| {
        use ChartNoteType::{Hold, Roll, Tap};
        matches!(note.note_type, Tap | Hold | Roll)
    };
    let mut presses: Vec<_> = notes
        .iter()
        .filter(is_played)
        .map(|note| Press {
            row: note.row_index as u32,
            column: note.column as u8,
        })
        .collect();
    let want = counts(0, &[(0, hits(1)), (1, hits(1)), (3, hits(2))]);
    assert_eq!(parsed_press_trace(&notes, &presses), Ok(want));
    let trace: Vec<_> = presses.iter().copied().map(Press::to_bytes).collect();
    let records = chart.notes.records();
    assert_eq!(press_trace(records, trace.as_flattened()), Ok(want));

    let missed = presses.remove(0);
    let counted = parsed_press_trace(&notes, &presses).unwrap();
    assert_eq!((counted.hits, counted.strays, counted.misses), (3, 0, 1));
    assert_eq!(counted.columns[usize::from(missed.column)], misses(1));
    presses.reverse();
    let refused = parsed_press_trace(&notes, &presses);
    assert_eq!(refused, Err(Refusal::BadTrace));
    presses.sort_unstable();
    assert_eq!(parsed_press_trace(&notes, &presses), Ok(counted));

    let twice = [notes[0], notes[0]];
    assert_eq!(parsed_press_trace(&twice, &[]), Err(Refusal::OutOfOrder));
    for (row_index, column) in [(1 << 32, 0), (usize::MAX, 0), (0, 256), (0, 10)] {
        let far = ParsedChartNote {
            row_index,
            column,
            note_type: ChartNoteType::Tap,
            tail_row_index: None,
        };
        let refused = parsed_press_trace(&[far], &presses);
        assert_eq!(refused, Err(Refusal::BadRecord), "{far:?}");
    }
}

#[test]
fn presses_by_their_bytes() {
    for (row, column, bytes) in [
        (0, 0, [0, 0, 0, 0, 0]),
        (0x0403_0201, 5, [1, 2, 3, 4, 5]),
        (u32::MAX, 255, [255; 5]),
        (256, 9, [0, 1, 0, 0, 9]),
    ] {
        let press = Press { row, column };
        assert_eq!(press.to_bytes(), bytes);
        assert_eq!(Press::from_bytes(bytes), press);
    }
    let [first, second] = [(1, 255), (2, 0)].map(|(row, column)| Press { row, column });
    assert!(first < second);
    assert!(
        second
            < Press {
                column: 1,
                ..second
            }
    );
}

/// The lines of the page's example stand in a doc test, which runs them.
#[test]
fn the_pages_example_runs() {
    let page = include_str!("../../../docs/CALLS.md");
    let (_, section) = page
        .split_once("\n## A pad trace against the notes\n")
        .unwrap();
    let (section, _) = section.split_once("\n## ").unwrap();
    let lines = section.lines();
    let example: Vec<_> = lines.filter_map(|line| line.strip_prefix("    ")).collect();
    let lines = include_str!("../src/press.rs").lines();
    let said: Vec<_> = lines.filter_map(|line| line.strip_prefix("/// ")).collect();
    let runs = said.windows(example.len()).any(|lines| lines == example);
    assert!(runs, "{example:#?}");
}
