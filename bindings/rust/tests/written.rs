//! From notes back to a chart: the way round of a chart and an edit, every refusal in its order, lengths at their limit, and notes that no record
//! can hold.

mod records;

use padcheck::{
    Buffers, ChartNoteType, Lengths, MAX_LEN, ParsedChartNote, Refusal, lent,
    minimize_chart_count_rows_notes, notes_to_chart, parsed_notes_to_chart, place,
};
use records::{record, tap};

/// What is written of these records at four lanes, `|` for byte 10.
fn written(records: &[[u8; 10]], counts: &[u32]) -> Result<String, Refusal> {
    let text = notes_to_chart(records.as_flattened(), 4, counts)?;
    Ok(String::from_utf8(text).unwrap().replace('\n', "|"))
}

#[test]
fn charts_by_hand() {
    let all = [
        tap(0, 0),
        record(0, 2, 1, 1),
        record(1, u32::MAX, 2, 3),
        record(1, 3, 3, 2),
        record(3, u32::MAX, 0, 4),
        record(3, u32::MAX, 2, 5),
    ];
    let text = "1200|00M4|,|,|0300|L0F3|";
    assert_eq!(written(&all, &[2, 0, 2]).as_deref(), Ok(text));
    assert_eq!(written(&[], &[0]).as_deref(), Ok(""));
    assert_eq!(written(&[], &[3]).as_deref(), Ok("0000|0000|0000|"));
    assert_eq!(written(&[], &[1, 0, 1]).as_deref(), Ok("0000|,|,|0000|"));
    let right_below = [record(0, 1, 0, 1), tap(2, 0)];
    let text = "2000|3000|1000|";
    assert_eq!(written(&right_below, &[3]).as_deref(), Ok(text));
}

/// Each refusal, and of two the earlier: a part of a record before one that breaks a limit, and so on.
#[test]
fn each_refusal() {
    let hold = record(0, 2, 0, 1);
    let far = tap(2, 10);
    assert_eq!(
        written(&[hold, tap(1, 0), far], &[3]),
        Err(Refusal::BadRecord)
    );
    let same = [tap(0, 0), tap(0, 0)];
    assert_eq!(written(&same, &[1]), Err(Refusal::OutOfOrder));
    assert_eq!(written(&[tap(0, 4)], &[1]), Err(Refusal::OutOfOrder));
    let later = [hold, tap(1, 0), tap(1, 0)];
    assert_eq!(written(&later, &[3]), Err(Refusal::OutOfOrder));
    assert_eq!(written(&[hold, tap(1, 0)], &[]), Err(Refusal::NotesMeet));
    assert_eq!(written(&[hold, tap(2, 0)], &[3]), Err(Refusal::NotesMeet));
    assert_eq!(written(&[], &[]), Err(Refusal::OtherCounts));
    assert_eq!(written(&[], &[2]), Err(Refusal::OtherCounts));
    assert_eq!(written(&[tap(1, 0)], &[1]), Err(Refusal::OtherCounts));
    assert_eq!(written(&[hold], &[2]), Err(Refusal::OtherCounts));
    let records = [far, far];
    let part = &records.as_flattened()[1..];
    assert_eq!(notes_to_chart(part, 4, &[1]), Err(Refusal::NoRecord));
    let long = notes_to_chart(part, 4, &[858_993_460; 5]);
    assert_eq!(long, Err(Refusal::LongText));
    for lanes in [0, 3, 7, 9, 11, 260, (1 << 32) + 4, usize::MAX] {
        let refused = notes_to_chart(part, lanes, &[858_993_460; 5]);
        assert_eq!(refused, Err(Refusal::OtherLanes));
        assert_eq!(Lengths::written(lanes, &[1]), 0);
    }
}

#[test]
fn a_refused_call_writes_nothing_and_zeros_stand_past_a_text() {
    let records = tap(0, 3);
    for room in 0..9 {
        let mut text = vec![7; room];
        let mut figures = [7; 32];
        let number = lent::notes_to_chart(&records, 4, &[1], &mut text, &mut figures);
        if room < 5 {
            assert_eq!(number, Err(Refusal::ShortText));
            assert_eq!((text, figures), (vec![7; room], [7; 32]));
            continue;
        }
        assert_eq!(number, Ok(()));
        let (chart, past) = text.split_at(5);
        assert_eq!(chart, b"0001\n");
        assert!(past.iter().all(|&byte| byte == 0));
        let mut want = [0; 32];
        want[place::TEXT_BYTES] = 5;
        want[place::MEASURES] = 1;
        want[place::ROWS] = 1;
        want[place::NOTES] = 1;
        assert_eq!(figures, want);
    }
}

#[test]
fn lengths_at_their_limit() {
    let mut buffers = Buffers::new();
    for (lanes, counts, len) in [
        (4, vec![3_355_443], MAX_LEN),
        (4, vec![3_355_441, 1, 0], MAX_LEN - 1),
        (5, vec![2_796_201, 1], MAX_LEN - 1),
        (5, vec![2_796_201, 1, 0], 0),
        (10, vec![1_525_201], 16_777_211),
        (8, vec![0; 8_388_608], MAX_LEN - 1),
        (8, vec![0; 8_388_609], 0),
    ] {
        assert_eq!(Lengths::written(lanes, &counts), len, "{lanes} lanes");
        let text = buffers.notes_to_chart(&[], lanes, &counts);
        let want = if len == 0 {
            Err(Refusal::LongText)
        } else {
            Ok(len)
        };
        assert_eq!(text.map(<[u8]>::len), want, "{lanes} lanes");
    }
}

/// Read, edited, written and read: the chart has the edit and all else.
#[test]
fn the_way_round() {
    let data = b"2001\n0000\n3000\n0000\n,\n,\n04M0\n0000\n0000\nL3F1\n";
    let mut chart = minimize_chart_count_rows_notes(data, 4).unwrap();
    let counts = [2, 0, 4];
    let same = parsed_notes_to_chart(&chart.notes, 4, &counts);
    assert_eq!(same.as_deref(), Ok(&chart.text[..]));
    let mine = chart
        .notes
        .iter_mut()
        .find(|note| note.note_type == ChartNoteType::Mine);
    mine.unwrap().row_index = 3;
    let edited = parsed_notes_to_chart(&chart.notes, 4, &counts).unwrap();
    assert_eq!(edited, b"2001\n3000\n,\n,\n0400\n00M0\n0000\nL3F1\n");
    let again = minimize_chart_count_rows_notes(&edited, 4).unwrap();
    assert_eq!((again.notes, again.text), (chart.notes, edited));
}

/// A number that is too large for a record is refused as it is, not as what is left of it.
#[test]
fn notes_that_no_record_holds() {
    let note = |row_index, column, note_type, tail_row_index| ParsedChartNote {
        row_index,
        column,
        note_type,
        tail_row_index,
    };
    let (tap, hold) = (ChartNoteType::Tap, ChartNoteType::Hold);
    for bad in [
        note(1 << 32, 0, tap, None),
        note(usize::MAX, 0, tap, None),
        note(16_777_216, 0, tap, None),
        note(0, 256, tap, None),
        note(0, usize::MAX, tap, None),
        note(0, 0, tap, Some(0xFFFF_FFFF)),
        note(0, 0, tap, Some((1 << 32) + 1)),
        note(0, 0, hold, Some((1 << 32) + 1)),
        note(0, 0, hold, Some(0xFFFF_FFFF)),
        note(0, 0, hold, None),
    ] {
        let refused = parsed_notes_to_chart(&[bad], 4, &[3]);
        assert_eq!(refused, Err(Refusal::BadRecord), "{bad:?}");
    }
    let good = note(0, 0, hold, Some(1));
    let text = parsed_notes_to_chart(&[good], 4, &[2]);
    assert_eq!(text.as_deref(), Ok(&b"2000\n3000\n"[..]));
}
