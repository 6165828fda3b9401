//! Every refusal, and that a refused call leaves what it was lent as it was.

mod loan;

use loan::Lent::{Beats, Densities, Notes, Spacing, Text, Work};
use loan::{Lent, Loan};
use padcheck::{Buffers, Lengths, MAX_LEN, Refusal, SheetForm, is_lane_count, lent};

const DATA: &[u8] = b"1000\n0000\n0100\n0000\n;\n";

type Call = fn(&mut Loan) -> Result<(), Refusal>;

/// The calls on a text, each with what it is lent.
const CALLS: [(Call, &[Lent]); 8] = [
    (
        |loan| loan.main_call(DATA, 4),
        &[Text, Densities, Beats, Work, Notes],
    ),
    (
        |loan| {
            let (text, densities, work) = (&mut loan.text, &mut loan.densities, &mut loan.work);
            lent::process_chart_kept(DATA, 4, text, densities, work, &mut loan.figures)
        },
        &[Text, Densities, Work],
    ),
    (
        |loan| {
            let (text, beats) = (&mut loan.text, &mut loan.beats);
            lent::minimize_timing_rows(DATA, 4, text, beats, &mut loan.figures)
        },
        &[Text, Beats],
    ),
    (
        |loan| lent::measure_densities(DATA, 4, &mut loan.densities, &mut loan.figures),
        &[Densities],
    ),
    (
        |loan| lent::equally_spaced(DATA, 4, &mut loan.spacing, &mut loan.figures),
        &[Spacing],
    ),
    (
        |loan| lent::process_rows_judgable(DATA, 4, &mut loan.work, &mut loan.figures),
        &[Work],
    ),
    (
        |loan| lent::process_timing_rows(DATA, 4, &[], &mut loan.work, &mut loan.figures),
        &[Work],
    ),
    (|loan| loan.dropped_holds(DATA, 4), &[Text, Notes]),
];

#[test]
fn a_slice_one_short_is_refused() {
    for (call, lent) in CALLS {
        let mut whole = Loan::marked(DATA.len(), 4);
        assert_eq!(call(&mut whole), Ok(()));
        assert!(!whole.is_marked());
        for &lent in lent {
            let mut short = Loan::marked(DATA.len(), 4);
            short.shorten(lent);
            assert_eq!(call(&mut short), Err(lent.refusal()));
            assert!(short.is_marked());
        }
    }
}

#[test]
fn a_text_that_is_too_long_is_refused_first() {
    let data = vec![b'1'; MAX_LEN + 1];
    let mut figures = [7; 32];
    let too_long = Err(Refusal::LongText);
    let main = lent::minimize_chart_count_rows_notes;
    assert_eq!(
        main(
            &data,
            4,
            &mut [],
            &mut [],
            &mut [],
            &mut [],
            &mut [],
            &mut figures
        ),
        too_long
    );
    assert_eq!(
        lent::process_chart_kept(&data, 4, &mut [], &mut [], &mut [], &mut figures),
        too_long
    );
    assert_eq!(
        lent::minimize_timing_rows(&data, 4, &mut [], &mut [], &mut figures),
        too_long
    );
    assert_eq!(
        lent::measure_densities(&data, 4, &mut [], &mut figures),
        too_long
    );
    assert_eq!(
        lent::equally_spaced(&data, 4, &mut [], &mut figures),
        too_long
    );
    assert_eq!(lent::chart_last_beat(&data, 4, &mut figures), too_long);
    assert_eq!(
        lent::process_rows_judgable(&data, 4, &mut [], &mut figures),
        too_long
    );
    assert_eq!(
        lent::process_timing_rows(&data, 4, &[], &mut [], &mut figures),
        too_long
    );
    assert_eq!(
        lent::dropped_holds(&data, 4, &mut [], &mut [], &mut figures),
        too_long
    );
    assert_eq!(figures, [7; 32]);
}

/// Every lane number but the lane counts is refused ahead of all else, and the lengths for it are 0.
#[test]
fn another_lane_number_is_refused_before_all_else() {
    let long = vec![b'1'; MAX_LEN + 1];
    let huge = [(1 << 32) + 4, (1 << 62) - 1, usize::MAX];
    let counts = |lanes: &usize| ![4, 5, 6, 8, 10].contains(lanes);
    for lanes in (0..=300).filter(counts).chain(huge) {
        assert!(!is_lane_count(lanes));
        assert_eq!(Lengths::of(DATA.len(), lanes), Lengths::default());
        for data in [DATA, &long] {
            // Slices that would do for four lanes, and none.
            let loans = [Loan::marked(DATA.len(), 4), Loan::of(Lengths::default(), 7)];
            for mut loan in loans {
                refuses_each(data, lanes, &mut loan);
                assert!(loan.is_marked());
            }
        }
    }
}

/// The eleven calls refuse this lane number.
fn refuses_each(data: &[u8], lanes: usize, loan: &mut Loan) {
    let other = Err(Refusal::OtherLanes);
    assert_eq!(loan.main_call(data, lanes), other);
    assert_eq!(loan.dropped_holds(data, lanes), other);
    assert_eq!(loan.chart_sheet(data, lanes, 0), other);
    assert_eq!(loan.chart_sheet(data, lanes, 3), other);
    let Loan {
        text,
        densities,
        spacing,
        beats,
        work,
        figures,
        ..
    } = loan;
    let kept = lent::process_chart_kept(data, lanes, text, densities, work, figures);
    assert_eq!(kept, other);
    let timing = lent::minimize_timing_rows(data, lanes, text, beats, figures);
    assert_eq!(timing, other);
    let scanned = lent::measure_densities(data, lanes, densities, figures);
    assert_eq!(scanned, other);
    assert_eq!(lent::equally_spaced(data, lanes, spacing, figures), other);
    assert_eq!(lent::chart_last_beat(data, lanes, figures), other);
    assert_eq!(
        lent::process_rows_judgable(data, lanes, work, figures),
        other
    );
    assert_eq!(
        lent::process_timing_rows(data, lanes, &[0], work, figures),
        other
    );
    let written = lent::notes_to_chart(&data[..1], lanes, &[], text, figures);
    assert_eq!(written, other);
}

#[test]
fn allocating_calls_refuse_another_lane_number() {
    let other = Refusal::OtherLanes;
    assert_eq!(
        padcheck::minimize_chart_count_rows_notes(DATA, 7),
        Err(other)
    );
    assert_eq!(padcheck::process_chart_kept(DATA, 7), Err(other));
    assert_eq!(padcheck::measure_densities(DATA, 0), Err(other));
    assert_eq!(padcheck::equally_spaced(DATA, 9), Err(other));
    assert_eq!(padcheck::chart_last_beat(DATA, 11), Err(other));
    assert_eq!(
        padcheck::process_rows_judgable(DATA, usize::MAX),
        Err(other)
    );
    assert_eq!(padcheck::process_timing_rows(DATA, 3, &[0]), Err(other));
    assert_eq!(padcheck::dropped_holds(DATA, 7), Err(other));
    let sheet = padcheck::chart_sheet(DATA, 7, SheetForm::Card);
    assert_eq!(sheet, Err(other));
    let mut buffers = Buffers::new();
    assert_eq!(buffers.minimize_timing_rows(DATA, 7), Err(other));
}

#[test]
fn allocating_calls_refuse_a_text_that_is_too_long_and_nothing_else() {
    let data = vec![b'1'; MAX_LEN + 1];
    assert_eq!(
        padcheck::minimize_chart_count_rows_notes(&data, 4),
        Err(Refusal::LongText)
    );
    assert_eq!(
        padcheck::process_chart_kept(&data, 4),
        Err(Refusal::LongText)
    );
    assert_eq!(
        padcheck::minimize_timing_rows::<5>(&data),
        Err(Refusal::LongText)
    );
    assert_eq!(
        padcheck::measure_densities(&data, 4),
        Err(Refusal::LongText)
    );
    assert_eq!(padcheck::equally_spaced(&data, 4), Err(Refusal::LongText));
    assert_eq!(padcheck::chart_last_beat(&data, 4), Err(Refusal::LongText));
    assert_eq!(
        padcheck::process_rows_judgable(&data, 4),
        Err(Refusal::LongText)
    );
    assert_eq!(
        padcheck::process_timing_rows(&data, 4, &[0]),
        Err(Refusal::LongText)
    );
    assert_eq!(padcheck::dropped_holds(&data, 4), Err(Refusal::LongText));

    let data = &data[..MAX_LEN];
    let mut buffers = Buffers::new();
    assert_eq!(
        buffers.process_chart_kept(data, 10).map(|chart| chart.rows),
        Ok(1)
    );
    assert_eq!(buffers.measure_densities(data, 4).map(<[u32]>::len), Ok(1));
    // The buffers are longer now than a small text needs.
    let chart = buffers.process_chart_kept(DATA, 4).unwrap();
    assert_eq!(
        (chart.text, chart.densities),
        (&b"1000\n0100\n"[..], &[2][..])
    );
}

#[test]
fn records_are_read_or_refused() {
    let tap = [9, 1, 0, 0, 255, 255, 255, 255, 3, 0];
    let mut note = [7; 4];
    assert_eq!(lent::read_note(&tap, 0, &mut note), Ok(()));
    assert_eq!(note, [265, 4_294_967_295, 3, 0]);
    let read = padcheck::read_note;
    assert_eq!(
        read(&tap, 0).map(|note| (note.row_index, note.tail_row_index)),
        Ok((265, None))
    );
    assert_eq!(read(&tap, 1), Err(Refusal::NoRecord));
    assert_eq!(read(&tap[..9], 0), Err(Refusal::NoRecord));
    assert_eq!(read(&[], 0), Err(Refusal::NoRecord));
    for (place, byte) in [(8, 10), (9, 6), (3, 1), (4, 0), (9, 1)] {
        let mut bad = tap;
        bad[place] = byte;
        assert_eq!(
            read(&bad, 0),
            Err(Refusal::BadRecord),
            "byte {place} set to {byte}"
        );
    }
}

/// Where two things are wrong with an SM file, the first in the order 1, 11, 9, 10 is said.
#[test]
fn charts_of_sm_files_are_found_or_refused() {
    let find = padcheck::sm_chart;
    let file =
        b"#NOTES:pump-single:::::00100\n;\n#NOTES:lights-cabinet:;\n#NOTES:lights-cabinet:::::;\n";
    let mut chart = [7; 3];
    assert_eq!(lent::sm_chart(file, 0, &mut chart), Ok(()));
    assert_eq!(chart, [5, 23, 7]);
    assert_eq!(
        find(file, 0).map(|chart| (chart.lanes, chart.data)),
        Ok((5, &file[23..30]))
    );
    assert_eq!(find(file, 1), Err(Refusal::FewFields));
    assert_eq!(find(file, 2), Err(Refusal::OtherType));
    assert_eq!(find(file, 3), Err(Refusal::NoChart));
    assert_eq!(find(&file[30..], 2), Err(Refusal::NoChart));
    assert_eq!(find(&[], 0), Err(Refusal::NoChart));
    for block in [
        &b"#NOTES:dance-single:::::;"[..],
        b"#NOTES:;",
        b"#NOTES::::::;",
    ] {
        let mut long = block.to_vec();
        long.resize(MAX_LEN + 1, b'\n');
        assert_eq!(find(&long, 0), Err(Refusal::LongText));
        assert_eq!(find(&long, 1), Err(Refusal::LongText));
        assert_ne!(find(&long[1..], 0), Err(Refusal::LongText));
    }
}

/// Each refusal as the archive gives it, by its name and its number. Its words are those of the name, as `refusal.rs` tests.
#[test]
fn every_refusal_that_is_met_says_its_number() {
    let said = |refused: Result<(), Refusal>, want: Refusal, number: u32| {
        assert_eq!(refused, Err(want));
        let (words, cause) = (want.words(), want.caused_by());
        assert_eq!(
            want.to_string(),
            format!("refused {number}: {words}, by {cause}")
        );
    };
    let long = vec![b'1'; MAX_LEN + 1];
    let mut loan = Loan::marked(DATA.len(), 4);
    said(loan.main_call(&long, 4), Refusal::LongText, 1);
    said(loan.main_call(&long, 7), Refusal::OtherLanes, 12);
    for (lent, refusal, number) in [
        (Text, Refusal::ShortText, 2),
        (Densities, Refusal::ShortMeasures, 3),
        (Beats, Refusal::ShortBeats, 4),
        (Work, Refusal::ShortWork, 5),
        (Notes, Refusal::ShortNotes, 6),
    ] {
        let mut loan = Loan::marked(DATA.len(), 4);
        loan.shorten(lent);
        said(loan.main_call(DATA, 4), refusal, number);
    }
    let mut note = [7; 4];
    let mut read = |records: &[u8]| lent::read_note(records, 0, &mut note);
    said(read(&[]), Refusal::NoRecord, 7);
    said(read(&[255; 10]), Refusal::BadRecord, 8);
    let mut chart = [7; 3];
    let mut find = |file: &[u8], k| lent::sm_chart(file, k, &mut chart);
    said(find(b"#NOTES:dance-single::::;", 0), Refusal::FewFields, 9);
    said(
        find(b"#NOTES:lights-cabinet:::::;", 0),
        Refusal::OtherType,
        10,
    );
    said(find(b"#NOTES:dance-single:::::;", 1), Refusal::NoChart, 11);
    said(find(&long, 0), Refusal::LongText, 1);
    assert_eq!((note, chart), ([7; 4], [7; 3]));
    let write = |records: &[u8], counts: &[u32]| {
        lent::notes_to_chart(records, 4, counts, &mut [], &mut [7; 32])
    };
    let tap = [0, 0, 0, 0, 255, 255, 255, 255, 0, 0];
    said(write(&[], &[u32::MAX]), Refusal::LongText, 1);
    said(write(&[tap, tap].concat(), &[1]), Refusal::OutOfOrder, 13);
    let hold = [0, 0, 0, 0, 1, 0, 0, 0, 0, 1];
    let at_tail = [1, 0, 0, 0, 255, 255, 255, 255, 0, 0];
    said(
        write(&[hold, at_tail].concat(), &[2]),
        Refusal::NotesMeet,
        14,
    );
    said(write(&hold, &[1]), Refusal::OtherCounts, 15);
    said(write(&hold, &[2]), Refusal::ShortText, 2);
    let mut presses = [7; 23];
    let half_a_press = lent::press_trace(&[], &[0, 0], &mut presses);
    said(half_a_press, Refusal::BadTrace, 16);
    assert_eq!(presses, [7; 23]);
    let mut sheet = |form| loan.chart_sheet(DATA, 4, form);
    said(sheet(3), Refusal::OtherForm, 20);
    loan.shorten(Lent::Sheet);
    said(loan.chart_sheet(DATA, 4, 0), Refusal::ShortSheet, 19);
}
