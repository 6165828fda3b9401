//! Every function beside the stored sample of the Rust's answers, `crates/replay_charts/stdin` of the repository.
//! One set of buffers serves all texts, so that what one chart leaves in them meets the next.

#[path = "../../../tests/vectors/reader.rs"]
mod reader;

use padcheck::stats::ChartNotesScratch;
use padcheck::{
    ArrowStats, Buffers, ChartNoteType, DropCause, DroppedHead, Figures, KeptChart, Lengths,
    ParsedChartNote, Press, PressCounts, lent, place,
};
use reader::Reader;
use std::fs;
use std::path::Path;

struct Answer<'a> {
    figures: Figures,
    text: &'a [u8],
    /// Densities, or one byte a measure for the spacing.
    measures: &'a [u8],
    beats: &'a [u8],
    notes: &'a [u8],
}

impl Answer<'_> {
    fn stats(&self) -> ArrowStats {
        ArrowStats::from_figures(&self.figures)
    }

    fn densities(&self) -> Vec<usize> {
        words(self.measures).map(|word| word as usize).collect()
    }

    fn beat_bits(&self) -> Vec<u32> {
        words(self.beats).collect()
    }
}

struct Record<'a> {
    lanes: usize,
    text: &'a [u8],
    flags: &'a [u8],
    answers: [Answer<'a>; 11],
}

/// Places of the answers in a record.
const MAIN: usize = 0;
const KEPT: usize = 1;
const TIMING_ROWS: usize = 2;
const DENSITIES: usize = 3;
const SPACING: usize = 4;
const LAST_BEAT: usize = 5;
const JUDGED: usize = 6;
const FLAGGED: usize = 7;
const DROPPED: usize = 8;
const WRITTEN: usize = 9;
const TRACED: usize = 10;

fn answer<'a>(reader: &mut Reader<'a>) -> Answer<'a> {
    let figures = std::array::from_fn(|_| reader.number(8));
    let [text, measures, beats, notes] = std::array::from_fn(|_| reader.length());
    Answer {
        figures,
        text: reader.bytes(text),
        measures: reader.bytes(measures),
        beats: reader.bytes(beats),
        notes: reader.bytes(notes),
    }
}

fn record<'a>(reader: &mut Reader<'a>) -> Record<'a> {
    reader.length();
    let (text, flags) = (reader.length(), reader.length());
    Record {
        lanes: reader.number(8) as usize,
        text: reader.bytes(text),
        flags: reader.bytes(flags),
        answers: std::array::from_fn(|_| answer(reader)),
    }
}

fn words(bytes: &[u8]) -> impl Iterator<Item = u32> {
    let (words, rest) = bytes.as_chunks();
    assert!(rest.is_empty());
    words.iter().map(|&word| u32::from_le_bytes(word))
}

fn bits(beats: &[f32]) -> Vec<u32> {
    beats.iter().map(|beat| beat.to_bits()).collect()
}

/// Shows each record of the sample to a test.
fn each_record(mut test: impl FnMut(&Record)) {
    let path = Path::new(env!("CARGO_MANIFEST_DIR")).join("../../crates/replay_charts/stdin");
    let file = fs::read(path).expect("the stored sample is in the repository");
    let mut reader = Reader(&file);
    assert_eq!(reader.bytes(8), b"ANSWERS1");
    reader.number(8);
    let count = reader.number(8);
    assert!(count > 300);
    for _ in 0..count {
        test(&record(&mut reader));
    }
    assert!(reader.0.is_empty());
}

#[test]
fn main_charts() {
    let mut buffers = Buffers::new();
    let mut scratch = ChartNotesScratch::default();
    each_record(|record| {
        let answer = &record.answers[MAIN];
        let last_bits = answer.figures[place::LAST_BEAT];

        let kept = buffers
            .minimize_chart_count_rows_notes(record.text, record.lanes)
            .unwrap();
        assert_eq!(kept.text, answer.text);
        assert_eq!(kept.stats, answer.stats());
        assert!(words(answer.measures).eq(kept.densities.iter().copied()));
        assert_eq!(bits(kept.beats), answer.beat_bits());
        assert_eq!(kept.notes.records(), answer.notes);
        assert_eq!(kept.last.beat.to_bits(), last_bits);
        assert_eq!(kept.last.in_48ths, answer.figures[place::LAST_BEAT_48THS]);
        let notes: Vec<_> = kept.notes.collect();
        assert_eq!(notes, stored_notes(answer.notes));

        let chart = padcheck::minimize_chart_count_rows_notes(record.text, record.lanes).unwrap();
        assert_eq!(chart.text, answer.text);
        assert_eq!(chart.stats, answer.stats());
        assert_eq!(chart.densities, answer.densities());
        assert_eq!(bits(&chart.beats), answer.beat_bits());
        assert_eq!(chart.notes, notes);
        assert_eq!(chart.last.beat.to_bits(), last_bits);

        let (text, stats, densities, beats, last) =
            padcheck::stats::minimize_chart_count_rows_notes(
                record.text,
                record.lanes,
                &mut scratch,
            );
        assert_eq!(
            (text, stats, densities),
            (chart.text, chart.stats, chart.densities)
        );
        assert_eq!(
            (bits(&beats), last.to_bits()),
            (answer.beat_bits(), last_bits)
        );
        assert!(scratch.drain().eq(notes));
    });
}

/// The notes of stored records, read by their layout.
fn stored_notes(records: &[u8]) -> Vec<ParsedChartNote> {
    const KINDS: [ChartNoteType; 6] = [
        ChartNoteType::Tap,
        ChartNoteType::Hold,
        ChartNoteType::Roll,
        ChartNoteType::Mine,
        ChartNoteType::Lift,
        ChartNoteType::Fake,
    ];
    let mut reader = Reader(records);
    let mut notes = Vec::new();
    while !reader.0.is_empty() {
        let (row, tail) = (reader.length(), reader.length());
        notes.push(ParsedChartNote {
            row_index: row,
            tail_row_index: (tail != 4_294_967_295).then_some(tail),
            column: reader.number(1) as usize,
            note_type: KINDS[reader.number(1) as usize],
        });
    }
    notes
}

#[test]
fn kept_charts() {
    let mut buffers = Buffers::new();
    each_record(|record| {
        let answer = &record.answers[KEPT];
        let (text, stats, densities) =
            padcheck::process_chart_kept(record.text, record.lanes).unwrap();
        assert_eq!(
            (&text[..], &stats, densities),
            (answer.text, &answer.stats(), answer.densities())
        );
        let densities: Vec<u32> = words(answer.measures).collect();
        let rows = answer.figures[place::ROWS] as usize;
        let chart = KeptChart {
            text: answer.text,
            stats,
            densities: &densities,
            rows,
        };
        assert_eq!(
            buffers.process_chart_kept(record.text, record.lanes),
            Ok(chart)
        );
    });
}

#[test]
fn timing_rows() {
    let mut buffers = Buffers::new();
    each_record(|record| {
        let answer = &record.answers[TIMING_ROWS];
        let timing = buffers
            .minimize_timing_rows(record.text, record.lanes)
            .unwrap();
        assert_eq!(timing.rows, answer.text);
        assert_eq!(bits(timing.beats), answer.beat_bits());
        assert_eq!(
            u64::from(timing.has_heads),
            answer.figures[place::HAS_HEADS]
        );
        match record.lanes {
            5 => typed_rows::<5>(record.text, answer),
            6 => typed_rows::<6>(record.text, answer),
            8 => typed_rows::<8>(record.text, answer),
            10 => typed_rows::<10>(record.text, answer),
            _ => typed_rows::<4>(record.text, answer),
        }
    });
}

fn typed_rows<const L: usize>(text: &[u8], answer: &Answer) {
    let (rows, beats, has_heads) = padcheck::minimize_timing_rows::<L>(text).unwrap();
    assert_eq!(rows.concat(), answer.text);
    assert_eq!(bits(&beats), answer.beat_bits());
    assert_eq!(u64::from(has_heads), answer.figures[place::HAS_HEADS]);
}

#[test]
fn densities() {
    let mut buffers = Buffers::new();
    each_record(|record| {
        let answer = &record.answers[DENSITIES];
        assert_eq!(
            padcheck::measure_densities(record.text, record.lanes),
            Ok(answer.densities())
        );
        assert_eq!(
            padcheck::stats::measure_densities(record.text, record.lanes),
            answer.densities()
        );
        let kept = buffers
            .measure_densities(record.text, record.lanes)
            .unwrap();
        assert!(words(answer.measures).eq(kept.iter().copied()));
    });
}

#[test]
fn spacing() {
    let mut buffers = Buffers::new();
    each_record(|record| {
        let answer = &record.answers[SPACING];
        let spaced: Vec<bool> = answer.measures.iter().map(|&byte| byte != 0).collect();
        assert_eq!(
            padcheck::equally_spaced(record.text, record.lanes).as_ref(),
            Ok(&spaced)
        );
        assert_eq!(
            padcheck::stats::measure_equally_spaced(record.text, record.lanes),
            spaced
        );
        assert_eq!(
            buffers.equally_spaced(record.text, record.lanes),
            Ok(answer.measures)
        );
    });
}

#[test]
fn last_beats() {
    each_record(|record| {
        let figures = &record.answers[LAST_BEAT].figures;
        let last = padcheck::chart_last_beat(record.text, record.lanes).unwrap();
        assert_eq!(last.beat.to_bits(), figures[place::LAST_BEAT]);
        assert_eq!(last.in_48ths, figures[place::LAST_BEAT_48THS]);
        assert_eq!(
            padcheck::stats::chart_last_beat(record.text, record.lanes).to_bits(),
            last.beat.to_bits()
        );
    });
}

#[test]
fn judged_tallies() {
    let mut buffers = Buffers::new();
    each_record(|record| {
        let stats = record.answers[JUDGED].stats();
        assert_eq!(
            padcheck::process_rows_judgable(record.text, record.lanes).as_ref(),
            Ok(&stats)
        );
        assert_eq!(
            buffers.process_rows_judgable(record.text, record.lanes),
            Ok(stats)
        );
        let stats = record.answers[FLAGGED].stats();
        let flagged = padcheck::process_timing_rows(record.text, record.lanes, record.flags);
        assert_eq!(flagged.as_ref(), Ok(&stats));
        assert_eq!(
            buffers.process_timing_rows(record.text, record.lanes, record.flags),
            Ok(stats)
        );
    });
}

/// Three rows, of which one, two or all have a flag, or none has: a row past the flags is unjudged.
#[test]
fn missing_flags() {
    const TEXT: &[u8] = b"1000\n0110\n0001\n";
    let mut buffers = Buffers::new();
    for (flags, arrows, fakes) in [
        (&[][..], 0, 4),
        (&[1], 1, 3),
        (&[0, 1], 2, 2),
        (&[1, 0, 255], 2, 2),
    ] {
        let stats = padcheck::process_timing_rows(TEXT, 4, flags).unwrap();
        assert_eq!(
            (stats.total_arrows, stats.fakes),
            (arrows, fakes),
            "{flags:?}"
        );
        assert_eq!(buffers.process_timing_rows(TEXT, 4, flags), Ok(stats));
    }
    let all = padcheck::process_rows_judgable(TEXT, 4).unwrap();
    assert_eq!((all.total_arrows, all.fakes), (4, 0));
    let flagged = padcheck::process_timing_rows(TEXT, 4, &[1, 2, 255, 0]);
    assert_eq!(flagged, Ok(all));
}

#[test]
fn dropped_heads() {
    let mut buffers = Buffers::new();
    each_record(|record| {
        let answer = &record.answers[DROPPED];
        let dropped = buffers.dropped_holds(record.text, record.lanes).unwrap();
        assert_eq!(dropped.text, answer.text);
        let counts = [dropped.measures, dropped.rows, dropped.heads.len()];
        let places = [place::MEASURES, place::ROWS, place::NOTES];
        assert_eq!(counts, places.map(|place| answer.figures[place] as usize));
        assert_eq!(dropped.heads.records(), answer.notes);
        let heads = stored_heads(answer.notes);
        assert!(dropped.heads.eq(heads.iter().copied()));
        assert_eq!(
            padcheck::dropped_holds(record.text, record.lanes),
            Ok(heads)
        );
    });
}

/// The dropped heads of stored records, read by their layout.
fn stored_heads(records: &[u8]) -> Vec<DroppedHead> {
    let mut reader = Reader(records);
    let mut heads = Vec::new();
    while !reader.0.is_empty() {
        let (row, by) = (reader.length(), reader.length());
        let column = reader.number(1) as usize;
        let cause = match reader.number(1) {
            0 => DropCause::OtherHead(by),
            1 => DropCause::OtherCell(by),
            2 if by == 4_294_967_295 => DropCause::ChartEnd,
            reason => panic!("{reason} is no reason"),
        };
        heads.push(DroppedHead { row, column, cause });
    }
    heads
}

/// The chart that is written for stored records, which stand as an answer's notes, and row counts, which stand as its densities.
#[test]
fn written_charts() {
    let mut buffers = Buffers::new();
    each_record(|record| {
        let answer = &record.answers[WRITTEN];
        let (records, lanes) = (answer.notes, record.lanes);
        let counts: Vec<u32> = words(answer.measures).collect();
        assert_eq!(Lengths::written(lanes, &counts), answer.text.len());
        let mut text = vec![7; answer.text.len()];
        let mut figures = [7; 32];
        let written = lent::notes_to_chart(records, lanes, &counts, &mut text, &mut figures);
        assert_eq!(written, Ok(()));
        assert_eq!((&text[..], figures), (answer.text, answer.figures));
        let kept = buffers.notes_to_chart(records, lanes, &counts);
        assert_eq!(kept, Ok(answer.text));
        let owned = padcheck::notes_to_chart(records, lanes, &counts);
        assert_eq!(owned.as_deref(), Ok(answer.text));
        let notes = stored_notes(records);
        let owned = padcheck::parsed_notes_to_chart(&notes, lanes, &counts);
        assert_eq!(owned.as_deref(), Ok(answer.text));
    });
}

/// What the presses come to that stand as an answer's text, beside the stored records, which stand as its notes.
#[test]
fn traces() {
    each_record(|record| {
        let answer = &record.answers[TRACED];
        let (records, trace) = (answer.notes, answer.text);
        let mut numbers = [7; 23];
        assert_eq!(lent::press_trace(records, trace, &mut numbers), Ok(()));
        assert_eq!(numbers, answer.figures[..numbers.len()]);
        let counts = PressCounts::from_presses(&numbers);
        assert_eq!(padcheck::press_trace(records, trace), Ok(counts));
        let (presses, rest) = trace.as_chunks();
        assert!(rest.is_empty());
        let presses: Vec<_> = presses.iter().copied().map(Press::from_bytes).collect();
        let notes = stored_notes(records);
        let owned = padcheck::parsed_press_trace(&notes, &presses);
        assert_eq!(owned, Ok(counts));
    });
}
