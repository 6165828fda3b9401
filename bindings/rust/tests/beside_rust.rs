//! `padcheck::stats` beside rssp's own `stats.rs`, as published, on the texts of the stored sample and on random ones. Where a row
//! would have a byte 13 the Rust is asked about another text.
//! Answers are compared in the form that `{:?}` prints, which has every field by its name and every float exactly; a tally without its
//! keysounds and the directions of six lanes, which the Rust does not count. The Rust reads lane number 6 as 4, so there its functions over
//! a const L are asked, and of a tally of theirs the directions are left out.

#[path = "../../../tests/oracle/asked.rs"]
mod asked;
#[path = "../../../tests/vectors/reader.rs"]
mod reader;
#[path = "../../../docs/src/stats.rs"]
#[expect(dead_code, unused_imports, reason = "the file is rssp's, unchanged")]
mod rssp;
#[path = "../../../tests/oracle/streams.rs"]
mod streams;
#[path = "../../../tests/oracle/timing.rs"]
mod timing;

use asked::{chart_text, read_back_text};
use padcheck::stats;
use reader::Reader;
use std::fmt::Debug;
use std::fs;
use std::path::Path;
use timing::TimingData;

/// Each item with the same type for either module, so that a signature that differs from rssp's does not compile.
macro_rules! signatures {
    ($test:ident, $module:ident) => {
        #[test]
        fn $test() {
            use $module::*;
            type Counted = (Vec<u8>, ArrowStats, Vec<usize>, Vec<f32>, f64);
            let _: fn(&[u8], usize) -> (Vec<u8>, ArrowStats, Vec<usize>) =
                minimize_chart_and_count_with_lanes;
            let _: fn(&[u8], usize) -> Counted = minimize_chart_count_rows;
            let _: fn(&[u8], usize, &mut ChartNotesScratch) -> Counted =
                minimize_chart_count_rows_notes;
            let _: fn(&[u8], usize) -> Vec<u8> = minimize_chart_for_hash;
            let _: fn(&[u8]) -> MinimizedTypedRows<8> = minimize_rows_typed::<8>;
            let _: fn(&[u8]) -> (Vec<u8>, ArrowStats, Vec<usize>, Vec<[u8; 8]>, Vec<f32>, f64) =
                minimize_rows_typed::<8>;
            let _: fn(&[u8], &mut TypedRowsScratch<8>) -> Counted = minimize_rows_typed_in::<8>;
            let _: fn(&[u8], &mut TypedRowsScratch<8>, &mut ChartNotesScratch) -> Counted =
                minimize_rows_typed_in_notes::<8>;
            let _: fn(&[u8], usize) -> Vec<usize> = measure_densities;
            let _: fn(&[u8], usize) -> Vec<bool> = measure_equally_spaced;
            let _: fn(&[u8], usize) -> f64 = chart_last_beat;
            let _: fn(&TypedRowsScratch<8>) -> &[[u8; 8]] = TypedRowsScratch::rows;
            let _: fn(&mut TypedRowsScratch<8>) = TypedRowsScratch::clear;
            let _: fn(&TypedRowsScratch<8>) -> usize = TypedRowsScratch::row_capacity;
            let _: fn(&ChartNotesScratch) -> usize = ChartNotesScratch::capacity;
            let ArrowStats {
                total_arrows: 0u32,
                holding: 0i32,
                ..
            } = ArrowStats::default()
            else {
                panic!("a tally begins at 0");
            };
            let mut notes = ChartNotesScratch::default();
            let _ = minimize_chart_count_rows_notes(b"1000", 4, &mut notes);
            let note: ParsedChartNote = notes.drain().next().unwrap();
            let ParsedChartNote {
                row_index: 0usize,
                column: 0usize,
                note_type: ChartNoteType::Tap,
                tail_row_index: None::<usize>,
            } = note
            else {
                panic!("not the tap: {note:?}");
            };
            use ChartNoteType::*;
            let kinds = [Tap, Hold, Roll, Mine, Lift, Fake].map(|kind| kind as u8);
            assert_eq!(kinds, [0, 1, 2, 3, 4, 5]);
            let empty = TypedRowsScratch::<4>::default();
            assert_eq!(format!("{empty:?}"), "TypedRowsScratch { row_capacity: 0 }");
        }
    };
}

signatures!(signatures_of_rssp, rssp);
signatures!(signatures_of_the_binding, stats);

/// Shows each text with its lane count, but for 6, to a test.
fn each_text(mut test: impl FnMut(&[u8], usize)) {
    every_text(|data, lanes| {
        if lanes != 6 {
            test(data, lanes);
        }
    });
}

/// Shows each text with its lane count to a test: those of the stored sample, then random ones.
fn every_text(mut test: impl FnMut(&[u8], usize)) {
    let path = Path::new(env!("CARGO_MANIFEST_DIR")).join("../../crates/replay_charts/stdin");
    let file = fs::read(path).expect("the stored sample is in the repository");
    let mut reader = Reader(&file);
    reader.bytes(16);
    let count = reader.number(8);
    assert!(count > 300);
    for _ in 0..count {
        let rest = reader.length() - 4;
        let mut record = Reader(reader.bytes(rest));
        let text = record.length();
        record.length();
        let lanes = record.number(8) as usize;
        test(record.bytes(text), lanes);
    }
    let mut draw = Draw(1);
    for _ in 0..5_000 {
        let lanes = draw.from(&[4, 5, 6, 8, 10]);
        test(&draw.text(lanes), lanes);
    }
}

/// Random numbers, the sequence called splitmix64.
struct Draw(u64);

impl Draw {
    fn below(&mut self, n: usize) -> usize {
        self.0 = self.0.wrapping_add(0x9E37_79B9_7F4A_7C15);
        let mut z = self.0;
        z = (z ^ (z >> 30)).wrapping_mul(0xBF58_476D_1CE4_E5B9);
        z = (z ^ (z >> 27)).wrapping_mul(0x94D0_49BB_1331_11EB);
        ((z ^ (z >> 31)) % n as u64) as usize
    }

    fn from<T: Copy>(&mut self, list: &[T]) -> T {
        list[self.below(list.len())]
    }

    /// Up to 40 lines: rows, some all zero, and the marks; now and then a byte that is none of a chart's.
    fn text(&mut self, width: usize) -> Vec<u8> {
        let cells: &[u8] = self.from(&[b"0001", b"00000123", b"01234MLFKmlf", b"23", b"0124\r ,x"]);
        let mut text = Vec::new();
        for _ in 0..self.below(40) {
            match self.below(12) {
                0 => text.push(b','),
                1 => text.extend_from_slice(self.from(&[
                    &b" ,1111"[..],
                    b"// 2222",
                    b"",
                    b"\t100",
                    b";",
                ])),
                2..5 => text.extend((0..width).map(|_| b'0')),
                _ => text.extend((0..width + self.below(8) / 7).map(|_| self.from(cells))),
            }
            text.extend_from_slice(self.from(&[&b"\n"[..], b"\n", b"\r\n"]));
        }
        text
    }
}

/// Compares what both answer.
fn same(ours: impl Debug, rust: impl Debug, data: &[u8], lanes: usize) {
    assert_eq!(
        without_own_fields(&format!("{ours:?}")),
        format!("{rust:?}"),
        "{} at {lanes} lanes",
        data.escape_ascii()
    );
}

/// What is printed of an answer but for the last fields of its tally, where it has one.
fn without_own_fields(printed: &str) -> String {
    without(printed, ", keysounds: ", " }")
}

/// What is printed without a part of it, from this on and up to that.
fn without(printed: &str, from: &str, to: &str) -> String {
    let Some((before, rest)) = printed.split_once(from) else {
        return printed.to_string();
    };
    let at = rest.find(to).expect("a tally goes on so");
    format!("{before}{}", &rest[at..])
}

/// Compares what two functions of the same name answer of a chart.
fn beside<A: Debug, B: Debug>(
    ours: fn(&[u8], usize) -> A,
    rust: fn(&[u8], usize) -> B,
    data: &[u8],
    lanes: usize,
) {
    let asked = &chart_text(data, lanes);
    same(ours(data, lanes), rust(asked, lanes), data, lanes);
}

#[test]
fn charts_by_lane_count() {
    let mut ours = stats::ChartNotesScratch::default();
    let mut rust = rssp::ChartNotesScratch::default();
    each_text(|data, lanes| {
        let asked = &chart_text(data, lanes);
        beside(
            stats::minimize_chart_and_count_with_lanes,
            rssp::minimize_chart_and_count_with_lanes,
            data,
            lanes,
        );
        beside(
            stats::minimize_chart_count_rows,
            rssp::minimize_chart_count_rows,
            data,
            lanes,
        );
        same(
            stats::minimize_chart_count_rows_notes(data, lanes, &mut ours),
            rssp::minimize_chart_count_rows_notes(asked, lanes, &mut rust),
            data,
            lanes,
        );
        same(
            ours.drain().collect::<Vec<_>>(),
            rust.drain().collect::<Vec<_>>(),
            data,
            lanes,
        );
        beside(
            stats::minimize_chart_for_hash,
            rssp::minimize_chart_for_hash,
            data,
            lanes,
        );
    });
}

#[test]
fn scans() {
    each_text(|data, lanes| {
        beside(
            stats::measure_equally_spaced,
            rssp::measure_equally_spaced,
            data,
            lanes,
        );
        beside(stats::chart_last_beat, rssp::chart_last_beat, data, lanes);
        beside(
            stats::measure_densities,
            rssp::measure_densities,
            data,
            lanes,
        );
    });
}

/// Typed rows, with scratches that have served the text before.
struct Typed<const L: usize> {
    ours: (stats::TypedRowsScratch<L>, stats::ChartNotesScratch),
    rust: (rssp::TypedRowsScratch<L>, rssp::ChartNotesScratch),
}

impl<const L: usize> Typed<L> {
    fn new() -> Self {
        Self {
            ours: Default::default(),
            rust: Default::default(),
        }
    }

    fn compare(&mut self, data: &[u8]) {
        let (ours, rust) = (&mut self.ours, &mut self.rust);
        let asked = &chart_text(data, L);
        same(
            stats::minimize_rows_typed::<L>(data),
            rssp::minimize_rows_typed::<L>(asked),
            data,
            L,
        );
        same(
            stats::minimize_rows_typed_in(data, &mut ours.0),
            rssp::minimize_rows_typed_in(asked, &mut rust.0),
            data,
            L,
        );
        same(ours.0.rows(), rust.0.rows(), data, L);
        ours.0.clear();
        rust.0.clear();
        same(ours.0.rows(), rust.0.rows(), data, L);
        same(
            stats::minimize_rows_typed_in_notes(data, &mut ours.0, &mut ours.1),
            rssp::minimize_rows_typed_in_notes(asked, &mut rust.0, &mut rust.1),
            data,
            L,
        );
        same(ours.0.rows(), rust.0.rows(), data, L);
        same(
            ours.1.drain().collect::<Vec<_>>(),
            rust.1.drain().collect::<Vec<_>>(),
            data,
            L,
        );
    }
}

#[test]
fn typed_rows() {
    let mut four = Typed::<4>::new();
    let mut five = Typed::<5>::new();
    let mut eight = Typed::<8>::new();
    let mut ten = Typed::<10>::new();
    each_text(|data, lanes| match lanes {
        5 => five.compare(data),
        8 => eight.compare(data),
        10 => ten.compare(data),
        _ => four.compare(data),
    });
}

#[test]
fn six_lanes() {
    let (mut ours, mut notes) = Default::default();
    let (mut rust, mut rust_notes) = Default::default();
    let printed = |answer: &dyn Debug| without(&format!("{answer:?}"), " left: ", " total_steps: ");
    let mut texts = 0;
    every_text(|data, lanes| {
        if lanes != 6 {
            return;
        }
        texts += 1;
        let asked = &chart_text(data, 6);
        let got = stats::minimize_rows_typed_in_notes::<6>(data, &mut ours, &mut notes);
        let want = rssp::minimize_rows_typed_in_notes::<6>(asked, &mut rust, &mut rust_notes);
        let stats = &got.1;
        let diagonal = stats.up_left + stats.up_right;
        let other = stats.left + stats.down + stats.up + stats.right;
        assert_eq!(other + diagonal, stats.total_arrows);
        assert_eq!(without_own_fields(&printed(&got)), printed(&want));
        assert_eq!(ours.rows(), rust.rows());
        assert!(notes.drain().map(|note| format!("{note:?}")).eq(rust_notes.drain().map(|note| format!("{note:?}"))));
        assert_eq!(stats::minimize_chart_for_hash(data, 6), got.0);
        assert_eq!(stats::measure_densities(data, 6), got.2);
        assert_eq!(stats::chart_last_beat(data, 6).to_bits(), got.4.to_bits());
        let typed = stats::minimize_rows_typed::<6>(data);
        assert_eq!((typed.0, typed.1, typed.2, typed.3), (got.0, got.1, got.2, ours.rows().to_vec()));
    });
    assert!(texts > 500);
}

/// What docs/RUST.md says of the functions that are left out: which call answers the same, and on which texts.
#[test]
fn calls_in_place_of_what_is_left_out() {
    each_text(|data, lanes| {
        let asked = &chart_text(data, lanes);
        let read_back = &read_back_text(data, lanes);
        let judged = padcheck::process_rows_judgable(data, lanes).unwrap();
        same(
            &judged,
            rssp::compute_timing_aware_stats_with_row_to_beat(read_back, lanes, &TimingData, &[]),
            data,
            lanes,
        );
        if judged.holds + judged.rolls == 0 {
            let rust = rssp::compute_no_hold_stats(read_back, lanes, &TimingData, &[]);
            same(&judged, rust, data, lanes);
        }

        if lanes == 4 {
            let (text, tally, densities, rows, beats, last, _) =
                rssp::minimize_chart_rows_bits(asked);
            let ours = stats::minimize_chart_count_rows(data, 4);
            same(ours, (text, tally, densities, beats, last), data, 4);
            same(stats::minimize_rows_typed::<4>(data).3, rows, data, 4);
        }

        let minimised = stats::minimize_chart_for_hash(data, lanes);
        same(
            padcheck::process_rows_judgable(&minimised, lanes).unwrap(),
            rssp::compute_timing_aware_stats(asked, lanes, &TimingData),
            data,
            lanes,
        );
        let mut spaced = Vec::new();
        let visited = rssp::visit_measure_spacing(&minimised, lanes, |flag| {
            spaced.push(flag);
            Ok::<(), ()>(())
        });
        assert_eq!(visited, Ok(()));
        same(
            stats::measure_equally_spaced(&minimised, lanes),
            spaced,
            &minimised,
            lanes,
        );
    });
}

/// The names of the public functions, types and constants of a Rust file, and of what it hands on from its own crate.
fn public_items(file: &str) -> Vec<&str> {
    let mut names = Vec::new();
    for line in file.lines() {
        if let Some(list) = line.strip_prefix("pub use crate::{") {
            names.extend(list.trim_end_matches("};").split(", "));
        }
        for word in ["fn", "struct", "enum", "type", "const"] {
            let item = line
                .strip_prefix("pub ")
                .and_then(|rest| rest.strip_prefix(word));
            if let Some(name) = item.and_then(|rest| rest.strip_prefix(' ')) {
                let end = name.find(|c: char| !c.is_alphanumeric() && c != '_');
                names.push(&name[..end.unwrap_or(name.len())]);
            }
        }
    }
    names
}

/// docs/RUST.md has a line for each public item of the Rust, and says `given` of those that `stats` has and of no other.
#[test]
fn the_table_has_every_public_item() {
    let root = Path::new(env!("CARGO_MANIFEST_DIR")).join("../..");
    let read = |path: &str| fs::read_to_string(root.join(path)).expect("a file of the repository");
    let (rust, ours) = (
        read("docs/src/stats.rs"),
        read("bindings/rust/src/stats.rs"),
    );
    let (rust, ours) = (public_items(&rust), public_items(&ours));
    let table = read("docs/RUST.md");
    assert_eq!(rust.len(), 25);
    for name in rust {
        let start = format!("| `{name}` | ");
        let line = table.lines().find_map(|line| line.strip_prefix(&start));
        let line = line.unwrap_or_else(|| panic!("docs/RUST.md has no line for {name}"));
        assert_eq!(
            line.starts_with("given"),
            ours.contains(&name),
            "{name}: {line}"
        );
    }
}
