//! How much memory a call makes resident where it is lent slices that no one wrote to yet: its answers, and little more. The most that a process
//! had resident is asked of the kernel, so each test runs in a process of its own.

#[path = "../../../bench/chart.rs"]
#[allow(dead_code)] // Not every kind of text is asked about here.
mod chart;
mod loan;

use chart::Kind;
use loan::Loan;
use padcheck::{Buffers, DROPPED_BYTES, Lengths, MAX_LEN, NOTE_BYTES, SheetForm, place};
use std::ffi::c_int;
use std::process::Command;
use std::{env, fs};

const LANES: usize = 4;

/// What may be resident beside the text and the answers: the program, and what their pages are longer than they.
const BESIDES: usize = 8_000_000;

/// The bytes of a large page. In those that `Buffers` asks for, an answer is rounded up to one.
const LARGE_PAGE: usize = 1 << 21;

/// Set in the process that a test has for itself.
const ALONE: &str = "PADCHECK_TEST_ALONE";

/// Runs a test in a process of its own: outside of one it starts that process, which must pass the test.
fn alone(test: &str, run: impl FnOnce()) {
    if env::var_os(ALONE).is_some() {
        return run();
    }
    let mut command = Command::new(env::current_exe().unwrap());
    let command = command.args(["--exact", test]).env(ALONE, "");
    let output = command.output().unwrap();
    let said = String::from_utf8_lossy(&output.stdout);
    assert!(
        output.status.success() && said.contains("1 passed"),
        "{said}"
    );
}

/// Has this process take no large pages, where the system gives them unasked.
fn small_pages() {
    /// `PR_SET_THP_DISABLE` of the kernel's headers.
    const DISABLE_LARGE_PAGES: c_int = 41;

    unsafe extern "C" {
        fn prctl(option: c_int, ...) -> c_int;
    }

    // SAFETY: this option takes a number and three zeros, and changes what pages the kernel maps from here on, and nothing else.
    unsafe { prctl(DISABLE_LARGE_PAGES, 1_u64, 0_u64, 0_u64, 0_u64) };
}

/// The most bytes that this process has had resident.
fn peak() -> usize {
    let status = fs::read_to_string("/proc/self/status").unwrap();
    let line = status.lines().find_map(|line| line.strip_prefix("VmHWM:"));
    let kilobytes = line.unwrap().trim().strip_suffix(" kB").unwrap();
    1024 * kilobytes.parse::<usize>().unwrap()
}

/// That no more was resident than the text, what was written of the slices, and what may be besides.
fn within(data: &[u8], written: usize, besides: usize) {
    let (peak, most) = (peak(), data.len() + written + besides);
    assert!(
        peak <= most,
        "{peak} bytes were resident, at most {most} may be"
    );
}

/// A text of the greatest length.
fn text(kind: Kind) -> Vec<u8> {
    chart::text(LANES, MAX_LEN, b"\n", 1, kind)
}

/// Slices for a text, each entry of them this number; no sheet.
fn slices(data: &[u8], entry: u8) -> Loan {
    let lengths = Lengths::of(data.len(), LANES);
    Loan::of(
        Lengths {
            sheet: 0,
            ..lengths
        },
        entry,
    )
}

fn figure(loan: &Loan, place: usize) -> usize {
    loan.figures[place].try_into().unwrap()
}

/// Bytes of all that the main call answers.
fn answers(loan: &Loan) -> usize {
    figure(loan, place::TEXT_BYTES)
        + size_of::<u32>() * figure(loan, place::MEASURES)
        + size_of::<f32>() * figure(loan, place::ROWS)
        + NOTE_BYTES * figure(loan, place::NOTES)
}

#[test]
fn the_main_call() {
    alone("the_main_call", || {
        small_pages();
        let data = text(Kind::Closed);
        let mut loan = slices(&data, 0);
        loan.main_call(&data, LANES).unwrap();
        within(&data, answers(&loan), BESIDES);
    });
}

#[test]
fn the_main_call_on_a_text_that_minimises() {
    alone("the_main_call_on_a_text_that_minimises", || {
        small_pages();
        let data = text(Kind::Sparse);
        let mut loan = slices(&data, 0);
        loan.main_call(&data, LANES).unwrap();
        within(&data, answers(&loan), BESIDES);
    });
}

/// A tally that is counted anew marks rows in the work slice.
#[test]
fn the_main_call_on_an_unclosed_text() {
    alone("the_main_call_on_an_unclosed_text", || {
        small_pages();
        let data = text(Kind::Unclosed);
        let mut loan = slices(&data, 0);
        loan.main_call(&data, LANES).unwrap();
        let marks = size_of::<u16>() * figure(&loan, place::ROWS);
        within(&data, answers(&loan) + marks, BESIDES);
    });
}

#[test]
fn the_dropped_heads() {
    alone("the_dropped_heads", || {
        small_pages();
        let data = text(Kind::Unclosed);
        let mut loan = slices(&data, 0);
        loan.dropped_holds(&data, LANES).unwrap();
        let list = DROPPED_BYTES * figure(&loan, place::NOTES);
        within(&data, figure(&loan, place::TEXT_BYTES) + list, BESIDES);
    });
}

#[test]
fn the_sheet() {
    alone("the_sheet", || {
        small_pages();
        let data = text(Kind::Sparse);
        let mut loan = Loan::of(Lengths::of(data.len(), LANES), 0);
        loan.chart_sheet(&data, LANES, SheetForm::Json.number())
            .unwrap();
        let spacing = figure(&loan, place::MEASURES);
        let sheet = figure(&loan, place::SHEET_BYTES);
        within(&data, answers(&loan) + spacing + sheet, BESIDES);
    });
}

#[test]
fn buffers_of_large_pages() {
    alone("buffers_of_large_pages", || {
        let data = text(Kind::Sparse);
        let mut buffers = Buffers::new();
        let chart = buffers
            .minimize_chart_count_rows_notes(&data, LANES)
            .unwrap();
        let answers = chart.text.len()
            + size_of_val(chart.densities)
            + size_of_val(chart.beats)
            + NOTE_BYTES * chart.notes.len();
        within(&data, answers, BESIDES + 5 * LARGE_PAGE);
    });
}

/// That the count tells: of slices which hold something every byte is resident.
#[test]
fn slices_that_hold_something() {
    alone("slices_that_hold_something", || {
        let data = text(Kind::Sparse);
        let mut loan = slices(&data, 1);
        loan.main_call(&data, LANES).unwrap();
        let lent = size_of_val(&loan.text[..])
            + size_of_val(&loan.densities[..])
            + size_of_val(&loan.beats[..])
            + size_of_val(&loan.work[..])
            + size_of_val(&loan.notes[..]);
        assert!(peak() > data.len() + lent);
        assert!(lent > answers(&loan) + BESIDES + 5 * LARGE_PAGE);
    });
}
