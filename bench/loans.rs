//! What an entry is lent, and how many bytes that is.

use oracle::calls::Call;
use oracle::entry::{Lengths, Loan, refusals};
use std::ffi::{c_int, c_void};

/// The shortest slices that the call takes, and none that it is not lent: zeros that no one wrote, so that none of their pages is resident.
pub fn lent(call: Call, len: usize, lanes: usize) -> Loan {
    let lengths = lengths(call, len, lanes);
    without_other_measures(
        call,
        Loan {
            text: untouched(vec![0; lengths.text]),
            densities: untouched(vec![0; lengths.measure]),
            spacing: untouched(vec![0; lengths.measure]),
            beats: untouched(vec![0.0; lengths.beat]),
            work: untouched(vec![0; lengths.work]),
            notes: untouched(vec![0; lengths.note]),
            figures: [0; 32],
        },
    )
}

/// A slice of zeros of which the kernel has taken back each whole page. What an earlier cell let go of the allocator gives again, with zeros
/// written to all of it.
fn untouched<T>(mut zeros: Vec<T>) -> Vec<T> {
    const PAGE: usize = 4096;
    /// `MADV_DONTNEED` of the kernel's headers.
    const MADV_DONTNEED: c_int = 4;

    unsafe extern "C" {
        fn madvise(address: *mut c_void, length: usize, advice: c_int) -> c_int;
    }

    let range = zeros.as_mut_ptr_range();
    let start = range.start.addr().next_multiple_of(PAGE);
    let end = range.end.addr() / PAGE * PAGE;
    if start < end {
        let first = range.start.with_addr(start).cast();
        // SAFETY: these pages lie within the slice and are of no file, so they hold zeros afterwards, as before.
        unsafe { madvise(first, end - start, MADV_DONTNEED) };
    }
    zeros
}

/// The same with something in every entry, so that each page is resident, and what is not written shows.
pub fn marked(call: Call, len: usize, lanes: usize) -> Loan {
    without_other_measures(call, Loan::marked(&lengths(call, len, lanes)))
}

/// Of the two measure slices a call is lent one.
fn without_other_measures(call: Call, mut loan: Loan) -> Loan {
    if call == Call::EquallySpaced {
        loan.densities = Vec::new();
    } else {
        loan.spacing = Vec::new();
    }
    loan
}

/// The shortest lengths that the call takes; 0 for what it is not lent.
fn lengths(call: Call, len: usize, lanes: usize) -> Lengths {
    let enough = Lengths::enough(len, lanes);
    let mut lengths = Lengths::default();
    for number in refusals(call) {
        match number {
            2 => lengths.text = enough.text,
            3 => lengths.measure = enough.measure,
            4 => lengths.beat = enough.beat,
            5 => lengths.work = enough.work,
            6 => lengths.note = enough.note,
            _ => {}
        }
    }
    lengths
}

/// Bytes of all slices of a loan.
pub fn bytes(loan: &Loan) -> usize {
    size_of_val(&loan.text[..])
        + size_of_val(&loan.densities[..])
        + size_of_val(&loan.spacing[..])
        + size_of_val(&loan.beats[..])
        + size_of_val(&loan.work[..])
        + size_of_val(&loan.notes[..])
}
