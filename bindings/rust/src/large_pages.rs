//! Large pages for fresh buffers. A call looks at all that it is lent, so every page of a buffer is mapped, and the kernel
//! maps 2 MiB at once in less time than it takes for 512 pages of 4 KiB. Where nothing is written it maps its one page of
//! zeros, which takes no memory; the page in which an answer ends is taken whole.

/// Asks for large pages wherever a buffer spans whole ones. It is advice: where the kernel has none to give, nothing changes.
#[cfg(all(target_os = "linux", target_arch = "x86_64"))]
pub(crate) fn advise<T>(buffer: &mut [T]) {
    use std::ffi::{c_int, c_void};

    /// The bytes of a large page.
    const BYTES: usize = 1 << 21;
    /// `MADV_HUGEPAGE` of the kernel's headers.
    const MADV_HUGEPAGE: c_int = 14;

    unsafe extern "C" {
        fn madvise(address: *mut c_void, length: usize, advice: c_int) -> c_int;
    }

    let range = buffer.as_mut_ptr_range();
    let start = range.start.addr().next_multiple_of(BYTES);
    let end = range.end.addr() / BYTES * BYTES;
    if start < end {
        let first = range.start.with_addr(start).cast();
        // SAFETY: these pages lie within the buffer, which is borrowed here, and the advice changes neither what they hold
        // nor who may use them.
        unsafe { madvise(first, end - start, MADV_HUGEPAGE) };
    }
}

/// Elsewhere nothing is asked for.
#[cfg(not(all(target_os = "linux", target_arch = "x86_64")))]
pub(crate) fn advise<T>(_: &mut [T]) {}

#[cfg(test)]
mod tests {
    use super::*;

    #[test]
    fn a_buffer_stays_as_it_was() {
        for len in [0, 1, 1 << 20, 3 << 20] {
            let mut buffer: Vec<u32> = (0..len).collect();
            advise(&mut buffer);
            assert!(buffer.iter().copied().eq(0..len));
        }
    }
}
