//! Whether standard output was closed when the program began. Before `main` the standard library opens the null device in its
//! place, and a sheet that is written there would be lost without a word; so this looks earlier, when the program is loaded.
#![expect(unsafe_code, reason = "there is no safe way to look before `main`")]

use std::ffi::c_int;
use std::sync::atomic::{AtomicBool, Ordering};

static CLOSED: AtomicBool = AtomicBool::new(false);

unsafe extern "C" {
    fn fcntl(descriptor: c_int, command: c_int, ...) -> c_int;
}

/// The number of standard output, and the command that asks for a descriptor's flags, which one that is closed does not have.
const OUTPUT: c_int = 1;
const GET_FLAGS: c_int = 1;

extern "C" fn look() {
    // SAFETY: this command takes no third argument and changes nothing.
    let flags = unsafe { fcntl(OUTPUT, GET_FLAGS) };
    CLOSED.store(flags == -1, Ordering::Relaxed);
}

// SAFETY: what stands in this section are functions without arguments, called once before `main`.
#[used]
#[unsafe(link_section = ".init_array")]
static LOOK: extern "C" fn() = look;

/// Whether standard output was closed when the program began.
pub fn output_closed() -> bool {
    CLOSED.load(Ordering::Relaxed)
}
