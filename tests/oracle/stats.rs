//! `docs/src/stats.rs`, unchanged, and below it three modules that reach its private functions.

include!("../../docs/src/stats.rs");

/// The Rust's macro of this name with six lanes besides, which the Rust reads as four.
macro_rules! dispatch_lanes {
    ($lanes:expr, $func:ident($($arg:expr),*)) => {
        match $lanes {
            5 => $func::<5>($($arg),*),
            6 => $func::<6>($($arg),*),
            8 => $func::<8>($($arg),*),
            10 => $func::<10>($($arg),*),
            _ => $func::<4>($($arg),*),
        }
    };
}

#[warn(dead_code, unused_imports)]
pub mod calls;
#[warn(dead_code, unused_imports)]
pub mod leaves;
#[warn(dead_code, unused_imports)]
pub mod timed;
