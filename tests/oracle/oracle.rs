//! The oracle: what the Rust answers, as numbers and bytes, for any text, lane count and flags.
//!
//! - `asked`: the text that the Rust is asked about, which is another where a row would have a byte 13.
//! - `calls`: the nine chart calls, each with its figures and the contents of its slices.
//! - `directions`: the directions of a tally's arrows at six lanes, which the Rust does not have.
//! - `dropped`: the heads that come to nothing, which the Rust does not list.
//! - `keysounds`: the count of keysounds, which the Rust does not have.
//! - `leaves`: the functions below them.
//! - `timed`: the calls with nothing around them.
//! - `entry`: the calls as they are met from outside, with their refusals.
//! - `sm`: the charts inside an SM file, which the Rust does not know.
//! - `sheet`: the sheet of a chart in its three forms; `sheet_entry`: its call as it is met from outside.
//! - `card`: what the program card prints.
//! - `written`: from notes back to a chart, which the Rust does not have.
//! - `presses`: a pad trace set against the notes, which the Rust does not have; `traces`: traces that are made from notes.
//! - `vectors`: the stored sample of answers; `deciding`: those of its texts that one rule decides.
//! - `sm_vectors`: the stored sample of SM files; `sm_deciding`: those of its files that one sentence decides.

pub mod asked;
pub mod card;
pub mod deciding;
pub mod directions;
pub mod dropped;
pub mod entry;
pub mod keysounds;
pub mod presses;
pub mod sheet;
pub mod sheet_entry;
pub mod sm;
pub mod sm_deciding;
pub mod sm_vectors;
#[allow(dead_code, unused_imports)]
mod stats;
mod streams;
mod timing;
pub mod traces;
pub mod vectors;
pub mod written;

pub use stats::{calls, leaves, timed};
