//! The chart figures of StepMania charts, proved: safe Rust over libpadcheck.a.
//!
//! Every answer is proved equal to definitions written from a specification, `docs/SPECIFICATION.md` of the repository; this side lends
//! slices, hands on what is in them, takes the four numbers of a note out of the ten bytes of its record, and goes on in an SM file
//! behind each chart it has shown ([`sm_charts`]). Four ways to call, from the least to the most control:
//!
//! - [`stats`] has items of rssp's `stats.rs` under their own names and signatures, for a loader that changes one `use`
//!   line; it says which.
//! - The functions here take a text and a lane number and answer a `Result`: the one [`Refusal`] they can meet is a
//!   text longer than [`MAX_LEN`]. What they lend besides their answers is kept by the thread: [`release_buffers`].
//! - [`Buffers`] does the same over buffers that are kept from one chart to the next.
//! - [`lent`] has the entries as they are, over slices of the caller's.
//!
//! [`dropped_holds`] lists the holds and rolls that came to nothing, each with what dropped it.
//!
//! [`notes_to_chart`] goes from notes back to a chart: note records and a row count for each measure, written as minimised text.
//!
//! [`press_trace`] sets a trace of presses against notes: hits, strays and misses.
//!
//! [`chart_sheet`] writes a chart's figures out, in the lines of the program card, in columns for the eye, or as JSON.
//!
//! [`sm_chart`] and [`sm_charts`] find what any of these is given: the note data of each chart inside an SM file, and its
//! lane count. They copy nothing, and what they refuse is a [`Refusal`] too; [`sm_blocks`] says besides where each starts.
//!
//! `lanes` is the lane count, 4, 5, 6, 8 or 10; every other number is refused ([`Refusal::OtherLanes`]).
//!
//! # Linking
//!
//! The build script looks for libpadcheck.a in the folder that `PADCHECK_LIB_DIR` names (an absolute path), else in `target/staticlib` of
//! the repository, where `sh tools/build.sh lib` writes it. The archive is for x86-64 Linux.

mod buffers;
mod dropped;
mod figures;
mod large_pages;
mod lengths;
pub mod lent;
mod note;
mod owned;
mod press;
mod refusal;
mod sheet;
mod sm;
pub mod stats;

pub use buffers::{Buffers, Chart, DroppedHolds, KeptChart, LastBeat, TimingRows, release_buffers};
pub use dropped::{DropCause, DroppedHead, DroppedHeads};
pub use figures::{ArrowStats, Figures, place};
pub use lengths::{DROPPED_BYTES, Lengths, MAX_LEN, NOTE_BYTES, PRESS_BYTES, is_lane_count};
pub use note::{ChartNoteType, Notes, ParsedChartNote, read_note};
pub use owned::{
    OwnedChart, chart_last_beat, chart_sheet, dropped_holds, equally_spaced, measure_densities,
    minimize_chart_count_rows_notes, minimize_timing_rows, notes_to_chart, parsed_notes_to_chart,
    process_chart_kept, process_rows_judgable, process_timing_rows,
};
pub use press::{ColumnPresses, Press, PressCounts, parsed_press_trace, press_trace};
pub use refusal::Refusal;
pub use sheet::SheetForm;
pub use sm::{SmBlock, SmBlocks, SmChart, SmCharts, sm_blocks, sm_chart, sm_charts};
