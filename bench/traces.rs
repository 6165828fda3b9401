//! Times `padcheck_press_trace` beside the plain reference of the oracle, which the Rust does not have.

use crate::entries::number;
use crate::loads::{EVERY_LANES, Lines, Load, Text};
use crate::options::Options;
use crate::written::TEXTS;
use oracle::calls::minimize_chart_count_rows_notes;
use oracle::entry::read_notes;
use oracle::presses::{Place, Places, Pressed, is_played, place_of, trace_of};
use std::hint::black_box;

/// How the notes are pressed.
#[derive(Clone, Copy)]
pub enum Trace {
    /// One press on each played note.
    Clean,
    /// One in ten of them a row late.
    Moved,
    /// No press.
    Empty,
}

impl Trace {
    pub const ALL: [Self; 3] = [Self::Clean, Self::Moved, Self::Empty];

    pub fn name(self) -> &'static str {
        match self {
            Self::Clean => "clean",
            Self::Moved => "moved",
            Self::Empty => "none",
        }
    }

    /// The presses for notes that stand here, in their order.
    fn presses(self, played: impl Iterator<Item = Place>) -> Vec<Place> {
        let mut presses: Vec<_> = match self {
            Self::Clean => played.collect(),
            Self::Moved => {
                let numbered = played.enumerate();
                let late = |k| u64::from(k % 10 == 9);
                let moved = numbered.map(|(k, (row, column))| (row + late(k), column));
                moved.collect()
            }
            Self::Empty => Vec::new(),
        };
        presses.sort_unstable();
        presses
    }
}

/// What the entry is lent.
pub struct Traced {
    pressed: Pressed,
    places: Places,
}

impl Traced {
    /// The notes of a drawn text of so many bytes, pressed so.
    pub fn new(text: Text, trace: Trace, lanes: usize, len: usize) -> Self {
        let load = Load::of(1, len, text.kind(), Lines::Lf, lanes);
        let records = minimize_chart_count_rows_notes(&load.texts[0], lanes).notes;
        let notes = read_notes(&records).expect("the notes of a text are accepted");
        let played = notes.iter().filter(|note| is_played(note)).map(place_of);
        let trace = trace_of(&trace.presses(played));
        Self {
            pressed: Pressed { records, trace },
            places: [0; 23],
        }
    }

    /// How many records both lists have.
    pub fn records(&self) -> usize {
        let Pressed { records, trace } = &self.pressed;
        records.len() / padcheck::NOTE_BYTES + trace.len() / padcheck::PRESS_BYTES
    }

    /// The entry.
    pub fn count(&mut self) {
        let Pressed { records, trace } = &self.pressed;
        let told = number(padcheck::lent::press_trace(
            records,
            trace,
            &mut self.places,
        ));
        assert_eq!(told, 0, "it is not refused here");
    }

    /// The reference.
    pub fn count_plainly(&mut self) {
        let _ = black_box(black_box(&self.pressed).answer());
    }

    fn agrees(&mut self) -> bool {
        self.count();
        self.pressed.answer() == Ok(self.places)
    }
}

/// The speeds in millions of records of both lists a second.
pub fn run(options: &Options) -> Result<(), String> {
    println!(
        "| text | trace | lanes | records, millions | ours, millions/s | reference, millions/s | ratio |"
    );
    println!("|---|---|---|---|---|---|---|");
    for text in TEXTS {
        for trace in Trace::ALL {
            for lanes in EVERY_LANES {
                let mut traced = Traced::new(text, trace, lanes, LEN);
                if !traced.agrees() {
                    return Err("press_trace and its reference differ; nothing is timed".into());
                }
                let parts: [fn(&mut Traced); 2] = [Traced::count, Traced::count_plainly];
                let [ours, reference] = options.best(&mut traced, parts);
                let millions = traced.records() as f64 / 1e6;
                println!(
                    "| {} | {} | {lanes} | {millions:.1} | {:.0} | {:.0} | {:.2} |",
                    text.name(),
                    trace.name(),
                    millions / ours,
                    millions / reference,
                    reference / ours
                );
            }
        }
    }
    Ok(())
}

/// Bytes of the text whose notes are pressed.
const LEN: usize = 16_000_000;
