//! SM files that are timed and counted, and the entry that finds a chart in one.

use crate::chart::{self, Kind};
use oracle::sm::SmChart;
use padcheck::{Refusal, lent};

/// What stands before the charts.
const SONG: &[u8] =
    b"#TITLE:Long Way;\n#ARTIST:someone;\n#OFFSET:-0.009;\n#BPMS:0.000=120.000;\n#STOPS:;\n";

/// What a chart begins with, on lines of its own as editors write it.
const FIELDS: &[u8] = b"\n//---------------dance-single - ----------------\n#NOTES:\n     dance-single:\n     someone:\n     Hard:\n     9:\n     0.733,0.800,0.281,0.000,0.048:\n";

/// Bytes of the data of a chart in a pack.
const PACKED: usize = 20_000;

/// A file that is asked about.
#[derive(Clone, Copy, PartialEq, Eq)]
pub enum File {
    /// One chart of long note data.
    One,
    /// Charts of 20,000 bytes, one after the other.
    Pack,
    /// Charts of one line.
    Short,
    /// Rows alone, and no chart.
    None,
}

impl File {
    pub const ALL: [Self; 4] = [Self::One, Self::Pack, Self::Short, Self::None];

    pub fn name(self) -> &'static str {
        match self {
            Self::One => "one",
            Self::Pack => "pack",
            Self::Short => "short",
            Self::None => "none",
        }
    }

    /// A file of at most `len` bytes, with as many charts as that holds; `len` is at least 30,000.
    pub fn bytes(self, len: usize, newline: &[u8]) -> Vec<u8> {
        let mut file = SONG.to_vec();
        match self {
            Self::One => put_chart(&mut file, len - SONG.len() - FIELDS.len() - 3, newline, 0),
            Self::Pack => {
                let mut seed = 0;
                while file.len() + FIELDS.len() + PACKED + 3 <= len {
                    put_chart(&mut file, PACKED, newline, seed);
                    seed += 1;
                }
            }
            Self::Short => {
                let line = [b"#NOTES:dance-single:::::0000;", newline].concat();
                file.extend(line.repeat((len - SONG.len()) / line.len()));
            }
            Self::None => file.extend(chart::text(4, len - SONG.len(), newline, 0, Kind::Closed)),
        }
        file
    }
}

/// A chart with data of `len` bytes, its `;` and `newline`.
fn put_chart(file: &mut Vec<u8>, len: usize, newline: &[u8], seed: u64) {
    file.extend(FIELDS);
    file.extend(chart::text(4, len, newline, seed, Kind::Closed));
    file.push(b';');
    file.extend(newline);
}

/// What a call answers.
pub type Answer = Result<SmChart, u32>;

/// What the entry answers, in the reference's form.
pub fn enter(file: &[u8], k: usize) -> Answer {
    let mut chart = [0; 3];
    lent::sm_chart(file, k, &mut chart).map_err(Refusal::number)?;
    let [lanes, start, len] = chart.map(|figure| figure as usize);
    Ok(SmChart { lanes, start, len })
}
