//! The texts that are timed: what the tables call them, and how they are made.

use crate::chart::{self, Kind};
use oracle::entry::MAX_LEN;

/// The lane counts of the tables.
pub const LANES: [usize; 4] = [4, 5, 8, 10];

/// Those that can be asked for. Six lanes are a case of their own: the Rust reads them as four, and is asked by its functions over a const L.
pub const EVERY_LANES: [usize; 5] = [4, 5, 6, 8, 10];

/// How many charts a pack has, and their bytes.
const PACK: (u64, usize) = (2000, 20_000);

/// A text, or charts one after the other. The order is that of the tables.
#[derive(Clone, Copy, PartialEq, Eq, PartialOrd, Ord)]
pub enum Text {
    Long,
    Sparse,
    Pack,
    Unclosed,
    /// One of another kind, as long.
    Other(Kind),
}

impl Text {
    /// The texts of the tables of times.
    pub const ALL: [Self; 4] = [Self::Long, Self::Sparse, Self::Pack, Self::Unclosed];

    /// Those of other kinds, whose instructions are counted beside the Rust's.
    pub const KINDS: [Self; 8] = [
        Self::Other(Kind::Heads),
        Self::Other(Kind::Deep),
        Self::Other(Kind::Mines),
        Self::Other(Kind::Keysounds),
        Self::Other(Kind::Comments),
        Self::Other(Kind::Indented),
        Self::Other(Kind::Mixed),
        Self::Other(Kind::Line),
    ];

    /// Those that can be asked for.
    pub fn every() -> Vec<Self> {
        [&Self::ALL[..], &Self::KINDS[..]].concat()
    }

    pub fn name(self) -> &'static str {
        match self {
            Self::Long => "long",
            Self::Pack => "pack",
            Self::Sparse | Self::Unclosed | Self::Other(_) => self.kind().name(),
        }
    }

    pub fn kind(self) -> Kind {
        match self {
            Self::Long | Self::Pack => Kind::Closed,
            Self::Sparse => Kind::Sparse,
            Self::Unclosed => Kind::Unclosed,
            Self::Other(kind) => kind,
        }
    }
}

/// What ends a line.
#[derive(Clone, Copy, PartialEq, Eq, PartialOrd, Ord)]
pub enum Lines {
    Lf,
    Crlf,
}

impl Lines {
    pub const ALL: [Self; 2] = [Self::Lf, Self::Crlf];

    pub fn name(self) -> &'static str {
        match self {
            Self::Lf => "LF",
            Self::Crlf => "CRLF",
        }
    }

    pub fn bytes(self) -> &'static [u8] {
        match self {
            Self::Lf => b"\n",
            Self::Crlf => b"\r\n",
        }
    }
}

/// Texts that are timed together, one after the other.
pub struct Load {
    pub lanes: usize,
    pub texts: Vec<Vec<u8>>,
    /// One flag a row, for the call that is lent flags: every third row is unjudged.
    pub flags: Vec<u8>,
}

impl Load {
    pub fn new(text: Text, lines: Lines, lanes: usize) -> Self {
        let (count, len) = match text {
            Text::Pack => PACK,
            _ => (1, MAX_LEN),
        };
        Self::of(count, len, text.kind(), lines, lanes)
    }

    /// `count` texts of `len` bytes.
    pub fn of(count: u64, len: usize, kind: Kind, lines: Lines, lanes: usize) -> Self {
        let text = |seed| chart::text(lanes, len, lines.bytes(), seed, kind);
        Self {
            lanes,
            texts: (0..count).map(text).collect(),
            flags: (0..len / (lanes + 1))
                .map(|row| u8::from(row % 3 > 0))
                .collect(),
        }
    }

    pub fn bytes(&self) -> f64 {
        self.texts.iter().map(Vec::len).sum::<usize>() as f64
    }

    /// The longest text's bytes.
    pub fn longest(&self) -> usize {
        self.texts.iter().map(Vec::len).max().unwrap_or_default()
    }
}
