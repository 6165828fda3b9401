//! Why a chart or a whole file is left out.

use crate::memory::NoMemory;
use padcheck::Refusal;

/// Why a chart or a whole file is left out.
#[derive(Clone, Debug, PartialEq)]
pub enum Left {
    /// The library refuses it, in its words and what this program says besides.
    Refused(Refusal, String),
    /// It looks like something else.
    Doubtful(String),
    /// There is no memory for what the library is lent.
    NoMemory(NoMemory),
}

impl Left {
    /// A refusal, and what can be told of it besides the library's words.
    pub fn refused(refusal: Refusal, besides: &str) -> Self {
        Self::Refused(refusal, format!("{}; {besides}", words(refusal)))
    }
}

impl From<Refusal> for Left {
    fn from(refusal: Refusal) -> Self {
        Self::Refused(refusal, words(refusal))
    }
}

/// The library's words for a refusal, without its number.
pub fn words(refusal: Refusal) -> String {
    format!("{}, by {}", refusal.words(), refusal.caused_by())
}

impl From<NoMemory> for Left {
    fn from(lack: NoMemory) -> Self {
        Self::NoMemory(lack)
    }
}
