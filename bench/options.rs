//! What is asked for: which ways, calls, texts, line ends and lane counts, and in which form.

use crate::clock::Clock;
use crate::loads::{EVERY_LANES, LANES, Lines, Text};
use crate::ways::Way;
use oracle::calls::{CALLS, Call};

pub const HELP: &str = "\
bench [--runs N] [--thread] [--ways LIST] [--lanes LIST] [--texts LIST] [--lines LIST] [--speeds | --growth | --memory | --files | --written | --traces | --once] [CALL..]

Times each call, or those of the given names, beside the Rust: both in one process, on the same texts, in turns, the best
of N runs each (N is 7). A ratio is ours to the Rust's: over 1.00 ours is faster. It prints the cells under 1.00,
the worst first, at most 5 of the entries, of them over resident slices and of the binding, with the speeds of both in
MB of text a second (1 MB is 1,000,000 bytes); how many of the entries' their zeros alone keep there; the least and the
greatest ratio of each call in each way, over all texts, line ends and lane counts; and the ratios of all cells. Where
an entry is under its goal, 1.20 in the main call and 1.00 elsewhere, the ratio that it has less a look at the same
bytes as its zeros stands beside it.

A LIST has its words parted by commas, and leaves out the others:
  --ways   entry     an exported entry, its slices (at first with no page resident) and the Rust's buffers reused
           resident  the same over slices of which every page is resident
           buffers   padcheck::Buffers of bindings/rust, one for all charts, the notes read one by one
           stats     padcheck::stats, the Rust's own signatures, one scratch for all charts
           anew      the functions of bindings/rust that allocate what they answer; the Rust with nothing kept
           first     the same where the thread has kept nothing from an earlier call
  --lanes  4 5 8 10, and 6 where it is named: there the Rust is its functions over a const L, which reads lane number 6 as 4
  --texts  long      one text of 16,777,215 bytes
           sparse    as long; 6 rows in 10 are empty, 7 measures in 10 minimise to half or less
           pack      2,000 charts of 20,000 bytes, one after the other
           unclosed  the long text and a head that nothing closes, so that the tally is counted anew
           and, where they are named, others as long: heads (two in each row, or their tails), deep (nine heads in a column),
           mines, keysounds (in half of all cells), comments (one after each row), indented, mixed (the first line ends
           otherwise than the others) and line (one line of zeros)
  --lines  lf crlf
  --speeds also prints, at the end, the speeds of every cell, of the Rust, and of a look at an entry's zeros
  --growth prints instead how many nanoseconds a byte costs an entry in a text of 16 MB, and in brackets the largest by
           the smallest of this and what it costs at 1 and 4 MB: as many texts as make 16 MB, each with slices of its own,
           all of them resident
  --memory prints instead how many bytes an entry is lent for the longest text
  --files  times instead sm_chart beside its plain reference in the oracle, which the Rust does not have: files of 16 MB with
           one chart, a pack of charts of 20,000 bytes, charts of one line, and none, asked for the first block, the last and
           the one past it; then what files of 1, 4 and 16 MB cost
  --written times instead notes_to_chart beside its plain reference in the oracle, which the Rust does not have, and beside the main
           call on the text that it writes: the notes and row counts of texts of 16 MB
  --traces times instead press_trace beside its plain reference in the oracle, which the Rust does not have: the notes of texts of
           16 MB with one press on each played note, with one press in ten a row late, and with none
  --once   makes each call once on short texts instead, for callgrind; `instructions.sh` runs it

`dropped_holds`, which the Rust does not have, stands beside a plain reference over the Rust's minimised text.
The entries' answers are compared with the Rust's before anything is timed. Run it on a machine that does nothing else.
On a busy one take more runs, and --thread, which times by the processor time of the thread and not by the clock on the
wall. All of it takes some 20 minutes, on a busy machine twice that.";

pub struct Options {
    pub runs: usize,
    pub clock: Clock,
    pub ways: Vec<Way>,
    pub lanes: Vec<usize>,
    pub texts: Vec<Text>,
    pub lines: Vec<Lines>,
    pub calls: Vec<Call>,
    pub speeds: bool,
    pub growth: bool,
    pub memory: bool,
    pub files: bool,
    pub written: bool,
    pub traces: bool,
    pub once: bool,
}

impl Options {
    /// The best times in seconds of some parts over what is timed, in turns.
    pub fn best<T, const N: usize>(&self, of: &mut T, parts: [impl Fn(&mut T); N]) -> [f64; N] {
        let mut best = [f64::MAX; N];
        for _ in 0..self.runs {
            for (part, best) in parts.iter().zip(&mut best) {
                let start = self.clock.seconds();
                part(of);
                *best = best.min(self.clock.seconds() - start);
            }
        }
        best
    }
}

/// What the arguments ask for; `None` where that is help.
///
/// # Errors
///
/// What is wrong with them, in words.
pub fn parse(mut args: impl Iterator<Item = String>) -> Result<Option<Options>, String> {
    let mut options = Options {
        runs: 7,
        clock: Clock::Wall,
        ways: Way::ALL.to_vec(),
        lanes: LANES.to_vec(),
        texts: Text::ALL.to_vec(),
        lines: Lines::ALL.to_vec(),
        calls: Vec::new(),
        speeds: false,
        growth: false,
        memory: false,
        files: false,
        written: false,
        traces: false,
        once: false,
    };
    while let Some(arg) = args.next() {
        let mut list = || args.next().ok_or(format!("{arg} wants a list"));
        match arg.as_str() {
            "--help" | "-h" => return Ok(None),
            "--runs" => options.runs = number(args.next())?,
            "--ways" => options.ways = listed(&list()?, &Way::ALL, |way| way.name().into())?,
            "--lanes" => options.lanes = listed(&list()?, &EVERY_LANES, usize::to_string)?,
            "--texts" => options.texts = listed(&list()?, &Text::every(), |text| text.name().into())?,
            "--lines" => {
                options.lines = listed(&list()?, &Lines::ALL, |lines| lines.name().to_lowercase())?;
            }
            "--thread" => options.clock = Clock::Thread,
            "--speeds" => options.speeds = true,
            "--growth" => options.growth = true,
            "--memory" => options.memory = true,
            "--files" => options.files = true,
            "--written" => options.written = true,
            "--traces" => options.traces = true,
            "--once" => options.once = true,
            _ => options
                .calls
                .extend(listed(&arg, &CALLS, |call| call.name().into())?),
        }
    }
    if options.calls.is_empty() {
        options.calls = CALLS.to_vec();
    }
    Ok(Some(options))
}

fn number(word: Option<String>) -> Result<usize, String> {
    let number = word.and_then(|word| word.parse().ok());
    number
        .filter(|&number| number > 0)
        .ok_or_else(|| "--runs wants a number".into())
}

/// Those of `all` whose names the list has, in the order of `all`.
fn listed<T: Copy>(list: &str, all: &[T], name: impl Fn(&T) -> String) -> Result<Vec<T>, String> {
    let words: Vec<&str> = list.split(',').collect();
    for word in &words {
        if !all.iter().any(|item| name(item) == *word) {
            return Err(format!("`{word}` is not known here"));
        }
    }
    let is_named = |item: &T| words.contains(&name(item).as_str());
    Ok(all.iter().copied().filter(is_named).collect())
}
