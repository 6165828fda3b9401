//! What the program ends with, and the lines that it writes to standard error.

use crate::left::Left;
use std::fmt::Display;
use std::io::{self, Write};
use std::process::ExitCode;

/// How a file, or the whole run, went. The greater one is the worse.
#[derive(Clone, Copy, Debug, PartialEq, Eq, PartialOrd, Ord)]
pub enum Status {
    /// All that was asked for is there.
    Done,
    /// The library refused a file, a chart or a trace, or a trace has no PASS.
    Refused,
    /// The arguments, an input or an output are at fault.
    Fault,
    /// Note data that looks like something else was not read.
    Doubtful,
}

impl From<Status> for ExitCode {
    fn from(status: Status) -> Self {
        Self::from(status as u8)
    }
}

/// Writes one line to standard error. Where that is closed too, the exit status has to say it.
pub fn complain(message: &str) {
    let _ = writeln!(io::stderr(), "padcheck: {message}");
}

/// A fault of one file: what was written before it goes out first, so that the lines stand in their order.
pub fn fault(out: &mut dyn Write, message: &str) -> io::Result<Status> {
    out.flush()?;
    complain(message);
    Ok(Status::Fault)
}

/// A chart that is not read for doubt.
pub fn doubtful(out: &mut dyn Write, whose: &str, why: &str) -> io::Result<Status> {
    out.flush()?;
    complain(&format!("{whose} is doubtful: {why}"));
    Ok(Status::Doubtful)
}

/// What is told of a chart that is read all the same. It is no fault.
pub fn remark(out: &mut dyn Write, whose: &str, what: &dyn Display) -> io::Result<()> {
    out.flush()?;
    complain(&format!("{whose}: {what}"));
    Ok(())
}

/// Says on standard error why nothing is written or printed.
pub fn left_out(whose: &str, left: &Left, out: &mut dyn Write) -> io::Result<Status> {
    match left {
        Left::Refused(refusal, words) => {
            complain(&format!("{whose} refused {}: {words}", refusal.number()));
            Ok(Status::Refused)
        }
        Left::Doubtful(why) => doubtful(out, whose, why),
        Left::NoMemory(lack) => fault(out, &format!("{whose}: {lack}")),
    }
}

#[cfg(test)]
mod tests {
    use super::*;

    #[test]
    fn the_worst_status_has_the_greatest_number() {
        let rising = [
            Status::Done,
            Status::Refused,
            Status::Fault,
            Status::Doubtful,
        ];
        assert_eq!(rising.map(|status| status as u8), [0, 1, 2, 3]);
        assert!(rising.is_sorted());
    }
}
