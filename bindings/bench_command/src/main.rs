//! `padcheck`: from a file to a sheet. Files, arguments and exit status are this program's; every figure is the library's.

mod args;
mod charts;
mod checksum;
mod closed;
mod columns;
mod damage;
mod diff;
mod doubt;
mod dropped;
mod figures;
mod forms;
mod help;
mod input;
mod json;
mod left;
mod lines;
mod measures;
mod memory;
mod missed;
mod odd;
mod output;
mod presses;
mod processor;
mod rig;
mod select;
mod sheet;
mod slices;
mod together;
mod trace;
mod unnamed;
mod write;

use args::Request;
use output::{Status, complain};
use std::env;
use std::io::{self, BufWriter, Write};
use std::process::ExitCode;

fn main() -> ExitCode {
    let request = match args::request(env::args_os().skip(1)) {
        Ok(request) => request,
        Err(message) => {
            complain(&message);
            return Status::Fault.into();
        }
    };
    if let Some(message) = hindrance(&request) {
        complain(&message);
        return Status::Fault.into();
    }
    let mut out = BufWriter::new(io::stdout().lock());
    let done = run(&request, &mut out).and_then(|status| out.flush().map(|()| status));
    let status = done.unwrap_or_else(|error| {
        complain(&format!("cannot write the output: {error}"));
        Status::Fault
    });
    status.into()
}

/// What stands in the way of a request before anything is read. A text of the program's own makes no call of the library.
fn hindrance(request: &Request) -> Option<String> {
    if closed::output_closed() {
        return Some(String::from("cannot write the output: it is closed"));
    }
    match request {
        Request::Text(_) => None,
        _ => processor::lack(),
    }
}

/// Does what is asked for. An error is one of the output; every other fault has been told and is in the status.
fn run(request: &Request, out: &mut dyn Write) -> io::Result<Status> {
    match request {
        Request::Text(text) => out.write_all(text.as_bytes()).map(|()| Status::Done),
        Request::Charts(asked) => charts::run(asked, out),
        Request::Sheet(asked) => sheet::run(asked, out),
        Request::Dropped(asked) => dropped::run(asked, out),
        Request::Rig(asked) => rig::run(asked, out),
        Request::Write(asked) => write::run(asked, out),
        Request::Trace(asked) => trace::run(asked, out),
        Request::Diff(asked) => diff::run(asked, out),
    }
}
