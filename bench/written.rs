//! Times `padcheck_notes_to_chart` beside the plain reference of the oracle, which the Rust does not have, and beside the main call on the text that
//! it writes.

use crate::chart::Kind;
use crate::entries::{ENTRIES, number};
use crate::loads::{EVERY_LANES, Lines, Load, Text};
use crate::loans::lent;
use crate::options::Options;
use oracle::calls::Call;
use oracle::entry::Loan;
use oracle::written::Given;
use padcheck::Figures;
use std::hint::black_box;

/// The texts of whose notes charts are written, and whose notes are pressed. In the last one each row has two heads, and the next their tails.
pub const TEXTS: [Text; 3] = [Text::Long, Text::Sparse, Text::Other(Kind::Heads)];

/// What the entry is lent, and the main call on the text that it writes.
pub struct Written {
    given: Given,
    text: Vec<u8>,
    figures: Figures,
    main: Loan,
}

impl Written {
    /// The notes and row counts of a drawn text of so many bytes.
    pub fn new(text: Text, lanes: usize, len: usize) -> Self {
        let load = Load::of(1, len, text.kind(), Lines::Lf, lanes);
        let given = Given::writable(&load.texts[0], lanes);
        let len = given.text_len() as usize;
        Self {
            given,
            text: vec![0; len],
            figures: [0; 32],
            main: lent(Call::MinimizeChartCountRowsNotes, len, lanes),
        }
    }

    /// How many rows are written.
    pub fn rows(&self) -> u64 {
        self.given.counts.iter().copied().map(u64::from).sum()
    }

    /// The entry.
    pub fn write(&mut self) {
        let Given {
            records,
            lanes,
            counts,
        } = &self.given;
        let (text, figures) = (&mut self.text, &mut self.figures);
        let told = number(padcheck::lent::notes_to_chart(
            records, *lanes, counts, text, figures,
        ));
        assert_eq!(told, 0, "it is not refused here");
    }

    /// The main call on the text that was written.
    pub fn read(&mut self) {
        let main = Call::MinimizeChartCountRowsNotes;
        let entry = ENTRIES.iter().find(|entry| entry.call == main);
        let enter = entry.expect("the main call has its entry").enter;
        let told = enter(&self.text, self.given.lanes, &[], &mut self.main);
        assert_eq!(told, 0, "no text here is too long");
    }

    /// The reference.
    fn write_plainly(&mut self) {
        let _ = black_box(black_box(&self.given).chart());
    }

    fn agrees(&mut self) -> bool {
        self.write();
        self.given.chart().as_ref() == Ok(&self.text)
    }
}

/// The speeds in millions of bytes of the written text a second, and how long the main call takes on it by what its writing takes.
pub fn run(options: &Options) -> Result<(), String> {
    println!(
        "| text | lanes | MB | ours, MB/s | reference, MB/s | main call, MB/s | main call by ours |"
    );
    println!("|---|---|---|---|---|---|---|");
    for text in TEXTS {
        for lanes in EVERY_LANES {
            let mut written = Written::new(text, lanes, LEN);
            if !written.agrees() {
                return Err("notes_to_chart and its reference differ; nothing is timed".into());
            }
            let parts: [fn(&mut Written); 3] = [Written::write, Written::write_plainly, Written::read];
            let [ours, reference, main] = options.best(&mut written, parts);
            let megabytes = written.text.len() as f64 / 1e6;
            println!(
                "| {} | {lanes} | {megabytes:.1} | {:.0} | {:.0} | {:.0} | {:.2} |",
                text.name(),
                megabytes / ours,
                megabytes / reference,
                megabytes / main,
                main / ours
            );
        }
    }
    Ok(())
}

/// Bytes of the text whose notes are written.
const LEN: usize = 16_000_000;
