//! What `--help` and `--version` print.

/// The version of the library, which is that of the binding and of padcheck.h.
pub const LIBRARY: &str = "0.5.0";

/// The identity of the Rattle kit with which the library was proved.
pub const KIT: &str = "rattle-kit-13f logic dac8208d650f15bf";

/// What `--version` prints.
pub fn version() -> String {
    let program = env!("CARGO_PKG_VERSION");
    format!("padcheck {program}\nlibrary {LIBRARY}\nkit {KIT}\n")
}

/// The whole.
pub const WHOLE: &str = "\
padcheck WORD ...

  charts FILE...         which charts an SM file has
  sheet FILE...          the sheet of each chart, to be checked and initialled
  dropped FILE...        which holds and rolls of a chart came to nothing, and why
  rig FILE               note records and row beats of a chart, for the rig
  write NOTES ROWS       the note data of note records and row counts
  trace FILE TRACE       the presses that a rig recorded beside the notes of a chart
  diff OLD NEW           which measures of a chart differ, and what stays the same
  --help, WORD --help    this, or more on one word
  --version              versions of the program and library, and the kit's identity

The exit status is the worst of all files and charts:
  0  done; a refused chart stands in the output with its number and words
  1  the library refused a file, all its charts, or one that was asked for by number;
     a trace is refused or has no PASS
  2  the arguments, an input, the output, memory or the processor are at fault;
     standard error says which
  3  doubtful: a file or its note data looks like something else, or not all of it
     would be read, and nothing was made of it; the line that says so says what to
     mend, and --force takes it all the same

Charts, measures, rows, columns and records count from 0.
";

/// The word `charts`.
pub const CHARTS: &str = "\
padcheck charts FILE... [--force]

Lists the charts of each SM file: number, lane count, place and length in bytes of its
note data, and type. A chart that is refused is listed too, with the refusal's number
and words; its place is where its #NOTES: ends, and it has no length. A chart that
padcheck sheet would doubt is listed with the line that says why.

A file is doubtful as a whole where it may have a chart that is not read, since its tag
starts none: #NOTES: in other letters, #NOTES2:, one inside a chart that has no ; before
it, one behind a ; on its line, one behind a byte-order mark. `doubtful:` stands above
the list then.

  --force   ends with 0 all the same, and has `forced:` in the place of `doubtful:`
";

/// The word `sheet`.
pub const SHEET: &str = "\
padcheck sheet FILE... [--chart K] [--form card|print|json] [--force]
padcheck sheet FILE... --lanes N [--form card|print|json] [--force]

Prints the sheet of every chart of each SM file, or of chart K alone. With --lanes
each file is the bare note data of one chart, read with N lanes: 4, 5, 6, 8 or 10.

  --form print   for paper, 80 columns: file name, length and the checksum that `cksum`
                 prints, all figures, and a line to initial (this is the default)
  --form card    the lines of the program card: of these `keys` counts the cells K,
                 which the other forms have as `keysounds`; m MEASURE DENSITY SPACING,
                 and n ROW COLUMN KIND TAIL with kinds 0 tap, 1 hold, 2 roll, 3 mine,
                 4 lift, 5 fake
  --form json    one object a chart, each on one line
  --force        prints doubtful note data all the same: the doubt stands on the sheet,
                 behind `forced:`

Note data is doubtful where it looks like something else: bare, it begins with a
byte-order mark or #, or has a line that begins with #NOTES:; it has a NUL byte, a :
outside comments, a row with a byte among its cells that is none of
0 1 2 3 4 M K L F m l f, no rows, or only lines shorter than the lanes. And it is
doubtful where not all of it would be read: a ; in a comment ends the chart; something
other than blanks and a comment stands behind a row's cells, a comma, or the ; that ends
the chart; a line is too short for a row; a line that looks like a row stands below that
;. A ; right behind the last row's cells is none of these. What makes a whole SM file
doubtful, padcheck charts --help says.

A measure whose rows do not divide 192 is read and no doubt: a line on standard error
names the first of a chart, and how many there are.
";

/// The word `dropped`.
pub const DROPPED: &str = "\
padcheck dropped FILE... [--chart K] [--form print|json] [--force]
padcheck dropped FILE... --lanes N [--form print|json] [--force]

Lists the heads of holds and rolls that have no note in a chart: of every chart of each
SM file, of chart K alone, or with --lanes of bare note data. Each has its row, measure
and row in the measure, beat and column, and what it met before a tail in its column:
another head, another cell (1, M, L, F, m, l or f) or the end of the chart, with the row
and measure of the cell. Rows are those that are left by minimising.

  --form print   a line a head, or `no hold came to nothing` (this is the default)
  --form json    one object a chart, each on one line: its heads in `dropped`, with
                 `row`, `measure`, `row_in_measure`, `beat`, `column`, `head` (hold or
                 roll), `cause` (other_head, other_cell or chart_end), `by_row` and
                 `by_measure`, which are null at the chart's end
  --force        takes doubtful note data all the same, and says so behind `forced:` (see
                 padcheck sheet --help)

The exit status is 0 whether there are any or not; of refused charts it is that of
padcheck sheet.
";

/// The word `rig`.
pub const RIG: &str = "\
padcheck rig FILE --chart K --notes OUT --beats OUT [--rows OUT] [--force]
padcheck rig FILE --lanes N --notes OUT --beats OUT [--rows OUT] [--force]

Writes what the rig reads of chart K of an SM file, or with --lanes of bare note data.

  --notes OUT   the note records, 10 bytes each: row and tail of 4 bytes, low byte
                first, column, kind (0 tap, 1 hold, 2 roll, 3 mine, 4 lift, 5 fake);
                the tail is 4294967295 where there is none
  --beats OUT   the beat of each row, a float of 4 bytes, low byte first
  --rows OUT    the row count of each measure after minimising, one on each line, as
                padcheck write reads them
  --force       takes doubtful note data all the same, and says so behind `forced:` (see
                padcheck sheet --help)

All are written to new files, which take these names when all are whole: first the old
rows, beats and notes are removed, then the new notes take their name, then the new
beats, then the new rows. Whenever it is killed, all files are the old ones, all are the
new ones, or one is missing. What is printed is printed when all stand.
";

/// The word `write`.
pub const WRITE: &str = "\
padcheck write NOTES ROWS --lanes N

Prints the note data of a chart with N lanes: minimised text, without a ; at its end.
Reading it gives these notes and rows.

  NOTES   note records, as padcheck rig writes them, also when they have been edited: in
          rising row, then column, and none twice
  ROWS    the row count of each measure, one on each line: a number in digits

A tap is a 1, a hold a 2, a roll a 4, a mine M, a lift L, a fake F, and a tail a 3. What
a chart has besides does not come back: K, m, l and f, other letters, heads without a
tail and tails without a head.

The exit status is 1 where the library refuses them, with its number and words on
standard error, and 2 where ROWS is no list of row counts.
";

/// The word `trace`.
pub const TRACE: &str = "\
padcheck trace FILE TRACE [--chart K] [--form print|json] [--force]
padcheck trace FILE TRACE --lanes N [--form print|json] [--force]

Sets a pad trace beside the notes of a chart: of chart K of an SM file, of its only one,
or with --lanes of bare note data. The first press at the row and column of a tap, hold
or roll is a hit, every other press a stray, and such a note without a press a miss.
Rows are those that are left by minimising.

  TRACE   the presses, 5 bytes each: row of 4 bytes, low byte first, column; in rising
          row, then column, of which one may stand twice

Prints file and trace with their lengths and checksums, hits, strays and misses, and the
hits and misses of each column of the layout and any other that was pressed; of a column
without such a note `no press`. Then PASS with the hits and such notes, and the columns
without one; or the first miss and the first stray, with row, measure, row in it, beat
and column; or `nothing to press`, where there is no such note at all. A stray below the
last row has no measure and no beat.

  --form print   on paper (this is the default)
  --form json    one object on a line: `trace` with `file`, `length` and `cksum`; `hits`,
                 `strays`, `misses`; `columns`, each with `column`, `direction`, `hits`,
                 `misses` and `no_press`; `verdict` (pass, pass_forced, nothing_to_press,
                 not_clean or violated); `no_note`, the columns of the layout without a
                 note; `first_miss` and `first_stray` with `row`, `measure`,
                 `row_in_measure`, `beat` and `column`, or null; of a trace that is
                 refused `refused`, `words`, `record` and `breaks` in place of these
  --force        takes doubtful note data all the same, and says so behind `forced:` and
                 in `PASS, forced` (see padcheck sheet --help)

The exit status is 0 for PASS and 1 for anything else, also where the library refuses
the trace; the line below the refusal says which record breaks it.
";

/// The word `diff`.
pub const DIFF: &str = "\
padcheck diff OLD NEW [--chart K] [--force]
padcheck diff OLD NEW --lanes N [--force]

Says which measures of a chart differ between two files, by their lines and by their
figures, and which fields of its tally: of every chart of two SM files, of chart K
alone, or with --lanes of bare note data. Where the lines of one measure alone differ,
it says what the damage theorem says of the rest, and checks each of it on the two
files.

  --force   takes doubtful note data all the same, and says so behind `forced:` (see
            padcheck sheet --help)

The exit status is 0 whether they differ or not, and 1 where a chart is refused in
either file.
";

#[cfg(test)]
mod tests {
    use super::*;

    #[test]
    fn the_library_version_is_the_bindings_and_the_headers() {
        let package = include_str!("../../rust/Cargo.toml");
        assert!(package.contains(&format!("\nversion = \"{LIBRARY}\"\n")));
        let header = include_str!("../../../include/padcheck.h");
        assert!(header.contains(&format!("\n#define PADCHECK_VERSION \"{LIBRARY}\"\n")));
    }

    #[test]
    fn the_kit_is_the_one_that_the_pages_name() {
        let page = include_str!("../../../docs/DEVELOPING.md");
        assert!(page.contains(&format!("\n    {KIT}\n")));
    }

    #[test]
    fn help_fits_on_a_page() {
        for text in [WHOLE, CHARTS, SHEET, DROPPED, RIG, WRITE, TRACE, DIFF] {
            assert!(text.lines().all(|line| line.chars().count() <= 90));
            assert!(text.ends_with('\n'));
        }
    }
}
