//! Kinds of text that the run must meet at every lane count, told from the text itself and not from how it was drawn.

use crate::case::{Case, LANE_COUNTS, lane_place};
use crate::edits;
use crate::random::{self, LONG, Rng};
use oracle::asked::{chart_text, read_back_text};
use oracle::calls::{Answer, minimize_chart_count_rows_notes};
use oracle::dropped::{DroppedHead, NO_ROW, dropped_of};
use oracle::entry::{is_lane_count, read_notes};
use oracle::keysounds::rows_read_back;
use oracle::leaves::{self, Counted};
use oracle::presses::{Place, Sorted, place_of};
use oracle::traces::presses_on;
use oracle::written::Given;
use std::collections::{HashMap, HashSet};

/// What a kind asks of a text.
type Test = fn(&Facts) -> bool;

/// The places of the two kinds that say with what a text is compared.
const AS_IT_STANDS: usize = 0;
const IN_ANOTHERS_PLACE: usize = 1;

const KINDS: [(&str, Test); 89] = [
    ("a text that the Rust is asked about", |f| f.as_it_stands),
    ("a text in whose place it is asked about another", |f| {
        !f.as_it_stands
    }),
    ("an empty text", |f| f.len == 0),
    ("a text without rows", |f| f.len > 0 && f.rows == 0),
    ("no byte 10 at the end", |f| f.len > 0 && !f.ends_in_newline),
    ("byte 9 before a row", |f| f.before_row[9]),
    ("byte 12 before a row", |f| f.before_row[12]),
    ("byte 13 before a row", |f| f.before_row[13]),
    ("byte 32 before a row", |f| f.before_row[32]),
    ("a row that begins with byte 11", |f| f.first_cell[11]),
    ("an empty line", |f| f.empty_line),
    ("a line that begins with /", |f| f.slash),
    ("a line shorter than a row", |f| f.short_line),
    ("a line longer than a row", |f| f.long_line),
    ("a line that ends in byte 13 after its row", |f| {
        f.cr_after_row
    }),
    ("a line refused for byte 13 as its first", |f| {
        f.refused.first
    }),
    ("a line refused for byte 13 among its L bytes", |f| {
        f.refused.middle
    }),
    ("a line refused for byte 13 as the last of L", |f| {
        f.refused.last
    }),
    ("a row with byte 13 and more after it", |f| f.cr_and_more),
    ("a line refused for byte 13 after blanks", |f| {
        f.refused.after_blanks
    }),
    ("a line that only the text read back refuses", |f| {
        f.refused.read_back_alone
    }),
    ("every line ends in bytes 13 and 10", |f| {
        f.lines > 2 && f.cr_lines == f.lines
    }),
    ("more than a comma on its line", |f| f.comma_and_more),
    ("a measure without rows", |f| f.empty_measure),
    ("several measures with rows", |f| f.measures > 1),
    ("no semicolon", |f| !f.semicolon),
    ("rows after the semicolon", |f| f.row_past_semicolon),
    ("a stride of 2", |f| f.strides[1]),
    ("a stride of 4", |f| f.strides[2]),
    ("a stride of 8 or more", |f| f.strides[3]),
    ("cell 0", |f| f.cells[b'0' as usize]),
    ("cell 1", |f| f.cells[b'1' as usize]),
    ("cell 2", |f| f.cells[b'2' as usize]),
    ("cell 3", |f| f.cells[b'3' as usize]),
    ("cell 4", |f| f.cells[b'4' as usize]),
    ("cell M", |f| f.cells[b'M' as usize]),
    ("cell L", |f| f.cells[b'L' as usize]),
    ("cell F", |f| f.cells[b'F' as usize]),
    ("cell K", |f| f.cells[b'K' as usize]),
    ("cell m", |f| f.cells[b'm' as usize]),
    ("cell l", |f| f.cells[b'l' as usize]),
    ("cell f", |f| f.cells[b'f' as usize]),
    ("cell k", |f| f.cells[b'k' as usize]),
    ("a cell that is no letter", |f| f.other_cell),
    ("an arrow in each column", |f| {
        f.arrows[..f.lanes].iter().all(|&seen| seen)
    }),
    ("a lift in each column", |f| {
        f.lifts[..f.lanes].iter().all(|&seen| seen)
    }),
    ("a K in each column", |f| {
        f.keysounds.columns[..f.lanes].iter().all(|&seen| seen)
    }),
    ("two K in a row", |f| f.keysounds.two),
    ("a K beside a head", |f| f.keysounds.beside_head),
    ("a K where the tally is counted anew", |f| {
        f.cells[b'K' as usize] && !f.is_like(Pairing::None) && !f.is_like(Pairing::All)
    }),
    ("a K on an unjudged row", |f| f.keysounds.unjudged),
    ("a K on a judged row, with flags", |f| f.keysounds.judged),
    ("a ninth head open in a column", |f| f.deepest > 8),
    ("heads that all pair", |f| f.is_like(Pairing::All)),
    ("more heads than tails, or fewer", |f| {
        f.is_like(Pairing::Uneven)
    }),
    ("a 1, M, L or F at a depth, heads as many as tails", |f| {
        f.is_like(Pairing::Blocked)
    }),
    ("a depth left over, heads as many as tails", |f| {
        f.is_like(Pairing::LeftOver)
    }),
    ("tails and no head", |f| f.is_like(Pairing::TailsAlone)),
    ("a head dropped by another head", |f| f.drops[0]),
    ("a head dropped by another cell", |f| f.drops[1]),
    ("a head dropped by the chart's end", |f| f.drops[2]),
    ("two heads dropped by one row", |f| f.dropped_together),
    ("a head dropped after one that stands below it", |f| {
        f.dropped_out_of_turn
    }),
    ("fewer flags than rows", |f| f.flags.len() < f.rows),
    ("no flags for rows", |f| f.rows > 0 && f.flags.is_empty()),
    ("more flags than rows", |f| {
        f.rows > 0 && f.flags.len() > f.rows
    }),
    ("one judged row alone", |f| f.judged == 1 && f.rows > 1),
    ("heads that all pair, 10,000 bytes or more", |f| {
        f.is_like(Pairing::All) && f.is_long(10_000)
    }),
    ("uneven heads, 10,000 bytes or more", |f| {
        f.is_like(Pairing::Uneven) && f.is_long(10_000)
    }),
    ("10,000 bytes or more, every line ends in 13 and 10", |f| {
        f.is_long(10_000) && f.cr_lines == f.lines
    }),
    ("notes that are written back", |f| f.written.back),
    ("notes that are written as another text", |f| {
        f.written.number == 0 && !f.written.back
    }),
    ("notes refused with 15", |f| f.written.number == 15),
    ("edited notes that are written", |f| f.written.edited == 0),
    ("edited notes refused with 13", |f| f.written.edited == 13),
    ("edited notes refused with 14", |f| f.written.edited == 14),
    ("edited notes refused with 15", |f| f.written.edited == 15),
    ("a press that is a hit", |f| f.traced.hit),
    ("a press on a mine", |f| f.traced.unplayed[0]),
    ("a press on a lift", |f| f.traced.unplayed[1]),
    ("a press on a fake", |f| f.traced.unplayed[2]),
    ("a press on a tail", |f| f.traced.on_tail),
    ("a second press on a note", |f| f.traced.second),
    ("a press a row after a note", |f| f.traced.row_late),
    ("a press where no note or tail stands", |f| f.traced.nowhere),
    ("a note of each kind without a press", |f| {
        f.traced.unmet == [true; 6]
    }),
    ("notes that are all pressed, and no stray", |f| {
        f.traced.clean
    }),
    ("100,000 bytes or more", |f| f.is_long(100_000)),
    ("500,000 bytes or more", |f| f.is_long(500_000)),
];

/// How a text's heads go with its tails.
#[derive(Clone, Copy, PartialEq, Eq)]
enum Pairing {
    None,
    All,
    Uneven,
    Blocked,
    LeftOver,
    TailsAlone,
}

/// Where a line that would be a row but for a byte 13 among its first L bytes has one, and which reading refuses it.
#[derive(Default)]
struct Refused {
    first: bool,
    middle: bool,
    last: bool,
    after_blanks: bool,
    read_back_alone: bool,
}

/// Where K cells stand: in which columns of a chart's rows, beside what, and on which rows of the text read back.
#[derive(Default)]
struct Keysounds {
    columns: [bool; 10],
    two: bool,
    beside_head: bool,
    unjudged: bool,
    judged: bool,
}

/// What becomes of the notes and row counts of a text: the number that is told of them, whether the minimised text comes back, and the number told of
/// them once edited.
struct Written {
    number: u32,
    back: bool,
    edited: u32,
}

impl Written {
    fn of(case: &Case, main: &Answer) -> Self {
        let given = Given::of_answer(main, case.lanes);
        let chart = given.chart();
        let edited = edits::edited(case, given);
        Self {
            number: chart.as_ref().err().copied().unwrap_or_default(),
            back: chart.is_ok_and(|chart| chart == main.text),
            edited: edited.chart().err().unwrap_or_default(),
        }
    }
}

/// What the presses of a trace stand on that is made of a text's notes, each in a way of its own.
#[derive(Default)]
struct Traced {
    hit: bool,
    /// A press on a mine, a lift, a fake.
    unplayed: [bool; 3],
    on_tail: bool,
    second: bool,
    row_late: bool,
    nowhere: bool,
    /// Whether a note of each kind has no press.
    unmet: [bool; 6],
    clean: bool,
}

impl Traced {
    /// Of a long text nothing is told.
    fn of(case: &Case, main: &Answer) -> Self {
        if case.bytes.len() >= LONG {
            return Self::default();
        }
        let notes = read_notes(&main.notes).unwrap_or_default();
        let mut rng = Rng::new(case.seed);
        let presses = presses_on(&notes, None, |n| rng.below(n));
        let Sorted {
            hits,
            strays,
            misses,
        } = Sorted::of(&notes, &presses);
        let at: HashMap<Place, u64> = notes.iter().map(|n| (place_of(n), n[3])).collect();
        let tails: HashSet<Place> = notes.iter().map(|n| (n[1], n[2])).collect();
        let mut traced = Self {
            hit: !hits.is_empty(),
            clean: !hits.is_empty() && strays.is_empty() && misses.is_empty(),
            ..Self::default()
        };
        for &(row, column) in &strays {
            let is_played = |place: &Place| at.get(place).is_some_and(|&kind| kind < 3);
            let kind = at.get(&(row, column));
            let late = row > 0 && is_played(&(row - 1, column));
            let on_tail = tails.contains(&(row, column));
            match kind {
                Some(&kind) if kind < 3 => traced.second = true,
                Some(&kind) => traced.unplayed[kind as usize - 3] = true,
                None => traced.nowhere |= !late && !on_tail,
            }
            traced.on_tail |= on_tail && kind.is_none();
            traced.row_late |= late && kind.is_none();
        }
        let pressed: HashSet<Place> = presses.into_iter().collect();
        for note in notes.iter().filter(|n| !pressed.contains(&place_of(n))) {
            traced.unmet[note[3] as usize] = true;
        }
        traced
    }
}

struct Facts {
    as_it_stands: bool,
    len: usize,
    lanes: usize,
    flags: Vec<u8>,
    judged: usize,
    ends_in_newline: bool,
    lines: usize,
    cr_lines: usize,
    rows: usize,
    measures: usize,
    /// The first byte of a line whose row begins after blanks, and the first byte of a row.
    before_row: [bool; 256],
    first_cell: [bool; 256],
    cells: [bool; 256],
    other_cell: bool,
    /// In which columns a chart has a 1, 2 or 4, and in which an L or l.
    arrows: [bool; 10],
    lifts: [bool; 10],
    keysounds: Keysounds,
    empty_line: bool,
    slash: bool,
    short_line: bool,
    long_line: bool,
    cr_after_row: bool,
    cr_and_more: bool,
    refused: Refused,
    comma_and_more: bool,
    empty_measure: bool,
    semicolon: bool,
    row_past_semicolon: bool,
    /// Whether a measure has the stride 1, 2, 4, or 8 and more.
    strides: [bool; 4],
    deepest: u32,
    pairing: Pairing,
    /// Whether a head is dropped for each of the reasons.
    drops: [bool; 3],
    dropped_together: bool,
    dropped_out_of_turn: bool,
    written: Written,
    traced: Traced,
}

impl Facts {
    fn of(case: &Case) -> Self {
        let lanes = case.lanes;
        let text = &case.bytes[..];
        let main = minimize_chart_count_rows_notes(text, lanes);
        let mut facts = Self {
            as_it_stands: chart_text(text, lanes) == text && read_back_text(text, lanes) == text,
            len: text.len(),
            lanes,
            flags: random::flags(case),
            judged: 0,
            ends_in_newline: text.ends_with(b"\n"),
            lines: 0,
            cr_lines: 0,
            rows: 0,
            measures: 0,
            before_row: [false; 256],
            first_cell: [false; 256],
            cells: [false; 256],
            other_cell: false,
            arrows: [false; 10],
            lifts: [false; 10],
            keysounds: Keysounds::default(),
            empty_line: false,
            slash: false,
            short_line: false,
            long_line: false,
            cr_after_row: false,
            cr_and_more: false,
            refused: Refused::default(),
            comma_and_more: false,
            empty_measure: false,
            semicolon: false,
            row_past_semicolon: false,
            strides: [false; 4],
            deepest: 0,
            pairing: Pairing::None,
            drops: [false; 3],
            dropped_together: false,
            dropped_out_of_turn: false,
            written: Written::of(case, &main),
            traced: Traced::of(case, &main),
        };
        let rows = facts.read(text);
        facts.look_at_rows(&rows);
        facts.look_for_keysounds(&rows, text);
        facts
    }

    fn is_long(&self, len: usize) -> bool {
        self.len >= len
    }

    fn is_like(&self, pairing: Pairing) -> bool {
        self.pairing == pairing
    }

    /// Goes over the lines; returns the rows back to back.
    fn read(&mut self, text: &[u8]) -> Vec<u8> {
        let mut rows = Vec::new();
        let mut measure = 0;
        let whole = text.strip_suffix(b"\n").unwrap_or(text);
        for raw in whole.split(|&b| b == b'\n') {
            self.lines += 1;
            self.cr_lines += usize::from(raw.ends_with(b"\r"));
            let line = leaves::skip_ws(raw);
            self.look_for_refused(raw, line);
            match line.first() {
                None => self.empty_line = true,
                Some(b'/') => self.slash = true,
                _ if self.semicolon => self.row_past_semicolon |= line.len() >= self.lanes,
                Some(b',') => {
                    self.comma_and_more |= leaves::trim_cr(line).len() > 1;
                    self.end_measure(&rows[measure..]);
                    measure = rows.len();
                }
                Some(b';') => self.semicolon = true,
                Some(_) if line.len() < self.lanes => self.short_line = true,
                Some(_) if line[..self.lanes].contains(&13) => {}
                Some(_) => self.take_row(raw, line, &mut rows),
            }
        }
        self.end_measure(&rows[measure..]);
        rows
    }

    fn take_row(&mut self, raw: &[u8], line: &[u8], rows: &mut Vec<u8>) {
        let (row, rest) = line.split_at(self.lanes);
        self.rows += 1;
        self.before_row[raw[0] as usize] |= raw.len() > line.len();
        self.first_cell[row[0] as usize] = true;
        self.long_line |= rest.len() > 1;
        self.cr_after_row |= rest == b"\r";
        self.cr_and_more |= rest.starts_with(b"\r") && rest.len() > 1;
        rows.extend_from_slice(row);
    }

    /// A line as it stands and without its blanks: whether one of the readings refuses it for a byte 13 among its first L bytes.
    fn look_for_refused(&mut self, raw: &[u8], line: &[u8]) {
        let cells = |line: &[u8], marks: &[u8]| {
            let cells = line.get(..self.lanes)?.to_vec();
            (cells.contains(&13) && !marks.contains(&cells[0])).then_some(cells)
        };
        let (in_chart, read_back) = (cells(line, b"/,;"), cells(leaves::trim_cr(raw), b",;"));
        let refused = &mut self.refused;
        refused.after_blanks |= in_chart.is_some() && raw.len() > line.len();
        refused.read_back_alone |= in_chart.is_none() && read_back.is_some();
        for cells in in_chart.into_iter().chain(read_back) {
            let [first, middle @ .., last] = &cells[..] else {
                continue;
            };
            refused.first |= *first == 13;
            refused.middle |= *first != 13 && *last != 13 && middle.contains(&13);
            refused.last |= *last == 13 && *first != 13 && !middle.contains(&13);
        }
    }

    fn end_measure(&mut self, rows: &[u8]) {
        if rows.is_empty() {
            self.empty_measure = true;
        } else {
            self.measures += 1;
            let shift = leaves::measure_reduce_shift(self.lanes, rows);
            self.strides[shift.min(3)] = true;
        }
    }

    fn look_at_rows(&mut self, rows: &[u8]) {
        let mut depths = [0; 10];
        for row in rows.chunks_exact(self.lanes) {
            for (column, (depth, &cell)) in depths.iter_mut().zip(row).enumerate() {
                self.arrows[column] |= b"124".contains(&cell);
                self.lifts[column] |= b"Ll".contains(&cell);
                self.cells[cell as usize] = true;
                self.other_cell |= !b"01234MLFKmlf".contains(&cell);
                match cell {
                    b'2' | b'4' => *depth += 1,
                    b'3' => *depth = u32::saturating_sub(*depth, 1),
                    b'1' | b'M' | b'L' | b'F' => *depth = 0,
                    _ => {}
                }
                self.deepest = self.deepest.max(*depth);
            }
        }
        let judged = |row: &usize| self.flags.get(*row).is_some_and(|&flag| flag != 0);
        self.judged = (0..self.rows).filter(judged).count();
        self.pairing = pairing(&leaves::count_line(self.lanes, rows));
        self.look_at_drops(&dropped_of(rows.chunks_exact(self.lanes), self.lanes));
    }

    fn look_for_keysounds(&mut self, rows: &[u8], text: &[u8]) {
        let is_keysound = |cell: &u8| *cell == b'K';
        let keysounds = &mut self.keysounds;
        for row in rows.chunks_exact(self.lanes) {
            let count = row.iter().filter(|cell| is_keysound(cell)).count();
            let has_head = row.contains(&b'2') || row.contains(&b'4');
            keysounds.two |= count > 1;
            keysounds.beside_head |= count > 0 && has_head;
            for (seen, cell) in keysounds.columns.iter_mut().zip(row) {
                *seen |= is_keysound(cell);
            }
        }
        for (row, flag) in rows_read_back(text, self.lanes).zip(&self.flags) {
            if row.contains(&b'K') {
                keysounds.judged |= *flag != 0;
                keysounds.unjudged |= *flag == 0;
            }
        }
    }

    fn look_at_drops(&mut self, heads: &[DroppedHead]) {
        for head in heads {
            self.drops[usize::from(head.reason)] = true;
        }
        for pair in heads.windows(2) {
            let [first, second] = [0, 1].map(|place| pair[place].by.unwrap_or(NO_ROW));
            self.dropped_together |= first == second && first != NO_ROW;
            self.dropped_out_of_turn |= second < first && pair[0].row < pair[1].row;
        }
    }
}

/// The cases of the correction's test (Specification, Correction), of rows that need not be minimised: those that minimising drops are all zero.
fn pairing(counted: &Counted) -> Pairing {
    let is_left_over = counted.phantom_depths.iter().any(|&depth| depth > 0);
    match (counted.holds, counted.ends) {
        (0, 0) => Pairing::None,
        (0, _) => Pairing::TailsAlone,
        (heads, tails) if heads != tails => Pairing::Uneven,
        _ if is_left_over => Pairing::LeftOver,
        _ if counted.has_phantom => Pairing::Blocked,
        _ => Pairing::All,
    }
}

/// How many texts of each kind were met, for each lane count.
pub struct Kinds([[u64; KINDS.len()]; LANE_COUNTS.len()]);

impl Kinds {
    pub fn new() -> Self {
        Self([[0; KINDS.len()]; LANE_COUNTS.len()])
    }

    /// A text at a lane number that is refused is of no kind.
    pub fn note(&mut self, case: &Case) {
        if !is_lane_count(case.lanes) {
            return;
        }
        let facts = Facts::of(case);
        let counts = &mut self.0[lane_place(case.lanes)];
        for (count, (_, test)) in counts.iter_mut().zip(KINDS) {
            *count += u64::from(test(&facts));
        }
    }

    /// How many texts the Rust was asked about at each lane count, and of how many it was asked another.
    pub fn asked(&self) -> impl Iterator<Item = (usize, u64, u64)> {
        let counts = self.0.iter().zip(LANE_COUNTS);
        counts.map(|(counts, lanes)| (lanes, counts[AS_IT_STANDS], counts[IN_ANOTHERS_PLACE]))
    }

    /// The kinds that were not met, with the lane count.
    pub fn missing(&self) -> impl Iterator<Item = (&'static str, usize)> {
        self.0.iter().zip(LANE_COUNTS).flat_map(|(counts, lanes)| {
            let missing = counts.iter().zip(KINDS).filter(|(count, _)| **count == 0);
            missing.map(move |(_, (name, _))| (name, lanes))
        })
    }
}
