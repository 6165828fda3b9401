//! Texts that one rule of the specification decides each: with that rule left out the answer is another.
//! `tests/vectors/README.md` lists them with their rules, `tests/vectors/mutants.sh` leaves the rules out.

/// A text with its lane count and flags; in the text `|` stands for byte 10, as in the specification.
pub struct Deciding {
    pub name: &'static str,
    pub lanes: usize,
    pub text: &'static str,
    pub flags: &'static [u8],
}

impl Deciding {
    #[must_use]
    pub fn bytes(&self) -> Vec<u8> {
        let byte = |b: u8| if b == b'|' { b'\n' } else { b };
        self.text.bytes().map(byte).collect()
    }
}

const fn four(name: &'static str, text: &'static str) -> Deciding {
    lanes(name, 4, text)
}

const fn lanes(name: &'static str, lanes: usize, text: &'static str) -> Deciding {
    Deciding {
        name,
        lanes,
        text,
        flags: &[],
    }
}

const fn flagged(name: &'static str, text: &'static str, flags: &'static [u8]) -> Deciding {
    Deciding {
        name,
        lanes: 4,
        text,
        flags,
    }
}

/// The chart whose figures are all different; `tests/c/header.c` reads them by name.
pub const DIFFERENT: &str = "L13K|13M4|3213|1K33|L4M2|1413|L21M|1M13|1F4L|,|1K3K|4144|MFK3|3FL1|MFFM|11M1|1M3L|M2L1|,|4K1K|34LK|3M14|1K3K|4M13|141M|11KF|";

/// A flag for each of its rows: every one is judged but the fourth.
const FOURTH_UNJUDGED: [u8; 24] = {
    let mut flags = [1; 24];
    flags[3] = 0;
    flags
};

macro_rules! eight {
    ($($text:tt)*) => {
        concat!(
            $($text)*, $($text)*, $($text)*, $($text)*, $($text)*, $($text)*, $($text)*, $($text)*
        )
    };
}

/// Nine heads in a column, these rows after the first of them, and nine tails.
macro_rules! nine_heads {
    ($rows:literal) => {
        concat!("2000|", $rows, eight!("2000|"), "3000|", eight!("3000|"))
    };
}

pub const TEXTS: &[Deciding] = &[
    flagged("all figures different", DIFFERENT, &FOURTH_UNJUDGED),
    // Lines
    four("cut at byte 10", "1000\r0100|0010|"),
    four("empty text", ""),
    four("blank 9", "\t1000|"),
    four("blank 10", "|1000|"),
    four("blank 12", "\x0C1000|"),
    four("blank 13", "\r1000|"),
    four("blank 32", " 1000|"),
    four("blank 11 is none", "\x0B1000|"),
    four("blank within a row", "0 10|"),
    four("empty line", "1000||0100|"),
    four("slash", "1000|/100|/00M|"),
    four("slash within a row", "10/0|0/01|"),
    four("comma", "1000|,|0100|"),
    four("rest after a comma", "1000|,1111|0100|"),
    four("comma within a row", "1,00|"),
    four("semicolon ends the reading", "1000|;|0100|,|"),
    four("semicolon ends a measure", "1000|,|0100|;"),
    four("semicolon within a row", "1;00|0100|"),
    four("exactly L bytes", "1000"),
    four("short line", "100|0100|"),
    four("more than L bytes", "10001|0100|"),
    four("13 as the last of L bytes", "100\r|0100|"),
    four("13 in the middle of L bytes", "1\r00|0100|"),
    four("13 among L bytes after blanks", " \t10\r0|0100|"),
    four("13 after L bytes", "1000\r|0100 \r|"),
    four("end without semicolon", "1000|,|0100"),
    four("last measure without rows", "1000|,|"),
    four("measure without rows", "1000|,|,|0100|"),
    // Lanes
    lanes("lanes 5", 5, "00001|"),
    lanes("lanes 8", 8, "00000001|"),
    lanes("lanes 10", 10, "0000000001|"),
    lanes("lanes 6", 6, "000011|"),
    // Minimising
    four("stride: off its multiples", "1000|0100|0000|0000|"),
    four("stride: every row off", "1000|0000|0000|0100|"),
    four("stride: all zero", "1000|0000|0x00|0000|"),
    four("stride: not a multiple of it", "1000|000x|"),
    four(
        "stride: divides the row count",
        "1000|0000|0000|0000|0000|0000|",
    ),
    four(
        "stride: largest",
        "1000|0000|0000|0000|0000|0000|0000|0000|",
    ),
    four("stride: one row", "0000|"),
    // Minimised text
    four("text: byte 10 after a row", "1000|0100"),
    four("text: comma and byte 10", " , x|1000|"),
    four("text: no semicolon", "1000|;|"),
    // Cells
    flagged("cells: other bytes", "1000|5NHD|0100|5NHD|", &[1, 1, 1, 0]),
    four("cells: other bytes, counted anew", "2000|5NHD|"),
    // Beats
    four("beat rounded once", ",|,|1000|0100|0010|0001|1000|0100|"),
    four(
        "beat: step as a 32-bit float",
        ",|,|1000|0100|0010|0001|1000|0100|0010|",
    ),
    four("beat: tie to even, down", ",|1000|0100|0010|0001|1000|"),
    four(
        "beat: tie to even, up",
        "1000|0100|0010|0001|1000|0100|0010|",
    ),
    four("last beat: the last object row", "1000|,|0010|0100|"),
    four("last beat: 64-bit floats", LAST_WIDE),
    four("last beat: whole 48ths", "0000|1000|0000|0000|0000|"),
    four("last beat: tie to even, down", LAST_TIE_DOWN),
    four("last beat: tie to even, up", LAST_TIE_UP),
    // Object rows
    four("object: no row", "0000|m000|0l00|00f0|0002|4000|0000|"),
    four("object: 1", "0000|1000|0000|0000|"),
    four("object: M", "0000|M000|0000|0000|"),
    four("object: L", "0000|L000|0000|0000|"),
    four("object: F", "0000|F000|0000|0000|"),
    four("object: K", "0000|K000|0000|0000|"),
    four("object: a tail without a head", "1000|0000|3000|0000|"),
    four("object: a tail of a 2", "2000|0000|3000|0000|"),
    four("object: a tail of a 4", "4000|0000|3000|0000|"),
    four("object: two open heads", "2000|4000|3000|3000|"),
    four("object: depth not below 0", "1000|3000|3000|0000|"),
    four("object: depth after 1", "2000|1000|3000|0000|"),
    four(
        "object: depth after 1 beside a mine",
        "2000|1M00|3000|0000|",
    ),
    four("object: depth after M", "2000|M000|3000|0000|"),
    four("object: depth after L", "2000|L000|3000|0000|"),
    four("object: depth after F", "2000|F000|3000|0000|"),
    four("object: depth after K", "2000|K000|3000|0000|"),
    four("object: depth after m", "2000|m000|3000|0000|"),
    four("object: depth after l", "2000|l000|3000|0000|"),
    four("object: depth after f", "2000|f000|3000|0000|"),
    // Density and spacing
    four("spacing: a row of mines", "1000|M000|"),
    four("spacing: a row of tails", "2000|3000|"),
    four("spacing: 1, 2 and 4", "1000|2000|4000|"),
    four("spacing: no rows", ",|1000|"),
    // Hold tracker, by the tally counted anew: the last row has a head that stays open
    four("tracker: 1 empties", "2000|1000|3000|0002|"),
    four("tracker: M empties", "2000|M000|3000|0002|"),
    four("tracker: L empties", "2000|L000|3000|0002|"),
    four("tracker: F empties", "2000|F000|3000|0002|"),
    four("tracker: K does not", "2000|K000|3000|0002|"),
    four("tracker: m does not", "2000|m000|3000|0002|"),
    four("tracker: l does not", "2000|l000|3000|0002|"),
    four("tracker: f does not", "2000|f000|3000|0002|"),
    four("tracker: the newest", "2100|2000|3000|"),
    four("tracker: a 4", "4000|3000|0002|"),
    four("tracker: a ninth head", NINTH),
    four("tracker: an eighth head", EIGHTH),
    four("tracker: per column", "2000|0200|3000|0300|"),
    // Typed notes
    four("notes: K touches none", "2000|K000|3000|0000|"),
    four("notes: 2 drops", "2000|2000|3000|"),
    four("notes: 4 drops", "4000|4000|3000|"),
    four("notes: open at the end", "1000|2000|0100|"),
    four("notes: a tail alone", "3000|1000|0100|"),
    four("notes: a tail twice", "2000|3000|3000|"),
    four("notes: rising column", "1M24|0033|LF00|"),
    four("notes: per column", "2000|0200|3000|0300|"),
    four("record: rows through the chart", "1000|0000|,|0100|"),
    four("record: low byte first", LOW_FIRST),
    four("record: column and kind", "1M24|0033|LF00|"),
    four("record: no tail", "1000|"),
    // Tallies
    four("tally: jump", "1100|0010|"),
    four("tally: hand of three", "1110|1100|"),
    four("tally: hand with one held", "2000|0110|3000|"),
    four("tally: hand with two held", "2200|0010|3300|"),
    four("tally: three held and no arrow", "2220|000M|3330|"),
    four("tally: held before the row", "2200|3310|0001|"),
    four("tally: holding not below 0", "3000|1110|"),
    four("tally: holding not below 0 in a step", "3100|1110|"),
    four(
        "tally: holding not below 0, counted anew",
        "3000|2000|0110|3000|",
    ),
    four(
        "tally: holding not below 0 in a step, counted anew",
        "3100|2000|0110|3000|",
    ),
    four("tally: a tail takes off one held", "2200|3000|0011|0300|"),
    lanes("tally: five columns", 5, "11111|00001|"),
    lanes("tally: eight columns", 8, "00001111|"),
    lanes("tally: ten columns", 10, "0000111111|"),
    lanes("tally: slow path", 5, "2000M|01100|30000|"),
    // Correction
    four("correction: if there is a head", "3000|1000|"),
    four("correction: more tails", NINE_HEADS_TEN_TAILS),
    four("correction: more heads", "2000|0000|0200|0300|"),
    four("correction: 1 met", "2000|1000|3000|"),
    four("correction: 1 met beside a mine", "2000|1M00|3000|"),
    four("correction: M met", "2000|M000|3000|"),
    four("correction: L met", "2000|L000|3000|"),
    four("correction: F met", "2000|F000|3000|"),
    four("correction: K not met", nine_heads!("K000|")),
    four("correction: m not met", nine_heads!("m000|")),
    four("correction: l not met", nine_heads!("l000|")),
    four("correction: f not met", nine_heads!("f000|")),
    four("correction: depth left over", "2000|0300|"),
    four("correction: depth of a 4", "4000|1000|3000|"),
    four("correction: depth not below 0", "3000|2000|1000|"),
    four("correction: K resets no depth", "2000|K000|1000|3000|"),
    four("correction: m resets no depth", "2000|m000|1000|3000|"),
    four("correction: l resets no depth", "2000|l000|1000|3000|"),
    four("correction: f resets no depth", "2000|f000|1000|3000|"),
    four("correction: keeps the steps", "2000|0300|0010|"),
    four("correction: none", nine_heads!("")),
    // Rows read back
    four("read back: byte 13 dropped", "100\r|2000|"),
    four("read back: one byte 13", "100\r\r|"),
    four("read back: 13 as the first of L bytes", "\r100|0100|"),
    four("read back: 13 in the middle of L bytes", "1\r00|0100|"),
    four("read back: 13 as the last of L bytes", "100\rx|0100|"),
    four("read back: 13 after L bytes", "1000\r\r|0100|"),
    four("read back: no blanks", " 1000|"),
    four("read back: no slash", "/100|"),
    four("read back: comma and semicolon", ",1000|;0100|0010|"),
    four("read back: goes on after a semicolon", ";|1000|"),
    four("read back: short line", "100|"),
    four("read back: first L bytes", "10001|0100|"),
    // Judged tallies
    four("judged: L and l", "L000|0l00|"),
    four("judged: jump of lifts", "Ll00|"),
    four("judged: a mine is no step", "M000|F000|1000|"),
    four("judged: heads unpaired", "2100|"),
    four("judged: 1 in a hold", "2000|1000|3000|"),
    four("judged: L in a hold", "2000|L000|3000|"),
    four("judged: M in a hold", "2000|M000|3000|"),
    four("judged: F in a hold", "2000|F000|3000|"),
    four("judged: a mine in three holds", "2220|000M|3330|"),
    four("judged: m in three holds", "2220|000m|3330|"),
    four("judged: a fake in three holds", "2220|000F|3330|"),
    four("judged: f in three holds", "2220|000f|3330|"),
    four("judged: K in three holds", "2220|000K|3330|"),
    four("judged: the tail's row", "2200|3310|"),
    four("judged: after the tail's row", "2200|3300|1000|"),
    four("judged: a tail alone", "3000|2200|0010|3300|"),
    four("judged: holding stays 0", "2000|3000|"),
    // Flags
    flagged("flags: 0 unjudged", "1000|0100|", &[0, 1]),
    flagged("flags: 2 judged", "1000|0100|", &[2, 255]),
    flagged("flags: past them", "1000|0100|0010|", &[0]),
    flagged("unjudged: 1 L l M m F f", "1LlM|mFf0|KxX5|", &[0, 0, 0]),
    flagged("unjudged: a paired head", "2000|3000|", &[0, 1]),
    flagged("unjudged: a head unpaired", "2000|0100|", &[0, 1]),
    flagged("unjudged: opens no hold", "2200|0010|3300|", &[0, 1, 1]),
    flagged("unjudged: the tail's row", "2200|3300|0010|", &[1, 0, 1]),
    flagged(
        "unjudged: through the tail's row",
        "2200|0000|3310|",
        &[1, 0, 1],
    ),
    flagged("unjudged: a 1 in a hold", "2000|1000|3000|", &[1, 0, 1]),
    // Timing rows
    four("timing: a 2", "2000|3000|"),
    four("timing: a 4", "4000|3000|"),
    four("timing: no head", "1000|3000|M00K|"),
    four("timing: head in an earlier measure", "2000|,|1000|"),
    four("timing: back to back", "1000|0100|"),
    // Dropped holds
    four("dropped: another column", "2000|0300|0100|"),
    four("dropped: rising row", "2000|0200|0100|"),
    four("dropped: rising column", "2002|0100|0001|"),
    four(
        "dropped: rows through the chart",
        "1000|0000|,|2000|0000|1000|0000|",
    ),
    four("dropped: low byte first", LOW_FIRST_DROPPED),
    // Keysounds
    four("keysounds: K", "K0K0|0KK0|0000|"),
    four("keysounds: k is none", "K000|k000|"),
    four("keysounds: nothing else", "K000|11K0|"),
    four("keysounds: beside heads", "2K00|K100|30K0|0K02|"),
    four("keysounds: counted anew", "2000|1000|K000|"),
    lanes("keysounds: five columns", 5, "K000K|0000K|"),
    lanes("keysounds: eight columns", 8, "K000000K|"),
    lanes("keysounds: ten columns", 10, "K0000000KK|"),
    four("keysounds: minimised rows", "K000|;|K000|"),
    four(
        "keysounds: rows read back",
        " K00|/K00|K000\r|K\r00|,K00|;K00|",
    ),
    flagged("keysounds: unjudged", "K000|KK00|000K|", &[0, 1]),
    // Directions of six lanes
    lanes("six columns: directions", 6, "111111|011111|001111|000111|000011|000001|"),
    lanes("six columns: by fours no more", 6, "000010|000001|"),
    lanes("six columns: paired heads", 6, "020040|030030|"),
    lanes("six columns: heads and tails", 6, SIX_NINE_TEN),
    lanes("six columns: a blocker met", 6, "020000|010000|030000|"),
    lanes("six columns: a depth left over", 6, "030000|020000|"),
    lanes("six columns: as many heads", 6, SIX_NINE_NINE),
    lanes("six columns: what empties a stack", 6, "222000|MLF000|333000|"),
    lanes("six columns: what leaves it", 6, "222200|Kmlf00|333300|000020|"),
    lanes("six columns: judged", 6, "0L0010|00l020|000030|040000|"),
    Deciding {
        name: "six columns: flags",
        lanes: 6,
        text: "010000|000010|100000|",
        flags: &[0, 1],
    },
    lanes("six columns: rows read back", 6, " 10000|/10000|010000\r|,00001|;00001|"),
];

macro_rules! eight_zeros {
    () => {
        "0000|0000|0000|0000|0000|0000|0000|0000|"
    };
}
macro_rules! zeros_124 {
    () => {
        concat!(
            eight_zeros!(),
            eight_zeros!(),
            eight_zeros!(),
            eight_zeros!(),
            eight_zeros!(),
            eight_zeros!(),
            eight_zeros!(),
            eight_zeros!(),
            eight_zeros!(),
            eight_zeros!(),
            eight_zeros!(),
            eight_zeros!(),
            eight_zeros!(),
            eight_zeros!(),
            eight_zeros!(),
            "0000|0000|0000|0000|"
        )
    };
}

/// 128 rows with a tap on the fourth, at 4 and a half 48ths, and on the second, at 1 and a half.
const LAST_TIE_DOWN: &str = concat!("0000|0000|0000|1000|", zeros_124!());
const LAST_TIE_UP: &str = concat!("0000|1000|0000|0000|", zeros_124!());

/// 1,024 measures without rows, then one of 129 rows with a tap on the second.
const LAST_WIDE: &str = concat!(
    eight!(eight!(eight!(",|"))),
    eight!(eight!(eight!(",|"))),
    "0000|1000|",
    zeros_124!(),
    "0000|0000|0000|"
);

/// 256 rows that are all zero, then a hold whose rows take more than a byte.
const LOW_FIRST: &str = concat!(zeros_124!(), zeros_124!(), eight_zeros!(), "0200|0300|");

/// The same rows, then a head that another cell drops.
const LOW_FIRST_DROPPED: &str = concat!(zeros_124!(), zeros_124!(), eight_zeros!(), "0200|0100|");

/// Nine and eight heads in a column, each with its tail; the last one beside a tap.
const NINTH: &str =
    "2000|2000|2000|2000|2000|2000|2000|2000|2100|3000|3000|3000|3000|3000|3000|3000|3000|3000|";
const EIGHTH: &str =
    "2000|2000|2000|2000|2000|2000|2000|2100|3000|3000|3000|3000|3000|3000|3000|3000|";

/// The same nine heads with a tail too many.
const NINE_HEADS_TEN_TAILS: &str = concat!(nine_heads!(""), "3000|");

/// Nine heads and as many tails in the second column of six lanes, and with a tail too many.
const SIX_NINE_NINE: &str = concat!("020000|", eight!("020000|"), "030000|", eight!("030000|"));
const SIX_NINE_TEN: &str = concat!(
    "020000|",
    eight!("020000|"),
    "030000|030000|",
    eight!("030000|")
);
