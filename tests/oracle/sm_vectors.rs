//! The stored sample of SM files and of what the reference answers for their blocks.
//! The layout is described in `tests/vectors/README.md`.

use crate::sm::{TYPES, blocks, sm_chart};
use crate::sm_deciding::{Deciding, FILES};
use crate::vectors::{Numbers, head, numbers_of_differing, sized};

/// The first bytes of the sample.
pub const MARK: &[u8; 8] = b"SMFILES1";

/// What stands in each of the three places before a call, and is left there by a refused one.
pub const LENT: u64 = 165;

/// Numbers far beyond the blocks of every file: those that give 0 when cut to 8, 16 or 32 bits, and those near the ends.
const FAR: [usize; 5] = [0x100, 0x1_0000, 0x1_0000_0000, 1 << 63, usize::MAX];

// Writing

/// The whole sample for a seed.
#[must_use]
pub fn sample(seed: u64) -> Vec<u8> {
    let files = files(seed);
    let mut out = head(MARK, seed, files.len());
    for (index, file) in files.iter().enumerate() {
        out.extend(record(index, file));
    }
    out
}

/// The record of a file by its number.
#[must_use]
pub fn record(index: usize, file: &[u8]) -> Vec<u8> {
    let mut rest = (file.len() as u32).to_le_bytes().to_vec();
    rest.extend(file);
    for k in asked(index, file) {
        let answer = answer(file, k);
        rest.extend(answer.iter().flat_map(|number| number.to_le_bytes()));
    }
    sized(&rest)
}

/// The blocks that are asked for: each, the one past the last, and one far beyond.
#[must_use]
pub fn asked(index: usize, file: &[u8]) -> Vec<usize> {
    let mut asked: Vec<usize> = (0..=blocks(file).len()).collect();
    asked.push(FAR[index % FAR.len()]);
    asked
}

/// A stored answer: k, the number that is answered, and what the three places hold then.
#[must_use]
pub fn answer(file: &[u8], k: usize) -> [u64; 5] {
    let number = |number: usize| number as u64;
    match sm_chart(file, k) {
        Ok(chart) => [
            number(k),
            0,
            number(chart.lanes),
            number(chart.start),
            number(chart.len),
        ],
        Err(refusal) => [number(k), refusal.into(), LENT, LENT, LENT],
    }
}

/// The numbers of the files of a sample whose answers are not those that are stored.
#[must_use]
pub fn differing(sample: &[u8]) -> Vec<usize> {
    numbers_of_differing(sample, |index, stored| {
        let len = u32::from_le_bytes([stored[4], stored[5], stored[6], stored[7]]);
        record(index, &stored[8..8 + len as usize])
    })
}

// The files

/// The files that one sentence decides, as editors write them, with what is searched for at every place of a word, and drawn by tokens.
#[must_use]
pub fn files(seed: u64) -> Vec<Vec<u8>> {
    let mut numbers = Numbers(seed);
    let mut files: Vec<Vec<u8>> = FILES.iter().map(Deciding::bytes).collect();
    files.extend(edited());
    files.extend((0..20).map(shifted));
    files.extend((0..24).map(|_| drawn_blocks(&mut numbers)));
    files.extend((0..40).map(|_| drawn_tokens(&mut numbers)));
    files
}

/// What stands before the charts.
const SONG: &str = "#TITLE:Long Way;\n#SUBTITLE:;\n#ARTIST:a: b;\n#OFFSET:-0.009;\n#BPMS:0.000=120.000\n,16.000=128.000\n;\n#STOPS:;\n#BGCHANGES:;\n";

const ROWS: &str = "1000\n0100\n0010\n0001\n,\n2000\n0000\n3000\n00M0\n";

/// A block in the form of the editors: a comment, the fields on lines of their own, the rows.
fn edited_block(name: &str, end: &str) -> String {
    format!(
        "\n//---------------{name} - ----------------\n#NOTES:\n     {name}:\n     someone:\n     Hard:\n     9:\n     0.733,0.800,0.281,0.000,0.048:\n{ROWS}{end}"
    )
}

/// Files as editors write them, and as they come out of other hands.
fn edited() -> Vec<Vec<u8>> {
    let block = |name: &str| edited_block(name, ";\n");
    let all: String = TYPES
        .iter()
        .map(|(name, _)| block(&String::from_utf8_lossy(name)))
        .collect();
    let single = block("dance-single");
    let texts = [
        SONG.to_string(),
        format!("{SONG}{single}"),
        format!("{SONG}{all}"),
        format!("{SONG}{all}").replace('\n', "\r\n"),
        format!("\u{FEFF}{SONG}{all}"),
        // A byte order mark is no blank.
        format!("\u{FEFF}#NOTES:dance-single:::::{ROWS};\n{single}"),
        format!("{SONG}{}{all}", block("lights-cabinet")),
        format!("{SONG}{}{single}", block("dance-threepanel")),
        // The last block has no end; the first has none, and takes the others in.
        format!("{SONG}{all}{}", edited_block("pump-single", "")),
        format!("{SONG}{}{all}", edited_block("pump-single", "\n")),
        // A block on one line.
        format!("{SONG}#NOTES:pump-double:::::0000000000;\n{single}//\n"),
        // An SSC file: its `#NOTES:` has no fields.
        format!("{SONG}#NOTEDATA:;\n#STEPSTYPE:dance-single;\n#NOTES:\n{ROWS};\n"),
        // A chart that is turned off by slashes.
        format!("{SONG}{}{single}", single.replace("#NOTES", "//#NOTES")),
        // Sixty charts of a line.
        "#NOTES:dance-double:a:b:1:0:00000000;\n".repeat(60),
        // Long fields, and data of many lines.
        format!(
            "#NOTES:{}dance-single:{}:::: {};",
            " ".repeat(300),
            "x".repeat(300),
            ROWS.repeat(40)
        ),
    ];
    texts.map(String::into_bytes).to_vec()
}

/// A file in which tag, `:`, `;` and the next tag stand some bytes further on, so that each falls on every place of a word of eight.
fn shifted(by: usize) -> Vec<u8> {
    let (blanks, letters) = (" ".repeat(by), "x".repeat(by));
    let text = format!(
        "{letters}\n{blanks}#NOTES:{blanks}pump-single{blanks}:{letters}:::{letters}:{letters};{letters}\n{blanks}#NOTES:dance-single::{letters}:::{letters}"
    );
    text.into_bytes()
}

/// Names to draw from; more of those that are known.
const NAMES: [&str; 14] = [
    "dance-single",
    "dance-single",
    "pump-single",
    "pump-single",
    "dance-double",
    "dance-double",
    "pump-double",
    "pump-double",
    "dance-solo",
    "dance-solo",
    "dance-threepanel",
    "Dance-single",
    "dance-singlf",
    "",
];

const BLANKS: [&str; 8] = ["", "", "", " ", "\t", "\n    ", "\r\n", "\x0C\x0B"];

/// Blocks that are mostly whole, parted by lines that are mostly none.
fn drawn_blocks(numbers: &mut Numbers) -> Vec<u8> {
    let mut text = String::new();
    for _ in 0..=numbers.below(6) {
        text += *numbers.pick(&["", "", "\n", "//\n", "#TITLE:a;\n", "a", " \t"]);
        text += "#NOTES:";
        text += *numbers.pick(&BLANKS);
        text += *numbers.pick(&NAMES);
        text += *numbers.pick(&BLANKS);
        let colons = *numbers.pick(&[5, 5, 5, 5, 6, 4, 1]);
        for _ in 0..colons {
            text += ":";
            text += *numbers.pick(&["", "a", " b ", "\n     1", "0.1,0.2"]);
        }
        text += &ROWS[..numbers.below(ROWS.len())];
        text += *numbers.pick(&[";\n", ";\n", ";\n", ";\r\n", ";", "\n", "; //\n"]);
    }
    text.into_bytes()
}

/// What matters to the reading, and what does not.
const TOKENS: [&[u8]; 24] = [
    b"#NOTES:",
    b"\n#NOTES:",
    b"\n#NOTES:dance-single:",
    b"\n #NOTES: pump-single :",
    b"#NOTES",
    b"dance-double",
    b"pump-double:",
    b":",
    b":",
    b"::",
    b":a:b:1:0:",
    b";",
    b";",
    b"\n",
    b"\n",
    b"\r\n",
    b" ",
    b"\t",
    b"\x0B",
    b"x",
    b"//",
    b"0000\n,\n",
    b"\xFF",
    b"\0",
];

fn drawn_tokens(numbers: &mut Numbers) -> Vec<u8> {
    let count = numbers.below(60) + 1;
    let tokens = (0..count).map(|_| *numbers.pick(&TOKENS));
    tokens.collect::<Vec<_>>().concat()
}
