//! Random SM files, all from a seed: tokens in any order, blocks whose parts are drawn one by one, files as editors write them, and such
//! files damaged.

use crate::file_checks::Files;
use crate::random::{Rng, STYLES};
use oracle::sm::TYPES;

/// What a file is strung together from; a token that stands twice is drawn twice as often.
const TOKENS: [&[u8]; 47] = [
    b"#NOTES:",
    b"#NOTES:",
    b"#NOTES:",
    b"\n#NOTES:",
    b"\n#NOTES:",
    b"#NOTES",
    b"#notes:",
    b"#NOTES2:",
    b"#",
    b"#TITLE:x;",
    b":",
    b":",
    b":",
    b"::::",
    b"::::",
    b":::::",
    b";",
    b";",
    b";",
    b"\n",
    b"\n",
    b"\n",
    b"\r\n",
    b"\r\n",
    b"\r",
    b" ",
    b" ",
    b"\t",
    b"\x0b",
    b"\x0c",
    b"dance-single",
    b"pump-single",
    b"dance-double",
    b"pump-double",
    b"dance-solo",
    b"lights-cabinet",
    b"Dance-Single",
    b"pump-",
    b"x",
    b"//",
    b",\n",
    b"1000\n",
    b"00200\r\n",
    b"00000003\n",
    b"M00000000K\n",
    b"\x00",
    b"\xff",
];

const BLANKS: &[u8] = b"\t\n\x0c\r ";

/// Type names that are none of the five, some of them nearly.
const OTHER_TYPES: [&[u8]; 12] = [
    b"lights-cabinet",
    b"",
    b"dance-threepanel",
    b"Dance-Single",
    b"PUMP-DOUBLE",
    b"dance-singl",
    b"dance-singles",
    b"xpump-single",
    b"dance -double",
    b"\x0bpump-double",
    b"pump-double\x0b",
    b"#NOTES",
];

/// Files of each sort in turn, `cases` in all.
pub fn run(rng: &mut Rng, cases: u64, files: &mut Files) {
    for case in 0..cases {
        let file = match case % 4 {
            0 => tokens(rng),
            1 => blocks(rng),
            2 => written(rng),
            _ => damaged(rng),
        };
        files.run(file, rng.next());
    }
}

fn tokens(rng: &mut Rng) -> Vec<u8> {
    let count = rng.pick(&[3, 8, 20, 60]);
    (0..rng.below(count))
        .flat_map(|_| rng.pick(&TOKENS).to_vec())
        .collect()
}

/// Up to five blocks with something or nothing between them.
fn blocks(rng: &mut Rng) -> Vec<u8> {
    let mut file = Vec::new();
    for _ in 0..rng.below(6) {
        block(rng, &mut file);
        if rng.one_in(3) {
            file.extend_from_slice(rng.pick(&TOKENS));
        }
        if !rng.one_in(4) {
            file.extend_from_slice(rng.pick(&[&b"\n"[..], b"\r\n"]));
        }
    }
    if rng.one_in(4) {
        file.truncate(rng.below(file.len() + 1));
    }
    file
}

/// A block of parts that are mostly as they should be.
fn block(rng: &mut Rng, file: &mut Vec<u8>) {
    blanks(rng, file);
    if rng.one_in(12) {
        file.extend_from_slice(rng.pick(&[b"x", b"\x0b", b"/", b";"]));
    }
    file.extend_from_slice(match rng.below(16) {
        0 => rng.pick(&TOKENS),
        _ => b"#NOTES:",
    });
    let (name, lanes) = type_name(rng);
    blanks(rng, file);
    file.extend_from_slice(name);
    blanks(rng, file);
    let fields = rng.pick(&[0, 1, 2, 3, 4, 5, 5, 5, 5, 5, 5, 5, 5, 6, 7]);
    for _ in 0..fields {
        file.push(b':');
        if rng.one_in(4) {
            file.extend_from_slice(rng.pick(&TOKENS));
        }
    }
    for _ in 0..rng.below(3) {
        measure(rng, lanes, b"\n", file);
    }
    if rng.one_in(4) {
        file.extend_from_slice(rng.pick(&TOKENS));
    }
    if !rng.one_in(6) {
        file.push(b';');
    }
}

fn blanks(rng: &mut Rng, file: &mut Vec<u8>) {
    if rng.one_in(2) {
        file.extend((0..rng.below(4)).map(|_| rng.pick(BLANKS)));
    }
}

/// A type name and its lane count; one of the five more often than not.
fn type_name(rng: &mut Rng) -> (&'static [u8], usize) {
    if rng.one_in(4) {
        (rng.pick(&OTHER_TYPES), 6)
    } else {
        rng.pick(&TYPES)
    }
}

/// Rows of one style, then the end of the measure.
fn measure(rng: &mut Rng, lanes: usize, newline: &[u8], file: &mut Vec<u8>) {
    let cells = rng.pick(&STYLES);
    for _ in 0..rng.pick(&[1, 2, 4, 4, 8]) {
        file.extend((0..lanes).map(|_| rng.pick(cells)));
        file.extend_from_slice(newline);
    }
    if !rng.one_in(4) {
        file.push(b',');
        if rng.one_in(4) {
            file.extend_from_slice(b"  // measure 2");
        }
        file.extend_from_slice(newline);
    }
}

/// A file as editors write it: header tags, then charts with a comment line before each; at times very many measures, or no last `;`.
pub fn written(rng: &mut Rng) -> Vec<u8> {
    let newline: &[u8] = if rng.one_in(3) { b"\r\n" } else { b"\n" };
    let mut file = Vec::new();
    for tag in [
        "#TITLE:A;",
        "#SUBTITLE:;",
        "#MUSIC:a.ogg;",
        "#OFFSET:-0.009;",
        "#BPMS:0.000=120.000;",
    ] {
        if !rng.one_in(4) {
            file.extend_from_slice(tag.as_bytes());
            file.extend_from_slice(newline);
        }
    }
    for _ in 0..rng.below(4) {
        chart(rng, newline, &mut file);
    }
    if rng.one_in(4) {
        let whole = file.iter().rposition(|&byte| byte == b';');
        file.truncate(whole.unwrap_or_default());
    }
    file
}

/// A comment line and a block, its fields a line each or all on the tag's line.
fn chart(rng: &mut Rng, newline: &[u8], file: &mut Vec<u8>) {
    let (name, lanes) = match rng.below(6) {
        0 => (&b"lights-cabinet"[..], 6),
        _ => rng.pick(&TYPES),
    };
    let between: Vec<u8> = match rng.below(3) {
        0 => Vec::new(),
        _ => [newline, b"     "].concat(),
    };
    file.extend_from_slice(newline);
    if !rng.one_in(4) {
        file.extend_from_slice(b"//--------------- ");
        file.extend_from_slice(name);
        file.extend_from_slice(b" - A. Player ----------------");
        file.extend_from_slice(newline);
    }
    if rng.one_in(6) {
        file.push(rng.pick(b"\t\x0c\r "));
    }
    file.extend_from_slice(b"#NOTES:");
    for field in [name, b"A. Player", b"Challenge", b"12", b"0.7,0.8,0.1"] {
        file.extend_from_slice(&between);
        file.extend_from_slice(field);
        file.push(b':');
    }
    file.extend_from_slice(newline);
    let many = if rng.one_in(1000) { 2000 } else { 4 };
    for _ in 0..rng.below(many) {
        measure(rng, lanes, newline, file);
    }
    file.push(b';');
    file.extend_from_slice(newline);
}

/// A file as editors write it with up to four bytes struck, changed or inserted, every other one at a mark or a line's end.
fn damaged(rng: &mut Rng) -> Vec<u8> {
    let mut file = written(rng);
    for _ in 0..1 + rng.below(4) {
        let mut at = rng.below(file.len() + 1);
        if rng.one_in(2) {
            let mark = file[at..].iter().position(|byte| b"#:;\n".contains(byte));
            at += mark.unwrap_or_default();
        }
        let end = (at + 1).min(file.len());
        let new = match rng.below(4) {
            0 => vec![rng.byte()],
            1 => vec![rng.pick(b":;#/\n\r\t\x0b\x0c ")],
            _ => rng.pick(&TOKENS).to_vec(),
        };
        match rng.below(3) {
            0 => drop(file.drain(at..end)),
            1 => drop(file.splice(at..end, new)),
            _ => drop(file.splice(at..at, new)),
        }
    }
    file
}
