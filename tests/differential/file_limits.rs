//! SM files that are not drawn: every short file over a few tokens, files written by hand as editors write them, and files of the greatest
//! length and one byte more.

use crate::file_checks::Files;
use oracle::entry::MAX_LEN;

/// Tokens whose every file is tried, and up to how many. The first can spell the tag from its parts and end blocks anywhere, the second
/// makes blocks that are accepted, the third puts blanks and other bytes around the tag.
const ALPHABETS: [(&[&[u8]], u32); 3] = [
    (&[b"#", b"NOTES", b":", b";", b"\n", b" "], 6),
    (
        &[
            b"#NOTES:",
            b"#NOTES",
            b":",
            b"::::",
            b";",
            b"\n",
            b" ",
            b"\r",
            b"dance-single",
            b"pump-double",
            b"x",
            b"1000\n",
        ],
        5,
    ),
    (
        &[b"#NOTES:", b";", b"\n", b"\r", b"\t", b"\x0b", b"\x0c"],
        6,
    ),
];

pub fn short_files(files: &mut Files) {
    for (tokens, most) in ALPHABETS {
        for count in 0..=most {
            for number in 0..tokens.len().pow(count) {
                files.run(strung(tokens, count, number), number as u64);
            }
        }
    }
}

/// The tokens at the digits of a number.
fn strung(tokens: &[&[u8]], count: u32, number: usize) -> Vec<u8> {
    let mut rest = number;
    let mut file = Vec::new();
    for _ in 0..count {
        file.extend_from_slice(tokens[rest % tokens.len()]);
        rest /= tokens.len();
    }
    file
}

/// Header tags, five charts with comment lines between them, one of them of lights, a tag in the middle of a line, one after blanks, and
/// a last block without `;`. A `|` stands for a line's end.
const WRITTEN: &str = "#TITLE:A;|#BPMS:0.000=120.000,|8.000=60.000;|#STOPS:;||\
    //--------------- dance-single - #NOTES: here ----------------|\
    #NOTES:|     dance-single:|     A. Player:|     Hard:|     9:|     0.1,0.2:|  // measure 1|\
    1000|0100|0010|0001|,|2000|0000|3000|0000|;||\
    //--------------- pump-single ----------------|\
    #NOTES:|     pump-single:|     :|     Easy:|     3:|     :|00001|00100|,|10001|00000|;|\
    //--------------- lights-cabinet ----------------|\
    #NOTES:|     lights-cabinet:|     :|     Easy:|     1:|     :|100000|000001|;|\
    #COMMENT:a #NOTES:dance-single:::::1000;|\
    \t  #NOTES:dance-double:a:b:c:d:|10000001|00M00000|;#NOTES:dance-single:::::1000;|\
    #NOTES:|     pump-double:|     :|     Wild:|     20:|     :|1000000001|,|0000110000|";

/// The file by hand with LF and with CRLF: whole, cut off at each place, and with each byte struck or changed.
pub fn written(files: &mut Files) {
    for newline in ["\n", "\r\n"] {
        let whole = WRITTEN.replace('|', newline).into_bytes();
        files.run(whole.clone(), 0);
        for at in 0..whole.len() {
            files.run(whole[..at].to_vec(), at as u64);
            let mut struck = whole.clone();
            struck.remove(at);
            files.run(struck, at as u64);
            for byte in b":;\n x" {
                let mut changed = whole.clone();
                changed[at] = *byte;
                files.run(changed, at as u64);
            }
        }
    }
}

/// How a file of the greatest length is made: what it begins with, what is repeated, and what it ends with.
const LONGEST: [[&[u8]; 3]; 8] = [
    [b"", b"\n", b""],
    [b"", b" ", b"#NOTES:\npump-double:::::\n1000000001;"],
    [b"#TITLE:", b"A", b";\n#NOTES: dance-double :::::1;"],
    [
        b"#NOTES:dance-single:::::\n",
        b"1000\n0000\n0200\n0300\n,\n",
        b"",
    ],
    [b"#NOTES:pump-single:", b"x", b"::::;"],
    [b"#NOTES:dance-single::::", b"\r\n", b"1000"],
    [b"", b"#NOTES:lights-cabinet:::::;\n", b""],
    [b"", b"#NOTES:", b";"],
];

pub fn longest_files(files: &mut Files) {
    for [begin, middle, end] in LONGEST {
        for len in [MAX_LEN, MAX_LEN + 1] {
            let rest = len - begin.len() - end.len();
            let middle = middle.iter().copied().cycle().take(rest);
            let mut file = begin.to_vec();
            file.extend(middle);
            file.extend_from_slice(end);
            files.run(file, len as u64);
        }
    }
}
