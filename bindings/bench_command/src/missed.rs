//! Charts that a file may have and that are not read, since their tags start none: with them the numbers of the others shift.

use crate::charts::Listed;
use crate::input::behind_mark;
use crate::lines::lines;

/// The tag of a chart, as the library knows it.
const TAG: &[u8] = b"#NOTES:";

/// The tag that StepMania 5 writes in its place where the song has keysounds.
const SECOND_TAG: &[u8] = b"#NOTES2:";

/// Why a file may have a chart that is none of these, which are all that the library knows in it, and what to mend. It is told
/// of the first line that has such a tag, counted from 1.
pub fn missed_chart(file: &[u8], charts: &[Listed]) -> Option<String> {
    let mut begun = charts.iter().peekable();
    let mut ended = charts.iter().filter(|chart| chart.has_end).peekable();
    // The last chart that has begun.
    let mut inside = None;
    let mut start = 0;
    for (place, line) in lines(file).enumerate() {
        let next = start + line.len() + 1;
        let told = |how: &str| Some(format!("line {} {how}", place + 1));
        let words = line.trim_ascii_start();
        if let Some(tag) = tag(words) {
            let tag_end = next - 1 - words.len() + tag.len();
            let begins = begun.next_if(|chart| chart.tag_end == tag_end);
            inside = begins.or(inside);
            let shown = tag.escape_ascii();
            match (begins, inside) {
                (Some(_), _) => {}
                (None, Some(chart)) if tag == TAG => {
                    let number = chart.number;
                    return told(&format!(
                        "begins with {shown} inside chart {number}, so that it starts none: end chart {number} above it with ;"
                    ));
                }
                _ => {
                    return told(&format!(
                        "begins with {shown}, which starts no chart: write #NOTES:"
                    ));
                }
            }
        } else if let Some(tag) = behind_mark(words).and_then(|words| tag(words.trim_ascii_start()))
        {
            return told(&format!(
                "has a byte-order mark before {}, so that it starts no chart: save the file without the mark",
                tag.escape_ascii()
            ));
        }
        if let Some(chart) = ended.next_if(|chart| chart.end < next) {
            let rest = &line[chart.end - start..];
            if let Some(tag) = tag_within(rest) {
                return told(&format!(
                    "has {} behind a ;, where it starts no chart: put it on a line of its own",
                    tag.escape_ascii()
                ));
            }
        }
        start = next;
    }
    None
}

/// The tag of a chart with which a text begins, in whatever letters.
fn tag(text: &[u8]) -> Option<&[u8]> {
    [TAG, SECOND_TAG].into_iter().find_map(|known| {
        let tag = text.get(..known.len())?;
        tag.eq_ignore_ascii_case(known).then_some(tag)
    })
}

/// The first such tag anywhere in a part of a line, but not in its comment.
fn tag_within(part: &[u8]) -> Option<&[u8]> {
    let comment = part.windows(2).position(|pair| pair == b"//");
    let part = &part[..comment.unwrap_or(part.len())];
    (0..part.len()).find_map(|place| tag(&part[place..]))
}

#[cfg(test)]
mod tests {
    use super::*;
    use crate::charts::charts_of;

    fn missed(file: &[u8]) -> Option<String> {
        missed_chart(file, &charts_of(file).unwrap())
    }

    #[test]
    fn a_tag_that_starts_no_chart_is_told() {
        let told: [(&[u8], &str); 12] = [
            (b"#Notes:;\n", "line 1 begins with #Notes:, which starts"),
            (b"\n \t#notes:", "line 2 begins with #notes:, which starts"),
            (
                b"#NOTES:a:;\n#NOTES2:b:;\n",
                "line 2 begins with #NOTES2:, which starts",
            ),
            (b"#Notes2:", "line 1 begins with #Notes2:, which starts"),
            (
                b"#NOTES:a:\n1000\n#Notes:",
                "line 3 begins with #Notes:, which starts",
            ),
            (
                b"#NOTES:a:;\n#NOTES:b:\n1000\n\n#NOTES:c:;\n#NOTES:d:;",
                "line 5 begins with #NOTES: inside chart 1, so that it starts none: end chart 1 above",
            ),
            (
                b"#NOTES:a:;#NOTES:b:;\n",
                "line 1 has #NOTES: behind a ;, where",
            ),
            (
                b"#NOTES:a:\n1000; x #notes2:b:;\n#NOTES:;\n",
                "line 2 has #notes2: behind a ;, where",
            ),
            (
                b"\xEF\xBB\xBF#NOTES:a:;\n",
                "line 1 has a byte-order mark before #NOTES:, so",
            ),
            (
                b"\n \xEF\xBB\xBF #Notes2:a:;\n",
                "line 2 has a byte-order mark before #Notes2:, so",
            ),
            (
                b"\xFF\xFE#NOTES:",
                "line 1 has a byte-order mark before #NOTES:, so",
            ),
            (
                b"#NOTES:a:\r\n;\r\n\xFE\xFF#NOTES:",
                "line 3 has a byte-order mark before #NOTES:, so",
            ),
        ];
        for (file, words) in told {
            let why = missed(file).unwrap_or_default();
            assert!(why.starts_with(words), "{}: {why}", file.escape_ascii());
        }
    }

    #[test]
    fn other_lines_and_marks_are_not() {
        let files: [&[u8]; 9] = [
            b"",
            b"#NOTES:a:;\n #NOTES:b:;\n\n\t#NOTES:c:\n",
            b"#NOTES:a:; // #NOTES:b:\n",
            b"#NOTES:a:\n1000 // #NOTES:\n/ #Notes:\n;\n",
            b"#NOTES\n#NOTES3:\nx #Notes:\n",
            b"\xEF\xBB\xBF#TITLE:x;\n#NOTES:a:;\n",
            b"\xEF\xBB\xBF\n#NOTES:a:;\n",
            b"\xEF\xBB\xBF",
            b"#TITLE:#NOTES:;#NOTES:\n",
        ];
        for file in files {
            assert_eq!(missed(file), None, "{}", file.escape_ascii());
        }
    }

    #[test]
    fn the_first_line_is_named() {
        let file = b"#NOTES:a:\n1000;#NOTES:b:;\n#NOTES:c:\n#NOTES:d:\n#Notes:\n";
        assert!(missed(file).unwrap().starts_with("line 2 has"));
        let file = b"#NOTES:a:\n1000;\n#NOTES:c:\n#NOTES:d:\n;#Notes:\n";
        assert!(missed(file).unwrap().starts_with("line 4 begins"));
    }
}
