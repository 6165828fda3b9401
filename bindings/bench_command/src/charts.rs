//! The charts of an SM file, and the word `charts`. Which there are and which of them are read is the library's answer.

use crate::args::Charts;
use crate::doubt::NoteData;
use crate::input::{BYTE_ORDER_MARKS, contents, shown};
use crate::left::Left;
use crate::lines::lines;
use crate::memory::{NoMemory, push};
use crate::missed::missed_chart;
use crate::output::{Status, doubtful, fault};
use padcheck::{MAX_LEN, Refusal, SmBlock, SmChart, sm_blocks};
use std::io::{self, Write};
use std::path::Path;

/// What is said of an SM file without a chart.
const NO_CHART: &str = "none of its lines begins with #NOTES:, and bare note data needs --lanes";

/// The same where its letters are written otherwise.
const UTF_16: &str =
    "it begins with the byte-order mark of UTF-16, in which no chart is found: save it as UTF-8";

/// A chart of an SM file.
#[derive(Clone, Copy, Debug, PartialEq)]
pub struct Listed<'a> {
    /// Its number in the file.
    pub number: usize,
    /// Its type as it is written there, empty where it has none.
    pub name: &'a [u8],
    /// Where its tag ends in the file.
    pub tag_end: usize,
    /// Where its note data begins; of a refused one, where its tag ends.
    pub place: usize,
    /// The line of that place, counted from 1.
    pub line: usize,
    /// Where its block ends, and whether a `;` ends it; else the file does.
    pub end: usize,
    pub has_end: bool,
    /// What the library says of it.
    pub answer: Result<SmChart<'a>, Refusal>,
}

impl Listed<'_> {
    /// Its note data in the file, or why it is refused.
    pub fn note_data<'a>(&self, file: &'a [u8]) -> Result<NoteData<'a>, Refusal> {
        let SmChart { lanes, .. } = self.answer?;
        Ok(NoteData {
            data: &file[self.place..self.end],
            lanes,
            line: self.line,
            behind: Some(&file[self.end..]),
        })
    }
}

/// All charts that the library knows in a file that is not too long.
pub fn charts_of(file: &[u8]) -> Result<Vec<Listed<'_>>, NoMemory> {
    let place = |part: &[u8]| part.as_ptr().addr() - file.as_ptr().addr();
    let mut charts = Vec::new();
    let (mut counted, mut line) = (0, 1);
    for SmBlock { after_tag, chart } in sm_blocks(file) {
        let start = place(chart.map_or(after_tag, |chart| chart.data));
        line += file[counted..start]
            .iter()
            .filter(|&&byte| byte == b'\n')
            .count();
        counted = start;
        let semicolon = after_tag.iter().position(|&byte| byte == b';');
        let tag_end = place(after_tag);
        let chart = Listed {
            number: charts.len(),
            name: written_type(after_tag),
            tag_end,
            place: start,
            line,
            end: semicolon.map_or(file.len(), |place| tag_end + place + 1),
            has_end: semicolon.is_some(),
            answer: chart,
        };
        push(&mut charts, chart)?;
    }
    Ok(charts)
}

/// The charts of an SM file, or why it has none that can be listed: it is too long, is an SSC file, or has none at all.
pub fn listed(file: &[u8]) -> Result<Vec<Listed<'_>>, Left> {
    if file.len() > MAX_LEN {
        return Err(Refusal::LongText.into());
    }
    let charts = charts_of(file)?;
    if let Some(left) = ssc_file(file, &charts) {
        return Err(left);
    }
    if charts.is_empty() {
        let is_utf_16 = BYTE_ORDER_MARKS[1..]
            .iter()
            .any(|mark| file.starts_with(mark));
        let besides = if is_utf_16 { UTF_16 } else { NO_CHART };
        return Err(no_chart(file, &charts, Some(besides)));
    }
    Ok(charts)
}

/// The type of a chart as it is written, the first field behind its tag. It is for the eye alone: which types are read, the
/// library says.
fn written_type(after_tag: &[u8]) -> &[u8] {
    let mut fields = after_tag.split(|byte| b":;".contains(byte));
    fields.next().unwrap_or_default().trim_ascii()
}

/// Refuses a file that has the tag of a chart in an SSC file and no chart that the library reads. The refusal is that of its first chart.
fn ssc_file(file: &[u8], charts: &[Listed]) -> Option<Left> {
    if charts.iter().any(|chart| chart.answer.is_ok()) {
        return None;
    }
    let place = lines(file).position(|line| line.trim_ascii_start().starts_with(b"#NOTEDATA:"))?;
    let refusal = charts.first().and_then(|chart| chart.answer.err());
    let line = place + 1;
    Some(Left::refused(
        refusal.unwrap_or(Refusal::NoChart),
        &format!("it is an SSC file, which is not read: line {line} begins with #NOTEDATA:"),
    ))
}

/// The refusal of a file that has no chart, or not the one that is asked for, with what can be told besides and the first tag
/// that starts none.
pub fn no_chart(file: &[u8], charts: &[Listed], besides: Option<&str>) -> Left {
    let missed = missed_chart(file, charts);
    let told: Vec<_> = besides.into_iter().chain(missed.as_deref()).collect();
    if told.is_empty() {
        return Refusal::NoChart.into();
    }
    Left::refused(Refusal::NoChart, &told.join("; "))
}

/// A type from a file, in one short line whatever its bytes are.
pub fn shortened(name: &[u8]) -> String {
    const MOST: usize = 40;
    let mut short = String::new();
    for byte in name {
        let letter = byte.escape_ascii();
        if short.len() + letter.len() > MOST {
            return short + "...";
        }
        short.extend(letter.map(char::from));
    }
    short
}

/// `padcheck charts`.
pub fn run(asked: &Charts, out: &mut dyn Write) -> io::Result<Status> {
    let mut worst = Status::Done;
    for path in &asked.files {
        let status = match contents(path) {
            Ok(file) => list(path, &file, asked.force, out)?,
            Err(message) => fault(out, &message)?,
        };
        worst = worst.max(status);
    }
    Ok(worst)
}

/// The list of one file, with what is doubtful in it.
fn list(path: &Path, file: &[u8], force: bool, out: &mut dyn Write) -> io::Result<Status> {
    let path = shown(path);
    let charts = match listed(file) {
        Ok(charts) => charts,
        Err(Left::Refused(refusal, words)) => {
            writeln!(out, "{path}: refused {}: {words}", refusal.number())?;
            return Ok(Status::Refused);
        }
        Err(Left::NoMemory(lack)) => return fault(out, &format!("{path}: {lack}")),
        // A file is not doubtful before its charts are known.
        Err(Left::Doubtful(why)) => return doubtful(out, &path, &why),
    };
    let missed = missed_chart(file, &charts);
    let doubt = |chart: &Listed| {
        chart
            .note_data(file)
            .ok()
            .and_then(|data| data.look().doubt)
    };
    let refused = charts.iter().filter(|chart| chart.answer.is_err()).count();
    let doubted = charts.iter().filter(|chart| doubt(chart).is_some()).count();
    let plural = if charts.len() == 1 { "" } else { "s" };
    write!(
        out,
        "{path}: {} chart{plural}, {refused} refused",
        charts.len()
    )?;
    if doubted > 0 {
        write!(out, ", {doubted} doubtful")?;
    }
    writeln!(out)?;
    let word = if force { "forced" } else { "doubtful" };
    if let Some(why) = &missed {
        writeln!(out, "{word}: {why}")?;
    }
    writeln!(out, "chart  lanes     place    length  type")?;
    for chart in &charts {
        line(chart, out)?;
        if let Some(why) = doubt(chart) {
            writeln!(out, "       {word}: {why}")?;
        }
    }
    let is_doubtful = !force && (missed.is_some() || doubted > 0);
    Ok(if is_doubtful {
        Status::Doubtful
    } else {
        Status::Done
    })
}

/// The line of one chart, and another where it is refused.
fn line(chart: &Listed, out: &mut dyn Write) -> io::Result<()> {
    let Listed { number, place, .. } = chart;
    // What the library does not say of a refused chart.
    let none = || String::from("-");
    let (lanes, length) = chart.answer.map_or_else(
        |_| (none(), none()),
        |chart| (chart.lanes.to_string(), chart.data.len().to_string()),
    );
    let name = shortened(chart.name);
    let line = format!("{number:5}  {lanes:>5} {place:9} {length:>9}  {name}");
    writeln!(out, "{}", line.trim_end())?;
    if let Err(refusal) = chart.answer {
        writeln!(out, "       {refusal}")?;
    }
    Ok(())
}

#[cfg(test)]
mod tests {
    use super::*;
    use padcheck::{lent, sm_charts};

    const SM_FILE: &[u8] = include_bytes!("../../../examples/first-steps.sm");

    #[test]
    fn places_are_the_librarys() {
        let charts = listed(SM_FILE).unwrap();
        assert_eq!(charts.len(), 3);
        for chart in charts {
            let mut places = [0; 3];
            let told = lent::sm_chart(SM_FILE, chart.number, &mut places);
            assert_eq!(chart.answer.map(drop), told);
            if told.is_ok() {
                assert_eq!(chart.place as u64, places[1]);
            }
        }
    }

    #[test]
    fn a_refused_chart_has_a_place_too() {
        let charts = listed(SM_FILE).unwrap();
        let lights = charts[1];
        assert_eq!(
            (lights.name, lights.answer),
            (&b"lights-cabinet"[..], Err(Refusal::OtherType))
        );
        let (before, after) = SM_FILE.split_at(lights.place);
        assert!(before.ends_with(b"\n#NOTES:") && after.starts_with(b"\n     lights-cabinet:\n"));
        let few = listed(b" #NOTES: a : b ;").unwrap()[0];
        assert_eq!((few.place, few.name), (8, &b"a"[..]));
        assert_eq!(few.answer, Err(Refusal::FewFields));
    }

    #[test]
    fn types_are_told_as_they_are_written() {
        let file = b"x #NOTES:no:\n\n \t#NOTES:a:#NOTES:\n#NOTES:c;#NOTES:d:\n#NOTES:\n  e\n:f\n;\n#NOTES:g";
        let charts = listed(file).unwrap();
        let names: Vec<_> = charts.iter().map(|chart| chart.name).collect();
        assert_eq!(names, [&b"a"[..], b"e", b"g"]);
    }

    /// Every file of six of these words: the charts listed are the library's, each at its place and with the type that is
    /// read or refused.
    #[test]
    fn charts_of_short_files_are_the_librarys() {
        const WORDS: [&str; 7] = ["#NOTES:", "dance-single", ":::::", ";", "\n", " ", "x"];
        for number in 0..7usize.pow(6) {
            let words = (0..6).map(|place| WORDS[number / 7usize.pow(place) % 7]);
            let file: String = words.collect();
            let charts = listed(file.as_bytes()).unwrap_or_default();
            let answers: Vec<_> = sm_charts(file.as_bytes()).collect();
            assert_eq!(charts.len(), answers.len(), "{file:?}");
            for (chart, answer) in charts.iter().zip(answers) {
                assert_eq!(chart.answer, answer, "{file:?}");
                let is_single = chart.name == b"dance-single";
                match answer {
                    Ok(_) => assert!(is_single, "{file:?}"),
                    Err(Refusal::OtherType) => assert!(!is_single, "{file:?}"),
                    Err(_) => assert!(file[..chart.place].ends_with("#NOTES:"), "{file:?}"),
                }
            }
        }
    }

    #[test]
    fn a_file_too_long_or_without_charts() {
        let long = vec![b'0'; MAX_LEN + 1];
        assert_eq!(listed(&long), Err(Refusal::LongText.into()));
        let none = listed(b"1000\n0100\n");
        assert_eq!(none, Err(Left::refused(Refusal::NoChart, NO_CHART)));
    }

    /// The words in which a file is refused.
    fn refused(file: &[u8]) -> (Refusal, String) {
        match listed(file) {
            Err(Left::Refused(refusal, words)) => (refusal, words),
            other => panic!("{other:?}"),
        }
    }

    #[test]
    fn a_tag_in_other_letters_is_told() {
        let (refusal, words) = refused(b"#TITLE:x;\n #Notes:\ndance-single:::::\n#notes:;");
        assert_eq!(refusal, Refusal::NoChart);
        assert!(
            words.ends_with("; line 2 begins with #Notes:, which starts no chart: write #NOTES:")
        );
        for file in [&b"#NOTE:;\n"[..], b"x #Notes:;\n", b"#Notes"] {
            assert!(refused(file).1.ends_with(NO_CHART));
        }
    }

    /// What is printed of a file, and the status.
    fn printed(file: &[u8], force: bool) -> (String, Status) {
        let mut out = Vec::new();
        let status = list(Path::new("x"), file, force, &mut out).unwrap();
        (String::from_utf8(out).unwrap(), status)
    }

    #[test]
    fn the_list_of_a_doubtful_file_is_whole() {
        let file = b"#NOTES:dance-single:::::\n1000\n;\n \t#Notes:\ndance-single:::::\n1000\n;\n\
                     #NOTES:dance-single:::::\n10000\n;\n#NOTES:a:;\n";
        let (doubted, status) = printed(file, false);
        let why = "line 9 has `0` behind its 4 cells, where nothing is read: put it on a line of its own or take it out";
        let wanted = format!(
            "x: 3 charts, 1 refused, 1 doubtful\n\
             doubtful: line 4 begins with #Notes:, which starts no chart: write #NOTES:\n\
             chart  lanes     place    length  type\n    \
             0      4        24         7  dance-single\n    \
             1      4        91         8  dance-single\n       \
             doubtful: {why}\n    \
             2      -       107         -  a\n       \
             refused 9: the block has fewer than five fields, by whoever writes the SM file\n"
        );
        assert_eq!((doubted, status), (wanted.clone(), Status::Doubtful));
        let forced = wanted
            .replace("\ndoubtful:", "\nforced:")
            .replace(" doubtful:", " forced:");
        assert_eq!(printed(file, true), (forced, Status::Done));
        let (told, status) = printed(SM_FILE, false);
        assert!(told.starts_with("x: 3 charts, 1 refused\n") && status == Status::Done);
        assert!(
            printed(b"#NOTES:a:;", false)
                .0
                .starts_with("x: 1 chart, 1 refused\n")
        );
    }

    #[test]
    fn numbers_wider_than_their_columns_stand_apart() {
        let file = [
            "#NOTES:a:;\n".repeat(100_001),
            "#NOTES:dance-single:::::\n;\n".repeat(2),
        ]
        .concat();
        let (told, _) = printed(file.as_bytes(), true);
        let columns = |line: &str| line.split_whitespace().count();
        let last = told.lines().rfind(|line| line.ends_with("dance-single"));
        assert_eq!(last.map(columns), Some(5), "{last:?}");
        assert!(last.unwrap().starts_with("100002      4   "));
    }

    #[test]
    fn an_ssc_file_is_told() {
        let words = "it is an SSC file, which is not read: line 2 begins with #NOTEDATA:";
        let ssc = b"#VERSION:0.83;\n\t#NOTEDATA:;\n#STEPSTYPE:dance-single;\n#NOTES:\n1000\n;\n";
        assert_eq!(listed(ssc), Err(Left::refused(Refusal::FewFields, words)));
        let none = b"\n#NOTEDATA:;\n#STEPSTYPE:dance-single;\n";
        assert_eq!(listed(none), Err(Left::refused(Refusal::NoChart, words)));
        let read = b"#NOTEDATA:;\n#NOTES:dance-single:::::\n1000\n;\n";
        assert_eq!(listed(read).unwrap().len(), 1);
    }

    #[test]
    fn types_are_short_and_on_one_line() {
        assert_eq!(shortened(&[b'x'; 41]), format!("{}...", "x".repeat(40)));
        assert_eq!(shortened(&[b'x'; 40]), "x".repeat(40));
        assert_eq!(shortened(b"dance\n-SINGLE\xFF"), "dance\\n-SINGLE\\xff");
        assert_eq!(shortened(&[0xFF; 11]), format!("{}...", "\\xff".repeat(10)));
        assert_eq!(shortened(&[b'\n'; 20]), "\\n".repeat(20));
        let odd = [&[b'x'; 39][..], b"\n"].concat();
        assert_eq!(shortened(&odd), format!("{}...", "x".repeat(39)));
    }
}
