//! Which charts of a file are asked for, and which of them are taken.

use crate::charts::{listed, no_chart};
use crate::doubt::{Look, NoteData};
use crate::left::Left;
use crate::memory::push;
use crate::missed::missed_chart;
use crate::odd::Odd;
use padcheck::{MAX_LEN, Refusal, is_lane_count};

/// Which charts of a file are asked for.
#[derive(Clone, Copy, Debug, PartialEq, Eq)]
pub enum Selection {
    /// Every chart of an SM file.
    All,
    /// One chart of an SM file.
    Chart(usize),
    /// The file is the note data of one chart with this lane number.
    Bare(usize),
}

/// The charts of a file that are asked for.
#[derive(Debug, PartialEq)]
pub struct Asked<'a> {
    pub charts: Vec<Selected<'a>>,
    /// Why the file is doubtful, where that is taken all the same.
    pub forced: Option<String>,
}

/// A chart that is asked for.
#[derive(Clone, Copy, Debug, PartialEq)]
pub struct Selected<'a> {
    /// Its number in the SM file and its type as it is written there; none for bare note data.
    pub chart: Option<(usize, &'a [u8])>,
    /// Its note data, or why the library refuses it.
    pub answer: Result<NoteData<'a>, Refusal>,
}

/// A chart that is taken.
#[derive(Debug, PartialEq)]
pub struct Taken<'a> {
    pub data: &'a [u8],
    pub lanes: usize,
    /// Why it is doubtful, where that is taken all the same.
    pub forced: Option<String>,
    /// Its measures whose rows do not divide 192.
    pub odd: Option<Odd>,
}

impl<'a> Selected<'a> {
    /// The chart, unless it is refused, or doubtful and not forced.
    pub fn taken(&self, force: bool) -> Result<Taken<'a>, Left> {
        let chart = self.answer?;
        let NoteData { data, lanes, .. } = chart;
        if data.len() > MAX_LEN {
            return Err(Refusal::LongText.into());
        }
        let Look { doubt: forced, odd } = chart.look();
        match forced {
            Some(why) if !force => Err(Left::Doubtful(why)),
            forced => Ok(Taken {
                data,
                lanes,
                forced,
                odd,
            }),
        }
    }

    /// What it is called after its file's name.
    pub fn title(&self) -> String {
        self.chart
            .map_or_else(String::new, |(number, _)| format!(" chart {number}"))
    }
}

/// The charts of a file that are asked for, unless it is refused, or doubtful as a whole and not forced.
pub fn selected(file: &[u8], selection: Selection, force: bool) -> Result<Asked<'_>, Left> {
    if let Selection::Bare(lanes) = selection {
        // A lane number that is refused is refused first, whatever the file is.
        let chart = is_lane_count(lanes).then_some(NoteData {
            data: file,
            lanes,
            line: 1,
            behind: None,
        });
        let chart = Selected {
            chart: None,
            answer: chart.ok_or(Refusal::OtherLanes),
        };
        return Ok(Asked {
            charts: vec![chart],
            forced: None,
        });
    }
    let all = listed(file)?;
    let mut charts = Vec::new();
    for chart in &all {
        if matches!(selection, Selection::Chart(number) if number != chart.number) {
            continue;
        }
        let chart = Selected {
            chart: Some((chart.number, chart.name)),
            answer: chart.note_data(file),
        };
        push(&mut charts, chart)?;
    }
    if charts.is_empty() {
        return Err(no_chart(file, &all, None));
    }
    match missed_chart(file, &all) {
        Some(why) if !force => Err(Left::Doubtful(why)),
        forced => Ok(Asked { charts, forced }),
    }
}

#[cfg(test)]
mod tests {
    use super::*;

    const SM_FILE: &[u8] = include_bytes!("../../../examples/first-steps.sm");

    /// The numbers of the charts that are selected.
    fn numbers(selection: Selection) -> Result<Vec<Option<usize>>, Left> {
        let found = selected(SM_FILE, selection, false)?;
        Ok(found
            .charts
            .iter()
            .map(|chart| chart.chart.map(|(number, _)| number))
            .collect())
    }

    #[test]
    fn charts_are_selected_by_number() {
        assert_eq!(numbers(Selection::All), Ok(vec![Some(0), Some(1), Some(2)]));
        assert_eq!(numbers(Selection::Chart(2)), Ok(vec![Some(2)]));
        assert_eq!(
            numbers(Selection::Chart(3)),
            Err(Left::from(Refusal::NoChart))
        );
        assert_eq!(numbers(Selection::Bare(4)), Ok(vec![None]));
    }

    #[test]
    fn a_file_without_charts_is_refused_in_its_own_words() {
        let Err(Left::Refused(refusal, words)) = selected(b"1000\n", Selection::All, false) else {
            panic!("it is taken");
        };
        assert_eq!(refusal, Refusal::NoChart);
        assert!(words.contains("bare note data needs --lanes"));
    }

    #[test]
    fn a_chart_that_is_not_there_is_looked_for_in_other_letters() {
        let file = b"#NOTES:dance-single:::::\n1000\n;\n#notes:dance-single:::::\n;\n";
        let letters = "line 4 begins with #notes:, which starts no chart: write #NOTES:";
        let left = selected(file, Selection::Chart(1), false);
        assert_eq!(left, Err(Left::refused(Refusal::NoChart, letters)));
        // One that is there may be another than the one that is meant.
        for selection in [Selection::All, Selection::Chart(0)] {
            let left = selected(file, selection, false);
            assert_eq!(left, Err(Left::Doubtful(letters.to_owned())));
            let found = selected(file, selection, true).unwrap();
            assert_eq!(
                (found.charts.len(), found.forced.as_deref()),
                (1, Some(letters))
            );
        }
    }

    #[test]
    fn a_doubtful_line_is_counted_through_the_file() {
        let file = b"#TITLE:x;\n#NOTES:\ndance-single:a\\:b:Easy:1:\n0,0:\n1000\n;\n";
        let found = selected(file, Selection::All, false).unwrap();
        let Err(Left::Doubtful(why)) = found.charts[0].taken(false) else {
            panic!("it is taken");
        };
        assert!(why.starts_with("line 4 has a : outside comments"), "{why}");
        let forced = found.charts[0].taken(true).unwrap().forced;
        assert_eq!(forced, Some(why));
    }

    #[test]
    fn a_mark_is_doubtful_where_it_hides_a_chart() {
        let file = b"\xEF\xBB\xBF#TITLE:x;\n#NOTES:dance-single:::::1000\n;";
        assert_eq!(
            selected(file, Selection::All, false).unwrap().charts.len(),
            1
        );
        let file = b"\xEF\xBB\xBF#NOTES:dance-single:::::1000\n;\n#NOTES:dance-single:::::1000\n;";
        for selection in [Selection::All, Selection::Chart(0)] {
            let left = selected(file, selection, false);
            assert!(matches!(left, Err(Left::Doubtful(_))));
            assert_eq!(selected(file, selection, true).unwrap().charts.len(), 1);
        }
        // What is refused is refused, doubtful or not.
        let left = selected(file, Selection::Chart(1), true);
        assert!(matches!(left, Err(Left::Refused(Refusal::NoChart, _))));
        let long = [&file[..], &vec![0; MAX_LEN]].concat();
        let left = selected(&long, Selection::All, false);
        assert_eq!(left, Err(Left::from(Refusal::LongText)));
    }

    #[test]
    fn text_of_two_bytes_a_letter_is_told() {
        for mark in [b"\xFF\xFE", b"\xFE\xFF"] {
            let file = [&mark[..], b"#\0N\0O\0T\0E\0S\0:\0"].concat();
            let Err(Left::Refused(Refusal::NoChart, words)) =
                selected(&file, Selection::All, false)
            else {
                panic!("it is taken");
            };
            assert!(words.contains("byte-order mark of UTF-16"), "{words}");
        }
    }

    #[test]
    fn doubt_gives_way_to_force_and_refusals_do_not() {
        let taken = |data: &[u8], force| {
            let found = selected(data, Selection::Bare(4), force)?;
            found.charts[0].taken(force).map(|chart| chart.data.len())
        };
        assert!(matches!(taken(b"100\n", false), Err(Left::Doubtful(_))));
        assert_eq!(taken(b"100\n", true), Ok(4));
        let long = vec![0; MAX_LEN + 1];
        for force in [false, true] {
            assert_eq!(taken(&long, force), Err(Left::from(Refusal::LongText)));
            for lanes in [0, 7, usize::MAX] {
                let found = selected(&long, Selection::Bare(lanes), force).unwrap();
                let taken = found.charts[0].taken(force);
                assert_eq!(taken, Err(Left::from(Refusal::OtherLanes)));
            }
        }
    }
}
