//! The heads that come to nothing: the request's examples, which cells drop one, and that heads are either listed or noted.

mod loan;

use loan::Loan;
use padcheck::DropCause::{ChartEnd, OtherCell, OtherHead};
use padcheck::{Buffers, ChartNoteType, DropCause, dropped_holds, place};

/// Row, column and cause of each listed head; `|` stands for byte 10.
fn listed(text: &str, lanes: usize) -> Vec<(usize, usize, DropCause)> {
    let heads = dropped_holds(text.replace('|', "\n").as_bytes(), lanes).unwrap();
    let fields = heads.iter().map(|head| (head.row, head.column, head.cause));
    fields.collect()
}

#[test]
fn the_examples() {
    assert_eq!(listed("2000|K000|x000|3000", 4), []);
    assert_eq!(listed("2000|4000|3000", 4), [(0, 0, OtherHead(1))]);
    assert_eq!(listed("2000|1000|3000", 4), [(0, 0, OtherCell(1))]);
    assert_eq!(listed("4000|m000|3000", 4), [(0, 0, OtherCell(1))]);
    assert_eq!(listed("4000|,0000", 4), [(0, 0, ChartEnd)]);
    let rows_of_all_measures = "1000|0000|,|2000|0000|1000|0000";
    assert_eq!(listed(rows_of_all_measures, 4), [(1, 0, OtherCell(2))]);
    let by_column = [(0, 0, ChartEnd), (0, 3, OtherCell(2))];
    assert_eq!(listed("2002|0100|0001", 4), by_column);
    assert_eq!(listed("", 4), []);
}

#[test]
fn each_cell_between_head_and_tail() {
    for cell in "01234MLFKmlfx".chars() {
        for head in ['2', '4'] {
            let want = match cell {
                '2' | '4' => vec![(0, 7, OtherHead(1))],
                '0' | '3' | 'K' | 'x' => Vec::new(),
                _ => vec![(0, 7, OtherCell(1))],
            };
            let text = format!("0000000{head}|0000000{cell}|00000003");
            assert_eq!(listed(&text, 8), want, "{text}");
        }
    }
}

#[test]
fn a_head_is_listed_or_noted() {
    let mut buffers = Buffers::new();
    let cells = b"00000000012233344MLFKmlf";
    let mut draw = 7_usize;
    for lanes in [4, 5, 6, 8, 10] {
        let mut text = Vec::new();
        for place in 0..3000 * lanes {
            draw = draw
                .wrapping_mul(6_364_136_223_846_793_005)
                .wrapping_add(1_442_695_040_888_963_407);
            text.push(cells[(draw >> 33) % cells.len()]);
            if place % lanes == lanes - 1 {
                text.push(b'\n');
            }
        }
        let chart = buffers
            .minimize_chart_count_rows_notes(&text, lanes)
            .unwrap();
        let is_tailed = |kind| matches!(kind, ChartNoteType::Hold | ChartNoteType::Roll);
        let noted = chart.notes.filter(|note| is_tailed(note.note_type)).count();
        let dropped = buffers.dropped_holds(&text, lanes).unwrap();
        let is_head = |cell: &u8| matches!(cell, b'2' | b'4');
        let heads = dropped.text.iter().filter(|cell| is_head(cell)).count();
        assert_eq!(dropped.heads.len() + noted, heads);
        for head in dropped.heads {
            // Of one measure, so that each line is a row.
            assert!(is_head(&dropped.text[(lanes + 1) * head.row + head.column]));
        }
    }
}

#[test]
fn zeros_stand_past_text_and_list() {
    let data = b"2000\n0000\n1000\n0000\n;\n";
    let mut loan = Loan::marked(data.len(), 4);
    assert_eq!(loan.dropped_holds(data, 4), Ok(()));
    assert_eq!(loan.text[..10], *b"2000\n1000\n");
    assert!(loan.text[10..].iter().all(|&byte| byte == 0));
    assert_eq!(loan.notes[..10], [0, 0, 0, 0, 1, 0, 0, 0, 0, 1]);
    assert!(loan.notes[10..].iter().all(|&byte| byte == 0));
    let mut figures = [0; 32];
    figures[place::TEXT_BYTES] = 10;
    figures[place::MEASURES] = 1;
    figures[place::ROWS] = 2;
    figures[place::NOTES] = 1;
    assert_eq!(loan.figures, figures);
}
