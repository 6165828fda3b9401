//! The sheet of a chart: its three forms, what else the call leaves in the slices it is lent, and its refusals.

mod loan;

use loan::{Lent, Loan};
use padcheck::{Buffers, MAX_LEN, Refusal, SheetForm, chart_sheet, lent, place};

/// The specification's example.
const DATA: &[u8] = b"1000\n0000\n0100\n0000\n;\n";

const FIRST_STEPS: &[u8] = include_bytes!("../../../examples/first-steps.txt");

const FORMS: [SheetForm; 3] = [SheetForm::Card, SheetForm::Print, SheetForm::Json];

fn sheet(data: &[u8], lanes: usize, form: SheetForm) -> String {
    let sheet = chart_sheet(data, lanes, form).unwrap();
    String::from_utf8(sheet).unwrap()
}

#[test]
fn the_card_of_each_example() {
    let lines = "measures 1\nrows 2\narrows 2\nsteps 2\nkeys 0\nnotes 2\nlast 96\nm 0 2 1\nn 0 0 0 -\nn 1 1 0 -\n";
    assert_eq!(sheet(DATA, 4, SheetForm::Card), lines);
    let lines = include_str!("../../../examples/first-steps.sheet.txt");
    assert_eq!(sheet(FIRST_STEPS, 4, SheetForm::Card), lines);
}

#[test]
fn the_print_of_each_example() {
    let lines = "\
measures            1
rows                2
notes               2
last beat           2 + 0/48
in 48ths           96

                 main     kept   judged
total_arrows        2        2        2
left                1        1        1
down                1        1        1
up                  0        0        0
right               0        0        0
total_steps         2        2        2
jumps               0        0        0
hands               0        0        0
mines               0        0        0
holds               0        0        0
rolls               0        0        0
lifts               0        0        0
fakes               0        0        0
holding             0        0        0
keysounds           0        0        0
up_left             0        0        0
up_right            0        0        0

densities, 16 measures to a line; = equally spaced, - not
      0:  2=

holds and rolls
          row   column     tail
";
    assert_eq!(sheet(DATA, 4, SheetForm::Print), lines);
    let lines = "\
measures            4
rows               20
notes              18
last beat          15 + 0/48
in 48ths          720

                 main     kept   judged
total_arrows       17       17       17
left                5        5        5
down                4        4        4
up                  4        4        4
right               4        4        4
total_steps        14       14       14
jumps               2        2        2
hands               1        1        1
mines               1        1        1
holds               1        1        1
rolls               1        1        1
lifts               0        0        0
fakes               0        0        0
holding             0        0        0
keysounds           0        0        0
up_left             0        0        0
up_right            0        0        0

densities, 16 measures to a line; = equally spaced, - not
      0:  4=  5-  3-  2-

holds and rolls
          row   column     tail
hold       12        0       15
roll       16        1       18
";
    assert_eq!(sheet(FIRST_STEPS, 4, SheetForm::Print), lines);
}

#[test]
fn the_json_of_each_example() {
    let tally = r#"{"total_arrows":2,"left":1,"down":1,"up":0,"right":0,"total_steps":2,"jumps":0,"hands":0,"mines":0,"holds":0,"rolls":0,"lifts":0,"fakes":0,"holding":0,"keysounds":0,"up_left":0,"up_right":0}"#;
    let object = format!(
        r#"{{"measures":1,"rows":2,"notes":2,"last_beat":{{"beats":2,"over_48":0,"in_48ths":96}},"main":{tally},"kept":{tally},"judged":{tally},"densities":[2],"equally_spaced":[true],"note_records":[[0,0,0,null],[1,1,0,null]]}}"#
    );
    assert_eq!(sheet(DATA, 4, SheetForm::Json), object);
    let tally = r#"{"total_arrows":17,"left":5,"down":4,"up":4,"right":4,"total_steps":14,"jumps":2,"hands":1,"mines":1,"holds":1,"rolls":1,"lifts":0,"fakes":0,"holding":0,"keysounds":0,"up_left":0,"up_right":0}"#;
    let notes = "[0,0,0,null],[1,1,0,null],[2,2,0,null],[3,3,0,null],[4,0,0,null],[6,1,0,null],[7,2,0,null],[8,3,0,null],\
                 [10,0,0,null],[10,3,0,null],[12,0,1,15],[13,2,0,null],[14,3,0,null],[16,1,2,18],[18,0,3,null],\
                 [19,0,0,null],[19,1,0,null],[19,2,0,null]";
    let object = format!(
        r#"{{"measures":4,"rows":20,"notes":18,"last_beat":{{"beats":15,"over_48":0,"in_48ths":720}},"main":{tally},"kept":{tally},"judged":{tally},"densities":[4,5,3,2],"equally_spaced":[true,false,false,false],"note_records":[{notes}]}}"#
    );
    assert_eq!(sheet(FIRST_STEPS, 4, SheetForm::Json), object);
}

/// P8 and P9: the judged tally is another there than the main and the kept one, which are the same for every text.
#[test]
fn each_tally_stands_in_its_column() {
    let nest = ["2000\n".repeat(9), "3000\n".repeat(9)].concat();
    let print = sheet(nest.as_bytes(), 4, SheetForm::Print);
    assert!(print.contains("\nholds               9        9        8\n"));
    assert!(print.ends_with(" tail\nhold        8        0        9\n"));
    let data = b"100\r\n2000\n";
    let print = sheet(data, 4, SheetForm::Print);
    assert!(print.contains("\nrows                1\n"));
    assert!(print.contains("\ntotal_steps         1        1        0\n"));
    let json = sheet(data, 4, SheetForm::Json);
    let no_arrow = "\"total_arrows\":0,\"left\":0,\"down\":0,\"up\":0,\"right\":0";
    let steps =
        |name: &str, steps: u32| format!("\"{name}\":{{{no_arrow},\"total_steps\":{steps},");
    for (name, count) in [("main", 1), ("kept", 1), ("judged", 0)] {
        assert!(json.contains(&steps(name, count)), "{name}");
    }
}

/// A line of the densities has 16 measures; a number that is wider than its column is written whole.
#[test]
fn densities_stand_16_to_a_line() {
    let data = ["1000\n".repeat(1000), ",\n".repeat(33)].concat();
    let print = sheet(data.as_bytes(), 4, SheetForm::Print);
    let empty = "  0=".repeat(16);
    let lines = format!(
        "not\n      0:1000={}\n     16:{empty}\n     32:  0=  0=\n\nholds",
        &empty[4..]
    );
    assert!(print.contains(&lines), "{print}");
}

/// The second of three rows stands a beat and 16 48ths after the first.
#[test]
fn the_last_beat_is_said_in_beats_and_48ths() {
    let data = b"1000\n0100\n0000\n";
    let print = sheet(data, 4, SheetForm::Print);
    assert!(print.contains("\nlast beat           1 + 16/48\nin 48ths           64\n\n"));
    let json = sheet(data, 4, SheetForm::Json);
    assert!(json.contains(r#""last_beat":{"beats":1,"over_48":16,"in_48ths":64}"#));
}

/// The sheet has zeros past it, and all else is as the main call and `equally_spaced` leave it.
#[test]
fn what_else_is_lent_is_left_as_by_the_other_calls() {
    for (data, lanes) in [(DATA, 4), (FIRST_STEPS, 4), (FIRST_STEPS, 8), (b"", 10)] {
        let mut main = Loan::marked(data.len(), lanes);
        main.main_call(data, lanes).unwrap();
        lent::equally_spaced(data, lanes, &mut main.spacing, &mut [0; 32]).unwrap();
        for form in FORMS {
            let mut loan = Loan::marked(data.len(), lanes);
            assert_eq!(loan.chart_sheet(data, lanes, form.number()), Ok(()));
            let bytes = loan.figures[place::SHEET_BYTES] as usize;
            let (written, rest) = loan.sheet.split_at(bytes);
            assert_eq!(written, chart_sheet(data, lanes, form).unwrap());
            assert!(!rest.is_empty() && rest.iter().all(|&byte| byte == 0));
            assert_eq!(loan.text, main.text);
            assert_eq!(loan.densities, main.densities);
            assert_eq!(loan.spacing, main.spacing);
            assert_eq!(loan.beats, main.beats);
            assert_eq!(loan.work, main.work);
            assert_eq!(loan.notes, main.notes);
            main.figures[place::SHEET_BYTES] = bytes as u64;
            assert_eq!(loan.figures, main.figures);
        }
    }
}

/// What is lent, in the order of the checks.
const LENT: [Lent; 7] = [
    Lent::Text,
    Lent::Densities,
    Lent::Spacing,
    Lent::Beats,
    Lent::Work,
    Lent::Notes,
    Lent::Sheet,
];

/// Each shortage alone, and with all that are checked after it: the first is said, and nothing is written.
#[test]
fn refusals_are_said_in_their_order() {
    for (first, &lent) in LENT.iter().enumerate() {
        let mut alone = Loan::marked(DATA.len(), 4);
        alone.shorten(lent);
        assert_eq!(alone.chart_sheet(DATA, 4, 2), Err(lent.refusal()));
        assert!(alone.is_marked());

        let mut with_later = Loan::marked(DATA.len(), 4);
        for &lent in &LENT[first..] {
            with_later.shorten(lent);
        }
        assert_eq!(another_form(with_later), lent.refusal());
    }
    let mut whole = Loan::marked(DATA.len(), 4);
    assert_eq!(
        another_form(Loan::marked(DATA.len(), 4)),
        Refusal::OtherForm
    );
    assert_eq!(whole.chart_sheet(DATA, 4, 2), Ok(()));
    assert!(!whole.is_marked());
}

/// How a form that is none is refused over these slices, which are left as they were.
fn another_form(mut loan: Loan) -> Refusal {
    let refused = [3, 1 << 32, usize::MAX].map(|form| loan.chart_sheet(DATA, 4, form).unwrap_err());
    assert!(loan.is_marked());
    assert_eq!(refused, [refused[0]; 3]);
    refused[0]
}

#[test]
fn the_two_refusals_say_whose_mistake_it_is() {
    let mut loan = Loan::marked(DATA.len(), 4);
    let form = loan.chart_sheet(DATA, 4, 3).unwrap_err();
    loan.shorten(Lent::Sheet);
    let short = loan.chart_sheet(DATA, 4, 0).unwrap_err();
    assert_eq!([form, short], [Refusal::OtherForm, Refusal::ShortSheet]);
    for refusal in [form, short] {
        assert!(
            refusal
                .to_string()
                .ends_with(", by whoever wires up the call")
        );
    }
}

#[test]
fn a_text_that_is_too_long_is_refused_first() {
    let data = vec![b'1'; MAX_LEN + 1];
    let mut loan = Loan::marked(data.len(), 4);
    assert_eq!(loan.chart_sheet(&data, 4, 3), Err(Refusal::LongText));
    assert!(loan.is_marked());
    let mut buffers = Buffers::new();
    for form in FORMS {
        let refused = chart_sheet(&data, 4, form);
        assert_eq!(refused, Err(Refusal::LongText));
        let refused = buffers.chart_sheet(&data, 4, form);
        assert_eq!(refused, Err(Refusal::LongText));
    }
}

/// The buffers serve texts of any length in any form, and an owned sheet has no more memory than it needs.
#[test]
fn buffers_serve_one_sheet_after_the_other() {
    let mut buffers = Buffers::new();
    let counts = [1, 40, 2, 0, 400, 3];
    for (count, form) in counts.into_iter().zip(FORMS.into_iter().cycle()) {
        let data = "1000\n0240\n0330\n0000\n,\n".repeat(count);
        let owned = chart_sheet(data.as_bytes(), 4, form).unwrap();
        assert!(owned.capacity() < 2 * owned.len());
        let borrowed = buffers.chart_sheet(data.as_bytes(), 4, form);
        assert_eq!(borrowed, Ok(&owned[..]));
        let kept = buffers.process_chart_kept(data.as_bytes(), 4).unwrap();
        assert_eq!(kept.densities.len(), count + 1);
    }
}
