//! The fields of a tally, their names and their order: the binding's and the sheet's beside the library's own `ArrowStats`. Those of padcheck.h
//! are held against it by the C test.

use padcheck::{ArrowStats, SheetForm, chart_sheet, place};

/// The library's source.
const SOURCE: &str = include_str!("../../../crates/definitions/src/lib.rt");

/// The names of the fields in the library's order.
fn fields() -> Vec<&'static str> {
    let (_, rest) = SOURCE.split_once("\npub struct ArrowStats {").unwrap();
    let (fields, _) = rest.split_once("\n}").unwrap();
    let lines = fields.lines().filter_map(|line| line.split_once(':'));
    let names = lines.filter_map(|(name, _)| name.trim().strip_prefix("pub "));
    names.collect()
}

#[test]
fn the_bindings_fields_are_read_from_their_places() {
    let figures = std::array::from_fn(|place| place as u64);
    let said = fields().into_iter().zip(place::TALLY..);
    let said: Vec<_> = said.map(|(name, at)| format!("{name}: {at}")).collect();
    let wanted = format!("ArrowStats {{ {} }}", said.join(", "));
    assert_eq!(format!("{:?}", ArrowStats::from_figures(&figures)), wanted);
}

/// A chart's sheet as text.
fn sheet(form: SheetForm) -> String {
    let chart = include_bytes!("../../../examples/first-steps.txt");
    String::from_utf8(chart_sheet(chart, 4, form).unwrap()).unwrap()
}

#[test]
fn the_lines_in_print_are_the_fields() {
    let print = sheet(SheetForm::Print);
    let (_, rest) = print.split_once("judged\n").unwrap();
    let (lines, _) = rest.split_once("\n\n").unwrap();
    let names = lines.lines().map(|line| line.split(' ').next().unwrap());
    assert_eq!(names.collect::<Vec<_>>(), fields());
}

#[test]
fn the_members_in_json_are_the_fields() {
    let json = sheet(SheetForm::Json);
    for tally in ["main", "kept", "judged"] {
        let (_, rest) = json.split_once(&format!("\"{tally}\":{{")).unwrap();
        let (members, _) = rest.split_once('}').unwrap();
        let names = members
            .split(',')
            .map(|member| member.split('"').nth(1).unwrap());
        assert_eq!(names.collect::<Vec<_>>(), fields());
    }
}
