//! The charts inside an SM file, each sentence of Specification, SM files, by files whose answers are written by hand.

use crate::Checks;
use oracle::sm::{SmChart, blocks, charts, sm_chart};

pub fn run(checks: &mut Checks) {
    where_blocks_start(checks);
    where_blocks_end(checks);
    fields(checks);
    types(checks);
    data(checks);
    order(checks);
    editors_file(checks);
    longest_files(checks);
}

/// A block's answer: lane count, start and data, or the refusal.
type Want<'a> = Result<(usize, usize, &'a str), u32>;

/// Compares the answers for every block, for the two numbers past them, and for the greatest.
fn answers(checks: &mut Checks, file: &str, want: &[Want]) {
    let what = format!("{file:?}");
    let bytes = file.as_bytes();
    let read = |answer: Result<SmChart, u32>| {
        answer.map(|chart| {
            let data = &file[chart.start..chart.start + chart.len];
            (chart.lanes, chart.start, data)
        })
    };
    checks.same(&what, blocks(bytes).len(), want.len());
    let all: Vec<Want> = charts(bytes).map(read).collect();
    checks.same(&what, &all[..], want);
    for (k, want) in want.iter().enumerate() {
        checks.same(&what, read(sm_chart(bytes, k)), *want);
    }
    for k in [want.len(), want.len() + 1, usize::MAX] {
        checks.same(&what, read(sm_chart(bytes, k)), Err(11));
    }
}

/// A block starts at a line that begins with the tag after blanks, unless the line's first byte lies in an earlier block.
fn where_blocks_start(checks: &mut Checks) {
    answers(checks, "", &[]);
    answers(checks, "\n \n;", &[]);
    let chart = Ok((4, 24, "1;"));
    answers(checks, "#NOTES:dance-single:::::1;", &[chart]);
    let chart = Ok((4, 28, "1;"));
    answers(checks, " \t\r\x0c#NOTES:dance-single:::::1;", &[chart]);
    answers(checks, "\n\n  #NOTES:dance-single:::::1;", &[chart]);
    answers(checks, "x\r\n #NOTES:dance-single:::::1;", &[chart]);
    // Byte 11 is no blank, byte 13 ends no line, and what stands before the tag keeps it from beginning the line.
    answers(checks, "\x0b#NOTES:dance-single:::::1;", &[]);
    answers(checks, "x\r#NOTES:dance-single:::::1;", &[]);
    answers(checks, "x #NOTES:dance-single:::::1;", &[]);
    answers(checks, "//#NOTES:dance-single:::::1;", &[]);
    answers(checks, "#A:;#NOTES:dance-single:::::1;", &[]);
    // The tag byte for byte, its `:` included.
    answers(checks, "#notes:dance-single:::::1;", &[]);
    answers(checks, "#NOTES :dance-single:::::1;", &[]);
    answers(checks, "#NOTES2:dance-single:::::1;", &[]);
    answers(checks, "#NOTES", &[]);
    answers(checks, "#NOTES\n:dance-single:::::1;", &[]);
    answers(checks, "# NOTES:dance-single:::::1;", &[]);
    // A line that begins inside a block starts none, also where the block ends further along it.
    answers(checks, "#NOTES:a;#NOTES:b", &[Err(9)]);
    answers(checks, "#NOTES:a\n#NOTES:b;", &[Err(9)]);
    answers(checks, "#NOTES:a\n #NOTES:b;\n#NOTES:", &[Err(9); 2]);
    answers(checks, "#NOTES:a\nb;#NOTES:c\n#NOTES:d;", &[Err(9); 2]);
    answers(checks, "#NOTES:a\nb; #NOTES:c\n", &[Err(9)]);
    answers(checks, "#NOTES:a;\n#NOTES:b", &[Err(9); 2]);
    answers(checks, "#NOTES:a; \r\n\n\t#NOTES:b", &[Err(9); 2]);
    // The tag ends in `:`, which is none of the five, and a second tag on the line is part of the first field.
    answers(checks, "#NOTES:#NOTES::::::;", &[Err(10)]);
    answers(checks, "#NOTES:#NOTES:::::;", &[Err(10)]);
    answers(checks, "#NOTES:#NOTES::::;", &[Err(9)]);
}

/// A block runs through the first `;` after its tag, or to the file's end. `//` is not known.
fn where_blocks_end(checks: &mut Checks) {
    let chart = Ok((4, 24, "1000;"));
    answers(checks, "#NOTES:dance-single:::::1000;0100;", &[chart]);
    let chart = Ok((4, 24, "1000\n"));
    answers(checks, "#NOTES:dance-single:::::1000\n", &[chart]);
    let chart = Ok((4, 24, "//;"));
    answers(checks, "#NOTES:dance-single::::://;\n1000;", &[chart]);
    let chart = Ok((4, 26, "1;"));
    answers(checks, "#NOTES:dance-single://::::1;", &[chart]);
    let chart = Ok((4, 24, "1\n#NOTES:pump-single:::::1;"));
    let file = "#NOTES:dance-single:::::1\n#NOTES:pump-single:::::1;";
    answers(checks, file, &[chart]);
    // A `;` before the tag ends nothing.
    let chart = Ok((4, 26, "1;"));
    answers(checks, ";\n#NOTES:dance-single:::::1;", &[chart]);
    let two = [Ok((4, 24, ";")), Ok((5, 49, "1"))];
    answers(
        checks,
        "#NOTES:dance-single:::::;\n#NOTES:pump-single:::::1",
        &two,
    );
}

/// Five fields, each ended by `:`, are looked for within the block alone.
fn fields(checks: &mut Checks) {
    for file in [
        "#NOTES:",
        "#NOTES:;",
        "#NOTES:dance-single;::::::",
        "#NOTES:dance-single:;:::::",
        "#NOTES:dance-single::::;:",
        "#NOTES:dance-single::::",
        "#NOTES:dance-single::::;\n:::::;",
        "#NOTES:\n:\n:\n:\n:\n",
    ] {
        answers(checks, file, &[Err(9)]);
    }
    let chart = Ok((4, 24, ""));
    answers(checks, "#NOTES:dance-single:::::", &[chart]);
    let chart = Ok((4, 25, ""));
    answers(checks, "#NOTES:\ndance-single:::::", &[chart]);
    let chart = Ok((4, 31, "e:f;"));
    answers(checks, "#NOTES:dance-single:a:bb:c\n:dd:e:f;", &[chart]);
}

/// The type is the first field without blanks at either end, byte for byte one of the five.
fn types(checks: &mut Checks) {
    for (name, lanes) in [
        ("dance-single", 4),
        ("pump-single", 5),
        ("dance-solo", 6),
        ("dance-double", 8),
        ("pump-double", 10),
    ] {
        let file = format!("#NOTES:{name}:::::1;");
        let chart = Ok((lanes, 12 + name.len(), "1;"));
        answers(checks, &file, &[chart]);
        for blank in ["\t", "\n", "\x0c", "\r", " "] {
            let file = format!("#NOTES:{blank}{name}{blank}{blank}:::::1;");
            let chart = Ok((lanes, 15 + name.len(), "1;"));
            answers(checks, &file, &[chart]);
        }
        let mut capital = name.to_string();
        capital[..1].make_ascii_uppercase();
        for other in [
            capital,
            name.to_uppercase(),
            format!("{name}s"),
            format!("x{name}"),
            format!("\x0b{name}"),
            format!("{name}\x0b"),
            name[1..].to_string(),
            name[..name.len() - 1].to_string(),
            name.replace('-', " "),
            name.replace('-', "- "),
        ] {
            answers(checks, &format!("#NOTES:{other}:::::1;"), &[Err(10)]);
        }
    }
    for other in [
        "",
        " ",
        "\r\n",
        "lights-cabinet",
        "dance-threepanel",
        "//dance-single",
    ] {
        answers(checks, &format!("#NOTES:{other}:::::1;"), &[Err(10)]);
    }
    // The type is the first field and no other.
    answers(checks, "#NOTES::dance-single::::1;", &[Err(10)]);
}

/// The data is what follows the fifth `:` in the block, its `;` included.
fn data(checks: &mut Checks) {
    let chart = Ok((4, 24, ";"));
    answers(checks, "#NOTES:dance-single:::::;", &[chart]);
    let chart = Ok((4, 24, "::\n"));
    answers(checks, "#NOTES:dance-single:::::::\n", &[chart]);
    let chart = Ok((10, 23, "\r\n1000000001\r\n;"));
    let file = "#NOTES:pump-double:::::\r\n1000000001\r\n;\r\n";
    answers(checks, file, &[chart]);
}

/// 11 comes before 9 and 10, and 9 before 10; a refused block keeps no other from its answer.
fn order(checks: &mut Checks) {
    let nine = "#NOTES:x::::;\n";
    let ten = "#NOTES:x:::::;\n";
    let four = "#NOTES:dance-single:::::1;\n";
    answers(checks, nine, &[Err(9)]);
    answers(checks, ten, &[Err(10)]);
    answers(checks, &[nine, ten].concat(), &[Err(9), Err(10)]);
    answers(checks, &[ten, nine].concat(), &[Err(10), Err(9)]);
    let file = [nine, four, ten, four].concat();
    let want = [Err(9), Ok((4, 38, "1;")), Err(10), Ok((4, 80, "1;"))];
    answers(checks, &file, &want);
}

/// Header tags, comment lines, a chart of each type, one of lights, and a last block without `;`.
fn editors_file(checks: &mut Checks) {
    let file = "\
#TITLE:A;
#BPMS:0.000=120.000;
//------- dance-single -------
#NOTES:
     dance-single:
     A:
     Hard:
     9:
     0.1,0.2:
1000
,
0001
;
//------- lights-cabinet #NOTES: -------
#NOTES:
     lights-cabinet:
     :
     Easy:
     1:
     :
100000
;
  #NOTES:pump-single:::::00001
;#NOTES:dance-single:::::1000;
#NOTES:dance-double::::: 10000000;
#NOTES:pump-double:::::
1000000001
";
    let want = [
        Ok((4, 129, "\n1000\n,\n0001\n;")),
        Err(10),
        Ok((5, 281, "00001\n;")),
        Ok((8, 342, " 10000000;")),
        Ok((10, 376, "\n1000000001\n")),
    ];
    answers(checks, file, &want);
}

/// The greatest length is accepted, and one byte more is 1 before all else.
fn longest_files(checks: &mut Checks) {
    let mut file = b"#NOTES:dance-single:::::".to_vec();
    file.resize(16_777_215, b'0');
    let chart = SmChart {
        lanes: 4,
        start: 24,
        len: 16_777_191,
    };
    checks.same("longest", sm_chart(&file, 0), Ok(chart));
    checks.same("longest, past the blocks", sm_chart(&file, 1), Err(11));
    file.push(b'0');
    for k in [0, 1, usize::MAX] {
        checks.same("one longer", sm_chart(&file, k), Err(1));
    }
    for start in ["#NOTES:x:::::", "#NOTES:x::::0"] {
        file[..start.len()].copy_from_slice(start.as_bytes());
        file[start.len()..24].fill(b'0');
        checks.same("one longer, refused else", sm_chart(&file, 0), Err(1));
    }
}
