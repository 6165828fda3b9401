//! The charts of SM files beside the reference, `tests/oracle/sm.rs` of the repository: every chart's number by itself, and all in turn.

#[path = "../../../tests/oracle/sm.rs"]
#[allow(dead_code, reason = "the reference has more than is asked here")]
mod reference;

/// What the reference takes from its own crate.
mod entry {
    pub const MAX_LEN: usize = 16_777_215;
}

use padcheck::{MAX_LEN, Refusal, SmChart, lent, sm_blocks, sm_chart, sm_charts};

/// The chart that the reference found, as a part of the file.
fn part(file: &[u8], found: reference::SmChart) -> SmChart<'_> {
    SmChart {
        lanes: found.lanes,
        data: &file[found.start..found.start + found.len],
    }
}

/// Where a part of a file stands in it.
fn place(file: &[u8], data: &[u8]) -> usize {
    data.as_ptr().addr() - file.as_ptr().addr()
}

/// Compares a file's charts with the reference's; gives what is answered for each.
fn compare(file: &[u8]) -> Vec<Result<SmChart<'_>, Refusal>> {
    let said = file.escape_ascii();
    let all: Vec<_> = sm_charts(file).collect();
    let numbers = all.iter().map(|answer| answer.map_err(Refusal::number));
    let wanted: Vec<_> = reference::charts(file).collect();
    let parts = wanted.iter().map(|&found| Ok(part(file, found?)));
    assert!(numbers.eq(parts), "all charts of {said}: {all:?}");

    let blocks = sm_blocks(file).map(|block| (place(file, block.after_tag), block.chart));
    let tags = reference::blocks(file)
        .into_iter()
        .map(|block| block.tag_end);
    assert!(blocks.eq(tags.zip(all.clone())), "the blocks of {said}");

    for k in (0..wanted.len() + 2).chain([usize::MAX]) {
        let found = reference::sm_chart(file, k);
        let answer = sm_chart(file, k);
        assert_eq!(
            answer.map_err(Refusal::number),
            found.map(|found| part(file, found)),
            "chart {k} of {said}"
        );
        if let (Ok(one), Ok(found), Ok(shown)) = (answer, found, all.get(k).unwrap_or(&answer)) {
            assert_eq!(place(file, one.data), found.start, "chart {k} of {said}");
            assert_eq!(place(file, shown.data), found.start, "chart {k} of {said}");
        }
        let mut chart = [77, 78, 79];
        let number = lent::sm_chart(file, k, &mut chart).map_err(Refusal::number);
        let left = found.map_or([77, 78, 79], |found| {
            [found.lanes, found.start, found.len].map(|number| number as u64)
        });
        assert_eq!(
            (number, chart),
            (found.map(|_| ()), left),
            "chart {k} of {said}"
        );
    }
    all
}

const EXAMPLE: &[u8] = include_bytes!("../../../examples/first-steps.sm");

#[test]
fn the_example_and_every_part_of_it() {
    let lanes = compare(EXAMPLE)
        .into_iter()
        .map(|answer| answer.map(|chart| chart.lanes));
    assert!(lanes.eq([Ok(4), Err(Refusal::OtherType), Ok(8)]));
    for cut in 0..EXAMPLE.len() {
        compare(&EXAMPLE[..cut]);
        compare(&EXAMPLE[cut..]);
    }
    let other_line_ends = String::from_utf8_lossy(EXAMPLE).replace('\n', "\r\n");
    assert_eq!(compare(other_line_ends.as_bytes()).len(), 3);
}

#[test]
fn files_made_by_hand() {
    type File = (&'static [u8], &'static [Result<usize, Refusal>]);
    let files: [File; 24] = [
        (b"", &[]),
        (b"#TITLE:none;\n1000\n", &[]),
        (b"#NOTES", &[]),
        (b"#notes:dance-single:::::;", &[]),
        (b"#NOTES2:dance-single:::::;", &[]),
        (b"x #NOTES:dance-single:::::;", &[]),
        (b"//#NOTES:dance-single:::::;", &[]),
        (b"\x0B#NOTES:dance-single:::::;", &[]),
        (b"#NOTES:", &[Err(Refusal::FewFields)]),
        (b"#NOTES:dance-single::::;:", &[Err(Refusal::FewFields)]),
        (b"#NOTES:lights-cabinet::::;", &[Err(Refusal::FewFields)]),
        (b"#NOTES:lights-cabinet:::::;", &[Err(Refusal::OtherType)]),
        (b"#NOTES:dance-threepanel:::::;", &[Err(Refusal::OtherType)]),
        (b"#NOTES:dance-solo:::::000001;", &[Ok(6)]),
        (b"#NOTES:Dance-Single:::::;", &[Err(Refusal::OtherType)]),
        (b"#NOTES: \n :::::;", &[Err(Refusal::OtherType)]),
        (b"#NOTES:dance-single\x0B:::::;", &[Err(Refusal::OtherType)]),
        (b"#NOTES:\t\n\x0C\r dance-single\r\n:::::", &[Ok(4)]),
        (b"\r\n \t\x0C#NOTES:pump-single:::::00000;", &[Ok(5)]),
        // A tag in the data, and one on the line on which a block ends, start none.
        (
            b"#NOTES:dance-double:::::\n#NOTES:pump-single:::::;",
            &[Ok(8)],
        ),
        (
            b"#NOTES:dance-double:::::;#NOTES:pump-single:::::;\n",
            &[Ok(8)],
        ),
        (
            b"#NOTES:;#NOTES:;\n#NOTES:pump-double:::::",
            &[Err(Refusal::FewFields), Ok(10)],
        ),
        (
            b"#NOTES:a:::::;\n#NOTES:b:::::;\n\n#NOTES:;\n#A:;\n#NOTES:dance-single:::::;",
            &[
                Err(Refusal::OtherType),
                Err(Refusal::OtherType),
                Err(Refusal::FewFields),
                Ok(4),
            ],
        ),
        // A comment is not known: its `;` ends the block.
        (
            b"#NOTES:dance-single:::::// 1;\n#NOTES:pump-single:::::",
            &[Ok(4), Ok(5)],
        ),
    ];
    for (file, wanted) in files {
        let lanes: Vec<_> = compare(file)
            .into_iter()
            .map(|answer| answer.map(|chart| chart.lanes))
            .collect();
        assert_eq!(lanes, wanted, "{}", file.escape_ascii());
    }
}

/// What files are put together of.
const PIECES: [&[u8]; 12] = [
    b"#NOTES:",
    b"\n#NOTES:",
    b"\n#NOTES:dance-single:::::",
    b"pump-double:",
    b"dance-single",
    b"lights",
    b":",
    b"::::",
    b";",
    b"\n",
    b"\r ",
    b"1000",
];

#[test]
fn every_file_of_a_few_pieces() {
    for count in 0..=4_u32 {
        for number in 0..PIECES.len().pow(count) {
            let mut left = number;
            let mut file = Vec::new();
            for _ in 0..count {
                file.extend_from_slice(PIECES[left % PIECES.len()]);
                left /= PIECES.len();
            }
            compare(&file);
        }
    }
}

#[test]
fn random_files() {
    let mut seed = 1_u64;
    let mut below = |n: usize| {
        // The sequence called splitmix64.
        seed = seed.wrapping_add(0x9E37_79B9_7F4A_7C15);
        let mut z = seed;
        z = (z ^ (z >> 30)).wrapping_mul(0xBF58_476D_1CE4_E5B9);
        z = (z ^ (z >> 27)).wrapping_mul(0x94D0_49BB_1331_11EB);
        ((z ^ (z >> 31)) % n as u64) as usize
    };
    let (mut read, mut refused) = (0, 0);
    for _ in 0..20_000 {
        let mut file = Vec::new();
        for _ in 0..below(40) {
            match below(20) {
                0 => file.push(below(256) as u8),
                _ => file.extend_from_slice(PIECES[below(PIECES.len())]),
            }
        }
        for answer in compare(&file) {
            match answer {
                Ok(_) => read += 1,
                Err(_) => refused += 1,
            }
        }
    }
    assert!(read > 10_000 && refused > 10_000, "{read} {refused}");
}

#[test]
fn a_file_that_is_too_long_is_refused_first_and_once() {
    let mut file = EXAMPLE.to_vec();
    file.resize(MAX_LEN + 1, b' ');
    for k in [0, 1, 3, usize::MAX] {
        assert_eq!(sm_chart(&file, k), Err(Refusal::LongText));
        assert_eq!(reference::sm_chart(&file, k), Err(1));
        let mut chart = [77, 78, 79];
        let refused = lent::sm_chart(&file, k, &mut chart);
        assert_eq!((refused, chart), (Err(Refusal::LongText), [77, 78, 79]));
    }
    let mut charts = sm_charts(&file);
    assert_eq!(charts.next(), Some(Err(Refusal::LongText)));
    assert_eq!(charts.next(), None);
    assert_eq!(charts.next(), None);
    assert_eq!(sm_blocks(&file).next(), None);

    file.pop();
    let longest: Vec<_> = sm_charts(&file).collect();
    let example: Vec<_> = sm_charts(EXAMPLE).collect();
    assert_eq!(longest, example);
}

/// As many charts as the longest file can have, each in turn. Were the first file walked from its start for each of them, that would be
/// over 10^13 bytes.
#[test]
fn charts_without_number() {
    let blocks: [(&[u8], Result<usize, Refusal>); 3] = [
        (b"#NOTES:;\n", Err(Refusal::FewFields)),
        (b"#NOTES::::::;\n", Err(Refusal::OtherType)),
        (b"#NOTES:dance-single:::::;\n", Ok(4)),
    ];
    for (block, wanted) in blocks {
        let count = MAX_LEN / block.len();
        let file = block.repeat(count);
        let mut charts = sm_charts(&file).map(|answer| answer.map(|chart| chart.lanes));
        assert!(charts.by_ref().take(count).all(|answer| answer == wanted));
        assert_eq!(charts.next(), None);
    }
}

/// What is answered is borrowed from the file alone.
#[test]
fn charts_outlive_what_found_them() {
    fn all(file: &[u8]) -> Vec<&[u8]> {
        let mut charts = sm_charts(file).flatten();
        let mut data: Vec<_> = charts.by_ref().map(|chart| chart.data).collect();
        data.extend(sm_chart(file, 0).map(|chart| chart.data));
        data
    }
    let data = all(EXAMPLE);
    assert_eq!((data.len(), data[0]), (3, data[2]));
}
