//! The specification's table of examples of pad traces, read from `PressExamples.antt`.

use crate::table::Words;
use oracle::calls::NO_TAIL;
use oracle::presses::{COLUMNS, Places, Pressed, trace_of};
use oracle::written::record;

const SOURCE: &str = include_str!("../../crates/definitions/specs/PressExamples.antt");

/// What the call is lent, and what it answers: the 23 places, or a refusal's number.
#[derive(Clone, Debug)]
pub struct Example {
    pub pressed: Pressed,
    pub answer: Result<Places, u32>,
}

/// Every example of the table.
pub fn examples() -> Vec<Example> {
    Words::of(SOURCE).list(example)
}

fn example(words: &mut Words) -> Example {
    let word = words.next();
    let pressed = Pressed {
        records: bytes(words),
        trace: bytes(words),
    };
    let answer = match word.as_str() {
        "counted" => Ok(places(words)),
        "refused" => Err(number(words)),
        _ => panic!("{word} is no example"),
    };
    Example { pressed, answer }
}

/// Hits, strays and misses, then the hits and the misses of the first columns.
fn places(words: &mut Words) -> Places {
    let mut places = [0; _];
    for place in &mut places[..3] {
        *place = number(words).into();
    }
    for columns in places[3..].chunks_mut(COLUMNS) {
        let counts = numbers(words);
        for (place, count) in columns.iter_mut().zip(counts) {
            *place = count.into();
        }
    }
    places
}

fn number(words: &mut Words) -> u32 {
    words.next().parse().expect("a number")
}

fn bytes(words: &mut Words) -> Vec<u8> {
    let numbers = numbers(words).into_iter();
    let byte = |number| u8::try_from(number).expect("a byte");
    numbers.map(byte).collect()
}

/// The numbers of a list: one note or press by its fields, or what stands in parentheses, lists of lists one after the other.
fn numbers(words: &mut Words) -> Vec<u32> {
    let word = words.next();
    let mut field = || number(words);
    let bytes = match word.as_str() {
        "[]" => Vec::new(),
        "plain" => record([field(), NO_TAIL, field(), field()]).to_vec(),
        "note" => record([(); 4].map(|()| field())).to_vec(),
        "press" => trace_of(&[(field().into(), field().into())]),
        "(" => return numbers_up_to_parenthesis(words),
        word => return vec![word.parse().expect("a number")],
    };
    bytes.into_iter().map(u32::from).collect()
}

fn numbers_up_to_parenthesis(words: &mut Words) -> Vec<u32> {
    let mut all = Vec::new();
    while !words.is(")") {
        all.extend(numbers(words));
        for joins in ["∷", "++"] {
            words.is(joins);
        }
    }
    all
}
