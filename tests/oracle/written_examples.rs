//! The specification's table of examples of written charts, read from `WrittenExamples.antt`.

use crate::table::Words;
use oracle::calls::NO_TAIL;
use oracle::written::{Given, record};

const SOURCE: &str = include_str!("../../crates/definitions/specs/WrittenExamples.antt");

/// What the call is lent, and what it answers: the text, or a refusal's number.
#[derive(Clone, Debug)]
pub struct Example {
    pub given: Given,
    pub room: usize,
    pub answer: Result<Vec<u8>, u32>,
}

/// Every example of the table.
pub fn examples() -> Vec<Example> {
    Words::of(SOURCE).list(Words::example)
}

impl Words {
    fn number(&mut self) -> u32 {
        match self.next().as_str() {
            "none" => NO_TAIL,
            word => word.parse().expect("a number"),
        }
    }

    /// A string, in which `|` stands for byte 10.
    fn text(&mut self) -> Vec<u8> {
        let word = self.next();
        let text = word.strip_prefix('"').expect("a string");
        text.replace('|', "\n").into_bytes()
    }

    /// Numbers up to the list's end.
    fn numbers(&mut self) -> Vec<u32> {
        let mut numbers = Vec::new();
        while !self.is("[]") {
            numbers.push(self.number());
            self.expect("∷");
        }
        numbers
    }

    /// A list, in parentheses where it is not empty.
    fn counts(&mut self) -> Vec<u32> {
        let in_parentheses = self.is("(");
        let counts = self.numbers();
        if in_parentheses {
            self.expect(")");
        }
        counts
    }

    /// A record by its fields, or some bytes.
    fn record(&mut self) -> Vec<u8> {
        if self.is("fields") {
            return record([(); 4].map(|()| self.number())).to_vec();
        }
        let bytes = self.counts();
        bytes.into_iter().map(|byte| byte as u8).collect()
    }

    /// A list of records, in parentheses where it is not empty.
    fn records(&mut self) -> Vec<u8> {
        if self.is("[]") {
            return Vec::new();
        }
        self.expect("(");
        let mut records = Vec::new();
        while !self.is("[]") {
            records.extend(self.record());
            self.expect("∷");
        }
        self.expect(")");
        records
    }

    fn example(&mut self) -> Example {
        match self.next().as_str() {
            "writes" => {
                let given = self.given();
                let text = self.text();
                Example {
                    given,
                    room: text.len(),
                    answer: Ok(text),
                }
            }
            "refuses" => Example {
                given: self.given(),
                room: 100,
                answer: Err(self.number()),
            },
            "reads" => {
                let given = Given::of_text(&self.text(), 4);
                let text = self.text();
                Example {
                    given,
                    room: text.len(),
                    answer: Ok(text),
                }
            }
            "reads_refused" => Example {
                given: Given::of_text(&self.text(), 4),
                room: 100,
                answer: Err(15),
            },
            "record" => self.refused_by_fields(),
            word => panic!("{word} is no example"),
        }
    }

    fn given(&mut self) -> Given {
        Given {
            lanes: self.number() as usize,
            records: self.records(),
            counts: self.counts(),
        }
    }

    /// A refused example that names its fields.
    fn refused_by_fields(&mut self) -> Example {
        self.expect("{");
        let mut field = |name: &str, end: &str, read: &mut dyn FnMut(&mut Self)| {
            self.expect(name);
            self.expect("=");
            read(self);
            self.expect(end);
        };
        let (mut given, mut room, mut answer) = (Given::default(), 0, Vec::new());
        field("lanes", ";", &mut |w| given.lanes = w.number() as usize);
        field("given", ";", &mut |w| given.records = w.record());
        field("counts", ";", &mut |w| given.counts = w.counts());
        field("room", ";", &mut |w| room = w.number() as usize);
        field("answer", "}", &mut |w| answer = w.counts());
        assert!(answer.len() == 1 && answer[0] != 0, "a refusal");
        Example {
            given,
            room,
            answer: Err(answer[0]),
        }
    }
}
