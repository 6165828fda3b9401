//! A case, what a check of it compares, and the totals: a case that differs is shrunk byte by byte before it is shown.

use std::fmt::Debug;
use std::time::{Duration, Instant};

/// How many cases that differ are shown of each check, and how long one is shrunk.
const SHOWN: u64 = 3;
const SHRINKING: Duration = Duration::from_secs(3);

/// The lane counts, and one more than the greatest number that an entry can return: 0 for accepted, the refusals 1 to 16, 19 and 20.
pub const LANE_COUNTS: [usize; 5] = [4, 5, 6, 8, 10];
pub const NUMBERS: usize = 21;

/// How often an entry returned each number, for each lane count, and at the last place for all other lane numbers.
pub type Answers = [[u64; NUMBERS]; LANE_COUNTS.len() + 1];

/// The place of a lane number among these.
pub fn lane_place(lanes: usize) -> usize {
    let place = LANE_COUNTS.iter().position(|&count| count == lanes);
    place.unwrap_or(LANE_COUNTS.len())
}

/// A text, or rows back to back, with a lane number. All else that a check draws comes from the seed.
#[derive(Clone, Debug, Default)]
pub struct Case {
    pub bytes: Vec<u8>,
    pub lanes: usize,
    pub seed: u64,
}

/// What a check compared.
#[derive(Default)]
pub struct Compare {
    same: u64,
    differ: u64,
    first: Option<String>,
    answers: Answers,
}

impl Compare {
    /// Compares the number that an entry returned, and keeps it.
    pub fn number(&mut self, lanes: usize, ours: u32, rust: u32) {
        self.same("number", ours, rust);
        self.returned(lanes, ours);
    }

    /// Keeps the number that an entry returned.
    pub fn returned(&mut self, lanes: usize, ours: u32) {
        if let Some(count) = self.answers[lane_place(lanes)].get_mut(ours as usize) {
            *count += 1;
        }
    }

    pub fn same<T: PartialEq + Debug>(&mut self, what: &str, ours: T, rust: T) {
        if ours == rust {
            self.same += 1;
        } else {
            self.differs(format!("{what}: ours {ours:?}, the Rust {rust:?}"));
        }
    }

    /// Compares two slices as one thing and names the first place that differs.
    pub fn same_slices<T: PartialEq + Debug>(&mut self, what: &str, ours: &[T], rust: &[T]) {
        if ours == rust {
            self.same += 1;
        } else if ours.len() != rust.len() {
            let (ours, rust) = (ours.len(), rust.len());
            self.differs(format!("{what}: ours has {ours} entries, the Rust {rust}"));
        } else if let Some(at) = (0..ours.len()).find(|&at| ours[at] != rust[at]) {
            let (ours, rust) = (&ours[at], &rust[at]);
            self.differs(format!("{what} at {at}: ours {ours:?}, the Rust {rust:?}"));
        }
    }

    fn differs(&mut self, message: String) {
        self.differ += 1;
        self.first.get_or_insert(message);
    }
}

type Run = Box<dyn Fn(&Case, &mut Compare)>;

/// A check by its name, with how many cases compared something and what they compared.
pub struct Check {
    name: &'static str,
    run: Run,
    cases: u64,
    differing: u64,
    same: u64,
    differ: u64,
    answers: Answers,
}

impl Check {
    pub fn new(name: &'static str, run: impl Fn(&Case, &mut Compare) + 'static) -> Self {
        Self {
            name,
            run: Box::new(run),
            cases: 0,
            differing: 0,
            same: 0,
            differ: 0,
            answers: Answers::default(),
        }
    }

    pub fn name(&self) -> &'static str {
        self.name
    }

    pub fn comparisons(&self) -> u64 {
        self.same + self.differ
    }

    pub fn answers(&self) -> &Answers {
        &self.answers
    }

    pub fn run(&mut self, case: &Case) {
        let compared = self.compare(case);
        self.cases += u64::from(compared.same + compared.differ > 0);
        self.same += compared.same;
        self.differ += compared.differ;
        for (counts, more) in self.answers.iter_mut().zip(compared.answers) {
            for (count, more) in counts.iter_mut().zip(more) {
                *count += more;
            }
        }
        if compared.differ > 0 {
            self.differing += 1;
            if self.differing <= SHOWN {
                self.show(case);
            }
        }
    }

    fn compare(&self, case: &Case) -> Compare {
        let mut compared = Compare::default();
        (self.run)(case, &mut compared);
        compared
    }

    /// Prints the smallest case found that still differs.
    fn show(&self, case: &Case) {
        let small = shrunk(case, |case| self.compare(case).first.is_some());
        let message = self.compare(&small).first.unwrap_or_default();
        println!("differs: {}: {message}", self.name);
        println!(
            "  lanes {}, seed {}, {} bytes",
            small.lanes,
            small.seed,
            small.bytes.len()
        );
        println!(
            "  \"{}\"",
            small.bytes[..small.bytes.len().min(2000)].escape_ascii()
        );
    }
}

/// Takes out parts of the bytes, halves first, then rows, single bytes last, while the case still differs.
fn shrunk(case: &Case, differs: impl Fn(&Case) -> bool) -> Case {
    let mut small = case.clone();
    let started = Instant::now();
    let halves = (1..).map(|n| case.bytes.len() >> n);
    let mut parts: Vec<usize> = halves.take_while(|&part| part > 16).collect();
    parts.extend([16, case.lanes.clamp(1, 16), 1]);
    let mut taken = true;
    while taken {
        taken = false;
        for &part in &parts {
            let mut at = 0;
            while at < small.bytes.len() && started.elapsed() < SHRINKING {
                let mut fewer = small.clone();
                fewer.bytes.drain(at..(at + part).min(small.bytes.len()));
                if differs(&fewer) {
                    small = fewer;
                    taken = true;
                } else {
                    at += part;
                }
            }
        }
    }
    small
}

/// Whether a case of these checks differed.
pub fn any_differs(checks: &[Check]) -> bool {
    checks.iter().any(|check| check.differ > 0)
}

/// Prints what each check ran; returns the comparisons that passed and that failed.
pub fn totals(checks: &[Check]) -> (u64, u64) {
    let (mut passed, mut failed) = (0, 0);
    for check in checks {
        println!(
            "{:36} {:>10} cases {:>11} comparisons",
            check.name,
            check.cases,
            check.comparisons()
        );
        passed += check.same;
        failed += check.differ;
        if check.comparisons() == 0 {
            println!("failed: {} compared nothing", check.name);
            failed += 1;
        }
    }
    (passed, failed)
}
