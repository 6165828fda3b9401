//! Checks over SM files: the entry that finds a chart in a file beside the reference, and the ten entries of a text on each chart that it finds.

use crate::case::{self, Case, Check, Compare};
use crate::file_kinds::FileKinds;
use crate::ours;
use crate::random::Rng;
use crate::sheet_checks;
use crate::text_checks;
use oracle::sm;

/// Up to so many blocks each is asked for; of a file with more, so many at either end.
const EVERY_BLOCK: usize = 200;
const AT_AN_END: usize = 4;

/// Of the charts that are found the sheet of one in so many is compared.
const SHEET_ONE_IN: usize = 4;

/// What is compared of files: the entry, the calls on the charts it finds, and the kinds of file that were met.
pub struct Files {
    pub entry: Vec<Check>,
    pub charts: Vec<Check>,
    pub kinds: FileKinds,
}

impl Files {
    pub fn new() -> Self {
        Self {
            entry: vec![Check::new("sm_chart", sm_chart)],
            charts: text_checks::entries()
                .chain([text_checks::tallies(), sheet_checks::drawn(SHEET_ONE_IN)])
                .collect(),
            kinds: FileKinds::new(),
        }
    }

    /// Whether a file or a chart of one differed.
    pub fn any_differs(&self) -> bool {
        case::any_differs(&self.entry) || case::any_differs(&self.charts)
    }

    pub fn run(&mut self, file: Vec<u8>, seed: u64) {
        let case = Case {
            bytes: file,
            lanes: 0,
            seed,
        };
        self.entry.iter_mut().for_each(|check| check.run(&case));
        self.kinds.note(&case.bytes);
        for chart in charts(&case) {
            self.charts.iter_mut().for_each(|check| check.run(&chart));
        }
    }
}

/// The numbers of blocks that a file is asked for: its own, the two past them, one whose low half is 0, and the greatest.
fn asked(file: &[u8]) -> impl Iterator<Item = usize> {
    let blocks = sm::blocks(file).len();
    let is_asked =
        move |k: &usize| blocks <= EVERY_BLOCK || *k < AT_AN_END || blocks - AT_AN_END <= *k;
    let own = (0..blocks).filter(is_asked);
    own.chain([blocks, blocks + 1, 1 << 32, usize::MAX])
}

/// What the entry returns for each number, and the three places that it is lent, with one more on either side.
fn sm_chart(case: &Case, compared: &mut Compare) {
    for k in asked(&case.bytes) {
        let before = marked(case.seed ^ k as u64);
        let (mut left, mut want) = (before, before);
        let [_, chart @ .., _] = &mut left;
        let number = ours::sm_chart(&case.bytes, k, chart);
        let rust = match sm::sm_chart(&case.bytes, k) {
            Ok(found) => {
                let found = [found.lanes, found.start, found.len];
                want[1..4].copy_from_slice(&found.map(|figure| figure as u64));
                0
            }
            Err(refusal) => refusal,
        };
        compared.same("block and number", (k, number), (k, rust));
        compared.same("block and places", (k, left), (k, want));
        compared.returned(left[1] as usize, number);
    }
}

/// Five places of other values, each greater than any answer.
fn marked(seed: u64) -> [u64; 5] {
    let mut rng = Rng::new(seed);
    [(); 5].map(|()| rng.next() | 1 << 63)
}

/// Each chart that the entry finds in a file, as a text of the lane count it answers. A part that lies outside the file is left out: it
/// differs from the reference's.
fn charts(case: &Case) -> Vec<Case> {
    let found = asked(&case.bytes).filter_map(|k| {
        let mut chart = [0; 3];
        if ours::sm_chart(&case.bytes, k, &mut chart) != 0 {
            return None;
        }
        let [lanes, start, len] = chart.map(|figure| figure as usize);
        let data = case.bytes.get(start..start.checked_add(len)?)?;
        Some(Case {
            bytes: data.to_vec(),
            lanes,
            seed: Rng::new(case.seed ^ k as u64).next(),
        })
    });
    found.collect()
}
