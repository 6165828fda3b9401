//! The directions of a tally's arrows at six lanes, which the Rust does not have: a plain count of the arrows that a tally counts, as the
//! specification has them. The self-check compares it with the Rust's directions at the lane counts that the Rust has.

/// How many arrows each direction has: left, down, up, right, up-left, up-right.
pub type Directions = [u64; 6];

/// The directions of the six columns: left, up-left, down, up, up-right, right.
const SIX_COLUMNS: [usize; 6] = [0, 4, 1, 2, 5, 3];

/// The most heads that are open in a column.
const MOST_OPEN: usize = 8;

/// The direction of a column at L lanes.
fn direction(lanes: usize, column: usize) -> usize {
    match lanes {
        6 => SIX_COLUMNS[column],
        _ => column % 4,
    }
}

/// Those of the main and the kept tally, over minimised rows of L bytes.
pub fn chart_directions<'a>(rows: impl Iterator<Item = &'a [u8]>, lanes: usize) -> Directions {
    let cells = rows.flatten().copied().collect::<Vec<_>>();
    let paired = paired_heads(&cells, lanes);
    let anew = is_counted_anew(&cells, lanes);
    directions_of(&cells, lanes, |at| match cells[at] {
        b'1' => true,
        b'2' | b'4' => paired[at] || !anew,
        _ => false,
    })
}

/// Those of a judged tally, over rows read back, with what says which of them are judged.
pub fn judged_directions<'a>(
    rows: impl Iterator<Item = &'a [u8]>,
    lanes: usize,
    is_judged: impl Fn(usize) -> bool,
) -> Directions {
    let cells = rows.flatten().copied().collect::<Vec<_>>();
    let paired = paired_heads(&cells, lanes);
    directions_of(&cells, lanes, |at| match cells[at] {
        b'1' | b'L' | b'l' => is_judged(at / lanes),
        b'2' | b'4' => is_judged(at / lanes) && paired[at],
        _ => false,
    })
}

/// How many cells of each direction are arrows; a cell is told by its place in rows back to back.
fn directions_of(cells: &[u8], lanes: usize, is_arrow: impl Fn(usize) -> bool) -> Directions {
    let mut directions = Directions::default();
    for at in (0..cells.len()).filter(|&at| is_arrow(at)) {
        directions[direction(lanes, at % lanes)] += 1;
    }
    directions
}

/// Whether each cell is a head that the hold tracker pairs.
fn paired_heads(cells: &[u8], lanes: usize) -> Vec<bool> {
    let mut paired = vec![false; cells.len()];
    let mut stacks = vec![Vec::new(); lanes];
    for (at, cell) in cells.iter().enumerate() {
        let stack = &mut stacks[at % lanes];
        match cell {
            b'2' | b'4' if stack.len() < MOST_OPEN => stack.push(at),
            b'3' => {
                if let Some(head) = stack.pop() {
                    paired[head] = true;
                }
            }
            b'1' | b'M' | b'L' | b'F' => stack.clear(),
            _ => {}
        }
    }
    paired
}

/// Whether a tally of these rows is counted anew.
fn is_counted_anew(cells: &[u8], lanes: usize) -> bool {
    let (mut heads, mut tails, mut met) = (0, 0, false);
    let mut depths = vec![0_usize; lanes];
    for (at, cell) in cells.iter().enumerate() {
        let depth = &mut depths[at % lanes];
        match cell {
            b'2' | b'4' => {
                heads += 1;
                *depth += 1;
            }
            b'3' => {
                tails += 1;
                *depth = depth.saturating_sub(1);
            }
            b'1' | b'M' | b'L' | b'F' => met |= *depth > 0,
            _ => {}
        }
    }
    let left_over = depths.iter().any(|&depth| depth > 0);
    heads > 0 && (heads != tails || met || left_over)
}
