//! The charts inside an SM file, plainly, from Specification, SM files. The Rust has no such function: this is the reference for it.

use crate::entry::MAX_LEN;

/// The tag that a block's line begins with, after blanks.
pub const TAG: &[u8] = b"#NOTES:";

/// How many fields, each ended by `:`, stand between the tag and the data.
pub const FIELDS: usize = 5;

/// The type names and their lane counts.
pub const TYPES: [(&[u8], usize); 5] = [
    (b"dance-single", 4),
    (b"pump-single", 5),
    (b"dance-solo", 6),
    (b"dance-double", 8),
    (b"pump-double", 10),
];

/// A block: where its line begins, where its tag ends, and the place just past it.
#[derive(Clone, Copy, Debug, PartialEq, Eq)]
pub struct Block {
    pub line: usize,
    pub tag_end: usize,
    pub end: usize,
}

/// What is answered for a block: the lane count, and where the data stands in the file.
#[derive(Clone, Copy, Debug, PartialEq, Eq)]
pub struct SmChart {
    pub lanes: usize,
    pub start: usize,
    pub len: usize,
}

fn is_blank(byte: u8) -> bool {
    matches!(byte, 9 | 10 | 12 | 13 | 32)
}

/// A list without blanks at either end.
fn trimmed(mut bytes: &[u8]) -> &[u8] {
    while let [first, rest @ ..] = bytes
        && is_blank(*first)
    {
        bytes = rest;
    }
    while let [rest @ .., last] = bytes
        && is_blank(*last)
    {
        bytes = rest;
    }
    bytes
}

/// The blocks of a file, in their order.
#[must_use]
pub fn blocks(file: &[u8]) -> Vec<Block> {
    let mut blocks: Vec<Block> = Vec::new();
    let mut line = 0;
    for text in file.split(|&byte| byte == b'\n') {
        let blanks = text.iter().take_while(|&&byte| is_blank(byte)).count();
        let outside = blocks.last().is_none_or(|block| block.end <= line);
        if outside && text[blanks..].starts_with(TAG) {
            let tag_end = line + blanks + TAG.len();
            let semicolon = file[tag_end..].iter().position(|&byte| byte == b';');
            let end = semicolon.map_or(file.len(), |place| tag_end + place + 1);
            blocks.push(Block { line, tag_end, end });
        }
        line += text.len() + 1;
    }
    blocks
}

/// The answer for one block, by what stands after its tag.
fn chart(file: &[u8], block: &Block) -> Result<SmChart, u32> {
    let text = &file[block.tag_end..block.end];
    let mut colons = (0..text.len()).filter(|&place| text[place] == b':');
    let first = colons.next().ok_or(9_u32)?;
    let last = colons.nth(FIELDS - 2).ok_or(9_u32)?;
    let name = trimmed(&text[..first]);
    let named = TYPES.iter().find(|(known, _)| *known == name);
    let &(_, lanes) = named.ok_or(10_u32)?;
    let start = block.tag_end + last + 1;
    Ok(SmChart {
        lanes,
        start,
        len: block.end - start,
    })
}

/// The answers for every block of a file that is not too long.
pub fn charts(file: &[u8]) -> impl Iterator<Item = Result<SmChart, u32>> {
    blocks(file)
        .into_iter()
        .map(move |block| chart(file, &block))
}

/// The answer for block `k`, counted from 0.
///
/// # Errors
///
/// 1 for a file that is too long, 11 where `k` is not below the number of blocks, 9 for fewer than five `:` after the block's tag, 10 for
/// another type name: the first that holds, in this order.
pub fn sm_chart(file: &[u8], k: usize) -> Result<SmChart, u32> {
    if file.len() > MAX_LEN {
        return Err(1);
    }
    let blocks = blocks(file);
    let block = blocks.get(k).ok_or(11_u32)?;
    chart(file, block)
}
