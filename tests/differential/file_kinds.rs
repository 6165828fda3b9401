//! Kinds of SM file that the run must meet, told from the file itself and not from how it was drawn.

use oracle::entry::MAX_LEN;
use oracle::sm::{self, Block, TAG, TYPES};

/// What a kind asks of a file, and of a block of a file.
type Test = fn(&Facts) -> bool;
type BlockTest = fn(&Part) -> bool;

const KINDS: [(&str, Test); 31] = [
    ("an empty file", |f| f.file.is_empty()),
    ("a file without blocks", |f| {
        !f.file.is_empty() && f.parts.is_empty()
    }),
    ("one block", |f| f.parts.len() == 1),
    ("five blocks or more", |f| f.parts.len() >= 5),
    ("several blocks, 10,000 bytes or more", |f| {
        f.parts.len() > 1 && f.file.len() >= 10_000
    }),
    ("a chart, every line ends in bytes 13 and 10", |f| {
        f.is_accepted() && f.ends_in_crlf
    }),
    ("header tags before a block", |f| f.header),
    ("a comment line between two blocks", |f| f.comment_between),
    ("a tag in the middle of a line", |f| f.tags.mid_line),
    ("a tag after byte 11 at its line's start", |f| {
        f.tags.after_11
    }),
    ("a tag after byte 13 in the middle of a line", |f| {
        f.tags.after_13
    }),
    ("a tag on a comment line", |f| f.tags.on_comment),
    ("a tag that begins a line inside an earlier block", |f| {
        f.tags.line_inside
    }),
    ("a tag after blanks on a line inside a block", |f| {
        f.tags.blanks_inside
    }),
    ("a tag that begins the line on which a block ends", |f| {
        f.tags.line_of_end
    }),
    ("a tag after the block that its line begins with", |f| {
        f.tags.after_own
    }),
    ("a tag after the end of an earlier line's block", |f| {
        f.tags.after_end
    }),
    ("a tag right after a tag", |f| f.tags.after_tag),
    ("a block on the line after another's end", |f| f.next_line),
    ("the tag in other capitals at a line's start", |f| {
        f.other_capitals
    }),
    ("the tag without its colon at a line's start", |f| {
        f.without_colon
    }),
    ("an accepted block after one refused with 9", |f| {
        f.is_after(Part::is_short, Part::is_accepted)
    }),
    ("an accepted block after one refused with 10", |f| {
        f.is_after(Part::is_other, Part::is_accepted)
    }),
    ("a block refused with 9 after an accepted one", |f| {
        f.is_after(Part::is_accepted, Part::is_short)
    }),
    ("a block refused with 10 after an accepted one", |f| {
        f.is_after(Part::is_accepted, Part::is_other)
    }),
    ("a last block refused with 9", |f| {
        f.parts.last().is_some_and(Part::is_short)
    }),
    ("a last block refused with 10", |f| {
        f.parts.last().is_some_and(Part::is_other)
    }),
    ("two charts of different types", |f| {
        let names = f.parts.iter().filter(|part| part.is_accepted());
        let mut names = names.map(|part| part.name);
        let first = names.next();
        names.any(|name| Some(name) != first)
    }),
    ("a file of 16,777,215 bytes without blocks", |f| {
        f.file.len() == MAX_LEN && f.parts.is_empty()
    }),
    ("a file of 16,777,216 bytes without blocks", |f| {
        f.file.len() == MAX_LEN + 1 && f.parts.is_empty()
    }),
    ("one block after 10,000 other bytes or more", |f| {
        f.parts.len() == 1 && f.parts[0].place >= 10_000
    }),
];

/// Kinds of block: a file is of such a kind where one of its blocks is.
const BLOCK_KINDS: [(&str, BlockTest); 63] = [
    ("a chart of dance-single", |p| p.is_of(b"dance-single")),
    ("a chart of pump-single", |p| p.is_of(b"pump-single")),
    ("a chart of dance-solo", |p| p.is_of(b"dance-solo")),
    ("a chart of dance-double", |p| p.is_of(b"dance-double")),
    ("a chart of pump-double", |p| p.is_of(b"pump-double")),
    ("a block of lights-cabinet", |p| {
        p.is_other() && p.name == b"lights-cabinet"
    }),
    ("a tag at its line's start", |p| p.before.is_empty()),
    ("byte 9 before a tag", |p| p.before.contains(&9)),
    ("byte 12 before a tag", |p| p.before.contains(&12)),
    ("byte 13 before a tag", |p| p.before.contains(&13)),
    ("byte 32 before a tag", |p| p.before.contains(&32)),
    ("several blanks before a tag", |p| p.before.len() > 1),
    ("a type name without blanks", |p| {
        p.is_accepted() && p.left.is_empty() && p.right.is_empty()
    }),
    ("byte 9 before a type name", |p| p.is_left(9)),
    ("byte 10 before a type name", |p| p.is_left(10)),
    ("byte 12 before a type name", |p| p.is_left(12)),
    ("byte 13 before a type name", |p| p.is_left(13)),
    ("byte 32 before a type name", |p| p.is_left(32)),
    ("byte 9 after a type name", |p| p.is_right(9)),
    ("byte 10 after a type name", |p| p.is_right(10)),
    ("byte 12 after a type name", |p| p.is_right(12)),
    ("byte 13 after a type name", |p| p.is_right(13)),
    ("byte 32 after a type name", |p| p.is_right(32)),
    ("byte 11 before a type name", |p| {
        p.is_nearly(|name, known| name.strip_prefix(b"\x0b") == Some(known))
    }),
    ("byte 11 after a type name", |p| {
        p.is_nearly(|name, known| name.strip_suffix(b"\x0b") == Some(known))
    }),
    ("a type name in other capitals", |p| {
        p.is_nearly(<[u8]>::eq_ignore_ascii_case)
    }),
    ("a type name and more after it", |p| {
        p.is_nearly(<[u8]>::starts_with)
    }),
    ("a type name and more before it", |p| {
        p.is_nearly(<[u8]>::ends_with)
    }),
    ("a type name without its last bytes", |p| {
        !p.name.is_empty() && p.is_nearly(|name, known| known.starts_with(name))
    }),
    ("a blank within a type name", |p| {
        p.is_nearly(|name, known| {
            let solid = name.iter().filter(|byte| !byte.is_ascii_whitespace());
            solid.eq(known)
        })
    }),
    ("an empty type name", |p| {
        p.is_other() && p.name.is_empty() && p.left.is_empty()
    }),
    ("a type name of blanks alone", |p| {
        p.is_other() && p.name.is_empty() && !p.left.is_empty()
    }),
    ("no colon after the tag", |p| p.colons == 0),
    ("one colon after the tag", |p| p.colons == 1),
    ("two colons after the tag", |p| p.colons == 2),
    ("three colons after the tag", |p| p.colons == 3),
    ("four colons after the tag", |p| p.colons == 4),
    ("five colons after the tag", |p| p.colons == 5),
    ("six colons after the tag or more", |p| p.colons > 5),
    ("four colons, a type name, and a colon past the end", |p| {
        p.colons == 4 && p.is_known && p.colon_past
    }),
    ("four colons and another type name", |p| {
        p.colons == 4 && !p.is_known
    }),
    ("one colon and another type name", |p| {
        p.colons == 1 && !p.is_known
    }),
    ("fewer than five colons and no semicolon", |p| {
        p.is_short() && !p.is_closed
    }),
    ("fewer than five colons and a semicolon", |p| {
        p.is_short() && p.is_closed
    }),
    ("a semicolon right after the tag", |p| p.text == b";"),
    ("nothing after the tag", |p| p.text.is_empty()),
    ("another type name and no semicolon", |p| {
        p.is_other() && !p.is_closed
    }),
    ("empty data", |p| p.is_accepted() && p.data.is_empty()),
    ("data of a semicolon alone", |p| {
        p.is_accepted() && p.data == b";"
    }),
    ("data and no semicolon", |p| {
        p.is_accepted() && !p.data.is_empty() && !p.is_closed
    }),
    ("data of several lines with its semicolon", |p| {
        p.is_accepted() && p.is_closed && p.data.contains(&b'\n')
    }),
    ("a colon in the data", |p| {
        p.is_accepted() && p.data.contains(&b':')
    }),
    ("a tag in the data", |p| p.is_accepted() && has(p.data, TAG)),
    ("a comment in the data", |p| {
        p.is_accepted() && has(p.data, b"//")
    }),
    ("data that a semicolon on a comment's line ends", |p| {
        let last = p.data.rsplit(|&byte| byte == b'\n').next();
        p.is_accepted() && p.is_closed && has(last.unwrap_or_default(), b"//")
    }),
    ("two slashes among the fields", |p| {
        p.is_accepted() && has(&p.text[..p.text.len() - p.data.len()], b"//")
    }),
    ("a tag among the fields", |p| {
        p.is_accepted() && has(&p.text[..p.text.len() - p.data.len()], TAG)
    }),
    ("a chart in a file of 16,777,215 bytes", |p| {
        p.is_accepted() && p.file_len == MAX_LEN
    }),
    ("a chart in a file of 16,777,216 bytes", |p| {
        p.is_accepted() && p.file_len == MAX_LEN + 1
    }),
    ("other types in a file of 16,777,215 bytes", |p| {
        p.is_other() && p.file_len == MAX_LEN
    }),
    ("other types in a file of 16,777,216 bytes", |p| {
        p.is_other() && p.file_len == MAX_LEN + 1
    }),
    ("too few colons in a file of 16,777,215 bytes", |p| {
        p.is_short() && p.file_len == MAX_LEN
    }),
    ("too few colons in a file of 16,777,216 bytes", |p| {
        p.is_short() && p.file_len == MAX_LEN + 1
    }),
];

/// Whether a list has another in it.
fn has(bytes: &[u8], other: &[u8]) -> bool {
    bytes.windows(other.len()).any(|part| part == other)
}

/// A block by its parts.
struct Part<'a> {
    file_len: usize,
    place: usize,
    /// The blanks before the tag, and what follows the tag.
    before: &'a [u8],
    text: &'a [u8],
    is_closed: bool,
    /// How many colons follow the tag in the block, and whether one stands past it.
    colons: usize,
    colon_past: bool,
    /// The first field: the blanks before the name, the name, the blanks after it, and whether it is one of the four.
    left: &'a [u8],
    name: &'a [u8],
    right: &'a [u8],
    is_known: bool,
    /// What follows the fifth colon.
    data: &'a [u8],
}

impl<'a> Part<'a> {
    fn of(file: &'a [u8], block: &Block) -> Self {
        let text = &file[block.tag_end..block.end];
        let mut fields = text.splitn(6, |&byte| byte == b':');
        let field = fields.next().unwrap_or_default();
        let data = fields.nth(4).unwrap_or_default();
        let rest = field.trim_ascii_start();
        let name = rest.trim_ascii_end();
        Self {
            file_len: file.len(),
            place: block.line,
            before: &file[block.line..block.tag_end - TAG.len()],
            text,
            is_closed: text.ends_with(b";"),
            colons: text.iter().filter(|&&byte| byte == b':').count(),
            colon_past: file[block.end..].iter().any(|&byte| byte == b':'),
            left: &field[..field.len() - rest.len()],
            name,
            right: &rest[name.len()..],
            is_known: TYPES.iter().any(|(known, _)| *known == name),
            data,
        }
    }

    fn is_short(&self) -> bool {
        self.colons < 5
    }

    fn is_other(&self) -> bool {
        self.colons >= 5 && !self.is_known
    }

    fn is_accepted(&self) -> bool {
        self.colons >= 5 && self.is_known
    }

    fn is_of(&self, name: &[u8]) -> bool {
        self.is_accepted() && self.name == name
    }

    fn is_left(&self, blank: u8) -> bool {
        self.is_accepted() && self.left.contains(&blank)
    }

    fn is_right(&self, blank: u8) -> bool {
        self.is_accepted() && self.right.contains(&blank)
    }

    /// Whether the name is none of the four and goes with one of them like this.
    fn is_nearly(&self, like: impl Fn(&[u8], &[u8]) -> bool) -> bool {
        self.is_other() && TYPES.iter().any(|(known, _)| like(self.name, known))
    }
}

/// Where tags stand that start no block.
#[derive(Default)]
struct Tags {
    mid_line: bool,
    after_11: bool,
    after_13: bool,
    on_comment: bool,
    line_inside: bool,
    blanks_inside: bool,
    line_of_end: bool,
    after_own: bool,
    after_end: bool,
    after_tag: bool,
}

struct Facts<'a> {
    file: &'a [u8],
    parts: Vec<Part<'a>>,
    tags: Tags,
    ends_in_crlf: bool,
    header: bool,
    comment_between: bool,
    next_line: bool,
    other_capitals: bool,
    without_colon: bool,
}

impl<'a> Facts<'a> {
    fn of(file: &'a [u8]) -> Self {
        let blocks = sm::blocks(file);
        let mut facts = Self {
            file,
            parts: blocks.iter().map(|block| Part::of(file, block)).collect(),
            tags: Tags::default(),
            ends_in_crlf: true,
            header: false,
            comment_between: false,
            next_line: false,
            other_capitals: false,
            without_colon: false,
        };
        let mut line = 0;
        for text in file.split_inclusive(|&byte| byte == b'\n') {
            facts.ends_in_crlf &= text.ends_with(b"\r\n");
            facts.look_at_line(&blocks, line, text);
            line += text.len();
        }
        facts
    }

    fn is_accepted(&self) -> bool {
        self.parts.iter().any(Part::is_accepted)
    }

    /// Whether a block that passes one test comes after a block that passes another.
    fn is_after(&self, first: fn(&Part<'a>) -> bool, second: fn(&Part<'a>) -> bool) -> bool {
        let from = self.parts.iter().position(first);
        from.is_some_and(|from| self.parts[from..].iter().any(second))
    }

    fn look_at_line(&mut self, blocks: &[Block], line: usize, text: &[u8]) {
        // The blocks that begin before this line, and whether it begins inside the last of them.
        let before = blocks.partition_point(|block| block.line < line);
        let earlier = before.checked_sub(1).map(|last| blocks[last]);
        let inside = earlier.filter(|block| line < block.end);
        let own = blocks.get(before).filter(|block| block.line == line);
        let words = text.trim_ascii_start();
        if inside.is_none() && own.is_none() {
            let is_followed = before < blocks.len();
            self.header |= before == 0 && is_followed && words.starts_with(b"#");
            self.comment_between |= before > 0 && is_followed && words.starts_with(b"//");
            self.without_colon |= words.starts_with(&TAG[..6]);
            let start = words.get(..TAG.len()).unwrap_or_default();
            self.other_capitals |= start.eq_ignore_ascii_case(TAG);
        }
        if let (Some(own), Some(earlier)) = (own, earlier) {
            let between = self.file.get(earlier.end..own.line).unwrap_or_default();
            self.next_line |= between.iter().filter(|&&byte| byte == b'\n').count() == 1;
        }
        for at in 0..text.len() {
            if text[at..].starts_with(TAG) {
                self.tags.note(text, at, line, inside, own);
            }
        }
    }
}

impl Tags {
    /// Takes in the tag at a place in a line, which may begin inside a block or be a block's own.
    fn note(
        &mut self,
        text: &[u8],
        at: usize,
        line: usize,
        inside: Option<Block>,
        own: Option<&Block>,
    ) {
        let before = &text[..at];
        let is_first = before.trim_ascii_start().is_empty();
        self.after_tag |= before.ends_with(TAG);
        match (inside, own) {
            (Some(block), _) if block.end <= line + at => self.after_end = true,
            (Some(block), _) => {
                self.line_inside |= at == 0;
                self.blanks_inside |= is_first && at > 0;
                self.line_of_end |= is_first && block.end < line + text.len();
            }
            (None, Some(block)) => self.after_own |= block.end <= line + at,
            (None, None) => {
                self.mid_line = true;
                self.after_13 |= before.ends_with(b"\r");
                self.on_comment |= before.starts_with(b"//");
                self.after_11 |= before == b"\x0b";
            }
        }
    }
}

/// How many files of each kind were met.
pub struct FileKinds {
    files: [u64; KINDS.len()],
    blocks: [u64; BLOCK_KINDS.len()],
}

impl FileKinds {
    pub fn new() -> Self {
        Self {
            files: [0; KINDS.len()],
            blocks: [0; BLOCK_KINDS.len()],
        }
    }

    pub fn note(&mut self, file: &[u8]) {
        let facts = Facts::of(file);
        for (count, (_, test)) in self.files.iter_mut().zip(KINDS) {
            *count += u64::from(test(&facts));
        }
        for (count, (_, test)) in self.blocks.iter_mut().zip(BLOCK_KINDS) {
            *count += u64::from(facts.parts.iter().any(test));
        }
    }

    /// The kinds that were not met.
    pub fn missing(&self) -> impl Iterator<Item = &'static str> {
        let files = self.files.iter().zip(KINDS.map(|(name, _)| name));
        let blocks = self.blocks.iter().zip(BLOCK_KINDS.map(|(name, _)| name));
        files
            .chain(blocks)
            .filter(|(count, _)| **count == 0)
            .map(|(_, name)| name)
    }
}
