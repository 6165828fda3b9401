//! SM files that one sentence of the specification decides each: with that sentence left out an answer is another.
//! `tests/vectors/README.md` lists them with their sentences, `tests/vectors/mutants.sh` leaves the sentences out.

/// A file; in its text `|` stands for byte 10.
pub struct Deciding {
    pub name: &'static str,
    pub text: &'static str,
}

impl Deciding {
    #[must_use]
    pub fn bytes(&self) -> Vec<u8> {
        self.text.replace('|', "\n").into_bytes()
    }
}

const fn file(name: &'static str, text: &'static str) -> Deciding {
    Deciding { name, text }
}

pub const FILES: &[Deciding] = &[
    // Lines and tags
    file("no byte", ""),
    file("a tag", "#NOTES:dance-single:a:b:1:0:1000|;"),
    file("no tag", "#TITLE:a;|1000|;"),
    file(
        "tag on the second line",
        "#TITLE:a;|#NOTES:dance-single:a:b:1:0:1000|;",
    ),
    file(
        "byte 13 cuts no line",
        "a\r#NOTES:dance-single:a:b:1:0:1000|;",
    ),
    file("tag within a line", "a #NOTES:dance-single:a:b:1:0:1000|;"),
    file(
        "blank 9 before the tag",
        "\t#NOTES:dance-single:a:b:1:0:1000|;",
    ),
    file(
        "blank 10 before the tag",
        "|#NOTES:dance-single:a:b:1:0:1000|;",
    ),
    file(
        "blank 12 before the tag",
        "\x0C#NOTES:dance-single:a:b:1:0:1000|;",
    ),
    file(
        "blank 13 before the tag",
        "\r#NOTES:dance-single:a:b:1:0:1000|;",
    ),
    file(
        "blank 32 before the tag",
        " #NOTES:dance-single:a:b:1:0:1000|;",
    ),
    file(
        "byte 11 before the tag",
        "\x0B#NOTES:dance-single:a:b:1:0:1000|;",
    ),
    file(
        "several blanks before the tag",
        "a|\r \t\x0C \t  #NOTES:dance-single:a:b:1:0:1000|;",
    ),
    file(
        "slashes before the tag",
        "//#NOTES:dance-single:a:b:1:0:1000|;",
    ),
    file("tag in small letters", "#notes:dance-single:a:b:1:0:1000|;"),
    file(
        "tag without its last letter",
        "#NOTE:dance-single:a:b:1:0:1000|;",
    ),
    file(
        "tag with a letter more",
        "#NOTES2:dance-single:a:b:1:0:1000|;",
    ),
    file(
        "tag with a blank in it",
        "#NOTES :dance-single:a:b:1:0:1000|;",
    ),
    file(
        "tag without its colon",
        "#NOTES;dance-single:a:b:1:0:1000|;",
    ),
    file("tag over two lines", "#NOT|ES:dance-single:a:b:1:0:1000|;"),
    file("tag cut off by the end", "a;|#NOTES"),
    file("tag at the end", "a;|#NOTES:"),
    // Where a block ends
    file(
        "first semicolon",
        "#NOTES:dance-single:a:b:1:0:1000|;|0100|;|",
    ),
    file(
        "semicolon within a line",
        "#NOTES:dance-single:a:b:1:0:10;00|0100|;|",
    ),
    file(
        "semicolon after slashes",
        "#NOTES:dance-single:a:b:1:0:1000 // a;b|0100|;|",
    ),
    file(
        "semicolon before the tag",
        "#TITLE:;|  #NOTES:dance-single:a:b:1:0:1000|;|",
    ),
    file("end of the text", "#NOTES:dance-single:a:b:1:0:1000|0100"),
    file(
        "end of the text after byte 10",
        "#NOTES:dance-single:a:b:1:0:1000|0100|",
    ),
    file(
        "tag within a block",
        "#NOTES:dance-single:a:b:1:0:1000|#NOTES:pump-single:a:b:1:0:10000|;|",
    ),
    file(
        "tag within a block without an end",
        "#NOTES:dance-single:a:b:1:0:1000|#NOTES:pump-single:a:b:1:0:10000|",
    ),
    file(
        "tag in the fields of a block",
        "#NOTES:dance-single:a:b|#NOTES:1:0:1000|;|",
    ),
    file("two tags on a line", "#NOTES:a;#NOTES:b"),
    file(
        "tag after a block on its last line",
        "#NOTES:dance-single:a:b:1:0:1000|;#NOTES:pump-single:a:b:1:0:10000|;|",
    ),
    file(
        "tag and blanks after a block on its last line",
        "#NOTES:dance-single:a:b:1:0:1000|; \t#NOTES:pump-single:a:b:1:0:10000|;|",
    ),
    file(
        "tag on a block's last line",
        "#NOTES:dance-single:a:b:1:0:1000|#NOTES:;pump-single:a:b:1:0:10000|;|",
    ),
    file(
        "tag on the line after a block",
        "#NOTES:dance-single:a:b:1:0:1000;|#NOTES:pump-single:a:b:1:0:10000|;|",
    ),
    file(
        "tag after a block and other lines",
        "#NOTES:dance-single:a:b:1:0:1000|;|//|| |#NOTES:pump-single:a:b:1:0:10000|;|",
    ),
    // Fields
    file("five colons", "#NOTES:dance-single:::::1000|;"),
    file("four colons", "#NOTES:dance-single::::1000|;"),
    file("six colons", "#NOTES:dance-single:a:b:1:0:10:00|;"),
    file("no colon", "#NOTES:dance-single;"),
    file(
        "fifth colon after the block",
        "#NOTES:dance-single:a:b:1:0;1000:0100|;",
    ),
    file(
        "fifth colon in the next block",
        "#NOTES:dance-single:a:b:1;|#NOTES:pump-single:a:b:1:0:10000|;",
    ),
    file(
        "semicolon in a field",
        "#NOTES:dance-single:a;b:c:1:0:1000|;",
    ),
    file(
        "semicolon in the type",
        "#NOTES:dance-single;:a:b:1:0:1000|;",
    ),
    file(
        "fields over lines",
        "#NOTES:|     dance-single:|     a:|     b:|     1:|     0,0,0,0,0:|1000|;",
    ),
    file(
        "colons after slashes",
        "#NOTES:dance-single: // a:b|c:1:0:1000|;",
    ),
    file("byte 0 in a field", "#NOTES:dance-single:\0:b:1:0:1000|;"),
    // Types
    file("dance-single", "#NOTES:dance-single:a:b:1:0:1000|;"),
    file("pump-single", "#NOTES:pump-single:a:b:1:0:10000|;"),
    file("dance-solo", "#NOTES:dance-solo:a:b:1:0:100000|;"),
    file("dance-double", "#NOTES:dance-double:a:b:1:0:10000000|;"),
    file("pump-double", "#NOTES:pump-double:a:b:1:0:1000000000|;"),
    file(
        "blank 9 before the type",
        "#NOTES:\tpump-single:a:b:1:0:10000|;",
    ),
    file(
        "blank 9 after the type",
        "#NOTES:pump-single\t:a:b:1:0:10000|;",
    ),
    file(
        "blank 10 before the type",
        "#NOTES:|pump-single:a:b:1:0:10000|;",
    ),
    file(
        "blank 10 after the type",
        "#NOTES:pump-single|:a:b:1:0:10000|;",
    ),
    file(
        "blank 12 before the type",
        "#NOTES:\x0Cpump-single:a:b:1:0:10000|;",
    ),
    file(
        "blank 12 after the type",
        "#NOTES:pump-single\x0C:a:b:1:0:10000|;",
    ),
    file(
        "blank 13 before the type",
        "#NOTES:\rpump-single:a:b:1:0:10000|;",
    ),
    file(
        "blank 13 after the type",
        "#NOTES:pump-single\r:a:b:1:0:10000|;",
    ),
    file(
        "blank 32 before the type",
        "#NOTES: pump-single:a:b:1:0:10000|;",
    ),
    file(
        "blank 32 after the type",
        "#NOTES:pump-single :a:b:1:0:10000|;",
    ),
    file(
        "byte 11 before the type",
        "#NOTES:\x0Bdance-single:a:b:1:0:1000|;",
    ),
    file(
        "byte 11 after the type",
        "#NOTES:dance-single\x0B:a:b:1:0:1000|;",
    ),
    file(
        "several blanks around the type",
        "#NOTES: |\t\r| \x0C dance-double \t|\r  |  :a:b:1:0:10000000|;",
    ),
    file(
        "blank within the type",
        "#NOTES:dance- single:a:b:1:0:1000|;",
    ),
    file("type of no byte", "#NOTES::a:b:1:0:1000|;"),
    file("type of blanks", "#NOTES: |\r\t :a:b:1:0:1000|;"),
    file("type in capitals", "#NOTES:DANCE-SINGLE:a:b:1:0:1000|;"),
    file(
        "type with a byte more",
        "#NOTES:dance-singles:a:b:1:0:1000|;",
    ),
    file(
        "type with a byte before it",
        "#NOTES:xpump-double:a:b:1:0:1000000000|;",
    ),
    file("type with a byte less", "#NOTES:dance-singl:a:b:1:0:1000|;"),
    file(
        "first byte of dance-single",
        "#NOTES:lance-single:a:b:1:0:1000|;",
    ),
    file(
        "last byte of dance-single",
        "#NOTES:dance-singlE:a:b:1:0:1000|;",
    ),
    file(
        "last byte of pump-single",
        "#NOTES:pump-singl_:a:b:1:0:10000|;",
    ),
    file(
        "last byte of dance-solo",
        "#NOTES:dance-sol0:a:b:1:0:100000|;",
    ),
    file(
        "last byte of dance-double",
        "#NOTES:dance-doubl0:a:b:1:0:10000000|;",
    ),
    file(
        "last byte of pump-double",
        "#NOTES:pump-doublf:a:b:1:0:1000000000|;",
    ),
    file(
        "ninth byte of dance-double",
        "#NOTES:dance-doible:a:b:1:0:10000000|;",
    ),
    file("single and double", "#NOTES:dance-dingle:a:b:1:0:1000|;"),
    file("another type", "#NOTES:dance-couple:a:b:1:0:10000000|;"),
    file(
        "type in the second field",
        "#NOTES:a:dance-single:b:1:0:1000|;",
    ),
    // Answers
    file(
        "block 1",
        "#NOTES:dance-single:a:b:1:0:1000|;|#NOTES:pump-single:a:b:1:0:10000|;|#NOTES:dance-double:a:b:1:0:10000000|;|",
    ),
    file(
        "refused blocks are counted",
        "#NOTES:;|#NOTES:lights:a:b:1:0:1|;|#NOTES:pump-single:a:b:1:0:10000|;|",
    ),
    file("past the blocks", "#NOTES:dance-single:a:b:1:0:1000|;|"),
    file("past a refused block", "#NOTES:lights;|"),
    file("few colons and another type", "#NOTES:lights:a:b:1;|"),
    file(
        "data from the file's start",
        "#TITLE:a;|#BPMS:0=120;|#NOTES:dance-single:a:b:1:0:1000|;|#BGCHANGES:;|",
    ),
    file(
        "data with its semicolon",
        "#NOTES:dance-single:a:b:1:0:1000|;|",
    ),
    file("data that is a semicolon", "#NOTES:dance-single:a:b:1:0:;|"),
    file("no data", "#NOTES:dance-single:a:b:1:0:"),
    file(
        "data that begins with blanks",
        "#NOTES:dance-single:a:b:1:0:|  1000|;|",
    ),
];
