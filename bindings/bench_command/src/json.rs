//! Strings as JSON has them.

use std::fmt::Write;

/// A text in quotation marks.
pub fn quoted(text: &str) -> String {
    let mut quoted = String::from("\"");
    for letter in text.chars() {
        match letter {
            '"' => quoted.push_str("\\\""),
            '\\' => quoted.push_str("\\\\"),
            '\n' => quoted.push_str("\\n"),
            '\r' => quoted.push_str("\\r"),
            '\t' => quoted.push_str("\\t"),
            // Writing to a String does not fail.
            letter if letter < ' ' => drop(write!(quoted, "\\u{:04x}", u32::from(letter))),
            letter => quoted.push(letter),
        }
    }
    quoted.push('"');
    quoted
}

/// What follows a JSON value at the start of a text, if there is one there: a check for the tests.
#[cfg(test)]
pub fn after_value(text: &str) -> Option<&str> {
    let first = text.chars().next()?;
    match first {
        '"' => after_string(text),
        '[' => after_list(&text[1..], "]", after_value),
        '{' => after_list(&text[1..], "}", |member| {
            after_value(after_string(member)?.strip_prefix(':')?)
        }),
        '0'..='9' => after_number(text),
        _ => ["null", "true", "false"]
            .iter()
            .find_map(|word| text.strip_prefix(word)),
    }
}

/// What follows a number, of which a fraction may be a part.
#[cfg(test)]
fn after_number(text: &str) -> Option<&str> {
    let digits = |text: &str| text.bytes().take_while(u8::is_ascii_digit).count();
    let rest = &text[digits(text)..];
    match rest.strip_prefix('.') {
        None => Some(rest),
        Some(fraction) if digits(fraction) == 0 => None,
        Some(fraction) => Some(&fraction[digits(fraction)..]),
    }
}

/// What follows a list of members with `,` between them, through its end.
#[cfg(test)]
fn after_list<'a>(
    text: &'a str,
    end: &str,
    after_member: impl Fn(&'a str) -> Option<&'a str>,
) -> Option<&'a str> {
    if let Some(rest) = text.strip_prefix(end) {
        return Some(rest);
    }
    let mut rest = after_member(text)?;
    while let Some(next) = rest.strip_prefix(',') {
        rest = after_member(next)?;
    }
    rest.strip_prefix(end)
}

/// What follows a string; its letters are whole and none is one that must be escaped.
#[cfg(test)]
fn after_string(text: &str) -> Option<&str> {
    let mut letters = text.strip_prefix('"')?.chars();
    loop {
        match letters.next()? {
            '"' => return Some(letters.as_str()),
            '\\' => match letters.next()? {
                '"' | '\\' | '/' | 'b' | 'f' | 'n' | 'r' | 't' => {}
                'u' => {
                    let digits = letters.as_str().get(..4)?;
                    u32::from_str_radix(digits, 16).ok()?;
                    letters = letters.as_str()[4..].chars();
                }
                _ => return None,
            },
            letter if letter < ' ' => return None,
            _ => {}
        }
    }
}

#[cfg(test)]
mod tests {
    use super::*;

    #[test]
    fn the_check_knows_values_from_others() {
        for text in [
            "[]",
            "{}",
            "[1,[null,true]]",
            "[0.5,12.25]",
            "{\"a\":{\"b\":\"\\u0001\"}}",
        ] {
            assert_eq!(after_value(text), Some(""), "{text}");
        }
        for text in [
            "", "[1", "[1.]", "[1,]", "{\"a\"}", "{a:1}", "\"\n\"", "\"\\x\"", "nul",
        ] {
            assert_eq!(after_value(text), None, "{text}");
        }
    }

    #[test]
    fn only_what_json_asks_for_is_escaped() {
        assert_eq!(quoted("a/b é"), "\"a/b é\"");
        assert_eq!(
            quoted("\"\\\n\r\t\u{1}\u{1f}\u{7f}"),
            "\"\\\"\\\\\\n\\r\\t\\u0001\\u001f\u{7f}\""
        );
        let all: String = (0..300).filter_map(char::from_u32).collect();
        assert_eq!(after_value(&quoted(&all)), Some(""));
    }
}
