//! Text from outside, made harmless: a map's names and texts, and names of files.

use std::fmt;
use std::path::Path;

/// A stranger's text for a person. Control characters, which a terminal would obey, and characters
/// that are not seen or that turn the line round are shown as Rust writes them (`\n`, `\u{1b}`);
/// a backslash is doubled, so that nothing else looks like one of these.
pub struct Plain<'a>(pub &'a str);

impl fmt::Display for Plain<'_> {
    fn fmt(&self, f: &mut fmt::Formatter<'_>) -> fmt::Result {
        for c in self.0.chars() {
            match c {
                ' '..='[' | ']'..='~' => write!(f, "{c}")?,
                _ => write!(f, "{}", c.escape_debug())?,
            }
        }
        Ok(())
    }
}

/// A stranger's text, made harmless.
pub fn plain(text: &str) -> String {
    Plain(text).to_string()
}

/// Bytes as text: those that are not UTF-8 become the replacement character.
pub fn plain_bytes(bytes: &[u8]) -> String {
    plain(&String::from_utf8_lossy(bytes))
}

/// The name of a file for a person.
pub fn path_text(path: &Path) -> String {
    plain(&path.to_string_lossy())
}

/// Our own text of several lines with names from outside in it: its line breaks and backslashes stay.
pub fn plain_lines(text: &str) -> String {
    text.split_inclusive(['\n', '\\'])
        .map(|part| match part.strip_suffix(['\n', '\\']) {
            Some(line) => plain(line) + &part[line.len()..],
            None => plain(part),
        })
        .collect()
}

/// A text cut to a number of characters.
pub fn cut(text: &str, most: usize) -> String {
    if text.chars().count() <= most {
        return text.to_string();
    }
    text.chars().take(most.saturating_sub(2)).chain("..".chars()).collect()
}

/// JSON with every character outside ASCII, and DEL, as `\uXXXX`. Such characters stand only within
/// the strings of a JSON text, where that is the same string.
pub fn ascii(json: &str) -> String {
    let mut shown = String::with_capacity(json.len());
    for c in json.chars() {
        match c {
            '\n' | ' '..='~' => shown.push(c),
            _ => c.encode_utf16(&mut [0; 2]).iter().for_each(|unit| {
                shown.push_str(&format!("\\u{unit:04x}"));
            }),
        }
    }
    shown
}

#[cfg(test)]
mod tests {
    use super::*;

    #[test]
    fn controls_are_shown_as_their_numbers() {
        assert_eq!(plain("a\u{1b}[31m\u{9b}\u{7f}\r\n"), "a\\u{1b}[31m\\u{9b}\\u{7f}\\r\\n");
        assert_eq!(plain("\u{202e}\u{200b}\u{2028}"), "\\u{202e}\\u{200b}\\u{2028}");
        assert_eq!(plain("a\\u{1b}é"), "a\\\\u{1b}é");
        assert_eq!(plain_bytes(&[0x41, 0xff, 0x00]), "A\u{fffd}\\0");
    }

    #[test]
    fn json_is_ascii_and_the_same_text() {
        let text = "a\u{1b}\u{9b}\u{7f}é\u{1f600}\"\\";
        let json = ascii(&serde_json::to_string(text).unwrap());
        assert!(json.bytes().all(|byte| (0x20..0x7f).contains(&byte)));
        assert_eq!(serde_json::from_str::<String>(&json).unwrap(), text);
    }

    #[test]
    fn lines_stay() {
        assert_eq!(plain_lines("a\\b\n\n\u{1b}\tc\n"), "a\\b\n\n\\u{1b}\\tc\n");
    }

    #[test]
    fn long_texts_are_cut() {
        assert_eq!(cut("abcdef", 6), "abcdef");
        assert_eq!(cut("abcdefg", 6), "abcd..");
    }
}
