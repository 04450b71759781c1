//! Names and paths as text on one line.

use std::ffi::{OsStr, OsString};
use std::os::unix::ffi::{OsStrExt, OsStringExt};
use std::path::Path;

/// Characters that change how the text around them is shown, or that don't show: the soft hyphen, marks and overrides of
/// direction, joiners, fillers and other invisible characters, separators of lines and paragraphs, controls of hieroglyphs,
/// shorthand and music, tags.
const INVISIBLE: [(char, char); 19] = [
    ('\u{ad}', '\u{ad}'),
    ('\u{34f}', '\u{34f}'),
    ('\u{61c}', '\u{61c}'),
    ('\u{115f}', '\u{1160}'),
    ('\u{17b4}', '\u{17b5}'),
    ('\u{180b}', '\u{180f}'),
    ('\u{200b}', '\u{200f}'),
    ('\u{2028}', '\u{202e}'),
    ('\u{2060}', '\u{206f}'),
    ('\u{2800}', '\u{2800}'),
    ('\u{3164}', '\u{3164}'),
    ('\u{fe00}', '\u{fe0f}'),
    ('\u{feff}', '\u{feff}'),
    ('\u{ffa0}', '\u{ffa0}'),
    ('\u{fff0}', '\u{fffb}'),
    ('\u{13430}', '\u{13455}'),
    ('\u{1bca0}', '\u{1bca3}'),
    ('\u{1d173}', '\u{1d17a}'),
    ('\u{e0000}', '\u{e0fff}'),
];

/// A name as text that shows what it is: control characters, those of `INVISIBLE`, backslashes and bytes that aren't UTF-8
/// become `\xHH`.
pub fn escaped(name: &OsStr) -> String {
    let digits = |bytes: &[u8]| bytes.iter().map(|byte| format!("\\x{byte:02x}")).collect::<String>();
    let mut text = String::new();
    for chunk in name.as_bytes().utf8_chunks() {
        for character in chunk.valid().chars() {
            match is_escaped(character) {
                true => text += &digits(character.encode_utf8(&mut [0; 4]).as_bytes()),
                false => text.push(character),
            }
        }
        text += &digits(chunk.invalid());
    }
    text
}

fn is_escaped(character: char) -> bool {
    let between = |(first, last): &(char, char)| (*first..=*last).contains(&character);
    character == '\\' || character.is_control() || INVISIBLE.iter().any(between)
}

/// The name that such text stands for, if it does.
pub fn unescaped(text: &str) -> Option<OsString> {
    let mut parts = text.split('\\');
    let mut bytes = parts.next()?.as_bytes().to_vec();
    for part in parts {
        let digits = part.strip_prefix('x')?.get(..2)?;
        bytes.push(u8::from_str_radix(digits, 16).ok()?);
        bytes.extend_from_slice(&part.as_bytes()[3..]);
    }
    Some(OsString::from_vec(bytes))
}

/// A path, whatever characters it has.
pub fn shown(path: &Path) -> String {
    escaped(path.as_os_str())
}

#[cfg(test)]
mod tests {
    use super::*;

    #[test]
    fn names_come_back_from_text() {
        for name in ["a", "", "a b", "a\tb\n", "\\", "\\x41", "ä", "\u{7f}", "\u{85}", "\u{202e}fdp.exe", "\u{e0041}"]
        {
            assert_eq!(unescaped(&escaped(OsStr::new(name))).as_deref(), Some(OsStr::new(name)));
        }
        let bytes: Vec<u8> = (1..=255).collect();
        let text = escaped(OsStr::from_bytes(&bytes));
        assert!(!text.chars().any(char::is_control));
        assert_eq!(unescaped(&text), Some(OsString::from_vec(bytes)));
    }

    #[test]
    fn what_does_not_show_is_escaped() {
        for character in "\u{202a}\u{202e}\u{2066}\u{2069}\u{200e}\u{200f}\u{61c}\u{200b}\u{2028}\u{feff}\u{1b}".chars()
        {
            let text = escaped(OsStr::new(&character.to_string()));
            assert!(text.starts_with("\\x") && text.is_ascii(), "{text}");
        }
        assert_eq!(escaped(OsStr::new("a\u{202e}b")), "a\\xe2\\x80\\xaeb");
        assert_eq!(escaped(OsStr::new("Zürich 日本 €")), "Zürich 日本 €");
    }

    #[test]
    fn other_text_is_no_name() {
        for text in ["\\", "\\x", "\\x4", "\\y41", "\\xgg", "a\\xä"] {
            assert_eq!(unescaped(text), None, "{text}");
        }
    }
}
