//! Texts of strangers, as they are printed.
use std::fmt::{self, Write};

/// A text as it is printed: `\u{1b}` in place of a control character, a separator of lines, a mark of direction or a number that is no
/// character, and two backslashes for one. Two texts that are printed alike are one.
///
/// ```
/// let version = "1.0.0\nok 9 \u{1b}[2J";
/// assert_eq!(weoldrin::printable(version).to_string(), r"1.0.0\u{a}ok 9 \u{1b}[2J");
/// ```
pub fn printable(text: &str) -> Printable<'_> {
    Printable(text)
}

/// A text of a stranger, whose `Display` is what can be printed of it: one line, with no control character. See [`printable`].
#[derive(Clone, Copy, Debug, PartialEq, Eq)]
pub struct Printable<'a>(&'a str);

impl fmt::Display for Printable<'_> {
    fn fmt(&self, f: &mut fmt::Formatter<'_>) -> fmt::Result {
        self.0.chars().try_for_each(|it| match it {
            '\\' => f.write_str("\\\\"),
            it if is_hidden(it) => write!(f, "\\u{{{:x}}}", u32::from(it)),
            it => f.write_char(it),
        })
    }
}

// Whether a terminal, or a reader of lines, may take the character for more than a sign.
fn is_hidden(it: char) -> bool {
    let is_separator = matches!(it, '\u{2028}' | '\u{2029}');
    // Of direction, and of the order of bytes.
    let is_mark = matches!(
        it,
        '\u{61c}' | '\u{200e}' | '\u{200f}' | '\u{202a}'..='\u{202e}' | '\u{2066}'..='\u{2069}' | '\u{feff}'
    );
    let is_none = matches!(it, '\u{fdd0}'..='\u{fdef}') || u32::from(it) & 0xfffe == 0xfffe;
    it.is_control() || is_separator || is_mark || is_none
}
