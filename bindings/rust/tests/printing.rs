//! What strangers wrote, as it is printed.
#[cfg(feature = "openssl")]
use {
    std::time::SystemTime,
    weoldrin::p256::{key_id, sha256_text},
    weoldrin::records::{Entry, NewRecord},
    weoldrin::{Error, PackageLog, SignatureCheck},
};

use weoldrin::printable;

#[cfg(feature = "openssl")]
const KEY: &str = "toy:YQ==";

/// Control characters, separators, marks of direction and of the order of bytes, and what is no character, are written by their
/// numbers, a backslash twice, and all else as it is.
#[test]
fn each_character() {
    let is_escaped = |it: u32| {
        matches!(it, 0..=0x1f | 0x7f..=0x9f | 0x61c | 0x200e | 0x200f | 0x2028..=0x202e | 0x2066..=0x2069 | 0xfeff)
            || matches!(it, 0xfdd0..=0xfdef)
            || it % 0x1_0000 >= 0xfffe
    };
    for it in char::from_u32(0).into_iter().chain('\u{1}'..=char::MAX) {
        let number = u32::from(it);
        let wanted = match it {
            '\\' => "\\\\".to_owned(),
            _ if is_escaped(number) => format!("\\u{{{number:x}}}"),
            _ => it.to_string(),
        };
        assert_eq!(printable(&it.to_string()).to_string(), wanted);
    }
    let text = "a\u{1b}[2J\nb\u{202e}c\\u{a}\u{9b}Größe \u{1f511}";
    assert_eq!(printable(text).to_string(), r"a\u{1b}[2J\u{a}b\u{202e}c\\u{a}\u{9b}Größe 🔑");
}

/// A key id that forges lines is in one line of the error, and as it is in its sentence.
#[cfg(feature = "openssl")]
#[test]
fn errors() -> Result<(), Error> {
    let stranger = "x\u{1b}[1A\r/srv/other: ok 9 sha256:00\nof\u{2028}\u{2066}\\\u{85}";
    let envelope = |prev, key_id: &str, entry| {
        let record = NewRecord { prev, version: 1, timestamp: SystemTime::UNIX_EPOCH, entries: vec![entry] };
        record.signed::<Error>(key_id, |_| Ok(KEY.to_owned()))
    };
    let mut log = PackageLog::new()?;
    log.append(&envelope(None, &key_id(KEY), Entry::init(KEY))?, |_| true)?;
    let release = Entry::release("1.0.0", &sha256_text(b""));
    let refused = log.append(&envelope(log.head()?, stranger, release)?, |_| true).expect_err("a refusal");
    let reason = refused.reason().expect("a reason");
    assert_eq!(reason.name, "UnauthorizedAction", "{refused}");
    assert!(reason.sentence.contains(stranger), "{refused}");
    let shown = r"x\u{1b}[1A\u{d}/srv/other: ok 9 sha256:00\u{a}of\u{2028}\u{2066}\\\u{85}";
    for text in [refused.to_string(), reason.to_string()] {
        assert!(text.contains(shown) && !text.chars().any(char::is_control), "{text}");
    }
    // What is printed for the one who writes a program has none either.
    for text in [format!("{refused:?}"), format!("{:?}", SignatureCheck::new(stranger, b"", stranger))] {
        assert!(!text.chars().any(|it| it.is_control() || matches!(it, '\u{2028}' | '\u{2066}')), "{text}");
    }
    Ok(())
}
