//! Each row of `conformance/values/p256.rows`, by the library and by libcrypto.
use weoldrin::{p256, SignatureCheck};

const ROWS: &str = concat!(env!("CARGO_MANIFEST_DIR"), "/../../conformance/values/p256.rows");

// The bytes of a word of hex digits; `-` is no bytes.
fn bytes_of(word: &str) -> Vec<u8> {
    let digits = if word == "-" { "" } else { word };
    let pairs = (0..digits.len()).step_by(2).map(|at| &digits[at..at + 2]);
    pairs.map(|it| u8::from_str_radix(it, 16).expect("two hex digits")).collect()
}

// The text of a key or of a signature.
fn text_of(bytes: &[u8]) -> String {
    const DIGITS: &[u8] = b"ABCDEFGHIJKLMNOPQRSTUVWXYZabcdefghijklmnopqrstuvwxyz0123456789+/";
    let mut text = String::from("ecdsa-p256:");
    for part in bytes.chunks(3) {
        let number = part.iter().chain(&[0; 2]).take(3).fold(0, |sum, &it| sum << 8 | usize::from(it));
        for place in 0..4 {
            let digit = DIGITS[number >> (18 - 6 * place) & 63];
            text.push(if place <= part.len() { digit.into() } else { '=' });
        }
    }
    text
}

fn play(verify: impl Fn(&SignatureCheck) -> bool) {
    let (mut right, mut refused) = (0, 0);
    let file = std::fs::read_to_string(ROWS).expect("the rows");
    for (place, line) in file.lines().enumerate().filter(|(_, it)| !it.is_empty() && !it.starts_with('#')) {
        let words: Vec<&str> = line.split(' ').collect();
        let (key, message, signature, wanted) = match words[..] {
            ["p256-verify", key, message, signature, "=", wanted] => (key, message, signature, wanted == "yes"),
            _ => panic!("line {}: a strange row", place + 1),
        };
        let (key, signature) = (text_of(&bytes_of(key)), text_of(&bytes_of(signature)));
        let seen = verify(&SignatureCheck::new(&key, &bytes_of(message), &signature));
        assert_eq!(seen, wanted, "line {}: {}", place + 1, line);
        *(if wanted { &mut right } else { &mut refused }) += 1;
    }
    assert!(right > 600 && refused > 1600, "{right} rows are right, {refused} refused");
}

/// No text of a row is none that can be read.
#[test]
fn rows_by_the_library() {
    play(|it| weoldrin::verify(it.key(), it.message(), it.signature()).expect("an answer"));
}

#[test]
fn rows_as_questions() {
    play(p256::verify);
}

#[cfg(feature = "openssl")]
#[test]
fn rows_by_openssl() {
    play(p256::verify_by_openssl);
}
