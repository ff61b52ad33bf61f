//! Texts of keys and of signatures, changed digit by digit: the library and libcrypto answer alike.
#![cfg(feature = "openssl")]
mod publishing;

use std::collections::hash_map::RandomState;
use std::hash::{BuildHasher, Hasher};
use weoldrin::{p256, SignatureCheck};

const DIGITS: &str = "ABCDEFGHIJKLMNOPQRSTUVWXYZabcdefghijklmnopqrstuvwxyz0123456789+/";

// What strangers write in the place of a digit, before it or behind it.
const PIECES: [&str; 28] = [
    "=",
    "==",
    "====",
    "A",
    "z",
    "9",
    "+",
    "/",
    "-",
    "_",
    ":",
    ".",
    "\"",
    "\\",
    " ",
    "\t",
    "\n",
    "\r\n",
    "\u{b}",
    "\0",
    "\u{7f}",
    "\u{85}",
    "\u{a0}",
    "\u{661}",
    "\u{2028}",
    "\u{ff21}",
    "\u{1f511}",
    "ecdsa-p256:",
];

// A generator of numbers (xorshift64*), whose seed is WARG_P256_SEED where the environment has it.
struct Numbers(u64);

impl Numbers {
    fn new() -> Self {
        let named = std::env::var("WARG_P256_SEED").ok().and_then(|it| it.parse().ok());
        let seed = named.unwrap_or_else(|| RandomState::new().build_hasher().finish());
        println!("seed {seed}");
        Numbers(seed | 1)
    }

    fn below(&mut self, bound: usize) -> usize {
        self.0 ^= self.0 >> 12;
        self.0 ^= self.0 << 25;
        self.0 ^= self.0 >> 27;
        (self.0.wrapping_mul(0x2545_f491_4f6c_dd1d) >> 33) as usize % bound
    }

    // A place between two characters.
    fn place(&mut self, text: &[char]) -> usize {
        self.below(text.len() + 1)
    }

    // A text with something put in, taken away, doubled, or changed in case.
    fn changed(&mut self, text: &str) -> String {
        let text: Vec<char> = text.chars().collect();
        let (one, other) = (self.place(&text), self.place(&text));
        let (at, to) = (one.min(other), one.max(other));
        let next = (at + 1).min(text.len());
        let piece: Vec<char> = PIECES[self.below(PIECES.len())].chars().collect();
        let swap = |it: &char| if it.is_ascii_lowercase() { it.to_ascii_uppercase() } else { it.to_ascii_lowercase() };
        let parts: [Vec<char>; 3] = match self.below(7) {
            0 => [text[..at].to_vec(), piece, text[at..].to_vec()],
            1 => [text[..at].to_vec(), piece, text[next..].to_vec()],
            2 => [text[..at].to_vec(), vec![], text[next..].to_vec()],
            3 => [text[..at].to_vec(), text[at..to].iter().map(swap).collect(), text[to..].to_vec()],
            4 => [text[..to].to_vec(), vec![], text[at..].to_vec()],
            5 => [text, piece, vec![]],
            _ => [text[..at].to_vec(), vec![], text[to..].to_vec()],
        };
        parts.iter().flatten().collect()
    }
}

fn alike(key: &str, message: &[u8], signature: &str) -> bool {
    let question = SignatureCheck::new(key, message, signature);
    let answer = p256::verify(&question);
    assert_eq!(p256::verify_by_openssl(&question), answer, "{question:?}");
    answer
}

#[test]
fn changed_texts() {
    let mut some = Numbers::new();
    let signer = publishing::key();
    let (key, signature) = (signer.public_key(), signer.sign(b"what is signed").expect("a signature"));
    assert!(alike(key, b"what is signed", &signature));
    for _ in 0..4000 {
        let (mut other_key, mut other_signature) = (key.to_owned(), signature.clone());
        for _ in 0..=some.below(3) {
            if some.below(2) == 0 {
                other_key = some.changed(&other_key);
            } else {
                other_signature = some.changed(&other_signature);
            }
        }
        let is_changed = other_key != key || other_signature != signature;
        assert!(!(alike(&other_key, b"what is signed", &other_signature) && is_changed), "{other_key} {other_signature}");
    }
}

/// There is one text of some bytes: bits behind the last byte are none, nor is more padding, or less.
#[test]
fn other_texts_of_the_bytes() {
    let signer = publishing::key();
    for _ in 0..8 {
        let signature = signer.sign(b"sample").expect("a signature");
        let body = signature.trim_end_matches('=');
        for digit in DIGITS.chars() {
            for padding in ["", "=", "==", "===", "===="] {
                let other = format!("{}{digit}{padding}", &body[..body.len() - 1]);
                let answer = alike(signer.public_key(), b"sample", &other);
                assert_eq!(answer, other == signature, "{other}");
            }
        }
    }
}

#[test]
fn each_row_with_a_change() {
    const ROWS: &str = concat!(env!("CARGO_MANIFEST_DIR"), "/../../conformance/values/p256.rows");
    let mut some = Numbers::new();
    let file = std::fs::read_to_string(ROWS).expect("the rows");
    let mut played = 0;
    for line in file.lines().filter(|it| it.starts_with("p256-verify ")) {
        let words: Vec<Vec<u8>> = line.split(' ').skip(1).take(3).map(bytes_of).collect();
        let (key, signature) = (text_of(&words[0]), text_of(&words[2]));
        for piece in ["=", " ", "\n", "\u{661}", "\0"] {
            for (text, is_key) in [(&key, true), (&signature, false)] {
                let mut other = text.clone();
                other.insert_str(some.below(text.len() + 1), piece);
                let (key, signature) = if is_key { (&other, &signature) } else { (&key, &other) };
                assert!(!alike(key, &words[1], signature), "{other:?}");
                played += 1;
            }
        }
    }
    assert!(played > 20_000, "{played}");
}

// The bytes of a word of hex digits; `-` is no bytes.
fn bytes_of(word: &str) -> Vec<u8> {
    let digits = if word == "-" { "" } else { word };
    (0..digits.len()).step_by(2).map(|at| u8::from_str_radix(&digits[at..at + 2], 16).expect("hex")).collect()
}

// The text of a key or of a signature.
fn text_of(bytes: &[u8]) -> String {
    let mut text = String::from("ecdsa-p256:");
    for part in bytes.chunks(3) {
        let number = part.iter().chain(&[0; 2]).take(3).fold(0, |sum, &it| sum << 8 | usize::from(it));
        for place in 0..4 {
            let digit = DIGITS.as_bytes()[number >> (18 - 6 * place) & 63];
            text.push(if place <= part.len() { digit.into() } else { '=' });
        }
    }
    text
}
