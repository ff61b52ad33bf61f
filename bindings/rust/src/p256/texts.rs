//! The texts of keys and signatures, read as strictly as the library reads them, before libcrypto sees them.
use std::os::raw::c_int;

const ALGORITHM: &str = "ecdsa-p256";

// A longer text is that of no key and of no signature.
const LONGEST: usize = 1024;

extern "C" {
    fn EVP_DecodeBlock(out: *mut u8, text: *const u8, n: c_int) -> c_int;
    fn EVP_EncodeBlock(out: *mut u8, bytes: *const u8, n: c_int) -> c_int;
}

// The text of a key or of a signature.
pub(super) fn text_of(bytes: &[u8]) -> String {
    let mut digits = vec![0; (bytes.len() + 2) / 3 * 4 + 1];
    // SAFETY: there is room for four digits of each three bytes, and for the zero byte behind them.
    let length = unsafe { EVP_EncodeBlock(digits.as_mut_ptr(), bytes.as_ptr(), bytes.len() as c_int) };
    digits.truncate(length.max(0) as usize);
    format!("{ALGORITHM}:{}", String::from_utf8_lossy(&digits))
}

// The bytes of a text, if it is their one text: without white space, more padding, or other bits behind the last byte.
fn bytes_of(text: &str) -> Option<Vec<u8>> {
    if text.len() > LONGEST {
        return None;
    }
    let digits = text.strip_prefix(ALGORITHM)?.strip_prefix(':')?.as_bytes();
    let mut bytes = vec![0; digits.len()];
    // SAFETY: each four digits say three bytes, so there is room for them.
    let length = unsafe { EVP_DecodeBlock(bytes.as_mut_ptr(), digits.as_ptr(), digits.len() as c_int) };
    // The padding counts as zeros there.
    let padding = digits.iter().rev().take(2).take_while(|&&digit| digit == b'=').count();
    bytes.truncate(usize::try_from(length).ok()?.checked_sub(padding)?);
    (text_of(&bytes) == text).then_some(bytes)
}

// The bytes of a key's text, if they have the form of a point of SEC 1, compressed or not.
pub(super) fn point_of(text: &str) -> Option<Vec<u8>> {
    bytes_of(text).filter(|it| matches!((it.len(), it.first()), (33, Some(2 | 3)) | (65, Some(4))))
}

// The bytes of a signature's text, if they are the DER (X.690) of a SEQUENCE of two INTEGERs of at most 256 bits that are not
// negative, with nothing behind it.
pub(super) fn signature_of(text: &str) -> Option<Vec<u8>> {
    bytes_of(text).filter(|it| match it.as_slice() {
        [0x30, length, numbers @ ..] if it.len() <= 72 && usize::from(*length) == numbers.len() => {
            matches!(behind_integer(numbers).and_then(behind_integer), Some([]))
        }
        _ => false,
    })
}

// What stands behind such an INTEGER, with which the bytes begin.
fn behind_integer(bytes: &[u8]) -> Option<&[u8]> {
    let (&length, rest) = bytes.strip_prefix(&[0x02])?.split_first()?;
    let number = rest.get(..length.into())?;
    is_shortest(number).then_some(&rest[number.len()..])
}

// Whether the bytes say a number that is not negative and below 2^256, as few as serve.
fn is_shortest(number: &[u8]) -> bool {
    match number {
        [] => false,
        [only] => *only < 128,
        [0, second, ..] => *second >= 128 && number.len() <= 33,
        [first, ..] => *first < 128 && number.len() <= 32,
    }
}
