//! ECDSA over the curve P-256 with SHA-256 (FIPS 186-5). The library verifies; OpenSSL's libcrypto signs (feature `openssl`).
//!
//! A key's text is `ecdsa-p256:` and the base64 of a point of SEC 1, compressed (33 bytes) or not (65 bytes); it is written
//! compressed. A signature's text is `ecdsa-p256:` and the base64 of the DER of an `ECDSA-Sig-Value` (RFC 3279).
use crate::error::Error;
use crate::question::SignatureCheck;

#[cfg(feature = "openssl")]
mod openssl;
#[cfg(feature = "openssl")]
mod texts;

#[cfg(feature = "openssl")]
#[cfg_attr(docsrs, doc(cfg(feature = "openssl")))]
pub use openssl::{key_id, sha256_text, verify_by_openssl, CryptoError, SigningKey};

/// Whether the signature belongs to the message under the key, by the library. Texts that can't be read, and those of other
/// algorithms, belong to nothing.
///
/// # Panics
/// Where the library finds no memory.
pub fn verify(question: &SignatureCheck) -> bool {
    match crate::verify(question.key(), question.message(), question.signature()) {
        Err(Error::OutOfMemory) => panic!("out of memory"),
        answer => answer == Ok(true),
    }
}
