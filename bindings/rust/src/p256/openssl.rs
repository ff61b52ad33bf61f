//! ECDSA P-256 by OpenSSL's libcrypto, which makes keys and signs, and verifies where it is asked to.
use super::texts::{point_of, signature_of, text_of};
use crate::question::SignatureCheck;
use std::fmt;
use std::os::raw::{c_char, c_int, c_long, c_void};
use std::ptr::{null, null_mut};

// The DER of an AlgorithmIdentifier: an elliptic curve's key, of P-256 (RFC 5480).
const IDENTIFIER: [u8; 21] = [
    0x30, 0x13, 0x06, 0x07, 0x2a, 0x86, 0x48, 0xce, 0x3d, 0x02, 0x01, 0x06, 0x08, 0x2a, 0x86, 0x48, 0xce, 0x3d, 0x03, 0x01,
    0x07,
];

extern "C" {
    fn ERR_set_mark() -> c_int;
    fn ERR_pop_to_mark() -> c_int;
    fn d2i_PUBKEY(key: *mut *mut c_void, der: *mut *const u8, n: c_long) -> *mut c_void;
    fn i2d_PUBKEY(key: *const c_void, der: *mut *mut u8) -> c_int;
    fn d2i_AutoPrivateKey(key: *mut *mut c_void, der: *mut *const u8, n: c_long) -> *mut c_void;
    fn i2d_PrivateKey(key: *const c_void, der: *mut *mut u8) -> c_int;
    fn EVP_PKEY_Q_keygen(library: *mut c_void, query: *const c_char, of: *const c_char, ...) -> *mut c_void;
    fn EVP_PKEY_set_utf8_string_param(key: *mut c_void, name: *const c_char, value: *const c_char) -> c_int;
    fn EVP_PKEY_free(key: *mut c_void);
    fn EVP_MD_CTX_new() -> *mut c_void;
    fn EVP_MD_CTX_free(context: *mut c_void);
    fn EVP_sha256() -> *const c_void;
    fn EVP_Digest(
        bytes: *const u8,
        n: usize,
        out: *mut u8,
        size: *mut u32,
        digest: *const c_void,
        engine: *mut c_void,
    ) -> c_int;
    fn EVP_DigestVerifyInit(
        context: *mut c_void,
        key_context: *mut *mut c_void,
        digest: *const c_void,
        engine: *mut c_void,
        key: *mut c_void,
    ) -> c_int;
    fn EVP_DigestVerify(context: *mut c_void, signature: *const u8, n: usize, message: *const u8, m: usize) -> c_int;
    fn EVP_DigestSignInit(
        context: *mut c_void,
        key_context: *mut *mut c_void,
        digest: *const c_void,
        engine: *mut c_void,
        key: *mut c_void,
    ) -> c_int;
    fn EVP_DigestSign(context: *mut c_void, signature: *mut u8, n: *mut usize, message: *const u8, m: usize) -> c_int;
}

/// The same as [`verify`](super::verify) by libcrypto. What is read as a key and as a signature is what the library reads, and
/// libcrypto is asked of nothing else. Its queue of errors is left as it was.
pub fn verify_by_openssl(question: &SignatureCheck) -> bool {
    let _errors = Errors::mark();
    match (point_of(question.key()), signature_of(question.signature())) {
        (Some(point), Some(signature)) => {
            Key::of_point(&point).map_or(false, |key| key.verifies(question.message(), &signature))
        }
        _ => false,
    }
}

/// The text of the SHA-256 digest of bytes, as it stands in records.
pub fn sha256_text(bytes: &[u8]) -> String {
    let mut digest = [0; 32];
    // SAFETY: the bytes go with their number, and a digest of SHA-256 has 32. The null pointers ask for nothing.
    let status =
        unsafe { EVP_Digest(bytes.as_ptr(), bytes.len(), digest.as_mut_ptr(), null_mut(), EVP_sha256(), null_mut()) };
    // It fails for want of memory alone.
    assert_eq!(status, 1, "libcrypto could not hash");
    let digits: String = digest.iter().map(|it| format!("{it:02x}")).collect();
    format!("sha256:{digits}")
}

/// The id of a key: the fingerprint of its text.
pub fn key_id(public_key: &str) -> String {
    sha256_text(public_key.as_bytes())
}

/// Why libcrypto did not do what was asked of it.
#[derive(Clone, Copy, Debug, PartialEq, Eq)]
#[non_exhaustive]
pub enum CryptoError {
    /// The bytes are the DER of no private key, or there are others behind it.
    NotAKey,
    /// The key is not one of the curve P-256.
    OtherKey,
    /// It failed, as for want of memory or of random numbers.
    Failed,
}

impl fmt::Display for CryptoError {
    fn fmt(&self, f: &mut fmt::Formatter<'_>) -> fmt::Result {
        f.write_str(match self {
            CryptoError::NotAKey => "the bytes are the DER of no private key",
            CryptoError::OtherKey => "the key is not one of the curve P-256",
            CryptoError::Failed => "libcrypto failed",
        })
    }
}

impl std::error::Error for CryptoError {}

/// A private key.
pub struct SigningKey {
    key: Key,
    public_key: String,
}

impl SigningKey {
    /// A new key.
    pub fn generate() -> Result<Self, CryptoError> {
        let _errors = Errors::mark();
        let (of, curve) = (b"EC\0".as_ptr().cast(), b"P-256\0".as_ptr().cast::<c_char>());
        // SAFETY: the words end with a zero byte, and a key of "EC" takes one more, its curve.
        let key = Key(unsafe { EVP_PKEY_Q_keygen(null_mut(), null(), of, curve) });
        if key.0.is_null() {
            return Err(CryptoError::Failed);
        }
        Self::of_key(key)
    }

    /// A key that was saved by [`SigningKey::to_der`], or by OpenSSL: the DER of RFC 5915 or of PKCS#8, with the point in any of the
    /// forms of SEC 1 or left out, and the curve by its name or by its parameters. The errors are [`CryptoError::NotAKey`], also where
    /// a byte stands behind the key, and [`CryptoError::OtherKey`].
    pub fn from_der(der: &[u8]) -> Result<Self, CryptoError> {
        let _errors = Errors::mark();
        let mut at = der.as_ptr();
        let length = c_long::try_from(der.len()).map_err(|_| CryptoError::NotAKey)?;
        // SAFETY: the bytes go with their number, and `at` is set to one of them or to their end.
        let key = Key(unsafe { d2i_AutoPrivateKey(null_mut(), &mut at, length) });
        if key.0.is_null() || at != der.as_ptr_range().end {
            return Err(CryptoError::NotAKey);
        }
        Self::of_key(key)
    }

    /// The key as the DER of RFC 5915, with the name of the curve. Keep it secret.
    pub fn to_der(&self) -> Result<Vec<u8>, CryptoError> {
        let _errors = Errors::mark();
        self.key.written(i2d_PrivateKey)
    }

    /// The text of the public key.
    pub fn public_key(&self) -> &str {
        &self.public_key
    }

    /// The text of a signature of the message.
    pub fn sign(&self, message: &[u8]) -> Result<String, CryptoError> {
        let _errors = Errors::mark();
        let context = Context::new().ok_or(CryptoError::Failed)?;
        // The DER of a signature takes at most 72 bytes.
        let (mut signature, mut length) = (vec![0; 128], 128);
        // SAFETY: the context and the key are there, the message goes with its number of bytes, and so does the signature's room.
        let is_signed = unsafe {
            EVP_DigestSignInit(context.0, null_mut(), EVP_sha256(), null_mut(), self.key.0) == 1
                && EVP_DigestSign(context.0, signature.as_mut_ptr(), &mut length, message.as_ptr(), message.len()) == 1
        };
        if !is_signed {
            return Err(CryptoError::Failed);
        }
        signature.truncate(length);
        Ok(text_of(&signature))
    }

    // The key is written in one form from now on, whatever the one that it was read in.
    fn of_key(key: Key) -> Result<Self, CryptoError> {
        let is_written_so = key.set(b"encoding\0", b"named_curve\0") && key.set(b"point-format\0", b"uncompressed\0");
        if !is_written_so {
            return Err(CryptoError::OtherKey);
        }
        let der = key.written(i2d_PUBKEY)?;
        // The identifier, and the point in its uncompressed form.
        let point = der.strip_prefix(&[0x30, 0x59]).and_then(|it| it.strip_prefix(&IDENTIFIER));
        let point = point.and_then(|it| it.strip_prefix(&[0x03, 0x42, 0x00, 0x04])).ok_or(CryptoError::OtherKey)?;
        let sign = 2 + (point[63] & 1);
        let public_key = text_of(&[&[sign], &point[..32]].concat());
        Ok(SigningKey { key, public_key })
    }
}

impl fmt::Debug for SigningKey {
    fn fmt(&self, f: &mut fmt::Formatter<'_>) -> fmt::Result {
        f.debug_struct("SigningKey").field("public_key", &self.public_key).finish_non_exhaustive()
    }
}

// An EVP_PKEY, or none.
struct Key(*mut c_void);

// SAFETY: a key is not changed once it is made, and libcrypto counts its uses atomically.
unsafe impl Send for Key {}
// SAFETY: so too.
unsafe impl Sync for Key {}

impl Key {
    // The key of 33 or 65 bytes that have the form of a point of SEC 1.
    fn of_point(point: &[u8]) -> Option<Key> {
        let length = point.len() as u8;
        let der = [&[0x30, length + 24], &IDENTIFIER[..], &[0x03, length + 1, 0], point].concat();
        let mut at = der.as_ptr();
        // SAFETY: the bytes go with their number.
        let key = Key(unsafe { d2i_PUBKEY(null_mut(), &mut at, der.len() as c_long) });
        (!key.0.is_null()).then_some(key)
    }

    // Sets a parameter of a key that is there, and whether it has one of that name and value. Both end with a zero byte.
    fn set(&self, name: &[u8], value: &[u8]) -> bool {
        debug_assert!(name.ends_with(&[0]) && value.ends_with(&[0]));
        // SAFETY: the key is there and used by no one else yet, and the texts end with a zero byte.
        unsafe { EVP_PKEY_set_utf8_string_param(self.0, name.as_ptr().cast(), value.as_ptr().cast()) == 1 }
    }

    fn verifies(&self, message: &[u8], signature: &[u8]) -> bool {
        // SAFETY: the context and the key are there, and the bytes of the signature and of the message go with their numbers.
        Context::new().map_or(false, |context| unsafe {
            EVP_DigestVerifyInit(context.0, null_mut(), EVP_sha256(), null_mut(), self.0) == 1
                && EVP_DigestVerify(context.0, signature.as_ptr(), signature.len(), message.as_ptr(), message.len()) == 1
        })
    }

    // What a function of libcrypto writes of the key.
    fn written(&self, write: unsafe extern "C" fn(*const c_void, *mut *mut u8) -> c_int) -> Result<Vec<u8>, CryptoError> {
        // SAFETY: the key is there, and no room to write to asks for the number of bytes.
        let length = unsafe { write(self.0, null_mut()) };
        let mut der = vec![0; usize::try_from(length).map_err(|_| CryptoError::Failed)?];
        let mut at = der.as_mut_ptr();
        // SAFETY: there is room for the bytes that the same call said.
        if der.is_empty() || unsafe { write(self.0, &mut at) } != length {
            return Err(CryptoError::Failed);
        }
        Ok(der)
    }
}

impl Drop for Key {
    fn drop(&mut self) {
        // SAFETY: the key is owned, or none, which is let go of too.
        unsafe { EVP_PKEY_free(self.0) }
    }
}

// What fails leaves no error in the thread's queue: those behind the mark go when this is dropped.
struct Errors;

impl Errors {
    fn mark() -> Self {
        // It fails where the queue is empty, and all of it goes then.
        // SAFETY: it needs nothing.
        unsafe { ERR_set_mark() };
        Errors
    }
}

impl Drop for Errors {
    fn drop(&mut self) {
        // SAFETY: it needs nothing.
        unsafe { ERR_pop_to_mark() };
    }
}

// An EVP_MD_CTX.
struct Context(*mut c_void);

impl Context {
    // A new one, if there is memory.
    fn new() -> Option<Context> {
        // SAFETY: it needs nothing.
        let context = unsafe { EVP_MD_CTX_new() };
        (!context.is_null()).then_some(Context(context))
    }
}

impl Drop for Context {
    fn drop(&mut self) {
        // SAFETY: the context is owned, and this is its last use.
        unsafe { EVP_MD_CTX_free(self.0) }
    }
}
