//! Checks the logs of a [Warg](https://warg.io) package registry by a proved library.
//!
//! [`Log::append_signed`] takes a record if it is lawful and its signature belongs, which the library verifies: ECDSA P-256. For any
//! other algorithm [`Log::append`] asks you whether the signature belongs to the message under the key, and takes your word for that
//! one question alone.
//!
//! ```
//! # #[cfg(feature = "openssl")]
//! # fn main() -> Result<(), Box<dyn std::error::Error>> {
//! use std::time::SystemTime;
//! use weoldrin::p256::{key_id, sha256_text, SigningKey};
//! use weoldrin::records::{Entry, NewRecord};
//! use weoldrin::PackageLog;
//!
//! let alice = SigningKey::generate()?;
//! let record = NewRecord {
//!     prev: None,
//!     version: 1,
//!     timestamp: SystemTime::now(),
//!     entries: vec![
//!         Entry::init(alice.public_key()),
//!         Entry::release("1.0.0", &sha256_text(b"what is released")),
//!     ],
//! };
//! let envelope = record.signed(&key_id(alice.public_key()), |message| alice.sign(message))?;
//!
//! let mut log = PackageLog::new()?;
//! log.append_signed(&envelope)?;
//! assert_eq!(log.latest(">=1")?.map(|it| it.version), Some("1.0.0".to_owned()));
//! let refused = log.append_signed(&envelope).err();
//! let name = refused.as_ref().and_then(|it| it.reason()).map(|it| it.name.as_str());
//! assert_eq!(name, Some("NoPreviousHashAfterInit"));
//! # Ok(())
//! # }
//! # #[cfg(not(feature = "openssl"))]
//! # fn main() {}
//! ```
#![warn(missing_docs, clippy::undocumented_unsafe_blocks)]
#![cfg_attr(docsrs, feature(doc_cfg))]

mod buffer;
mod checkpoint;
mod error;
mod kind;
mod log;
mod operator;
pub mod p256;
mod package;
mod printable;
pub mod proofs;
mod question;
mod raw;
pub mod records;
mod registry_trees;
mod time;

pub use checkpoint::{Checkpoint, SignedCheckpoint};
pub use error::{Error, Reason};
pub use kind::{LogKind, Operator, OperatorPermission, Package, PackagePermission, Permission, UnknownPermission};
pub use log::{Comparison, Last, Link, Log, Record};
pub use operator::{NamespaceState, OperatorLog};
pub use package::{PackageLog, Release, ReleaseState, Releases};
pub use printable::{printable, Printable};
pub use question::SignatureCheck;
pub use registry_trees::{Head, RegistryTrees};

// The names of 0.1.0.
pub use kind::LogKind as Kind;
pub use question::SignatureCheck as Question;

/// The text of the id of an envelope's record. The record need not be lawful; the error is [`Error::NoEnvelope`] where the bytes are
/// no envelope.
pub fn record_id<K: LogKind>(envelope: &[u8]) -> Result<String, Error> {
    // SAFETY: each pointer goes with the length of its slice (`raw`).
    let found = buffer::filled(envelope.len() + buffer::SENTENCE, |text, used| unsafe {
        let (at, len) = (envelope.as_ptr(), envelope.len());
        raw::warg_id(K::NUMBER, at, len, text.as_mut_ptr(), text.len(), used)
    })?;
    found.map(buffer::text_of).ok_or(Error::BadArgument(None))
}

/// The text of the id of a log, which is made of its kind and its name: a package's log has the package's, as `example:math`, and the
/// log of operators has none, which is the empty text. The error is [`Error::BadArgument`] for any other name.
pub fn log_id<K: LogKind>(name: &str) -> Result<String, Error> {
    // SAFETY: each pointer goes with the length of its slice (`raw`).
    let found = buffer::filled(0, |text, used| unsafe {
        raw::warg_log_id(K::NUMBER, name.as_ptr(), name.len(), text.as_mut_ptr(), text.len(), used)
    })?;
    found.map(buffer::text_of).ok_or(Error::BadArgument(None))
}

/// Whether the signature belongs to the message under the key, by their texts, as they stand in questions. The error is
/// [`Error::BadArgument`] where the key's text can't be read, [`Error::UnknownAlgorithm`] where its algorithm is not `ecdsa-p256`, and
/// otherwise [`Error::BadArgument`] where the signature's text can't be read.
pub fn verify(key: &str, message: &[u8], signature: &str) -> Result<bool, Error> {
    // SAFETY: each pointer goes with the length of its slice (`raw`).
    let status = unsafe {
        let (key_at, message_at, signature_at) = (key.as_ptr(), message.as_ptr(), signature.as_ptr());
        raw::warg_verify(key_at, key.len(), message_at, message.len(), signature_at, signature.len())
    };
    error::holds(status, b"BadText: the text of the key or of the signature can't be read")
}

/// The library's version.
pub fn library_version() -> Result<String, Error> {
    // SAFETY: each pointer goes with the length of its slice (`raw`).
    let found = buffer::filled(0, |text, used| unsafe { raw::warg_version(text.as_mut_ptr(), text.len(), used) })?;
    found.map(buffer::text_of).ok_or(Error::BadArgument(None))
}

// The README's code is tested as that of the documents.
#[cfg(doctest)]
#[doc = include_str!("../README.md")]
struct Readme;
