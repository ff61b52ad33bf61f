//! Why a call did nothing.
use crate::printable::printable;
use crate::raw;
use std::fmt;

/// What the library says of an error: its name, and a sentence. Both are as the library has them, which quotes strangers' texts, such as
/// key ids, to the letter; `Display` is what can be [`printed`](crate::printable) of them, on one line.
#[derive(Clone, Debug, PartialEq, Eq)]
pub struct Reason {
    /// The error's name, as `SignatureError` or `ProtobufEnvelope.Truncated`.
    pub name: String,
    /// What it means, or nothing where the name alone is known.
    pub sentence: String,
}

impl fmt::Display for Reason {
    fn fmt(&self, f: &mut fmt::Formatter<'_>) -> fmt::Result {
        if self.sentence.is_empty() {
            return printable(&self.name).fmt(f);
        }
        write!(f, "{}: {}", printable(&self.name), printable(&self.sentence))
    }
}

/// Why a call did nothing. The log, or the trees of a registry, are as they were.
#[derive(Clone, Debug, PartialEq, Eq)]
#[non_exhaustive]
pub enum Error {
    /// There was no memory in the library. The same call may be made again.
    OutOfMemory,
    /// The bytes are no envelope of a record of the log's kind.
    NoEnvelope(Reason),
    /// The record is unlawful, or its signature does not belong.
    Refused(Reason),
    /// The key is of another algorithm than the library verifies. Verify the signature by other means, and append a
    /// record by [`Log::ask`](crate::Log::ask) and [`Log::append_answered`](crate::Log::append_answered), or by
    /// [`Log::append`](crate::Log::append).
    UnknownAlgorithm,
    /// An argument is not of its form, or the log was resumed and has no records. What the library says of it is there, such as the
    /// name of the fault of a text that is no saved state, or no proof.
    BadArgument(Option<Reason>),
}

impl Error {
    /// What the library says of the error, where it says more than the case.
    pub fn reason(&self) -> Option<&Reason> {
        match self {
            Error::NoEnvelope(reason) | Error::Refused(reason) => Some(reason),
            Error::BadArgument(reason) => reason.as_ref(),
            Error::OutOfMemory | Error::UnknownAlgorithm => None,
        }
    }

    // The error of a status that is neither 0 nor "too small" nor "none", with its text.
    pub(crate) fn of(status: u32, text: &[u8]) -> Self {
        let text = String::from_utf8_lossy(text);
        let (name, sentence) = text.split_once(": ").unwrap_or((&text, ""));
        let reason = Reason { name: name.to_owned(), sentence: sentence.to_owned() };
        match status {
            raw::OUT_OF_MEMORY => Error::OutOfMemory,
            raw::NO_ENVELOPE => Error::NoEnvelope(reason),
            raw::REFUSED => Error::Refused(reason),
            raw::UNKNOWN_ALGORITHM => Error::UnknownAlgorithm,
            _ => Error::BadArgument(Some(reason).filter(|it| !it.name.is_empty())),
        }
    }

    // The error, with this text where it is of a bad argument and the library says nothing of it.
    pub(crate) fn or(self, text: &[u8]) -> Self {
        match self {
            Error::BadArgument(None) => Error::of(raw::BAD_ARGUMENT, text),
            told => told,
        }
    }
}

// The answer of a call that refuses what does not hold, with the text of a bad argument, of which the library says nothing.
pub(crate) fn holds(status: u32, misuse: &[u8]) -> Result<bool, Error> {
    match status {
        raw::OK => Ok(true),
        raw::REFUSED => Ok(false),
        status => Err(Error::of(status, misuse)),
    }
}

impl fmt::Display for Error {
    fn fmt(&self, f: &mut fmt::Formatter<'_>) -> fmt::Result {
        match self {
            Error::OutOfMemory => f.write_str("out of memory"),
            Error::NoEnvelope(reason) | Error::Refused(reason) | Error::BadArgument(Some(reason)) => reason.fmt(f),
            Error::UnknownAlgorithm => f.write_str(
                "the library verifies keys of ecdsa-p256 alone; verify the signature by other means, and append a record by \
                 ask(envelope) and append_answered, or by append(envelope, verify)",
            ),
            Error::BadArgument(None) => f.write_str("an argument is not of its form, or the log has no such call"),
        }
    }
}

impl std::error::Error for Error {}
