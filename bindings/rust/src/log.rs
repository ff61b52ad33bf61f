//! A log of either kind.
use crate::buffer::{filled, text_of, SENTENCE};
use crate::error::Error;
use crate::kind::{LogKind, Permission};
use crate::question::SignatureCheck;
use crate::raw;
use crate::time::system_time;
use std::cell::UnsafeCell;
use std::fmt;
use std::marker::PhantomData;
use std::ptr;
use std::time::SystemTime;

/// A log whose records are checked by the library: a [`PackageLog`](crate::PackageLog) or an [`OperatorLog`](crate::OperatorLog).
///
/// It may go to another thread (`Send`), and serves one thread at a time (not `Sync`). It is closed when it is dropped. At each
/// error it is as it was.
///
/// ```compile_fail
/// fn is_shared<T: Sync>() {}
/// is_shared::<weoldrin::PackageLog>();
/// ```
pub struct Log<K: LogKind> {
    raw: UnsafeCell<raw::Log>,
    kind: PhantomData<K>,
}

// SAFETY: what the handle owns is proved to cross threads. It is not `Sync`, so that one call at a time is made.
unsafe impl<K: LogKind> Send for Log<K> {}

/// What is known of a log's last record beside its id.
#[derive(Clone, Copy, Debug, PartialEq, Eq)]
pub struct Last {
    /// Its time.
    pub timestamp: SystemTime,
    /// Its version of the protocol.
    pub version: u32,
    /// How many records the log has; none where it was resumed by [`Log::from_json`].
    pub count: Option<usize>,
}

/// A record that a log keeps.
#[derive(Clone, Debug, PartialEq, Eq)]
pub struct Record {
    /// The record's envelope, written anew: it has the contents, the key id and the signature that were appended, and nothing
    /// else that stood in those bytes.
    pub envelope: Vec<u8>,
    /// The text of the record's id.
    pub id: String,
}

/// The place of an entry.
#[derive(Clone, Copy, Debug, PartialEq, Eq)]
pub struct Link {
    /// The place of the entry's record in the log, from 0.
    pub record: usize,
    /// The place of the entry in its record, from 0.
    pub entry: usize,
}

/// How the records of two logs compare, by their contents.
#[derive(Clone, Copy, Debug, PartialEq, Eq)]
pub enum Comparison {
    /// They are equal, record for record.
    Same,
    /// The right log begins with all of the left one, and goes on at this place.
    LeftIsPrefix(usize),
    /// The left log begins with all of the right one, and goes on at this place.
    RightIsPrefix(usize),
    /// This is the first place where both have a record and these differ.
    Fork(usize),
    /// The heads are one, but the records at these places of the left and the right log differ and have one id.
    Collision {
        /// The place in the left log.
        left: usize,
        /// The place in the right log.
        right: usize,
    },
}

// What is said where a call that writes no text finds an argument bad: a kind and a permission are of their type, so it is the log.
const RESUMED: &[u8] = b"Resumed: the log was resumed, and its records are elsewhere";

impl<K: LogKind> Log<K> {
    /// A log of no records. The error is [`Error::OutOfMemory`].
    pub fn new() -> Result<Self, Error> {
        let log = Log { raw: UnsafeCell::new(raw::Log { at: ptr::null_mut(), is_open: false }), kind: PhantomData };
        // SAFETY: no other call has the log, and each pointer goes with the length of its slice (`raw`).
        log.done(|raw| unsafe { raw::warg_open(raw, K::NUMBER) })?;
        Ok(log)
    }

    /// What has to be verified before the record can be appended: it is lawful exactly if the signature belongs. The error is
    /// [`Error::Refused`] where no signature could help, and [`Error::NoEnvelope`] where the bytes are none.
    pub fn ask(&self, envelope: &[u8]) -> Result<SignatureCheck, Error> {
        let mut asked = raw::Asked::default();
        // SAFETY: no other call has the log, and each pointer goes with the length of its slice (`raw`).
        let found = self.said(envelope.len() + SENTENCE, |log, bytes, used| unsafe {
            let room = bytes.len();
            let to = bytes.as_mut_ptr();
            raw::warg_ask(log, envelope.as_ptr(), envelope.len(), to, room, used, &mut asked)
        })?;
        let bytes = found.ok_or(Error::BadArgument(None))?;
        Ok(SignatureCheck { bytes, asked })
    }

    /// Appends the record by the answer to its question. The answer to any other question is refused.
    pub fn append_answered(&mut self, envelope: &[u8], question: &SignatureCheck, belongs: bool) -> Result<(), Error> {
        let asked = &question.asked;
        let question = question.bytes.as_slice();
        // SAFETY: no other call has the log, and each pointer goes with the length of its slice (`raw`).
        self.said(envelope.len() + SENTENCE, |log, text, used| unsafe {
            raw::warg_append(
                log,
                envelope.as_ptr(),
                envelope.len(),
                question.as_ptr(),
                question.len(),
                asked,
                belongs,
                text.as_mut_ptr(),
                text.len(),
                used,
            )
        })?;
        Ok(())
    }

    /// Appends the record if its signature belongs, which the library verifies: ECDSA P-256. Where all of a record is lawful but
    /// its signature, and that is by a key of another algorithm, the error is [`Error::UnknownAlgorithm`]: use [`Log::append`]
    /// then.
    pub fn append_signed(&mut self, envelope: &[u8]) -> Result<(), Error> {
        // SAFETY: no other call has the log, and each pointer goes with the length of its slice (`raw`).
        self.said(envelope.len() + SENTENCE, |log, text, used| unsafe {
            let room = text.len();
            let to = text.as_mut_ptr();
            raw::warg_append_signed(log, envelope.as_ptr(), envelope.len(), to, room, used)
        })?;
        Ok(())
    }

    /// Appends the record if its signature belongs, as `verify` says, which is asked once at most.
    pub fn append(&mut self, envelope: &[u8], mut verify: impl FnMut(&SignatureCheck) -> bool) -> Result<(), Error> {
        let question = self.ask(envelope)?;
        let belongs = verify(&question);
        self.append_answered(envelope, &question, belongs)
    }

    /// The text of the id of the last record.
    pub fn head(&self) -> Result<Option<String>, Error> {
        // SAFETY: no other call has the log, and each pointer goes with the length of its slice (`raw`).
        self.text(|log, text, used| unsafe { raw::warg_head(log, text.as_mut_ptr(), text.len(), used) })
    }

    /// The time and the version of the last record, and how many records there are; none before any.
    pub fn last(&self) -> Result<Option<Last>, Error> {
        let mut head = raw::Head::default();
        // SAFETY: no other call has the log (`raw`).
        if !self.done(|log| unsafe { raw::warg_head_of(log, &mut head) })? {
            return Ok(None);
        }
        let timestamp = system_time(head.seconds, head.nanos);
        Ok(Some(Last { timestamp, version: head.version, count: (head.is_counted != 0).then_some(head.count) }))
    }

    /// How many records there are. The error is [`Error::BadArgument`] for a resumed log.
    pub fn len(&self) -> Result<usize, Error> {
        let mut length = 0;
        // SAFETY: no other call has the log, and each pointer goes with the length of its slice (`raw`).
        self.done(|log| unsafe { raw::warg_length(log, &mut length) })?;
        Ok(length)
    }

    /// Whether there is no record yet.
    pub fn is_empty(&self) -> Result<bool, Error> {
        Ok(self.head()?.is_none())
    }

    /// The record at a place, from 0. The error is [`Error::BadArgument`] for a resumed log.
    pub fn record(&self, place: usize) -> Result<Option<Record>, Error> {
        let mut kept = raw::Kept::default();
        // SAFETY: no other call has the log, and each pointer goes with the length of its slice (`raw`).
        let found = self.said(0, |log, bytes, used| unsafe {
            raw::warg_record(log, place, bytes.as_mut_ptr(), bytes.len(), used, &mut kept)
        })?;
        Ok(found.map(|mut envelope| {
            let id = text_of(envelope.split_off(kept.envelope_len));
            Record { envelope, id }
        }))
    }

    /// Whether a key id holds a permission.
    pub fn holds(&self, key_id: &str, permission: K::Permission) -> Result<bool, Error> {
        let permission = permission.as_str();
        // SAFETY: no other call has the log, and each pointer goes with the length of its slice (`raw`).
        self.done(|log| unsafe {
            raw::warg_holds(log, key_id.as_ptr(), key_id.len(), permission.as_ptr(), permission.len())
        })
    }

    /// The permissions that a key id holds; none if no record spoke of it.
    #[doc(alias = "key_permissions")]
    pub fn permissions(&self, key_id: &str) -> Result<Option<Vec<K::Permission>>, Error> {
        // SAFETY: no other call has the log, and each pointer goes with the length of its slice (`raw`).
        let found = self.text(|log, text, used| unsafe {
            let room = text.len();
            raw::warg_permissions(log, key_id.as_ptr(), key_id.len(), text.as_mut_ptr(), room, used)
        })?;
        Ok(found.map(|names| names.split(' ').filter_map(|it| it.parse().ok()).collect()))
    }

    /// The text of the key of a key id.
    pub fn public_key(&self, key_id: &str) -> Result<Option<String>, Error> {
        // SAFETY: no other call has the log, and each pointer goes with the length of its slice (`raw`).
        self.text(|log, text, used| unsafe {
            raw::warg_key(log, key_id.as_ptr(), key_id.len(), text.as_mut_ptr(), text.len(), used)
        })
    }

    /// By which entries a key id came to hold a permission, from the log's first entry on; none if it does not hold it. The error
    /// is [`Error::BadArgument`] for a resumed log.
    #[doc(alias = "permission_chain")]
    pub fn chain(&self, key_id: &str, permission: K::Permission) -> Result<Option<Vec<Link>>, Error> {
        let permission = permission.as_str();
        let mut links = vec![raw::Link::default(); 16];
        loop {
            let mut used = 0;
            // SAFETY: no other call has the log, and each pointer goes with the length of its slice (`raw`).
            let status = unsafe {
                raw::warg_chain(
                    self.raw.get(),
                    key_id.as_ptr(),
                    key_id.len(),
                    permission.as_ptr(),
                    permission.len(),
                    links.as_mut_ptr(),
                    links.len(),
                    &mut used,
                )
            };
            match status {
                raw::OK => {
                    let found = links[..used].iter().map(|it| Link { record: it.record_index, entry: it.entry_index });
                    return Ok(Some(found.collect()));
                }
                raw::TOO_SMALL => links.resize(used, raw::Link::default()),
                raw::NONE => return Ok(None),
                status => return Err(Error::of(status, RESUMED)),
            }
        }
    }

    /// Compares the records of this log, the left one, with those of another. The error is [`Error::BadArgument`] if one of them was
    /// resumed.
    #[doc(alias = "compare_heads")]
    pub fn compare(&self, other: &Self) -> Result<Comparison, Error> {
        if ptr::eq(self, other) {
            self.len()?;
            return Ok(Comparison::Same);
        }
        let mut found = raw::Comparison::default();
        // SAFETY: no other call has the log, and each pointer goes with the length of its slice (`raw`).
        self.done(|log| unsafe { raw::warg_compare(log, other.raw.get(), &mut found) })?;
        Ok(match found.case {
            0 => Comparison::Same,
            1 => Comparison::LeftIsPrefix(found.left),
            2 => Comparison::RightIsPrefix(found.left),
            3 => Comparison::Fork(found.left),
            _ => Comparison::Collision { left: found.left, right: found.right },
        })
    }

    /// The state as a text of JSON: all that further records are judged by and that is looked up, but no records. The error is
    /// [`Error::BadArgument`] where a time of the state lies before 1970, which its text can't say.
    pub fn to_json(&self) -> Result<String, Error> {
        // SAFETY: no other call has the log, and each pointer goes with the length of its slice (`raw`).
        let found = self.text(|log, text, used| unsafe { raw::warg_save(log, text.as_mut_ptr(), text.len(), used) })?;
        found.ok_or_else(|| Error::of(raw::BAD_ARGUMENT, b"TimeBeforeEpoch: a time of the state lies before 1970"))
    }

    /// A log that goes on from a saved state. It has no records: `len`, `record`, `chain` and `compare` are errors. Whether the text
    /// is what was saved is yours to keep.
    pub fn from_json(saved: &str) -> Result<Self, Error> {
        let log = Self::new()?;
        // SAFETY: no other call has the log, and each pointer goes with the length of its slice (`raw`).
        log.said(0, |raw, text, used| unsafe {
            let room = text.len();
            let to = text.as_mut_ptr();
            raw::warg_resume(raw, K::NUMBER, saved.as_ptr(), saved.len(), to, room, used)
        })?;
        Ok(log)
    }

    /// As [`Log::from_json`], of a log that had so many records when its state was saved: [`Log::last`] goes on counting from there.
    pub fn from_json_counted(saved: &str, count: usize) -> Result<Self, Error> {
        let log = Self::new()?;
        // SAFETY: no other call has the log, and each pointer goes with the length of its slice (`raw`).
        log.said(0, |raw, text, used| unsafe {
            let room = text.len();
            let to = text.as_mut_ptr();
            raw::warg_resume_counted(raw, K::NUMBER, saved.as_ptr(), saved.len(), count, to, room, used)
        })?;
        Ok(log)
    }

    // What a call of the library writes, to room for so many bytes at first.
    pub(crate) fn said(
        &self,
        room: usize,
        mut call: impl FnMut(*mut raw::Log, &mut [u8], &mut usize) -> u32,
    ) -> Result<Option<Vec<u8>>, Error> {
        filled(room, |bytes, used| call(self.raw.get(), bytes, used))
    }

    // The text that a call of the library writes.
    pub(crate) fn text(
        &self,
        call: impl FnMut(*mut raw::Log, &mut [u8], &mut usize) -> u32,
    ) -> Result<Option<String>, Error> {
        Ok(self.said(0, call)?.map(text_of))
    }

    // The status of a call that writes no text.
    pub(crate) fn status(&self, call: impl FnOnce(*mut raw::Log) -> u32) -> u32 {
        call(self.raw.get())
    }

    // Whether a call that writes no text was done, and not answered by "none".
    fn done(&self, call: impl FnOnce(*mut raw::Log) -> u32) -> Result<bool, Error> {
        match self.status(call) {
            raw::OK => Ok(true),
            raw::NONE => Ok(false),
            status => Err(Error::of(status, RESUMED)),
        }
    }
}

impl<K: LogKind> Drop for Log<K> {
    fn drop(&mut self) {
        // SAFETY: the handle is owned, and this is its last use.
        unsafe { raw::warg_close(self.raw.get()) }
    }
}

impl<K: LogKind> fmt::Debug for Log<K> {
    fn fmt(&self, f: &mut fmt::Formatter<'_>) -> fmt::Result {
        f.debug_struct("Log").field("head", &self.head()).finish()
    }
}
