//! The trees of a registry, for who keeps one.
use crate::buffer::{filled, text_of};
use crate::checkpoint::Checkpoint;
use crate::error::Error;
use crate::raw;
use std::cell::UnsafeCell;
use std::fmt;
use std::ptr;

/// The trees of a registry: the log of all leaves, and the map of the heads of logs. Each proof is one that a call of
/// [`proofs`](crate::proofs) takes under the [`Checkpoint`] of the moment.
///
/// Whether a record may come next is for its own log to say: push what a [`Log`](crate::Log) has taken.
///
/// The trees stay on the thread that made them (neither `Send` nor `Sync`). They are closed when they are dropped. At
/// each error they are as they were.
///
/// ```
/// use weoldrin::proofs::{verify_inclusion, verify_presence};
/// use weoldrin::{log_id, Package, RegistryTrees};
///
/// # fn main() -> Result<(), weoldrin::Error> {
/// let log = log_id::<Package>("example:math")?;
/// let record = "sha256:28fdd77254977237364a167ba289ff718fbe76799cfd983dbf447346fa62a033";
/// let mut trees = RegistryTrees::new()?;
/// let place = trees.push(&log, record)?;
/// let now = trees.checkpoint(1_700_000_000)?;
/// let proof = trees.inclusion(place)?.unwrap_or_default();
/// assert!(verify_inclusion(&log, record, place, now.log_length, &now.log_root, &proof)?);
/// let head = trees.head(&log)?;
/// assert_eq!(head.record_id.as_deref(), Some(record));
/// assert!(verify_presence(&log, record, &now.map_root, &head.proof)?);
/// # Ok(())
/// # }
/// ```
///
/// ```compile_fail
/// fn crosses<T: Send>() {}
/// crosses::<weoldrin::RegistryTrees>();
/// ```
///
/// ```compile_fail
/// fn is_shared<T: Sync>() {}
/// is_shared::<weoldrin::RegistryTrees>();
/// ```
pub struct RegistryTrees {
    // It has a raw pointer, and so it is neither `Send` nor `Sync`.
    raw: UnsafeCell<raw::Registry>,
}

/// The last record of a log among the leaves of a registry, and the proof of it.
#[derive(Clone, Debug, PartialEq, Eq)]
pub struct Head {
    /// The text of the record's id; none if the log has no leaf.
    pub record_id: Option<String>,
    /// A proof that [`verify_presence`](crate::proofs::verify_presence) takes, or
    /// [`verify_absence`](crate::proofs::verify_absence) where there is no record.
    pub proof: String,
}

const BAD_ID: &[u8] = b"BadText: an id is not the text of one";
const BAD_LENGTH: &[u8] = b"BadLength: the bytes are no multiple of 64";

impl RegistryTrees {
    /// The trees of no leaves. The error is [`Error::OutOfMemory`].
    pub fn new() -> Result<Self, Error> {
        // SAFETY: no other call has the trees (`raw`).
        Self::begun(&[], |raw| unsafe { raw::warg_registry_open(raw) })
    }

    /// The trees of the leaves that [`to_bytes`](Self::to_bytes) gave, or of the first of them, made anew. This costs
    /// less than to push them, since the map is made of the last record of each log alone. The error is
    /// [`Error::BadArgument`] where the bytes are no multiple of 64.
    pub fn from_bytes(saved: &[u8]) -> Result<Self, Error> {
        // SAFETY: no other call has the trees, and the pointer goes with the length of its slice (`raw`).
        Self::begun(BAD_LENGTH, |raw| unsafe { raw::warg_registry_resume(raw, saved.as_ptr(), saved.len()) })
    }

    // Trees that a call begins, with the text of a bad argument.
    fn begun(misuse: &[u8], call: impl FnOnce(*mut raw::Registry) -> u32) -> Result<Self, Error> {
        let none = raw::Registry { at: ptr::null_mut(), is_open: false };
        let trees = RegistryTrees { raw: UnsafeCell::new(none) };
        match call(trees.raw.get()) {
            raw::OK => Ok(trees),
            status => Err(Error::of(status, misuse)),
        }
    }

    /// Puts the leaf of a record of a log last onto the log of all leaves, and makes the record the head of its log.
    /// Gives the leaf's place, from 0. The error is [`Error::BadArgument`] where an id is not the text of one.
    pub fn push(&mut self, log_id: &str, record_id: &str) -> Result<u64, Error> {
        let mut place = 0;
        // SAFETY: no other call has the trees, and each pointer goes with the length of its slice (`raw`).
        self.done(|raw| unsafe {
            let (log_at, record_at) = (log_id.as_ptr(), record_id.as_ptr());
            raw::warg_registry_push(raw, log_at, log_id.len(), record_at, record_id.len(), &mut place)
        })?;
        Ok(place)
    }

    /// The leaves, as [`from_bytes`](Self::from_bytes) takes them: 64 bytes for each, in the order in which they were
    /// pushed, the 32 of its log's id and the 32 of its record's. So who keeps them may as well append 64 bytes for
    /// each leaf that is pushed.
    pub fn to_bytes(&self) -> Result<Vec<u8>, Error> {
        let room = usize::try_from(self.len()?).unwrap_or(0).saturating_mul(64);
        // SAFETY: no other call has the trees, and each pointer goes with the length of its slice (`raw`).
        let saved =
            filled(room, |to, used| unsafe { raw::warg_registry_save(self.raw.get(), to.as_mut_ptr(), to.len(), used) })?;
        saved.ok_or(Error::BadArgument(None))
    }

    /// How many leaves there are.
    pub fn len(&self) -> Result<u64, Error> {
        let mut length = 0;
        // SAFETY: no other call has the trees (`raw`).
        self.done(|raw| unsafe { raw::warg_registry_length(raw, &mut length) })?;
        Ok(length)
    }

    /// Whether there is no leaf yet.
    pub fn is_empty(&self) -> Result<bool, Error> {
        Ok(self.len()? == 0)
    }

    /// What a registry signs at this time, in whole seconds since 1970: the roots of both trees, and how many leaves
    /// there are.
    pub fn checkpoint(&self, timestamp: u64) -> Result<Checkpoint, Error> {
        let mut lengths = raw::Roots::default();
        // SAFETY: no other call has the trees, and each pointer goes with the length of its slice (`raw`).
        let found = self.text(|raw, to, used| unsafe {
            let room = to.len();
            raw::warg_registry_roots(raw, to.as_mut_ptr(), room, used, &mut lengths)
        })?;
        let mut log_root = found.ok_or(Error::BadArgument(None))?;
        let map_root = log_root.split_off(lengths.log_root_len);
        Ok(Checkpoint { log_root, log_length: self.len()?, map_root, timestamp })
    }

    /// The proof that the leaf at a place is in the log of all leaves, as
    /// [`verify_inclusion`](crate::proofs::verify_inclusion) takes it; none if there is no leaf at this place.
    pub fn inclusion(&self, place: u64) -> Result<Option<String>, Error> {
        // SAFETY: no other call has the trees, and each pointer goes with the length of its slice (`raw`).
        self.text(|raw, to, used| unsafe { raw::warg_registry_inclusion(raw, place, to.as_mut_ptr(), to.len(), used) })
    }

    /// The proof that the log of all leaves begins with the one of its first leaves, as
    /// [`verify_consistency`](crate::proofs::verify_consistency) takes it; none if there are not that many.
    pub fn consistency(&self, first_length: u64) -> Result<Option<String>, Error> {
        // SAFETY: no other call has the trees, and each pointer goes with the length of its slice (`raw`).
        self.text(|raw, to, used| unsafe {
            raw::warg_registry_consistency(raw, first_length, to.as_mut_ptr(), to.len(), used)
        })
    }

    /// The last record of a log among the leaves, and the proof of it. The error is [`Error::BadArgument`] where the id
    /// is not the text of one.
    pub fn head(&self, log_id: &str) -> Result<Head, Error> {
        let mut lengths = raw::LogHead::default();
        // SAFETY: no other call has the trees, and each pointer goes with the length of its slice (`raw`).
        let found = self.text(|raw, to, used| unsafe {
            let (log_at, room) = (log_id.as_ptr(), to.len());
            raw::warg_registry_head(raw, log_at, log_id.len(), to.as_mut_ptr(), room, used, &mut lengths)
        });
        let mut record_id = found.map_err(|it| it.or(BAD_ID))?.ok_or(Error::BadArgument(None))?;
        let proof = record_id.split_off(lengths.record_id_len);
        Ok(Head { record_id: Some(record_id).filter(|it| !it.is_empty()), proof })
    }

    // The text that a call of the library writes.
    fn text<F>(&self, mut call: F) -> Result<Option<String>, Error>
    where
        F: FnMut(*mut raw::Registry, &mut [u8], &mut usize) -> u32,
    {
        Ok(filled(0, |to, used| call(self.raw.get(), to, used))?.map(text_of))
    }

    // Makes a call that writes no text.
    fn done(&self, call: impl FnOnce(*mut raw::Registry) -> u32) -> Result<(), Error> {
        match call(self.raw.get()) {
            raw::OK => Ok(()),
            status => Err(Error::of(status, BAD_ID)),
        }
    }
}

impl Drop for RegistryTrees {
    fn drop(&mut self) {
        // SAFETY: the trees are owned, and this is their last use.
        unsafe { raw::warg_registry_close(self.raw.get()) }
    }
}

impl fmt::Debug for RegistryTrees {
    fn fmt(&self, f: &mut fmt::Formatter<'_>) -> fmt::Result {
        f.debug_struct("RegistryTrees").field("len", &self.len()).finish()
    }
}
