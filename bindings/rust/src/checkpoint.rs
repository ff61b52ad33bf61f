//! Checkpoints of a registry.
use crate::buffer::{self, text_of};
use crate::error::{holds, Error};
use crate::operator::OperatorLog;
use crate::raw;

/// What a registry signs of its log and its map. Its JSON has the members `logRoot`, `logLength`, `mapRoot` and `timestamp`.
#[derive(Clone, Debug, PartialEq, Eq, Hash)]
pub struct Checkpoint {
    /// The text of the root of the registry's log.
    pub log_root: String,
    /// How many leaves that log has.
    pub log_length: u64,
    /// The text of the root of the registry's map.
    pub map_root: String,
    /// The time in whole seconds since 1970.
    pub timestamp: u64,
}

impl Checkpoint {
    /// The message that a key of the registry signs. The error is [`Error::BadArgument`] where a root is not the text of one.
    pub fn message(&self) -> Result<Vec<u8>, Error> {
        let (log_root, map_root) = (&self.log_root, &self.map_root);
        // SAFETY: each pointer goes with the length of its slice (`raw`).
        let found = buffer::filled(0, |bytes, used| unsafe {
            raw::warg_checkpoint_message(
                self.log_length,
                log_root.as_ptr(),
                log_root.len(),
                map_root.as_ptr(),
                map_root.len(),
                self.timestamp,
                bytes.as_mut_ptr(),
                bytes.len(),
                used,
            )
        });
        found.map_err(|it| it.or(b"BadText: a root is not the text of one"))?.ok_or(Error::BadArgument(None))
    }
}

/// A checkpoint with the texts by which it is signed. Whether they belong to it, [`verify_checkpoint`](OperatorLog::verify_checkpoint) of
/// an operator log says.
#[derive(Clone, Debug, PartialEq, Eq, Hash)]
pub struct SignedCheckpoint {
    /// The checkpoint.
    pub contents: Checkpoint,
    /// The id of the key that is said to have signed.
    pub key_id: String,
    /// The text of the signature.
    pub signature: String,
}

impl SignedCheckpoint {
    /// The JSON text, as a registry answers it: the members `contents`, which is the object of the checkpoint, `keyId` and `signature`.
    /// Roots are written with small digits. The error is [`Error::BadArgument`] where a root or the signature is not the text of one.
    pub fn to_json(&self) -> Result<String, Error> {
        let (log_root, map_root) = (&self.contents.log_root, &self.contents.map_root);
        // SAFETY: each pointer goes with the length of its slice (`raw`).
        let found = buffer::filled(0, |text, used| unsafe {
            raw::warg_checkpoint_text(
                self.contents.log_length,
                log_root.as_ptr(),
                log_root.len(),
                map_root.as_ptr(),
                map_root.len(),
                self.contents.timestamp,
                self.key_id.as_ptr(),
                self.key_id.len(),
                self.signature.as_ptr(),
                self.signature.len(),
                text.as_mut_ptr(),
                text.len(),
                used,
            )
        });
        let found = found.map_err(|it| it.or(b"BadText: a root or the signature is not the text of one"))?;
        found.map(text_of).ok_or(Error::BadArgument(None))
    }

    /// Reads that text. What else it has is passed over, and nothing is verified. The error is [`Error::BadArgument`], by the name
    /// `NotJson`, `WrongType`, `Missing` or `BadText`, where the text is no signed checkpoint.
    pub fn from_json(json: &str) -> Result<Self, Error> {
        let mut parts = raw::SignedCheckpoint::default();
        // SAFETY: each pointer goes with the length of its slice (`raw`).
        let found = buffer::filled(json.len(), |text, used| unsafe {
            raw::warg_read_checkpoint(json.as_ptr(), json.len(), text.as_mut_ptr(), text.len(), used, &mut parts)
        })?;
        found.map(|texts| Self::of(texts, &parts)).ok_or(Error::BadArgument(None))
    }

    // A signed checkpoint from its texts, which stand one behind the other, and what else was read.
    fn of(mut log_root: Vec<u8>, parts: &raw::SignedCheckpoint) -> Self {
        let mut map_root = log_root.split_off(parts.log_root_len);
        let mut key_id = map_root.split_off(parts.map_root_len);
        let signature = key_id.split_off(parts.key_id_len);
        let contents = Checkpoint {
            log_root: text_of(log_root),
            log_length: parts.log_length,
            map_root: text_of(map_root),
            timestamp: parts.timestamp,
        };
        Self { contents, key_id: text_of(key_id), signature: text_of(signature) }
    }
}

impl OperatorLog {
    /// Whether a checkpoint is signed by a key that the log lets sign, by the texts that stand beside it.
    ///
    /// The error is [`Error::BadArgument`] where a root is not the text of one, or where the key may sign and the signature's text
    /// can't be read. It is [`Error::UnknownAlgorithm`] where the key may sign and its algorithm is not `ecdsa-p256`: verify the
    /// signature of [`Checkpoint::message`] by other means then.
    pub fn verify_checkpoint(&self, checkpoint: &Checkpoint, key_id: &str, signature: &str) -> Result<bool, Error> {
        let (log_root, map_root) = (&checkpoint.log_root, &checkpoint.map_root);
        // SAFETY: no other call has the log, and each pointer goes with the length of its slice (`raw`).
        let status = self.status(|log| unsafe {
            raw::warg_verify_checkpoint(
                log,
                checkpoint.log_length,
                log_root.as_ptr(),
                log_root.len(),
                map_root.as_ptr(),
                map_root.len(),
                checkpoint.timestamp,
                key_id.as_ptr(),
                key_id.len(),
                signature.as_ptr(),
                signature.len(),
            )
        });
        holds(status, b"BadText: a root is not the text of one, or the key's id or the signature can't be read")
    }
}
