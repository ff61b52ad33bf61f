//! Writes records and the envelopes that carry them, in the bytes that the project's `docs/FORMATS.md` gives.
//!
//! Nothing is judged here: a log does that when the envelope is appended.
use crate::kind::{LogKind, Operator, Package, Permission};
use std::marker::PhantomData;
use std::time::SystemTime;

/// An entry of a record, of a kind of log.
#[derive(Clone, Debug)]
pub struct Entry<K: LogKind> {
    bytes: Vec<u8>,
    kind: PhantomData<K>,
}

impl<K: LogKind> Entry<K> {
    fn new(field: u8, message: Message) -> Self {
        Entry { bytes: Message::default().bytes(field, &message.0).0, kind: PhantomData }
    }

    /// Begins a log, by the key that signs it.
    pub fn init(public_key: &str) -> Self {
        Self::new(1, Message::default().text(1, public_key).text(2, "sha256"))
    }

    /// Gives permissions to a key.
    pub fn grant(public_key: &str, permissions: &[K::Permission]) -> Self {
        Self::new(2, Message::default().text(1, public_key).permissions(permissions))
    }

    /// Takes permissions from a key id.
    pub fn revoke(key_id: &str, permissions: &[K::Permission]) -> Self {
        Self::new(3, Message::default().text(1, key_id).permissions(permissions))
    }
}

impl Entry<Package> {
    /// Releases a version, whose content has this digest.
    pub fn release(version: &str, content: &str) -> Self {
        Self::new(4, Message::default().text(1, version).text(2, content))
    }

    /// Yanks a version.
    pub fn yank(version: &str) -> Self {
        Self::new(5, Message::default().text(1, version))
    }
}

impl Entry<Operator> {
    /// Defines a namespace.
    pub fn define_namespace(name: &str) -> Self {
        Self::new(4, Message::default().text(1, name))
    }

    /// Imports a namespace from another registry.
    pub fn import_namespace(name: &str, registry: &str) -> Self {
        Self::new(5, Message::default().text(1, name).text(2, registry))
    }
}

/// A record that is to be signed.
#[derive(Clone, Debug)]
pub struct NewRecord<K: LogKind> {
    /// The text of the id of the record before it.
    pub prev: Option<String>,
    /// The version of the protocol: 1 is the newest.
    pub version: u32,
    /// When the record is made.
    pub timestamp: SystemTime,
    /// What it does, in order.
    pub entries: Vec<Entry<K>>,
}

impl<K: LogKind> NewRecord<K> {
    /// The record's bytes.
    pub fn contents(&self) -> Vec<u8> {
        let (seconds, nanos) = parts(self.timestamp);
        let time = Message::default().number(1, seconds as u64).number(2, nanos.into());
        let link = match &self.prev {
            Some(prev) => Message::default().bytes(1, prev.as_bytes()),
            None => Message::default(),
        };
        let head = link.number(2, self.version.into()).bytes(3, &time.0);
        self.entries.iter().fold(head, |record, entry| record.bytes(4, &entry.bytes)).0
    }

    /// The envelope of the record, signed under a key id: `sign` gives the text of the signature of a message. Where it fails, so does
    /// this, with its error.
    pub fn signed<E>(&self, key_id: &str, sign: impl FnOnce(&[u8]) -> Result<String, E>) -> Result<Vec<u8>, E> {
        let contents = self.contents();
        let signature = sign(&message::<K>(&contents))?;
        Ok(envelope(&contents, key_id, &signature))
    }
}

/// What a record's signature signs.
pub fn message<K: LogKind>(contents: &[u8]) -> Vec<u8> {
    [K::SIGNATURE_PREFIX, contents].concat()
}

/// The envelope of a record's bytes, with the text of its signature.
pub fn envelope(contents: &[u8], key_id: &str, signature: &str) -> Vec<u8> {
    Message::default().bytes(1, contents).text(2, key_id).text(3, signature).0
}

// Seconds since 1970, rounded down, and nanoseconds.
fn parts(time: SystemTime) -> (i64, u32) {
    match time.duration_since(SystemTime::UNIX_EPOCH) {
        Ok(since) => (since.as_secs() as i64, since.subsec_nanos()),
        Err(error) => {
            let before = error.duration();
            let (whole, part) = (before.as_secs() as i64, before.subsec_nanos());
            // The earliest time is 2^63 seconds before, which is its own opposite.
            match part {
                0 => (whole.wrapping_neg(), 0),
                _ => (-whole - 1, 1_000_000_000 - part),
            }
        }
    }
}

// Fields in the wire format of protobuf, by rising number.
#[derive(Default)]
struct Message(Vec<u8>);

impl Message {
    fn varint(&mut self, mut value: u64) {
        while value >= 128 {
            self.0.push(value as u8 | 128);
            value >>= 7;
        }
        self.0.push(value as u8);
    }

    fn number(mut self, field: u8, value: u64) -> Self {
        if value != 0 {
            self.varint(u64::from(field) * 8);
            self.varint(value);
        }
        self
    }

    fn bytes(mut self, field: u8, value: &[u8]) -> Self {
        self.varint(u64::from(field) * 8 + 2);
        self.varint(value.len() as u64);
        self.0.extend_from_slice(value);
        self
    }

    fn text(self, field: u8, value: &str) -> Self {
        if value.is_empty() {
            self
        } else {
            self.bytes(field, value.as_bytes())
        }
    }

    fn permissions<P: Permission>(self, permissions: &[P]) -> Self {
        let numbers: Vec<u8> = permissions.iter().map(|it| it.number()).collect();
        if numbers.is_empty() {
            self
        } else {
            self.bytes(2, &numbers)
        }
    }
}
