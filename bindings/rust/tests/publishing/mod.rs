//! Logs that are signed by keys of P-256, for the tests.
#![allow(dead_code)]
use std::time::{Duration, SystemTime};
use weoldrin::p256::{key_id, sha256_text, SigningKey};
use weoldrin::records::{Entry, NewRecord};
use weoldrin::{Log, LogKind, Package, PackageLog, PackagePermission};

pub fn key() -> SigningKey {
    SigningKey::generate().expect("a key")
}

pub fn start() -> SystemTime {
    SystemTime::UNIX_EPOCH + Duration::new(1_700_000_000, 5)
}

/// A record that goes on from a log.
pub fn next<K: LogKind>(log: &Log<K>, entries: Vec<Entry<K>>) -> NewRecord<K> {
    NewRecord { prev: log.head().expect("the head"), version: 1, timestamp: start(), entries }
}

/// The envelope of a record, in the name of a signer's key, signed by a key.
pub fn signed<K: LogKind>(record: &NewRecord<K>, named: &SigningKey, key: &SigningKey) -> Vec<u8> {
    record.signed(&key_id(named.public_key()), |message| key.sign(message)).expect("a signature")
}

/// The entries of the record at a place: alice begins the log and lets bob release, who then releases a version a record.
pub fn entries(place: usize, alice: &SigningKey, bob: &SigningKey) -> Vec<Entry<Package>> {
    if place == 0 {
        let permissions = [PackagePermission::Release];
        vec![Entry::init(alice.public_key()), Entry::grant(bob.public_key(), &permissions)]
    } else {
        let version = format!("1.{place}.0");
        vec![Entry::release(&version, &sha256_text(version.as_bytes()))]
    }
}

/// The envelopes of a log of so many records.
pub fn envelopes(count: usize, alice: &SigningKey, bob: &SigningKey) -> Vec<Vec<u8>> {
    let mut log = PackageLog::new().expect("a log");
    let mut made = Vec::new();
    for place in 0..count {
        let signer = if place == 0 { alice } else { bob };
        made.push(signed(&next(&log, entries(place, alice, bob)), signer, signer));
        log.append_signed(&made[place]).expect("a lawful record");
    }
    made
}

/// The log that envelopes add up to.
pub fn log_of(envelopes: &[Vec<u8>]) -> PackageLog {
    let mut log = PackageLog::new().expect("a log");
    for envelope in envelopes {
        log.append_signed(envelope).expect("a lawful record");
    }
    log
}
