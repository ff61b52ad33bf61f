//! Records of the earliest and the latest times that can be written.
#![cfg(feature = "openssl")]
mod publishing;

use std::time::{Duration, SystemTime};
use weoldrin::p256::{key_id, sha256_text};
use weoldrin::records::{Entry, NewRecord};
use weoldrin::{Error, Last, PackageLog};

const BILLION: u32 = 1_000_000_000;

// The time so many seconds after 1970, or before it.
fn at(seconds: i64, nanos: u32) -> SystemTime {
    let (half, rest) = (seconds.unsigned_abs() / 2, seconds.unsigned_abs() - seconds.unsigned_abs() / 2);
    let (half, rest) = (Duration::from_secs(half), Duration::from_secs(rest));
    let start = SystemTime::UNIX_EPOCH;
    (if seconds < 0 { start - half - rest } else { start + half + rest }) + Duration::new(0, nanos)
}

#[test]
fn times_are_written_and_read() -> Result<(), Error> {
    let alice = publishing::key();
    for seconds in [i64::MIN, i64::MIN + 1, -2, -1, 0, 1, i64::MAX - 1, i64::MAX] {
        for nanos in [0, 1, BILLION / 2, BILLION - 1] {
            let entries = vec![Entry::init(alice.public_key()), Entry::release("1.0.0", &sha256_text(b""))];
            let record = NewRecord { prev: None, version: 1, timestamp: at(seconds, nanos), entries };
            let mut log = PackageLog::new()?;
            log.append_signed(&publishing::signed(&record, &alice, &alice))?;
            let latest = log.latest("*")?.expect("a release");
            assert_eq!(latest.timestamp, at(seconds, nanos), "{seconds} {nanos}");
            let last = Last { timestamp: at(seconds, nanos), version: 1, count: Some(1) };
            assert_eq!(log.last()?, Some(last));
            let yank = vec![Entry::yank("1.0.0")];
            let record = NewRecord { prev: log.head()?, version: 1, timestamp: at(i64::MAX, BILLION - 1), entries: yank };
            log.append_signed(&publishing::signed(&record, &alice, &alice))?;
            let yanked = log.releases().next().expect("a release")?.state;
            let (by, timestamp) = (key_id(alice.public_key()), at(i64::MAX, BILLION - 1));
            assert_eq!(yanked, weoldrin::ReleaseState::Yanked { by, timestamp });
        }
    }
    Ok(())
}

#[test]
fn a_signer_may_fail() {
    let alice = publishing::key();
    let entries = vec![Entry::<weoldrin::Package>::init(alice.public_key())];
    let record = NewRecord { prev: None, version: 1, timestamp: publishing::start(), entries };
    assert_eq!(record.signed("x", |_| Err("no token")), Err("no token"));
    assert!(record.signed::<()>("x", |_| Ok("toy:".to_owned())).is_ok());
}
