//! What logs answer, what wrong uses are refused for, and threads.
#![cfg(feature = "openssl")]
mod publishing;

use publishing::{entries, envelopes, key, log_of, next, signed, start};
use std::thread;
use std::time::Duration;
use weoldrin::p256::{key_id, sha256_text};
use weoldrin::records::{envelope, Entry};
use weoldrin::{
    library_version, record_id, Comparison, Error, Link, NamespaceState, Operator, OperatorLog, OperatorPermission, Package,
    PackageLog, PackagePermission, ReleaseState,
};

type Tested = Result<(), Box<dyn std::error::Error>>;

fn name<T: std::fmt::Debug>(answer: Result<T, Error>) -> String {
    let error = answer.expect_err("an error");
    error.reason().map(|it| it.name.clone()).unwrap_or_default()
}

#[test]
fn records_and_releases() -> Tested {
    let (alice, bob) = (key(), key());
    let envelopes = envelopes(4, &alice, &bob);
    let mut log = log_of(&envelopes);
    for (place, envelope) in envelopes.iter().enumerate() {
        let record = log.record(place)?.ok_or("a record")?;
        assert_eq!((&record.envelope, &record.id), (envelope, &record_id::<Package>(envelope)?));
    }
    assert_eq!(log.record(4)?, None);
    assert_eq!(log.record(usize::MAX)?, None);
    assert_eq!(log.head()?, Some(record_id::<Package>(&envelopes[3])?));
    assert_ne!(log.head()?, Some(record_id::<Operator>(&envelopes[3])?));
    let versions: Result<Vec<_>, _> = log.releases().map(|it| it.map(|it| it.version)).collect();
    assert_eq!(versions?, ["1.1.0", "1.2.0", "1.3.0"]);
    let latest = log.latest("<1.3")?.ok_or("a release")?;
    assert_eq!(Some(&latest), log.release("1.2.0")?.as_ref());
    assert_eq!((latest.timestamp, latest.yanked()), (start(), false));
    assert_eq!(latest.by, key_id(bob.public_key()));
    assert_eq!(latest.content(), Some(sha256_text(b"1.2.0").as_str()));
    let mut yank = next(&log, vec![Entry::yank("1.3.0")]);
    yank.timestamp += Duration::from_nanos(7);
    log.append_signed(&signed(&yank, &alice, &alice))?;
    let yanked = log.release("1.3.0")?.ok_or("a release")?;
    let (by, timestamp) = (key_id(alice.public_key()), yank.timestamp);
    assert_eq!(yanked.state, ReleaseState::Yanked { by, timestamp });
    assert_eq!((yanked.content(), log.latest("*")?), (None, Some(latest)));
    assert_eq!((log.latest(">=2")?, log.release("9.0.0")?), (None, None));
    Ok(())
}

#[test]
fn envelopes_are_written_anew() -> Tested {
    let (alice, bob) = (key(), key());
    let envelopes = envelopes(1, &alice, &bob);
    // A signature of no text, which a later one overrides, and a field of number 15, which no envelope has.
    let strange = [&b"\x1a\x00"[..], &envelopes[0], b"\x78\x01"].concat();
    let record = log_of(&[strange]).record(0)?.ok_or("a record")?;
    assert_eq!((&record.envelope, record.id), (&envelopes[0], record_id::<Package>(&envelopes[0])?));
    Ok(())
}

#[test]
fn keys_and_chains() -> Tested {
    let (alice, bob) = (key(), key());
    let log = log_of(&envelopes(2, &alice, &bob));
    let (alice_id, bob_id) = (key_id(alice.public_key()), key_id(bob.public_key()));
    let (release, yank) = (PackagePermission::Release, PackagePermission::Yank);
    assert_eq!(log.public_key(&bob_id)?.as_deref(), Some(bob.public_key()));
    assert_eq!(log.permissions(&alice_id)?, Some(vec![release, yank]));
    assert_eq!(log.permissions(&bob_id)?, Some(vec![release]));
    assert_eq!((log.permissions("nobody")?, log.public_key("nobody")?), (None, None));
    assert!(log.holds(&bob_id, release)? && !log.holds(&bob_id, yank)?);
    let links = [(0, 0), (0, 1)].map(|(record, entry)| Link { record, entry });
    assert_eq!(log.chain(&bob_id, release)?, Some(links.to_vec()));
    assert_eq!(log.chain(&bob_id, yank)?, None);
    Ok(())
}

#[test]
fn long_chains() -> Tested {
    let keys: Vec<_> = (0..40).map(|_| key()).collect();
    let release = PackagePermission::Release;
    let mut log = PackageLog::new()?;
    let begin = vec![Entry::init(keys[0].public_key()), Entry::grant(keys[1].public_key(), &[release])];
    log.append_signed(&signed(&next(&log, begin), &keys[0], &keys[0]))?;
    for pair in keys[1..].windows(2) {
        let grant = next(&log, vec![Entry::grant(pair[1].public_key(), &[release])]);
        log.append_signed(&signed(&grant, &pair[0], &pair[0]))?;
    }
    let chain = log.chain(&key_id(keys[39].public_key()), release)?.ok_or("a chain")?;
    assert_eq!((chain.len(), chain[39]), (40, Link { record: 38, entry: 0 }));
    Ok(())
}

#[test]
fn namespaces() -> Tested {
    let alice = key();
    let mut log = OperatorLog::new()?;
    let begin = vec![
        Entry::init(alice.public_key()),
        Entry::define_namespace("own"),
        Entry::import_namespace("other", "registry.example.com"),
    ];
    log.append_signed(&signed(&next(&log, begin), &alice, &alice))?;
    let registry = "registry.example.com".to_owned();
    assert_eq!(log.namespace_state("own")?, Some(NamespaceState::Defined));
    assert_eq!(log.namespace_state("other")?, Some(NamespaceState::Imported { registry }));
    assert_eq!(log.namespace_state("none")?, None);
    assert!(log.key_has_permission_to_sign_checkpoints(&key_id(alice.public_key()))?);
    let import = OperatorPermission::ImportNamespace;
    assert_eq!(log.permissions(&key_id(alice.public_key()))?.map(|it| it.contains(&import)), Some(true));
    Ok(())
}

/// The answer is that an argument is bad, by this name and with a sentence.
fn is_bad<T: std::fmt::Debug>(answer: Result<T, Error>, name: &str) {
    match answer {
        Err(Error::BadArgument(reason)) => {
            assert!(reason.map_or(false, |it| it.name == name && !it.sentence.is_empty()), "{name}");
        }
        answer => panic!("{answer:?}"),
    }
}

// How many records the logs say that they have.
fn counts(logs: &[&PackageLog]) -> Result<Vec<Option<usize>>, Error> {
    logs.iter().map(|it| Ok(it.last()?.and_then(|last| last.count))).collect()
}

#[test]
fn saved_states() -> Tested {
    let (alice, bob) = (key(), key());
    let mut log = log_of(&envelopes(3, &alice, &bob));
    let mut resumed = PackageLog::from_json(&log.to_json()?)?;
    assert_eq!((resumed.head()?, resumed.to_json()?), (log.head()?, log.to_json()?));
    is_bad(resumed.len(), "Resumed");
    is_bad(resumed.record(0), "Resumed");
    is_bad(resumed.chain("x", PackagePermission::Yank), "Resumed");
    is_bad(resumed.compare(&log), "Resumed");
    is_bad(log.compare(&resumed), "Resumed");
    is_bad(resumed.compare(&resumed), "Resumed");
    let mut counted = PackageLog::from_json_counted(&log.to_json()?, 3)?;
    let mut greatest = PackageLog::from_json_counted(&log.to_json()?, usize::MAX)?;
    assert_eq!(counts(&[&log, &resumed, &counted, &greatest])?, [Some(3), None, Some(3), Some(usize::MAX)]);
    let more = signed(&next(&log, entries(3, &alice, &bob)), &bob, &bob);
    log.append_signed(&more)?;
    for it in [&mut resumed, &mut counted, &mut greatest] {
        it.append_signed(&more)?;
        assert!(matches!(it.append_signed(&more), Err(Error::Refused(_))));
        assert_eq!(it.to_json()?, log.to_json()?);
    }
    assert_eq!(counts(&[&log, &resumed, &counted, &greatest])?, [Some(4), None, Some(4), None]);
    is_bad(counted.len(), "Resumed");
    assert_eq!(name(PackageLog::from_json_counted("[]", 3)), "WrongType");
    assert_eq!(name(PackageLog::from_json("[]")), "WrongType");
    assert_eq!(name(OperatorLog::from_json("{")), "NotJson");
    Ok(())
}

#[test]
fn comparisons() -> Tested {
    let (alice, bob) = (key(), key());
    let envelopes = envelopes(4, &alice, &bob);
    let (log, mut other) = (log_of(&envelopes), log_of(&envelopes[..2]));
    assert_eq!(log.compare(&log)?, Comparison::Same);
    assert_eq!(log.compare(&log_of(&envelopes))?, Comparison::Same);
    assert_eq!(log.compare(&other)?, Comparison::RightIsPrefix(2));
    assert_eq!(other.compare(&log)?, Comparison::LeftIsPrefix(2));
    let fork = vec![Entry::release("2.0.0", &sha256_text(b""))];
    other.append_signed(&signed(&next(&other, fork), &bob, &bob))?;
    assert_eq!(other.compare(&log)?, Comparison::Fork(2));
    Ok(())
}

#[test]
fn wrong_uses() -> Tested {
    let mut log = PackageLog::new()?;
    assert!(log.is_empty()?);
    assert_eq!(log.head()?, None);
    for requirement in ["one", ">=x", "\0", "1 2"] {
        is_bad(log.latest(requirement), "BadRequirement");
    }
    is_bad(log.release("1.0"), "BadVersion");
    assert_eq!(name(log.ask(b"\x0b")), "ProtobufEnvelope.Group");
    assert_eq!(name(log.append(b"", |_| true)), "Contents.MissingTime");
    assert_eq!(name(record_id::<Package>(b"\x0b")), "ProtobufEnvelope.Group");
    let none = weoldrin::SignatureCheck::new("no colon", b"", "toy:");
    is_bad(log.append_answered(b"", &none, true), "BadQuestion");
    // The text of an error that quotes a long key id.
    let (alice, bob) = (key(), key());
    let mut log = log_of(&envelopes(1, &alice, &bob));
    let nobody = "n".repeat(3_000_000);
    let contents = next(&log, vec![Entry::release("9.0.0", &sha256_text(b""))]).contents();
    let stranger = envelope(&contents, &nobody, "toy:");
    assert_eq!(name(log.ask(&stranger)), "UnauthorizedAction");
    let refused = log.append_signed(&stranger).expect_err("a refusal");
    assert!(refused.to_string().contains(&nobody));
    assert_eq!(library_version()?.split('.').count(), 3);
    Ok(())
}

#[test]
fn threads() -> Tested {
    let (alice, bob) = (key(), key());
    let envelopes = envelopes(40, &alice, &bob);
    let head = log_of(&envelopes).head()?;
    thread::scope(|scope| {
        for _ in 0..8 {
            scope.spawn(|| {
                for _ in 0..3 {
                    assert_eq!(log_of(&envelopes).head(), Ok(head.clone()));
                }
            });
        }
    });
    // One log is handed on from thread to thread.
    let mut log = PackageLog::new()?;
    for part in envelopes.chunks(5) {
        let part = part.to_vec();
        log = thread::spawn(move || {
            for envelope in &part {
                log.append_signed(envelope).expect("a lawful record");
            }
            log
        })
        .join()
        .map_err(|_| "a thread failed")?;
    }
    assert_eq!(log.head()?, head);
    Ok(())
}
