//! Whether checkpoints are signed by keys that an operator log lets sign. Libcrypto makes the keys and the signatures.
#![cfg(feature = "openssl")]
mod publishing;

use publishing::{key, next, signed};
use weoldrin::p256::{key_id, sha256_text, SigningKey};
use weoldrin::records::Entry;
use weoldrin::{Checkpoint, Error, Operator, OperatorLog, OperatorPermission};

type Tested = Result<(), Box<dyn std::error::Error>>;

// A key of an algorithm that the library does not verify.
const WORD: &str = "word:AAAA";
const OTHER_WORD: &str = "word:AAAB";

fn checkpoint() -> Checkpoint {
    let (log_root, map_root) = (sha256_text(b"log"), sha256_text(b"map"));
    Checkpoint { log_root, log_length: 8, map_root, timestamp: (1 << 32) + 5 }
}

// The checkpoints that differ from that one in a field.
fn others() -> Vec<Checkpoint> {
    let it = checkpoint();
    vec![
        Checkpoint { log_root: sha256_text(b"other"), ..it.clone() },
        Checkpoint { log_length: 9, ..it.clone() },
        Checkpoint { log_length: 8 + (1 << 32), ..it.clone() },
        Checkpoint { map_root: sha256_text(b"other"), ..it.clone() },
        Checkpoint { timestamp: 5, ..it.clone() },
        Checkpoint { timestamp: (1 << 32) + 6, ..it.clone() },
        Checkpoint { log_root: it.map_root.clone(), map_root: it.log_root.clone(), ..it.clone() },
        Checkpoint { log_length: it.timestamp, timestamp: it.log_length, ..it },
    ]
}

// The keys of an operator log, by what they may do in it.
struct Keys {
    // Begins the log, and so holds all permissions.
    first: SigningKey,
    // Was given `commit` beside another permission, and alone.
    second: SigningKey,
    third: SigningKey,
    // Was given another permission, and was given `commit` and had it taken.
    defines: SigningKey,
    revoked: SigningKey,
    // Stands in no record.
    unknown: SigningKey,
}

fn append(log: &mut OperatorLog, signer: &SigningKey, entries: Vec<Entry<Operator>>) {
    let envelope = signed(&next(log, entries), signer, signer);
    log.append_signed(&envelope).expect("a lawful record");
}

fn operators() -> (OperatorLog, Keys) {
    use OperatorPermission::{Commit, DefineNamespace, ImportNamespace};
    let keys = Keys { first: key(), second: key(), third: key(), defines: key(), revoked: key(), unknown: key() };
    let mut log = OperatorLog::new().expect("a log");
    let entries = vec![
        Entry::init(keys.first.public_key()),
        Entry::grant(keys.second.public_key(), &[DefineNamespace, Commit]),
        Entry::grant(keys.third.public_key(), &[Commit]),
        Entry::grant(keys.defines.public_key(), &[DefineNamespace, ImportNamespace]),
        Entry::grant(keys.revoked.public_key(), &[Commit, ImportNamespace]),
        Entry::grant(WORD, &[Commit]),
        Entry::grant(OTHER_WORD, &[DefineNamespace]),
    ];
    append(&mut log, &keys.first, entries);
    append(&mut log, &keys.third, vec![Entry::revoke(&key_id(keys.revoked.public_key()), &[Commit])]);
    (log, keys)
}

// A log and the one that goes on from its saved state.
fn both(log: OperatorLog) -> Result<[OperatorLog; 2], Error> {
    let resumed = OperatorLog::from_json(&log.to_json()?)?;
    Ok([log, resumed])
}

fn signature(signer: &SigningKey, checkpoint: &Checkpoint) -> String {
    signer.sign(&checkpoint.message().expect("a message")).expect("a signature")
}

#[test]
fn keys_that_may_sign() -> Tested {
    let (log, keys) = operators();
    let it = checkpoint();
    for log in both(log)? {
        for signer in [&keys.first, &keys.second, &keys.third] {
            let id = key_id(signer.public_key());
            assert!(log.key_has_permission_to_sign_checkpoints(&id)?);
            assert!(log.verify_checkpoint(&it, &id, &signature(signer, &it))?);
            for other in others() {
                assert!(!log.verify_checkpoint(&other, &id, &signature(signer, &it))?, "{other:?}");
                assert!(!log.verify_checkpoint(&it, &id, &signature(signer, &other))?, "{other:?}");
                assert!(log.verify_checkpoint(&other, &id, &signature(signer, &other))?, "{other:?}");
            }
            for other in [&keys.first, &keys.second, &keys.third].into_iter().filter(|other| !std::ptr::eq(*other, signer)) {
                assert!(!log.verify_checkpoint(&it, &id, &signature(other, &it))?);
            }
        }
    }
    Ok(())
}

/// These are no reason to look at the signature, nor at its text.
#[test]
fn keys_that_may_not_sign() -> Tested {
    let (log, keys) = operators();
    let it = checkpoint();
    for log in both(log)? {
        for signer in [&keys.defines, &keys.revoked, &keys.unknown] {
            let id = key_id(signer.public_key());
            assert!(!log.key_has_permission_to_sign_checkpoints(&id)?);
            for text in [signature(signer, &it), "ecdsa-p256:!".into(), String::new()] {
                assert!(!log.verify_checkpoint(&it, &id, &text)?, "{text}");
            }
        }
        let text = signature(&keys.first, &it);
        let id = key_id(keys.first.public_key());
        for other in ["", "sha256:00", "é", &id[..id.len() - 1], &id.to_uppercase(), keys.first.public_key()] {
            assert!(!log.verify_checkpoint(&it, other, &text)?, "{other}");
        }
    }
    for log in both(OperatorLog::new()?)? {
        let text = signature(&keys.first, &it);
        assert!(!log.verify_checkpoint(&it, &key_id(keys.first.public_key()), &text)?);
    }
    Ok(())
}

#[test]
fn signatures_of_other_texts() -> Tested {
    let (log, keys) = operators();
    let it = checkpoint();
    let id = key_id(keys.first.public_key());
    let text = signature(&keys.first, &it);
    let message = it.message()?;
    let without_prefix = &message[b"WARG-CHECKPOINT-SIGNATURE-V0:".len()..];
    for log in both(log)? {
        for signed in [without_prefix, &message[..message.len() - 1], b""] {
            assert!(!log.verify_checkpoint(&it, &id, &keys.first.sign(signed)?)?);
        }
        for other in ["ecdsa-p256:", "ecdsa-p256:AA==", "ecdsa-p384:AAAA", WORD] {
            assert!(!log.verify_checkpoint(&it, &id, other)?, "{other}");
        }
        // A digit near the end.
        let (start, end) = text.split_at(text.len() - 8);
        let forged = format!("{start}{}{}", if end.starts_with('A') { 'B' } else { 'A' }, &end[1..]);
        assert!(!log.verify_checkpoint(&it, &id, &forged)?);
        for unreadable in ["", "ecdsa-p256", ":AAAA", "ecdsa-p256:!", "ecdsa-p256:AAA", &format!("{text}\n"), "é"] {
            is_bad_text(log.verify_checkpoint(&it, &id, unreadable), unreadable);
        }
    }
    Ok(())
}

#[test]
fn keys_of_other_algorithms() -> Tested {
    let (log, _) = operators();
    let it = checkpoint();
    for log in both(log)? {
        for text in ["word:AAAA", "ecdsa-p256:AAAA", "", "!"] {
            let answer = log.verify_checkpoint(&it, &key_id(WORD), text);
            assert_eq!(answer, Err(Error::UnknownAlgorithm), "{text}");
            assert!(!log.verify_checkpoint(&it, &key_id(OTHER_WORD), text)?, "{text}");
        }
    }
    Ok(())
}

#[test]
fn roots_of_no_hash() -> Tested {
    let (log, keys) = operators();
    let it = checkpoint();
    let text = signature(&keys.first, &it);
    for log in both(log)? {
        for id in [key_id(keys.first.public_key()), key_id(keys.unknown.public_key()), key_id(WORD)] {
            for wrong in ["", "sha256:00", "é", &it.log_root[..70]] {
                is_bad_text(log.verify_checkpoint(&Checkpoint { log_root: wrong.into(), ..it.clone() }, &id, &text), wrong);
                is_bad_text(log.verify_checkpoint(&Checkpoint { map_root: wrong.into(), ..it.clone() }, &id, &text), wrong);
            }
        }
    }
    Ok(())
}

fn is_bad_text(answer: Result<bool, Error>, text: &str) {
    match answer {
        Err(Error::BadArgument(Some(reason))) => assert!(reason.name == "BadText" && !reason.sentence.is_empty(), "{text}"),
        answer => panic!("{answer:?} of {text}"),
    }
}

/// Whoever may sign changes with the log.
#[test]
fn a_key_loses_and_gets_the_permission() -> Tested {
    let (mut log, keys) = operators();
    let it = checkpoint();
    let (second, defines) = (key_id(keys.second.public_key()), key_id(keys.defines.public_key()));
    let (by_second, by_defines) = (signature(&keys.second, &it), signature(&keys.defines, &it));
    assert!(log.verify_checkpoint(&it, &second, &by_second)? && !log.verify_checkpoint(&it, &defines, &by_defines)?);
    let head = (log.head()?, log.len()?);
    assert_eq!(head, (log.head()?, 2));
    let permissions = [OperatorPermission::Commit];
    let entries = vec![Entry::revoke(&second, &permissions), Entry::grant(keys.defines.public_key(), &permissions)];
    append(&mut log, &keys.first, entries);
    assert!(!log.verify_checkpoint(&it, &second, &by_second)? && log.verify_checkpoint(&it, &defines, &by_defines)?);
    Ok(())
}
