//! A log of 50 records by keys of P-256, each of which is forged in every way and refused, and then taken.
#![cfg(feature = "openssl")]
mod publishing;

use publishing::{entries, key, next, signed};
use weoldrin::p256::{self, key_id};
use weoldrin::records::{envelope, message};
use weoldrin::{Error, Package, PackageLog, SignatureCheck};

/// Appending is refused with an error of this name, and the log is as it was.
fn refused(log: &mut PackageLog, name: &str, append: impl Fn(&mut PackageLog) -> Result<(), Error>) {
    let before = (log.head(), log.len(), log.to_json());
    match append(log) {
        Err(Error::Refused(reason)) => assert_eq!(reason.name, name),
        other => panic!("{other:?} in place of {name}"),
    }
    assert_eq!((log.head(), log.len(), log.to_json()), before);
}

/// It is refused for its signature, by the library's verifier and by another one.
fn forged(log: &mut PackageLog, envelope: &[u8]) {
    refused(log, "SignatureError", |log| log.append_signed(envelope));
    refused(log, "SignatureError", |log| log.append(envelope, p256::verify));
    refused(log, "SignatureError", |log| log.append(envelope, p256::verify_by_openssl));
}

/// It is refused where this question was answered by yes.
fn misanswered(log: &mut PackageLog, envelope: &[u8], question: &SignatureCheck, name: &str) {
    refused(log, name, |log| log.append_answered(envelope, question, true));
}

/// The text of a signature with another last digit but the padding.
fn changed(signature: &str) -> String {
    let mut digits = signature.to_owned().into_bytes();
    let last = digits.len() - 8;
    digits[last] = if digits[last] == b'A' { b'B' } else { b'A' };
    String::from_utf8(digits).expect("base64")
}

#[test]
fn each_record_is_forged() -> Result<(), Box<dyn std::error::Error>> {
    let (alice, bob, mallory) = (key(), key(), key());
    let mut log = PackageLog::new()?;
    for place in 0..50 {
        let signer = if place == 0 { &alice } else { &bob };
        let record = next(&log, entries(place, &alice, &bob));
        let mut other = record.clone();
        other.timestamp += std::time::Duration::from_secs(1);
        let (contents, id) = (record.contents(), key_id(signer.public_key()));
        let signature = signer.sign(&message::<Package>(&contents))?;
        let right = envelope(&contents, &id, &signature);
        // By another key, with another message, with another signature.
        forged(&mut log, &signed(&record, signer, &mallory));
        forged(&mut log, &envelope(&other.contents(), &id, &signature));
        forged(&mut log, &envelope(&contents, &id, &changed(&signature)));
        // By the answer to another question: of another record, and of one that was not asked.
        let asked = log.ask(&signed(&other, signer, signer))?;
        assert!(p256::verify(&asked) && p256::verify_by_openssl(&asked));
        misanswered(&mut log, &right, &asked, "SignatureError");
        let made_up = SignatureCheck::new(mallory.public_key(), asked.message(), &signature);
        misanswered(&mut log, &right, &made_up, "SignatureError");
        let question = log.ask(&right)?;
        assert_eq!(question.key(), signer.public_key());
        assert_eq!(question.message(), message::<Package>(&contents));
        assert_eq!(question.signature(), signature);
        if place % 2 == 0 {
            log.append_signed(&right)?;
        } else {
            log.append_answered(&right, &question, p256::verify(&question))?;
        }
        // By an answer that was used.
        let name = if place == 0 { "NoPreviousHashAfterInit" } else { "RecordHashDoesNotMatch" };
        misanswered(&mut log, &right, &question, name);
    }
    assert_eq!(log.len()?, 50);
    Ok(())
}

#[test]
fn a_no_is_a_no() -> Result<(), Box<dyn std::error::Error>> {
    let (alice, bob) = (key(), key());
    let mut log = PackageLog::new()?;
    let record = next(&log, entries(0, &alice, &bob));
    let envelope = signed(&record, &alice, &alice);
    let mut asked = 0;
    let answer = log.append(&envelope, |_| {
        asked += 1;
        false
    });
    assert_eq!(answer.err().and_then(|it| it.reason().map(|it| it.name.clone())).as_deref(), Some("SignatureError"));
    assert_eq!((asked, log.len()?), (1, 0));
    Ok(())
}

#[test]
fn texts_of_keys_and_signatures() -> Result<(), Box<dyn std::error::Error>> {
    let (alice, message) = (key(), b"what is signed");
    let signature = alice.sign(message)?;
    let verified = |key: &str, signature: &str| {
        let question = SignatureCheck::new(key, message, signature);
        let answer = p256::verify(&question);
        assert_eq!(p256::verify_by_openssl(&question), answer, "{question:?}");
        answer
    };
    assert!(verified(alice.public_key(), &signature));
    let saved = p256::SigningKey::from_der(&alice.to_der()?)?;
    assert_eq!(saved.public_key(), alice.public_key());
    assert!(p256::SigningKey::from_der(b"none").is_err());
    let toy = signature.replace("ecdsa-p256", "toy");
    for wrong in ["", "ecdsa-p256", "ecdsa-p256:", "ecdsa-p256:!", "ecdsa-p256:AA==", toy.as_str(), &changed(&signature)] {
        assert!(!verified(alice.public_key(), wrong), "{wrong}");
    }
    // Points at infinity, off the curve, of another length or form; and one of another key.
    let off = format!("ecdsa-p256:Av{}", "/".repeat(42));
    for wrong in ["", "ecdsa-p256:", "ecdsa-p256:AA==", "toy:YWxpY2U=", off.as_str(), key().public_key()] {
        assert!(!verified(wrong, &signature), "{wrong}");
    }
    Ok(())
}
