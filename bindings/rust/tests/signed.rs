//! What the library verifies by itself: signatures by their texts, and those of the records that it appends. No OpenSSL is needed.
use weoldrin::{p256, verify, Error, OperatorLog, PackageLog, SignatureCheck};

// The example of RFC 6979, A.2.5, with SHA-256 and the message `sample`.
const KEY: &str = "ecdsa-p256:A2D+1LolWp0xyWHrdMY1bWjASbiSO2H6bOZpYi5g8p+2";
const SIGNATURE: &str =
    "ecdsa-p256:MEYCIQDv1IsqrLao/RFA3ZzUXoHWnSyHe1aq+ZHDTQ6oTq83FgIhAPfLHJQtZXxB1DbHobbin2Xz6QDbua/0Bk3Eqy+EOs2o";

type Tested = Result<(), Error>;

// The envelopes of a log of the examples, an envelope a line in hex.
fn envelopes(name: &str) -> Vec<Vec<u8>> {
    let path = format!("{}/../../examples/{name}", env!("CARGO_MANIFEST_DIR"));
    let text = std::fs::read_to_string(path).expect("an example");
    let lines = text.lines().filter(|it| !it.starts_with('#'));
    let byte = |line: &str, at: usize| u8::from_str_radix(&line[at..at + 2], 16).expect("hex");
    lines.map(|it| (0..it.len()).step_by(2).map(|at| byte(it, at)).collect()).collect()
}

// Appending has this error, and leaves the log as it was.
fn stays(log: &mut PackageLog, envelope: &[u8], wanted: impl Fn(&Error) -> bool) -> Tested {
    let before = (log.head()?, log.to_json()?);
    let error = log.append_signed(envelope).expect_err("an error");
    assert!(wanted(&error), "{error:?}");
    assert_eq!((log.head()?, log.to_json()?), before);
    Ok(())
}

fn refused_as(name: &'static str) -> impl Fn(&Error) -> bool {
    move |error| matches!(error, Error::Refused(reason) if reason.name == name && !reason.sentence.is_empty())
}

#[test]
fn signatures_by_their_texts() -> Tested {
    assert!(verify(KEY, b"sample", SIGNATURE)?);
    for message in [&b""[..], b"simple", b"sample\0"] {
        assert!(!verify(KEY, message, SIGNATURE)?);
    }
    // What can be read and is no key, nor a signature.
    let long = format!("ecdsa-p256:{}", "A".repeat(1 << 20));
    for text in ["ecdsa-p256:", "ecdsa-p256:AA==", long.as_str(), KEY, &format!("{SIGNATURE}AA==")] {
        assert!(!verify(KEY, b"sample", text)?, "{text}");
    }
    for text in ["ecdsa-p256:", "ecdsa-p256:AA==", long.as_str(), SIGNATURE, &format!("{KEY}AAAA")] {
        assert!(!verify(text, b"sample", SIGNATURE)?, "{text}");
    }
    assert!(!verify(KEY, b"sample", "ecdsa-p384:AAAA")?);
    Ok(())
}

// The texts are told as ones that can't be read.
fn is_bad_text(answer: Result<bool, Error>, text: &str) {
    match answer {
        Err(Error::BadArgument(Some(reason))) => assert!(reason.name == "BadText" && !reason.sentence.is_empty(), "{text}"),
        answer => panic!("{answer:?} of {text}"),
    }
}

#[test]
fn texts_that_cannot_be_read() {
    for digits in ["!", "AAA", " AAAA", "AAAA\n", "AAAA=", "AAAA====", "AAAA\0", "\u{661}\u{662}\u{663}\u{664}", "\u{1f511}"]
    {
        let text = format!("ecdsa-p256:{digits}");
        is_bad_text(verify(KEY, b"sample", &text), &text);
        is_bad_text(verify(&text, b"sample", SIGNATURE), &text);
        assert!(!p256::verify(&SignatureCheck::new(&text, b"sample", SIGNATURE)), "{text}");
    }
    for text in ["", "ecdsa-p256", ":AAAA"] {
        is_bad_text(verify(KEY, b"sample", text), text);
        is_bad_text(verify(text, b"sample", SIGNATURE), text);
    }
}

#[test]
fn keys_of_other_algorithms() {
    for key in ["toy:YWxpY2U=", "ecdsa-p384:AAAA", "ECDSA-P256:AAAA", " ecdsa-p256:AAAA", "ecdsa-p256\0:AAAA"] {
        // The signature of such a key is not read.
        for signature in [SIGNATURE, "", "\u{1f511}"] {
            assert_eq!(verify(key, b"sample", signature), Err(Error::UnknownAlgorithm), "{key}");
            assert!(!p256::verify(&SignatureCheck::new(key, b"sample", signature)), "{key}");
        }
    }
    let said = Error::UnknownAlgorithm.to_string();
    assert!(said.contains("ask(envelope) and append_answered") && said.contains("append(envelope, verify)"), "{said}");
}

#[test]
fn a_log_is_appended() -> Tested {
    let envelopes = envelopes("p256/package.hex");
    for mut log in [PackageLog::new()?, PackageLog::from_json("{}")?] {
        stays(&mut log, b"\x0b", |it| matches!(it, Error::NoEnvelope(reason) if reason.name == "ProtobufEnvelope.Group"))?;
        stays(&mut log, &envelopes[1], refused_as("PreviousHashOnFirstRecord"))?;
        log.append_signed(&envelopes[0])?;
        stays(&mut log, &envelopes[0], refused_as("NoPreviousHashAfterInit"))?;
        for envelope in &envelopes[1..] {
            // Another digit near the end of the signature, which is the last field.
            let mut forged = envelope.clone();
            let digit = forged.len() - 8;
            forged[digit] = if forged[digit] == b'A' { b'B' } else { b'A' };
            stays(&mut log, &forged, refused_as("SignatureError"))?;
            if let Some(longer) = longer(envelope) {
                stays(&mut log, &longer, refused_as("SignatureError"))?;
            }
            // A question that was asked before is of no matter.
            assert!(p256::verify(&log.ask(envelope)?));
            log.append_signed(envelope)?;
        }
        let mut asked = PackageLog::new()?;
        for envelope in &envelopes {
            asked.append(envelope, p256::verify)?;
        }
        assert_eq!((log.head()?, log.to_json()?), (asked.head()?, asked.to_json()?));
    }
    Ok(())
}

// The envelope with zeros behind the DER of its signature, in place of the padding of its base64, if it has some.
fn longer(envelope: &[u8]) -> Option<Vec<u8>> {
    let padding = envelope.iter().rev().take_while(|&&it| it == b'=').count();
    (padding > 0).then(|| [&envelope[..envelope.len() - padding], &b"AA"[..padding]].concat())
}

/// What is unlawful is refused whatever the algorithm, and the rest is left to the caller.
#[test]
fn a_log_of_another_algorithm() -> Tested {
    let envelopes = envelopes("package_releases.hex");
    let unknown = |it: &Error| *it == Error::UnknownAlgorithm;
    let mut log = PackageLog::new()?;
    stays(&mut log, &envelopes[0], unknown)?;
    log.append(&envelopes[0], |_| true)?;
    stays(&mut log, &envelopes[0], refused_as("NoPreviousHashAfterInit"))?;
    stays(&mut log, &envelopes[1], unknown)?;
    let question = log.ask(&envelopes[1])?;
    log.append_answered(&envelopes[1], &question, true)?;
    assert_eq!(log.len()?, 2);
    Ok(())
}

#[test]
fn a_log_of_operators() -> Tested {
    let envelopes = envelopes("operator_namespaces.hex");
    let mut log = OperatorLog::new()?;
    assert_eq!(log.append_signed(&envelopes[0]), Err(Error::UnknownAlgorithm));
    log.append(&envelopes[0], |_| true)?;
    assert_eq!(log.len()?, 1);
    Ok(())
}
