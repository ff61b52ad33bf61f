//! The JSON texts of signed checkpoints, by the members that docs/FORMATS.md names.
use weoldrin::{Checkpoint, Error, SignedCheckpoint};

type Tested = Result<(), Box<dyn std::error::Error>>;

const LOG_ROOT: &str = "sha256:0915e5e33416c991c2ac5d07c3499bbf68952d248c16afdc509217beede803e8";
const MAP_ROOT: &str = "sha256:6b3b29793c461452ef689fdfac26511b3862f7b70a4f576163ca60308bad21e6";

fn signed(log_length: u64, timestamp: u64, key_id: &str) -> SignedCheckpoint {
    let contents = Checkpoint { log_root: LOG_ROOT.into(), log_length, map_root: MAP_ROOT.into(), timestamp };
    SignedCheckpoint { contents, key_id: key_id.into(), signature: "toy:YWxpY2U=".into() }
}

// Its JSON, with the members in the order of their names; the key's id as it is quoted.
fn json_of(it: &SignedCheckpoint, quoted_id: &str) -> String {
    let (log_length, timestamp) = (it.contents.log_length, it.contents.timestamp);
    let contents =
        format!(r#""logLength":{log_length},"logRoot":"{LOG_ROOT}","mapRoot":"{MAP_ROOT}","timestamp":{timestamp}"#);
    format!(r#"{{"contents":{{{contents}}},"keyId":"{quoted_id}","signature":"toy:YWxpY2U="}}"#)
}

fn is_refused(answer: Result<impl std::fmt::Debug, Error>, name: &str, of: &str) {
    match answer {
        Err(Error::BadArgument(Some(reason))) => {
            assert!(reason.name == name && !reason.sentence.is_empty(), "{reason} of {of}")
        }
        answer => panic!("{answer:?} of {of}"),
    }
}

#[test]
fn texts_are_written_and_read_back() -> Tested {
    for number in [0, 1, 1 << 32, 1 << 53, 1 << 63, u64::MAX] {
        for other in [0, 1700000000, u64::MAX] {
            let it = signed(number, other, "sha256:00");
            assert_eq!(it.to_json()?, json_of(&it, "sha256:00"));
            assert_eq!(SignedCheckpoint::from_json(&it.to_json()?)?, it);
        }
    }
    for (id, quoted) in [("", ""), ("a\"b\\c\nd", r#"a\"b\\c\nd"#), ("é😀", "é😀")] {
        let it = signed(8, 9, id);
        assert_eq!(it.to_json()?, json_of(&it, quoted));
        assert_eq!(SignedCheckpoint::from_json(&it.to_json()?)?, it);
    }
    // A long one, whose text has no room at first.
    let it = signed(8, 9, &"\n".repeat(5000));
    assert_eq!(it.to_json()?, json_of(&it, &r"\n".repeat(5000)));
    assert_eq!(SignedCheckpoint::from_json(&it.to_json()?)?, it);
    Ok(())
}

/// Roots are written and read as their own texts, which have small digits, and what else a text has is passed over.
#[test]
fn other_texts_of_the_same() -> Tested {
    let it = signed(8, 9, "sha256:00");
    let upper = Checkpoint { map_root: MAP_ROOT.to_uppercase().replace("SHA", "sha"), ..it.contents.clone() };
    assert_eq!(SignedCheckpoint { contents: upper, ..it.clone() }.to_json()?, json_of(&it, "sha256:00"));
    let whole = json_of(&it, "sha256:00");
    assert_eq!(SignedCheckpoint::from_json(&whole.replace("0915e", "0915E"))?, it);
    assert_eq!(SignedCheckpoint::from_json(&format!(" {}\n", whole.replace(',', " ,\t")))?, it);
    assert_eq!(SignedCheckpoint::from_json(&whole.replacen('{', r#"{"more":[{"keyId":1.5}],"#, 1))?, it);
    assert_eq!(SignedCheckpoint::from_json(&whole.replace(r#""sha256:00""#, r#""\u0073ha256:00""#))?, it);
    Ok(())
}

#[test]
fn texts_of_none() {
    let whole = json_of(&signed(8, 9, "sha256:00"), "sha256:00");
    for name in ["contents", "logRoot", "logLength", "mapRoot", "timestamp", "keyId", "signature"] {
        is_refused(SignedCheckpoint::from_json(&whole.replace(name, "other")), "Missing", name);
    }
    for wrong in [":-8,", ":8.5,", ":\"8\",", ":null,", ":18446744073709551616,"] {
        is_refused(SignedCheckpoint::from_json(&whole.replace(":8,", wrong)), "WrongType", wrong);
    }
    for (part, wrong) in [(LOG_ROOT, ""), (MAP_ROOT, "sha256:00"), ("toy:", "toy"), ("toy:", ":"), ("YWxpY2U=", "!")] {
        is_refused(SignedCheckpoint::from_json(&whole.replace(part, wrong)), "BadText", wrong);
    }
    for wrong in ["", "{", "contents", &whole[1..], &whole[..whole.len() - 1], &format!("{whole}1")] {
        is_refused(SignedCheckpoint::from_json(wrong), "NotJson", wrong);
    }
    is_refused(SignedCheckpoint::from_json("[]"), "WrongType", "[]");
    is_refused(SignedCheckpoint::from_json("{}"), "Missing", "{}");
}

#[test]
fn arguments_of_no_form() {
    let it = signed(8, 9, "sha256:00");
    for wrong in ["", "sha256:00", "é", &LOG_ROOT[..70]] {
        let other = Checkpoint { log_root: wrong.into(), ..it.contents.clone() };
        is_refused(SignedCheckpoint { contents: other, ..it.clone() }.to_json(), "BadText", wrong);
        let other = Checkpoint { map_root: wrong.into(), ..it.contents.clone() };
        is_refused(SignedCheckpoint { contents: other, ..it.clone() }.to_json(), "BadText", wrong);
    }
    for wrong in ["", "toy", ":YWxpY2U=", "toy:!", "toy:YWxpY2U", "é"] {
        is_refused(SignedCheckpoint { signature: wrong.into(), ..it.clone() }.to_json(), "BadText", wrong);
    }
}
