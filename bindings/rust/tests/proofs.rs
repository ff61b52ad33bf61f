//! Proofs of a registry's log of 8 leaves and of its map of two logs, worked out elsewhere, and each forged.
use weoldrin::proofs::{verify_absence, verify_consistency, verify_inclusion, verify_presence};
use weoldrin::Error;

type Tested = Result<(), Error>;

// The digests of the texts `log 0`, `record 5` and so on.
const LOG_0: &str = "sha256:f24e3c07541a1385301129bde0a481e00c71972691b5e5788e97a16cf187d79b";
const LOG_1: &str = "sha256:87fab3984f3589b084e27c67eac41bcb8aae0014d145cde22d561308e7117278";
const LOG_2: &str = "sha256:d912d1199b4042f4dfe339e1070db6de911b4fa88de09b22f6fd5f803449e782";
const RECORD_3: &str = "sha256:7322e1c393bf2dffd7c20450a6b421b8681388696b5faee4e5d21cf2d358eb58";
const RECORD_5: &str = "sha256:28fdd77254977237364a167ba289ff718fbe76799cfd983dbf447346fa62a033";
const RECORD_6: &str = "sha256:ff265ddacaf872945c31beb9ab4820014bfe1f9990967ee612d9e9578d843126";

// The roots of the first leaves of the log. The record at a place has the number of the place, its log that of the place modulo 3.
const ROOT_0: &str = "sha256:e3b0c44298fc1c149afbf4c8996fb92427ae41e4649b934ca495991b7852b855";
const ROOT_5: &str = "sha256:55dbd0f8d25f3b9a260a2cc1c48008983e972732b921e58962ed64c4cb859fca";
const ROOT_6: &str = "sha256:1ea551254584ab55c648eee900f31a3fb7bb2d5474d3ea0fa23caa2905b6e9c5";
const ROOT_7: &str = "sha256:93a75471fa311dc2a0b4d46940d888e91e5c0331a242120c39c1dd8ce85f57f3";
const ROOT_8: &str = "sha256:0915e5e33416c991c2ac5d07c3499bbf68952d248c16afdc509217beede803e8";
// The root of the map of the logs 0 and 1, whose last records are 6 and 7.
const MAP_ROOT: &str = "sha256:6b3b29793c461452ef689fdfac26511b3862f7b70a4f576163ca60308bad21e6";

// Of the leaf at 5 of 8, of the first 6 leaves of 8, of the log 0 in the map, and that the log 2 is not there.
const INCLUSION: &str =
    "bML0VncumO1gymhI9p9DawMcQnVTNa2WUrNw14Aq7DELD7yQO/3GX1TnDyNdlyNl+BI5/0o0nLbP5Kt1TH2/cg371IIl6nKYXW5cNRhz0vRw+5C8x4Ij\
     FkOBx8eooRUN";
const CONSISTENCY: &str =
    "wvE5Wb/Jqop3nsQ6f2wHydAFG6uJNOVcji8dnUA6//YLD7yQO/3GX1TnDyNdlyNl+BI5/0o0nLbP5Kt1TH2/cg371IIl6nKYXW5cNRhz0vRw+5C8x4Ij\
     FkOBx8eooRUN";
const PRESENCE: &str = "//////////////////////////////////////////3A8d/zksmUM6URQFUFx4j90WyBlQhgSMcs1XArvTUtmA==";
const ABSENCE: &str =
    "//////////////////////////////////////////kD9Qnw3FPJsRDX8sHizDLkLf83af8CgoV9sRxfkXpx08Dx3/OSyZQzpRFAVQXHiP3RbIGVCGBI\
     xyzVcCu9NS2Y";

/// The proof with another digit in its last hash.
fn changed(proof: &str) -> String {
    let (start, end) = proof.split_at(proof.len() - 8);
    format!("{start}{}{}", if end.starts_with('A') { 'B' } else { 'A' }, &end[1..])
}

/// The call refuses texts that are no hash, by the name of that fault.
fn refuses_texts(call: impl Fn(&str) -> Result<bool, Error>) {
    for wrong in ["sha256", "sha256:00", "!", "A", "\0", "é"] {
        assert_eq!(fault_of(call(wrong)), "BadText", "{wrong:?}");
    }
}

/// The call refuses texts that are no proof, and names the fault.
fn names_faults(call: impl Fn(&str) -> Result<bool, Error>) {
    for wrong in ["sha256", "sha256:00", "!", "A", "\0", "é"] {
        assert_eq!(fault_of(call(wrong)), "BadBase64", "{wrong:?}");
    }
}

/// The name of the fault that an answer says.
fn fault_of(answer: Result<bool, Error>) -> String {
    match answer {
        Err(Error::BadArgument(Some(reason))) => reason.name,
        _ => format!("{answer:?}"),
    }
}

#[test]
fn inclusion() -> Tested {
    assert!(verify_inclusion(LOG_2, RECORD_5, 5, 8, ROOT_8, INCLUSION)?);
    assert!(verify_inclusion(LOG_2, &RECORD_5.to_uppercase().replace("SHA", "sha"), 5, 8, ROOT_8, INCLUSION)?);
    assert!(!verify_inclusion(LOG_2, RECORD_5, 4, 8, ROOT_8, INCLUSION)?);
    assert!(!verify_inclusion(LOG_2, RECORD_6, 5, 8, ROOT_8, INCLUSION)?);
    assert!(!verify_inclusion(LOG_1, RECORD_5, 5, 8, ROOT_8, INCLUSION)?);
    assert!(!verify_inclusion(LOG_2, RECORD_5, 5, 8, ROOT_7, INCLUSION)?);
    assert!(!verify_inclusion(LOG_2, RECORD_5, 5, 8, ROOT_8, &changed(INCLUSION))?);
    assert!(!verify_inclusion(LOG_2, RECORD_5, 5, 8, ROOT_8, CONSISTENCY)?);
    assert!(!verify_inclusion(LOG_2, RECORD_5, 5, 8, ROOT_8, "")?);
    refuses_texts(|it| verify_inclusion(it, RECORD_5, 5, 8, ROOT_8, INCLUSION));
    refuses_texts(|it| verify_inclusion(LOG_2, it, 5, 8, ROOT_8, INCLUSION));
    refuses_texts(|it| verify_inclusion(LOG_2, RECORD_5, 5, 8, it, INCLUSION));
    names_faults(|it| verify_inclusion(LOG_2, RECORD_5, 5, 8, ROOT_8, it));
    Ok(())
}

/// The proof has the same form in a log of 7: a root is worth nothing without the length that is signed with it.
#[test]
fn a_length_is_taken_on_trust() -> Tested {
    assert!(verify_inclusion(LOG_2, RECORD_5, 5, 7, ROOT_8, INCLUSION)?);
    assert!(!verify_inclusion(LOG_2, RECORD_5, 5, 6, ROOT_8, INCLUSION)?);
    assert!(!verify_inclusion(LOG_2, RECORD_5, 5, 9, ROOT_8, INCLUSION)?);
    Ok(())
}

#[test]
fn consistency() -> Tested {
    assert!(verify_consistency(6, ROOT_6, 8, ROOT_8, CONSISTENCY)?);
    assert!(verify_consistency(8, ROOT_8, 8, ROOT_8, "")?);
    assert!(verify_consistency(0, ROOT_0, 8, ROOT_8, "")?);
    assert!(!verify_consistency(0, ROOT_5, 8, ROOT_8, "")?);
    assert!(!verify_consistency(5, ROOT_5, 8, ROOT_8, CONSISTENCY)?);
    assert!(!verify_consistency(8, ROOT_8, 6, ROOT_6, CONSISTENCY)?);
    assert!(!verify_consistency(8, ROOT_8, 8, ROOT_7, "")?);
    assert!(!verify_consistency(6, ROOT_6, 8, ROOT_8, &changed(CONSISTENCY))?);
    refuses_texts(|it| verify_consistency(6, it, 8, ROOT_8, CONSISTENCY));
    refuses_texts(|it| verify_consistency(6, ROOT_6, 8, it, CONSISTENCY));
    names_faults(|it| verify_consistency(6, ROOT_6, 8, ROOT_8, it));
    Ok(())
}

#[test]
fn presence() -> Tested {
    assert!(verify_presence(LOG_0, RECORD_6, MAP_ROOT, PRESENCE)?);
    assert!(!verify_presence(LOG_0, RECORD_3, MAP_ROOT, PRESENCE)?);
    assert!(!verify_presence(LOG_1, RECORD_6, MAP_ROOT, PRESENCE)?);
    assert!(!verify_presence(LOG_0, RECORD_6, ROOT_8, PRESENCE)?);
    assert!(!verify_presence(LOG_0, RECORD_6, MAP_ROOT, &changed(PRESENCE))?);
    refuses_texts(|it| verify_presence(it, RECORD_6, MAP_ROOT, PRESENCE));
    refuses_texts(|it| verify_presence(LOG_0, it, MAP_ROOT, PRESENCE));
    refuses_texts(|it| verify_presence(LOG_0, RECORD_6, it, PRESENCE));
    names_faults(|it| verify_presence(LOG_0, RECORD_6, MAP_ROOT, it));
    assert_eq!(fault_of(verify_presence(LOG_0, RECORD_6, MAP_ROOT, "")), "BadLength");
    Ok(())
}

#[test]
fn absence() -> Tested {
    assert!(verify_absence(LOG_2, MAP_ROOT, ABSENCE)?);
    assert!(!verify_absence(LOG_0, MAP_ROOT, PRESENCE)?);
    assert!(!verify_absence(LOG_1, MAP_ROOT, ABSENCE)?);
    assert!(!verify_absence(LOG_2, ROOT_8, ABSENCE)?);
    assert!(!verify_absence(LOG_2, MAP_ROOT, &changed(ABSENCE))?);
    refuses_texts(|it| verify_absence(it, MAP_ROOT, ABSENCE));
    refuses_texts(|it| verify_absence(LOG_2, it, ABSENCE));
    names_faults(|it| verify_absence(LOG_2, MAP_ROOT, it));
    Ok(())
}

#[test]
fn least_and_greatest_numbers() -> Tested {
    for (place, length) in
        [(0, 0), (5, 0), (8, 8), (5, u64::MAX), (u64::MAX, 8), (u64::MAX - 1, u64::MAX), (u64::MAX, u64::MAX)]
    {
        assert!(!verify_inclusion(LOG_2, RECORD_5, place, length, ROOT_8, INCLUSION)?, "{place} of {length}");
    }
    for (old, new) in [(0, u64::MAX), (6, u64::MAX), (u64::MAX, 8), (u64::MAX, u64::MAX), (u64::MAX - 1, u64::MAX)] {
        assert!(!verify_consistency(old, ROOT_6, new, ROOT_8, CONSISTENCY)?, "{old} to {new}");
    }
    assert!(verify_consistency(0, ROOT_0, 0, ROOT_0, "")?);
    assert!(verify_consistency(u64::MAX, ROOT_8, u64::MAX, ROOT_8, "")?);
    assert!(!verify_consistency(u64::MAX, ROOT_8, u64::MAX, ROOT_7, "")?);
    Ok(())
}

#[test]
fn lengths_of_texts() -> Tested {
    // 64 hashes are the most that a proof on a log has, and 256 that one on a map has behind its 32 bytes.
    assert!(!verify_inclusion(LOG_2, RECORD_5, 5, 8, ROOT_8, &format!("{}AAA=", "AAAA".repeat(682)))?);
    for (groups, fault) in [(1, "BadLength"), (33, "BadLength"), (683, "BadLength"), (684, "TooLong"), (700_000, "TooLong")]
    {
        let answer = verify_inclusion(LOG_2, RECORD_5, 5, 8, ROOT_8, &"AAAA".repeat(groups));
        assert_eq!(fault_of(answer), fault, "{groups}");
    }
    for (groups, fault) in [(1, "BadLength"), (2742, "BadLength"), (2743, "TooLong"), (700_000, "TooLong")] {
        let answer = verify_absence(LOG_2, MAP_ROOT, &"AAAA".repeat(groups));
        assert_eq!(fault_of(answer), fault, "{groups}");
    }
    Ok(())
}
