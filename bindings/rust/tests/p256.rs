//! What is read as a key and as a signature of ECDSA P-256: the example of RFC 6979, A.2.5, with SHA-256 and the message `sample`.
use weoldrin::{p256, SignatureCheck};

const COMPRESSED: &str = "A2D+1LolWp0xyWHrdMY1bWjASbiSO2H6bOZpYi5g8p+2";
const UNCOMPRESSED: &str = "BGD+1LolWp0xyWHrdMY1bWjASbiSO2H6bOZpYi5g8p+2eQP+EAi4vJmkGunpVii8ZPLxsgwtfp9Rd6PClNRGIpk=";
const SIGNATURE: &str = "MEYCIQDv1IsqrLao/RFA3ZzUXoHWnSyHe1aq+ZHDTQ6oTq83FgIhAPfLHJQtZXxB1DbHobbin2Xz6QDbua/0Bk3Eqy+EOs2o";

/// What the verifiers say, which is one answer.
fn verified(question: &SignatureCheck) -> bool {
    let answer = p256::verify(question);
    #[cfg(feature = "openssl")]
    {
        assert_eq!(p256::verify_by_openssl(question), answer, "{question:?}");
        assert_eq!(unsafe { ERR_peek_error() }, 0, "{question:?} left an error behind");
    }
    answer
}

#[cfg(feature = "openssl")]
extern "C" {
    fn ERR_peek_error() -> std::os::raw::c_ulong;
}

fn belongs(point: &str, message: &[u8], signature: &str) -> bool {
    verified(&SignatureCheck::new(&format!("ecdsa-p256:{point}"), message, &format!("ecdsa-p256:{signature}")))
}

#[test]
fn both_forms_of_a_point_are_read() {
    for point in [COMPRESSED, UNCOMPRESSED] {
        assert!(belongs(point, b"sample", SIGNATURE), "{point}");
        assert!(!belongs(point, b"simple", SIGNATURE), "{point}");
        assert!(!belongs(point, b"", SIGNATURE), "{point}");
    }
}

#[test]
fn other_points_are_refused() {
    let (long, short) = (UNCOMPRESSED.replacen("BG", "A2", 1), COMPRESSED.replacen("A2", "BG", 1));
    let points = [
        ("the point with the other parity", "AmD+1LolWp0xyWHrdMY1bWjASbiSO2H6bOZpYi5g8p+2"),
        ("a hybrid one", "B2D+1LolWp0xyWHrdMY1bWjASbiSO2H6bOZpYi5g8p+2eQP+EAi4vJmkGunpVii8ZPLxsgwtfp9Rd6PClNRGIpk="),
        ("one off the curve", "BGD+1LolWp0xyWHrdMY1bWjASbiSO2H6bOZpYi5g8p+2eQP+EAi4vJmkGunpVii8ZPLxsgwtfp9Rd6PClNRGIpo="),
        ("64 bytes", "BGD+1LolWp0xyWHrdMY1bWjASbiSO2H6bOZpYi5g8p+2eQP+EAi4vJmkGunpVii8ZPLxsgwtfp9Rd6PClNRGIg=="),
        ("66 bytes", "BGD+1LolWp0xyWHrdMY1bWjASbiSO2H6bOZpYi5g8p+2eQP+EAi4vJmkGunpVii8ZPLxsgwtfp9Rd6PClNRGIpkA"),
        ("65 bytes of the compressed form", long.as_str()),
        ("33 bytes of the uncompressed form", short.as_str()),
        ("the point at infinity", "AA=="),
        ("no bytes", ""),
    ];
    for (what, point) in points {
        assert!(!belongs(point, b"sample", SIGNATURE), "{what}");
    }
}

#[test]
fn a_signature_is_der_alone() {
    let low = "MEUCIQDv1IsqrLao/RFA3ZzUXoHWnSyHe1aq+ZHDTQ6oTq83FgIgCDTjatKag78ryTheSR1gmcj9+dHtZ6p+pfUfk3goV6k=";
    assert!(belongs(COMPRESSED, b"sample", low), "the other value of s verifies too");
    let signatures = [
        (
            "a byte behind it",
            "MEYCIQDv1IsqrLao/RFA3ZzUXoHWnSyHe1aq+ZHDTQ6oTq83FgIhAPfLHJQtZXxB1DbHobbin2Xz6QDbua/0Bk3Eqy+EOs2oAA==",
        ),
        (
            "a byte too few",
            "MEYCIQDv1IsqrLao/RFA3ZzUXoHWnSyHe1aq+ZHDTQ6oTq83FgIhAPfLHJQtZXxB1DbHobbin2Xz6QDbua/0Bk3Eqy+EOs0=",
        ),
        (
            "a length in two bytes",
            "MIFGAiEA79SLKqy2qP0RQN2c1F6B1p0sh3tWqvmRw00OqE6vNxYCIQD3yxyULWV8QdQ2x6G24p9l8+kA27mv9AZNxKsvhDrNqA==",
        ),
        (
            "a zero before a number",
            "MEcCIgAA79SLKqy2qP0RQN2c1F6B1p0sh3tWqvmRw00OqE6vNxYCIQD3yxyULWV8QdQ2x6G24p9l8+kA27mv9AZNxKsvhDrNqA==",
        ),
        ("no bytes", ""),
    ];
    for (what, signature) in signatures {
        assert!(!belongs(COMPRESSED, b"sample", signature), "{what}");
        assert!(!belongs(UNCOMPRESSED, b"sample", signature), "{what}");
    }
}

#[test]
fn texts_of_other_algorithms_are_refused() {
    let belongs = |key: &str, signature: &str| verified(&SignatureCheck::new(key, b"sample", signature));
    let (key, signature) = (format!("ecdsa-p256:{UNCOMPRESSED}"), format!("ecdsa-p256:{SIGNATURE}"));
    assert!(belongs(&key, &signature));
    for algorithm in ["toy", "ECDSA-P256", "ecdsa-p384", ""] {
        assert!(!belongs(&key.replacen("ecdsa-p256", algorithm, 1), &signature), "{algorithm}");
        assert!(!belongs(&key, &signature.replacen("ecdsa-p256", algorithm, 1)), "{algorithm}");
    }
}

#[test]
fn hostile_texts_are_refused() {
    let long = "A".repeat(1 << 20);
    let texts = [
        format!(" {COMPRESSED}"),
        format!("{COMPRESSED}\n"),
        format!("{COMPRESSED}="),
        format!("{COMPRESSED}===="),
        format!("{COMPRESSED}\0"),
        format!("{}\u{661}\u{662}\u{663}\u{664}", &COMPRESSED[4..]),
        format!("{SIGNATURE} "),
        format!("{SIGNATURE}===="),
        format!("{SIGNATURE}{}", &long[..800]),
        UNCOMPRESSED.trim_end_matches('=').to_owned(),
        UNCOMPRESSED.replace("Ipk=", "Ipl="),
        "\u{ff21}\u{ff21}\u{ff21}\u{ff21}".to_owned(),
        "\u{1f511}".to_owned(),
        "    ".to_owned(),
        "====".to_owned(),
        long,
    ];
    for text in texts {
        assert!(!belongs(&text, b"sample", SIGNATURE), "{text}");
        assert!(!belongs(COMPRESSED, b"sample", &text), "{text}");
    }
}

#[test]
fn numbers_of_no_signature() {
    let signatures = [
        ("0 and 0", "MAYCAQACAQA="),
        ("1 and the order", "MCYCAQECIQD/////AAAAAP//////////vOb6racXnoTzucrC/GMlUQ=="),
        ("below zero", "MAYCAYECAYE="),
        ("a sequence in a sequence", "MAgwBgIBAQIBAQ=="),
        ("a length that is not said", "MIACAQECAQEAAA=="),
        ("a first number that reaches beyond the end", "MAYCfwECAQE="),
        ("a second one", "MAYCAQECfwE="),
        ("one number", "MAMCAQE="),
        ("a number of no bytes", "MAUCAAIBAQ=="),
    ];
    for (what, signature) in signatures {
        assert!(!belongs(COMPRESSED, b"sample", signature), "{what}");
    }
}
