//! Private keys in the forms that OpenSSL writes, and the queue of its errors.
#![cfg(feature = "openssl")]

use std::os::raw::{c_int, c_long, c_ulong, c_void};
use std::ptr::null_mut;
use weoldrin::p256::{self, CryptoError, SigningKey};
use weoldrin::SignatureCheck;

// The private key of RFC 6979, A.2.5, and its point.
const NUMBER: &str = "c9afa9d845ba75166b5c215767b1d6934e50c3db36e89b127b8a622b120f6721";
const X: &str = "60fed4ba255a9d31c961eb74c6356d68c049b8923b61fa6ce669622e60f29fb6";
const Y: &str = "7903fe1008b8bc99a41ae9e95628bc64f2f1b20c2d7e9f5177a3c294d4462299";
const PUBLIC_KEY: &str = "ecdsa-p256:A2D+1LolWp0xyWHrdMY1bWjASbiSO2H6bOZpYi5g8p+2";

// The names of a key of an elliptic curve, and of the curves P-256 and secp256k1.
const EC: &str = "06072a8648ce3d0201";
const P256: &str = "06082a8648ce3d030107";
const K256: &str = "06052b8104000a";
// The parameters of P-256 (RFC 3279, 2.3.5): the field, the curve with its seed, the base point, the order, and the cofactor.
const PARAMETERS: [&str; 6] = [
    "020101302c06072a8648ce3d0101022100ffffffff00000001000000000000000000000000ffffffffffffffffffffffff305b0420",
    "ffffffff00000001000000000000000000000000fffffffffffffffffffffffc0420",
    "5ac635d8aa3a93e7b3ebbd55769886bc651d06b0cc53b0f63bce3c3e27d2604b031500c49d360886e704936a6678e1139d26b7819f7e900441",
    "046b17d1f2e12c4247f8bce6e563a440f277037d812deb33a0f4a13945d898c2964fe342e2fe1a7f9b8ee7eb4a7c0f9e162bce33576b315ececbb6406837bf51f5",
    "022100ffffffff00000000ffffffffffffffffbce6faada7179e84f3b9cac2fc632551",
    "020101",
];

fn bytes(digits: &str) -> Vec<u8> {
    (0..digits.len()).step_by(2).map(|at| u8::from_str_radix(&digits[at..at + 2], 16).expect("hex")).collect()
}

// The DER of a value with this tag.
fn der(tag: u8, contents: &[u8]) -> Vec<u8> {
    let length = match contents.len() {
        it @ 0..=127 => vec![it as u8],
        it @ 128..=255 => vec![0x81, it as u8],
        it => vec![0x82, (it >> 8) as u8, it as u8],
    };
    [&[tag], &length[..], contents].concat()
}

fn sequence(parts: &[Vec<u8>]) -> Vec<u8> {
    der(0x30, &parts.concat())
}

// The DER of RFC 5915.
fn key(parameters: Option<&[u8]>, point: &[u8]) -> Vec<u8> {
    let mut parts = vec![bytes("020101"), der(0x04, &bytes(NUMBER))];
    parts.extend(parameters.map(|it| der(0xa0, it)));
    if !point.is_empty() {
        parts.push(der(0xa1, &der(0x03, &[&[0], point].concat())));
    }
    sequence(&parts)
}

// The DER of PKCS#8 (RFC 5208).
fn wrapped(parameters: &[u8], point: &[u8]) -> Vec<u8> {
    let identifier = sequence(&[bytes(EC), parameters.to_vec()]);
    sequence(&[bytes("020100"), identifier, der(0x04, &key(None, point))])
}

// The point in no form, compressed, uncompressed, and hybrid.
fn points() -> [Vec<u8>; 4] {
    [vec![], bytes(&format!("03{X}")), bytes(&format!("04{X}{Y}")), bytes(&format!("07{X}{Y}"))]
}

fn explicit() -> Vec<u8> {
    der(0x30, &bytes(&PARAMETERS.concat()))
}

#[test]
fn each_form_is_read() {
    for parameters in [bytes(P256), explicit()] {
        for point in points() {
            for der in [key(Some(&parameters), &point), wrapped(&parameters, &point)] {
                let form = (parameters.len(), point.first(), der.len());
                let signer = SigningKey::from_der(&der).unwrap_or_else(|error| panic!("{error} {form:?}"));
                assert_eq!(signer.public_key(), PUBLIC_KEY, "{form:?}");
                let signature = signer.sign(b"sample").expect("a signature");
                let question = SignatureCheck::new(PUBLIC_KEY, b"sample", &signature);
                assert!(p256::verify(&question) && p256::verify_by_openssl(&question), "{form:?}");
                // It is written in one form, and without a point where it came without.
                let written = if point.is_empty() { vec![] } else { bytes(&format!("04{X}{Y}")) };
                assert_eq!(signer.to_der(), Ok(key(Some(&bytes(P256)), &written)), "{form:?}");
            }
        }
    }
}

#[test]
fn other_bytes_are_none() {
    let good = [key(Some(&bytes(P256)), &points()[1]), wrapped(&explicit(), &points()[3])];
    for der in &good {
        for length in (0..der.len()).step_by(11) {
            assert_eq!(SigningKey::from_der(&der[..length]).err(), Some(CryptoError::NotAKey), "{length}");
        }
        for behind in [&b"\0"[..], b"\n", der] {
            let longer = [&der[..], behind].concat();
            assert_eq!(SigningKey::from_der(&longer).err(), Some(CryptoError::NotAKey));
        }
    }
}

/// Another curve, also one that calls itself P-256 by parameters of its own.
#[test]
fn other_keys_are_refused() {
    assert_eq!(SigningKey::from_der(&key(Some(&bytes(K256)), &[])).err(), Some(CryptoError::OtherKey));
    assert_eq!(SigningKey::from_der(&wrapped(&bytes(K256), &[])).err(), Some(CryptoError::OtherKey));
    let ed25519 = bytes(&format!("302e020100300506032b657004220420{NUMBER}"));
    assert_eq!(SigningKey::from_der(&ed25519).err(), Some(CryptoError::OtherKey));
    // The base point is the key's own, so that its number is 1.
    let mut parts = PARAMETERS;
    let point = format!("04{X}{Y}");
    parts[3] = &point;
    let forged = der(0x30, &bytes(&parts.concat()));
    for der in [key(Some(&forged), &points()[2]), wrapped(&forged, &points()[2])] {
        assert!(SigningKey::from_der(&der).is_err());
    }
}

#[test]
fn errors_say_what_they_are() {
    let said = [CryptoError::NotAKey, CryptoError::OtherKey, CryptoError::Failed].map(|it| it.to_string());
    assert!(said.iter().all(|it| !it.is_empty()) && said[0] != said[1] && said[1] != said[2], "{said:?}");
}

extern "C" {
    fn ERR_get_error() -> c_ulong;
    fn ERR_peek_error() -> c_ulong;
    fn ERR_peek_last_error() -> c_ulong;
    fn ERR_set_mark() -> c_int;
    fn ERR_pop_to_mark() -> c_int;
    fn d2i_PUBKEY(key: *mut *mut c_void, der: *mut *const u8, n: c_long) -> *mut c_void;
}

// What goes wrong elsewhere in this thread, whose errors are another's to read.
fn fail_elsewhere() {
    let mut at = b"\0\0".as_ptr();
    // SAFETY: the bytes go with their number.
    assert!(unsafe { d2i_PUBKEY(null_mut(), &mut at, 2) }.is_null());
}

// The errors of this thread, which has none then.
fn drained() -> Vec<c_ulong> {
    // SAFETY: it needs nothing.
    std::iter::from_fn(|| Some(unsafe { ERR_get_error() }).filter(|it| *it != 0)).collect()
}

// Everything that is asked of libcrypto, right and wrong.
fn use_all() {
    let good = key(Some(&bytes(P256)), &points()[1]);
    let signer = SigningKey::from_der(&good).expect("a key");
    assert!(SigningKey::from_der(&good[1..]).is_err());
    assert!(SigningKey::from_der(&key(Some(&bytes(K256)), &[])).is_err());
    assert!(SigningKey::from_der(b"").is_err());
    let signature = signer.sign(b"sample").expect("a signature");
    let off_the_curve =
        "ecdsa-p256:BGD+1LolWp0xyWHrdMY1bWjASbiSO2H6bOZpYi5g8p+2eQP+EAi4vJmkGunpVii8ZPLxsgwtfp9Rd6PClNRGIpo=";
    for key in [PUBLIC_KEY, off_the_curve, "ecdsa-p256:", "ecdsa-p256:A///////////////////////////////////////////"] {
        for signature in [&signature, "ecdsa-p256:MAYCAQACAQA=", "ecdsa-p256:!", ""] {
            for message in [&b"sample"[..], b"simple"] {
                p256::verify_by_openssl(&SignatureCheck::new(key, message, signature));
            }
        }
    }
    signer.to_der().expect("the key");
    SigningKey::generate().expect("a key").sign(b"").expect("a signature");
}

/// The queue of errors is as it was, whether it had some or none, and so are the marks of others.
#[test]
fn errors_of_others_stay() {
    drained();
    use_all();
    assert_eq!(drained(), []);
    fail_elsewhere();
    let before = drained();
    assert!(!before.is_empty());
    fail_elsewhere();
    // SAFETY: they need nothing.
    let ends = || unsafe { (ERR_peek_error(), ERR_peek_last_error()) };
    let wanted = ends();
    use_all();
    assert_eq!(ends(), wanted);
    assert_eq!(drained(), before);
    fail_elsewhere();
    // SAFETY: it needs nothing.
    assert_eq!(unsafe { ERR_set_mark() }, 1);
    fail_elsewhere();
    use_all();
    // SAFETY: it needs nothing.
    assert_eq!(unsafe { ERR_pop_to_mark() }, 1);
    assert_eq!(drained(), before);
}
