//! The ids of logs by their names, the leaves of a registry's log, and what is signed of its checkpoints: the bytes of docs/FORMATS.md.
use weoldrin::proofs::leaf;
use weoldrin::{log_id, Checkpoint, Error, Operator, Package};

type Tested = Result<(), Error>;

// The roots of proofs.rs, and the ids of a log and a record there.
const LOG_ROOT: &str = "sha256:0915e5e33416c991c2ac5d07c3499bbf68952d248c16afdc509217beede803e8";
const MAP_ROOT: &str = "sha256:6b3b29793c461452ef689fdfac26511b3862f7b70a4f576163ca60308bad21e6";
const LOG: &str = "sha256:d912d1199b4042f4dfe339e1070db6de911b4fa88de09b22f6fd5f803449e782";
const RECORD: &str = "sha256:28fdd77254977237364a167ba289ff718fbe76799cfd983dbf447346fa62a033";

// Texts that are no hash.
const OTHERS: [&str; 9] = [
    "",
    "sha256",
    "sha256:",
    "sha256:00",
    "sha512:0915e5e33416c991c2ac5d07c3499bbf68952d248c16afdc509217beede803e8",
    "sha256:g915e5e33416c991c2ac5d07c3499bbf68952d248c16afdc509217beede803e8",
    "sha256:0915e5e33416c991c2ac5d07c3499bbf68952d248c16afdc509217beede803e8 ",
    "0915e5e33416c991c2ac5d07c3499bbf68952d248c16afdc509217beede803e8",
    "é",
];

fn name<T: std::fmt::Debug>(answer: Result<T, Error>) -> String {
    match answer {
        Err(Error::BadArgument(Some(reason))) if !reason.sentence.is_empty() => reason.name,
        answer => format!("{answer:?}"),
    }
}

// A number as it is encoded, by LEB128.
fn number(mut it: u64) -> Vec<u8> {
    let mut bytes = Vec::new();
    while it >= 128 {
        bytes.push((it % 128) as u8 | 128);
        it /= 128;
    }
    bytes.push(it as u8);
    bytes
}

// A text of a hash as it is encoded.
fn text(it: &str) -> Vec<u8> {
    [&[71], it.as_bytes()].concat()
}

/// The digests are those of `sha256sum`; the first one stands in docs/TRUST.md.
#[test]
fn ids_of_logs() -> Tested {
    let long = format!("{}:b", "a".repeat(200));
    for (name, id) in [
        ("example:math", "sha256:af6410747c0a7692c8dc4cf6f83cbb8da9041875f1ad9a5a2fca0eef51379ec1"),
        ("a:b", "sha256:64c691e3e58331267bda58eb8343d45b4950e5335fbb97298a67bc5516077629"),
        ("example-two:math-lib2", "sha256:954cc322ef9e30646338e53401891cdc1a0ade7d345971c4ffefc3656cb26a00"),
        (&long, "sha256:a2dddeb2f3b3a12f2be7a57628333d095b0c35f639a3829ea0829107aae5db8a"),
    ] {
        assert_eq!(log_id::<Package>(name)?, id, "{name}");
    }
    let id = "sha256:0db9178aabc877b42f03a038bf453ee53f08e3c8c55fab916043428078596bfb";
    assert_eq!(log_id::<Operator>("")?, id);
    Ok(())
}

#[test]
fn names_of_no_log() {
    let long = "a".repeat(1 << 20);
    for wrong in [
        "",
        ":",
        "a:",
        ":b",
        "math",
        "Example:math",
        "example:Math",
        "a:b:c",
        "a::b",
        "a-:b",
        "-a:b",
        "a--b:c",
        "1a:b",
        "a:1b",
        "a_b:c",
        "a:b ",
        " a:b",
        "a:b\0",
        "\0",
        "a:\u{e9}",
        "\u{1f511}",
        &long,
    ] {
        assert_eq!(name(log_id::<Package>(wrong)), "BadName", "{wrong:?}");
    }
    for wrong in ["example:math", "a", " ", "\0", &long] {
        assert_eq!(name(log_id::<Operator>(wrong)), "BadName", "{wrong:?}");
    }
}

#[test]
fn leaves() -> Tested {
    let wanted = [b"WARG-LOG-LEAF-V0".to_vec(), text(LOG), text(RECORD)].concat();
    assert_eq!(leaf(LOG, RECORD)?, wanted);
    assert_eq!(leaf(&LOG.to_uppercase().replace("SHA", "sha"), &RECORD.to_uppercase().replace("SHA", "sha"))?, wanted);
    assert_ne!(leaf(RECORD, LOG)?, wanted);
    for wrong in OTHERS {
        assert_eq!(name(leaf(wrong, RECORD)), "BadText", "{wrong:?}");
        assert_eq!(name(leaf(LOG, wrong)), "BadText", "{wrong:?}");
    }
    Ok(())
}

#[test]
fn messages() -> Tested {
    let prefix = &b"WARG-CHECKPOINT-SIGNATURE-V0:WARG-TIMESTAMPED-CHECKPOINT-V0"[..];
    for (log_length, timestamp) in [
        (8, 1_700_000_000),
        (0, 0),
        (127, 128),
        (128, 127),
        (u64::from(u32::MAX) + 1, u64::from(u32::MAX)),
        (1, u64::from(u32::MAX) + 1),
        (u64::MAX, 1 << 63),
        (1 << 63, u64::MAX),
    ] {
        let wanted = [prefix, &number(log_length), &text(LOG_ROOT), &text(MAP_ROOT), &number(timestamp)].concat();
        let checkpoint = Checkpoint { log_root: LOG_ROOT.into(), log_length, map_root: MAP_ROOT.into(), timestamp };
        assert_eq!(checkpoint.message()?, wanted, "{checkpoint:?}");
        let (log_root, map_root) = (LOG_ROOT.to_uppercase(), MAP_ROOT.to_uppercase());
        let (log_root, map_root) = (log_root.replace("SHA", "sha"), map_root.replace("SHA", "sha"));
        assert_eq!(Checkpoint { log_root, log_length, map_root, timestamp }.message()?, wanted);
    }
    Ok(())
}

#[test]
fn roots_of_no_hash() {
    let checkpoint = Checkpoint { log_root: LOG_ROOT.into(), log_length: 8, map_root: MAP_ROOT.into(), timestamp: 1 };
    for wrong in OTHERS {
        assert_eq!(name(Checkpoint { log_root: wrong.into(), ..checkpoint.clone() }.message()), "BadText", "{wrong:?}");
        assert_eq!(name(Checkpoint { map_root: wrong.into(), ..checkpoint.clone() }.message()), "BadText", "{wrong:?}");
    }
}
