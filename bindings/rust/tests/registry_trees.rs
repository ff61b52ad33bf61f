//! What the trees of a registry give and refuse, without OpenSSL.
use std::thread;
use weoldrin::proofs::{verify_absence, verify_consistency, verify_inclusion, verify_presence};
use weoldrin::{Checkpoint, Error, Head, RegistryTrees};

type Tested = Result<(), Error>;

/// A checkpoint, heads and proofs.
type All = (Checkpoint, Vec<Head>, Vec<Option<String>>);

/// The text of an id that has this number in its last bytes.
fn id(number: u64) -> String {
    format!("sha256:{number:064x}")
}

/// Texts that are none of an id.
fn no_ids() -> Vec<String> {
    let it = id(7);
    let mut all: Vec<String> = ["", "sha256", "sha256:", "sha256:00", ":", "\0", "é"].map(String::from).to_vec();
    all.extend([it[7..].to_owned(), it[..70].to_owned(), format!("{it}0"), format!("{it} "), format!(" {it}")]);
    all.extend([it.replace("sha256", "sha512"), it.replace("sha256", "SHA256"), it.replace('7', "g")]);
    all
}

/// The trees of so many leaves. The record at a place has the number of the place, its log that of the place modulo 3.
fn trees_of(size: u64) -> Result<RegistryTrees, Error> {
    let mut trees = RegistryTrees::new()?;
    for place in 0..size {
        assert_eq!(trees.push(&id(place % 3), &id(place))?, place);
    }
    Ok(trees)
}

/// All that trees say: of logs that have leaves and of one that has none, of each place, and past the end.
fn all_of(trees: &RegistryTrees) -> Result<All, Error> {
    let now = trees.checkpoint(9)?;
    let heads = (0..4).map(|it| trees.head(&id(it))).collect::<Result<_, _>>()?;
    let mut proofs = Vec::new();
    for place in 0..now.log_length + 2 {
        proofs.extend([trees.inclusion(place)?, trees.consistency(place)?]);
    }
    Ok((now, heads, proofs))
}

/// The name of the fault that an answer says.
fn fault_of<T: std::fmt::Debug>(answer: Result<T, Error>) -> String {
    match answer {
        Err(Error::BadArgument(Some(reason))) if !reason.sentence.is_empty() => reason.name,
        _ => format!("{answer:?}"),
    }
}

#[test]
fn texts_of_no_id() -> Tested {
    for size in [0, 1, 7] {
        let mut trees = trees_of(size)?;
        let before = all_of(&trees)?;
        for wrong in no_ids() {
            assert_eq!(fault_of(trees.push(&wrong, &id(1))), "BadText", "{wrong:?}");
            assert_eq!(fault_of(trees.push(&id(1), &wrong)), "BadText", "{wrong:?}");
            assert_eq!(fault_of(trees.push(&wrong, &wrong)), "BadText", "{wrong:?}");
            assert_eq!(fault_of(trees.head(&wrong)), "BadText", "{wrong:?}");
            assert_eq!(all_of(&trees)?, before, "{wrong:?}");
        }
        assert_eq!(trees.push(&id(size % 3), &id(size))?, size);
        assert_eq!(all_of(&trees)?, all_of(&trees_of(size + 1)?)?);
    }
    Ok(())
}

#[test]
fn no_leaves() -> Tested {
    let trees = RegistryTrees::new()?;
    assert_eq!((trees.len()?, trees.is_empty()?), (0, true));
    assert_eq!((trees.inclusion(0)?, trees.inclusion(u64::MAX)?), (None, None));
    assert_eq!((trees.consistency(0)?, trees.consistency(1)?), (Some(String::new()), None));
    let now = trees.checkpoint(u64::MAX)?;
    assert_eq!((now.log_length, now.timestamp), (0, u64::MAX));
    let head = trees.head(&id(0))?;
    assert_eq!(head.record_id, None);
    assert!(verify_absence(&id(0), &now.map_root, &head.proof)?);
    assert_eq!(format!("{trees:?}"), "RegistryTrees { len: Ok(0) }");
    Ok(())
}

/// The one leaf's path is the empty text, which is not none.
#[test]
fn one_leaf() -> Tested {
    let trees = trees_of(1)?;
    assert_eq!((trees.len()?, trees.is_empty()?), (1, false));
    assert_eq!((trees.inclusion(0)?, trees.inclusion(1)?), (Some(String::new()), None));
    assert_eq!((trees.consistency(1)?, trees.consistency(2)?), (Some(String::new()), None));
    Ok(())
}

/// Each proof is one that the calls of proofs take, for what it is of and for nothing else.
#[test]
fn proofs_hold() -> Tested {
    let (trees, earlier) = (trees_of(11)?, trees_of(6)?.checkpoint(0)?);
    let Checkpoint { log_root, log_length, map_root, .. } = trees.checkpoint(0)?;
    for place in 0..11 {
        let proof = trees.inclusion(place)?.unwrap_or_default();
        let (log, record) = (id(place % 3), id(place));
        assert!(verify_inclusion(&log, &record, place, log_length, &log_root, &proof)?);
        assert!(!verify_inclusion(&record, &log, place, log_length, &log_root, &proof)? || log == record);
        assert!(!verify_inclusion(&log, &record, place, log_length, &map_root, &proof)?);
        assert!(!verify_inclusion(&log, &record, place + 1, log_length, &log_root, &proof)?);
    }
    let proof = trees.consistency(6)?.unwrap_or_default();
    assert!(verify_consistency(6, &earlier.log_root, 11, &log_root, &proof)?);
    assert!(!verify_consistency(6, &earlier.map_root, 11, &log_root, &proof)?);
    for (log, last) in [(0, 9), (1, 10), (2, 8)] {
        let head = trees.head(&id(log))?;
        assert_eq!(head.record_id, Some(id(last)));
        assert!(verify_presence(&id(log), &id(last), &map_root, &head.proof)?);
        assert!(!verify_presence(&id(log), &id(last - 3), &map_root, &head.proof)?);
    }
    let head = trees.head(&id(3))?;
    assert_eq!(head.record_id, None);
    assert!(verify_absence(&id(3), &map_root, &head.proof)?);
    Ok(())
}

/// An id is read in either case, and told in lower case.
#[test]
fn cases_of_ids() -> Tested {
    let upper = |it: u64| id(it).to_uppercase().replace("SHA", "sha");
    let (log, record) = (0xabc, 0xdef);
    let (mut trees, mut others) = (RegistryTrees::new()?, RegistryTrees::new()?);
    trees.push(&id(log), &id(record))?;
    others.push(&upper(log), &upper(record))?;
    assert_eq!(trees.checkpoint(0)?, others.checkpoint(0)?);
    for it in [&id(log), &upper(log)] {
        assert_eq!(others.head(it)?, trees.head(&id(log))?);
        assert_eq!(others.head(it)?.record_id, Some(id(record)));
    }
    Ok(())
}

/// The bytes of an id.
fn bytes_of(id: &str) -> Vec<u8> {
    let digits = id.strip_prefix("sha256:").expect("an id");
    (0..32).map(|it| u8::from_str_radix(&digits[2 * it..][..2], 16).expect("two digits")).collect()
}

/// Trees that are made of the bytes of leaves are those to which the leaves were pushed, and go on as they do.
#[test]
fn saved_leaves() -> Tested {
    let leaves: Vec<[String; 2]> = (0..60).map(|it| [id(it % 3), id(it)]).collect();
    let saved: Vec<u8> = leaves.iter().flatten().flat_map(|it| bytes_of(it)).collect();
    for size in 0..40 {
        let (mut pushed, mut made) = (trees_of(size)?, RegistryTrees::from_bytes(&saved[..64 * size as usize])?);
        for next in size..size + 3 {
            assert_eq!(all_of(&made)?, all_of(&pushed)?);
            assert_eq!(made.to_bytes()?, saved[..64 * next as usize]);
            assert_eq!(pushed.to_bytes()?, made.to_bytes()?);
            assert_eq!(made.push(&id(next % 3), &id(next))?, next);
            pushed.push(&id(next % 3), &id(next))?;
        }
    }
    Ok(())
}

/// A leaf may come twice, and a head come back.
#[test]
fn saved_leaves_that_come_again() -> Tested {
    let mut trees = RegistryTrees::new()?;
    for (log, record) in [(1, 7), (1, 7), (1, 8), (2, 8), (1, 8), (1, 7)] {
        trees.push(&id(log), &id(record))?;
    }
    let made = RegistryTrees::from_bytes(&trees.to_bytes()?)?;
    assert_eq!(all_of(&made)?, all_of(&trees)?);
    assert_eq!(made.head(&id(1))?.record_id, Some(id(7)));
    Ok(())
}

/// Bytes that are no multiple of 64 are no leaves.
#[test]
fn bytes_of_no_leaves() {
    for length in [1, 31, 32, 63, 65, 127, 640 + 32] {
        let made = RegistryTrees::from_bytes(&vec![7; length]);
        assert_eq!(fault_of(made), "BadLength", "{length}");
    }
}

/// Trees of several threads are used at once, each by the thread that made them.
#[test]
fn threads() -> Tested {
    let wanted = all_of(&trees_of(40)?)?;
    let made: Vec<_> = (0..4).map(|_| thread::spawn(|| all_of(&trees_of(40)?))).collect();
    for it in made {
        assert_eq!(it.join().expect("the end of a thread")?, wanted);
    }
    Ok(())
}
