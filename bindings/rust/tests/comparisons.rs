//! What two checkpoints of a registry are to each other, and two leaves at one place of its log.
use weoldrin::proofs::{compare_checkpoints, compare_leaves, CheckpointComparison, LeafComparison, ShownLeaf};
use weoldrin::{Checkpoint, Error};

mod registries;
use registries::{changed, fault_of, id, upper, Made, LENGTH, NO_TEXTS, PARTED};

type Tested = Result<(), Error>;

impl Made {
    fn inclusion(&self, place: u64) -> String {
        self.trees.inclusion(place).expect("an answer").expect("a proof")
    }

    fn shown<'a>(&'a self, place: u64, proof: &'a str) -> ShownLeaf<'a> {
        let [log_id, record_id] = &self.leaves[place as usize];
        ShownLeaf { checkpoint: &self.checkpoint, log_id, record_id, proof }
    }
}

/// Of one registry: the same, one that goes on, and one that goes back.
#[test]
fn each_two_lengths() -> Tested {
    let made = (0..=LENGTH).map(|it| Made::new(it, false)).collect::<Result<Vec<_>, _>>()?;
    for (first, old) in made.iter().enumerate() {
        for (second, new) in made.iter().enumerate() {
            let (proof, wanted) = match first.cmp(&second) {
                std::cmp::Ordering::Less => (new.consistency(first as u64), CheckpointComparison::GoesOn),
                std::cmp::Ordering::Equal => (String::new(), CheckpointComparison::Same),
                std::cmp::Ordering::Greater => (String::new(), CheckpointComparison::GoesBack),
            };
            assert_eq!(compare_checkpoints(&old.checkpoint, &new.checkpoint, &proof)?, wanted, "{first} {second}");
        }
    }
    Ok(())
}

/// The time is not looked at, and neither is whether digits are capitals, or the proof.
#[test]
fn the_same() -> Tested {
    let one = Made::new(LENGTH, false)?;
    let other = Checkpoint {
        log_root: upper(&one.checkpoint.log_root),
        log_length: LENGTH,
        map_root: upper(&one.checkpoint.map_root),
        timestamp: u64::MAX,
    };
    for proof in [String::new(), one.consistency(4)] {
        assert_eq!(compare_checkpoints(&one.checkpoint, &other, &proof)?, CheckpointComparison::Same);
        assert_eq!(compare_checkpoints(&other, &one.checkpoint, &proof)?, CheckpointComparison::Same);
    }
    Ok(())
}

/// Of one length, by the root of the log, of the map, or of both; no proof helps.
#[test]
fn forks() -> Tested {
    let (one, other) = (Made::new(LENGTH, false)?, Made::new(LENGTH, true)?);
    let other_map = Checkpoint { map_root: other.checkpoint.map_root.clone(), ..one.checkpoint.clone() };
    let other_log = Checkpoint { log_root: other.checkpoint.log_root.clone(), ..one.checkpoint.clone() };
    for it in [&other_map, &other_log, &other.checkpoint] {
        for proof in [String::new(), one.consistency(4)] {
            assert_eq!(compare_checkpoints(&one.checkpoint, it, &proof)?, CheckpointComparison::Fork);
            assert_eq!(compare_checkpoints(it, &one.checkpoint, &proof)?, CheckpointComparison::Fork);
        }
    }
    let shorter = Made::new(8, true)?;
    assert_eq!(compare_checkpoints(&one.checkpoint, &shorter.checkpoint, "")?, CheckpointComparison::GoesBack);
    Ok(())
}

/// A log that goes on without a proof of it, and one that does not.
#[test]
fn not_shown() -> Tested {
    let (old, new, fork) = (Made::new(6, false)?, Made::new(LENGTH, false)?, Made::new(LENGTH, true)?);
    let proof = new.consistency(6);
    assert_eq!(compare_checkpoints(&old.checkpoint, &new.checkpoint, &proof)?, CheckpointComparison::GoesOn);
    for it in [String::new(), changed(&proof), new.consistency(7), fork.consistency(6)] {
        let found = compare_checkpoints(&old.checkpoint, &new.checkpoint, &it)?;
        assert_eq!(found, CheckpointComparison::NotShown, "{it}");
    }
    for it in [String::new(), proof, fork.consistency(6)] {
        let found = compare_checkpoints(&old.checkpoint, &fork.checkpoint, &it)?;
        assert_eq!(found, CheckpointComparison::NotShown, "{it}");
    }
    let before = Made::new(PARTED, false)?;
    let found = compare_checkpoints(&before.checkpoint, &fork.checkpoint, &fork.consistency(PARTED))?;
    assert_eq!(found, CheckpointComparison::GoesOn);
    Ok(())
}

/// Texts of no form, of each of the roots and of the proof.
#[test]
fn checkpoints_of_no_form() -> Tested {
    let (one, other) = (Made::new(LENGTH, false)?.checkpoint, Made::new(8, false)?.checkpoint);
    for it in NO_TEXTS {
        for wrong in [
            Checkpoint { log_root: it.to_owned(), ..other.clone() },
            Checkpoint { map_root: it.to_owned(), ..other.clone() },
        ] {
            assert_eq!(fault_of(compare_checkpoints(&wrong, &one, "")), "BadText", "{it:?}");
            assert_eq!(fault_of(compare_checkpoints(&one, &wrong, "")), "BadText", "{it:?}");
        }
    }
    for (it, name) in [("A", "BadBase64"), ("AA==", "BadLength"), (&"A".repeat(2733), "TooLong")] {
        assert_eq!(fault_of(compare_checkpoints(&other, &one, it)), name);
    }
    Ok(())
}

/// Equal leaves, at each place that both logs have, in either order.
#[test]
fn the_same_leaves() -> Tested {
    let longer = Made::new(LENGTH, false)?;
    for length in 1..LENGTH {
        let shorter = Made::new(length, false)?;
        for place in 0..length {
            let proofs = (shorter.inclusion(place), longer.inclusion(place));
            let (one, other) = (shorter.shown(place, &proofs.0), longer.shown(place, &proofs.1));
            assert_eq!(compare_leaves(place, &one, &other)?, LeafComparison::Same);
            assert_eq!(compare_leaves(place, &other, &one)?, LeafComparison::Same);
        }
    }
    let (proof, log_id, record_id) = (longer.inclusion(4), upper(&id(0xabc)), upper(&id(0x104)));
    let one = longer.shown(4, &proof);
    let capitals = ShownLeaf { log_id: &log_id, record_id: &record_id, ..one };
    assert_eq!(compare_leaves(4, &one, &capitals)?, LeafComparison::Same);
    Ok(())
}

/// Leaves that differ, under checkpoints of one length and of two.
#[test]
fn leaves_that_fork() -> Tested {
    let fork = Made::new(LENGTH, true)?;
    for length in PARTED + 1..=LENGTH {
        let own = Made::new(length, false)?;
        for (place, wanted) in [(PARTED, LeafComparison::Fork), (3, LeafComparison::Same)] {
            let proofs = (own.inclusion(place), fork.inclusion(place));
            let (one, other) = (own.shown(place, &proofs.0), fork.shown(place, &proofs.1));
            assert_eq!(compare_leaves(place, &one, &other)?, wanted);
            assert_eq!(compare_leaves(place, &other, &one)?, wanted);
        }
    }
    Ok(())
}

/// Leaves of which one is not shown, or neither.
#[test]
fn leaves_that_are_not_shown() -> Tested {
    let (own, fork) = (Made::new(6, false)?, Made::new(LENGTH, true)?);
    let (proof, other_proof) = (own.inclusion(4), fork.inclusion(4));
    let (one, other, another) = (own.shown(4, &proof), fork.shown(4, &other_proof), changed(&proof));
    for wrong in [
        ShownLeaf { proof: "", ..one },
        ShownLeaf { proof: &another, ..one },
        ShownLeaf { proof: &other_proof, ..one },
        ShownLeaf { record_id: other.record_id, ..one },
        ShownLeaf { log_id: other.record_id, ..one },
        ShownLeaf { checkpoint: other.checkpoint, ..one },
    ] {
        for right in [&one, &other, &wrong] {
            assert_eq!(compare_leaves(4, &wrong, right)?, LeafComparison::NotShown, "{wrong:?}");
            assert_eq!(compare_leaves(4, right, &wrong)?, LeafComparison::NotShown, "{wrong:?}");
        }
    }
    for place in [3, 5, 6, 1 << 63, u64::MAX] {
        assert_eq!(compare_leaves(place, &one, &other)?, LeafComparison::NotShown);
    }
    Ok(())
}

/// Texts of no form, of each side; the fault of the older leaf's proof comes first.
#[test]
fn leaves_of_no_form() -> Tested {
    let (own, fork) = (Made::new(6, false)?, Made::new(LENGTH, true)?);
    let (proof, other_proof) = (own.inclusion(4), fork.inclusion(4));
    let (one, other) = (own.shown(4, &proof), fork.shown(4, &other_proof));
    for it in NO_TEXTS {
        let checkpoint = Checkpoint { log_root: it.to_owned(), ..own.checkpoint.clone() };
        for wrong in [
            ShownLeaf { log_id: it, ..one },
            ShownLeaf { record_id: it, ..one },
            ShownLeaf { checkpoint: &checkpoint, ..one },
        ] {
            assert_eq!(fault_of(compare_leaves(4, &wrong, &other)), "BadText", "{it:?}");
            assert_eq!(fault_of(compare_leaves(4, &other, &wrong)), "BadText", "{it:?}");
        }
    }
    for (it, name) in [("A", "BadBase64"), ("AA==", "BadLength"), (&"A".repeat(2733), "TooLong")] {
        let wrong = ShownLeaf { proof: it, ..one };
        assert_eq!(fault_of(compare_leaves(4, &wrong, &other)), name);
        assert_eq!(fault_of(compare_leaves(4, &other, &wrong)), name);
    }
    let (first, second) = (ShownLeaf { proof: "A", ..one }, ShownLeaf { proof: "AA==", ..one });
    assert_eq!(fault_of(compare_leaves(4, &first, &second)), "BadBase64");
    assert_eq!(fault_of(compare_leaves(4, &second, &first)), "BadLength");
    Ok(())
}
