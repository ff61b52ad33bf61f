//! What a registry showed twice under one root: two answers about the last record of a log, and two beginnings of its
//! log.
use weoldrin::proofs::{compare_beginnings, compare_heads, BeginningComparison, HeadComparison, ShownBeginning};
use weoldrin::{Checkpoint, Error, Head};

mod registries;
use registries::{changed, fault_of, id, upper, Made, LENGTH, NO_TEXTS, PARTED};

type Tested = Result<(), Error>;

// A log with one leaf, which a forked registry has otherwise, and one with none.
const LOG: u64 = 0xabc;
const NO_LOG: u64 = 9;

impl Made {
    /// The last record of a log, or none, with its proof.
    fn head(&self, log: u64) -> Head {
        let (log, head) = (id(log), self.trees.head(&id(log)).expect("an answer"));
        let last = self.leaves.iter().rev().find(|it| it[0] == log);
        assert_eq!(head.record_id.as_ref(), last.map(|it| &it[1]));
        head
    }
}

/// Checks how two answers compare, in either order.
fn compare(root: &str, log: u64, one: &Head, other: &Head, wanted: HeadComparison) -> Tested {
    assert_eq!(compare_heads(root, &id(log), one, other)?, wanted, "{one:?} {other:?}");
    assert_eq!(compare_heads(root, &id(log), other, one)?, wanted, "{other:?} {one:?}");
    Ok(())
}

/// Checks how two beginnings compare, in either order.
fn compare_first(
    new: &Checkpoint,
    one: &ShownBeginning<'_>,
    other: &ShownBeginning<'_>,
    wanted: BeginningComparison,
) -> Tested {
    assert_eq!(compare_beginnings(new, one, other)?, wanted, "{one:?} {other:?}");
    assert_eq!(compare_beginnings(new, other, one)?, wanted, "{other:?} {one:?}");
    Ok(())
}

/// A record, or none.
#[test]
fn answers_that_are_one() -> Tested {
    let own = Made::new(LENGTH, false)?;
    for log in [0, 1, 2, LOG, NO_LOG] {
        let one = own.head(log);
        assert_eq!(one.record_id.is_none(), log == NO_LOG);
        compare(&own.checkpoint.map_root, log, &one, &one, HeadComparison::Same)?;
    }
    let fork = Made::new(LENGTH, true)?;
    let (one, root) = (fork.head(LOG), upper(&fork.checkpoint.map_root));
    let capitals = Head { record_id: one.record_id.as_deref().map(upper), ..one.clone() };
    assert_ne!(capitals, one);
    assert_eq!(compare_heads(&root, &upper(&id(LOG)), &capitals, &one)?, HeadComparison::Same);
    Ok(())
}

/// One of the proofs does not hold, or neither.
#[test]
fn answers_that_are_not_shown() -> Tested {
    let (own, fork, before) = (Made::new(LENGTH, false)?, Made::new(LENGTH, true)?, Made::new(PARTED, false)?);
    let (one, none, root) = (own.head(LOG), own.head(NO_LOG), &own.checkpoint.map_root);
    for wrong in [
        Head { record_id: None, ..one.clone() },
        Head { record_id: Some(id(0xf0f)), ..one.clone() },
        Head { proof: none.proof.clone(), ..one.clone() },
        Head { proof: changed(&one.proof), ..one.clone() },
        fork.head(LOG),
        before.head(LOG),
        none.clone(),
    ] {
        for right in [&one, &wrong] {
            compare(root, LOG, &wrong, right, HeadComparison::NotShown)?;
        }
    }
    for wrong in [
        Head { record_id: one.record_id.clone(), ..none.clone() },
        Head { proof: one.proof.clone(), ..none.clone() },
        one.clone(),
    ] {
        compare(root, NO_LOG, &none, &wrong, HeadComparison::NotShown)?;
    }
    compare(&fork.checkpoint.map_root, LOG, &one, &one, HeadComparison::NotShown)
}

/// Texts of no form. An empty one is no id of a record: it is none that says that there is no record.
#[test]
fn answers_of_no_form() -> Tested {
    let own = Made::new(LENGTH, false)?;
    let (log, root, one, none) = (id(LOG), &own.checkpoint.map_root, own.head(LOG), own.head(NO_LOG));
    for it in NO_TEXTS {
        assert_eq!(fault_of(compare_heads(it, &log, &one, &one)), "BadText", "{it:?}");
        assert_eq!(fault_of(compare_heads(root, it, &one, &one)), "BadText", "{it:?}");
        let wrong = Head { record_id: Some(it.to_owned()), ..one.clone() };
        for other in [&one, &none] {
            assert_eq!(fault_of(compare_heads(root, &log, &wrong, other)), "BadText", "{it:?}");
            assert_eq!(fault_of(compare_heads(root, &log, other, &wrong)), "BadText", "{it:?}");
        }
    }
    for (it, name) in [("A", "BadBase64"), ("", "BadLength"), (&"A".repeat(10969), "TooLong")] {
        for record_id in [one.record_id.clone(), None, Some(String::new())] {
            let wrong = Head { record_id, proof: it.to_owned() };
            assert_eq!(fault_of(compare_heads(root, &log, &wrong, &one)), name);
            assert_eq!(fault_of(compare_heads(root, &log, &none, &wrong)), name);
        }
    }
    let (first, second) = (Head { proof: "A".to_owned(), ..one.clone() }, Head { proof: String::new(), ..one });
    assert_eq!(fault_of(compare_heads(root, &log, &first, &second)), "BadBase64");
    assert_eq!(fault_of(compare_heads(root, &log, &second, &first)), "BadLength");
    Ok(())
}

/// Of one registry: the same, and two lengths.
#[test]
fn beginnings_of_each_two_lengths() -> Tested {
    let made = (0..=LENGTH).map(|it| Made::new(it, false)).collect::<Result<Vec<_>, _>>()?;
    let new = &made[LENGTH as usize];
    let proofs: Vec<_> = (0..=LENGTH).map(|it| new.consistency(it)).collect();
    let shown = |it: usize| ShownBeginning { checkpoint: &made[it].checkpoint, proof: &proofs[it] };
    for first in 0..made.len() {
        for second in 0..made.len() {
            let wanted = if first == second { BeginningComparison::Same } else { BeginningComparison::TwoLengths };
            assert_eq!(compare_beginnings(&new.checkpoint, &shown(first), &shown(second))?, wanted, "{first} {second}");
        }
    }
    Ok(())
}

/// Of one log, by the root of the map. Times and capitals are not looked at, and neither is the newer map.
#[test]
fn beginnings_that_fork() -> Tested {
    let (new, old, older) = (Made::new(LENGTH, false)?, Made::new(6, false)?, Made::new(5, false)?);
    let proof = new.consistency(6);
    let forked = Checkpoint { map_root: older.checkpoint.map_root, ..old.checkpoint.clone() };
    let capitals = Checkpoint {
        log_root: upper(&old.checkpoint.log_root),
        log_length: 6,
        map_root: upper(&old.checkpoint.map_root),
        timestamp: u64::MAX,
    };
    let shown = |checkpoint| ShownBeginning { checkpoint, proof: &proof };
    let (one, other) = (shown(&old.checkpoint), shown(&forked));
    compare_first(&new.checkpoint, &one, &other, BeginningComparison::Fork)?;
    compare_first(&new.checkpoint, &one, &shown(&capitals), BeginningComparison::Same)?;
    let no_map = Checkpoint { map_root: "none".to_owned(), ..new.checkpoint };
    compare_first(&no_map, &one, &other, BeginningComparison::Fork)
}

/// One of the proofs does not hold, or neither.
#[test]
fn beginnings_that_are_not_shown() -> Tested {
    let (new, fork) = (Made::new(LENGTH, false)?, Made::new(LENGTH, true)?);
    let (old, old_fork, older) = (Made::new(6, false)?, Made::new(6, true)?, Made::new(5, false)?);
    let (proof, older_proof, fork_proof) = (new.consistency(6), new.consistency(5), fork.consistency(6));
    let (one, another) = (ShownBeginning { checkpoint: &old.checkpoint, proof: &proof }, changed(&proof));
    for wrong in [
        ShownBeginning { proof: "", ..one },
        ShownBeginning { proof: &another, ..one },
        ShownBeginning { proof: &older_proof, ..one },
        ShownBeginning { checkpoint: &old_fork.checkpoint, ..one },
        ShownBeginning { checkpoint: &older.checkpoint, ..one },
        ShownBeginning { checkpoint: &old_fork.checkpoint, proof: &fork_proof },
    ] {
        for right in [&one, &wrong] {
            compare_first(&new.checkpoint, &wrong, right, BeginningComparison::NotShown)?;
        }
    }
    for it in [&fork, &Made::new(8, false)?, &older] {
        compare_first(&it.checkpoint, &one, &one, BeginningComparison::NotShown)?;
    }
    Ok(())
}

/// Texts of no form, of each side; the fault of the first proof comes first.
#[test]
fn beginnings_of_no_form() -> Tested {
    let (new, old) = (Made::new(LENGTH, false)?, Made::new(6, false)?.checkpoint);
    let (proof, new) = (new.consistency(6), new.checkpoint);
    let one = ShownBeginning { checkpoint: &old, proof: &proof };
    for it in NO_TEXTS {
        let wrong_log = Checkpoint { log_root: it.to_owned(), ..old.clone() };
        let wrong_map = Checkpoint { map_root: it.to_owned(), ..old.clone() };
        for checkpoint in [&wrong_log, &wrong_map] {
            let wrong = ShownBeginning { checkpoint, ..one };
            assert_eq!(fault_of(compare_beginnings(&new, &wrong, &one)), "BadText", "{it:?}");
            assert_eq!(fault_of(compare_beginnings(&new, &one, &wrong)), "BadText", "{it:?}");
        }
        let wrong = Checkpoint { log_root: it.to_owned(), ..new.clone() };
        assert_eq!(fault_of(compare_beginnings(&wrong, &one, &one)), "BadText", "{it:?}");
    }
    for (it, name) in [("A", "BadBase64"), ("AA==", "BadLength"), (&"A".repeat(2733), "TooLong")] {
        let wrong = ShownBeginning { proof: it, ..one };
        assert_eq!(fault_of(compare_beginnings(&new, &wrong, &one)), name);
        assert_eq!(fault_of(compare_beginnings(&new, &one, &wrong)), name);
    }
    let (first, second) = (ShownBeginning { proof: "A", ..one }, ShownBeginning { proof: "AA==", ..one });
    assert_eq!(fault_of(compare_beginnings(&new, &first, &second)), "BadBase64");
    assert_eq!(fault_of(compare_beginnings(&new, &second, &first)), "BadLength");
    Ok(())
}
