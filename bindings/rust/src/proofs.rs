//! What a registry proves of its log and its map. Roots are texts of hashes, ids are texts of ids, proofs are texts of base64.
//!
//! `verify_inclusion` and its like say whether the proof holds. [`compare_checkpoints`], [`compare_leaves`], [`compare_heads`] and
//! [`compare_beginnings`] say how what a registry signed goes with what it signed before, or with what it showed to another. The error is
//! [`Error::BadArgument`] where a text is not of its form. If that is the proof's, the fault is named: `TooLong`, `BadBase64`,
//! `BadLength` or `EmptySibling`.
//!
//! What an accepted proof shows is so of every log of that length and root, and of every map of that root, or two strings that differ
//! have one hash. No call knows whose root it is, or how long its log is: take a log's length and root, and the map's root, from one
//! signed checkpoint.
use crate::buffer;
use crate::checkpoint::Checkpoint;
use crate::error::{Error, Reason};
use crate::raw;
use crate::registry_trees::Head;

const BAD_TEXT: &[u8] = b"BadText: a root or an id is not the text of one";

/// The leaf of a log's record in the registry's log: the bytes that are hashed with a zero before them.
pub fn leaf(log_id: &str, record_id: &str) -> Result<Vec<u8>, Error> {
    // SAFETY: each pointer goes with the length of its slice (`raw`).
    let found = buffer::filled(0, |bytes, used| unsafe {
        let (log_at, record_at) = (log_id.as_ptr(), record_id.as_ptr());
        let (room, to) = (bytes.len(), bytes.as_mut_ptr());
        raw::warg_leaf(log_at, log_id.len(), record_at, record_id.len(), to, room, used)
    });
    found.map_err(|it| it.or(BAD_TEXT))?.ok_or(Error::BadArgument(None))
}

/// Whether the leaf of a log's record stands at a place of the registry's log, which has `length` leaves and this root.
pub fn verify_inclusion(
    log_id: &str,
    record_id: &str,
    place: u64,
    length: u64,
    root: &str,
    proof: &str,
) -> Result<bool, Error> {
    // SAFETY: each pointer goes with the length of its slice (`raw`).
    let status = unsafe {
        raw::warg_verify_inclusion(
            log_id.as_ptr(),
            log_id.len(),
            record_id.as_ptr(),
            record_id.len(),
            place,
            length,
            root.as_ptr(),
            root.len(),
            proof.as_ptr(),
            proof.len(),
        )
    };
    said(status, raw::LOG_TREE, proof)
}

/// Whether the registry's log of `new_length` leaves begins with the one of `old_length` leaves.
pub fn verify_consistency(
    old_length: u64,
    old_root: &str,
    new_length: u64,
    new_root: &str,
    proof: &str,
) -> Result<bool, Error> {
    // SAFETY: each pointer goes with the length of its slice (`raw`).
    let status = unsafe {
        raw::warg_verify_consistency(
            old_length,
            old_root.as_ptr(),
            old_root.len(),
            new_length,
            new_root.as_ptr(),
            new_root.len(),
            proof.as_ptr(),
            proof.len(),
        )
    };
    said(status, raw::LOG_TREE, proof)
}

/// Whether the registry's map says that a log's last record is this one.
pub fn verify_presence(log_id: &str, record_id: &str, root: &str, proof: &str) -> Result<bool, Error> {
    // SAFETY: each pointer goes with the length of its slice (`raw`).
    let status = unsafe {
        raw::warg_verify_presence(
            log_id.as_ptr(),
            log_id.len(),
            record_id.as_ptr(),
            record_id.len(),
            root.as_ptr(),
            root.len(),
            proof.as_ptr(),
            proof.len(),
        )
    };
    said(status, raw::MAP_TREE, proof)
}

/// Whether the registry's map says nothing of a log.
pub fn verify_absence(log_id: &str, root: &str, proof: &str) -> Result<bool, Error> {
    // SAFETY: each pointer goes with the length of its slice (`raw`).
    let status = unsafe {
        raw::warg_verify_absence(log_id.as_ptr(), log_id.len(), root.as_ptr(), root.len(), proof.as_ptr(), proof.len())
    };
    said(status, raw::MAP_TREE, proof)
}

/// How one checkpoint of a registry compares with an older one.
#[derive(Clone, Copy, Debug, PartialEq, Eq, Hash)]
pub enum CheckpointComparison {
    /// The lengths and both roots are equal.
    Same,
    /// The newer log is longer, and the proof shows that it begins with the older one.
    GoesOn,
    /// The newer log is shorter than the older one: a rollback.
    GoesBack,
    /// The lengths are equal and a root differs: no list of leaves has both. Two signatures show that the registry forked.
    Fork,
    /// The newer log is longer, and the proof does not show that it begins with the older one.
    NotShown,
}

/// How the leaves compare that are shown at one place of a registry's log under two checkpoints.
#[derive(Clone, Copy, Debug, PartialEq, Eq, Hash)]
pub enum LeafComparison {
    /// Both proofs hold, and the leaves are one.
    Same,
    /// Both proofs hold, and the leaves differ: neither log begins with the other one, or two strings collide.
    Fork,
    /// One of the proofs does not hold.
    NotShown,
}

/// A leaf, and the proof that is to show it in the log of a checkpoint.
#[derive(Clone, Copy, Debug)]
pub struct ShownLeaf<'a> {
    /// The checkpoint, of which the length and the root of the log are looked at.
    pub checkpoint: &'a Checkpoint,
    /// The text of the id of the leaf's log.
    pub log_id: &'a str,
    /// The text of the id of the leaf's record.
    pub record_id: &'a str,
    /// As [`verify_inclusion`] takes it.
    pub proof: &'a str,
}

/// How two answers about the last record of one log compare that are shown under one root of a registry's map.
#[derive(Clone, Copy, Debug, PartialEq, Eq, Hash)]
pub enum HeadComparison {
    /// Both proofs hold, and the answers are one: one record, or none.
    Same,
    /// Both proofs hold, of two records: two strings collide.
    Two,
    /// Both proofs hold, of a record and of none: two strings collide.
    OneAndNone,
    /// One of the proofs does not hold.
    NotShown,
}

/// How two checkpoints of a registry compare that the log of a newer one is shown to begin with.
#[derive(Clone, Copy, Debug, PartialEq, Eq, Hash)]
pub enum BeginningComparison {
    /// Both proofs hold, and the lengths and both roots are equal.
    Same,
    /// Both proofs hold, the lengths and the logs' roots are equal, and the maps' roots differ: no list of leaves has both.
    /// Two signatures show that the registry forked.
    Fork,
    /// Both proofs hold, the lengths are equal, and the logs' roots differ: two strings collide.
    Collision,
    /// Both proofs hold, and the lengths differ: nothing is said against the two.
    TwoLengths,
    /// One of the proofs does not hold.
    NotShown,
}

/// A checkpoint, and the proof that is to show that the log of a newer one begins with its own.
#[derive(Clone, Copy, Debug)]
pub struct ShownBeginning<'a> {
    /// The checkpoint, whose time is not looked at.
    pub checkpoint: &'a Checkpoint,
    /// As [`verify_consistency`] takes it under the length and the root of the newer checkpoint's log.
    pub proof: &'a str,
}

/// How a checkpoint of a registry compares with an older one, by a proof as [`verify_consistency`] takes it, which is looked at
/// where the newer log is longer, and may be the empty text elsewhere. Their times are not compared, and whether they are signed is
/// for an [`OperatorLog`](crate::OperatorLog) to say.
pub fn compare_checkpoints(old: &Checkpoint, new: &Checkpoint, proof: &str) -> Result<CheckpointComparison, Error> {
    let mut case = 0;
    // SAFETY: each pointer goes with the length of its slice (`raw`).
    let status = unsafe {
        raw::warg_compare_checkpoints(
            old.log_length,
            old.log_root.as_ptr(),
            old.log_root.len(),
            old.map_root.as_ptr(),
            old.map_root.len(),
            new.log_length,
            new.log_root.as_ptr(),
            new.log_root.len(),
            new.map_root.as_ptr(),
            new.map_root.len(),
            proof.as_ptr(),
            proof.len(),
            &mut case,
        )
    };
    if status != raw::OK {
        return Err(misused(status, raw::LOG_TREE, &[proof]));
    }
    match case {
        0 => Ok(CheckpointComparison::Same),
        1 => Ok(CheckpointComparison::GoesOn),
        2 => Ok(CheckpointComparison::GoesBack),
        3 => Ok(CheckpointComparison::Fork),
        _ => Ok(CheckpointComparison::NotShown),
    }
}

/// How the leaves compare that are shown at one place of a registry's log under two checkpoints, as two clients may have been shown
/// them. Neither checkpoint has to be the older one.
pub fn compare_leaves(place: u64, old: &ShownLeaf<'_>, new: &ShownLeaf<'_>) -> Result<LeafComparison, Error> {
    let mut case = 0;
    // SAFETY: each pointer goes with the length of its slice (`raw`).
    let status = unsafe {
        raw::warg_compare_leaves(
            place,
            old.checkpoint.log_length,
            old.checkpoint.log_root.as_ptr(),
            old.checkpoint.log_root.len(),
            old.log_id.as_ptr(),
            old.log_id.len(),
            old.record_id.as_ptr(),
            old.record_id.len(),
            old.proof.as_ptr(),
            old.proof.len(),
            new.checkpoint.log_length,
            new.checkpoint.log_root.as_ptr(),
            new.checkpoint.log_root.len(),
            new.log_id.as_ptr(),
            new.log_id.len(),
            new.record_id.as_ptr(),
            new.record_id.len(),
            new.proof.as_ptr(),
            new.proof.len(),
            &mut case,
        )
    };
    if status != raw::OK {
        return Err(misused(status, raw::LOG_TREE, &[old.proof, new.proof]));
    }
    match case {
        0 => Ok(LeafComparison::Same),
        1 => Ok(LeafComparison::Fork),
        _ => Ok(LeafComparison::NotShown),
    }
}

/// How two answers about the last record of one log compare that are shown under one root of a registry's map, as two
/// clients may have been shown them: each a record's id with its proof as [`verify_presence`] takes it, or none with one as
/// [`verify_absence`] takes it. An empty text is no id.
pub fn compare_heads(map_root: &str, log_id: &str, one: &Head, other: &Head) -> Result<HeadComparison, Error> {
    let proofs = [one.proof.as_str(), other.proof.as_str()];
    let records = [one, other].map(|it| it.record_id.as_deref());
    if records.contains(&Some("")) {
        return Err(misused(raw::BAD_ARGUMENT, raw::MAP_TREE, &proofs));
    }
    // The library has an empty text for none.
    let [record, other_record] = records.map(Option::unwrap_or_default);
    let mut case = 0;
    // SAFETY: each pointer goes with the length of its slice (`raw`).
    let status = unsafe {
        raw::warg_compare_heads(
            map_root.as_ptr(),
            map_root.len(),
            log_id.as_ptr(),
            log_id.len(),
            record.as_ptr(),
            record.len(),
            one.proof.as_ptr(),
            one.proof.len(),
            other_record.as_ptr(),
            other_record.len(),
            other.proof.as_ptr(),
            other.proof.len(),
            &mut case,
        )
    };
    if status != raw::OK {
        return Err(misused(status, raw::MAP_TREE, &proofs));
    }
    Ok(head_case(case))
}

/// How two checkpoints of a registry compare that the log of a newer one is shown to begin with, as two clients may have
/// been shown them. Of the newer one's map nothing is asked, and their times are not compared.
pub fn compare_beginnings(
    new: &Checkpoint,
    one: &ShownBeginning<'_>,
    other: &ShownBeginning<'_>,
) -> Result<BeginningComparison, Error> {
    let mut case = 0;
    // SAFETY: each pointer goes with the length of its slice (`raw`).
    let status = unsafe {
        raw::warg_compare_beginnings(
            new.log_length,
            new.log_root.as_ptr(),
            new.log_root.len(),
            one.checkpoint.log_length,
            one.checkpoint.log_root.as_ptr(),
            one.checkpoint.log_root.len(),
            one.checkpoint.map_root.as_ptr(),
            one.checkpoint.map_root.len(),
            one.proof.as_ptr(),
            one.proof.len(),
            other.checkpoint.log_length,
            other.checkpoint.log_root.as_ptr(),
            other.checkpoint.log_root.len(),
            other.checkpoint.map_root.as_ptr(),
            other.checkpoint.map_root.len(),
            other.proof.as_ptr(),
            other.proof.len(),
            &mut case,
        )
    };
    if status != raw::OK {
        return Err(misused(status, raw::LOG_TREE, &[one.proof, other.proof]));
    }
    Ok(beginning_case(case))
}

// The case of its number.
fn head_case(number: u32) -> HeadComparison {
    match number {
        0 => HeadComparison::Same,
        1 => HeadComparison::Two,
        2 => HeadComparison::OneAndNone,
        _ => HeadComparison::NotShown,
    }
}

// The case of its number.
fn beginning_case(number: u32) -> BeginningComparison {
    match number {
        0 => BeginningComparison::Same,
        1 => BeginningComparison::Fork,
        2 => BeginningComparison::Collision,
        3 => BeginningComparison::TwoLengths,
        _ => BeginningComparison::NotShown,
    }
}

fn said(status: u32, tree: u32, proof: &str) -> Result<bool, Error> {
    match status {
        raw::OK => Ok(true),
        raw::REFUSED => Ok(false),
        status => Err(misused(status, tree, &[proof])),
    }
}

// The error of a status: of a bad argument the fault of the first of the proofs that has one, or else that of another text.
fn misused(status: u32, tree: u32, proofs: &[&str]) -> Error {
    if status != raw::BAD_ARGUMENT {
        return Error::of(status, &[]);
    }
    for proof in proofs {
        match fault_of(tree, proof) {
            Ok(Some(fault)) => return Error::BadArgument(Some(fault)),
            Ok(None) => {}
            Err(error) => return error,
        }
    }
    Error::of(status, BAD_TEXT)
}

// What is wrong with the text as that of a proof on the tree, if anything is.
fn fault_of(tree: u32, proof: &str) -> Result<Option<Reason>, Error> {
    // SAFETY: each pointer goes with the length of its slice (`raw`).
    let name = buffer::filled(0, |text, used| unsafe {
        raw::warg_proof_fault(tree, proof.as_ptr(), proof.len(), text.as_mut_ptr(), text.len(), used)
    })?;
    Ok(name.map(|it| Reason { name: buffer::text_of(it), sentence: String::new() }))
}

#[cfg(test)]
mod tests {
    use super::{beginning_case, head_case, BeginningComparison, HeadComparison};

    /// Each number of the library has its case: no proofs are known that collide.
    #[test]
    fn cases_of_numbers() {
        let heads = [HeadComparison::Same, HeadComparison::Two, HeadComparison::OneAndNone, HeadComparison::NotShown];
        let beginnings = [
            BeginningComparison::Same,
            BeginningComparison::Fork,
            BeginningComparison::Collision,
            BeginningComparison::TwoLengths,
            BeginningComparison::NotShown,
        ];
        assert_eq!([0, 1, 2, 3].map(head_case), heads);
        assert_eq!([0, 1, 2, 3, 4].map(beginning_case), beginnings);
    }
}
