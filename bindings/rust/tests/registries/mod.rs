//! Registries of a few leaves with their checkpoints, and texts of no form, for the tests of comparisons.
use weoldrin::{Checkpoint, Error, RegistryTrees};

pub const LENGTH: u64 = 9;
// At this place a forked registry has another leaf, of a log that has no other one.
pub const PARTED: u64 = 4;
pub const NO_TEXTS: [&str; 6] = ["", "sha256", "sha256:00", "!", "\0", "é"];

/// The text of an id that has this number in its last bytes.
pub fn id(number: u64) -> String {
    format!("sha256:{number:064x}")
}

/// The same hash in capitals.
pub fn upper(text: &str) -> String {
    text.to_uppercase().replace("SHA", "sha")
}

/// A registry of so many leaves, forked or not, with its checkpoint.
pub struct Made {
    pub trees: RegistryTrees,
    pub checkpoint: Checkpoint,
    pub leaves: Vec<[String; 2]>,
}

impl Made {
    pub fn new(size: u64, is_forked: bool) -> Result<Self, Error> {
        let (mut trees, mut leaves) = (RegistryTrees::new()?, Vec::new());
        for place in 0..size {
            let log = id(if place == PARTED { 0xabc } else { place % 3 });
            let record = id(if place == PARTED && is_forked { 0xf0f } else { 0x100 + place });
            trees.push(&log, &record)?;
            leaves.push([log, record]);
        }
        let checkpoint = trees.checkpoint(size)?;
        Ok(Made { trees, checkpoint, leaves })
    }

    pub fn consistency(&self, first: u64) -> String {
        self.trees.consistency(first).expect("an answer").expect("a proof")
    }
}

/// The proof with another digit in its last hash.
pub fn changed(proof: &str) -> String {
    let (start, end) = proof.split_at(proof.len() - 8);
    format!("{start}{}{}", if end.starts_with('A') { 'B' } else { 'A' }, &end[1..])
}

/// The name of the fault that an answer says.
pub fn fault_of<T: std::fmt::Debug>(answer: Result<T, Error>) -> String {
    match answer {
        Err(Error::BadArgument(Some(reason))) => reason.name,
        _ => format!("{answer:?}"),
    }
}
