//! The trees of a registry beside those that the definitions give, leaf for leaf.
#![cfg(feature = "openssl")]
mod reference;

use reference::{hash_of, text_of, Reference};
use weoldrin::p256::sha256_text;
use weoldrin::proofs::{verify_absence, verify_consistency, verify_inclusion, verify_presence};
use weoldrin::{Error, Head, RegistryTrees};

type Tested = Result<(), Error>;

fn log(number: usize) -> String {
    sha256_text(format!("log {number}").as_bytes())
}

fn record(number: usize) -> String {
    sha256_text(format!("record {number}").as_bytes())
}

/// The id with another bit at a depth.
fn beside(id: &str, depth: usize) -> String {
    let mut hash = hash_of(id);
    hash[depth / 8] ^= 0x80 >> (depth % 8);
    text_of(&hash)
}

/// Both kinds of trees, which are pushed to at once.
struct Both {
    trees: RegistryTrees,
    reference: Reference,
    leaves: Vec<(String, String)>,
}

impl Both {
    fn new() -> Result<Self, Error> {
        Ok(Both { trees: RegistryTrees::new()?, reference: Reference::new(), leaves: Vec::new() })
    }

    fn push(&mut self, log_id: String, record_id: String) -> Tested {
        assert_eq!(self.trees.push(&log_id, &record_id)?, self.leaves.len() as u64);
        self.reference.push(&log_id, &record_id);
        self.leaves.push((log_id, record_id));
        Ok(())
    }

    /// They have one length and the same roots.
    fn have_same_roots(&self, timestamp: u64) -> Tested {
        let now = self.trees.checkpoint(timestamp)?;
        assert_eq!((now.log_length, now.timestamp), (self.leaves.len() as u64, timestamp));
        assert_eq!((self.trees.len()?, self.trees.is_empty()?), (now.log_length, self.leaves.is_empty()));
        assert_eq!(now.log_root, self.reference.log_root(self.leaves.len()));
        assert_eq!(now.map_root, self.reference.map_root());
        Ok(())
    }

    /// They give the same proof of each leaf and of each beginning, and it holds. There are no others.
    fn have_same_log(&self) -> Tested {
        let now = self.trees.checkpoint(0)?;
        for (place, (log_id, record_id)) in self.leaves.iter().enumerate() {
            let proof = self.reference.inclusion(place);
            assert!(verify_inclusion(log_id, record_id, place as u64, now.log_length, &now.log_root, &proof)?);
            assert_eq!(self.trees.inclusion(place as u64)?, Some(proof), "{place} of {}", self.leaves.len());
        }
        for first in 0..=self.leaves.len() {
            let (proof, root) = (self.reference.consistency(first), self.reference.log_root(first));
            assert!(verify_consistency(first as u64, &root, now.log_length, &now.log_root, &proof)?);
            assert_eq!(self.trees.consistency(first as u64)?, Some(proof), "{first} of {}", self.leaves.len());
        }
        for past in [now.log_length, now.log_length + 1, 1 << 32, 1 << 63, u64::MAX] {
            assert_eq!(self.trees.inclusion(past)?, None, "{past} of {}", self.leaves.len());
            let beginning = if past == now.log_length { Some(String::new()) } else { None };
            assert_eq!(self.trees.consistency(past)?, beginning, "{past} of {}", self.leaves.len());
        }
        Ok(())
    }

    /// They say the same of a log, and prove it.
    fn have_same_head(&self, log_id: &str) -> Tested {
        let root = self.trees.checkpoint(0)?.map_root;
        let wanted = Head { record_id: self.reference.head(log_id), proof: self.reference.map_proof(log_id) };
        assert_eq!(self.trees.head(log_id)?, wanted, "{log_id} of {}", self.leaves.len());
        let holds = match &wanted.record_id {
            Some(record_id) => verify_presence(log_id, record_id, &root, &wanted.proof),
            None => verify_absence(log_id, &root, &wanted.proof),
        };
        assert!(holds?, "{log_id} of {}", self.leaves.len());
        Ok(())
    }
}

/// Logs that come again, in no order, and some of their records too. The logs 5 and 6 have no leaf.
#[test]
fn all_sizes() -> Tested {
    let mut both = Both::new()?;
    for size in 0..=70 {
        both.have_same_roots(size as u64)?;
        both.have_same_log()?;
        both.have_same_head(&log(size % 7))?;
        let next = log(size * size * 3 / 7 % 5);
        both.push(next.clone(), record(size % 40))?;
        both.have_same_head(&next)?;
    }
    for number in 0..7 {
        both.have_same_head(&log(number))?;
        both.have_same_head(&beside(&log(number), 255))?;
    }
    Ok(())
}

/// The ids of these logs part at each bit: no proof on a map is longer than that of the first.
#[test]
fn long_proofs() -> Tested {
    let mut both = Both::new()?;
    let first = log(0);
    for depth in (0..256).rev() {
        both.push(beside(&first, depth), record(depth))?;
    }
    both.have_same_head(&first)?;
    assert_eq!(both.trees.head(&first)?.proof.len(), 10_968);
    both.push(first.clone(), record(256))?;
    both.have_same_roots(1)?;
    for id in [&first, &beside(&first, 100), &log(1)] {
        both.have_same_head(id)?;
    }
    assert_eq!(both.trees.head(&first)?.proof.len(), 10_968);
    Ok(())
}

/// The log and the map are of one list of leaves, whatever was pushed to other trees in between.
#[test]
fn trees_apart() -> Tested {
    let (mut some, mut others) = (Both::new()?, Both::new()?);
    for number in 0..9 {
        some.push(log(number % 2), record(number))?;
        others.push(log(number % 3), record(number + 1))?;
    }
    for it in [&some, &others] {
        it.have_same_roots(5)?;
        it.have_same_log()?;
        it.have_same_head(&log(2))?;
    }
    Ok(())
}
