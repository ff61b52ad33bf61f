//! The trees of a registry by their definitions alone, for the tests: RFC 9162, section 2.1, and docs/FORMATS.md.
use std::cell::RefCell;
use std::collections::{BTreeMap, HashMap};

extern "C" {
    // Libcrypto's.
    fn SHA256(bytes: *const u8, len: usize, digest: *mut u8) -> *mut u8;
}

type Hash = [u8; 32];

const DIGITS: &[u8] = b"ABCDEFGHIJKLMNOPQRSTUVWXYZabcdefghijklmnopqrstuvwxyz0123456789+/";

/// The bytes of the text of a hash.
pub fn hash_of(text: &str) -> Hash {
    let digits = text.strip_prefix("sha256:").expect("the text of a hash");
    let mut hash = [0; 32];
    for (place, it) in hash.iter_mut().enumerate() {
        *it = u8::from_str_radix(&digits[2 * place..][..2], 16).expect("two hex digits");
    }
    hash
}

/// The text of a hash.
pub fn text_of(hash: &Hash) -> String {
    let digits: String = hash.iter().map(|it| format!("{it:02x}")).collect();
    format!("sha256:{digits}")
}

/// The base64 of bytes, padded.
fn base64(bytes: &[u8]) -> String {
    let mut text = String::new();
    for part in bytes.chunks(3) {
        let number = part.iter().chain(&[0; 2]).take(3).fold(0, |sum, &it| sum << 8 | usize::from(it));
        for place in 0..4 {
            let digit = DIGITS[number >> (18 - 6 * place) & 63];
            text.push(if place <= part.len() { digit.into() } else { '=' });
        }
    }
    text
}

fn sha256(parts: &[&[u8]]) -> Hash {
    let (bytes, mut digest) = (parts.concat(), [0; 32]);
    // SAFETY: the bytes go with their number, and a digest of SHA-256 has 32.
    unsafe { SHA256(bytes.as_ptr(), bytes.len(), digest.as_mut_ptr()) };
    digest
}

/// The hash of a node.
fn inner(left: &Hash, right: &Hash) -> Hash {
    sha256(&[&[1], left, right])
}

/// The text of an id in the prefix encoding: its length is below 128.
fn prefixed(id: &str) -> Vec<u8> {
    [&[id.len() as u8], id.as_bytes()].concat()
}

/// The bit of an id that says on which side it is below so many bits.
fn bit(id: &Hash, depth: usize) -> bool {
    id[depth / 8] >> (7 - depth % 8) & 1 == 1
}

/// How many bits two ids share, up to the first that they have otherwise.
fn shared(left: &Hash, right: &Hash) -> usize {
    (0..256).take_while(|&depth| bit(left, depth) == bit(right, depth)).count()
}

/// The leaves that were pushed, as the hashes of the log's leaves, and as the heads of logs with the hashes of the
/// map's.
pub struct Reference {
    leaves: Vec<Hash>,
    heads: BTreeMap<Hash, (String, Hash)>,
    // By height.
    empty: Vec<Hash>,
    // Roots that were worked out: of the log, by the places of the first leaf and behind the last; and of subtrees of
    // the map with one log, by their height, its id and its leaf.
    roots: RefCell<HashMap<(usize, usize), Hash>>,
    chains: RefCell<HashMap<(usize, Hash, Hash), Hash>>,
}

impl Reference {
    pub fn new() -> Self {
        let mut empty = vec![sha256(&[])];
        for height in 0..256 {
            empty.push(inner(&empty[height], &empty[height]));
        }
        let (roots, chains) = (RefCell::default(), RefCell::default());
        Reference { leaves: Vec::new(), heads: BTreeMap::new(), empty, roots, chains }
    }

    pub fn push(&mut self, log_id: &str, record_id: &str) {
        self.leaves.push(sha256(&[&[0], b"WARG-LOG-LEAF-V0", &prefixed(log_id), &prefixed(record_id)]));
        let leaf = sha256(&[&[0], b"WARG-MAP-LEAF-V0", &prefixed(record_id)]);
        self.heads.insert(hash_of(log_id), (record_id.to_owned(), leaf));
    }

    /// The text of the root of the log's first leaves.
    pub fn log_root(&self, length: usize) -> String {
        text_of(&self.root(0, length))
    }

    /// The text of the root of the map.
    pub fn map_root(&self) -> String {
        let logs: Vec<_> = self.heads.iter().map(|(id, (_, leaf))| (id, leaf)).collect();
        text_of(&self.subtree(256, &logs))
    }

    /// The id of a log's last record.
    pub fn head(&self, log_id: &str) -> Option<String> {
        self.heads.get(&hash_of(log_id)).map(|(record_id, _)| record_id.clone())
    }

    /// The text of the path of a leaf.
    pub fn inclusion(&self, place: usize) -> String {
        base64(&self.path(place, 0, self.leaves.len()).concat())
    }

    /// The text of the proof that the log begins with its first leaves.
    pub fn consistency(&self, length: usize) -> String {
        if length == 0 {
            return String::new();
        }
        base64(&self.subproof(length, 0, self.leaves.len(), true).concat())
    }

    /// The text of the path of a log's place in the map, in its short form.
    pub fn map_proof(&self, log_id: &str) -> String {
        let id = hash_of(log_id);
        let depths: Vec<_> = self.heads.iter().map(|(it, (_, leaf))| (shared(it, &id), (it, leaf))).collect();
        let (mut bits, mut siblings) = ([0_u8; 32], Vec::new());
        for height in 0..256 {
            let beside = depths.iter().filter(|(depth, _)| *depth == 255 - height);
            let logs: Vec<_> = beside.map(|(_, it)| *it).collect();
            if logs.is_empty() {
                bits[height / 8] |= 0x80 >> (height % 8);
            } else {
                siblings.extend(self.subtree(height, &logs));
            }
        }
        base64(&[&bits[..], &siblings].concat())
    }

    // The root of the leaves from a place to another.
    fn root(&self, from: usize, to: usize) -> Hash {
        if let Some(&known) = self.roots.borrow().get(&(from, to)) {
            return known;
        }
        let root = match to - from {
            0 => sha256(&[]),
            1 => self.leaves[from],
            count => {
                let middle = from + split(count);
                inner(&self.root(from, middle), &self.root(middle, to))
            }
        };
        self.roots.borrow_mut().insert((from, to), root);
        root
    }

    fn path(&self, place: usize, from: usize, to: usize) -> Vec<Hash> {
        if to - from == 1 {
            return Vec::new();
        }
        let middle = from + split(to - from);
        let (mut path, sibling) = if place < middle {
            (self.path(place, from, middle), self.root(middle, to))
        } else {
            (self.path(place, middle, to), self.root(from, middle))
        };
        path.push(sibling);
        path
    }

    // `is_known` is whether the first leaves are all of the tree that the proof is for.
    fn subproof(&self, length: usize, from: usize, to: usize, is_known: bool) -> Vec<Hash> {
        if length == to - from {
            return if is_known { Vec::new() } else { vec![self.root(from, to)] };
        }
        let count = split(to - from);
        let middle = from + count;
        let (mut proof, sibling) = if length <= count {
            (self.subproof(length, from, middle, is_known), self.root(middle, to))
        } else {
            (self.subproof(length - count, middle, to, false), self.root(from, middle))
        };
        proof.push(sibling);
        proof
    }

    // The root of the subtree of a height that has these logs, in the order of their ids.
    fn subtree(&self, height: usize, logs: &[(&Hash, &Hash)]) -> Hash {
        match logs {
            [] => self.empty[height],
            [(_, leaf)] if height == 0 => **leaf,
            [(id, leaf)] => self.chain(height, id, leaf),
            _ => self.split(height, logs),
        }
    }

    fn split(&self, height: usize, logs: &[(&Hash, &Hash)]) -> Hash {
        let (left, right) = logs.split_at(logs.partition_point(|(id, _)| !bit(id, 256 - height)));
        inner(&self.subtree(height - 1, left), &self.subtree(height - 1, right))
    }

    // The same of one log.
    fn chain(&self, height: usize, id: &Hash, leaf: &Hash) -> Hash {
        let key = (height, *id, *leaf);
        if let Some(&known) = self.chains.borrow().get(&key) {
            return known;
        }
        let root = self.split(height, &[(id, leaf)]);
        self.chains.borrow_mut().insert(key, root);
        root
    }
}

/// The greatest power of two below a count.
fn split(count: usize) -> usize {
    count.next_power_of_two() / 2
}
