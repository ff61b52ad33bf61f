//! The rows of the conformance suite that ask for what a registry gives: roots and proofs, which other programs made.
use weoldrin::{Error, RegistryTrees};

const FOLDER: &str = concat!(env!("CARGO_MANIFEST_DIR"), "/../../conformance/values/");
const FILES: [&str; 3] = ["transparency.rows", "transparency_logs.rows", "transparency_maps.rows"];

/// The lines of a file, of which those that go on in the next one are folded. Comments and blank lines are left out.
fn lines_of(file: &str) -> Vec<String> {
    let text = std::fs::read_to_string(format!("{FOLDER}{file}")).expect("the rows");
    let (mut lines, mut goes_on) = (Vec::<String>::new(), false);
    for line in text.lines().map(str::trim) {
        let part = line.strip_suffix('\\').unwrap_or(line);
        match lines.last_mut() {
            Some(last) if goes_on => last.push_str(part),
            _ if line.is_empty() || line.starts_with('#') => {}
            _ => lines.push(part.to_owned()),
        }
        goes_on = part != line;
    }
    lines
}

/// The trees of leaves, each two words, which are pushed.
fn pushed(leaves: &[&str]) -> RegistryTrees {
    let mut trees = RegistryTrees::new().expect("trees");
    for (place, leaf) in leaves.chunks(2).enumerate() {
        assert_eq!(trees.push(leaf[0], leaf[1]), Ok(place as u64));
    }
    trees
}

/// The trees that are made of the same leaves, which were saved.
fn made(leaves: &[&str]) -> RegistryTrees {
    let saved = pushed(leaves).to_bytes().expect("bytes");
    RegistryTrees::from_bytes(&saved).expect("trees")
}

/// The answer of trees to a row, or none where it asks for something else.
fn answer(question: &[&str], trees_of: fn(&[&str]) -> RegistryTrees) -> Option<String> {
    let proof = |it: Result<Option<String>, Error>| it.expect("an answer").unwrap_or_else(|| "none".to_owned());
    let number = |it: &str| it.parse().expect("a number");
    let told = match question {
        ["log-root", leaves @ ..] => {
            let now = trees_of(leaves).checkpoint(0).expect("a checkpoint");
            assert_eq!(now.log_length, leaves.len() as u64 / 2);
            now.log_root
        }
        ["map-root", leaves @ ..] => trees_of(leaves).checkpoint(0).expect("a checkpoint").map_root,
        ["inclusion-proof", place, leaves @ ..] => proof(trees_of(leaves).inclusion(number(place))),
        ["consistency-proof", first, leaves @ ..] => proof(trees_of(leaves).consistency(number(first))),
        ["map-proof", log_id, leaves @ ..] => trees_of(leaves).head(log_id).expect("a head").proof,
        _ => return None,
    };
    Some(if told.is_empty() { "\"\"".to_owned() } else { told })
}

#[test]
fn roots_and_proofs() {
    let mut played = 0;
    for (file, line) in FILES.iter().flat_map(|file| lines_of(file).into_iter().map(move |line| (file, line))) {
        let words: Vec<&str> = line.split(' ').collect();
        if let [question @ .., "=", wanted] = &words[..] {
            for seen in [pushed, made].iter().filter_map(|it| answer(question, *it)) {
                assert_eq!(seen, *wanted, "{file}: {line}");
                played += 1;
            }
        }
    }
    assert!(played >= 2 * 46, "{played} rows");
}
