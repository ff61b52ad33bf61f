//! That the trees of a registry are closed, in a process of its own: in another one other tests take memory.
#![cfg(target_os = "linux")]
use weoldrin::{Error, RegistryTrees};

const ID: &str = "sha256:28fdd77254977237364a167ba289ff718fbe76799cfd983dbf447346fa62a033";

/// How many KB of memory this process has.
fn resident() -> usize {
    let status = std::fs::read_to_string("/proc/self/status").expect("the status");
    let said = status.lines().find_map(|it| it.strip_prefix("VmRSS:")).expect("a line");
    said.trim_end_matches("kB").trim().parse().expect("a number")
}

fn make_and_drop() -> Result<(), Error> {
    let mut trees = RegistryTrees::new()?;
    assert_eq!(trees.push(ID, ID)?, 0);
    Ok(())
}

/// Trees that are dropped give their memory back: those of no leaf take 8 KB.
#[test]
fn dropped_trees() -> Result<(), Error> {
    make_and_drop()?;
    let before = resident();
    for _ in 0..3000 {
        make_and_drop()?;
    }
    let more = resident().saturating_sub(before);
    assert!(more < 4000, "{more} KB more");
    Ok(())
}
