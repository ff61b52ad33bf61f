//! The program of `examples/`, which `cargo test` builds where no test is named.
#![cfg(feature = "openssl")]
use std::env;
use std::path::Path;
use std::process::{Command, Stdio};

/// The built program, which lies beside the folder of this test.
fn example() -> Command {
    let test = env::current_exe().expect("the path of this test");
    let built = test.parent().and_then(Path::parent).expect("the folder of what is built");
    let program = built.join("examples/publish_and_audit");
    assert!(program.is_file(), "there is no {}: `cargo test` builds it where no test is named", program.display());
    Command::new(program)
}

#[test]
fn a_log_is_audited_and_a_forged_record_refused() {
    let done = example().output().expect("a run");
    let printed = String::from_utf8(done.stdout).expect("a text");
    let lines: Vec<&str> = printed.lines().collect();
    assert!(done.status.success() && lines.len() == 3, "{printed}");
    assert!(lines[0].starts_with("ok 50 sha256:"), "{printed}");
    assert_eq!(lines[1], "latest 1.49.0");
    assert!(lines[2].starts_with("refused 7 SignatureError"), "{printed}");
}

/// A reader that has gone, as of `| head -1`, is no fault.
#[test]
fn it_prints_to_a_pipe_that_is_closed() {
    let mut run = example().arg("print").stdout(Stdio::piped()).spawn().expect("a run");
    drop(run.stdout.take());
    assert!(run.wait().expect("its end").success());
}
