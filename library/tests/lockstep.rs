//! The lockstep driver as a command.

mod common;

use std::fs;

use common::*;

#[test]
fn a_cycle_of_runs_passes() {
    let output = run(LOCKSTEP, &["--runs", "32", "--seed", "5"], b"");
    let text = String::from_utf8_lossy(&output.stdout);
    assert!(output.status.success(), "{text}");
    assert!(text.ends_with("\n33 passed, 0 failed\n"), "{text}");
    assert!(text.starts_with("call \\ answer"), "{text}");
}

#[test]
fn one_run_alone_and_what_the_trace_makes_of_it() {
    let folder = Folder::new("lockstep");
    let name = folder.file("run.bin");
    for number in ["4", "7", "12"] {
        let output = run(LOCKSTEP, &["--run", number, "--write", &name], b"");
        let text = String::from_utf8_lossy(&output.stdout);
        assert!(output.status.success(), "{text}");
        assert!(
            text.ends_with(" calls on each side\n1 passed, 0 failed\n"),
            "{text}"
        );
        let input = fs::read(&name).expect("the input was written");
        let expected = reference::trace::trace(&input[..]).expect("memory can be read");
        assert!(expected.contains("\nL1 0 "), "run {number}");
        let traced = run(TRACE, &[&name], b"");
        assert!(traced.stdout == expected.as_bytes(), "run {number}");
    }
}
