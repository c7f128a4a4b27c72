//! The driver and the speed comparison as commands.

use std::env;
use std::fs;
use std::process::{Command, Output};

const SECOND: &str = env!("CARGO_BIN_EXE_second");
/// A program that gives other outputs than the bench.
const OTHER: &str = env!("CARGO_BIN_EXE_second-trace");

fn command(program: &str, arguments: &[&str]) -> (Output, String) {
    let output = Command::new(program)
        .args(arguments)
        .output()
        .expect("the command starts");
    let text = String::from_utf8_lossy(&output.stdout).into_owned();
    (output, text)
}

fn driver(arguments: &[&str]) -> (Output, String) {
    command(env!("CARGO_BIN_EXE_driver"), arguments)
}

#[test]
fn the_second_program_passes() {
    let (output, text) = driver(&["--program", SECOND, "--runs", "32"]);
    assert!(output.status.success(), "{text}");
    assert!(text.ends_with("65 passed, 0 failed\n"), "{text}");
    assert!(text.contains("3 ShardAppend"));
}

#[test]
fn another_program_fails_and_the_input_is_kept() {
    let keep = env::temp_dir().join(format!("driver-test-{}", std::process::id()));
    let keep_name = keep.to_str().expect("a plain path");
    let (output, text) = driver(&[
        "--program",
        OTHER,
        "--runs",
        "3",
        "--seed",
        "5",
        "--keep",
        keep_name,
    ]);
    assert_eq!(output.status.code(), Some(1), "{text}");
    let file = keep.join("difference-5-2.bin");
    let file_name = file.to_str().expect("a plain path");
    assert!(
        text.contains(&format!(
            "again: driver --program {OTHER} --replay {file_name}"
        )),
        "{text}"
    );
    // One cycle of runs hasn't met every answer, so the table fails as well.
    assert!(text.ends_with("3 passed, 4 failed\n"), "{text}");

    let (output, text) = driver(&["--program", OTHER, "--replay", file_name]);
    assert_eq!(output.status.code(), Some(1));
    assert!(text.ends_with("0 passed, 1 failed\n"), "{text}");
    let (output, text) = driver(&["--program", SECOND, "--replay", file_name]);
    assert!(output.status.success());
    assert!(text.ends_with("1 passed, 0 failed\n"), "{text}");
    fs::remove_dir_all(&keep).expect("the folder was made above");
}

#[test]
fn one_run_alone() {
    let (output, text) = driver(&["--program", SECOND, "--run", "2"]);
    assert!(output.status.success());
    assert_eq!(text, "2 passed, 0 failed\n");
}

#[test]
fn bad_command_lines() {
    for arguments in [
        &[][..],
        &["--program"],
        &["--program", "no such file"],
        &["--program", SECOND, "--runs", "many"],
        &["--program", SECOND, "--replay", "no such file"],
        &["--what", "1"],
    ] {
        let (output, text) = driver(arguments);
        assert_eq!(output.status.code(), Some(2), "{arguments:?}");
        assert!(
            text.is_empty() && !output.stderr.is_empty(),
            "{arguments:?}"
        );
    }
}

#[test]
fn speed_compares() {
    let speed = env!("CARGO_BIN_EXE_speed");
    let small = ["--records", "20000", "--times", "1", "--program"];
    let (output, text) = command(speed, &[&small[..], &[SECOND]].concat());
    assert!(output.status.success(), "{text}");
    assert_eq!(text.matches("ratio ").count(), 2);
    let (output, _) = command(speed, &[&small[..], &[OTHER]].concat());
    assert!(!output.status.success());
    assert!(String::from_utf8_lossy(&output.stderr).contains("gave another output"));
}
