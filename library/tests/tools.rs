//! Bad input to the tools: a clear message, a non-zero exit status, nothing half written.

mod common;

use std::fs;
use std::process::{Command, Output, Stdio};

use common::*;

const EXAMPLE: &[u8] = include_bytes!("../../reference/data/example.bin");

/// Nothing is printed, and the message begins with the tool's name and has `words`.
fn assert_refused(output: &Output, status: i32, words: &str) {
    let said = String::from_utf8_lossy(&output.stderr);
    assert_eq!(output.status.code(), Some(status), "{said}");
    assert!(output.stdout.is_empty(), "{said}");
    assert!(
        said.starts_with("trace: ") || said.starts_with("lockstep: "),
        "{said}"
    );
    assert!(said.contains(words), "{said}");
}

#[test]
fn bad_command_lines_of_trace() {
    for (arguments, words) in [
        (&["--what"][..], "unknown option --what"),
        (&["-h"], "unknown option -h"),
        (&["--chart"], "--chart needs a file name"),
        (&["--chart", "run.png"], "ends in .svg, not run.png"),
        (&["one", "two"], "one file is enough"),
        (
            &["--chart", "one.svg", "--chart", "two.svg"],
            "one file is enough",
        ),
    ] {
        let output = run(TRACE, arguments, EXAMPLE);
        assert_refused(&output, 2, words);
        assert!(String::from_utf8_lossy(&output.stderr).contains("usage: trace"));
    }
}

#[test]
fn bad_command_lines_of_lockstep() {
    for (arguments, words) in [
        (&["--what", "1"][..], "unknown option --what"),
        (&["--runs"], "--runs needs a value"),
        (&["--runs", "many"], "--runs needs a number"),
        (&["--runs", "0"], "compares nothing"),
        (&["--runs", "2", "--run", "1"], "not both"),
        (&["--write", "run.bin"], "--write needs --run"),
    ] {
        let output = run(LOCKSTEP, arguments, b"");
        assert_refused(&output, 2, words);
        assert!(String::from_utf8_lossy(&output.stderr).contains("usage: lockstep"));
    }
}

#[test]
fn an_input_that_cannot_be_read() {
    let folder = Folder::new("unreadable");
    let missing = folder.file("missing.bin");
    let chart = folder.file("run.svg");
    assert_refused(&run(TRACE, &[&missing], b""), 1, &missing);
    assert_refused(
        &run(TRACE, &[&missing, "--chart", &chart], b""),
        1,
        &missing,
    );
    let directory = folder.file("");
    assert_refused(&run(TRACE, &[&directory], b""), 1, &directory);
    assert!(folder.names().is_empty());
}

#[test]
fn a_chart_that_cannot_be_written() {
    let folder = Folder::new("unwritable");
    let beyond = folder.file("missing/run.svg");
    assert_refused(&run(TRACE, &["--chart", &beyond], EXAMPLE), 1, &beyond);
    let directory = folder.file("folder.svg");
    fs::create_dir(&directory).expect("the folder is there");
    assert_refused(
        &run(TRACE, &["--chart", &directory], EXAMPLE),
        1,
        &directory,
    );
    let long = folder.file(&format!("{}.svg", "x".repeat(250)));
    assert_refused(&run(TRACE, &["--chart", &long], EXAMPLE), 1, "xxx.svg");
    assert_eq!(folder.names(), ["folder.svg"]);
    assert!(fs::read_dir(&directory)
        .expect("it is there")
        .next()
        .is_none());
}

#[cfg(unix)]
#[test]
fn a_device_is_never_replaced() {
    let folder = Folder::new("device");
    let link = folder.file("null.svg");
    std::os::unix::fs::symlink("/dev/null", &link).expect("a link can be made");
    assert_refused(&run(TRACE, &["--chart", &link], EXAMPLE), 1, "no file");
    let dangling = folder.file("dangling.svg");
    std::os::unix::fs::symlink("nowhere", &dangling).expect("a link can be made");
    assert_refused(&run(TRACE, &["--chart", &dangling], EXAMPLE), 1, &dangling);
    assert_eq!(folder.names(), ["dangling.svg", "null.svg"]);
    assert!(!fs::metadata("/dev/null").expect("it is there").is_file());
}

#[test]
fn a_chart_is_written_whole_over_an_older_one() {
    let folder = Folder::new("chart");
    let chart = folder.file("run.svg");
    fs::write(&chart, "an older and much longer chart\n".repeat(10_000))
        .expect("it can be written");
    let output = run(TRACE, &["--chart", &chart], EXAMPLE);
    assert!(output.status.success());
    assert!(output.stdout.starts_with(b"chain 2 shards 1\nd0 0 1 "));
    let drawn = fs::read_to_string(&chart).expect("it is there");
    assert!(drawn.starts_with("<?xml") && drawn.ends_with("</svg>\n"));
    assert_eq!(folder.names(), ["run.svg"]);
}

#[cfg(target_os = "linux")]
#[test]
fn an_output_that_is_full() {
    let full = fs::OpenOptions::new().write(true).open("/dev/full");
    for (tool, arguments) in [(TRACE, &[][..]), (LOCKSTEP, &["--run", "3"])] {
        let full = full.as_ref().expect("it is there").try_clone();
        let output = Command::new(tool)
            .args(arguments)
            .stdin(Stdio::null())
            .stdout(full.expect("it can be shared"))
            .stderr(Stdio::piped())
            .output()
            .expect("the tool starts");
        let said = String::from_utf8_lossy(&output.stderr);
        assert!(
            !output.status.success() && said.contains("standard output"),
            "{said}"
        );
    }
}
