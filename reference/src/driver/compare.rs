//! The program under test, and the comparison of its output with the second program's.

use std::io::Write;
use std::path::PathBuf;
use std::process::{Command, Stdio};
use std::thread;

/// Something that turns a bench input into a bench output.
pub trait Program {
    /// The output for `input`, or why there is none.
    fn output(&self, input: &[u8]) -> Result<Vec<u8>, String>;
}

/// A program on this machine, fed through standard input.
pub struct Executable(pub PathBuf);

impl Program for Executable {
    fn output(&self, input: &[u8]) -> Result<Vec<u8>, String> {
        let describe = |error| format!("{}: {error}", self.0.display());
        let mut child = Command::new(&self.0)
            .stdin(Stdio::piped())
            .stdout(Stdio::piped())
            .spawn()
            .map_err(describe)?;
        let stdin = child.stdin.take();
        let output = thread::scope(|scope| {
            // A program may stop reading at a cut, so a broken pipe is no fault.
            scope.spawn(|| stdin.map(|mut stdin| stdin.write_all(input)));
            child.wait_with_output()
        })
        .map_err(describe)?;
        if output.status.success() {
            Ok(output.stdout)
        } else {
            Err(format!("{} ended with {}", self.0.display(), output.status))
        }
    }
}

/// Runs `program` on `input`; an error says where its output first differs from `expected`.
pub fn compare(program: &dyn Program, input: &[u8], expected: &[u8]) -> Result<(), String> {
    let given = program.output(input)?;
    if given == expected {
        return Ok(());
    }
    let mut given_lines = given.split(|&byte| byte == b'\n');
    let mut expected_lines = expected.split(|&byte| byte == b'\n');
    let mut line = 1;
    loop {
        let (given, expected) = (given_lines.next(), expected_lines.next());
        if given != expected || given.is_none() {
            let show = |text: Option<&[u8]>| match text {
                Some(text) => format!("`{}`", String::from_utf8_lossy(text)),
                None => "the end".to_string(),
            };
            return Err(format!(
                "line {line}: {}, the second program has {}",
                show(given),
                show(expected)
            ));
        }
        line += 1;
    }
}
