//! What the tests share.
#![allow(dead_code)]

use std::env;
use std::fs;
use std::io::Write;
use std::path::{Path, PathBuf};
use std::process::{Command, Output, Stdio};

use reference::driver::random::Random;
use reference::driver::simulation::{Setup, Simulation};
use reference::register::Register;

pub const TRACE: &str = env!("CARGO_BIN_EXE_trace");
pub const LOCKSTEP: &str = env!("CARGO_BIN_EXE_lockstep");

/// A run of the second program as an input of the trace, with mischief in `mischief` of a hundred
/// events.
pub fn simulated(seed: u64, records: usize, mischief: usize) -> Vec<u8> {
    let mut random = Random::new(seed, 0);
    let setup = Setup {
        n: random.byte(2..=8),
        m: random.byte(1..=8),
        clients: random.byte(1..=16),
        keys: random.among(&[2, 8, 256]),
        invocations: 200,
        records,
        disorder: random.among(&[1, 4, 16]),
        talk: 10,
        retry: 20,
        loss: 2,
        notif_loss: 0,
        doubling: 5,
        late: 5,
        again: 50,
        mischief,
    };
    let mut simulation = Simulation::new(Register::deliver, setup, random);
    simulation.crowd = 20;
    simulation.harm = 20;
    simulation.run().expect("nothing is watched");
    simulation.trace_input
}

/// Runs a tool with `input` on its standard input.
pub fn run(program: &str, arguments: &[&str], input: &[u8]) -> Output {
    let mut child = Command::new(program)
        .args(arguments)
        .stdin(Stdio::piped())
        .stdout(Stdio::piped())
        .stderr(Stdio::piped())
        .spawn()
        .expect("the tool starts");
    let mut stdin = child.stdin.take().expect("standard input is a pipe");
    let input = input.to_vec();
    // A tool that refuses its command line reads nothing.
    let writer = std::thread::spawn(move || drop(stdin.write_all(&input)));
    let output = child.wait_with_output().expect("the tool ends");
    writer.join().expect("the writer ends");
    output
}

/// A new folder that goes away with the value.
pub struct Folder(PathBuf);

impl Folder {
    pub fn new(name: &str) -> Self {
        let path = env::temp_dir().join(format!("library-{name}-{}", std::process::id()));
        fs::create_dir_all(&path).expect("the folder can be made");
        Folder(path)
    }

    pub fn path(&self) -> &Path {
        &self.0
    }

    pub fn file(&self, name: &str) -> String {
        let path = self.0.join(name);
        path.to_str().expect("a plain path").to_string()
    }

    pub fn names(&self) -> Vec<String> {
        let entries = fs::read_dir(&self.0).expect("the folder can be read");
        let names = entries.map(|entry| entry.expect("an entry").file_name());
        let mut names: Vec<String> = names
            .map(|name| name.to_string_lossy().into_owned())
            .collect();
        names.sort();
        names
    }
}

impl Drop for Folder {
    fn drop(&mut self) {
        let _ = fs::remove_dir_all(&self.0);
    }
}
