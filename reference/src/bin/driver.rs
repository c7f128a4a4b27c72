//! Compares a program with the second one on seeded runs.

use std::fs;
use std::path::{Path, PathBuf};
use std::process::ExitCode;

use reference::arguments::Arguments;
use reference::bench::bench;
use reference::driver::compare::{compare, Executable};
use reference::driver::runs;
use reference::driver::table::Table;

const USAGE: &str = "usage: driver --program PATH [--runs N] [--seed S] [--run R] [--keep DIR]
       driver --program PATH --replay FILE";
const OPTIONS: [&str; 6] = [
    "--program",
    "--runs",
    "--seed",
    "--run",
    "--keep",
    "--replay",
];
/// The fixed set of runs.
const RUNS: u64 = 320;
const SEED: u64 = 1;

struct Driver {
    path: String,
    program: Executable,
    seed: u64,
    keep: PathBuf,
    table: Table,
    passed: u64,
    failed: u64,
}

impl Driver {
    fn run(&mut self, run: u64) {
        let made = runs::make(self.seed, run);
        let name = format!("seed {} run {run} ({:?})", self.seed, made.sort);
        let expected = bench(&made.input);
        let compared = compare(&self.program, &made.input, &expected)
            .and_then(|()| self.table.add(&made.input, &expected));
        self.judge(&name, made.fault.map_or(Ok(()), Err));
        if !self.judge(&name, compared) {
            self.keep(run, &made.input);
        }
    }

    /// Counts a check, and says what is wrong.
    fn judge(&mut self, name: &str, result: Result<(), String>) -> bool {
        match result {
            Ok(()) => self.passed += 1,
            Err(fault) => {
                println!("{name}: {fault}");
                self.failed += 1;
                return false;
            }
        }
        true
    }

    /// Writes the input of a difference to a file and says how to run it again.
    fn keep(&self, run: u64, input: &[u8]) {
        let file = self
            .keep
            .join(format!("difference-{}-{run}.bin", self.seed));
        let written = fs::create_dir_all(&self.keep).and_then(|()| fs::write(&file, input));
        match written {
            Ok(()) => println!(
                "  again: driver --program {} --replay {}",
                self.path,
                file.display()
            ),
            Err(error) => println!(
                "  the input couldn't be kept in {}: {error}",
                file.display()
            ),
        }
    }

    /// Prints the table; an answer that was never met is a failure.
    fn finish_table(&mut self) {
        print!("{}", self.table);
        let faults = self.table.faults();
        for fault in &faults {
            println!("{fault}");
        }
        let missing = format!("{} faults in the table", faults.len());
        self.judge(
            "table",
            if faults.is_empty() {
                Ok(())
            } else {
                Err(missing)
            },
        );
    }
}

fn run() -> Result<bool, String> {
    let arguments = Arguments::of_process(&OPTIONS)?;
    let path = arguments.text("--program").ok_or("no --program")?;
    if !Path::new(path).is_file() {
        return Err(format!("{path} is no file"));
    }
    let mut driver = Driver {
        path: path.into(),
        program: Executable(path.into()),
        seed: arguments.number("--seed")?.unwrap_or(SEED),
        keep: arguments.text("--keep").unwrap_or(".").into(),
        table: Table::default(),
        passed: 0,
        failed: 0,
    };
    if let Some(file) = arguments.text("--replay") {
        let input = fs::read(file).map_err(|error| format!("{file}: {error}"))?;
        let compared = compare(&driver.program, &input, &bench(&input));
        driver.judge(file, compared);
    } else if let Some(run) = arguments.number("--run")? {
        driver.run(run);
    } else {
        for run in 0..arguments.number("--runs")?.unwrap_or(RUNS) {
            driver.run(run);
        }
        driver.finish_table();
    }
    println!("{} passed, {} failed", driver.passed, driver.failed);
    Ok(driver.failed == 0)
}

fn main() -> ExitCode {
    match run() {
        Ok(true) => ExitCode::SUCCESS,
        Ok(false) => ExitCode::FAILURE,
        Err(error) => {
            eprintln!("driver: {error}\n{USAGE}");
            ExitCode::from(2)
        }
    }
}
