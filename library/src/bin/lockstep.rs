//! Calls the library and the second program step by step, and compares all that can be seen.

use std::io::{self, Write};
use std::path::Path;
use std::process::ExitCode;

use library::lockstep::runs::{self, Played};
use library::lockstep::table::Table;
use library::whole;
use reference::arguments::Arguments;

const USAGE: &str = "usage: lockstep [--runs N] [--seed S]
       lockstep --run R [--seed S] [--write FILE]";
const OPTIONS: [&str; 4] = ["--runs", "--seed", "--run", "--write"];
/// The fixed set of runs.
const RUNS: u64 = 128;
const SEED: u64 = 1;

/// Plays a set of runs and counts them.
struct Driver {
    seed: u64,
    table: Table,
    calls: u64,
    passed: u64,
    failed: u64,
}

/// Why nothing was compared.
enum Fault {
    /// The command line is bad.
    Usage(String),
    /// A file can't be written.
    File(String),
}

impl From<io::Error> for Fault {
    fn from(error: io::Error) -> Self {
        Fault::File(format!("standard output: {error}"))
    }
}

impl Driver {
    fn play(&mut self, run: u64, output: &mut impl Write) -> io::Result<Played> {
        let seed = self.seed;
        let played = runs::play(seed, run, &mut self.table);
        self.calls += played.calls;
        match &played.difference {
            None => self.passed += 1,
            Some(difference) => {
                self.failed += 1;
                writeln!(
                    output,
                    "seed {seed} run {run} ({:?}): {difference}",
                    played.sort
                )?;
                writeln!(output, "  again: lockstep --seed {seed} --run {run}")?;
            }
        }
        Ok(played)
    }

    /// Prints the table; an answer that was never met is a failure.
    fn finish_table(&mut self, output: &mut impl Write) -> io::Result<()> {
        write!(output, "{}", self.table)?;
        let faults = self.table.faults();
        for fault in &faults {
            writeln!(output, "{fault}")?;
        }
        if faults.is_empty() {
            self.passed += 1;
        } else {
            self.failed += 1;
        }
        Ok(())
    }
}

fn run() -> Result<bool, Fault> {
    let arguments = Arguments::of_process(&OPTIONS).map_err(Fault::Usage)?;
    let number = |name| arguments.number(name).map_err(Fault::Usage);
    let (runs, one) = (number("--runs")?, number("--run")?);
    let write = arguments.text("--write");
    match (runs, one) {
        (Some(_), Some(_)) => return Err(Fault::Usage("--runs or --run, not both".into())),
        (Some(0), _) => return Err(Fault::Usage("--runs 0 compares nothing".into())),
        (_, None) if write.is_some() => {
            return Err(Fault::Usage("--write needs --run".into()));
        }
        _ => {}
    }
    let mut driver = Driver {
        seed: number("--seed")?.unwrap_or(SEED),
        table: Table::default(),
        calls: 0,
        passed: 0,
        failed: 0,
    };
    let output = &mut io::stdout().lock();
    if let Some(run) = one {
        let played = driver.play(run, output)?;
        if let Some(name) = write {
            whole::write(Path::new(name), &played.input)
                .map_err(|error| Fault::File(format!("{name}: {error}")))?;
        }
    } else {
        for run in 0..runs.unwrap_or(RUNS) {
            driver.play(run, output)?;
        }
        driver.finish_table(output)?;
    }
    writeln!(output, "{} calls on each side", driver.calls)?;
    writeln!(output, "{} passed, {} failed", driver.passed, driver.failed)?;
    Ok(driver.failed == 0)
}

fn main() -> ExitCode {
    match run() {
        Ok(true) => ExitCode::SUCCESS,
        Ok(false) => ExitCode::FAILURE,
        Err(Fault::Usage(error)) => {
            eprintln!("lockstep: {error}\n{USAGE}");
            ExitCode::from(2)
        }
        Err(Fault::File(error)) => {
            eprintln!("lockstep: {error}");
            ExitCode::from(2)
        }
    }
}
