//! Times a program and the second one on the same mixed traffic.

use std::env;
use std::fs::{self, File};
use std::io;
use std::path::{Path, PathBuf};
use std::process::{Command, ExitCode, Stdio};
use std::time::{Duration, Instant};

use reference::arguments::Arguments;
use reference::bench::bench;
use reference::driver::table::Table;
use reference::driver::traffic::traffic;

const USAGE: &str = "usage: speed --program PATH [--records N] [--times T] [--seed S]";
const OPTIONS: [&str; 4] = ["--program", "--records", "--times", "--seed"];
const RECORDS: u64 = 1_000_000;
const TIMES: u64 = 5;
/// Chain and shard groups.
const SIZES: [(u8, u8); 2] = [(3, 3), (8, 8)];

/// A folder of this process's own, gone when it ends.
struct Folder(PathBuf);

impl Folder {
    fn new() -> io::Result<Self> {
        let folder = env::temp_dir().join(format!("speed-{}", std::process::id()));
        fs::create_dir_all(&folder)?;
        Ok(Folder(folder))
    }
}

impl Drop for Folder {
    fn drop(&mut self) {
        // Nothing is lost if the folder stays.
        let _ = fs::remove_dir_all(&self.0);
    }
}

/// Runs a program from file to file.
fn time(program: &Path, input: &Path, output: &Path) -> Result<Duration, String> {
    let describe = |error: io::Error| format!("{}: {error}", program.display());
    let stdin = File::open(input).map_err(describe)?;
    let stdout = File::create(output).map_err(describe)?;
    let start = Instant::now();
    let status = Command::new(program)
        .stdin(Stdio::from(stdin))
        .stdout(Stdio::from(stdout))
        .status()
        .map_err(describe)?;
    let taken = start.elapsed();
    if status.success() {
        Ok(taken)
    } else {
        Err(format!("{} ended with {status}", program.display()))
    }
}

fn compare(
    programs: [&Path; 2],
    (n, m): (u8, u8),
    records: u64,
    times: u64,
    seed: u64,
) -> Result<(), String> {
    let describe = |error: io::Error| error.to_string();
    let folder = Folder::new().map_err(describe)?;
    let input_file = folder.0.join("input");
    let input = traffic(n, m, records as usize, seed)?;
    fs::write(&input_file, &input).map_err(describe)?;
    let expected = bench(&input);
    let mut table = Table::default();
    table.add(&input, &expected)?;
    println!(
        "chain {n} shards {m}: {records} records, {} bytes",
        input.len()
    );
    print!("{table}");

    let mut best = [Duration::MAX; 2];
    for _ in 0..times {
        for (program, best) in programs.iter().zip(&mut best) {
            let output_file = folder.0.join("output");
            *best = time(program, &input_file, &output_file)?.min(*best);
            if fs::read(&output_file).map_err(describe)? != expected {
                return Err(format!("{} gave another output", program.display()));
            }
        }
    }
    let seconds = best.map(|best| best.as_secs_f64());
    for (program, seconds) in programs.iter().zip(seconds) {
        let rate = records as f64 / seconds;
        println!(
            "{:>9.3} s {rate:>12.0} records/s  {}",
            seconds,
            program.display()
        );
    }
    println!("ratio {:.2}\n", seconds[0] / seconds[1]);
    Ok(())
}

fn run() -> Result<(), String> {
    let arguments = Arguments::of_process(&OPTIONS)?;
    let program = arguments.text("--program").ok_or("no --program")?;
    let own = env::current_exe().map_err(|error| error.to_string())?;
    let second = own.with_file_name(format!("second{}", env::consts::EXE_SUFFIX));
    let records = arguments.number("--records")?.unwrap_or(RECORDS);
    let times = arguments.number("--times")?.unwrap_or(TIMES).max(1);
    let seed = arguments.number("--seed")?.unwrap_or(1);
    for size in SIZES {
        compare([Path::new(program), &second], size, records, times, seed)?;
    }
    Ok(())
}

fn main() -> ExitCode {
    match run() {
        Ok(()) => ExitCode::SUCCESS,
        Err(error) => {
            eprintln!("speed: {error}\n{USAGE}");
            ExitCode::FAILURE
        }
    }
}
