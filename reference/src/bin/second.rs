//! The second program's bench: standard input to standard output.

use std::io;
use std::process::ExitCode;

use reference::bench;

fn main() -> ExitCode {
    match bench::run(io::stdin().lock(), io::stdout().lock()) {
        Ok(()) => ExitCode::SUCCESS,
        Err(error) => {
            eprintln!("second: {error}");
            ExitCode::FAILURE
        }
    }
}
