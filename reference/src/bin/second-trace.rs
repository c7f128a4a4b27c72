//! The second program's trace: standard input to standard output.

use std::io::{self, Write};
use std::process::ExitCode;

use reference::arguments::Arguments;
use reference::trace::trace;

fn run() -> Result<(), String> {
    Arguments::of_process(&[])?;
    // The whole text is made first, so that nothing is half written.
    let text = trace(io::stdin().lock()).map_err(|error| error.to_string())?;
    io::stdout()
        .write_all(text.as_bytes())
        .map_err(|error| error.to_string())
}

fn main() -> ExitCode {
    match run() {
        Ok(()) => ExitCode::SUCCESS,
        Err(error) => {
            eprintln!("second-trace: {error}");
            ExitCode::FAILURE
        }
    }
}
