//! Prints what came of every record of an input, and all states at the end; on request also draws
//! the run.

use std::fs::File;
use std::io::{self, Read, Write};
use std::path::Path;
use std::process::ExitCode;

use library::trace::{trace, Trace};
use library::{chart, whole};

const USAGE: &str = "usage: trace [FILE] [--chart FILE.svg]
Without FILE the input is read from standard input.";

/// What the command line asks for.
#[derive(Default)]
struct Asked {
    input: Option<String>,
    chart: Option<String>,
}

/// Why nothing was written.
enum Fault {
    /// The command line is bad.
    Usage(String),
    /// A file can't be read or written.
    File(String),
}

fn asked(mut words: impl Iterator<Item = String>) -> Result<Asked, String> {
    let mut asked = Asked::default();
    while let Some(word) = words.next() {
        let (place, value) = if word == "--chart" {
            let value = words.next().ok_or("--chart needs a file name")?;
            if !value.ends_with(".svg") {
                return Err(format!(
                    "--chart needs a name that ends in .svg, not {value}"
                ));
            }
            (&mut asked.chart, value)
        } else if word.starts_with('-') {
            return Err(format!("unknown option {word}"));
        } else {
            (&mut asked.input, word)
        };
        if let Some(first) = place.replace(value) {
            return Err(format!("one file is enough, after {first}"));
        }
    }
    Ok(asked)
}

fn traced(asked: &Asked) -> Result<Trace, String> {
    let keep = if asked.chart.is_some() {
        chart::MOST
    } else {
        0
    };
    let (name, input): (&str, io::Result<Box<dyn Read>>) = match &asked.input {
        Some(name) => (name, File::open(name).map(|file| Box::new(file) as _)),
        None => ("standard input", Ok(Box::new(io::stdin().lock()))),
    };
    input
        .and_then(|input| trace(input, keep))
        .map_err(|error| format!("{name}: {error}"))
}

/// All is made first, then written whole: the chart, and the text if that went well.
fn run() -> Result<(), Fault> {
    let asked = asked(std::env::args().skip(1)).map_err(Fault::Usage)?;
    let trace = traced(&asked).map_err(Fault::File)?;
    if let Some(name) = &asked.chart {
        whole::write(Path::new(name), chart::draw(&trace).as_bytes())
            .map_err(|error| Fault::File(format!("{name}: {error}")))?;
    }
    let mut output = io::stdout().lock();
    output
        .write_all(trace.text.as_bytes())
        .and_then(|()| output.flush())
        .map_err(|error| Fault::File(format!("standard output: {error}")))
}

fn main() -> ExitCode {
    match run() {
        Ok(()) => ExitCode::SUCCESS,
        Err(Fault::Usage(error)) => {
            eprintln!("trace: {error}\n{USAGE}");
            ExitCode::from(2)
        }
        Err(Fault::File(error)) => {
            eprintln!("trace: {error}");
            ExitCode::FAILURE
        }
    }
}
