//! Carries out the scripts of `iox2-replay` and writes the same replies, statuses and error lines, without proofs: what
//! that program is measured against.

mod line;
mod registry;
mod reply;
mod script;
mod service;

use script::Fault;
use std::io::{self, ErrorKind, Read, Write};
use std::process::ExitCode;

const STREAM_FAILED: u8 = 3;

fn main() -> ExitCode {
    match replay() {
        Ok(status) => ExitCode::from(status),
        Err(_) => ExitCode::from(STREAM_FAILED),
    }
}

/// Runs the script on standard input, and answers the status to end with.
fn replay() -> io::Result<u8> {
    let mut output = Vec::new();
    let end = match read_input()? {
        Some(input) => script::run(&input, &mut output),
        None => Err(Fault::NoMemory),
    };
    let mut stdout = io::stdout().lock();
    let mut stderr = io::stderr().lock();
    stdout.write_all(&output)?;
    let status = match end {
        Ok(()) => 0,
        Err(Fault::BadLine(number)) => {
            writeln!(stderr, "bad line {number}")?;
            1
        }
        Err(Fault::NoMemory) => {
            writeln!(stderr, "no memory")?;
            2
        }
    };
    stdout.flush()?;
    stderr.flush()?;
    Ok(status)
}

/// All of standard input, or `None` where there is no memory for it.
fn read_input() -> io::Result<Option<Vec<u8>>> {
    let mut input = Vec::new();
    match io::stdin().lock().read_to_end(&mut input) {
        Ok(_) => Ok(Some(input)),
        Err(error) if error.kind() == ErrorKind::OutOfMemory => Ok(None),
        Err(error) => Err(error),
    }
}
