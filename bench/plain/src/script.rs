//! Scripts: a service line, then one command on each line.

use crate::line::{Malformed, Scanner};
use crate::service::Service;
use std::collections::TryReserveError;

/// Why a script ended early.
#[derive(Debug)]
pub enum Fault {
    /// The line with this number, from 1, is not a line of a script.
    BadLine(usize),
    NoMemory,
}

impl From<TryReserveError> for Fault {
    fn from(_: TryReserveError) -> Self {
        Fault::NoMemory
    }
}

/// Carries out `input` and appends a reply line for each command. A fault leaves the whole reply lines of the commands
/// before it.
pub fn run(input: &[u8], output: &mut Vec<u8>) -> Result<(), Fault> {
    let mut lines = Scanner::new(input);
    let (pattern, room) = lines.service().ok_or(Fault::BadLine(1))?;
    let mut service = Service::new(pattern, room)?;
    let mut number = 1;
    while !lines.is_empty() {
        number += 1;
        let command = lines.command().map_err(|malformed| match malformed {
            Malformed::BadLine => Fault::BadLine(number),
            Malformed::NoMemory => Fault::NoMemory,
        })?;
        service.carry_out(command, output)?;
    }
    Ok(())
}
