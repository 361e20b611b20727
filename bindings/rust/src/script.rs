//! Scripts: a service and the commands on it as lines of text, for runs that can be written down
//! and compared. `docs/SCRIPT.md` of `service_descriptions` has all lines and replies.
//!
//! ```
//! let replies = iox2sd::script::run("service event 7 1 2 2\nregister 1.0.0.1\nderegister 0\n")?;
//! assert_eq!(replies, "handle 0 0\nno-owners\n");
//! # Ok::<(), iox2sd::script::ScriptError>(())
//! ```

use crate::display::padded;
use crate::library;
use crate::sys;
use std::error::Error;
use std::fmt;

/// Why a script was not run to its end.
///
/// ```
/// use iox2sd::script;
///
/// let refused = script::run("service event 7 1 2 2\nregister nobody\n").unwrap_err();
/// assert_eq!(refused.to_string(), "bad line 2");
/// ```
#[derive(Clone, Debug, PartialEq, Eq, Hash)]
#[non_exhaustive]
pub enum ScriptError {
    /// A line is not one that may stand there, or has no newline.
    BadLine {
        /// The number of the line, from 1 on.
        line: usize,
        /// The reply lines to the commands before it.
        replies: String,
    },
    /// There was no memory.
    NoMemory,
}

impl fmt::Display for ScriptError {
    fn fmt(&self, f: &mut fmt::Formatter<'_>) -> fmt::Result {
        match self {
            ScriptError::BadLine { line, .. } => padded(f, format_args!("bad line {line}")),
            ScriptError::NoMemory => f.pad("no memory"),
        }
    }
}

impl Error for ScriptError {}

/// Runs a script, and answers its reply lines.
///
/// # Errors
///
/// Refused at the first line that is not valid, and where memory is refused.
///
/// # Examples
///
/// ```
/// use iox2sd::script::{self, ScriptError};
///
/// let script = "service event 7 1 2 2\nregister 1.0.0.1\nregister 2.0.0.2\n";
/// let replies = "handle 0 0\nfull\n".to_string();
/// assert_eq!(script::run(script), Ok(replies.clone()));
/// let bad = format!("{script}leave\n");
/// assert_eq!(script::run(&bad), Err(ScriptError::BadLine { line: 4, replies }));
/// ```
pub fn run(script: &str) -> Result<String, ScriptError> {
    let run = library::script_run(script);
    match run.status {
        sys::IOX2SD_STATUS_DONE => Ok(run.replies),
        sys::IOX2SD_STATUS_BAD_LINE => Err(ScriptError::BadLine {
            line: run.line,
            replies: run.replies,
        }),
        sys::IOX2SD_STATUS_NO_MEMORY => Err(ScriptError::NoMemory),
        other => library::unexpected(other),
    }
}
