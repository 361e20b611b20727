//! Logs: the calls that were made on a service of any implementation, and the replies that were
//! seen, are judged by the sequential specification. `docs/CONFORM.md` of `service_descriptions`
//! has the lines of logs.
//!
//! ```
//! use iox2sd::conform::{check_log, Verdict};
//!
//! let log = "service event 7 2 0 0\nregister 1.0.0.1\n= handle 1 0\n";
//! assert_eq!(check_log(log)?, Verdict::Conforms { calls: 1 });
//! # Ok::<(), iox2sd::dynamic_config::AllocError>(())
//! ```

use crate::display::{choices, padded};
use crate::dynamic_config::AllocError;
use crate::identifiers::UniqueNodeId;
use crate::library;
use crate::plain::Plain;
use crate::sys;
use std::collections::BTreeSet;
use std::error::Error;
use std::{fmt, iter};

mod recorder;

pub use recorder::Recorder;

/// What a log was judged to be.
///
/// ```
/// use iox2sd::conform::{check_log, Expected, Verdict};
///
/// let found = check_log("service event 7 2 0 0\nregister 1.0.0.1\n")?;
/// assert_eq!(found, Verdict::BadLine { line: 3, expected: Expected::Reply });
/// # Ok::<(), iox2sd::dynamic_config::AllocError>(())
/// ```
#[must_use]
#[derive(Clone, Debug, PartialEq, Eq, Hash)]
#[non_exhaustive]
pub enum Verdict {
    /// An order of the calls explains all replies.
    Conforms {
        /// How many calls there are.
        calls: usize,
    },
    /// Orders explain what was seen above a line, and none explains what was seen down to it.
    NoOrder(Refusal),
    /// Not decided: orders of the calls lead to more than 4,096 configurations.
    TooManyConfigurations {
        /// The number of the line at which they do, from 1 on.
        line: usize,
    },
    /// Not decided: more than 64 calls of a service are open.
    TooManyOpenCalls {
        /// The number of the line from which they are, from 1 on.
        line: usize,
    },
    /// Orders explain what is above this line. The line is not what is expected, or the log ends
    /// before it.
    BadLine {
        /// The number of the line, from 1 on.
        line: usize,
        /// What is expected.
        expected: Expected,
    },
}

/// A reply that no order of the calls explains.
///
/// ```
/// use iox2sd::conform::{check_log, Verdict};
///
/// let log = "service event 7 1 0 0\nregister 1.0.0.1\n= handle 0 0\nregister 1.0.0.1\n= locked\n";
/// let Verdict::NoOrder(refusal) = check_log(log)? else { panic!("an order explains it") };
/// assert_eq!((refusal.line, refusal.words.as_str(), refusal.window), (5, "locked", 5));
/// assert_eq!((refusal.call, refusal.command.as_str()), (4, "register 1.0.0.1"));
/// assert_eq!((refusal.needed, refusal.configurations[0].possible.as_str()), (vec![5], "full"));
///
/// // The list is explained, until the reply to A says that no node was registered.
/// let log = "service event 7 1 0 0\nA> register 0.0.0.1\nnodes\n= list 1\nA< full\n";
/// let Verdict::NoOrder(refusal) = check_log(log)? else { panic!("an order explains it") };
/// assert_eq!((refusal.line, refusal.reply_line, refusal.words.as_str()), (5, 4, "list 1"));
/// # Ok::<(), iox2sd::dynamic_config::AllocError>(())
/// ```
#[derive(Clone, Debug, PartialEq, Eq, Hash)]
pub struct Refusal {
    /// The first line down to which no order explains what was seen, from 1 on. It has a reply.
    /// Calls that are answered below it may have any reply.
    pub line: usize,
    /// The line of the reply: that line, or one above it, which no order explains with what was seen
    /// down to that line.
    pub reply_line: usize,
    /// Its words.
    pub words: String,
    /// The line of the command of its call: that in which the call begins, but of a call alone.
    pub call: usize,
    /// The text of that line.
    pub command: String,
    /// The line from which the window is open: that of the first event of the service since none of
    /// its calls was open.
    pub window: usize,
    /// The lines, by rising number, in which the calls of the window begin that are needed: no
    /// order explains these alone, and the others change nothing.
    pub needed: Vec<usize>,
    /// What the calls before it can have led to: at least one, each once.
    pub configurations: Vec<Configuration>,
}

/// What the calls before a refused reply can have led to.
///
/// ```
/// use iox2sd::conform::{check_log, Verdict};
///
/// // The first list shows that the open call of A was made, and the second one that it was not.
/// let log = "service event 7 1 0 0\nA> register 0.0.0.1\nnodes\n= list 1\nnodes\n= list\n";
/// let Verdict::NoOrder(refusal) = check_log(log)? else { panic!("an order explains it") };
/// let told = &refusal.configurations[0];
/// assert_eq!((told.made.as_slice(), told.possible.as_str()), ([2].as_slice(), "list 1"));
/// # Ok::<(), iox2sd::dynamic_config::AllocError>(())
/// ```
#[derive(Clone, Debug, PartialEq, Eq, Hash)]
pub struct Configuration {
    /// The lines in which the open calls begin that were made.
    pub made: Vec<usize>,
    /// Every reply that the refused call could have had then.
    pub possible: String,
    /// The nodes that are registered, by rising slot, one for each handle.
    pub nodes: Vec<UniqueNodeId>,
    /// The ids of the ports that are attached, as numbers: those of the pattern's first role by
    /// rising slot, then the others.
    pub ports: Vec<u128>,
}

choices! {
    /// What a line of a log has to be.
    ///
    /// ```
    /// use iox2sd::conform::{check_log, Expected, Verdict};
    ///
    /// let bad = |line, expected| Verdict::BadLine { line, expected };
    /// assert_eq!(check_log("")?, bad(1, Expected::Service));
    /// assert_eq!(check_log("service event 7 2 0 0\nleave\n")?, bad(2, Expected::Call));
    /// assert_eq!(check_log("service event 7 2 0 0\nA< list\n")?, bad(2, Expected::OpenCall));
    /// # Ok::<(), iox2sd::dynamic_config::AllocError>(())
    /// ```
    #[non_exhaustive]
    Expected of u32 in "conform" {
        /// The line of a service.
        Service = IOX2SD_STATUS_NO_SERVICE_LINE;
        /// The line of a service with a number of its own, or a line on a service above.
        Call = IOX2SD_STATUS_NO_CALL_LINE;
        /// A reply.
        Reply = IOX2SD_STATUS_NO_REPLY_LINE;
        /// A caller without an open call.
        IdleCaller = IOX2SD_STATUS_CALLER_IS_BUSY;
        /// A caller with an open call.
        OpenCall = IOX2SD_STATUS_NO_OPEN_CALL;
        /// A caller that has not died.
        LiveCaller = IOX2SD_STATUS_CALLER_IS_DEAD;
        /// A caller that has begun a call.
        KnownCaller = IOX2SD_STATUS_UNKNOWN_CALLER;
        /// A newline at the end of the line.
        Newline = IOX2SD_STATUS_NO_NEWLINE;
        /// No carriage return before the newline.
        NoCarriageReturn = IOX2SD_STATUS_CARRIAGE_RETURN;
        /// A state with which the service can begin, or begin anew where no call on it is open.
        State = IOX2SD_STATUS_NO_STATE_LINE;
    }
}

/// Judges a log of services.
///
/// # Errors
///
/// Refused where there is no memory.
///
/// # Examples
///
/// ```
/// use iox2sd::conform::{check_log, Verdict};
///
/// let log = "service event 7 2 0 0\n# two handles\nregister 1.0.0.1\n= handle 1 0\n";
/// assert_eq!(check_log(log), Ok(Verdict::Conforms { calls: 1 }));
/// ```
pub fn check_log(log: &str) -> Result<Verdict, AllocError> {
    let judged = library::conform_run(log);
    let line = judged.line;
    Ok(match judged.status {
        sys::IOX2SD_STATUS_DONE => Verdict::Conforms {
            calls: judged.calls,
        },
        sys::IOX2SD_STATUS_NO_ORDER => Verdict::NoOrder(Refusal::of(line, &judged.report)),
        sys::IOX2SD_STATUS_TOO_MANY_CONFIGURATIONS => Verdict::TooManyConfigurations { line },
        sys::IOX2SD_STATUS_TOO_MANY_OPEN_CALLS => Verdict::TooManyOpenCalls { line },
        sys::IOX2SD_STATUS_NO_MEMORY => return Err(AllocError),
        expected => Verdict::BadLine {
            line,
            expected: Expected::of_c(&expected),
        },
    })
}

impl Verdict {
    /// Whether an order of the calls explains all replies.
    ///
    /// ```
    /// use iox2sd::conform::check_log;
    ///
    /// let log = "service event 7 2 0 0\nregister 1.0.0.1\n= handle 1 0\n";
    /// assert!(check_log(log)?.conforms());
    /// # Ok::<(), iox2sd::dynamic_config::AllocError>(())
    /// ```
    #[must_use]
    pub fn conforms(&self) -> bool {
        matches!(self, Verdict::Conforms { .. })
    }

    /// How many calls conform.
    ///
    /// # Errors
    ///
    /// The verdict, where the log does not conform.
    ///
    /// # Examples
    ///
    /// ```
    /// use iox2sd::conform::check_log;
    ///
    /// let log = "service event 7 2 0 0\nregister 1.0.0.1\n= handle 1 0\n";
    /// assert_eq!(check_log(log)?.into_result()?, 1);
    /// let refused = check_log("service event 7 2 0 0\nleave\n")?.into_result().unwrap_err();
    /// assert!(refused.to_string().starts_with("line 2: "));
    /// # Ok::<(), Box<dyn std::error::Error>>(())
    /// ```
    #[allow(clippy::result_large_err)] // The parts of a report are owned, and none is boxed.
    pub fn into_result(self) -> Result<usize, Verdict> {
        match self {
            Verdict::Conforms { calls } => Ok(calls),
            refused => Err(refused),
        }
    }
}

/// How many calls conform, or the line that does not, and why.
impl fmt::Display for Verdict {
    fn fmt(&self, f: &mut fmt::Formatter<'_>) -> fmt::Result {
        match self {
            Verdict::Conforms { calls: 1 } => f.pad("conforms, 1 call"),
            Verdict::Conforms { calls } => padded(f, format_args!("conforms, {calls} calls")),
            Verdict::NoOrder(refusal) => refusal.fmt(f),
            Verdict::TooManyConfigurations { line } => {
                at_line(f, *line, sys::IOX2SD_STATUS_TOO_MANY_CONFIGURATIONS)
            }
            Verdict::TooManyOpenCalls { line } => {
                at_line(f, *line, sys::IOX2SD_STATUS_TOO_MANY_OPEN_CALLS)
            }
            Verdict::BadLine { line, expected } => at_line(f, *line, expected.as_c()),
        }
    }
}

/// A log that conforms is no error; [`Verdict::into_result`] returns the others.
impl Error for Verdict {
    fn source(&self) -> Option<&(dyn Error + 'static)> {
        match self {
            Verdict::NoOrder(refusal) => Some(refusal),
            _ => None,
        }
    }
}

/// The line, the call, the reply that was seen, and those that are possible.
impl fmt::Display for Refusal {
    fn fmt(&self, f: &mut fmt::Formatter<'_>) -> fmt::Result {
        let each = self.configurations.iter();
        let possible: BTreeSet<_> = each.map(|told| &*told.possible).collect();
        let possible = Vec::from_iter(possible).join("; or: ");
        let Refusal {
            line,
            reply_line,
            words,
            call,
            command,
            ..
        } = self;
        let seen = if reply_line == line {
            format!("line {line}: seen: {words}")
        } else {
            format!("line {line}: seen in line {reply_line}: {words}")
        };
        padded(
            f,
            format_args!("{seen}; call: {command} (line {call}); possible: {possible}"),
        )
    }
}

impl Error for Refusal {}

/// Writes what a status says of a line.
fn at_line(f: &mut fmt::Formatter<'_>, line: usize, status: u32) -> fmt::Result {
    let text = library::status_text(status).unwrap_or_default();
    padded(f, format_args!("line {line}: {text}"))
}

impl Refusal {
    /// What the lines of a report say. The first one names the line of the reply where that is
    /// another one.
    fn of(line: usize, report: &str) -> Self {
        let mut lines = report.split_terminator('\n');
        let mut next = || lines.next().unwrap_or_default();
        let above = next().split_once(" explains the reply in line ");
        let reply_line = above.map_or(line, |(_, above)| number(above));
        let words = after("seen: ", next()).to_string();
        let called = after("call: ", next()).strip_suffix(')');
        let called = called.and_then(|called| called.rsplit_once(" (line "));
        let (command, call) = called.expect("the library writes a command and its line");
        Refusal {
            line,
            reply_line,
            words,
            call: number(call),
            command: command.to_string(),
            window: number(after("window: from line ", next())),
            needed: ids(after("needed: lines", next()), |line| line.parse().ok()),
            configurations: iter::from_fn(|| Configuration::next(&mut lines)).collect(),
        }
    }
}

impl Configuration {
    /// That of the next lines.
    fn next<'a>(lines: &mut impl Iterator<Item = &'a str>) -> Option<Self> {
        Some(Configuration {
            made: match after("made: ", lines.next()?) {
                "none" => Vec::new(),
                some => ids(after("lines", some), |line| line.parse().ok()),
            },
            possible: after("possible: ", lines.next()?).to_string(),
            nodes: ids(after("nodes:", lines.next()?), |id| id.parse().ok()),
            ports: ids(after("ports:", lines.next()?), |id| {
                u128::from_str_radix(id, 16).ok()
            }),
        })
    }
}

/// What stands in a line behind these words.
fn after<'a>(front: &str, line: &'a str) -> &'a str {
    let rest = line.strip_prefix(front);
    rest.expect("the library writes this line")
}

fn number(word: &str) -> usize {
    word.parse().expect("the library writes numbers")
}

/// Ids, or numbers, that each have a space before them.
fn ids<T>(words: &str, read: impl Fn(&str) -> Option<T>) -> Vec<T> {
    let texts = words.split(' ').skip(1);
    texts
        .map(|id| read(id).expect("the library writes ids"))
        .collect()
}
