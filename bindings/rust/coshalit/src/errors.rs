//! Why a call gives no answer.

use alloc::string::String;
use core::error;
use core::fmt::{self, Display, Formatter};
use coshalit_sys::{
    COSHALIT_AUDIT_REFUSED, COSHALIT_BAD_CASE, COSHALIT_BAD_IMAGE, COSHALIT_NOT_ASKED, COSHALIT_OUT_OF_MEMORY, COSHALIT_TOO_LONG,
};

/// Why the proof of a step is refused. The first condition that fails decides.
#[derive(Clone, Copy, Debug, PartialEq, Eq)]
pub enum StepRefused {
    /// Its parts don't open the root, or an opening doesn't open the root of its tree.
    NotOpen,
    /// It is of another version, or an opening is missing, or is there and not called for.
    WrongShape,
    /// The bytes are the wire form of no proof of a step.
    NoProof,
    /// A ruling of a later major version of the library.
    Other(u32),
}

/// Why a claim has no root.
#[derive(Clone, Copy, Debug, PartialEq, Eq)]
pub enum ClaimRefused {
    /// Its output isn't that of its own state.
    Unsound,
    /// The bytes are the wire form of no claim.
    NoClaim,
    OutOfMemory,
    /// A status of a later major version of the library.
    Other(u32),
}

/// Why a command or a prover gives no answer. The texts are those that the program writes, with the newline at their end.
#[derive(Clone, Debug, PartialEq, Eq)]
pub enum Error {
    /// The bytes are no case, or one without a listing: `fault case R ..`.
    BadCase(String),
    /// The image of the case can't be loaded: `fault image R ..`.
    BadImage(String),
    /// The full text is refused: `refused LINE CAUSE`, or `fault text R ..` if it can't be read.
    Refused(String),
    /// More than 16,777,216 bytes were given: `fault too long`.
    TooLong(String),
    /// No match of the case asks this, or its run has no such step: `fault usage`.
    NotAsked(String),
    OutOfMemory,
    /// A refusal of a later version of the library.
    Other {
        status: u32,
        text: String,
    },
}

impl Error {
    pub(crate) fn of(status: u32, text: String) -> Error {
        match status {
            COSHALIT_NOT_ASKED => Error::NotAsked(text),
            COSHALIT_BAD_CASE => Error::BadCase(text),
            COSHALIT_BAD_IMAGE => Error::BadImage(text),
            COSHALIT_AUDIT_REFUSED => Error::Refused(text),
            COSHALIT_OUT_OF_MEMORY => Error::OutOfMemory,
            COSHALIT_TOO_LONG => Error::TooLong(text),
            _ => Error::Other { status, text },
        }
    }

    /// The exit status with which the program's command ends here.
    pub fn status(&self) -> u32 {
        match self {
            Error::NotAsked(_) => COSHALIT_NOT_ASKED,
            Error::BadCase(_) => COSHALIT_BAD_CASE,
            Error::BadImage(_) => COSHALIT_BAD_IMAGE,
            Error::Refused(_) => COSHALIT_AUDIT_REFUSED,
            Error::OutOfMemory => COSHALIT_OUT_OF_MEMORY,
            Error::TooLong(_) => COSHALIT_TOO_LONG,
            Error::Other { status, .. } => *status,
        }
    }

    /// The text that the program's command writes here; it is empty if memory ran out.
    pub fn text(&self) -> &str {
        match self {
            Error::BadCase(text) | Error::BadImage(text) | Error::Refused(text) | Error::TooLong(text) | Error::NotAsked(text) => text,
            Error::Other { text, .. } => text,
            Error::OutOfMemory => "",
        }
    }
}

/// Why bytes are no log from a place on.
#[derive(Clone, Copy, Debug, PartialEq, Eq)]
pub enum LogCause {
    /// They end within an entry.
    CutOff,
    /// No prover has the number.
    NoProver,
    /// The answer's bytes are no wire form: `rule` is the number of the fault in the table of docs/COMMITMENTS.md ('Wire forms').
    NoAnswer { rule: u32 },
    /// A cause of a later major version of the library.
    Other(u32),
}

/// Why a match can't be played.
#[derive(Clone, Copy, Debug, PartialEq, Eq)]
pub enum MatchError {
    /// One of the numbers, or the stake, is beyond its limit.
    BadNumbers,
    /// The bytes are no log: the first entry that is none begins at this byte.
    BadLog {
        at: u64,
        cause: LogCause,
    },
    OutOfMemory,
    /// A refusal of a later version of the library.
    Other {
        status: u32,
    },
    /// A reply that this crate doesn't know: the library is of a later major version.
    UnknownReply(u32),
    /// A kind of question that this crate doesn't know: the library is of a later major version.
    UnknownKind(u32),
}

impl Display for StepRefused {
    fn fmt(&self, out: &mut Formatter<'_>) -> fmt::Result {
        match self {
            StepRefused::NotOpen => out.write_str("the proof doesn't open the root"),
            StepRefused::WrongShape => out.write_str("the proof hasn't the shape of its step"),
            StepRefused::NoProof => out.write_str("the bytes are no proof of a step"),
            StepRefused::Other(ruling) => write!(out, "ruling {ruling}"),
        }
    }
}

impl Display for ClaimRefused {
    fn fmt(&self, out: &mut Formatter<'_>) -> fmt::Result {
        match self {
            ClaimRefused::Unsound => out.write_str("the claim's output isn't that of its state"),
            ClaimRefused::NoClaim => out.write_str("the bytes are no claim"),
            ClaimRefused::OutOfMemory => out.write_str("out of memory"),
            ClaimRefused::Other(status) => write!(out, "status {status}"),
        }
    }
}

impl Display for Error {
    fn fmt(&self, out: &mut Formatter<'_>) -> fmt::Result {
        match self {
            Error::OutOfMemory => out.write_str("out of memory"),
            Error::Other { status, text } => write!(out, "status {status} {}", text.trim_end()),
            _ => out.write_str(self.text().trim_end()),
        }
    }
}

impl Display for LogCause {
    fn fmt(&self, out: &mut Formatter<'_>) -> fmt::Result {
        match self {
            LogCause::CutOff => out.write_str("the log ends within an entry"),
            LogCause::NoProver => out.write_str("no prover has the number"),
            LogCause::NoAnswer { rule } => write!(out, "the answer's bytes are no wire form, fault {rule}"),
            LogCause::Other(cause) => write!(out, "cause {cause}"),
        }
    }
}

impl Display for MatchError {
    fn fmt(&self, out: &mut Formatter<'_>) -> fmt::Result {
        match self {
            MatchError::BadNumbers => out.write_str("a number of the match is beyond its limit"),
            MatchError::BadLog { at, cause } => write!(out, "no log from byte {at} on: {cause}"),
            MatchError::OutOfMemory => out.write_str("out of memory"),
            MatchError::Other { status } => write!(out, "status {status}"),
            MatchError::UnknownReply(reply) => write!(out, "this crate knows no reply {reply}"),
            MatchError::UnknownKind(kind) => write!(out, "this crate knows no kind {kind}"),
        }
    }
}

impl error::Error for StepRefused {}
impl error::Error for ClaimRefused {}
impl error::Error for Error {}
impl error::Error for MatchError {}
