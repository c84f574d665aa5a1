//! Coshalit from Rust. A program that rules on steps and carries out commands, from standard input to standard output:
//!
//!     embed steps              lines VERSION ROOT PROOF, in hexadecimal: a line for each, such as `leads ROOT`
//!     embed audit|run|list     as the commands of refcli, with their statuses
//!
//! As refcli's, its status is 5 if standard input can't be read, and 6 if standard output can't be written; but Rust takes one that is closed,
//! or open the wrong way, for an empty input, and for an output that takes everything.
use coshalit::{Error, StepRefused, audit, check_step, list, run};
use std::ffi::OsString;
use std::fmt::{Display, Write as _};
use std::io::{self, Read, Write};
use std::process::ExitCode;

const USAGE: u8 = 2;
const READ_FAULT: u8 = 5;
const WRITE_FAULT: u8 = 6;

/// One byte more than a command takes shows that there are too many.
const MOST_BYTES: u64 = 16_777_217;

/// The bytes of a word of hexadecimal digits.
fn bytes_of(word: &str) -> Option<Vec<u8>> {
    if word.len() % 2 != 0 || !word.bytes().all(|letter| letter.is_ascii_hexdigit()) {
        return None;
    }
    (0..word.len()).step_by(2).map(|at| u8::from_str_radix(&word[at..at + 2], 16).ok()).collect()
}

/// The ruling on the step of a line, in words.
fn ruling_on(line: &str) -> Option<String> {
    let mut words = line.split(' ');
    let version = words.next().filter(|word| word.bytes().all(|letter| letter.is_ascii_digit()))?.parse().ok()?;
    let root = bytes_of(words.next()?)?;
    let proof = bytes_of(words.next().unwrap_or(""))?;
    let Ok(root) = root.try_into() else {
        return Some("wrong length".to_owned());
    };
    Some(match check_step(version, &root, &proof) {
        Ok(next) => next.iter().fold("leads ".to_owned(), |mut text, byte| {
            let _ = write!(text, "{byte:02x}");
            text
        }),
        Err(StepRefused::NotOpen) => "not open".to_owned(),
        Err(StepRefused::WrongShape) => "wrong shape".to_owned(),
        Err(StepRefused::NoProof) => "no proof".to_owned(),
        Err(StepRefused::Other(ruling)) => format!("ruling {ruling}"),
    })
}

fn fail(status: u8, why: impl Display) -> ExitCode {
    eprintln!("embed: {why}");
    ExitCode::from(status)
}

fn steps(input: &[u8]) -> io::Result<ExitCode> {
    for line in String::from_utf8_lossy(input).lines() {
        match ruling_on(line) {
            Some(ruling) => writeln!(io::stdout(), "{ruling}")?,
            None => return Ok(fail(USAGE, "a line is VERSION ROOT PROOF")),
        }
    }
    Ok(ExitCode::SUCCESS)
}

type Command = fn(&[u8]) -> Result<String, Error>;

fn carry_out(command: Command, input: &[u8]) -> io::Result<ExitCode> {
    let (status, text) = match command(input) {
        Ok(text) => (0, text),
        Err(why) => (why.status(), why.text().to_owned()),
    };
    io::stdout().write_all(text.as_bytes())?;
    io::stdout().flush()?;
    Ok(ExitCode::from(status as u8))
}

fn main() -> ExitCode {
    let words: Vec<OsString> = std::env::args_os().skip(1).collect();
    let command: Option<Command> = match words.iter().map(|word| word.to_str()).collect::<Vec<_>>()[..] {
        [Some("steps")] => None,
        [Some("audit")] => Some(audit),
        [Some("run")] => Some(run),
        [Some("list")] => Some(list),
        _ => return fail(USAGE, "steps|audit|run|list"),
    };
    let mut input = Vec::new();
    let most = command.map_or(u64::MAX, |_| MOST_BYTES);
    if let Err(why) = io::stdin().take(most).read_to_end(&mut input) {
        return fail(READ_FAULT, why);
    }
    let written = match command {
        Some(command) => carry_out(command, &input),
        None => steps(&input),
    };
    written.unwrap_or_else(|why| fail(WRITE_FAULT, why))
}
