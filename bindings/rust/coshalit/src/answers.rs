//! The program's commands on bytes in memory, and how a text is taken from a call.

use crate::errors::Error;
use alloc::string::String;
use alloc::vec::Vec;
use coshalit_sys::{COSHALIT_DONE, COSHALIT_OUT_OF_MEMORY, CoshalitAnswer, coshalit_audit, coshalit_list, coshalit_run};

/// How many bytes a text may have, where no length is known beforehand, before a call is made a second time for it.
pub(crate) const FIRST_ROOM: usize = 4096;

/// How many bytes `include/coshalit.h` adds to most rooms: a refusal has no more.
pub(crate) const OF_A_REFUSAL: usize = 64;

type Command = unsafe extern "C" fn(*const u8, usize, *mut u8, usize) -> CoshalitAnswer;

/// Audits a full text, as `judge --full` or [`Match::text`](crate::Match::text) gives it: the line `confirmed VERDICT`.
///
/// It is confirmed that the text is one of a legal match with this verdict, and no more. So compare its first line: the root with that of
/// your case's start, the version and the bound with the case's, and provers, patience and fan with those that you agreed on. Refuse
/// another digest than `sha256`.
///
/// # Errors
///
/// [`Error::Refused`] with the line `refused LINE CAUSE` or `fault text R ..`, [`Error::TooLong`], [`Error::OutOfMemory`].
pub fn audit(text: &[u8]) -> Result<String, Error> {
    command(coshalit_audit, text, text.len() + OF_A_REFUSAL)
}

/// Runs the program of a case, a JSON text, up to the case's bound: the line `answer STATUS output BYTES`. If the line has more than 4,096
/// bytes, the program is run a second time.
///
/// # Errors
///
/// [`Error::BadCase`], [`Error::BadImage`], [`Error::TooLong`], [`Error::OutOfMemory`].
pub fn run(case: &[u8]) -> Result<String, Error> {
    command(coshalit_run, case, FIRST_ROOM)
}

/// Lists the image of a case, a JSON text, as assembly text: a line for each word.
///
/// # Errors
///
/// As [`run`]; a case whose image has no listing is an [`Error::BadCase`].
pub fn list(case: &[u8]) -> Result<String, Error> {
    command(coshalit_list, case, 3 * case.len() + OF_A_REFUSAL)
}

fn command(call: Command, bytes: &[u8], room: usize) -> Result<String, Error> {
    // SAFETY: the pointers are those of slices of these lengths, and `room` is no part of `bytes`.
    let (status, text) = text_of(room, |room| unsafe { call(bytes.as_ptr(), bytes.len(), room.as_mut_ptr(), room.len()) });
    done(status, text).map(in_letters)
}

/// What a call answers: its status and its whole text. It is called again if its text is longer than the first room. If there is no memory
/// for a room, the status is that of memory that ran out.
pub(crate) fn text_of(size: usize, call: impl Fn(&mut [u8]) -> CoshalitAnswer) -> (u32, Vec<u8>) {
    let mut size = size;
    loop {
        let Some(mut room) = room_of(size) else { return (COSHALIT_OUT_OF_MEMORY, Vec::new()) };
        room.resize(size, 0);
        let found = call(&mut room);
        if found.length <= size {
            room.truncate(found.length);
            return (found.status, room);
        }
        size = found.length;
    }
}

/// An empty list with room for so many items; nothing if there is no memory for it.
pub(crate) fn room_of<Item>(count: usize) -> Option<Vec<Item>> {
    let mut room = Vec::new();
    room.try_reserve_exact(count).ok()?;
    Some(room)
}

/// The text of an answer, or the refusal that it is.
pub(crate) fn done(status: u32, text: Vec<u8>) -> Result<Vec<u8>, Error> {
    if status == COSHALIT_DONE { Ok(text) } else { Err(Error::of(status, in_letters(text))) }
}

/// Each text of a command is of ASCII letters.
fn in_letters(text: Vec<u8>) -> String {
    String::from_utf8(text).unwrap_or_else(|other| String::from_utf8_lossy(other.as_bytes()).into_owned())
}

#[cfg(test)]
mod tests {
    use super::*;

    #[test]
    fn without_memory_for_a_room_memory_ran_out() {
        assert_eq!(text_of(usize::MAX, |_| unreachable!()), (COSHALIT_OUT_OF_MEMORY, Vec::new()));
        assert_eq!(done(COSHALIT_OUT_OF_MEMORY, Vec::new()), Err(Error::OutOfMemory));
    }
}
