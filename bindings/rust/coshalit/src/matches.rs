//! A match among parties of one's own, as a log of posts.

use crate::Root;
use crate::answers::{room_of, text_of};
use crate::errors::{LogCause, MatchError};
use alloc::vec::Vec;
use coshalit_sys::{
    COSHALIT_ACCEPTED, COSHALIT_BAD_LOG, COSHALIT_BAD_NUMBERS, COSHALIT_COLLISION, COSHALIT_NONE_LEFT, COSHALIT_OUT_OF_MEMORY,
    COSHALIT_STILL_OPEN, CoshalitMatch, CoshalitNumbers, CoshalitQuestion, coshalit_match, coshalit_match_balances, coshalit_match_burned,
    coshalit_match_text,
};

/// A match has at most so many provers, and so many open questions.
const MOST_PROVERS: usize = 16;

/// How many bytes an entry of the log has before its answer.
const ENTRY_BYTES: usize = 16;

/// The kinds of questions. A proof is of the kind 3 in each version of the commitments.
const CLAIM: u32 = 1;
const ROOT: u32 = 2;
const PROOF: u32 = 3;
const ROOTS: u32 = 5;

/// The numbers by which a match is played. The digest is SHA-256.
///
/// `version`, `bound` and `start` are those of the case that the parties agreed on: with others nothing is refused, and each prover that
/// answers by the case may lose.
#[derive(Clone, Copy, Debug, PartialEq, Eq)]
pub struct Numbers {
    /// Of the commitments, 1 to 3.
    pub version: u32,
    /// 1 to 16.
    pub provers: u32,
    /// Into how many parts a round cuts its interval at most, 2 to 16.
    pub fan: u32,
    /// How many passes a question allows, 0 to 100.
    pub patience: u32,
    /// How many steps the run has, 1 to 4,294,967,295.
    pub bound: u64,
    /// The root of the state at step 0: [`Prover::start_root`](crate::Prover::start_root).
    pub start: Root,
}

/// The number of a question. That of a claim is dispute 0 and round 0.
#[derive(Clone, Copy, Debug, PartialEq, Eq, Hash)]
pub struct Number {
    pub dispute: u32,
    pub round: u32,
}

/// What is asked for.
#[derive(Clone, Copy, Debug, PartialEq, Eq)]
pub enum Asked {
    /// The claim: the state at the bound, its status and output.
    Claim,
    /// The root of the state after so many steps.
    Root { step: u64 },
    /// The proof of the step that follows so many steps.
    Proof { step: u64 },
    /// The roots at the cuts of an interval of steps into so many parts.
    Roots { low: u64, high: u64, parts: u32 },
}

/// An open question of a match.
#[derive(Clone, Copy, Debug, PartialEq, Eq)]
pub struct Question {
    /// Who is asked, from 1.
    pub prover: u32,
    pub number: Number,
    /// How often the prover has passed on it.
    pub passes: u32,
    pub asked: Asked,
}

/// What is posted to a question.
#[derive(Clone, Copy, Debug, PartialEq, Eq)]
pub enum Post<'a> {
    /// The bytes of a wire form, as they came. Empty ones are no answer, and no pass.
    Answer(&'a [u8]),
    /// The prover is late: post a pass for each full period without an answer. How long a period is you choose; the match counts passes, and
    /// not time. A prover is out by one pass more than the patience.
    Pass,
}

/// What came of a post.
#[derive(Clone, Copy, Debug, PartialEq, Eq)]
pub enum Reply {
    /// The answer or the pass counts, also for a proof that will be refuted.
    Taken,
    /// The answer is of another kind than asked, a list of another length, or an unsound claim. Its prover is out: by a claim at once, in a
    /// dispute as soon as the other side of the round is settled.
    Faulty,
    /// It is a pass more than the patience allows. Its prover is out, as by [`Faulty`](Reply::Faulty).
    Spent,
    /// It names no open question of its prover, and changes nothing.
    Stale,
}

/// How a match ended.
#[derive(Clone, Copy, Debug, PartialEq, Eq)]
pub enum Verdict {
    /// The claim of this prover is accepted: the status and the output of that claim in the log. They are in the last line of the text too.
    Accepted { prover: u32 },
    /// Every prover is out.
    NoneLeft,
    /// Two different strings with one digest were shown.
    Collision,
}

/// What becomes of the stakes.
#[derive(Clone, Debug, PartialEq, Eq)]
pub struct Settlement {
    /// What each prover has, in the order of the provers.
    pub balances: Vec<u64>,
    /// What is in the pool, or is burned.
    pub pool: u64,
}

/// A match: its numbers, its log, and what it has come to.
///
/// The log is what one stores, orders, signs and compares: who has the same numbers and the same log has the same match. It grows by
/// [`post`](Match::post) only. **Who may call that with a prover's number can lose that prover's match**: authenticate senders. The match is
/// played anew at each call: `docs/OPEN_MATCH.md` says what that costs, and what a host has to do.
#[derive(Clone, Debug)]
pub struct Match {
    numbers: CoshalitNumbers,
    log: Vec<u8>,
    status: u32,
    found: CoshalitMatch,
    questions: Vec<Question>,
}

impl Match {
    /// A match that nobody has posted in yet.
    ///
    /// # Errors
    ///
    /// [`MatchError::BadNumbers`] if a number is beyond its limit, [`MatchError::OutOfMemory`].
    pub fn new(numbers: Numbers) -> Result<Match, MatchError> {
        Match::resume(numbers, &[])
    }

    /// The match after a log that was stored.
    ///
    /// # Errors
    ///
    /// As [`new`](Match::new), and [`MatchError::BadLog`] with the place of the first entry that is none. The log up to `at` is one. If `at`
    /// is in the entry that was written last, a crash has cut that: cut the stored log there too, and resume with the rest.
    pub fn resume(numbers: Numbers, log: &[u8]) -> Result<Match, MatchError> {
        let Numbers { version, provers, fan, patience, bound, start } = numbers;
        let numbers = CoshalitNumbers { version, provers, fan, patience, bound, start };
        let mut own = room_of(log.len()).ok_or(MatchError::OutOfMemory)?;
        own.extend_from_slice(log);
        let mut begun = Match { numbers, log: own, status: COSHALIT_STILL_OPEN, found: CoshalitMatch::default(), questions: Vec::new() };
        begun.play()?;
        Ok(begun)
    }

    /// Appends what a prover posts to a question, and plays on. The prover is the one that sent it: never take its number from what was sent.
    /// Dispute and round are those that the sender names under its signature, or those of the question that you sent it. Never take those
    /// that are open now: a late answer to the question before would become an answer to this one.
    ///
    /// # Errors
    ///
    /// [`MatchError::BadLog`] if no prover has the number, or if the bytes are no wire form, as empty ones are: such bytes are no answer, and
    /// no pass. [`MatchError::OutOfMemory`]: the same post may be tried again. After any error the match is as it was.
    pub fn post(&mut self, prover: u32, number: Number, post: Post<'_>) -> Result<Reply, MatchError> {
        let before = self.log.len();
        let answer = match post {
            Post::Answer([]) => return Err(self.refused(prover, 1)),
            Post::Answer(bytes) => bytes,
            Post::Pass => &[],
        };
        // A longer answer is no wire form.
        let length = u32::try_from(answer.len()).map_err(|_| self.refused(prover, 4))?;
        self.log.try_reserve(ENTRY_BYTES + answer.len()).map_err(|_| MatchError::OutOfMemory)?;
        for word in [prover, number.dispute, number.round, length] {
            self.log.extend_from_slice(&word.to_le_bytes());
        }
        self.log.extend_from_slice(answer);
        if let Err(why) = self.play() {
            self.log.truncate(before);
            return Err(why);
        }
        reply_of(self.found.reply)
    }

    /// The open questions, in the order of their provers; none if the match is over.
    pub fn questions(&self) -> &[Question] {
        &self.questions
    }

    /// How the match ended; nothing while a question is open.
    pub fn verdict(&self) -> Option<Verdict> {
        match self.status {
            COSHALIT_ACCEPTED => Some(Verdict::Accepted { prover: self.found.accepted }),
            COSHALIT_NONE_LEFT => Some(Verdict::NoneLeft),
            COSHALIT_COLLISION => Some(Verdict::Collision),
            _ => None,
        }
    }

    /// The full text of a match that is over, which anybody can [`audit`](crate::audit); nothing while a question is open.
    ///
    /// # Errors
    ///
    /// [`MatchError::OutOfMemory`].
    pub fn text(&self) -> Result<Option<Vec<u8>>, MatchError> {
        // SAFETY: the pointers are those of a struct and of slices of these lengths, and `room` is no part of the others.
        let (status, text) = text_of(4 * self.log.len() + 1024, |room| unsafe {
            coshalit_match_text(&self.numbers, self.log.as_ptr(), self.log.len(), room.as_mut_ptr(), room.len())
        });
        Ok(self.is_over(status)?.then_some(text))
    }

    /// What the provers of a match that is over have, if each put down `stake`: a stake that is lost in a dispute goes to the other side,
    /// or to the pool. Nothing while a question is open.
    ///
    /// # Errors
    ///
    /// [`MatchError::BadNumbers`] if the stake is above 1,000,000,000, [`MatchError::OutOfMemory`].
    pub fn balances(&self, stake: u64) -> Result<Option<Settlement>, MatchError> {
        self.settled(coshalit_match_balances, stake)
    }

    /// As [`balances`](Match::balances), by the settlement that burns each stake that is lost.
    ///
    /// # Errors
    ///
    /// As [`balances`](Match::balances).
    pub fn burned(&self, stake: u64) -> Result<Option<Settlement>, MatchError> {
        self.settled(coshalit_match_burned, stake)
    }

    /// The log: store it, and [`resume`](Match::resume) the match with it.
    pub fn log(&self) -> &[u8] {
        &self.log
    }

    /// Why bytes that no entry can have are no answer, as the library says of others: the prover's number is looked at first.
    fn refused(&self, prover: u32, rule: u32) -> MatchError {
        let is_prover = (1..=self.numbers.provers).contains(&prover);
        MatchError::BadLog { at: self.log.len() as u64, cause: if is_prover { LogCause::NoAnswer { rule } } else { LogCause::NoProver } }
    }

    fn settled(&self, call: Settle, stake: u64) -> Result<Option<Settlement>, MatchError> {
        let (mut balances, mut pool) = ([0; MOST_PROVERS], 0);
        // SAFETY: as in `text`.
        let status =
            unsafe { call(&self.numbers, stake, self.log.as_ptr(), self.log.len(), balances.as_mut_ptr(), balances.len(), &mut pool) };
        if !self.is_over(status)? {
            return Ok(None);
        }
        let provers = self.numbers.provers as usize;
        let mut own = room_of(provers).ok_or(MatchError::OutOfMemory)?;
        own.extend_from_slice(&balances[..provers]);
        Ok(Some(Settlement { balances: own, pool }))
    }

    /// Whether a call with this status found the match at its end.
    fn is_over(&self, status: u32) -> Result<bool, MatchError> {
        match status {
            COSHALIT_ACCEPTED | COSHALIT_NONE_LEFT | COSHALIT_COLLISION => Ok(true),
            COSHALIT_STILL_OPEN => Ok(false),
            _ => Err(error_of(status, &self.found)),
        }
    }

    /// Finds what the match has come to after the log. After an error all but the log is as it was.
    fn play(&mut self) -> Result<(), MatchError> {
        let mut found = CoshalitMatch::default();
        let mut asked = [CoshalitQuestion::default(); MOST_PROVERS];
        // SAFETY: as in `text`; `found` and `asked` are no part of the others.
        let status =
            unsafe { coshalit_match(&self.numbers, self.log.as_ptr(), self.log.len(), &mut found, asked.as_mut_ptr(), asked.len()) };
        if !matches!(status, COSHALIT_ACCEPTED | COSHALIT_NONE_LEFT | COSHALIT_COLLISION | COSHALIT_STILL_OPEN) {
            return Err(error_of(status, &found));
        }
        if !self.log.is_empty() {
            reply_of(found.reply)?;
        }
        let asked = &asked[..found.asked as usize];
        let mut questions = room_of(asked.len()).ok_or(MatchError::OutOfMemory)?;
        for one in asked {
            questions.push(Question::of(one)?);
        }
        (self.status, self.found, self.questions) = (status, found, questions);
        Ok(())
    }
}

type Settle = unsafe extern "C" fn(*const CoshalitNumbers, u64, *const u8, usize, *mut u64, usize, *mut u64) -> u32;

/// The reply with this number.
fn reply_of(reply: u32) -> Result<Reply, MatchError> {
    match reply {
        1 => Ok(Reply::Taken),
        2 => Ok(Reply::Faulty),
        3 => Ok(Reply::Spent),
        4 => Ok(Reply::Stale),
        other => Err(MatchError::UnknownReply(other)),
    }
}

fn error_of(status: u32, found: &CoshalitMatch) -> MatchError {
    let cause = match found.cause {
        1 => LogCause::CutOff,
        2 => LogCause::NoProver,
        3 => LogCause::NoAnswer { rule: found.rule },
        other => LogCause::Other(other),
    };
    match status {
        COSHALIT_BAD_LOG => MatchError::BadLog { at: found.at, cause },
        COSHALIT_BAD_NUMBERS => MatchError::BadNumbers,
        COSHALIT_OUT_OF_MEMORY => MatchError::OutOfMemory,
        _ => MatchError::Other { status },
    }
}

impl Question {
    /// A question as the library writes it.
    fn of(found: &CoshalitQuestion) -> Result<Question, MatchError> {
        let &CoshalitQuestion { prover, dispute, round, kind, parts, passes, low, high } = found;
        let asked = match kind {
            CLAIM => Asked::Claim,
            ROOT => Asked::Root { step: low },
            PROOF => Asked::Proof { step: low },
            ROOTS => Asked::Roots { low, high, parts },
            _ => return Err(MatchError::UnknownKind(kind)),
        };
        Ok(Question { prover, number: Number { dispute, round }, passes, asked })
    }

    /// The question as the library takes it.
    pub(crate) fn in_numbers(self) -> CoshalitQuestion {
        let Question { prover, number: Number { dispute, round }, passes, asked } = self;
        let (kind, low, high, parts) = match asked {
            Asked::Claim => (CLAIM, 0, 0, 0),
            Asked::Root { step } => (ROOT, step, 0, 0),
            Asked::Proof { step } => (PROOF, step, 0, 0),
            Asked::Roots { low, high, parts } => (ROOTS, low, high, parts),
        };
        CoshalitQuestion { prover, dispute, round, kind, parts, passes, low, high }
    }
}

#[cfg(test)]
mod tests {
    use super::*;

    #[test]
    fn what_the_crate_does_not_know_is_an_error() {
        assert_eq!(reply_of(5), Err(MatchError::UnknownReply(5)));
        assert_eq!(Question::of(&CoshalitQuestion { kind: 4, ..Default::default() }), Err(MatchError::UnknownKind(4)));
    }
}
