//! A prover of one's own.

use crate::answers::{FIRST_ROOM, OF_A_REFUSAL, done, room_of, text_of};
use crate::errors::Error;
use crate::matches::Question;
use crate::{ROOT_BYTES, Root};
use alloc::vec::Vec;
use coshalit_sys::{coshalit_answer, coshalit_roots_at, coshalit_start_root};

/// The true answers of the run of a case.
///
/// In a match with the case's version, bound and start root, a prover that posts what it gives, in time, is never out if nobody else posts
/// in its name.
///
/// Nothing is kept between two calls. Each makes a tree of all pages of the image, and all but [`start_root`](Prover::start_root) run the
/// program from step 0 on. With the fan 2 that is up to 34 answers for the claim and one dispute. So for a long run fetch many roots at
/// once by [`roots_at`](Prover::roots_at), and send those that are asked for: the wire form of a root is the byte 2 and the root's 32 bytes.
#[derive(Clone, Debug, PartialEq, Eq)]
pub struct Prover {
    case: Vec<u8>,
}

impl Prover {
    /// A prover of this case, a JSON text. Nothing is read of it yet.
    pub fn new(case: impl Into<Vec<u8>>) -> Prover {
        Prover { case: case.into() }
    }

    /// The root of the state in which the run starts: it is the `start` of a match of the case.
    ///
    /// # Errors
    ///
    /// As [`run`](crate::run).
    pub fn start_root(&self) -> Result<Root, Error> {
        // SAFETY: the pointers are those of slices of these lengths, and `room` is no part of the case.
        let (status, text) = text_of(OF_A_REFUSAL, |room| unsafe {
            coshalit_start_root(self.case.as_ptr(), self.case.len(), room.as_mut_ptr(), room.len())
        });
        let roots = done(status, text)?;
        Ok(roots_in(&roots).next().expect("a root has 32 bytes"))
    }

    /// The roots of the states after these many steps each, in the order of `steps`. All are reached by one run.
    ///
    /// # Errors
    ///
    /// As [`run`](crate::run); a step above the case's bound is [`Error::NotAsked`].
    pub fn roots_at(&self, steps: &[u64]) -> Result<Vec<Root>, Error> {
        // SAFETY: as in `start_root`; `steps` is no part of `room`.
        let (status, text) = text_of(ROOT_BYTES * steps.len() + OF_A_REFUSAL, |room| unsafe {
            coshalit_roots_at(self.case.as_ptr(), self.case.len(), steps.as_ptr(), steps.len(), room.as_mut_ptr(), room.len())
        });
        let text = done(status, text)?;
        let mut roots = room_of(steps.len()).ok_or(Error::OutOfMemory)?;
        roots.extend(roots_in(&text));
        Ok(roots)
    }

    /// The true answer to a question of a match of the case, as a wire form. It makes a tree of the image, and runs the program up to the step
    /// that is asked. It does so twice for a claim whose output has more than 3,974 bytes.
    ///
    /// # Errors
    ///
    /// As [`run`](crate::run); what no match of the case asks is [`Error::NotAsked`].
    pub fn answer(&self, question: &Question) -> Result<Vec<u8>, Error> {
        let asked = question.in_numbers();
        // SAFETY: as in `start_root`.
        let (status, text) = text_of(FIRST_ROOM, |room| unsafe {
            coshalit_answer(
                self.case.as_ptr(),
                self.case.len(),
                asked.kind,
                asked.low,
                asked.high,
                asked.parts,
                room.as_mut_ptr(),
                room.len(),
            )
        });
        done(status, text)
    }
}

fn roots_in(text: &[u8]) -> impl Iterator<Item = Root> {
    text.chunks_exact(ROOT_BYTES).map(|bytes| bytes.try_into().expect("a chunk has as many bytes"))
}
