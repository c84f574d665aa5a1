//! The referee of one step, and the roots of claims.

use crate::errors::{ClaimRefused, StepRefused};
use crate::{ROOT_BYTES, Root};
use coshalit_sys::{
    COSHALIT_LEADS, COSHALIT_NO_PROOF, COSHALIT_NOT_OPEN, COSHALIT_OUT_OF_MEMORY, COSHALIT_WRONG_SHAPE, coshalit_check_step,
    coshalit_claim_root,
};

/// What `coshalit_claim_root` returns.
const SOUND: u32 = 0;
const UNSOUND: u32 = 1;
const NO_CLAIM: u32 = 3;

/// The root to which the proof of one step leads, from a root on which both sides agree, by SHA-256. `wire` is the proof as it is sent, and
/// `version` that of the commitments, 1, 2 or 3. It takes no memory.
///
/// # Errors
///
/// By the first condition that fails; with any other `version` each proof has the wrong shape.
pub fn check_step(version: u32, root: &Root, wire: &[u8]) -> Result<Root, StepRefused> {
    let mut next = [0; ROOT_BYTES];
    // SAFETY: the pointers are those of slices of these lengths, and `next` is no part of the others.
    let ruling =
        unsafe { coshalit_check_step(version, root.as_ptr(), root.len(), wire.as_ptr(), wire.len(), next.as_mut_ptr(), next.len()) };
    match ruling {
        COSHALIT_LEADS => Ok(next),
        COSHALIT_NOT_OPEN => Err(StepRefused::NotOpen),
        COSHALIT_WRONG_SHAPE => Err(StepRefused::WrongShape),
        COSHALIT_NO_PROOF => Err(StepRefused::NoProof),
        ruling => Err(StepRefused::Other(ruling)),
    }
}

/// The root of a claim, from its wire form, by which a match compares claims.
///
/// # Errors
///
/// If the bytes are no claim, if the claim isn't sound, or if memory ran out.
pub fn claim_root(wire: &[u8]) -> Result<Root, ClaimRefused> {
    let mut root = [0; ROOT_BYTES];
    // SAFETY: as in `check_step`.
    match unsafe { coshalit_claim_root(wire.as_ptr(), wire.len(), root.as_mut_ptr(), root.len()) } {
        SOUND => Ok(root),
        UNSOUND => Err(ClaimRefused::Unsound),
        NO_CLAIM => Err(ClaimRefused::NoClaim),
        COSHALIT_OUT_OF_MEMORY => Err(ClaimRefused::OutOfMemory),
        status => Err(ClaimRefused::Other(status)),
    }
}
