//! The proved referee of Coshalit in safe Rust, over the C library `coshalit_c`:
//!
//! - [`check_step`]: the ruling on the proof of one step;
//! - [`audit`], [`run`], [`list`]: the program's commands on bytes in memory;
//! - [`Match`]: a match among parties of your own, as a log of posts;
//! - [`Prover`]: the true answers of a case's own run;
//! - [`claim_root`]: the root by which claims are compared.
//!
//! What is proved ends at the library. This crate passes slices, and gives errors as types; `include/coshalit.h` says what each call
//! promises.
//!
//! A call can't be stopped. So bound the cases and the texts that you give it, or call it in a process of its own, and end that. Memory is
//! bounded by a limit on that process, or by three functions of your own in place of the feature `malloc`. A call for which no room is known
//! beforehand is made a second time if its answer has more than 4,096 bytes: [`run`] and [`Prover::answer`].
//!
//! ```
//! use coshalit::{Match, Numbers, Post, Prover, Verdict, audit};
//!
//! # fn main() -> Result<(), Box<dyn std::error::Error>> {
//! // Two programs that put out one byte, 2a and 2b. The match is about the first.
//! let case = |byte| format!(
//!     r#"{{"format":"flat","image":"1305{byte}029308100073000000130500009308d00573000000","input":"","bound":8,"patience":0,"provers":[{{}}]}}"#
//! );
//! let provers = [Prover::new(case("a0")), Prover::new(case("b0"))];
//! let start = provers[0].start_root()?;
//! let mut game = Match::new(Numbers { version: 1, provers: 2, fan: 2, patience: 0, bound: 8, start })?;
//! while let Some(&question) = game.questions().first() {
//!     let answer = provers[question.prover as usize - 1].answer(&question)?;
//!     game.post(question.prover, question.number, Post::Answer(&answer))?;
//! }
//! assert_eq!(game.verdict(), Some(Verdict::Accepted { prover: 1 }));
//! let text = game.text()?.expect("the match is over");
//! assert_eq!(audit(&text)?, "confirmed accept exited 0 output 2a\n");
//! # Ok(())
//! # }
//! ```
//!
//! The crate has no `std`: it needs an allocator. Without the feature `malloc` the program defines the three functions by which the library
//! asks for memory, as `coshalit-sys` says.
#![no_std]

extern crate alloc;

mod answers;
mod errors;
mod matches;
mod prover;
mod steps;

pub use answers::{audit, list, run};
pub use errors::{ClaimRefused, Error, LogCause, MatchError, StepRefused};
pub use matches::{Asked, Match, Number, Numbers, Post, Question, Reply, Settlement, Verdict};
pub use prover::Prover;
pub use steps::{check_step, claim_root};

/// How many bytes a root has.
pub const ROOT_BYTES: usize = coshalit_sys::COSHALIT_ROOT_BYTES;

/// The root of a state: it commits to memory, registers, input and output.
pub type Root = [u8; ROOT_BYTES];

/// The version of the library that is linked: major * 10000 + minor * 100 + patch. This crate is written for 10000 and those after it with
/// the same major number.
pub fn version() -> u32 {
    coshalit_sys::coshalit_version()
}
