//! Rulings, commands and roots. Expected values are the repository's examples, and those of the second implementation in Python.

mod common;

use common::{CASE, bytes, example, root};
use coshalit::{ClaimRefused, Error, Prover, Question, StepRefused, audit, check_step, claim_root, list, run, version};

/// A step of the vectors: the root on which both sides agree, the proof, and the root to which it leads.
fn step() -> (coshalit::Root, Vec<u8>, coshalit::Root) {
    let line = String::from_utf8(example("embed/step.txt")).unwrap();
    let words: Vec<&str> = line.split_whitespace().collect();
    let next = root("330236e48c3fd209f9104ab59530c443822e5d5c75bcc09428515b731d25cde1");
    (root(words[1]), bytes(words[2]), next)
}

#[test]
fn a_proof_leads_to_the_next_root() {
    let (agreed, proof, next) = step();
    assert_eq!(check_step(1, &agreed, &proof), Ok(next));
}

#[test]
fn a_proof_is_refused_by_the_first_condition_that_fails() {
    let (mut agreed, proof, _) = step();
    assert_eq!(check_step(2, &agreed, &proof), Err(StepRefused::WrongShape));
    assert_eq!(check_step(1, &agreed, &proof[1..]), Err(StepRefused::NoProof));
    assert_eq!(check_step(1, &agreed, b""), Err(StepRefused::NoProof));
    agreed[1] ^= 1;
    assert_eq!(check_step(1, &agreed, &proof), Err(StepRefused::NotOpen));
}

#[test]
fn a_full_text_is_confirmed_or_refused_at_its_line() {
    assert_eq!(audit(&example("liar_is_bisected/full_text.txt")), Ok("confirmed accept exited 0 output 2a\n".to_owned()));
    assert_eq!(audit(&example("changed_texts/a_false_proof.txt")), Err(Error::Refused("refused 12 3\n".to_owned())));
    assert_eq!(audit(b""), Err(Error::Refused("fault text 3\n".to_owned())));
}

#[test]
fn more_bytes_than_a_text_may_have_are_too_long() {
    let refused = audit(&vec![b'x'; 16_777_217]).unwrap_err();
    assert_eq!((refused.status(), refused.text()), (12, "fault too long\n"));
}

#[test]
fn a_case_is_run_and_listed() {
    assert_eq!(run(CASE), Ok("answer exited 0 output 2a\n".to_owned()));
    assert!(list(CASE).unwrap().starts_with("addi x10, x0, 42\n"));
    assert!(matches!(run(b"{"), Err(Error::BadCase(_))));
}

#[test]
fn a_text_longer_than_the_first_room_is_whole() {
    let image = "13000000".repeat(2000);
    let case = format!(r#"{{"format":"flat","image":"{image}","input":"","bound":8,"patience":0,"provers":[{{}}]}}"#);
    assert_eq!(list(case.as_bytes()).unwrap().lines().count(), 2000);
}

#[test]
fn a_prover_has_the_roots_of_its_run() {
    let prover = Prover::new(CASE);
    let start = root("183959fe9e2293200e53fc93acb41f25f4341e8f6a99a6caa23193d901d2cd6d");
    assert_eq!(prover.start_root(), Ok(start));
    // Those of `refcli roots`, and of examples/liar_is_bisected/full_text.txt at step 4.
    let middle = root("591d8c752c1eed7041874849627ea737243c9086008c2d13dc4c3e803a14d8f5");
    assert_eq!(prover.roots_at(&[4, 0, 4]), Ok(vec![middle, start, middle]));
    assert_eq!(prover.roots_at(&[]), Ok(vec![]));
    assert!(matches!(prover.roots_at(&[9]), Err(Error::NotAsked(_))));
}

#[test]
fn a_claim_has_its_root() {
    let question = Question { prover: 1, number: coshalit::Number { dispute: 0, round: 0 }, passes: 0, asked: coshalit::Asked::Claim };
    let mut claim = Prover::new(CASE).answer(&question).unwrap();
    assert_eq!(claim_root(&claim), Ok(root("078add20bc2c812fcaf74f520828c1a827c468f504d583b65992e27624179d46")));
    *claim.last_mut().unwrap() ^= 1;
    assert_eq!(claim_root(&claim), Err(ClaimRefused::Unsound));
    assert_eq!(claim_root(b"\x02"), Err(ClaimRefused::NoClaim));
}

#[test]
fn errors_are_errors_of_std() {
    let refused: Box<dyn std::error::Error> = Box::new(run(b"").unwrap_err());
    assert!(refused.to_string().starts_with("fault case"), "{refused}");
}

#[test]
fn the_library_has_the_version_of_the_declarations() {
    assert_eq!(version() / 10_000, coshalit_sys::COSHALIT_VERSION / 10_000);
    assert!(version() >= coshalit_sys::COSHALIT_VERSION);
}
