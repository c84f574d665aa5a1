//! Matches among parties of one's own. Expected values are the repository's examples.

mod common;

use common::{CASE, bytes, example, root};
use coshalit::{Asked, LogCause, Match, MatchError, Number, Numbers, Post, Prover, Question, Reply, Settlement, Verdict, audit};
use std::collections::HashMap;

/// The same program, which writes 2b.
const OTHER_CASE: &[u8] =
    br#"{"format":"flat","image":"1305b0029308100073000000130500009308d00573000000","input":"","bound":8,"patience":0,"provers":[{}]}"#;

const CLAIM: Number = Number { dispute: 0, round: 0 };

fn numbers(provers: u32, patience: u32) -> Numbers {
    let start = Prover::new(CASE).start_root().unwrap();
    Numbers { version: 1, provers, fan: 2, patience, bound: 8, start }
}

/// The numbers of a match from line 1 of its full text.
fn numbers_of(text: &str) -> Numbers {
    let words: Vec<&str> = text.lines().next().expect("a line").split(' ').collect();
    let number = |name: &str| {
        let at = words.iter().position(|word| *word == name).expect("a number's name");
        words[at + 1]
    };
    let of = |name: &str| number(name).parse().expect("a number");
    Numbers {
        version: of("version"),
        provers: of("provers"),
        fan: of("fan"),
        patience: of("patience"),
        bound: u64::from(of("bound")),
        start: root(number("start")),
    }
}

/// What each prover says to each question, from a full text of a match without passes.
fn answers_of(text: &str) -> HashMap<(u32, Number), Vec<u8>> {
    let moves = text.lines().filter_map(|line| line.strip_prefix("move "));
    moves
        .map(|line| {
            let words: Vec<&str> = line.split(' ').collect();
            let [dispute, round, prover, _, digits] = words[..] else { panic!("{line}") };
            let prover = prover[1..].parse().expect("a prover");
            let number = Number { dispute: dispute.parse().expect("a dispute"), round: round.parse().expect("a round") };
            ((prover, number), bytes(digits))
        })
        .collect()
}

/// The claim of the run of a case.
fn claim_of(case: &[u8]) -> Vec<u8> {
    Prover::new(case).answer(&Question { prover: 1, number: CLAIM, passes: 0, asked: Asked::Claim }).unwrap()
}

/// The match of these cases, each of whose provers answers by its own run. The last prover that is asked posts first.
fn played(cases: &[&[u8]], numbers: Numbers) -> Match {
    let provers: Vec<Prover> = cases.iter().map(|case| Prover::new(*case)).collect();
    let mut game = Match::new(numbers).unwrap();
    while let Some(question) = game.questions().last().copied() {
        let answer = provers[question.prover as usize - 1].answer(&question).unwrap();
        game.post(question.prover, question.number, Post::Answer(&answer)).unwrap();
    }
    game
}

#[test]
fn an_example_is_played_to_its_own_text() {
    let text = String::from_utf8(example("liar_is_bisected/full_text.txt")).unwrap();
    let said = answers_of(&text);
    let mut game = Match::new(numbers_of(&text)).unwrap();
    assert_eq!(game.text(), Ok(None));
    while let Some(question) = game.questions().last().copied() {
        let answer = &said[&(question.prover, question.number)];
        assert_eq!(game.post(question.prover, question.number, Post::Answer(answer)), Ok(Reply::Taken));
    }
    assert_eq!(game.verdict(), Some(Verdict::Accepted { prover: 1 }));
    assert_eq!(game.text().unwrap().unwrap(), text.as_bytes());
}

#[test]
fn true_answers_win() {
    for (first, second, winner) in [(CASE, OTHER_CASE, 1), (OTHER_CASE, CASE, 2)] {
        let game = played(&[first, second], numbers(2, 0));
        assert_eq!(game.verdict(), Some(Verdict::Accepted { prover: winner }));
        let text = game.text().unwrap().unwrap();
        assert_eq!(audit(&text), Ok("confirmed accept exited 0 output 2a\n".to_owned()));
    }
}

#[test]
fn rounds_of_several_parts_ask_for_several_roots() {
    let mut game = Match::new(Numbers { fan: 4, ..numbers(2, 0) }).unwrap();
    for (prover, case) in [(1, CASE), (2, OTHER_CASE)] {
        game.post(prover, CLAIM, Post::Answer(&claim_of(case))).unwrap();
    }
    assert_eq!(game.questions()[0].asked, Asked::Roots { low: 0, high: 8, parts: 4 });
    let game = played(&[CASE, OTHER_CASE], Numbers { fan: 4, ..numbers(2, 0) });
    assert_eq!(game.verdict(), Some(Verdict::Accepted { prover: 1 }));
}

#[test]
fn a_stale_post_changes_nothing() {
    let mut game = Match::new(numbers(2, 0)).unwrap();
    let before = game.questions().to_vec();
    let stale = game.post(1, Number { dispute: 7, round: 1 }, Post::Answer(&bytes(&format!("02{}", "00".repeat(32)))));
    assert_eq!(stale, Ok(Reply::Stale));
    assert_eq!(game.questions(), before);
}

#[test]
fn bytes_that_are_no_answer_are_not_kept() {
    let mut game = Match::new(numbers(2, 0)).unwrap();
    game.post(1, CLAIM, Post::Answer(&claim_of(CASE))).unwrap();
    let (log, asked) = (game.log().to_vec(), game.questions().to_vec());
    let at = log.len() as u64;
    for (answer, rule) in [(&b""[..], 1), (b"\x02abc", 1), (b"\x07", 2)] {
        let why = MatchError::BadLog { at, cause: LogCause::NoAnswer { rule } };
        assert_eq!(game.post(2, CLAIM, Post::Answer(answer)), Err(why));
    }
    for (prover, post) in [(3, Post::Pass), (3, Post::Answer(b"")), (0, Post::Answer(b""))] {
        assert_eq!(game.post(prover, CLAIM, post), Err(MatchError::BadLog { at, cause: LogCause::NoProver }));
    }
    assert_eq!((game.log(), game.questions()), (&log[..], &asked[..]));
}

#[test]
fn a_pass_beyond_the_patience_puts_out() {
    let mut game = Match::new(numbers(2, 1)).unwrap();
    game.post(1, CLAIM, Post::Answer(&claim_of(CASE))).unwrap();
    assert_eq!(game.post(2, CLAIM, Post::Pass), Ok(Reply::Taken));
    assert_eq!(game.questions()[0].passes, 1);
    assert_eq!(game.post(2, CLAIM, Post::Pass), Ok(Reply::Spent));
    assert_eq!(game.verdict(), Some(Verdict::Accepted { prover: 1 }));
}

#[test]
fn nobody_is_left_if_all_fall_silent() {
    let mut game = Match::new(numbers(1, 0)).unwrap();
    assert_eq!(game.post(1, CLAIM, Post::Pass), Ok(Reply::Spent));
    assert_eq!(game.verdict(), Some(Verdict::NoneLeft));
}

#[test]
fn a_stored_log_is_the_same_match() {
    let game = played(&[CASE, OTHER_CASE], numbers(2, 0));
    let again = Match::resume(numbers(2, 0), game.log()).unwrap();
    assert_eq!((again.verdict(), again.text()), (game.verdict(), game.text()));
    let cut = &game.log()[..game.log().len() - 1];
    assert!(matches!(Match::resume(numbers(2, 0), cut), Err(MatchError::BadLog { cause: LogCause::CutOff, .. })));
}

#[test]
fn numbers_beyond_their_limits_are_refused() {
    for wrong in
        [numbers(0, 0), numbers(17, 0), numbers(2, 101), Numbers { version: 4, ..numbers(2, 0) }, Numbers { fan: 1, ..numbers(2, 0) }]
    {
        assert_eq!(Match::new(wrong).err(), Some(MatchError::BadNumbers), "{wrong:?}");
    }
}

/// As the transcript of examples/stakes_of_two_liars says: two liars of one claim, and an honest prover 3.
#[test]
fn the_honest_prover_has_the_stakes_of_two_liars() {
    let mut game = Match::new(numbers(3, 0)).unwrap();
    assert_eq!(game.balances(10), Ok(None));
    let provers = [OTHER_CASE, OTHER_CASE, CASE].map(Prover::new);
    while let Some(question) = game.questions().first().copied() {
        let answer = provers[question.prover as usize - 1].answer(&question).unwrap();
        game.post(question.prover, question.number, Post::Answer(&answer)).unwrap();
    }
    assert_eq!(game.balances(10), Ok(Some(Settlement { balances: vec![0, 0, 30], pool: 0 })));
    assert_eq!(game.burned(10), Ok(Some(Settlement { balances: vec![0, 0, 10], pool: 20 })));
    assert_eq!(game.balances(1_000_000_001), Err(MatchError::BadNumbers));
}
