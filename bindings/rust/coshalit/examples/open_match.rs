//! A match among real parties in safe Rust: a referee, and three provers in threads of their own, over channels.
//!
//! The referee knows nothing of the program that is run but its bound and the root of its start. Prover 1 is honest. Prover 2 has run
//! another program. Prover 3 has run a third one; it sends its claim late, and then falls silent for good. It prints what
//! `examples/open_match`, the same host in C with processes and pipes, prints.

use coshalit::{Asked, Error as NoAnswer, Match, MatchError, Number, Numbers, Post, Prover, Question, Reply, Verdict, audit};
use std::error::Error;
use std::sync::mpsc::{Receiver, Sender, channel};
use std::thread;
use std::time::{Duration, Instant};

const PATIENCE: u32 = 1;
const BOUND: u64 = 8;
/// For each period of this length without an answer a prover passes once.
const PERIOD: Duration = Duration::from_millis(500);
/// How long a prover is waited for in the whole match.
const BUDGET: Duration = Duration::from_millis(1500);
/// An honest answer has at most max(2,948, 122 + n) bytes, where n is the length of the true output: here at most a byte a step. A longer
/// one is none. The agreement on n is made before the match.
const MOST_ANSWER: usize = 2948;
/// So often a call is made again that gets no memory. With the cap no answer needs much, so it isn't the fault of who sent the last one.
const MOST_TRIES: u32 = 100;

/// The case of a program that puts out one byte and exits. The provers' scripts count for nothing here.
fn case(immediate: &str) -> String {
    format!(
        r#"{{"format":"flat","image":"1305{immediate}029308100073000000130500009308d00573000000","input":"","bound":{BOUND},"patience":{PATIENCE},"provers":[{{}}]}}"#
    )
}

/// What a call gives. It is made again while it gets no memory: nothing has changed by it.
fn tried<T, E: PartialEq>(no_memory: E, mut call: impl FnMut() -> Result<T, E>) -> Result<T, E> {
    for _ in 0..MOST_TRIES {
        match call() {
            Err(why) if why == no_memory => thread::sleep(PERIOD / 10),
            done => return done,
        }
    }
    call()
}

/// A prover: to each question that comes, the answer of the run of its case.
fn prove(number: u32, prover: Prover, questions: Receiver<Question>, answers: Sender<Vec<u8>>) {
    for question in questions {
        if number == 3 && question.asked != Asked::Claim {
            // It keeps its end of the channel, and says nothing.
            thread::sleep(4 * BUDGET);
            return;
        }
        if number == 3 {
            thread::sleep(PERIOD + PERIOD / 2);
        }
        let answer = match tried(NoAnswer::OutOfMemory, || prover.answer(&question)) {
            Ok(answer) => answer,
            Err(why) => return eprintln!("p{number} has no answer: {why}"),
        };
        if answers.send(answer).is_err() {
            return;
        }
    }
}

/// What the referee knows of a prover: its channels, the question that it was sent, for how long it has been waited for in this period, and
/// how much of its time is left.
struct Party {
    questions: Sender<Question>,
    answers: Receiver<Vec<u8>>,
    sent: Option<Number>,
    waited: Duration,
    budget: Duration,
}

impl Party {
    fn begin(number: u32, prover: Prover) -> Party {
        let (questions, asked) = channel();
        let (given, answers) = channel();
        thread::spawn(move || prove(number, prover, asked, given));
        Party { questions, answers, sent: None, waited: Duration::ZERO, budget: BUDGET }
    }

    fn take_time(&mut self, time: Duration) {
        self.waited += time;
        self.budget = self.budget.saturating_sub(time);
    }

    /// Drops what the party sent, which is no answer. It takes at least a millisecond of its time: else such answers, sent at once one after
    /// another, could hold up a match for ever.
    fn drop_answer(&mut self, number: u32) {
        self.take_time(Duration::from_millis(1));
        println!("p{number} sends what is no answer: dropped");
    }

    /// The answer to a question, or nothing after a period without one; a period runs on while answers come that are none. A channel keeps
    /// the order and repeats nothing, each question is sent once, and one answer is taken for it. While it is waited for, the budget runs
    /// down, whatever comes then. Once that is used up, nothing more is received.
    fn answer(&mut self, question: Question) -> Option<Vec<u8>> {
        if self.budget.is_zero() {
            return None;
        }
        if self.sent != Some(question.number) {
            self.sent = Some(question.number);
            self.waited = Duration::ZERO;
            // A party that is gone is silent.
            let _ = self.questions.send(question);
        }
        let (begun, left) = (Instant::now(), PERIOD.saturating_sub(self.waited).min(self.budget));
        let answer = if left.is_zero() { None } else { self.answers.recv_timeout(left).ok() };
        self.take_time(begun.elapsed());
        if answer.is_none() {
            // The next period begins.
            self.waited = Duration::ZERO;
        }
        answer
    }
}

fn kind_of(asked: Asked) -> &'static str {
    match asked {
        Asked::Claim => "its claim",
        Asked::Root { .. } => "a root",
        Asked::Proof { .. } => "the proof of a step",
        _ => "several roots",
    }
}

fn reply_in_words(reply: Reply) -> &'static str {
    match reply {
        Reply::Taken => "taken",
        Reply::Faulty => "faulty",
        Reply::Spent => "spent",
        Reply::Stale => "stale",
    }
}

fn main() -> Result<(), Box<dyn Error>> {
    let provers: Vec<Prover> = ["a0", "b0", "c0"].iter().map(|immediate| Prover::new(case(immediate))).collect();
    // The case is agreed on before the match: of it the referee needs the root of the start.
    let start = tried(NoAnswer::OutOfMemory, || provers[0].start_root())?;
    let numbers = Numbers { version: 1, provers: 3, fan: 2, patience: PATIENCE, bound: BOUND, start };
    let mut game = tried(MatchError::OutOfMemory, || Match::new(numbers))?;
    let mut parties: Vec<Party> = (1..).zip(provers).map(|(number, prover)| Party::begin(number, prover)).collect();

    while let Some(question) = game.questions().first().copied() {
        // The prover's number is that of the channel, and the question is the one that was sent there: nothing that a prover sends.
        let Question { prover, number, asked, .. } = question;
        let party = &mut parties[prover as usize - 1];
        let answer = party.answer(question);
        if answer.as_ref().is_some_and(|bytes| bytes.len() > MOST_ANSWER) {
            party.drop_answer(prover);
            continue;
        }
        let post = answer.as_deref().map_or(Post::Pass, Post::Answer);
        match tried(MatchError::OutOfMemory, || game.post(prover, number, post)) {
            Ok(reply) => println!(
                "dispute {} round {} p{prover} {} {}: {}",
                number.dispute,
                number.round,
                if post == Post::Pass { "passes on" } else { "gives" },
                kind_of(asked),
                reply_in_words(reply)
            ),
            Err(MatchError::BadLog { .. }) => party.drop_answer(prover),
            Err(why) => return Err(why.into()),
        }
    }
    if let Some(Verdict::Accepted { prover }) = game.verdict() {
        println!("accepted: prover {prover}");
    }
    let text = tried(MatchError::OutOfMemory, || game.text())?.ok_or("the match isn't over")?;
    print!("the audit of the text: {}", tried(NoAnswer::OutOfMemory, || audit(&text))?);
    Ok(())
}
