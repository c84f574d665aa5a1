package coshalit

import (
	"bytes"
	"fmt"
	"strings"
	"testing"
)

func numbers(t *testing.T, provers, patience uint32) Numbers {
	t.Helper()
	start, err := NewProver(caseOf2a).StartRoot()
	wants(t, "error", err, nil)
	return Numbers{Version: 1, Provers: provers, Fan: 2, Patience: patience, Bound: 8, Start: start}
}

func begun(t *testing.T, numbers Numbers) *Match {
	t.Helper()
	match, err := NewMatch(numbers)
	if err != nil {
		t.Fatal(err)
	}
	return match
}

// Answers each question by the run of its prover's case, the last prover that is asked first.
func playOn(t *testing.T, match *Match, cases ...[]byte) {
	t.Helper()
	for len(match.Questions()) > 0 {
		asked := match.Questions()[len(match.Questions())-1]
		answer, err := NewProver(cases[asked.Prover-1]).Answer(asked)
		wants(t, "error", err, nil)
		if _, err := match.Post(asked.Prover, asked.Dispute, asked.Round, answer); err != nil {
			t.Fatal(err)
		}
	}
}

func claimOf(t *testing.T, json []byte) []byte {
	t.Helper()
	claim, err := NewProver(json).Answer(Question{Prover: 1, Kind: Claim})
	wants(t, "error", err, nil)
	return claim
}

func TestAnExampleIsPlayedToItsOwnText(t *testing.T) {
	text := example(t, "liar_is_bisected/full_text.txt")
	lines := strings.Split(string(text), "\n")
	var given Numbers
	var start string
	_, err := fmt.Sscanf(lines[0], "refereed provers %d bound %d patience %d version %d fan %d digest sha256 start %s",
		&given.Provers, &given.Bound, &given.Patience, &given.Version, &given.Fan, &start)
	wants(t, "error", err, nil)
	given.Start = root(t, start)
	said := map[string][]byte{}
	for _, line := range lines[1:] {
		words := strings.Fields(line)
		if len(words) == 6 && words[0] == "move" {
			said[strings.Join(words[1:4], " ")] = digits(t, words[5])
		}
	}
	match := begun(t, given)
	for len(match.Questions()) > 0 {
		asked := match.Questions()[len(match.Questions())-1]
		answer := said[fmt.Sprintf("%d %d p%d", asked.Dispute, asked.Round, asked.Prover)]
		reply, err := match.Post(asked.Prover, asked.Dispute, asked.Round, answer)
		wants(t, "error", err, nil)
		wants(t, "reply", reply, Taken)
	}
	verdict, accepted := match.Verdict()
	wants(t, "verdict", verdict, Accepted)
	wants(t, "accepted", accepted, 1)
	found, err := match.Text()
	wants(t, "error", err, nil)
	wants(t, "text", string(found), string(text))
}

func TestTrueAnswersWin(t *testing.T) {
	for winner, cases := range map[uint32][][]byte{1: {caseOf2a, caseOf2b}, 2: {caseOf2b, caseOf2a}} {
		match := begun(t, numbers(t, 2, 0))
		playOn(t, match, cases...)
		verdict, accepted := match.Verdict()
		wants(t, "verdict", verdict, Accepted)
		wants(t, "accepted", accepted, winner)
		text, err := match.Text()
		wants(t, "error", err, nil)
		said, err := Audit(text)
		wants(t, "error", err, nil)
		wants(t, "audit", said, "confirmed accept exited 0 output 2a\n")
	}
}

func TestAStalePostChangesNothing(t *testing.T) {
	match := begun(t, numbers(t, 2, 0))
	before := match.Questions()
	reply, err := match.Post(1, 7, 1, append([]byte{2}, make([]byte, 32)...))
	wants(t, "error", err, nil)
	wants(t, "reply", reply, Stale)
	wants(t, "questions", match.Questions(), before)
}

func TestBytesThatAreNoAnswerAreNotKept(t *testing.T) {
	match := begun(t, numbers(t, 2, 0))
	_, err := match.Post(1, 0, 0, claimOf(t, caseOf2a))
	wants(t, "error", err, nil)
	log, asked := append([]byte(nil), match.Log()...), match.Questions()
	at := uint64(len(log))
	for answer, rule := range map[string]uint32{"": 1, "\x02abc": 1, "\x07": 2} {
		_, err := match.Post(2, 0, 0, []byte(answer))
		wants(t, "no answer", err, error(NoLog{at, NoAnswer, rule}))
	}
	_, err = match.Pass(3, 0, 0)
	wants(t, "no prover", err, error(NoLog{At: at, Cause: NoProver}))
	for _, prover := range []uint32{0, 3} {
		_, err = match.Post(prover, 0, 0, nil)
		wants(t, "no prover", err, error(NoLog{At: at, Cause: NoProver}))
	}
	wants(t, "log", match.Log(), log)
	wants(t, "questions", match.Questions(), asked)
}

func TestAPassBeyondThePatiencePutsOut(t *testing.T) {
	match := begun(t, numbers(t, 2, 1))
	_, err := match.Post(1, 0, 0, claimOf(t, caseOf2a))
	wants(t, "error", err, nil)
	for passes, wanted := range []Reply{Taken, Spent} {
		wants(t, "passes", match.Questions()[0].Passes, uint32(passes))
		reply, err := match.Pass(2, 0, 0)
		wants(t, "error", err, nil)
		wants(t, "reply", reply, wanted)
	}
	verdict, accepted := match.Verdict()
	wants(t, "verdict", verdict, Accepted)
	wants(t, "accepted", accepted, 1)
}

func TestAMatchThatWasNotBegunAcceptsNothing(t *testing.T) {
	verdict, accepted := new(Match).Verdict()
	wants(t, "verdict", verdict, Open)
	wants(t, "accepted", accepted, 0)
}

func TestWhatIsAppendedToALogIsNotOverwritten(t *testing.T) {
	match := begun(t, numbers(t, 2, 3))
	for pass := 0; pass < 3; pass++ {
		_, err := match.Pass(1, 0, 0)
		wants(t, "error", err, nil)
		longer := append(match.Log(), 7)
		_, err = match.Pass(2, 0, 0)
		wants(t, "error", err, nil)
		wants(t, "the byte behind", longer[len(longer)-1], 7)
	}
}

func TestNobodyIsLeftIfAllFallSilent(t *testing.T) {
	match := begun(t, numbers(t, 1, 0))
	text, err := match.Text()
	wants(t, "error", err, ErrOpen)
	wants(t, "text of an open match", text, nil)
	reply, err := match.Pass(1, 0, 0)
	wants(t, "error", err, nil)
	wants(t, "reply", reply, Spent)
	verdict, _ := match.Verdict()
	wants(t, "verdict", verdict, NoneLeft)
}

func TestAStoredLogIsTheSameMatch(t *testing.T) {
	match := begun(t, numbers(t, 2, 0))
	playOn(t, match, caseOf2a, caseOf2b)
	again, err := ResumeMatch(numbers(t, 2, 0), match.Log())
	wants(t, "error", err, nil)
	text, err := match.Text()
	wants(t, "error", err, nil)
	textAgain, err := again.Text()
	wants(t, "error", err, nil)
	if !bytes.Equal(text, textAgain) || len(text) == 0 {
		t.Errorf("%q and %q", text, textAgain)
	}
	_, err = ResumeMatch(numbers(t, 2, 0), match.Log()[:len(match.Log())-1])
	if why, isNoLog := err.(NoLog); !isNoLog || why.Cause != CutOff {
		t.Errorf("a log that is cut: %v", err)
	}
}

func TestNumbersBeyondTheirLimitsAreRefused(t *testing.T) {
	for name, wrong := range map[string]Numbers{"no prover": numbers(t, 0, 0), "seventeen": numbers(t, 17, 0), "patience": numbers(t, 2, 101)} {
		_, err := NewMatch(wrong)
		wants(t, name, err, error(Refusal{Status: BadNumbers}))
	}
}

// As the transcript of examples/stakes_of_two_liars says: two liars of one claim, and an honest prover 3.
func TestTheHonestProverHasTheStakesOfTwoLiars(t *testing.T) {
	match := begun(t, numbers(t, 3, 0))
	open, err := match.Balances(10)
	wants(t, "error", err, ErrOpen)
	wants(t, "while it is open", open, nil)
	playOn(t, match, caseOf2b, caseOf2b, caseOf2a)
	balances, err := match.Balances(10)
	wants(t, "error", err, nil)
	wants(t, "balances", balances, &Settlement{[]uint64{0, 0, 30}, 0})
	burned, err := match.Burned(10)
	wants(t, "error", err, nil)
	wants(t, "burned", burned, &Settlement{[]uint64{0, 0, 10}, 20})
	_, err = match.Balances(1_000_000_001)
	wants(t, "a large stake", err, error(Refusal{Status: BadNumbers}))
}
