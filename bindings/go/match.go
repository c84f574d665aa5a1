package coshalit

// #include "coshalit.h"
import "C"

import (
	"encoding/binary"
	"errors"
	"fmt"
	"math"
	"unsafe"
)

// A match has at most so many provers, and so many open questions.
const mostProvers = 16

// Numbers are those by which a match is played. The digest is SHA-256. Version, Bound and Start are those of the case that the parties
// agreed on: with others nothing is refused, and each prover that answers by the case may lose.
type Numbers struct {
	Version  uint32 // of the commitments, 1 to 3
	Provers  uint32 // 1 to 16
	Fan      uint32 // into how many parts a round cuts its interval at most, 2 to 16
	Patience uint32 // how many passes a question allows, 0 to 100
	Bound    uint64 // how many steps the run has, 1 to 4,294,967,295
	Start    Root   // the root of the state at step 0: Prover.StartRoot
}

// Kind is what is asked for.
type Kind uint32

const (
	// Claim: the state at the bound, with its status and its output.
	Claim Kind = 1
	// OneRoot: the root of the state after Low steps.
	OneRoot Kind = 2
	// Proof: the proof of the step that follows Low steps, in any version of the commitments.
	Proof Kind = 3
	// Roots: the roots at the cuts of the interval from Low to High into Parts parts.
	Roots Kind = 5
)

func (kind Kind) isKnown() bool {
	return kind == Claim || kind == OneRoot || kind == Proof || kind == Roots
}

func (kind Kind) String() string {
	switch kind {
	case Claim:
		return "claim"
	case OneRoot:
		return "root"
	case Proof:
		return "proof"
	case Roots:
		return "roots"
	}
	return fmt.Sprintf("kind %d", uint32(kind))
}

// Question is an open question of a match.
type Question struct {
	Prover         uint32 // who is asked, from 1
	Dispute, Round uint32 // the question's number; that of a claim is 0 and 0
	Kind           Kind
	Parts          uint32
	Passes         uint32 // how often the prover has passed on it
	Low, High      uint64
}

// Reply is what came of a post.
type Reply uint32

const (
	// Taken: the answer or the pass counts, also for a proof that will be refuted.
	Taken Reply = 1
	// Faulty: the answer is of another kind than asked, a list of another length, or an unsound claim. Its prover is out: by a claim at
	// once, in a dispute as soon as the other side of the round is settled.
	Faulty Reply = 2
	// Spent: it is a pass more than the patience allows. Its prover is out, as by Faulty.
	Spent Reply = 3
	// Stale: it names no open question of its prover, and changes nothing.
	Stale Reply = 4
)

func (reply Reply) String() string {
	switch reply {
	case Taken:
		return "taken"
	case Faulty:
		return "faulty"
	case Spent:
		return "spent"
	case Stale:
		return "stale"
	}
	return fmt.Sprintf("reply %d", uint32(reply))
}

// Verdict is how a match stands. Its numbers are this package's own, so that the zero value accepts nothing.
type Verdict uint32

const (
	// Open: a question is open.
	Open Verdict = iota
	// Accepted: a claim is accepted.
	Accepted
	// NoneLeft: every prover is out.
	NoneLeft
	// Collision: two different strings with one digest were shown.
	Collision
)

func (verdict Verdict) String() string {
	switch verdict {
	case Open:
		return "open"
	case Accepted:
		return "accepted"
	case NoneLeft:
		return "none left"
	case Collision:
		return "collision"
	}
	return fmt.Sprintf("verdict %d", uint32(verdict))
}

// ErrOpen is the error of what only a match that is over has.
var ErrOpen = errors.New("the match isn't over: a question is open")

// Settlement is what becomes of the stakes.
type Settlement struct {
	Balances []uint64 // what each prover has, in the order of the provers
	Pool     uint64   // what is in the pool, or is burned
}

// Match is a match: its numbers, its log, and what it has come to.
//
// The log is what one stores, orders, signs and compares: who has the same numbers and the same log has the same match. It grows by Post
// and Pass only. Who may call these with a prover's number can lose that prover's match: authenticate senders. The match is played anew at
// each call: docs/OPEN_MATCH.md says what that costs, and what a host has to do.
//
// A Match belongs to one goroutine, and isn't to be copied: two copies would write over each other's log. `go vet` finds copies. Pass the
// pointer, or resume a second match with the log.
type Match struct {
	_         notCopied
	numbers   C.CoshalitNumbers
	log       []byte
	verdict   Verdict
	found     C.CoshalitMatch
	questions []Question
}

// `go vet` refuses copies of what has these two methods.
type notCopied struct{}

func (*notCopied) Lock()   {}
func (*notCopied) Unlock() {}

// NewMatch begins a match that nobody has posted in yet. The error is a Refusal: a number is beyond its limit, or memory ran out.
func NewMatch(numbers Numbers) (*Match, error) {
	return ResumeMatch(numbers, nil)
}

// ResumeMatch gives the match after a log that was stored. The error is as NewMatch's, or a NoLog. The log up to At is one. If At is in the
// entry that was written last, a crash has cut that: cut the stored log there too, and resume with the rest.
func ResumeMatch(numbers Numbers, log []byte) (*Match, error) {
	match := &Match{}
	match.numbers = C.CoshalitNumbers{
		version: C.uint32_t(numbers.Version), provers: C.uint32_t(numbers.Provers), fan: C.uint32_t(numbers.Fan),
		patience: C.uint32_t(numbers.Patience), bound: C.uint64_t(numbers.Bound),
	}
	for at, byte := range numbers.Start {
		match.numbers.start[at] = C.uint8_t(byte)
	}
	if err := match.play(append([]byte(nil), log...)); err != nil {
		return nil, err
	}
	return match, nil
}

// Post appends the bytes that a prover sends as its answer to a question, and plays on. The prover is the one that sent them: never take
// its number from what was sent. Dispute and round are those that the sender names under its signature, or those of the question that you
// sent it. Never take those that are open now: a late answer to the question before would become an answer to this one.
//
// The error is a NoLog if no prover has the number, or if the bytes are no wire form, as empty ones are: they are no answer and no pass. It
// is a Refusal if memory ran out, and then the same post may be tried again. After an error the match is as it was.
func (match *Match) Post(prover, dispute, round uint32, answer []byte) (Reply, error) {
	if len(answer) == 0 {
		return 0, match.refused(prover, 1)
	}
	return match.append(prover, dispute, round, answer)
}

// Pass appends a pass of a prover that is late: one for each full period without an answer. How long a period is you choose; the match
// counts passes, and not time. A prover is out by one pass more than the patience. The error is as of Post.
func (match *Match) Pass(prover, dispute, round uint32) (Reply, error) {
	return match.append(prover, dispute, round, nil)
}

// Questions are the open ones, in the order of their provers; none if the match is over. Each post makes new ones: what is returned may be
// kept, and isn't to be changed.
func (match *Match) Questions() []Question {
	return match.questions
}

// Verdict is how the match stands, and the number of the prover whose claim is accepted, or 0. The status and the output that are accepted
// are those of this prover's claim in the log, and are in the last line of Text.
func (match *Match) Verdict() (Verdict, uint32) {
	return match.verdict, uint32(match.found.accepted)
}

// Text is the full text of a match that is over, which anybody can audit. The error is ErrOpen or a Refusal.
func (match *Match) Text() ([]byte, error) {
	log, length := bytesOf(match.log)
	status, text := answerOf(4*len(match.log)+1024, func(room *C.uint8_t, size C.size_t) C.CoshalitAnswer {
		return C.coshalit_match_text(&match.numbers, log, length, room, size)
	})
	if err := isOver(status); err != nil {
		return nil, err
	}
	return text, nil
}

// Balances says what the provers of a match that is over have, if each put down this stake: one that is lost in a dispute goes to the other
// side, or to the pool. The error is ErrOpen or a Refusal.
func (match *Match) Balances(stake uint64) (*Settlement, error) {
	return match.settled(func(log *C.uint8_t, length C.size_t, balances, pool *C.uint64_t) C.uint32_t {
		return C.coshalit_match_balances(&match.numbers, C.uint64_t(stake), log, length, balances, mostProvers, pool)
	})
}

// Burned is as Balances, by the settlement that burns each stake that is lost.
func (match *Match) Burned(stake uint64) (*Settlement, error) {
	return match.settled(func(log *C.uint8_t, length C.size_t, balances, pool *C.uint64_t) C.uint32_t {
		return C.coshalit_match_burned(&match.numbers, C.uint64_t(stake), log, length, balances, mostProvers, pool)
	})
}

// Log is the log: store it, and resume the match with it. It isn't to be changed.
func (match *Match) Log() []byte {
	return match.log[:len(match.log):len(match.log)]
}

func (match *Match) settled(call func(*C.uint8_t, C.size_t, *C.uint64_t, *C.uint64_t) C.uint32_t) (*Settlement, error) {
	var balances [mostProvers]uint64
	var pool uint64
	log, length := bytesOf(match.log)
	status := call(log, length, (*C.uint64_t)(unsafe.Pointer(&balances)), (*C.uint64_t)(unsafe.Pointer(&pool)))
	if err := isOver(status); err != nil {
		return nil, err
	}
	return &Settlement{Balances: append([]uint64(nil), balances[:match.numbers.provers]...), Pool: pool}, nil
}

// What a status says of a match. The error is a Refusal: it is the status of none.
func verdictOf(status C.uint32_t) (Verdict, error) {
	switch status {
	case C.COSHALIT_STILL_OPEN:
		return Open, nil
	case C.COSHALIT_ACCEPTED:
		return Accepted, nil
	case C.COSHALIT_NONE_LEFT:
		return NoneLeft, nil
	case C.COSHALIT_COLLISION:
		return Collision, nil
	}
	return Open, Refusal{Status: Status(status)}
}

// Whether a call with this status found the match at its end: ErrOpen if not, or the Refusal that the status is.
func isOver(status C.uint32_t) error {
	verdict, err := verdictOf(status)
	if err == nil && verdict == Open {
		return ErrOpen
	}
	return err
}

// Why bytes that no entry can have are no answer, as the library says of others: the prover's number is looked at first.
func (match *Match) refused(prover, rule uint32) NoLog {
	at := uint64(len(match.log))
	if prover < 1 || prover > uint32(match.numbers.provers) {
		return NoLog{At: at, Cause: NoProver}
	}
	return NoLog{At: at, Cause: NoAnswer, Rule: rule}
}

// Appends an entry, if the log with it is one.
func (match *Match) append(prover, dispute, round uint32, answer []byte) (Reply, error) {
	if uint64(len(answer)) > math.MaxUint32 {
		return 0, match.refused(prover, 4)
	}
	log := match.log
	for _, word := range []uint32{prover, dispute, round, uint32(len(answer))} {
		log = binary.LittleEndian.AppendUint32(log, word)
	}
	log = append(log, answer...)
	if err := match.play(log); err != nil {
		return 0, err
	}
	return Reply(match.found.reply), nil
}

// Finds what the match has come to after this log, and takes the log. After an error the match is as it was.
func (match *Match) play(log []byte) error {
	var found C.CoshalitMatch
	var asked [mostProvers]C.CoshalitQuestion
	place, length := bytesOf(log)
	status := C.coshalit_match(&match.numbers, place, length, &found, &asked[0], mostProvers)
	if Status(status) == BadLog {
		return NoLog{At: uint64(found.at), Cause: LogCause(found.cause), Rule: uint32(found.rule)}
	}
	verdict, err := verdictOf(status)
	if err != nil {
		return err
	}
	if len(log) > 0 && (found.reply < C.COSHALIT_TAKEN || found.reply > C.COSHALIT_STALE) {
		return Unknown{"reply", uint32(found.reply)}
	}
	questions := make([]Question, found.asked)
	for at := range questions {
		one := asked[at]
		questions[at] = Question{
			Prover: uint32(one.prover), Dispute: uint32(one.dispute), Round: uint32(one.round), Kind: Kind(one.kind),
			Parts: uint32(one.parts), Passes: uint32(one.passes), Low: uint64(one.low), High: uint64(one.high),
		}
		if !questions[at].Kind.isKnown() {
			return Unknown{"kind", uint32(one.kind)}
		}
	}
	match.log, match.verdict, match.found, match.questions = log, verdict, found, questions
	return nil
}
