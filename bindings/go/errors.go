package coshalit

// #include "coshalit.h"
import "C"

import (
	"fmt"
	"strings"
)

// StepRefused is why the proof of a step is refused.
type StepRefused uint32

const (
	// NotOpen: its parts don't open the root, or an opening doesn't open the root of its tree.
	NotOpen StepRefused = C.COSHALIT_NOT_OPEN
	// WrongShape: it is of another version, or an opening is missing, or is there and not called for.
	WrongShape StepRefused = C.COSHALIT_WRONG_SHAPE
	// NoProof: the bytes are the wire form of no proof of a step.
	NoProof StepRefused = C.COSHALIT_NO_PROOF
)

func (why StepRefused) Error() string {
	switch why {
	case NotOpen:
		return "the proof doesn't open the root"
	case WrongShape:
		return "the proof hasn't the shape of its step"
	case NoProof:
		return "the bytes are no proof of a step"
	}
	return fmt.Sprintf("ruling %d", uint32(why))
}

// ClaimRefused is why a claim has no root.
type ClaimRefused uint32

const (
	// Unsound: its output isn't that of its own state.
	Unsound ClaimRefused = 1
	// NoClaim: the bytes are the wire form of no claim.
	NoClaim ClaimRefused = 3
	// NoMemory: memory ran out.
	NoMemory ClaimRefused = C.COSHALIT_OUT_OF_MEMORY
)

func (why ClaimRefused) Error() string {
	switch why {
	case Unsound:
		return "the claim's output isn't that of its state"
	case NoClaim:
		return "the bytes are no claim"
	case NoMemory:
		return "out of memory"
	}
	return fmt.Sprintf("status %d", uint32(why))
}

// Status is an exit status of the program, or a status of a match. Take one that isn't listed for a refusal.
type Status uint32

const (
	// NotAsked: no match of the case asks this, or its run has no such step.
	NotAsked Status = C.COSHALIT_NOT_ASKED
	// BadCase: the bytes are no case, or one without a listing.
	BadCase Status = C.COSHALIT_BAD_CASE
	// BadImage: the image of the case can't be loaded.
	BadImage Status = C.COSHALIT_BAD_IMAGE
	// AuditRefused: the full text is refused, or can't be read.
	AuditRefused Status = C.COSHALIT_AUDIT_REFUSED
	// OutOfMemory: memory ran out.
	OutOfMemory Status = C.COSHALIT_OUT_OF_MEMORY
	// TooLong: more than 16,777,216 bytes were given.
	TooLong Status = C.COSHALIT_TOO_LONG
	// BadNumbers: a number of a match, or the stake, is beyond its limit.
	BadNumbers Status = C.COSHALIT_BAD_NUMBERS
	// BadLog: the bytes are no log.
	BadLog Status = C.COSHALIT_BAD_LOG
)

// Refusal is why a command, a prover or a match gives no answer.
type Refusal struct {
	Status Status
	// Text is what the program writes, with the newline at its end, such as `fault case 5 bound`; of a match it is empty.
	Text string
}

func (why Refusal) Error() string {
	switch {
	case why.Status == OutOfMemory:
		return "out of memory"
	case why.Status == BadNumbers:
		return "a number of the match is beyond its limit"
	case why.Text != "":
		return strings.TrimSuffix(why.Text, "\n")
	}
	return fmt.Sprintf("status %d", why.Status)
}

// LogCause is why bytes are no log.
type LogCause uint32

const (
	// CutOff: they end within an entry.
	CutOff LogCause = 1
	// NoProver: no prover has the number.
	NoProver LogCause = 2
	// NoAnswer: an answer's bytes are no wire form.
	NoAnswer LogCause = 3
)

// NoLog says from where on bytes are no log, and why.
type NoLog struct {
	// At is the byte at which the first entry begins that is none.
	At    uint64
	Cause LogCause
	// Rule is of NoAnswer: the number of the fault in the table of docs/COMMITMENTS.md ('Wire forms'). With another cause it is 0.
	Rule uint32
}

func (why NoLog) Error() string {
	switch why.Cause {
	case CutOff:
		return fmt.Sprintf("no log from byte %d on: it ends within an entry", why.At)
	case NoProver:
		return fmt.Sprintf("no log from byte %d on: no prover has the number", why.At)
	case NoAnswer:
		return fmt.Sprintf("no log from byte %d on: the answer's bytes are no wire form, fault %d", why.At, why.Rule)
	}
	return fmt.Sprintf("no log from byte %d on: cause %d", why.At, uint32(why.Cause))
}

// Unknown is the error of a match in which the library says something that this package doesn't know: it is of a later major version. The
// match is as it was.
type Unknown struct {
	What   string // "reply" or "kind"
	Number uint32
}

func (why Unknown) Error() string {
	return fmt.Sprintf("this package knows no %s %d", why.What, why.Number)
}
