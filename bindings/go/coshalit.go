// Package coshalit is the proved referee of Coshalit, over the C library coshalit_c, by cgo and pkg-config:
//
//   - CheckStep: the ruling on the proof of one step;
//   - Audit, Run, List: the program's commands on bytes in memory;
//   - Match: a match among parties of one's own, as a log of posts;
//   - Prover: the true answers of a case's own run;
//   - ClaimRoot: the root by which claims are compared.
//
// What is proved ends at the library. This package passes slices, and gives errors as types; include/coshalit.h says what each call
// promises. Functions and Provers may be used by several goroutines at the same time, a Match by one goroutine only.
//
// A call can't be stopped, and its memory can't be bounded from Go, as the package compiles heap.c in. So bound the cases and the texts
// that you give it. Call it in a process of its own, with a limit on its memory (RLIMIT_AS), and end that process if a call takes too long.
// Under such a limit a call may end in an OutOfMemory, or the runtime of Go may end the process.
//
// A call for which no room is known beforehand is made a second time if its answer has more than 4,096 bytes: Run and Prover.Answer.
package coshalit

/*
#cgo pkg-config: coshalit
#include "coshalit.h"
*/
import "C"

import "unsafe"

// RootBytes is how many bytes a root has.
const RootBytes = C.COSHALIT_ROOT_BYTES

// Root is the root of a state: it commits to memory, registers, input and output.
type Root [RootBytes]byte

// Version is that of the library that is linked: major * 10000 + minor * 100 + patch. This package is written for 10000 and those after it
// with the same major number.
func Version() uint32 {
	return uint32(C.coshalit_version())
}

// CheckStep gives the root to which the proof of one step leads, from a root on which both sides agree, by SHA-256. The proof is as it is
// sent, and the version that of the commitments, 1, 2 or 3. The error is a StepRefused, by the first condition that fails.
func CheckStep(version uint32, root Root, wire []byte) (Root, error) {
	var next Root
	rootPlace, rootLength := bytesOf(root[:])
	wirePlace, wireLength := bytesOf(wire)
	nextPlace, nextLength := bytesOf(next[:])
	ruling := C.coshalit_check_step(C.uint32_t(version), rootPlace, rootLength, wirePlace, wireLength, nextPlace, nextLength)
	if ruling != C.COSHALIT_LEADS {
		return Root{}, StepRefused(ruling)
	}
	return next, nil
}

// ClaimRoot gives the root of a claim, from its wire form, by which a match compares claims. The error is a ClaimRefused.
func ClaimRoot(wire []byte) (Root, error) {
	var root Root
	wirePlace, wireLength := bytesOf(wire)
	rootPlace, rootLength := bytesOf(root[:])
	if status := C.coshalit_claim_root(wirePlace, wireLength, rootPlace, rootLength); status != 0 {
		return Root{}, ClaimRefused(status)
	}
	return root, nil
}

// Audit audits a full text, as `judge --full` or Match.Text gives it: the line `confirmed VERDICT`. The error is a Refusal.
//
// It is confirmed that the text is one of a legal match with this verdict, and no more. So compare its first line: the root with that of
// your case's start, the version and the bound with the case's, and provers, patience and fan with those that you agreed on. Refuse
// another digest than sha256.
func Audit(text []byte) (string, error) {
	place, length := bytesOf(text)
	answer, err := textOf(len(text)+ofARefusal, func(room *C.uint8_t, size C.size_t) C.CoshalitAnswer {
		return C.coshalit_audit(place, length, room, size)
	})
	return string(answer), err
}

// Run runs the program of a case, a JSON text, up to the case's bound: the line `answer STATUS output BYTES`. The error is a Refusal. If
// the line has more than 4,096 bytes, the program is run a second time.
func Run(json []byte) (string, error) {
	place, length := bytesOf(json)
	answer, err := textOf(firstRoom, func(room *C.uint8_t, size C.size_t) C.CoshalitAnswer {
		return C.coshalit_run(place, length, room, size)
	})
	return string(answer), err
}

// List lists the image of a case, a JSON text, as assembly text: a line for each word. The error is a Refusal.
func List(json []byte) (string, error) {
	place, length := bytesOf(json)
	answer, err := textOf(3*len(json)+ofARefusal, func(room *C.uint8_t, size C.size_t) C.CoshalitAnswer {
		return C.coshalit_list(place, length, room, size)
	})
	return string(answer), err
}

// The place and the length of a slice as C takes them. The place of an empty one is nil.
func bytesOf(bytes []byte) (*C.uint8_t, C.size_t) {
	if len(bytes) == 0 {
		return nil, 0
	}
	return (*C.uint8_t)(unsafe.Pointer(&bytes[0])), C.size_t(len(bytes))
}

const (
	// How many bytes a text may have, where no length is known beforehand, before a call is made a second time for it.
	firstRoom = 4096
	// How many bytes include/coshalit.h adds to most rooms: a refusal has no more.
	ofARefusal = 64
)

// What a call answers: its status and its whole text. If the text is longer than the first room the call is made a second time.
func answerOf(room int, call func(*C.uint8_t, C.size_t) C.CoshalitAnswer) (C.uint32_t, []byte) {
	text := make([]byte, room)
	found := call(bytesOf(text))
	if int(found.length) > len(text) {
		text = make([]byte, found.length)
		found = call(bytesOf(text))
	}
	return found.status, append([]byte(nil), text[:found.length]...)
}

// The text of a command's answer, or the refusal that it is.
func textOf(room int, call func(*C.uint8_t, C.size_t) C.CoshalitAnswer) ([]byte, error) {
	status, text := answerOf(room, call)
	if status != C.COSHALIT_DONE {
		return nil, Refusal{Status: Status(status), Text: string(text)}
	}
	return text, nil
}
