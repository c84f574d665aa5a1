package coshalit

// #include "coshalit.h"
import "C"

import "unsafe"

// Prover has the true answers of the run of a case. In a match with the case's version, bound and start root, a prover that posts what it
// gives, in time, is never out if nobody else posts in its name.
//
// Nothing is kept between two calls. Each makes a tree of all pages of the image, and all but StartRoot run the program from step 0 on.
// With the fan 2 that is up to 34 answers for the claim and one dispute. So for a long run fetch many roots at once by RootsAt, and send those
// that are asked for: the wire form of a root is the byte 2 and the root's 32 bytes.
type Prover struct {
	json []byte
}

// NewProver gives a prover of this case, a JSON text. Nothing is read of it yet.
func NewProver(json []byte) Prover {
	return Prover{append([]byte(nil), json...)}
}

// StartRoot is the root of the state in which the run starts: the Start of a match of the case. The error is a Refusal.
func (prover Prover) StartRoot() (Root, error) {
	place, length := bytesOf(prover.json)
	text, err := textOf(ofARefusal, func(room *C.uint8_t, size C.size_t) C.CoshalitAnswer {
		return C.coshalit_start_root(place, length, room, size)
	})
	var root Root
	copy(root[:], text)
	return root, err
}

// RootsAt gives the roots of the states after these many steps each, in the order in which the steps are given. All are reached by one run.
// The error is a Refusal: a step above the case's bound is NotAsked.
func (prover Prover) RootsAt(steps []uint64) ([]Root, error) {
	place, length := bytesOf(prover.json)
	var first *C.uint64_t
	if len(steps) > 0 {
		first = (*C.uint64_t)(unsafe.Pointer(&steps[0]))
	}
	text, err := textOf(RootBytes*len(steps)+ofARefusal, func(room *C.uint8_t, size C.size_t) C.CoshalitAnswer {
		return C.coshalit_roots_at(place, length, first, C.size_t(len(steps)), room, size)
	})
	if err != nil {
		return nil, err
	}
	roots := make([]Root, len(steps))
	for at := range roots {
		copy(roots[at][:], text[at*RootBytes:])
	}
	return roots, nil
}

// Answer gives the true answer to a question of a match of the case, as a wire form. It makes a tree of the image, and runs the program up
// to the step that is asked. It does so twice for a claim whose output has more than 3,974 bytes. The error is a Refusal: what no match of the
// case asks is NotAsked.
func (prover Prover) Answer(asked Question) ([]byte, error) {
	place, length := bytesOf(prover.json)
	return textOf(firstRoom, func(room *C.uint8_t, size C.size_t) C.CoshalitAnswer {
		return C.coshalit_answer(
			place, length, C.uint32_t(asked.Kind), C.uint64_t(asked.Low), C.uint64_t(asked.High), C.uint32_t(asked.Parts), room, size)
	})
}
