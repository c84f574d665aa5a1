package coshalit

import (
	"encoding/hex"
	"errors"
	"fmt"
	"os"
	"path/filepath"
	"reflect"
	"strings"
	"testing"
)

// A program that writes one byte, 2a or 2b, and exits, with one prover.
const template = `{"format":"flat","image":"1305%s029308100073000000130500009308d00573000000","input":"","bound":8,"patience":0,"provers":[{}]}`

var (
	caseOf2a = []byte(fmt.Sprintf(template, "a0"))
	caseOf2b = []byte(fmt.Sprintf(template, "b0"))
)

func example(t *testing.T, name string) []byte {
	t.Helper()
	data, err := os.ReadFile(filepath.Join("../../examples", name))
	if err != nil {
		t.Fatal(err)
	}
	return data
}

func digits(t *testing.T, text string) []byte {
	t.Helper()
	found, err := hex.DecodeString(text)
	if err != nil {
		t.Fatal(err)
	}
	return found
}

func root(t *testing.T, text string) (found Root) {
	t.Helper()
	copy(found[:], digits(t, text))
	return found
}

func wants[T any](t *testing.T, what string, found, wanted T) {
	t.Helper()
	if !reflect.DeepEqual(found, wanted) {
		t.Fatalf("%s: %v, and not %v", what, found, wanted)
	}
}

// The step of examples/embed: the root on which both sides agree, and the proof.
func step(t *testing.T) (Root, []byte) {
	words := strings.Fields(string(example(t, "embed/step.txt")))
	return root(t, words[1]), digits(t, words[2])
}

func TestAProofLeadsToTheNextRoot(t *testing.T) {
	agreed, proof := step(t)
	next, err := CheckStep(1, agreed, proof)
	wants(t, "error", err, nil)
	wants(t, "next", next, root(t, "330236e48c3fd209f9104ab59530c443822e5d5c75bcc09428515b731d25cde1"))
}

func TestAProofIsRefusedByTheFirstConditionThatFails(t *testing.T) {
	agreed, proof := step(t)
	_, err := CheckStep(2, agreed, proof)
	wants(t, "another version", err, error(WrongShape))
	_, err = CheckStep(1, agreed, proof[1:])
	wants(t, "a byte less", err, error(NoProof))
	_, err = CheckStep(1, agreed, nil)
	wants(t, "no bytes", err, error(NoProof))
	agreed[1] ^= 1
	_, err = CheckStep(1, agreed, proof)
	wants(t, "another root", err, error(NotOpen))
}

func TestAFullTextIsConfirmedOrRefusedAtItsLine(t *testing.T) {
	said, err := Audit(example(t, "liar_is_bisected/full_text.txt"))
	wants(t, "error", err, nil)
	wants(t, "text", said, "confirmed accept exited 0 output 2a\n")
	_, err = Audit(example(t, "changed_texts/a_false_proof.txt"))
	wants(t, "a false proof", err, error(Refusal{AuditRefused, "refused 12 3\n"}))
	_, err = Audit(nil)
	wants(t, "no bytes", err, error(Refusal{AuditRefused, "fault text 3\n"}))
}

func TestACaseIsRunAndListed(t *testing.T) {
	said, err := Run(caseOf2a)
	wants(t, "error", err, nil)
	wants(t, "text", said, "answer exited 0 output 2a\n")
	said, err = List(caseOf2a)
	wants(t, "error", err, nil)
	wants(t, "first line", strings.Split(said, "\n")[0], "addi x10, x0, 42")
	_, err = Run([]byte("{"))
	var why Refusal
	if !errors.As(err, &why) || why.Status != BadCase {
		t.Errorf("what is no case: %v", err)
	}
}

func TestATextLongerThanTheFirstRoomIsWhole(t *testing.T) {
	image := strings.Repeat("13000000", 2000)
	said, err := List([]byte(`{"format":"flat","image":"` + image + `","input":"","bound":8,"patience":0,"provers":[{}]}`))
	wants(t, "error", err, nil)
	wants(t, "lines", strings.Count(said, "\n"), 2000)
}

func TestAProverHasTheRootsOfItsRun(t *testing.T) {
	prover := NewProver(caseOf2a)
	start, err := prover.StartRoot()
	wants(t, "error", err, nil)
	wants(t, "start", start, root(t, "183959fe9e2293200e53fc93acb41f25f4341e8f6a99a6caa23193d901d2cd6d"))
	middle := root(t, "591d8c752c1eed7041874849627ea737243c9086008c2d13dc4c3e803a14d8f5")
	roots, err := prover.RootsAt([]uint64{4, 0, 4})
	wants(t, "error", err, nil)
	wants(t, "roots", roots, []Root{middle, start, middle})
	roots, err = prover.RootsAt(nil)
	wants(t, "error", err, nil)
	wants(t, "no roots", len(roots), 0)
	_, err = prover.RootsAt([]uint64{9})
	var why Refusal
	if !errors.As(err, &why) || why.Status != NotAsked {
		t.Errorf("a step above the bound: %v", err)
	}
}

func TestAClaimHasItsRoot(t *testing.T) {
	claim, err := NewProver(caseOf2a).Answer(Question{Prover: 1, Kind: Claim})
	wants(t, "error", err, nil)
	found, err := ClaimRoot(claim)
	wants(t, "error", err, nil)
	wants(t, "root", found, root(t, "078add20bc2c812fcaf74f520828c1a827c468f504d583b65992e27624179d46"))
	claim[len(claim)-1] ^= 1
	_, err = ClaimRoot(claim)
	wants(t, "another output", err, error(Unsound))
	_, err = ClaimRoot([]byte{2})
	wants(t, "no claim", err, error(NoClaim))
}

func TestTheLibraryHasTheVersionOfTheHeader(t *testing.T) {
	if Version()/10000 != 1 {
		t.Errorf("version %d", Version())
	}
}
