// Coshalit from Go. A program that rules on steps and carries out commands, from standard input to standard output:
//
//	embed steps              lines VERSION ROOT PROOF, in hexadecimal: a line for each, such as `leads ROOT`
//	embed audit|run|list     as the commands of refcli, with their statuses
//
// As refcli's, its status is 5 if standard input can't be read, and 6 if standard output can't be written.
package main

import (
	"encoding/hex"
	"errors"
	"fmt"
	"io"
	"os"
	"os/signal"
	"strconv"
	"strings"
	"syscall"

	"coshalit.example/coshalit"
)

var rulings = map[coshalit.StepRefused]string{
	coshalit.NotOpen: "not open", coshalit.WrongShape: "wrong shape", coshalit.NoProof: "no proof",
}

// The ruling on the step of a line, in words.
func rulingOn(line string) (string, error) {
	words := append(strings.Split(line, " "), "", "")
	version, err := strconv.ParseUint(words[0], 10, 32)
	if err != nil {
		return "", err
	}
	digits, err := hex.DecodeString(words[1])
	if err != nil {
		return "", err
	}
	proof, err := hex.DecodeString(words[2])
	if err != nil {
		return "", err
	}
	var root coshalit.Root
	if len(digits) != len(root) {
		return "wrong length", nil
	}
	copy(root[:], digits)
	next, err := coshalit.CheckStep(uint32(version), root, proof)
	var why coshalit.StepRefused
	if errors.As(err, &why) {
		return rulings[why], nil
	}
	return "leads " + hex.EncodeToString(next[:]), err
}

const (
	usage      = 2
	readFault  = 5
	writeFault = 6
	// One byte more than a command takes shows that there are too many.
	mostBytes = 16777217
)

func fail(status int, why ...any) {
	fmt.Fprintln(os.Stderr, append([]any{"embed:"}, why...)...)
	os.Exit(status)
}

func write(text []byte) {
	if _, err := os.Stdout.Write(text); err != nil {
		fail(writeFault, err)
	}
}

func main() {
	commands := map[string]func([]byte) (string, error){"audit": coshalit.Audit, "run": coshalit.Run, "list": coshalit.List}
	if len(os.Args) != 2 || (os.Args[1] != "steps" && commands[os.Args[1]] == nil) {
		fail(usage, "steps|audit|run|list")
	}
	// A reader that has gone makes a write fail, and doesn't end the program.
	signal.Ignore(syscall.SIGPIPE)
	command := commands[os.Args[1]]
	var source io.Reader = os.Stdin
	if command != nil {
		source = io.LimitReader(os.Stdin, mostBytes)
	}
	input, err := io.ReadAll(source)
	if err != nil {
		fail(readFault, err)
	}
	if command != nil {
		text, err := command(input)
		var why coshalit.Refusal
		if errors.As(err, &why) {
			text = why.Text
		}
		write([]byte(text))
		os.Exit(int(why.Status))
	}
	if len(input) == 0 {
		return
	}
	for _, line := range strings.Split(strings.TrimSuffix(string(input), "\n"), "\n") {
		ruling, err := rulingOn(line)
		if err != nil {
			fail(usage, "a line is VERSION ROOT PROOF:", err)
		}
		write([]byte(ruling + "\n"))
	}
}
