#!/usr/bin/env python3
"""Coshalit from Python. A program that rules on steps and carries out commands, from standard input to standard output:

    main.py steps              lines VERSION ROOT PROOF, in hexadecimal: a line for each, such as `leads ROOT`
    main.py audit|run|list     as the commands of refcli, with their statuses

As refcli's, its status is 5 if standard input can't be read, and 6 if standard output can't be written. The module coshalit_c is in
bindings/python; COSHALIT_LIBRARY names the shared library.
"""
import os
import pathlib
import sys

sys.path.insert(0, str(pathlib.Path(__file__).resolve().parents[3] / "bindings/python"))
import coshalit_c  # noqa: E402

USAGE, READ_FAULT, WRITE_FAULT = 2, 5, 6
# One byte more than a command takes shows that there are too many.
MOST_BYTES = 16_777_217
COMMANDS = {"audit": coshalit_c.audit, "run": coshalit_c.run, "list": coshalit_c.listing}


def ruling_on(line):
    """The ruling on the step of a line, in words."""
    version, root, proof = [*line.split(" "), ""][:3]
    try:
        return f"leads {coshalit_c.check_step(int(version), bytes.fromhex(root), bytes.fromhex(proof)).hex()}"
    except coshalit_c.StepRefused as why:
        return str(why)


def answered(word, given):
    """The status and the text of a command."""
    try:
        return 0, COMMANDS[word](given)
    except coshalit_c.Refused as why:
        return why.status, why.text


def fail(status, why):
    print(f"embed: {why}", file=sys.stderr)
    return status


def main():
    word = sys.argv[1] if len(sys.argv) == 2 else ""
    if word != "steps" and word not in COMMANDS:
        return fail(USAGE, "steps|audit|run|list")
    try:
        given = sys.stdin.buffer.read() if word == "steps" else sys.stdin.buffer.read(MOST_BYTES)
    except OSError as why:
        return fail(READ_FAULT, why)
    try:
        status, text = (0, "".join(f"{ruling_on(line)}\n" for line in given.decode().splitlines())) if word == "steps" else answered(word, given)
    except ValueError as why:
        return fail(USAGE, f"a line is VERSION ROOT PROOF: {why}")
    try:
        sys.stdout.write(text)
        sys.stdout.flush()
    except OSError as why:
        # What is left is written nowhere.
        os.dup2(os.open(os.devnull, os.O_WRONLY), sys.stdout.fileno())
        return fail(WRITE_FAULT, why)
    return status


if __name__ == "__main__":
    sys.exit(main())
