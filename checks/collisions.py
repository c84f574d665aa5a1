#!/usr/bin/env python3
"""Finds two collisions of the digest of eight bits with SHA-256 alone, from docs/COMMITMENTS.md.

    checks/collisions.py    writes the values of x5, the two strings of each collision behind their digest, the last line of the match's
                            full text, and its audit with its status: lines of crates/test_refcli/stdout, which `rt ci` compares

The program is JALR x0, 0(x5). The first is the least pair of multiples of 4 up to 1,024 whose claims after the step have one root; the
second is the first multiple of 4 whose state before the step has the root of the honest one, and whose state after it another root than
the honest one. No code is taken from the crates.
"""
import sys

sys.dont_write_bytecode = True
from checking import no_arguments  # noqa: E402
from coshalit import commitments, images, process  # noqa: E402
from coshalit.commitments import weak8  # noqa: E402

IMAGE = bytes.fromhex("67800200")


MEMORY = commitments.memory_root(weak8, images.load_flat(IMAGE)[0])


def registers_string(x5):
    return commitments.registers_string(x5 if register == 5 else 0 for register in range(32))


def state_string(x5, pc):
    # Running, with no code and no output, whose chain is zeros.
    control = commitments.Control(pc, 0, 0, 0, bytes(32))
    return commitments.state_string(MEMORY, weak8(registers_string(x5)), weak8(control.string()))


def root(x5, pc):
    return weak8(state_string(x5, pc))


LIARS = range(0, 1025, 4)


def least_pair():
    return next((a, b) for a in LIARS for b in LIARS if a < b and root(a, a) == root(b, b))


def proved_twice():
    return next(v for v in range(4, 262_145, 4) if root(v, images.FLAT_START) == root(0, images.FLAT_START) and root(v, v) != root(0, 0))


def lines_of_match(first, second):
    """The lines of two strings of one digest, and of the match that ends with them."""
    if first == second or weak8(first) != weak8(second):
        process.stop("no two strings of one digest")
    for string in first, second:
        yield f"{weak8(string)[0]:02x} is the digest of {string.hex()}"
    collision = f"collision {first.hex()} {second.hex()}"
    yield from (collision, f"0 confirmed {collision}")


def lines():
    first, second = least_pair()
    yield f"{len(LIARS)} claims, the least two of one root: {first} {second}"
    yield from lines_of_match(state_string(first, first), state_string(second, second))
    value = proved_twice()
    yield f"the first step that both prove: 0 {value}"
    yield from lines_of_match(registers_string(0), registers_string(value))


def main():
    no_arguments(__doc__)
    for line in lines():
        print(line)
    return 0


if __name__ == "__main__":
    process.end("collisions.py", main)
