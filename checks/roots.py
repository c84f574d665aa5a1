#!/usr/bin/env python3
"""The state roots of a program, computed a second time, by tools/coshalit, from docs/MACHINE.md and docs/COMMITMENTS.md.

    checks/roots.py IMAGE BOUND [INPUT]

IMAGE and INPUT are hexadecimal, the image is flat. It prints what `refcli roots` prints of such a case in version 1: for i from 0 to
the bound, `i` and the root of the i-th state. Memory is hashed from scratch at each step, and no code is taken from the crates.
"""
import sys

sys.dont_write_bytecode = True
from checking import parser_of  # noqa: E402
from coshalit import images, machine, process  # noqa: E402
from coshalit.commitments import root_of  # noqa: E402


def roots(image, bound, given):
    memory, entry = images.load_flat(image)
    state = machine.start(memory, entry, given)
    for step in range(bound + 1):
        yield step, root_of(state)
        machine.step(state)


def main():
    parser = parser_of(__doc__)
    parser.add_argument("image", metavar="IMAGE", type=bytes.fromhex)
    parser.add_argument("bound", metavar="BOUND", type=process.number_from(0, machine.MODULUS - 1))
    parser.add_argument("input", metavar="INPUT", type=bytes.fromhex, nargs="?", default=b"")
    asked = parser.parse_args()
    for step, root in roots(asked.image, asked.bound, asked.input):
        print(step, root.hex())
    return 0


if __name__ == "__main__":
    process.end("roots.py", main)
