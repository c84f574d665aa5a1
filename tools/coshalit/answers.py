"""Answers of provers as bytes ('Wire forms' of docs/COMMITMENTS.md)."""
from __future__ import annotations

from dataclasses import dataclass, field
from typing import List, Optional, Union

from .commitments import CHUNK, INPUT_LEVELS, MEMORY_LEVELS, REGISTER_LEVELS, Control, Digest, links, state_string, value_of

TOO_SHORT, BAD_TAG, BAD_STATUS, TRAILING, BAD_LENGTH = 1, 2, 3, 4, 5
CLAIM, ROOT, STEP_1, STEP_2, ROOTS, STEP_3 = 1, 2, 3, 4, 5, 6
# How many bytes each has without what may follow.
FIXED = {CLAIM: 122, ROOT: 33, STEP_1: 207, STEP_2: 116, ROOTS: 2, STEP_3: 152}
VERSIONS = {STEP_1: 1, STEP_2: 2, STEP_3: 3}
FETCHED, DATA, INPUT = 1, 2, 4
MOST_REGISTERS, MOST_ROOTS = 3, 15


class BadForm(Exception):
    """Bytes that are no answer, with the number of the first broken rule."""


class Source:
    """Bytes that are read from the first on. It raises `BadForm`."""

    def __init__(self, whole: bytes) -> None:
        self.whole, self.at = whole, 0

    def take(self, count: int) -> bytes:
        taken = self.whole[self.at : self.at + count]
        if len(taken) < count:
            raise BadForm(TOO_SHORT)
        self.at += count
        return taken

    def number(self, width: int) -> int:
        return value_of(self.take(width))

    def digests(self, count: int) -> List[bytes]:
        return [self.take(32) for _ in range(count)]

    def control(self) -> Control:
        return Control(self.number(4), self.number(1), self.number(4), self.number(8), self.take(32))


@dataclass
class Opening:
    """What a leaf holds, 32 bytes of a chunk or 4 of a register, and the siblings of its path."""

    content: bytes
    siblings: List[bytes]


@dataclass
class Claim:
    """What a prover says of the state at the bound."""

    memory: bytes
    registers: bytes
    control: Control
    output: bytes

    def is_sound(self, digest: Digest) -> bool:
        return self.control.length == len(self.output) and self.control.chain == links(digest, self.output)[1]

    def state_string(self, digest: Digest) -> bytes:
        return state_string(self.memory, self.registers, digest(self.control.string()))

    def words(self) -> str:
        """The claim as texts have it."""
        return f"{self.control.words()} output{' ' + self.output.hex() if self.output else ''}"


@dataclass
class Roots:
    """The roots for a round: one, or a list."""

    roots: List[bytes]
    is_list: bool


@dataclass
class Proof:
    """The proof of a step. In version 1 `shown` has all 32 registers, else `registers` is their root and `opened` their openings."""

    version: int
    memory: bytes
    control: Control
    input_length: int = 0
    input_root: bytes = b""
    shown: List[int] = field(default_factory=list)
    registers: bytes = b""
    opened: List[Opening] = field(default_factory=list)
    fetched: Optional[Opening] = None
    data: Optional[Opening] = None
    input: Optional[Opening] = None


Answer = Union[Claim, Roots, Proof]


def check_status(control: Control) -> None:
    if control.status > 2 or (control.status == 0 and control.code != 0):
        raise BadForm(BAD_STATUS)


def read_claim(source: Source) -> Claim:
    memory, registers, control = source.take(32), source.take(32), source.control()
    check_status(control)
    length = source.number(8)
    if length >= 1 << 32:
        raise BadForm(BAD_LENGTH)
    return Claim(memory, registers, control, source.take(length))


def read_roots(source: Source) -> Roots:
    count = source.number(1)
    if not 1 <= count <= MOST_ROOTS:
        raise BadForm(BAD_TAG)
    return Roots(source.digests(count), True)


def read_proof(source: Source, version: int) -> Proof:
    memory, input_length, input_root, shown, registers = source.take(32), 0, b"", [], b""
    if version == 3:
        input_length, input_root = source.number(4), source.take(32)
    if version == 1:
        shown = [0] + [source.number(4) for _ in range(31)]
    else:
        registers = source.take(32)
    proof = Proof(version, memory, source.control(), input_length, input_root, shown, registers)
    flags, count = source.number(1), 0 if version == 1 else source.number(1)
    check_status(proof.control)
    if flags > (7 if version == 3 else 3) or count > MOST_REGISTERS:
        raise BadForm(BAD_TAG)

    def opening(width: int, levels: int) -> Opening:
        return Opening(source.take(width), source.digests(levels))

    proof.fetched = opening(CHUNK, MEMORY_LEVELS) if flags & FETCHED else None
    proof.opened = [opening(4, REGISTER_LEVELS) for _ in range(count)]
    proof.data = opening(CHUNK, MEMORY_LEVELS) if flags & DATA else None
    proof.input = opening(CHUNK, INPUT_LEVELS) if flags & INPUT else None
    return proof


def read_answer(answer: bytes) -> Answer:
    """The answer of these bytes. It raises `BadForm`."""
    if not answer:
        raise BadForm(TOO_SHORT)
    kind = answer[0]
    if kind not in FIXED:
        raise BadForm(BAD_TAG)
    if len(answer) < FIXED[kind]:
        raise BadForm(TOO_SHORT)
    source = Source(answer)
    source.take(1)
    found: Answer
    if kind == CLAIM:
        found = read_claim(source)
    elif kind == ROOT:
        found = Roots([source.take(32)], False)
    elif kind == ROOTS:
        found = read_roots(source)
    else:
        found = read_proof(source, VERSIONS[kind])
    if source.at < len(answer):
        raise BadForm(TRAILING)
    return found
