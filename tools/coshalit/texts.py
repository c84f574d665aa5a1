"""Full texts of `refcli judge --full`: the only reader of their grammar ('A full text' of docs/TEXTS.md)."""
from __future__ import annotations

import re
from dataclasses import dataclass
from typing import List, NamedTuple, Optional, Tuple, Union

from .answers import Answer, BadForm, read_answer
from .matches import NUMBER, NUMBERS, Head, OutOfLimits
from .process import shown

MAX_BYTES = 16_777_216
MOST_STRING = 129
HEAD = re.compile(f"refereed{NUMBERS} start ([0-9a-f]{{64}})")
MOVE = re.compile(f"move {NUMBER} {NUMBER} p{NUMBER} (?:(given|faulty) ([0-9a-f]+)|(spent))")
ACCEPT = re.compile(f"accept (?:running|(?:exited|trapped) {NUMBER}) output(?: ([0-9a-f]+))?")
COLLISION = re.compile("collision ([0-9a-f]+) ([0-9a-f]+)")


class NoText(Exception):
    """Bytes that are no full text: the line that `refcli audit` writes of them, and why, in words."""

    def __init__(self, answer: str, why: str) -> None:
        super().__init__(why)
        self.answer = answer


class Move(NamedTuple):
    """A settled answer: its question, its word, and the answer with its digits, if it isn't spent."""

    dispute: int
    round: int
    prover: int
    word: str
    digits: str
    answer: Optional[Answer]

    def question(self) -> Tuple[int, int, int]:
        return self.dispute, self.round, self.prover


@dataclass
class FullText:
    """A full text that is read. Line 1 is the head, and move k, from 0, stands in line k + 2."""

    head: Head
    start: bytes
    moves: List[Move]
    verdict: str


def is_small(digits: Optional[str]) -> bool:
    """Whether these are the digits of a number below 2^32."""
    return digits is None or (len(digits) <= 10 and int(digits) < 1 << 32)


def is_bytes(digits: Optional[str], most: int = MAX_BYTES) -> bool:
    return digits is None or (len(digits) % 2 == 0 and len(digits) <= 2 * most)


def read_head(line: str) -> Tuple[Head, bytes]:
    found = HEAD.fullmatch(line)
    if found is None:
        why = f"line 1 isn't the head of a full text: {shown(line)}"
        if line.startswith("match "):
            why = "it is a report; judge --full writes the full text"
        if line.startswith("task "):
            why = "it holds tasks: cut it at its lines `task T`"
        raise NoText("fault text 1", why)
    try:
        return Head.of(found.groups()[:5], found[6]), bytes.fromhex(found[7])
    except OutOfLimits:
        raise NoText("fault text 4 1", "line 1: a number is out of its limits") from None


def read_move(found: re.Match[str], provers: int, number: int) -> Move:
    dispute, round_, prover, word, digits, _ = found.groups()
    if not (is_small(dispute) and is_small(round_) and is_small(prover)):
        raise NoText(f"fault text 2 {number}", f"line {number}: a number is 2^32 or more")
    try:
        answer = None if digits is None else read_answer(bytes.fromhex(digits) if is_bytes(digits) else b"")
    except BadForm:
        raise NoText(f"fault text 2 {number}", f"line {number}: its digits are no wire form") from None
    if not 1 <= int(prover) <= provers:
        raise NoText(f"fault text 4 {number}", f"line {number}: there is no prover {prover}")
    return Move(int(dispute), int(round_), int(prover), word or "spent", digits or "", answer)


def read_later(line: str, provers: int, number: int) -> Union[Move, str]:
    """The move of a later line, or the verdict that it is."""
    found = MOVE.fullmatch(line)
    if found is not None:
        return read_move(found, provers, number)
    accepted = ACCEPT.fullmatch(line)
    if accepted is not None and is_small(accepted[1]) and is_bytes(accepted[2]):
        return line
    strings = COLLISION.fullmatch(line)
    if strings is not None and all(is_bytes(digits, MOST_STRING) for digits in strings.groups()):
        return line
    if line == "none left":
        return line
    raise NoText(f"fault text 2 {number}", f"line {number} is neither a move nor a verdict: {shown(line)}")


def read(content: bytes) -> FullText:
    """The full text of these bytes. It raises `NoText`."""
    if len(content) > MAX_BYTES:
        raise NoText("fault too long", f"it has more than {MAX_BYTES:,} bytes")
    *lines, tail = content.decode("latin-1").split("\n")
    if not lines:
        raise NoText("fault text 3", "it is cut off: it has no line feed" if tail else "it is empty")
    head, start = read_head(lines[0])
    moves: List[Move] = []
    verdict: Optional[str] = None
    for number, line in enumerate(lines[1:], 2):
        if verdict is not None:
            raise NoText(f"fault text 2 {number}", f"line {number}: it follows the verdict")
        found = read_later(line, head.provers, number)
        if isinstance(found, Move):
            moves.append(found)
        else:
            verdict = found
    if verdict is None:
        raise NoText("fault text 3", f"it is cut off: it ends before a verdict, after line {len(lines)}")
    if tail:
        raise NoText("fault text 3", f"line {len(lines) + 1}: it follows the verdict")
    return FullText(head, start, moves, verdict)
