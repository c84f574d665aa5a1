#!/usr/bin/env python3
"""What `refcli audit` has to answer to full texts that were changed, said a second time.

    checks/lines.py FILE        a line for each text that is the one in FILE with one line changed: what was done, the status and the answer
    checks/lines.py --stored    the rows of crates/test_refcli that audit, each with the answers that have to stand below it in `stdout`, which
                                `rt ci` compares

An answer is whole: `confirmed` with the verdict, the line and the cause of a refusal, or the fault of reading. It is what tools/coshalit gives,
which reads a text and plays its match, and is written from docs/TEXTS.md, docs/AUDIT.md, docs/GAME.md and docs/COMMITMENTS.md; no code is taken
from the crates. The text in FILE has to be that of a match. Each changed text differs from it; some are texts of other legal matches.
"""
from __future__ import annotations

import sys
from typing import Iterator, List, Optional, Tuple

sys.dont_write_bytecode = True
from checking import parser_of  # noqa: E402
import stored_rows  # noqa: E402
from coshalit import game, process  # noqa: E402

CONFIRMED, REFUSED = 0, 8


def answer_to(text: bytes) -> Tuple[int, bytes]:
    """The status and the bytes that `refcli audit` has to give of a text of at most 16 MiB."""
    answer = game.audited(text)
    return CONFIRMED if answer.startswith("confirmed ") else REFUSED, f"{answer}\n".encode()


# One line changed


def joined(lines: List[bytes]) -> bytes:
    return b"".join(line + b"\n" for line in lines)


OTHER_WORD = {b"given": b"faulty", b"faulty": b"given"}
ROOT_ANSWER, CLAIM_ANSWER = b"02" + b"00" * 32, b"01" + b"00" * 121


def moved_lines(text: bytes) -> Iterator[Tuple[str, bytes]]:
    """Texts that are cut, or with a line exchanged, left out or doubled, each with what was done."""
    lines = text.split(b"\n")[:-1]
    last = len(lines) - 1
    for at in range(len(lines)):
        number = at + 1
        if at < last:
            yield f"cut after line {number}", joined(lines[: at + 1])
            yield f"lines {number} and {number + 1} exchanged", joined([*lines[:at], lines[at + 1], lines[at], *lines[at + 2 :]])
        yield f"line {number} left out", joined(lines[:at] + lines[at + 1 :])
        yield f"line {number} twice", joined(lines[: at + 1] + lines[at:])


def changes(text: bytes) -> Iterator[Tuple[str, bytes]]:
    """Texts with one changed line, each with what was done. It raises `game.NoMatch`."""
    yield from moved_lines(text)
    played = game.played(text)
    head, lines = played.match.head, text.split(b"\n")[:-1]
    rounds = [(dispute.number, each) for dispute in played.match.disputes() for each in dispute.rounds]
    of_one_root = {(number, each.number) for number, each in rounds if head.fan == 2 and not each.is_step()}
    last = len(lines) - 1

    def with_line(at: int, line: bytes) -> bytes:
        return joined([*lines[:at], line, *lines[at + 1 :]])

    for at, move in enumerate(played.text.moves, 1):
        number, word = at + 1, move.word.encode()
        yield f"line {number} also before the verdict", joined([*lines[:last], lines[at], lines[last]])
        yield f"the verdict in the place of line {number}", joined([*lines[:at], lines[last]])
        start = b"move %d %d p%d " % move.question()
        if word in OTHER_WORD:
            yield f"line {number} {OTHER_WORD[word].decode()}", with_line(at, lines[at].replace(word, OTHER_WORD[word], 1))
        other = CLAIM_ANSWER if move.question()[:2] in of_one_root else ROOT_ANSWER
        yield f"line {number} with an answer of another kind", with_line(at, start + b"given " + other)
        rest = lines[at][len(start) :]
        for what, question in (
            ("dispute", (move.dispute + 1, move.round, move.prover)),
            ("round", (move.dispute, move.round + 1, move.prover)),
            ("prover", (move.dispute, move.round, move.prover % head.provers + 1)),
        ):
            yield f"line {number} of another {what}", with_line(at, b"move %d %d p%d " % question + rest)
    for verdict in b"none left", b"accept running output", b"collision 00 01":
        yield f"the verdict `{verdict.decode()}`", with_line(last, verdict)


def answers(text: bytes) -> Iterator[Tuple[str, bytes, Tuple[int, bytes]]]:
    """The changes of a text that are other texts, each with what was done and what has to be answered. It raises `game.NoMatch`."""
    for what, changed in changes(text):
        if changed != text:
            yield what, changed, answer_to(changed)


# Mutants: at places that are spread over the text a byte is changed, left out or doubled.

MUTANTS = 240
# What a byte is changed to, in turn, and never itself.
BYTES = b"0 a\n9p\x00G1\r"


def mutants(text: bytes) -> Iterator[bytes]:
    for k in range(MUTANTS):
        # The head and the verdict's line have more of them than their share.
        at = k if k < 90 else len(text) - 1 - (k - 90) if k < 120 else 7919 * (k - 119) % len(text)
        byte, turn = text[at : at + 1], k // 3
        other = next(BYTES[place % 10 : place % 10 + 1] for place in (turn, turn + 1) if BYTES[place % 10] != text[at])
        yield text[:at] + (other, b"", byte + byte)[k % 3] + text[at + 1 :]


# Stored answers


def wanted_of(row: stored_rows.Row) -> Optional[List[str]]:
    """The lines that have to be stored of a row that audits; None of another one."""
    if row.command == "audit":
        status, answer = answer_to(row.text)
        return [answer.decode().rstrip(), f"status {status}"]
    texts = {"each line changed": (text for _, text in moved_lines(row.text)), "mutants": mutants(row.text)}.get(row.command)
    return None if texts is None else [f"{status} {answer.decode().rstrip()}" for status, answer in map(answer_to, texts)]


def main() -> int:
    parser = parser_of(__doc__)
    which = parser.add_mutually_exclusive_group(required=True)
    which.add_argument("--stored", action="store_true")
    which.add_argument("file", metavar="FILE", nargs="?")
    asked = parser.parse_args()
    if asked.stored:
        for row in stored_rows.read()[0]:
            for number, line in enumerate(wanted_of(row) or (), 1):
                print(*([f"{row.name}: {row.command}"] if number == 1 else []), f"  {line}", sep="\n")
        return 0
    try:
        for what, _, (status, answer) in answers(process.bytes_of_file(asked.file, 1 << 28, "a text")):
            print(f"{what}: {status} {answer.decode()}", end="")
    except game.NoMatch as fault:
        process.stop(f"{asked.file} isn't the text of a match: {fault}")
    return 0


if __name__ == "__main__":
    process.end("lines.py", main)
