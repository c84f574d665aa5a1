"""The rows of crates/test_refcli with the answers that it has stored, for checks/ and for the tests of tools/.

How a row is written is said in the first lines of `stdin` there; it is read a second time here.
"""
from __future__ import annotations

import itertools
import pathlib
import re
from typing import Dict, List, NamedTuple, Tuple

FOLDER = pathlib.Path(__file__).resolve().parent.parent / "crates/test_refcli"


class Row(NamedTuple):
    """A row; its name is empty if it has none. The answer is by lines, the last one of a call of the program is its status."""

    name: str
    command: str
    text: bytes
    answer: List[str]


class Table:
    """What rows take texts from."""

    def __init__(self) -> None:
        self.base = ""
        self.named: Dict[str, str] = {}

    def expanded(self, short: str) -> str:
        """The text with each `<NAME>` and each `<COUNT*PIECE>` written out."""
        inserts = [found.partition("*") for found in re.findall("<([^>]*)>", short)]
        pieces = iter([piece * int(first) if star else self.named[first] for first, star, piece in inserts])
        return re.sub("<[^>]*>", lambda _: next(pieces), short)

    def edited(self, text: str, edits: str) -> str:
        for edit in edits.split(" and "):
            old, new = map(self.expanded, edit.split(" => ", 1))
            if old not in text:
                raise ValueError(f"there is no {old!r} for the edit `{edit}`")
            text = text.replace(old, new)
        return text

    def written(self, words: str) -> str:
        if words == "nothing":
            return ""
        if words.startswith("with "):
            return self.edited(self.base, words[len("with ") :])
        if words.startswith("same "):
            name, _, edits = words[len("same ") :].partition(" with ")
            return self.edited(self.named[name], edits) if edits else self.named[name]
        return self.expanded(words)

    def take(self, name: str, words: str) -> str:
        """The text that words write, which has the name from here on."""
        text = self.written(words)
        if name in self.named:
            raise ValueError(f"two texts have the name {name}")
        if name:
            self.named[name] = text
        return text


def read() -> Tuple[List[Row], List[str]]:
    """The rows, and the stored lines after them. It raises `ValueError` or `KeyError` if `stdout` hasn't the rows of `stdin`, or one is none."""
    stored = (FOLDER / "stdout").read_text().splitlines()
    table, rows, at = Table(), [], 0
    for number, line in enumerate((FOLDER / "stdin").read_text().splitlines(), 1):
        if stored[at : at + 1] != [line]:
            raise ValueError(f"line {number} of stdin, {line[:80]!r}, doesn't stand in line {at + 1} of stdout")
        answer = [each[2:] for each in itertools.takewhile(lambda each: each.startswith("  "), stored[at + 1 :])]
        at += 1 + len(answer)
        kind, _, words = line.partition(" ")
        if kind == "base":
            table.base = table.written(words)
        elif kind == "text":
            table.take(*words.split(" ", 1))
        elif line and not line.startswith("#"):
            call, words = line.split(" < ", 1)
            name, command = call.split(": ", 1) if ": " in call else ("", call)
            rows.append(Row(name, command, table.take(name, words).replace("|", "\n").encode(), answer))
    return rows, stored[at:]
