"""Full texts, and random changes of them, for the scripts beside this file."""
from __future__ import annotations

import pathlib
import random
from typing import Iterator, Optional, Tuple

from checking import TOP
from transcripts import full_texts_of

DIGITS = b"0123456789abcdef"
# Longer texts are left out: a change of them takes long to read.
MOST_BYTES = 200_000


def full_texts(program: Optional[pathlib.Path] = None) -> Iterator[Tuple[str, bytes]]:
    """The stored full texts with their names; with a program those of each case of examples/ and guest/, by both digests, too."""
    for path in sorted(TOP.glob("examples/*/full_text.txt")):
        yield path.parent.name, path.read_bytes()
    for name, digest, _, text in full_texts_of(program) if program else ():
        if len(text) <= MOST_BYTES:
            yield f"{name}, {digest}", text


def changed(chance: random.Random, text: bytes) -> bytes:
    """The text with a digit changed, or with a byte or a line changed, left out or doubled."""
    kind = chance.randrange(4)
    if kind == 0:
        lines = text.splitlines(keepends=True)
        at = chance.randrange(len(lines))
        lines[at] = chance.choice([b"", lines[at] * 2, lines[at].replace(b"given", b"faulty"), lines[chance.randrange(len(lines))]])
        return b"".join(lines)
    places = [at for at, byte in enumerate(text) if byte in DIGITS] if kind < 3 else range(len(text))
    at = chance.choice(places)
    if kind < 3:
        return text[:at] + bytes([chance.choice(DIGITS)]) + text[at + 1 :]
    return text[:at] + chance.choice([b"", b"\0", b" ", b"\n", b"g", b"\xff", text[at : at + 1] * 2]) + text[at + 1 :]


def changes(chance: random.Random, text: bytes, count: int) -> Iterator[bytes]:
    """So many changes of a text, each of them another text."""
    while count > 0:
        content = changed(chance, text)
        if content != text:
            yield content
            count -= 1
