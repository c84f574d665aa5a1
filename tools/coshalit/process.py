"""How the tools read, write and end: one line on standard error and status 1 if something is wrong, and never a traceback."""
from __future__ import annotations

import argparse
import os
import re
import sys
import time
from typing import Callable, NoReturn, Optional

SHOWN = 60
SECONDS = 5


class Failure(Exception):
    """Why a tool gives up, in one line."""


def stop(why: str) -> NoReturn:
    raise Failure(why)


def shown(text: str, most: int = SHOWN) -> str:
    """The beginning of a text of others, on one line and without what a terminal would take for a command."""
    return "".join(character if character.isprintable() or character == "\t" else "?" for character in text[:most]) + (".." if len(text) > most else "")


def why_not(fault: OSError) -> str:
    return fault.strerror or str(fault)


def bytes_of_file(path: str, most: int, what: str) -> bytes:
    """The bytes of a file, at most so many."""
    try:
        with open(path, "rb") as file:
            content = file.read(most + 1)
    except (OSError, ValueError) as fault:
        stop(f"{shown(path, 200)}: {why_not(fault) if isinstance(fault, OSError) else fault}")
    if len(content) > most:
        stop(f"{shown(path, 200)} has more than {most:,} bytes, the most that {what} may have")
    return content


def bytes_given(most: int) -> bytes:
    """The bytes of standard input, at most so many."""
    if sys.stdin is None:
        stop("standard input is closed")
    try:
        content = sys.stdin.buffer.read(most + 1)
    except OSError as fault:
        stop(f"standard input can't be read: {why_not(fault)}")
    if len(content) > most:
        stop(f"standard input has more than {most:,} bytes")
    return content


def number_in(text: str, least: int, most: int) -> Optional[int]:
    """The number of a word of the arguments, or None if it isn't within these limits."""
    if not re.fullmatch("[0-9]{1,20}", text) or not least <= int(text) <= most:
        return None
    return int(text)


def number_from(least: int, most: int) -> Callable[[str], int]:
    """The type of an argument that is a number within these limits."""

    def number(text: str) -> int:
        found = number_in(text, least, most)
        if found is None:
            raise argparse.ArgumentTypeError(f"{shown(text)!r} isn't a number from {least:,} to {most:,}")
        return found

    return number


class Progress:
    """A line on standard error every few seconds, if that is a terminal: in a file or a pipe nobody waits for it."""

    def __init__(self, name: str) -> None:
        self.name = name
        self.is_watched = sys.stderr is not None and sys.stderr.isatty()
        self.began = self.last = time.monotonic()

    def tell(self, words: str) -> None:
        """Writes these words and how long it has taken, if the last line is long enough ago."""
        now = time.monotonic()
        if self.is_watched and now - self.last >= SECONDS:
            self.last = now
            print(f"{self.name}: {words}; {now - self.began:,.0f} s", file=sys.stderr)


def let_go_of_output() -> None:
    """The interpreter writes what is left at its end, and says so if it can't: it has to be able to."""
    os.dup2(os.open(os.devnull, os.O_WRONLY), 1)


def end(name: str, main: Callable[[], int]) -> NoReturn:
    """Runs `main` and ends with its status.

    The status is 1 if it gives up, if memory runs out, or if standard output is closed, full, or read by nobody any more, of which nothing is
    said; and 130, with nothing said, if it is interrupted.
    """
    if sys.stdout is None:
        sys.exit(f"{name}: standard output is closed")
    why: Optional[str] = None
    status = 1
    try:
        try:
            status = main()
        finally:
            sys.stdout.flush()
    except Failure as fault:
        why = str(fault)
    except BrokenPipeError:
        let_go_of_output()
    except OSError as fault:
        why = f"the output can't be written: {why_not(fault)}"
        let_go_of_output()
    except MemoryError:
        why = "out of memory"
    except KeyboardInterrupt:
        let_go_of_output()
        status = 130
    if why is not None:
        print(f"{name}: {why}", file=sys.stderr)
    sys.exit(status)
