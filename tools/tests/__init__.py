"""Tests of the tools: `python3 -m unittest` in the folder tools. Expected values come from examples/ and docs/, whose texts the proved
program writes; without these folders the tests fail, as there is nothing to compare with."""
import pathlib
import sys
from typing import Iterator, Tuple

sys.dont_write_bytecode = True
TOOLS = pathlib.Path(__file__).resolve().parent.parent
TOP = TOOLS.parent


def commands(folder: str = "examples") -> Iterator[Tuple[str, str, str, int]]:
    """The folder of each transcript, and the words, text and status of each of its commands."""
    for path in sorted(TOP.glob(f"{folder}/*/transcript.txt")):
        words, lines = "", []
        for line in path.read_text().splitlines(keepends=True):
            if line.startswith("$ "):
                words, lines = line[2:].rstrip("\n"), []
            elif line.startswith("status "):
                yield path.parent.name, words, "".join(lines), int(line.split()[1])
            else:
                lines.append(line)
