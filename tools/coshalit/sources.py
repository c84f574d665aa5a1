"""Where an instruction stands in the source of its program: in C, by an ELF file with symbols and an addr2line, or in an assembly text."""
from __future__ import annotations

import re
import shutil
import subprocess
from typing import Callable, Dict, List, Optional

from . import images, machine
from .process import bytes_of_file, shown

# The place of an instruction, for an address, or None.
Place = Callable[[int], Optional[str]]
MOST_BYTES = 1 << 28


def addr2line() -> Optional[str]:
    tools = [shutil.which(name) for name in ("riscv64-unknown-elf-addr2line", "llvm-addr2line", "addr2line")]
    return next((path for path in tools if path), None)


def in_c(symbols: str, tool: str) -> Place:
    """The C function and line of an address, and those around it that it was put in line of, as addr2line gives them."""
    def place(address: int) -> Optional[str]:
        found = subprocess.run([tool, "-f", "-i", "-e", symbols, hex(address)], stdout=subprocess.PIPE, stderr=subprocess.DEVNULL)
        lines = found.stdout.decode(errors="replace").splitlines()
        # Of an address without code a tool may give `??`, or a label such as `.Lline_table_start0`.
        if found.returncode != 0 or len(lines) < 2 or len(lines) % 2 or lines[0][:1] in "?.":
            return None
        # An instruction that a compiler put in belongs to no line: its number is 0, or `?`. Which piece of a line it is doesn't matter.
        pieces = [re.sub(r":[0?]+$", ", in no line", re.sub(r" \(discriminator \d+\)$", "", line)) for line in lines[1::2]]
        return ", in ".join(f"{function}, {piece}" for function, piece in zip(lines[::2], pieces))

    return place


def in_text(text: str, numbers: List[int]) -> Place:
    """The line of an assembly text."""
    lines = text.split("\n")

    def place(address: int) -> Optional[str]:
        at, rest = divmod(address - images.FLAT_START, 4)
        if rest or not 0 <= at < len(numbers):
            return None
        return f"line {numbers[at]}: {shown(lines[numbers[at] - 1].strip(), 200)}"

    return place


def is_of_program(symbols: str, memory: machine.Memory) -> bool:
    """Whether an ELF file lays the bytes that lie in this memory, which is that of a case's image."""
    def used(pages: Dict[int, bytearray]) -> Dict[int, bytes]:
        return {number: bytes(content) for number, content in pages.items() if any(content)}

    file = bytes_of_file(symbols, MOST_BYTES, "a file with symbols")
    laid = machine.Memory()
    # A file with symbols may be larger than an image.
    if any(is_broken(file) for rule, is_broken in images.RULES if rule != 11):
        return False
    for load in images.loads(file):
        laid.lay(load.address, file[load.offset : load.offset + load.file_size])
    return used(laid.pages) == used(memory.pages)
