"""Images and how they are laid into memory ('Images' of docs/MACHINE.md)."""
from __future__ import annotations

from typing import Callable, List, NamedTuple, Tuple

from .machine import MODULUS, Memory

FLAT_START = 0x00010000
MOST_BYTES = 4_194_304
HEADER_BYTES, PROGRAM_HEADER_BYTES = 52, 32
IDENTIFICATION = bytes.fromhex("7f454c46010101")
EXECUTABLE, RISC_V, PT_LOAD = 2, 243, 1  # ET_EXEC, EM_RISCV


class Refused(Exception):
    """The file breaks a rule, `rule` first."""

    def __init__(self, rule: int) -> None:
        super().__init__(f"rule {rule}")
        self.rule = rule


# The fields that are read. Numbers have their least byte first.


def number(file: bytes, offset: int, width: int) -> int:
    return int.from_bytes(file[offset : offset + width], "little")


def e_entry(file: bytes) -> int:
    return number(file, 24, 4)


def e_phoff(file: bytes) -> int:
    return number(file, 28, 4)


def e_phnum(file: bytes) -> int:
    return number(file, 44, 2)


class Load(NamedTuple):
    """A program header of type PT_LOAD."""

    offset: int
    address: int
    file_size: int
    memory_size: int


def loads(file: bytes) -> List[Load]:
    """The program headers of type PT_LOAD, in their order."""
    found = []
    for k in range(e_phnum(file)):
        at = e_phoff(file) + PROGRAM_HEADER_BYTES * k
        if number(file, at, 4) == PT_LOAD:
            # p_offset, p_vaddr, p_filesz, p_memsz
            found.append(Load(*(number(file, at + place, 4) for place in (4, 8, 16, 20))))
    return found


# The rules. Each says whether a file breaks it, if those before it in `RULES` are kept.


def breaks_rule_5(file: bytes) -> bool:
    end = e_phoff(file) + PROGRAM_HEADER_BYTES * e_phnum(file)
    return e_phnum(file) > 0 and (number(file, 42, 2) != PROGRAM_HEADER_BYTES or end > len(file))  # e_phentsize


def breaks_rule_6(file: bytes) -> bool:
    return any(load.file_size > 0 and load.offset + load.file_size > len(file) for load in loads(file))


def breaks_rule_9(file: bytes) -> bool:
    # By their addresses, each must end before the next begins; those without bytes share none.
    pieces = sorted((load.address, load.address + load.memory_size) for load in loads(file) if load.memory_size > 0)
    return any(end > following for (_, end), (following, _) in zip(pieces, pieces[1:]))


RULES: Tuple[Tuple[int, Callable[[bytes], bool]], ...] = (
    (11, lambda file: len(file) > MOST_BYTES),
    (1, lambda file: len(file) < HEADER_BYTES),
    (2, lambda file: file[:7] != IDENTIFICATION),
    (3, lambda file: number(file, 16, 2) != EXECUTABLE),  # e_type
    (4, lambda file: number(file, 18, 2) != RISC_V),  # e_machine
    (5, breaks_rule_5),
    (6, breaks_rule_6),
    (7, lambda file: any(load.file_size > load.memory_size for load in loads(file))),
    (8, lambda file: any(load.address + load.memory_size > MODULUS for load in loads(file))),
    (9, breaks_rule_9),
    (10, lambda file: e_entry(file) % 4 != 0),
)


def load_elf(file: bytes) -> Tuple[Memory, int]:
    """Memory and entry of an ELF file. It raises `Refused`."""
    for rule, is_broken in RULES:
        if is_broken(file):
            raise Refused(rule)
    memory = Memory()
    for load in loads(file):
        memory.lay(load.address, file[load.offset : load.offset + load.file_size])
    return memory, e_entry(file)


def load_flat(file: bytes) -> Tuple[Memory, int]:
    """Memory and entry of a flat image. It raises `Refused`."""
    if len(file) > MOST_BYTES:
        raise Refused(11)
    memory = Memory()
    memory.lay(FLAT_START, file)
    return memory, FLAT_START


def load_image(form: str, file: bytes) -> Tuple[Memory, int]:
    """Memory and entry of an image of the format `flat` or `elf`. It raises `Refused`."""
    return {"flat": load_flat, "elf": load_elf}[form](file)
