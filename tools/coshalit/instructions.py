"""The instructions of RV32IM: their words, their fields, and how they are written (docs/MACHINE.md, docs/ASSEMBLY.md).

Comments name the sections of The RISC-V Instruction Set Manual, Volume I, 20191213: 'ISA 2.4' is one of it.
"""
from __future__ import annotations

import functools
from typing import Dict, List, NamedTuple, Optional, Tuple


def field(word: int, high: int, low: int) -> int:
    """The number at the places high..low of a word."""
    return word >> low & ((1 << (high - low + 1)) - 1)


def signed(number: int, places: int = 32) -> int:
    """The number that so many places hold in two's complement."""
    return number - (1 << places) if number >> (places - 1) else number


# Where the places of an immediate stand in a word, by format (ISA 2.2, 2.3): its highest and lowest place, and the lowest in the word.
IMMEDIATES: Dict[str, Tuple[Tuple[int, int, int], ...]] = {
    "R": (),
    "I": ((11, 0, 20),),
    "S": ((11, 5, 25), (4, 0, 7)),
    "B": ((12, 12, 31), (10, 5, 25), (4, 1, 8), (11, 11, 7)),
    "U": ((31, 12, 12),),
    "J": ((20, 20, 31), (10, 1, 21), (11, 11, 20), (19, 12, 12)),
}
# How many places the immediate has, its sign among them.
IMMEDIATE_PLACES = {"R": 0, "I": 12, "S": 12, "B": 13, "U": 32, "J": 21}


def immediate(form: str, word: int) -> int:
    """The immediate of a word of this format."""
    pieces = (field(word, at + high - low, at) << low for high, low, at in IMMEDIATES[form])
    return signed(sum(pieces), IMMEDIATE_PLACES[form]) if IMMEDIATES[form] and form != "U" else sum(pieces)


def laid_immediate(form: str, number: int) -> int:
    """The places of an immediate, where this format has them in a word."""
    return sum(field(number, high, low) << at for high, low, at in IMMEDIATES[form])


def laid_fields(opcode: int, funct3: int = 0, funct7: int = 0, rd: int = 0, rs1: int = 0, rs2: int = 0) -> int:
    """A word with these fields (ISA 2.2)."""
    return funct7 << 25 | rs2 << 20 | rs1 << 15 | funct3 << 12 | rd << 7 | opcode


class Row(NamedTuple):
    """An instruction of the manual's tables. None is any number."""

    name: str
    form: str
    opcode: int
    funct3: Optional[int]
    funct7: Optional[int]
    # How its operands are written: a key of `SYNTAX`.
    syntax: str


LUI, AUIPC, JAL, JALR = 0b0110111, 0b0010111, 0b1101111, 0b1100111
BRANCH, LOAD, STORE = 0b1100011, 0b0000011, 0b0100011
COMPUTE_IMMEDIATE, COMPUTE, FENCE, SYSTEM = 0b0010011, 0b0110011, 0b0001111, 0b1110011


def rows_of(form: str, opcode: int, syntax: str, names: Dict[str, Tuple[int, Optional[int]]]) -> List[Row]:
    return [Row(name, form, opcode, funct3, funct7, syntax) for name, (funct3, funct7) in names.items()]


# ISA chapter 24
ROWS: Tuple[Row, ...] = (
    # Integer computational instructions (ISA 2.4)
    Row("LUI", "U", LUI, None, None, "upper"),
    Row("AUIPC", "U", AUIPC, None, None, "upper"),
    *rows_of("I", COMPUTE_IMMEDIATE, "immediate", {
        "ADDI": (0, None), "SLTI": (2, None), "SLTIU": (3, None), "XORI": (4, None), "ORI": (6, None), "ANDI": (7, None),
    }),
    *rows_of("I", COMPUTE_IMMEDIATE, "shift", {"SLLI": (1, 0), "SRLI": (5, 0), "SRAI": (5, 32)}),
    *rows_of("R", COMPUTE, "registers", {
        "ADD": (0, 0), "SUB": (0, 32), "SLL": (1, 0), "SLT": (2, 0), "SLTU": (3, 0), "XOR": (4, 0), "SRL": (5, 0), "SRA": (5, 32),
        "OR": (6, 0), "AND": (7, 0),
    }),
    # Control transfer instructions (ISA 2.5)
    Row("JAL", "J", JAL, None, None, "jump"),
    Row("JALR", "I", JALR, 0, None, "place"),
    *rows_of("B", BRANCH, "branch", {
        "BEQ": (0, None), "BNE": (1, None), "BLT": (4, None), "BGE": (5, None), "BLTU": (6, None), "BGEU": (7, None),
    }),
    # Load and store instructions (ISA 2.6)
    *rows_of("I", LOAD, "place", {"LB": (0, None), "LH": (1, None), "LW": (2, None), "LBU": (4, None), "LHU": (5, None)}),
    *rows_of("S", STORE, "stored place", {"SB": (0, None), "SH": (1, None), "SW": (2, None)}),
    # Multiplication and division operations (ISA 7.1, 7.2)
    *rows_of("R", COMPUTE, "registers", {
        "MUL": (0, 1), "MULH": (1, 1), "MULHSU": (2, 1), "MULHU": (3, 1), "DIV": (4, 1), "DIVU": (5, 1), "REM": (6, 1), "REMU": (7, 1),
    }),
    # Memory ordering (ISA 2.7)
    Row("FENCE", "I", FENCE, 0, None, "alone"),
)  # fmt: skip
BY_NAME = {row.name: row for row in ROWS}
BY_OPCODE: Dict[int, List[Row]] = {opcode: [row for row in ROWS if row.opcode == opcode] for opcode in {row.opcode for row in ROWS}}
# Environment call and breakpoint (ISA 2.8), and the only word of FENCE that has a text.
ECALL, EBREAK, PLAIN_FENCE = 0x00000073, 0x00100073, 0x0FF0000F
WHOLE_WORDS = {ECALL: "ECALL", EBREAK: "EBREAK"}
ALONE = {"ECALL": ECALL, "EBREAK": EBREAK, "FENCE": PLAIN_FENCE}


class Instruction(NamedTuple):
    """A word's instruction with all its fields, whether its format has them or not."""

    name: str
    rd: int
    rs1: int
    rs2: int
    imm: int


@functools.lru_cache(maxsize=4096)
def decode(word: int) -> Optional[Instruction]:
    """The instruction of a word, or None if it is that of no row."""
    rd, rs1, rs2 = field(word, 11, 7), field(word, 19, 15), field(word, 24, 20)
    if word in WHOLE_WORDS:
        return Instruction(WHOLE_WORDS[word], rd, rs1, rs2, 0)
    for row in BY_OPCODE.get(field(word, 6, 0), ()):
        if row.funct3 in (None, field(word, 14, 12)) and row.funct7 in (None, field(word, 31, 25)):
            return Instruction(row.name, rd, rs1, rs2, immediate(row.form, word))
    return None


def registers_named(found: Optional[Instruction]) -> List[int]:
    """The registers that an instruction names: those that it reads, then the one that it writes; `x0` never, and each once."""
    if found is None or found.name in ("EBREAK", "FENCE"):
        return []
    if found.name == "ECALL":
        return [17, 10]
    form, rd, rs1, rs2 = BY_NAME[found.name].form, found.rd, found.rs1, found.rs2
    names = {"R": [rs1, rs2, rd], "I": [rs1, rd], "S": [rs1, rs2], "B": [rs1, rs2], "U": [rd], "J": [rd]}[form]
    return [register for register in dict.fromkeys(names) if register != 0]


# How operands are written: what stands where, and the least and the greatest number of `imm`, which is the shift's length if the syntax is `shift`.
SYNTAX: Dict[str, Tuple[str, int, int]] = {
    "registers": ("rd, rs1, rs2", 0, 0),
    "immediate": ("rd, rs1, imm", -2048, 2047),
    "shift": ("rd, rs1, imm", 0, 31),
    "place": ("rd, imm(rs1)", -2048, 2047),
    "stored place": ("rs2, imm(rs1)", -2048, 2047),
    "upper": ("rd, imm", 0, 0xFFFFF),
    "branch": ("rs1, rs2, target", -4096, 4095),
    "jump": ("rd, target", -(1 << 20), (1 << 20) - 1),
    "alone": ("", 0, 0),
}


def word_of(name: str, rd: int = 0, rs1: int = 0, rs2: int = 0, imm: int = 0) -> int:
    """The word of an instruction with these operands."""
    if name in ALONE:
        return ALONE[name]
    row = BY_NAME[name]
    if row.syntax == "shift":
        rs2, imm = imm, 0
    laid = laid_immediate(row.form, imm << 12 if row.syntax == "upper" else imm)
    return laid | laid_fields(row.opcode, row.funct3 or 0, row.funct7 or 0, rd, rs1, rs2)


def text_of(word: int) -> str:
    """A word as an assembly text has it."""
    found = decode(word)
    if found is None or (found.name == "FENCE" and word != PLAIN_FENCE):
        return f".word 0x{word:08x}"
    if found.name in ALONE:
        return found.name.lower()
    syntax = BY_NAME[found.name].syntax
    imm = found.rs2 if syntax == "shift" else field(found.imm, 31, 12) if syntax == "upper" else found.imm
    operands = {"rd": f"x{found.rd}", "rs1": f"x{found.rs1}", "rs2": f"x{found.rs2}", "imm": str(imm), "target": str(imm)}
    text = SYNTAX[syntax][0]
    for place, operand in operands.items():
        text = text.replace(place, operand)
    return f"{found.name.lower()} {text}"
