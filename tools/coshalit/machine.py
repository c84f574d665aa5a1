"""The machine of docs/MACHINE.md, RV32IM with two calls.

Comments name the sections: 'ISA 2.4' is one of The RISC-V Instruction Set Manual, Volume I, 20191213, and a title in quotes is one of
docs/MACHINE.md. `a` and `b` are what rs1 and rs2 hold.
"""
from __future__ import annotations

from typing import Callable, Dict, List, Optional, Protocol, Sequence, Tuple

from .instructions import Instruction, decode, signed

MODULUS = 1 << 32
PAGE = 4096
INPUT_START = 0x40000000
RUNNING, EXITED, TRAPPED = "running", "exited", "trapped"
# 'Traps'
MISALIGNED_TARGET, ILLEGAL_WORD, BREAKPOINT, MISALIGNED_LOAD, MISALIGNED_STORE, UNKNOWN_CALL = 0, 2, 3, 4, 6, 8
# 'Calls': the second is known in version 3 of the commitments.
CALL_PUT_OUT, CALL_READ, CALL_EXIT = 1, 2, 93


def quotient_towards_zero(dividend: int, divisor: int) -> int:
    """Python's own quotient is rounded down."""
    quotient = abs(dividend) // abs(divisor)
    return -quotient if (dividend < 0) != (divisor < 0) else quotient


# 'State' (ISA 2.1, 1.4)


class Storage(Protocol):
    """The memory that a step reads and changes. Addresses are multiples of the width."""

    def fetched_at(self, address: int) -> int: ...

    def number_at(self, address: int, width: int) -> int: ...

    def store(self, address: int, width: int, number: int) -> None: ...


class Memory:
    """2^32 bytes, 0 where nothing was laid or stored. Those that aren't 0 are kept in pages, for speed."""

    def __init__(self) -> None:
        self.pages: Dict[int, bytearray] = {}

    def number_at(self, address: int, width: int) -> int:
        """The least byte is first (ISA 2.6, 1.5). The address is a multiple of the width, so one page has all bytes."""
        page = self.pages.get(address // PAGE)
        if page is None:
            return 0
        place = address % PAGE
        return int.from_bytes(page[place : place + width], "little")

    def fetched_at(self, address: int) -> int:
        return self.number_at(address, 4)

    def store(self, address: int, width: int, number: int) -> None:
        self.lay(address, (number % (1 << 8 * width)).to_bytes(width, "little"))

    def lay(self, address: int, content: bytes) -> None:
        """Lays bytes from an address on."""
        done = 0
        while done < len(content):
            number, place = divmod(address + done, PAGE)
            count = min(PAGE - place, len(content) - done)
            page = self.pages.setdefault(number, bytearray(PAGE))
            page[place : place + count] = content[done : done + count]
            done += count


class State:
    """A state of the machine. `given` is the input that a call reads, or None if it lies in memory."""

    def __init__(self, memory: Storage, pc: int, given: Optional[Sequence[int]] = None) -> None:
        self.registers: List[int] = [0] * 32
        self.pc = pc
        self.memory = memory
        self.status = RUNNING
        self.code = 0  # of an exit or a trap
        self.output = bytearray()
        self.given = given

    def words(self) -> str:
        """The status as texts have it."""
        return self.status if self.status == RUNNING else f"{self.status} {self.code}"

    def write(self, register: int, number: int) -> None:
        """A write to x0 is dropped (ISA 2.1). Results are taken modulo 2^32."""
        if register != 0:
            self.registers[register] = number % MODULUS

    def trap(self, code: int) -> None:
        """'Traps' (ISA 1.6): only the status changes."""
        self.status, self.code = TRAPPED, code

    def go_on(self) -> None:
        self.pc = (self.pc + 4) % MODULUS

    def go_to(self, target: int) -> bool:
        """Goes to a target modulo 2^32, or traps (ISA 2.2, 2.5). Whether it went."""
        if target % 4 != 0:
            self.trap(MISALIGNED_TARGET)
            return False
        self.pc = target % MODULUS
        return True

    def result(self, register: int, number: int) -> None:
        self.write(register, number)
        self.go_on()


def start(memory: Memory, entry: int, given: bytes, version: int = 1) -> State:
    """'Start': the state at the start, from an image's memory and entry and from the input, which in version 3 of the commitments is
    kept beside memory, and else laid over the image."""
    if version == 3:
        return State(memory, entry, given)
    memory.lay(INPUT_START, len(given).to_bytes(4, "little") + given)
    return State(memory, entry)


# What the instructions do. `a` and `b` are unsigned, an immediate is signed; results are taken modulo 2^32 when they are written.


def divide(a: int, b: int) -> int:
    """ISA 7.2, table 7.1. The quotient of -2^31 by -1 is 2^31, which is -2^31 modulo 2^32."""
    return MODULUS - 1 if b == 0 else quotient_towards_zero(signed(a), signed(b))


def remainder(a: int, b: int) -> int:
    """ISA 7.2, table 7.1."""
    return a if b == 0 else signed(a) - signed(b) * quotient_towards_zero(signed(a), signed(b))


# `a` and the immediate (ISA 2.4)
OF_IMMEDIATE: Dict[str, Callable[[int, int], int]] = {
    "ADDI": lambda a, imm: a + imm,
    "SLTI": lambda a, imm: int(signed(a) < imm),
    "SLTIU": lambda a, imm: int(a < imm % MODULUS),
    "XORI": lambda a, imm: a ^ imm % MODULUS,
    "ORI": lambda a, imm: a | imm % MODULUS,
    "ANDI": lambda a, imm: a & imm % MODULUS,
}
# `a` and the number at 24..20 (ISA 2.4), which other formats call rs2
OF_SHIFT: Dict[str, Callable[[int, int], int]] = {
    "SLLI": lambda a, shift: a << shift,
    "SRLI": lambda a, shift: a >> shift,
    "SRAI": lambda a, shift: signed(a) >> shift,
}
# `a` and `b` (ISA 2.4, 7.1, 7.2)
OF_REGISTERS: Dict[str, Callable[[int, int], int]] = {
    "ADD": lambda a, b: a + b,
    "SUB": lambda a, b: a - b,
    "SLL": lambda a, b: a << b % 32,
    "SLT": lambda a, b: int(signed(a) < signed(b)),
    "SLTU": lambda a, b: int(a < b),
    "XOR": lambda a, b: a ^ b,
    "SRL": lambda a, b: a >> b % 32,
    "SRA": lambda a, b: signed(a) >> b % 32,
    "OR": lambda a, b: a | b,
    "AND": lambda a, b: a & b,
    "MUL": lambda a, b: a * b,
    "MULH": lambda a, b: signed(a) * signed(b) >> 32,
    "MULHSU": lambda a, b: signed(a) * b >> 32,
    "MULHU": lambda a, b: a * b >> 32,
    "DIV": divide,
    "DIVU": lambda a, b: MODULUS - 1 if b == 0 else a // b,
    "REM": remainder,
    "REMU": lambda a, b: a if b == 0 else a % b,
}
# Where a branch is taken (ISA 2.5)
BRANCHES: Dict[str, Callable[[int, int], bool]] = {
    "BEQ": lambda a, b: a == b,
    "BNE": lambda a, b: a != b,
    "BLT": lambda a, b: signed(a) < signed(b),
    "BGE": lambda a, b: signed(a) >= signed(b),
    "BLTU": lambda a, b: a < b,
    "BGEU": lambda a, b: a >= b,
}
# How many bytes, and whether they are sign-extended (ISA 2.6)
LOADS: Dict[str, Tuple[int, bool]] = {"LB": (1, True), "LH": (2, True), "LW": (4, False), "LBU": (1, False), "LHU": (2, False)}
STORES: Dict[str, int] = {"SB": 1, "SH": 2, "SW": 4}


def access_of(found: Optional[Instruction], registers: Sequence[int]) -> Optional[int]:
    """The address that an aligned load or store reads or changes; None for anything else."""
    if found is None or not (found.name in LOADS or found.name in STORES):
        return None
    width = LOADS[found.name][0] if found.name in LOADS else STORES[found.name]
    address = (registers[found.rs1] + found.imm) % MODULUS
    return address if address % width == 0 else None


def call(state: State) -> None:
    """'Calls' (ISA 2.8): the number is in x17, the argument in x10."""
    number, argument = state.registers[17], state.registers[10]
    if number == CALL_PUT_OUT:
        state.output.append(argument % 256)
        state.go_on()
    elif number == CALL_READ and state.given is not None:
        state.result(10, state.given[argument] if argument < len(state.given) else MODULUS - 1)
    elif number == CALL_EXIT:
        state.status, state.code = EXITED, argument
    else:
        state.trap(UNKNOWN_CALL)


def jump(state: State, rd: int, target: int) -> None:
    """JAL and JALR (ISA 2.5). If the target is misaligned `rd` isn't written."""
    link = state.pc + 4
    if state.go_to(target):
        state.write(rd, link)


def load(state: State, name: str, rd: int, address: int) -> None:
    """ISA 2.6"""
    width, is_signed = LOADS[name]
    if address % width != 0:
        return state.trap(MISALIGNED_LOAD)
    number = state.memory.number_at(address, width)
    state.result(rd, signed(number, 8 * width) if is_signed else number)


def store(state: State, width: int, address: int, number: int) -> None:
    """ISA 2.6"""
    if address % width != 0:
        return state.trap(MISALIGNED_STORE)
    state.memory.store(address, width, number)
    state.go_on()


def carry_out(state: State, found: Instruction) -> None:
    """Carries out an instruction."""
    name, rd, rs1, rs2, imm = found
    a, b = state.registers[rs1], state.registers[rs2]
    if name in OF_REGISTERS:
        state.result(rd, OF_REGISTERS[name](a, b))
    elif name in OF_IMMEDIATE:
        state.result(rd, OF_IMMEDIATE[name](a, imm))
    elif name in OF_SHIFT:
        state.result(rd, OF_SHIFT[name](a, rs2))
    elif name == "LUI":
        state.result(rd, imm)
    elif name == "AUIPC":
        state.result(rd, state.pc + imm)
    elif name in LOADS:
        load(state, name, rd, (a + imm) % MODULUS)
    elif name in STORES:
        store(state, STORES[name], (a + imm) % MODULUS, b)
    elif name in BRANCHES:
        # The target of a branch that isn't taken doesn't matter (ISA 2.5).
        if BRANCHES[name](a, b):
            state.go_to(state.pc + imm)
        else:
            state.go_on()
    elif name == "JAL":
        jump(state, rd, state.pc + imm)
    elif name == "JALR":
        jump(state, rd, (a + imm) & ~1)
    elif name == "FENCE":
        state.go_on()
    elif name == "ECALL":
        call(state)
    else:
        state.trap(BREAKPOINT)


def step(state: State) -> None:
    """'A step'"""
    if state.status != RUNNING:  # rule 1
        return
    if state.pc % 4 != 0:  # rule 2
        return state.trap(MISALIGNED_TARGET)
    found = decode(state.memory.fetched_at(state.pc))
    if found is None:  # rule 3
        return state.trap(ILLEGAL_WORD)
    carry_out(state, found)  # rule 4


def run(state: State, bound: int) -> None:
    """Leaves the state after so many steps. Once it isn't running further steps change nothing."""
    for _ in range(bound):
        if state.status != RUNNING:
            return
        step(state)
