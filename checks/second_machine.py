"""A step of the machine on what a proof opens, a second time, from docs/MACHINE.md alone. It shares nothing with tools/."""
from wire_forms import EXITED, RUNNING, TRAPPED, number, value_of

# Instructions (docs/MACHINE.md).

MODULUS = 1 << 32
TARGET, ILLEGAL, BREAKPOINT, LOAD, STORE, CALL = 0, 2, 3, 4, 6, 8
ECALL, EBREAK = 0x00000073, 0x00100073
WIDTHS = {0: 1, 1: 2, 2: 4, 4: 1, 5: 2}


def signed(value, places=32):
    return value - (1 << places) if value >> (places - 1) & 1 else value


def field(word, high, low):
    return word >> low & ((1 << (high - low + 1)) - 1)


class Instruction:
    """A word by its fields. `form` is R, I, S, B, U, J or None where it names no register, and `kind` what it does."""

    def __init__(self, word):
        self.rd, self.rs1, self.rs2 = field(word, 11, 7), field(word, 19, 15), field(word, 24, 20)
        self.funct3, self.funct7 = field(word, 14, 12), field(word, 31, 25)
        self.kind, self.form = self.kind_of(word)
        self.imm = self.immediate(word)

    def kind_of(self, word):
        if word in (ECALL, EBREAK):
            return ("ecall" if word == ECALL else "ebreak"), None
        opcode, funct3, funct7 = word & 127, self.funct3, self.funct7
        if opcode in (0b0110111, 0b0010111):
            return ("lui" if opcode == 0b0110111 else "auipc"), "U"
        if opcode == 0b1101111:
            return "jal", "J"
        if opcode == 0b1100111 and funct3 == 0:
            return "jalr", "I"
        if opcode == 0b1100011 and funct3 not in (2, 3):
            return "branch", "B"
        if opcode == 0b0000011 and funct3 in (0, 1, 2, 4, 5):
            return "load", "I"
        if opcode == 0b0100011 and funct3 in (0, 1, 2):
            return "store", "S"
        if opcode == 0b0010011 and (funct3 not in (1, 5) or funct7 == 0 or (funct3, funct7) == (5, 32)):
            return "immediate", "I"
        if opcode == 0b0110011 and (funct7 in (0, 1) or (funct7 == 32 and funct3 in (0, 5))):
            return "registers", "R"
        if opcode == 0b0001111 and funct3 == 0:
            return "fence", None
        return "illegal", None

    def immediate(self, word):
        if self.form == "I":
            return signed(field(word, 31, 20), 12)
        if self.form == "S":
            return signed(field(word, 31, 25) << 5 | field(word, 11, 7), 12)
        if self.form == "B":
            places = field(word, 31, 31) << 12, field(word, 7, 7) << 11, field(word, 30, 25) << 5, field(word, 11, 8) << 1
            return signed(sum(places), 13)
        if self.form == "U":
            return word & 0xFFFFF000
        if self.form == "J":
            places = field(word, 31, 31) << 20, field(word, 19, 12) << 12, field(word, 20, 20) << 11, field(word, 30, 21) << 1
            return signed(sum(places), 21)
        return 0

    def named(self):
        """The registers that it names: those that it reads, then the one that it writes; `x0` never, and each once."""
        if self.kind == "ecall":
            return [17, 10]
        names = {
            "R": [self.rs1, self.rs2, self.rd], "I": [self.rs1, self.rd], "S": [self.rs1, self.rs2],
            "B": [self.rs1, self.rs2], "U": [self.rd], "J": [self.rd], None: [],
        }[self.form]
        return [register for register in dict.fromkeys(names) if register != 0]


def divided(a, b, is_signed):
    """Quotient and remainder, rounded towards zero."""
    if b == 0:
        return MODULUS - 1, a
    if not is_signed:
        return a // b, a % b
    a, b = signed(a), signed(b)
    quotient = abs(a) // abs(b) * (-1 if (a < 0) != (b < 0) else 1)
    return quotient, a - quotient * b


def computed(instruction, a, b):
    """What `rd` becomes, where `b` is the immediate or what `rs2` holds."""
    funct3, funct7 = instruction.funct3, instruction.funct7
    if instruction.kind == "registers" and funct7 == 1:
        if funct3 < 4:
            left = signed(a) if funct3 in (1, 2) else a
            right = signed(b) if funct3 == 1 else b
            return left * right if funct3 == 0 else left * right >> 32
        return divided(a, b, funct3 in (4, 6))[funct3 >= 6]
    if funct3 == 0:
        return a - b if instruction.kind == "registers" and funct7 == 32 else a + b
    if funct3 == 1:
        return a << (b & 31)
    if funct3 == 2:
        return int(signed(a) < signed(b))
    if funct3 == 3:
        return int(a < b)
    if funct3 == 5:
        return (signed(a) if funct7 == 32 else a) >> (b & 31)
    return {4: a ^ b, 6: a | b, 7: a & b}[funct3]


def is_taken(funct3, a, b):
    if funct3 < 4:
        return (a == b) == (funct3 == 0)
    less = signed(a) < signed(b) if funct3 < 6 else a < b
    return less == (funct3 in (4, 6))


class Step:
    """One step on what a proof opens: the changes of a state."""

    def __init__(self, instruction, control, registers, version):
        self.instruction, self.control, self.registers, self.version = instruction, control, registers, version
        self.a, self.b = registers.get(instruction.rs1, 0), registers.get(instruction.rs2, 0)
        self.address = (self.a + instruction.imm) % MODULUS
        self.width = WIDTHS[instruction.funct3] if instruction.kind in ("load", "store") else 0
        # What comes of it.
        self.pc, self.status, self.code = (control.pc + 4) % MODULUS, RUNNING, 0
        self.written, self.put, self.chunk = None, None, None

    def is_access(self):
        return self.width > 0 and self.address % self.width == 0

    def input_index(self):
        """Which byte of the input it reads, or None."""
        reads = self.instruction.kind == "ecall" and self.version == 3 and self.registers.get(17, 0) == 2
        return self.registers.get(10, 0) if reads else None

    def stop(self, status, code):
        self.pc, self.status, self.code, self.written = self.control.pc, status, code, None

    def write(self, register, value):
        if register != 0:
            self.written = register, value % MODULUS

    def go(self, target):
        if target % 4:
            self.stop(TRAPPED, TARGET)
        else:
            self.pc = target % MODULUS

    def make(self, chunk, byte):
        """Makes the step, with the chunk that it reads or changes and the byte of the input that it reads, if there are such."""
        instruction, kind, imm = self.instruction, self.instruction.kind, self.instruction.imm
        pc = self.control.pc
        if kind == "illegal":
            self.stop(TRAPPED, ILLEGAL)
        elif kind == "ebreak":
            self.stop(TRAPPED, BREAKPOINT)
        elif kind == "ecall":
            self.call(byte)
        elif kind in ("lui", "auipc"):
            self.write(instruction.rd, imm if kind == "lui" else pc + imm)
        elif kind in ("jal", "jalr"):
            self.write(instruction.rd, pc + 4)
            self.go(pc + imm if kind == "jal" else self.address & ~1)
        elif kind == "branch" and is_taken(instruction.funct3, self.a, self.b):
            self.go(pc + imm)
        elif kind == "immediate":
            other = instruction.rs2 if instruction.funct3 in (1, 5) else imm % MODULUS
            self.write(instruction.rd, computed(instruction, self.a, other))
        elif kind == "registers":
            self.write(instruction.rd, computed(instruction, self.a, self.b))
        elif kind in ("load", "store"):
            self.access(chunk)

    def access(self, chunk):
        if not self.is_access():
            self.stop(TRAPPED, LOAD if self.instruction.kind == "load" else STORE)
            return
        at = self.address % 32
        if self.instruction.kind == "store":
            self.chunk = chunk[:at] + number(self.b % (1 << 8 * self.width), self.width) + chunk[at + self.width :]
            return
        value = value_of(chunk[at : at + self.width])
        self.write(self.instruction.rd, signed(value, 8 * self.width) if self.instruction.funct3 < 4 else value)

    def call(self, byte):
        called, argument = self.registers.get(17, 0), self.registers.get(10, 0)
        if called == 1:
            self.put = argument & 255
        elif called == 2 and self.version == 3:
            self.write(10, MODULUS - 1 if byte is None else byte)
        elif called == 93:
            self.stop(EXITED, argument)
        else:
            self.stop(TRAPPED, CALL)
