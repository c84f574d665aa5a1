"""Instruction words from their fields, which `machine.decode` takes apart, and pieces that the programs share."""
import struct

# Some of these names are for random_programs.
from coshalit.instructions import (  # noqa: F401
    AUIPC, BRANCH, COMPUTE, COMPUTE_IMMEDIATE, EBREAK, ECALL, FENCE, JAL, JALR, LOAD, LUI, STORE, SYSTEM, laid_fields, laid_immediate,
)  # fmt: skip

def register_word(opcode, funct3, funct7, rd, rs1, rs2):
    return laid_fields(opcode, funct3, funct7, rd, rs1, rs2)


def immediate_word(opcode, funct3, rd, rs1, imm):
    return laid_immediate("I", imm) | laid_fields(opcode, funct3, 0, rd, rs1)


def store_word(funct3, rs1, rs2, imm):
    return laid_immediate("S", imm) | laid_fields(STORE, funct3, 0, 0, rs1, rs2)


def branch_word(funct3, rs1, rs2, imm):
    return laid_immediate("B", imm) | laid_fields(BRANCH, funct3, 0, 0, rs1, rs2)


def upper_word(opcode, rd, imm):
    return laid_immediate("U", imm) | rd << 7 | opcode


def jump_word(rd, imm):
    return laid_immediate("J", imm) | rd << 7 | JAL


NOTHING = immediate_word(COMPUTE_IMMEDIATE, 0, 0, 0, 0)


def set_register(register, number):
    """Two words that put a number into a register: LUI, then ADDI, whose immediate is signed."""
    upper = (number + 0x800) & 0xFFFFF000
    return [
        upper_word(LUI, register, upper),
        immediate_word(COMPUTE_IMMEDIATE, 0, register, register, number - upper),
    ]


def put_out(begin, end):
    """Puts out the bytes from one address up to another, which may be 2^32. x17 has to hold 1; x5, x6, x10 are used."""
    return [
        *set_register(5, begin),
        *set_register(6, end % (1 << 32)),
        immediate_word(LOAD, 0b100, 10, 5, 0),  # LBU
        ECALL,
        immediate_word(COMPUTE_IMMEDIATE, 0, 5, 5, 1),
        branch_word(0b001, 5, 6, -12),  # BNE
    ]


def exit_with(code):
    return [*set_register(10, code), *set_register(17, 93), ECALL]


def bytes_of(words):
    return b"".join(struct.pack("<I", word) for word in words)
