// The machine, as far as a step is explained: what a word says, and what one step makes of the parts that a proof opens (docs/MACHINE.md).
//
// No ruling rests on it: what it comes to is shown only beside the ruling of the proved referee, with which it is compared.
"use strict";

const RUNNING = 0, EXITED = 1, TRAPPED = 2;
const OUTPUT_CALL = 1, INPUT_CALL = 2, EXIT_CALL = 93;
const MISALIGNED_JUMP = 0, ILLEGAL = 2, BREAKPOINT = 3, MISALIGNED_LOAD = 4, MISALIGNED_STORE = 6, UNKNOWN_CALL = 8;
const ECALL_WORD = 0x73, EBREAK_WORD = 0x100073;
const WORD_BITS = 32n;

// Names by funct3.
const BRANCHES = ["beq", "bne", null, null, "blt", "bge", "bltu", "bgeu"];
const LOADS = ["lb", "lh", "lw", null, "lbu", "lhu"];
const STORES = ["sb", "sh", "sw"];
const IMMEDIATES = ["addi", "slli", "slti", "sltiu", "xori", "srli", "ori", "andi"];
const REGISTERS = {
  0x00: ["add", "sll", "slt", "sltu", "xor", "srl", "or", "and"],
  0x20: ["sub", null, null, null, null, "sra"],
  0x01: ["mul", "mulh", "mulhsu", "mulhu", "div", "divu", "rem", "remu"],
};
const WIDTHS = { lb: 1, lbu: 1, sb: 1, lh: 2, lhu: 2, sh: 2, lw: 4, sw: 4 };

/** The immediate of a word, by its format, as a number with a sign. */
function immediateOf(word, format) {
  const signed = word | 0, sign = signed >> 31;
  if (format === "U") return signed & ~0xfff;
  if (format === "S") return (signed >> 25 << 5) | ((word >>> 7) & 31);
  if (format === "B") return (sign << 12) | (((word >>> 7) & 1) << 11) | (((word >>> 25) & 63) << 5) | (((word >>> 8) & 15) << 1);
  if (format === "J") return (sign << 20) | (((word >>> 12) & 255) << 12) | (((word >>> 20) & 1) << 11) | (((word >>> 21) & 1023) << 1);
  return signed >> 20;
}

/** The name of an instruction with an immediate of arithmetic: of shifts the upper bits count too. */
function nameOfImmediate(funct3, funct7) {
  if (funct3 === 1) return funct7 === 0 ? "slli" : null;
  if (funct3 === 5) return { 0x00: "srli", 0x20: "srai" }[funct7] ?? null;
  return IMMEDIATES[funct3];
}

/** The name and the format of a word, or null if it is no instruction. */
function formOf(word) {
  const funct3 = (word >>> 12) & 7, funct7 = word >>> 25;
  if (word === ECALL_WORD) return ["ecall", "N"];
  if (word === EBREAK_WORD) return ["ebreak", "N"];
  const [name, format] = {
    0x37: ["lui", "U"], 0x17: ["auipc", "U"], 0x6f: ["jal", "J"], 0x67: [funct3 === 0 ? "jalr" : null, "I"], 0x63: [BRANCHES[funct3], "B"],
    0x03: [LOADS[funct3], "I"], 0x23: [STORES[funct3], "S"], 0x13: [nameOfImmediate(funct3, funct7), "I"],
    0x33: [REGISTERS[funct7]?.[funct3], "R"], 0x0f: [funct3 === 0 ? "fence" : null, "N"],
  }[word & 127] ?? [null, "N"];
  return name ? [name, format] : null;
}

/** What a word says: its name, its registers and its immediate; null if it is none of the 48 instructions. */
function decoded(word) {
  const form = formOf(word);
  if (!form) return null;
  const [name, format] = form;
  return { name, format, rd: (word >>> 7) & 31, rs1: (word >>> 15) & 31, rs2: (word >>> 20) & 31, imm: immediateOf(word, format) };
}

/** The registers that a word names: those that it reads, then the one that it writes; `x0` never, and each once (docs/COMMITMENTS.md). */
function registersOf(word) {
  const says = decoded(word);
  if (!says) return [];
  if (says.name === "ecall") return [17, 10];
  const { rd, rs1, rs2 } = says;
  const named = { U: [rd], J: [rd], I: [rs1, rd], B: [rs1, rs2], S: [rs1, rs2], R: [rs1, rs2, rd] }[says.format] ?? [];
  return [...new Set(named)].filter((register) => register !== 0);
}

/** The high 32 bits of a product; each factor with its sign or without. */
function highProduct(a, b, isSignedA, isSignedB) {
  const wide = (value, isSigned) => BigInt(isSigned ? value | 0 : value >>> 0);
  return Number(((wide(a, isSignedA) * wide(b, isSignedB)) >> WORD_BITS) & 0xffffffffn);
}

/** The quotient or the rest, rounded towards zero; what a division by zero gives is written in the manual. */
function divided(a, b, isSigned, wantsRest) {
  const [x, y] = isSigned ? [a | 0, b | 0] : [a >>> 0, b >>> 0];
  if (y === 0) return wantsRest ? x : -1;
  return wantsRest ? x % y : Math.trunc(x / y);
}

/** What arithmetic gives of two words. */
function computed(name, a, b) {
  const shift = b & 31;
  switch (name) {
    case "add": return a + b;
    case "sub": return a - b;
    case "sll": return a << shift;
    case "slt": return (a | 0) < (b | 0) ? 1 : 0;
    case "sltu": return a >>> 0 < b >>> 0 ? 1 : 0;
    case "xor": return a ^ b;
    case "srl": return a >>> shift;
    case "sra": return (a | 0) >> shift;
    case "or": return a | b;
    case "and": return a & b;
    case "mul": return Math.imul(a, b);
    case "mulh": return highProduct(a, b, true, true);
    case "mulhsu": return highProduct(a, b, true, false);
    case "mulhu": return highProduct(a, b, false, false);
    default: return divided(a, b, !name.endsWith("u"), name.startsWith("rem"));
  }
}

function isTaken(name, a, b) {
  switch (name) {
    case "beq": return a === b;
    case "bne": return a !== b;
    case "blt": return (a | 0) < (b | 0);
    case "bge": return (a | 0) >= (b | 0);
    case "bltu": return a < b;
    default: return a >= b;
  }
}

/** The value of some bytes, the least first, as a load gives it. */
function loaded(name, bytes) {
  const value = bytes.reduceRight((sum, byte) => sum * 256 + byte, 0);
  if (name === "lb") return (value << 24) >> 24;
  return name === "lh" ? (value << 16) >> 16 : value;
}

/** The address of an aligned load or store, with its width in bytes; or null. */
function accessOf(word, register) {
  const says = decoded(word), width = says && WIDTHS[says.name];
  if (!width) return null;
  const address = (register(says.rs1) + says.imm) >>> 0;
  return { address, width, isStore: says.format === "S", isAligned: address % width === 0 };
}

const stopped = (status, code) => ({ status, code });

/** What a call of the environment does. */
function called({ version, register, inputByte }) {
  const number = register(17), argument = register(10);
  if (number === OUTPUT_CALL) return { output: argument & 255 };
  if (number === EXIT_CALL) return stopped(EXITED, argument);
  if (number === INPUT_CALL && version === 3) return { writes: { register: 10, value: inputByte(argument) } };
  return stopped(TRAPPED, UNKNOWN_CALL);
}

/** What a jump does, if its target isn't a multiple of 4 a trap. */
function jumped(target, link) {
  const next = target >>> 0;
  return next % 4 === 0 ? { pc: next, ...link } : stopped(TRAPPED, MISALIGNED_JUMP);
}

/** What a load or a store does. */
function accessed(says, access, seen) {
  if (!access.isAligned) return stopped(TRAPPED, access.isStore ? MISALIGNED_STORE : MISALIGNED_LOAD);
  if (!access.isStore) return { writes: { register: says.rd, value: loaded(says.name, seen.bytesAt(access.address, access.width)) } };
  const value = seen.register(says.rs2);
  const bytes = Array.from({ length: access.width }, (_, at) => (value >>> (8 * at)) & 255);
  return { stores: { address: access.address, bytes } };
}

/**
 * What the instruction of a word does: the `pc` where it isn't the next one, a register in `writes`, bytes in `stores`, a byte in `output`,
 * or a `status` with its code. `seen` gives the `pc`, the version, and what registers, memory and input hold.
 */
function effectOf(word, seen) {
  const says = decoded(word), { pc, register } = seen;
  if (!says) return stopped(TRAPPED, ILLEGAL);
  const { name, format, rd, rs1, rs2, imm } = says, a = register(rs1), writes = (value) => ({ writes: { register: rd, value } });
  const access = accessOf(word, register);
  if (access) return accessed(says, access, seen);
  if (format === "B") return isTaken(name, a, register(rs2)) ? jumped(pc + imm, {}) : {};
  if (format === "R") return writes(computed(name, a, register(rs2)));
  switch (name) {
    case "fence": return {};
    case "ebreak": return stopped(TRAPPED, BREAKPOINT);
    case "ecall": return called(seen);
    case "lui": return writes(imm);
    case "auipc": return writes(pc + imm);
    case "jal": return jumped(pc + imm, writes(pc + 4));
    case "jalr": return jumped((a + imm) & ~1, writes(pc + 4));
    // An instruction with an immediate computes as the one of the same name with two registers.
    default: return writes(computed(name === "sltiu" ? "sltu" : name.slice(0, -1), a, imm));
  }
}
