"""Flat programs: random ones, and those around a single word.

Each sets its registers, carries out some words, and puts out all registers and the windows, the places of memory that
its pointers lead to. What it puts out shows what the words did, unless one of them trapped or went elsewhere.
"""
import words
from coshalit import machine

FLAT_START = 0x00010000
BOUND = 2500  # more than twice as many steps as a program without a loop takes
# The registers are stored here, from x1 on, relative to x0, which nothing can change.
REGISTERS_AT = -2048
WINDOW_BYTES = 32

EDGES = [0, 1, 2, 3, 4, 5, 7, 8, 31, 32, 33, 0x7F, 0x80, 0xFF, 0x100, 0x7FF, 0x800, 0x7FFF, 0x8000, 0xFFFF]
EDGES += [0x10000, 0x7FFFFFFF, 0x80000000, 0x80000001, 0x80008000, 0xFFFF8000, 0xFFFFFFE0, 0xFFFFFFFE, 0xFFFFFFFF]
# Words of instructions, for programs that store into their own code.
EDGES += [0x02A00513, 0x00A28293, words.ECALL, words.EBREAK]

# Where memory is read and written: at both ends of the addresses, around 2^31, across two pages, and in the input.
WINDOWS = [0x00000000, 0x00020FF0, 0x7FFFFFF0, machine.INPUT_START, 0xFFFFFFE0]

# Registers with a use, which are seldom written: pointers to two windows, to the body, to the landing behind it, two edge
# values, and the number of the call.
POINTERS, TO_BODY, TO_LANDING, LEAST, MINUS_ONE, CALL = (8, 9), 11, 12, 14, 15, 17
USED = {*POINTERS, TO_BODY, TO_LANDING, LEAST, MINUS_ONE, CALL}

COMPUTATIONS = [(funct3, 0) for funct3 in range(8)] + [(0, 32), (5, 32)]
MULTIPLICATIONS = [(funct3, 1) for funct3 in range(8)]
BRANCH_KINDS, LOAD_KINDS, STORE_KINDS = (0, 1, 4, 5, 6, 7), (0, 1, 2, 4, 5), (0, 1, 2)
WIDTHS = (1, 2, 4)  # by the low two places of funct3


def frame(registers, windows, body, code):
    """The program around a body: the words before it and those behind it."""
    before = [word for register in range(1, 32) for word in words.set_register(register, registers[register])]
    landing = [words.NOTHING] * 4
    after = [words.store_word(2, 0, register, REGISTERS_AT + 4 * register) for register in range(1, 32)]
    after += words.set_register(17, 1)
    stored = (1 << 32) + REGISTERS_AT
    for begin, end in [(stored + 4, stored + 128)] + [(window, window + WINDOW_BYTES) for window in windows]:
        after += words.put_out(begin, end)
    return before + body + landing + after + words.exit_with(code)


BODY_AT = FLAT_START + 4 * 62  # 31 registers are set by two words each


def case_of(program, given, bound, cut=0):
    image = words.bytes_of(program)
    return {
        "format": "flat",
        "image": image[: len(image) - cut].hex(),
        "input": given.hex(),
        "bound": bound,
        "patience": 0,
        "provers": [{}],
    }


# Random words. `random` is a generator of the module of that name.


def target_register(random):
    while True:
        register = random.randrange(32)
        if register not in USED or random.random() < 0.1:
            return register


def of_registers(random, kinds):
    funct3, funct7 = random.choice(kinds)
    left, right = random.randrange(32), random.randrange(32)
    if random.random() < 0.2:
        telling = [(LEAST, MINUS_ONE), (LEAST, right), (MINUS_ONE, right), (left, MINUS_ONE), (left, 0)]
        left, right = random.choice(telling)
    return words.register_word(words.COMPUTE, funct3, funct7, target_register(random), left, right)


def computation(random):
    return of_registers(random, COMPUTATIONS)


def multiplication(random):
    return of_registers(random, MULTIPLICATIONS)


def with_immediate(random):
    funct3 = random.randrange(8)
    if funct3 in (1, 5):
        imm = random.randrange(32) | (1024 if funct3 == 5 and random.random() < 0.5 else 0)
    else:
        imm = random.choice([0, 1, -1, 2047, -2048, random.randint(-2048, 2047)])
    return words.immediate_word(words.COMPUTE_IMMEDIATE, funct3, target_register(random), random.randrange(32), imm)


def place(random, funct3):
    """A base register and an immediate for a load or a store: mostly within a window, and aligned."""
    width = WIDTHS[funct3 & 3]
    draw = random.random()
    if draw < 0.05:
        return random.randrange(32), random.randint(-2048, 2047)
    imm = random.randrange(-WINDOW_BYTES // 2, WINDOW_BYTES // 2, width)
    if draw < 0.12:
        imm += 1
    return random.choice(POINTERS), imm


def load(random):
    funct3 = random.choice(LOAD_KINDS)
    base, imm = place(random, funct3)
    return words.immediate_word(words.LOAD, funct3, target_register(random), base, imm)


def store(random):
    funct3 = random.choice(STORE_KINDS)
    base, imm = place(random, funct3)
    if random.random() < 0.08:
        base, imm = TO_BODY, random.randrange(0, 48, WIDTHS[funct3])
    return words.store_word(funct3, base, random.randrange(32), imm)


def distance(random):
    """From a jump to its target: mostly forward and short, so that it lands in the body or right behind it."""
    draw = random.random()
    if draw < 0.08:
        return random.choice([2, 6, 10, -2])
    if draw < 0.12:
        return random.choice([0, -4, -8])
    if draw < 0.14:
        return 2 * random.randint(-2048, 2047)
    return random.choice([4, 8, 12, 16])


def branch(random):
    left, right = random.randrange(32), random.randrange(32)
    if random.random() < 0.2:
        right = left
    return words.branch_word(random.choice(BRANCH_KINDS), left, right, distance(random))


def jump(random):
    return words.jump_word(target_register(random), distance(random))


def jump_by_register(random):
    rd = TO_LANDING if random.random() < 0.2 else target_register(random)
    imm = random.choice([0, 0, 0, 4, 1, -1, 2, random.randint(-8, 8)])
    return words.immediate_word(words.JALR, 0, rd, TO_LANDING, imm)


def upper(random):
    opcode = random.choice([words.LUI, words.AUIPC])
    return words.upper_word(opcode, target_register(random), random.getrandbits(32))


def fence(random):
    return random.getrandbits(32) & ~0x707F | words.FENCE


def call(random):
    return words.ECALL


def breakpoint_word(random):
    return words.EBREAK


OPCODES = [
    words.LUI, words.AUIPC, words.JAL, words.JALR, words.BRANCH, words.LOAD, words.STORE, words.COMPUTE_IMMEDIATE,
    words.COMPUTE, words.FENCE, words.SYSTEM,
]  # fmt: skip


def any_word(random):
    """Any bits, or those of an opcode with any other bits."""
    bits = random.getrandbits(32)
    return bits if random.random() < 0.5 else bits & ~127 | random.choice(OPCODES)


KINDS = [
    (computation, 16), (multiplication, 18), (with_immediate, 14), (load, 15), (store, 12), (branch, 10), (jump, 3),
    (jump_by_register, 4), (upper, 4), (fence, 2), (call, 4), (breakpoint_word, 0.5), (any_word, 1.5),
]  # fmt: skip


def random_case(random):
    length = random.randint(1, 12)
    registers = [random.choice(EDGES) if random.random() < 0.7 else random.getrandbits(32) for _ in range(32)]
    windows = random.sample(WINDOWS, len(POINTERS))
    for pointer, window in zip(POINTERS, windows):
        registers[pointer] = window + WINDOW_BYTES // 2
    # The windows are filled first, so that loads find more than zeros.
    filling = [
        words.store_word(2, pointer, random.choice([1, 2, 3, 4, 5, 6, 7, 10, 13]), 4 * random.randint(-4, 3))
        for pointer in POINTERS
        for _ in range(3)
    ]
    kinds, weights = zip(*KINDS)
    body = filling + [kind(random) for kind in random.choices(kinds, weights, k=length)]
    registers[TO_BODY] = BODY_AT + 4 * len(filling)
    registers[TO_LANDING] = BODY_AT + 4 * len(body) + random.choice([0, 0, 0, 1, 1, 2, 3])
    registers[LEAST], registers[MINUS_ONE] = 0x80000000, 0xFFFFFFFF
    registers[CALL] = random.choice([1, 1, 1, 1, 1, 1, 93, random.choice(EDGES)])
    bound = BOUND if random.random() < 0.9 else random.randint(1, 400)
    given = random.randbytes(random.choice([0, 1, 5, 28, 40]))
    # The last word is ECALL, whose last three bytes are zeros, as what follows a file is.
    cut = random.choice([0, 0, 1, 2, 3])
    return case_of(frame(registers, windows, body, random.choice(EDGES)), given, bound, cut)


# Single words

WORD_BOUND = 800
# rd, rs1 and rs2. The second makes a place that is aligned and short ways, the third a place and ways that are odd.
REGISTER_FIELDS = [(0, 0, 0), (8, 6, 12), (31, 30, 29)]
WORD_REGISTERS = {6: 0x00020000, 8: 5, 12: 0x80000007, 17: 1, 29: 0xFFFFFFFF, 30: 0x00010002, 31: 0x80000000}
SINGLE_PLACES = [1 << place for place in range(7)]


def all_words():
    """The combinations of opcode, funct3, telling funct7 and register fields, and the neighbours of the whole words."""
    found = set()
    for opcode in range(128):
        # No opcode that ends otherwise has an instruction, so few of theirs will do.
        long = opcode % 4 == 3
        for funct3 in range(8):
            for funct7 in (0, *SINGLE_PLACES, 33, 127) if long else (0, 127):
                for fields in REGISTER_FIELDS if long else REGISTER_FIELDS[1:2]:
                    found.add(words.register_word(opcode, funct3, funct7, *fields))
    for funct7 in range(128):
        for opcode, kinds in ((words.COMPUTE, range(8)), (words.COMPUTE_IMMEDIATE, (1, 5))):
            found.update(words.register_word(opcode, funct3, funct7, *REGISTER_FIELDS[1]) for funct3 in kinds)
    for word in (words.ECALL, words.EBREAK, words.FENCE):
        found.update([word] + [word ^ 1 << place for place in range(32)])
    return sorted(found)


def case_of_word(word):
    registers = [WORD_REGISTERS.get(register, 0) for register in range(32)]
    return case_of(frame(registers, [], [word], 0), b"", WORD_BOUND)
