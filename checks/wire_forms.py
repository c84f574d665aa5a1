"""Digests and wire forms, read a second time, from docs/COMMITMENTS.md alone. It shares nothing with tools/."""
import functools
import hashlib

# Digests ('The strings that are digested' of docs/COMMITMENTS.md).


def sha256(string):
    return hashlib.sha256(string).digest()


def weak8(string):
    return sha256(string)[:1] + bytes(31)


DIGESTS = {"sha256": sha256, "weak8": weak8}


def number(value, width):
    return value.to_bytes(width, "little")


def value_of(string):
    return int.from_bytes(string, "little")


def climb(digest, string, index, siblings):
    """The root over a leaf's string, with the siblings of its path, the leaf's own first."""
    node = digest(string)
    for sibling in siblings:
        node = digest(b"\x01" + (sibling + node if index & 1 else node + sibling))
        index >>= 1
    return node


# Answers of provers ('Wire forms' of docs/COMMITMENTS.md).

TOO_SHORT, BAD_TAG, BAD_STATUS, TRAILING, BAD_LENGTH = 1, 2, 3, 4, 5
CLAIM, ROOT, STEP_1, STEP_2, ROOTS, STEP_3 = 1, 2, 3, 4, 5, 6
FIXED = {CLAIM: 122, ROOT: 33, STEP_1: 207, STEP_2: 116, ROOTS: 2, STEP_3: 152}
VERSIONS = {STEP_1: 1, STEP_2: 2, STEP_3: 3}
FETCHED, DATA, INPUT = 1, 2, 4
MOST_REGISTERS, MOST_ROOTS = 3, 15
RUNNING, EXITED, TRAPPED = 0, 1, 2


class BadForm(Exception):
    """Bytes that are no answer, with the number of the first broken rule."""


class Bytes:
    """Bytes that are read from the first on."""

    def __init__(self, whole):
        self.whole, self.at = whole, 0

    def take(self, count):
        taken = self.whole[self.at : self.at + count]
        if len(taken) < count:
            raise BadForm(TOO_SHORT)
        self.at += count
        return taken

    def number(self, width):
        return value_of(self.take(width))


class Control:
    """The control fields of a state, with the chain in the place of the output."""

    def __init__(self, pc, status, code, length, chain):
        self.pc, self.status, self.code, self.length, self.chain = pc, status, code, length, chain

    def string(self):
        fields = number(self.pc, 4), number(self.status, 1), number(self.code, 4), number(self.length, 8)
        return b"\x03" + b"".join(fields) + self.chain


class Opening:
    """What a leaf holds, 32 bytes of a chunk or 4 of a register, and the siblings of its path."""

    def __init__(self, content, siblings):
        self.content, self.siblings = content, siblings


def chain_of(digest, output):
    """The chain of an output."""
    return functools.reduce(lambda chain, byte: digest(b"\x05" + chain + bytes([byte])), output, bytes(32))


class Claim:
    def __init__(self, memory, registers, control, output):
        self.memory, self.registers, self.control, self.output = memory, registers, control, output

    def is_sound(self, digest):
        return self.control.length == len(self.output) and self.control.chain == chain_of(digest, self.output)

    def root(self, digest):
        return digest(b"\x04" + self.memory + self.registers + digest(self.control.string()))


class Roots:
    def __init__(self, roots, is_list):
        self.roots, self.is_list = roots, is_list


class Proof:
    """The proof of a step. In version 1 `shown` has all 32 registers, else `registers` is their root and `opened` their openings."""

    def __init__(self, version):
        self.version = version
        self.memory = self.control = self.registers = None
        self.shown, self.opened = None, []
        self.input_length, self.input_root = 0, None
        self.fetched = self.data = self.input = None


def read_control(source):
    return Control(source.number(4), source.number(1), source.number(4), source.number(8), source.take(32))


def read_opening(source, width, levels):
    return Opening(source.take(width), [source.take(32) for _ in range(levels)])


def read_proof(source, version):
    proof = Proof(version)
    proof.memory = source.take(32)
    if version == 3:
        proof.input_length, proof.input_root = source.number(4), source.take(32)
    if version == 1:
        proof.shown = [0] + [source.number(4) for _ in range(31)]
    else:
        proof.registers = source.take(32)
    proof.control = read_control(source)
    flags, count = source.number(1), 0 if version == 1 else source.number(1)
    check_status(proof.control)
    if flags > (7 if version == 3 else 3) or count > MOST_REGISTERS:
        raise BadForm(BAD_TAG)
    if flags & FETCHED:
        proof.fetched = read_opening(source, 32, 27)
    proof.opened = [read_opening(source, 4, 5) for _ in range(count)]
    if flags & DATA:
        proof.data = read_opening(source, 32, 27)
    if flags & INPUT:
        proof.input = read_opening(source, 32, 15)
    return proof


def check_status(control):
    if control.status > TRAPPED or (control.status == RUNNING and control.code != 0):
        raise BadForm(BAD_STATUS)


def read_answer(answer):
    """The answer of these bytes. It raises `BadForm`."""
    if not answer:
        raise BadForm(TOO_SHORT)
    kind = answer[0]
    if kind not in FIXED:
        raise BadForm(BAD_TAG)
    if len(answer) < FIXED[kind]:
        raise BadForm(TOO_SHORT)
    source = Bytes(answer)
    source.take(1)
    if kind == CLAIM:
        memory, registers, control = source.take(32), source.take(32), read_control(source)
        check_status(control)
        length = source.number(8)
        if length >= 1 << 32:
            raise BadForm(BAD_LENGTH)
        found = Claim(memory, registers, control, source.take(length))
    elif kind == ROOT:
        found = Roots([source.take(32)], False)
    elif kind == ROOTS:
        count = source.number(1)
        if not 1 <= count <= MOST_ROOTS:
            raise BadForm(BAD_TAG)
        found = Roots([source.take(32) for _ in range(count)], True)
    else:
        found = read_proof(source, VERSIONS[kind])
    if source.at < len(answer):
        raise BadForm(TRAILING)
    return found
