"""A second referee of one step, written from docs/COMMITMENTS.md and docs/MACHINE.md alone. It shares nothing with tools/, and isn't proved.

`leads` says to which root a proof leads. `wire_forms` reads answers, `second_machine` makes a step on what a proof opens, and on
`second_board` a match is played.
"""
from second_machine import TARGET, Instruction, Step
from wire_forms import (
    BAD_LENGTH, BAD_STATUS, BAD_TAG, CLAIM, DIGESTS, EXITED, FIXED, ROOT, ROOTS, RUNNING, STEP_1, STEP_2, STEP_3, TOO_SHORT, TRAILING, TRAPPED,
    BadForm, Claim, Control, Proof, Roots, climb, number, read_answer, sha256, value_of,
)  # fmt: skip

# The referee of one step ('Proofs of one step' and 'Three versions' of docs/COMMITMENTS.md).

WRONG_SHAPE, NOT_OPEN = "WrongShape", "NotOpen"


class Refused(Exception):
    """A proof that leads nowhere, with the referee's refusal."""


def demand(holds, refusal):
    if not holds:
        raise Refused(refusal)


def state_root(digest, proof, memory, registers, control):
    """The root of a state of these parts; in version 3 with the input's length and root of the proof."""
    if proof.version == 3:
        memory = digest(b"\x08" + memory + number(proof.input_length, 4) + proof.input_root)
    return digest(b"\x04" + memory + registers + digest(control.string()))


def registers_string(shown):
    return b"\x02" + b"".join(number(value, 4) for value in shown)


def opens(digest, root, opening, tag, index):
    return climb(digest, tag + opening.content, index, opening.siblings) == root


def registers_after(digest, proof, names, written):
    """The registers digest after a step."""
    if proof.version == 1:
        shown = list(proof.shown)
        if written is not None:
            shown[written[0]] = written[1]
        return digest(registers_string(shown))
    if written is None:
        return proof.registers
    register, value = written
    opening = proof.opened[names.index(register)]
    return climb(digest, b"\x07" + number(value, 4), register, opening.siblings)


def leads(digest, version, root, proof):
    """The root to which a proof leads from a root. It raises `Refused`."""
    control = proof.control
    demand(proof.version == version, WRONG_SHAPE)
    fetches = control.status == RUNNING and control.pc % 4 == 0
    demand((proof.fetched is not None) == fetches, WRONG_SHAPE)
    registers = digest(registers_string(proof.shown)) if version == 1 else proof.registers
    demand(state_root(digest, proof, proof.memory, registers, control) == root, NOT_OPEN)
    instruction, names = None, []
    if fetches:
        demand(opens(digest, proof.memory, proof.fetched, b"\x00", control.pc // 32), NOT_OPEN)
        at = control.pc % 32
        instruction = Instruction(value_of(proof.fetched.content[at : at + 4]))
        names = instruction.named()
    values = dict(enumerate(proof.shown)) if version == 1 else {}
    if version > 1:
        demand(len(proof.opened) == len(names), WRONG_SHAPE)
        for register, opening in zip(names, proof.opened):
            demand(opens(digest, proof.registers, opening, b"\x07", register), NOT_OPEN)
            values[register] = value_of(opening.content)
    step = Step(instruction, control, values, version) if fetches else None
    accesses = fetches and step.is_access()
    demand((proof.data is not None) == accesses, WRONG_SHAPE)
    if accesses:
        demand(opens(digest, proof.memory, proof.data, b"\x00", step.address // 32), NOT_OPEN)
    index = step.input_index() if fetches else None
    reads = index is not None and index < proof.input_length
    demand((proof.input is not None) == reads, WRONG_SHAPE)
    if reads:
        demand(opens(digest, proof.input_root, proof.input, b"\x00", index // 32), NOT_OPEN)
    if not fetches:
        if control.status == RUNNING:
            control = Control(control.pc, TRAPPED, TARGET, control.length, control.chain)
        return state_root(digest, proof, proof.memory, registers, control)
    step.make(proof.data.content if accesses else None, proof.input.content[index % 32] if reads else None)
    return root_after(digest, proof, names, step)


def root_after(digest, proof, names, step):
    memory, length, chain = proof.memory, proof.control.length, proof.control.chain
    if step.chunk is not None:
        memory = climb(digest, b"\x00" + step.chunk, step.address // 32, proof.data.siblings)
    if step.put is not None:
        length, chain = (length + 1) % (1 << 64), digest(b"\x05" + chain + bytes([step.put]))
    after = Control(step.pc, step.status, step.code, length, chain)
    return state_root(digest, proof, memory, registers_after(digest, proof, names, step.written), after)


# A round (docs/GAME.md)


def cuts_of(low, high, fan):
    """The ends of the parts into which a round cuts an interval."""
    parts = min(fan, high - low)
    return [low + part * (high - low) // parts for part in range(parts + 1)]


def kept_part(first, second):
    """Which part is kept, from 0, of the roots that two sides gave at the cuts between."""
    return next((part for part, (one, other) in enumerate(zip(first, second)) if one != other), len(first))
