"""The ruling on a proof of one step ('Proofs of one step' of docs/COMMITMENTS.md): the machine's own step, on the parts that the proof opens."""
from __future__ import annotations

from itertools import chain as joined
from typing import List, Optional, Sequence, Tuple

from .answers import Claim, Opening, Proof
from .commitments import CHUNK, STATUSES, Control, Digest, climb, climbed, leaf_string, link_string, links, number
from .commitments import register_leaf_string, registers_string, state_string, storage_string, value_of
from .instructions import Instruction, decode, registers_named
from .machine import CALL_READ, State, access_of, step

WRONG_SHAPE, NOT_OPEN = "WrongShape", "NotOpen"


class Refused(Exception):
    """A proof that leads nowhere, with the referee's refusal."""


def demand(holds: bool, refusal: str) -> None:
    if not holds:
        raise Refused(refusal)


class OpenedMemory:
    """Two chunks of memory: the one that the instruction is fetched from, and the one that it reads or changes."""

    def __init__(self, fetched: bytes, data: bytes) -> None:
        self.fetched, self.data = fetched, data

    def fetched_at(self, address: int) -> int:
        return value_of(self.fetched[address % CHUNK :][:4])

    def number_at(self, address: int, width: int) -> int:
        return value_of(self.data[address % CHUNK :][:width])

    def store(self, address: int, width: int, stored: int) -> None:
        at = address % CHUNK
        self.data = self.data[:at] + number(stored, width) + self.data[at + width :]


class OpenedInput(Sequence[int]):
    """An input of which its length and one chunk are known."""

    def __init__(self, length: int, chunk: bytes) -> None:
        self.length, self.chunk = length, chunk

    def __len__(self) -> int:
        return self.length

    def __getitem__(self, at: int) -> int:  # type: ignore[override]
        return self.chunk[at % CHUNK]


class Ruling:
    """A proof before the referee: which parts its step calls for, and the root of what comes out."""

    def __init__(self, digest: Digest, version: int, proof: Proof) -> None:
        self.digest, self.version, self.proof = digest, version, proof
        self.instruction: Optional[Instruction] = None
        self.names: List[int] = []
        self.registers: List[int] = list(proof.shown) or [0] * 32

    def string_of_state(self, memory: bytes, registers: bytes, control: Control) -> bytes:
        if self.version == 3:
            memory = self.digest(storage_string(memory, self.proof.input_length, self.proof.input_root))
        return state_string(memory, registers, self.digest(control.string()))

    def registers_digest(self) -> bytes:
        """The registers digest of the state that the proof opens."""
        return self.digest(registers_string(self.proof.shown)) if self.version == 1 else self.proof.registers

    def opens(self, root: bytes, opening: Opening, string: bytes, index: int) -> bool:
        return climb(self.digest, string, index, opening.siblings) == root

    def open_chunk(self, there: bool, root: bytes, opening: Optional[Opening], index: int) -> None:
        """Demands that a chunk is opened if and only if it is called for, and that it opens the root."""
        demand((opening is not None) == there, WRONG_SHAPE)
        if opening is not None:
            demand(self.opens(root, opening, leaf_string(opening.content), index), NOT_OPEN)

    def open_registers(self) -> None:
        if self.version == 1:
            return
        proof = self.proof
        demand(len(proof.opened) == len(self.names), WRONG_SHAPE)
        for register, opening in zip(self.names, proof.opened):
            string = register_leaf_string(value_of(opening.content))
            demand(self.opens(proof.registers, opening, string, register), NOT_OPEN)
            self.registers[register] = value_of(opening.content)

    def leads(self, root: bytes) -> bytes:
        """The root to which the proof leads from a root. It raises `Refused`, with the first condition that fails."""
        proof, control = self.proof, self.proof.control
        demand(proof.version == self.version, WRONG_SHAPE)
        fetches = control.status == 0 and control.pc % 4 == 0
        demand((proof.fetched is not None) == fetches, WRONG_SHAPE)
        demand(self.digest(self.string_of_state(proof.memory, self.registers_digest(), control)) == root, NOT_OPEN)
        self.open_chunk(fetches, proof.memory, proof.fetched, control.pc // CHUNK)
        if proof.fetched is not None:
            self.instruction = decode(OpenedMemory(proof.fetched.content, b"").fetched_at(control.pc))
            self.names = registers_named(self.instruction)
        self.open_registers()
        address = access_of(self.instruction, self.registers)
        self.open_chunk(address is not None, proof.memory, proof.data, (address or 0) // CHUNK)
        calls = self.version == 3 and self.instruction is not None and self.instruction.name == "ECALL"
        index = self.registers[10]
        reads = calls and self.registers[17] == CALL_READ and index < proof.input_length
        self.open_chunk(reads, proof.input_root, proof.input, index // CHUNK)
        return self.root_after(address)

    def root_after(self, address: Optional[int]) -> bytes:
        """Makes the step on the parts, and gives the root of what comes out."""
        digest, proof, control = self.digest, self.proof, self.proof.control
        memory = OpenedMemory(proof.fetched.content if proof.fetched else b"", proof.data.content if proof.data else b"")
        given = OpenedInput(proof.input_length, proof.input.content if proof.input else bytes(CHUNK)) if self.version == 3 else None
        state = State(memory, control.pc, given)
        state.registers, state.status, state.code = list(self.registers), STATUSES[control.status], control.code
        step(state)
        memory_root = proof.memory
        if proof.data is not None and address is not None:
            memory_root = climb(digest, leaf_string(memory.data), address // CHUNK, proof.data.siblings)
        length, chain = control.length, control.chain
        if state.output:
            length, chain = (length + 1) % (1 << 64), digest(link_string(chain, state.output[0]))
        after = Control(state.pc, STATUSES.index(state.status), state.code, length, chain)
        return digest(self.string_of_state(memory_root, self.registers_after(state), after))

    def registers_after(self, state: State) -> bytes:
        """The registers digest after the step. At most one register has changed, and the proof opens it."""
        if self.version == 1:
            return self.digest(registers_string(state.registers))
        for register, opening in zip(self.names, self.proof.opened):
            if state.registers[register] != self.registers[register]:
                return climb(self.digest, register_leaf_string(state.registers[register]), register, opening.siblings)
        return self.proof.registers

    def strings(self) -> List[bytes]:
        """The strings that a proof which leads opens, in the order in which two of them are compared."""
        proof = self.proof
        found = [self.string_of_state(proof.memory, self.registers_digest(), proof.control)]
        if self.version == 3:
            found.append(storage_string(proof.memory, proof.input_length, proof.input_root))
        if self.version == 1:
            found.append(registers_string(proof.shown))
        found.append(proof.control.string())
        address = access_of(self.instruction, self.registers)
        if proof.fetched is not None:
            found += self.path(proof.fetched, leaf_string(proof.fetched.content), proof.control.pc // CHUNK)
        for register, opening in zip(self.names, proof.opened):
            found += self.path(opening, b"\x07" + opening.content, register)
        openings = [(proof.data, (address or 0) // CHUNK), (proof.input, self.registers[10] // CHUNK)]
        return found + list(joined.from_iterable(self.path(one, leaf_string(one.content), at) for one, at in openings if one))

    def path(self, opening: Opening, string: bytes, index: int) -> List[bytes]:
        return climbed(self.digest, string, index, opening.siblings)[0]


def leads(digest: Digest, version: int, root: bytes, proof: Proof) -> bytes:
    """The root to which a proof leads from a root. It raises `Refused`."""
    return Ruling(digest, version, proof).leads(root)


# Two different strings with one digest


def first_split(digest: Digest, one: Sequence[bytes], other: Sequence[bytes]) -> Optional[Tuple[bytes, bytes]]:
    """The first strings of two lists that differ and have one digest."""
    return next(((x, y) for x, y in zip(one, other) if x != y and digest(x) == digest(y)), None)


def claims_collide(digest: Digest, one: Claim, other: Claim) -> Optional[Tuple[bytes, bytes]]:
    """Two strings of two sound claims of one root; None if the claims are the same."""
    def strings(claim: Claim) -> List[bytes]:
        return [claim.state_string(digest), claim.control.string(), *links(digest, claim.output)[0]]

    return first_split(digest, strings(one), strings(other))


def proofs_collide(digest: Digest, version: int, root: bytes, one: Proof, other: Proof) -> Optional[Tuple[bytes, bytes]]:
    """Two strings of two proofs that lead from one root; None if the proofs are the same."""
    rulings = [Ruling(digest, version, proof) for proof in (one, other)]
    for ruling in rulings:
        ruling.leads(root)
    return first_split(digest, rulings[0].strings(), rulings[1].strings())
