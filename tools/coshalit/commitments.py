"""Roots of states: the strings that are digested, trees, and chains (docs/COMMITMENTS.md)."""
from __future__ import annotations

import functools
import hashlib
from typing import Callable, Dict, Iterable, List, NamedTuple, Sequence, Tuple

from .machine import EXITED, PAGE, RUNNING, TRAPPED, Memory, State

Digest = Callable[[bytes], bytes]


def sha256(string: bytes) -> bytes:
    return hashlib.sha256(string).digest()


def weak8(string: bytes) -> bytes:
    """The digest of eight bits, of which collisions are found."""
    return sha256(string)[:1] + bytes(31)


DIGESTS: Dict[str, Digest] = {"sha256": sha256, "weak8": weak8}
CHUNK = 32
MEMORY_LEVELS, REGISTER_LEVELS, INPUT_LEVELS = 27, 5, 15
STATUSES = (RUNNING, EXITED, TRAPPED)


def number(value: int, width: int) -> bytes:
    """A number as so many bytes, the least first, modulo what they hold."""
    return (value % (1 << 8 * width)).to_bytes(width, "little")


def value_of(string: bytes) -> int:
    return int.from_bytes(string, "little")


# 'The strings that are digested'


def leaf_string(chunk: bytes) -> bytes:
    return b"\x00" + chunk


def node_string(left: bytes, right: bytes) -> bytes:
    return b"\x01" + left + right


def registers_string(registers: Iterable[int]) -> bytes:
    return b"\x02" + b"".join(number(value, 4) for value in registers)


def state_string(memory: bytes, registers: bytes, control: bytes) -> bytes:
    return b"\x04" + memory + registers + control


def link_string(chain: bytes, byte: int) -> bytes:
    return b"\x05" + chain + number(byte, 1)


def register_leaf_string(value: int) -> bytes:
    return b"\x07" + number(value, 4)


def storage_string(memory: bytes, input_length: int, input_root: bytes) -> bytes:
    return b"\x08" + memory + number(input_length, 4) + input_root


class Control(NamedTuple):
    """The control fields of a state, with the chain in the place of the output."""

    pc: int
    status: int
    code: int
    length: int
    chain: bytes

    def wire(self) -> bytes:
        """The fields as wire forms have them."""
        return number(self.pc, 4) + number(self.status, 1) + number(self.code, 4) + number(self.length, 8) + self.chain

    def string(self) -> bytes:
        return b"\x03" + self.wire()

    def words(self) -> str:
        """The status as texts have it."""
        return STATUSES[self.status] + ("" if self.status == 0 else f" {self.code}")


# 'The chain of an output', 'Openings', 'Trees'


def links(digest: Digest, output: bytes) -> Tuple[List[bytes], bytes]:
    """The link strings of an output, and its chain."""
    chain, strings = bytes(32), []
    for byte in output:
        strings.append(link_string(chain, byte))
        chain = digest(strings[-1])
    return strings, chain


def climbed(digest: Digest, string: bytes, index: int, siblings: Sequence[bytes]) -> Tuple[List[bytes], bytes]:
    """The strings from a leaf's up to the root's along the index, with the siblings of the path, the leaf's own first; and the root."""
    strings = [string]
    node = digest(string)
    for sibling in siblings:
        strings.append(node_string(sibling, node) if index & 1 else node_string(node, sibling))
        node = digest(strings[-1])
        index >>= 1
    return strings, node


def climb(digest: Digest, string: bytes, index: int, siblings: Sequence[bytes]) -> bytes:
    """The root over a leaf's string, with the siblings of its path."""
    return climbed(digest, string, index, siblings)[1]


@functools.lru_cache(maxsize=None)
def empty_node(digest: Digest, level: int) -> bytes:
    """The node over chunks of zeros."""
    if level == 0:
        return digest(leaf_string(bytes(CHUNK)))
    return digest(node_string(empty_node(digest, level - 1), empty_node(digest, level - 1)))


def tree_root(digest: Digest, leaves: Dict[int, bytes], levels: int) -> bytes:
    """The root over the digests of leaves, by index; the others are chunks of zeros."""
    for level in range(levels):
        empty = empty_node(digest, level)
        leaves = {
            index: digest(node_string(leaves.get(2 * index, empty), leaves.get(2 * index + 1, empty)))
            for index in {index // 2 for index in leaves}
        }
    return leaves.get(0, empty_node(digest, levels))


def memory_root(digest: Digest, memory: Memory) -> bytes:
    """The root of the tree of memory. A subtree without a page is that of zeros."""
    leaves = {}
    for page, content in memory.pages.items():
        for place in range(PAGE // CHUNK):
            chunk = bytes(content[CHUNK * place : CHUNK * (place + 1)])
            leaves[PAGE // CHUNK * page + place] = digest(leaf_string(chunk))
    return tree_root(digest, leaves, MEMORY_LEVELS)


def input_root(digest: Digest, given: bytes) -> bytes:
    """The root of the tree of the input."""
    chunks = range(0, len(given), CHUNK)
    leaves = {at // CHUNK: digest(leaf_string(given[at : at + CHUNK].ljust(CHUNK, b"\0"))) for at in chunks}
    return tree_root(digest, leaves, INPUT_LEVELS)


def registers_root(digest: Digest, registers: Sequence[int]) -> bytes:
    """The root of the tree of the registers."""
    return tree_root(digest, {at: digest(register_leaf_string(value)) for at, value in enumerate(registers)}, REGISTER_LEVELS)


def control_of(digest: Digest, state: State) -> Control:
    chain = links(digest, bytes(state.output))[1]
    return Control(state.pc, STATUSES.index(state.status), state.code, len(state.output), chain)


def root_of(state: State, version: int = 1, digest: Digest = sha256) -> bytes:
    """The root of a whole state, hashed from nothing; in version 3 its input is the state's `given`."""
    assert isinstance(state.memory, Memory)
    memory = memory_root(digest, state.memory)
    if version == 3:
        given = bytes(state.given or b"")
        memory = digest(storage_string(memory, len(given), input_root(digest, given)))
    registers = digest(registers_string(state.registers)) if version == 1 else registers_root(digest, state.registers)
    return digest(state_string(memory, registers, digest(control_of(digest, state).string())))
