"""Assembly texts (docs/ASSEMBLY.md). Of a text with a fault it is said at which line; which fault it is says refcli."""
from __future__ import annotations

import re
from typing import Dict, List, Sequence, Tuple

from .instructions import ALONE, BY_NAME, SYNTAX, word_of

NAME = "[A-Za-z_][A-Za-z0-9_]*"
LINE = re.compile(rf"[ \t]*(?:({NAME})[ \t]*:)?[ \t]*(?:([A-Za-z0-9._]+)(?:[ \t]+(.*?))?)?[ \t]*")
PLACE = re.compile(r"([^ \t(]+)[ \t]*\([ \t]*([^ \t)]+)[ \t]*\)")
# No number of a text has more digits, except for zeros at the left of one in hexadecimal.
MOST_DIGITS = 10


class Fault(Exception):
    """A line that isn't taken, counted from 1."""


def number_in(text: str, least: int, most: int) -> int:
    """A number of these limits. It raises `ValueError`."""
    found = re.fullmatch("(-?)(0|[1-9][0-9]*)|0x0*([0-9a-fA-F]+)", text)
    if found is None or len(found[2] or found[3]) > MOST_DIGITS:
        raise ValueError
    value = int(found[3], 16) if found[3] else int(found[1] + found[2])
    if not least <= value <= most:
        raise ValueError
    return value


def register_in(text: str) -> int:
    """The number of a register's name. It raises `ValueError`."""
    if not re.fullmatch("x(0|[1-9]|[12][0-9]|3[01])", text):
        raise ValueError
    return int(text[1:])


def target_in(text: str, least: int, most: int, places: Dict[str, int], at: int) -> int:
    """How far it is from a place to the target of a branch or a jump. It raises `ValueError`."""
    if re.fullmatch(NAME, text):
        if text not in places:
            raise ValueError
        distance = places[text] - at
        if not least <= distance <= most:
            raise ValueError
    else:
        distance = number_in(text, least, most)
    if distance % 2:
        raise ValueError
    return distance


def assembled(mnemonic: str, operands: Sequence[str], places: Dict[str, int], at: int) -> int:
    """The word of an instruction at this place. It raises `ValueError`."""
    if mnemonic == ".word":
        (text,) = operands
        return number_in(text, 0, 0xFFFFFFFF)
    name = mnemonic.upper()
    if mnemonic != name.lower() or name not in BY_NAME and name not in ALONE:
        raise ValueError
    syntax = "alone" if name in ALONE else BY_NAME[name].syntax
    wanted, least, most = SYNTAX[syntax]
    wanted_places = wanted.split(", ") if wanted else []
    if len(wanted_places) != len(operands):
        raise ValueError
    values: Dict[str, int] = {}
    for place, text in zip(wanted_places, operands):
        if place == "imm(rs1)":
            found = PLACE.fullmatch(text)
            if found is None:
                raise ValueError
            values["imm"], values["rs1"] = number_in(found[1], least, most), register_in(found[2])
        elif place == "imm":
            values["imm"] = number_in(text, least, most)
        elif place == "target":
            values["imm"] = target_in(text, least, most, places, at)
        else:
            values[place] = register_in(text)
    return word_of(name, **values)


def assemble(text: str) -> Tuple[bytes, List[int]]:
    """The bytes of a text, and for each of its words the number of its line. It raises `Fault`."""
    places: Dict[str, int] = {}
    found: List[Tuple[int, str, List[str]]] = []
    for line_number, line in enumerate(text.split("\n"), 1):
        parts = LINE.fullmatch(line.partition("#")[0])
        if parts is None or parts[1] in places:
            raise Fault(line_number)
        if parts[1] is not None:
            places[parts[1]] = 4 * len(found)
        if parts[2] is not None:
            operands = [] if not parts[3] else [operand.strip(" \t") for operand in parts[3].split(",")]
            found.append((line_number, parts[2], operands))
    words = []
    for at, (line_number, mnemonic, operands) in enumerate(found):
        try:
            words.append(assembled(mnemonic, operands, places, 4 * at))
        except ValueError:
            raise Fault(line_number) from None
    return b"".join(word.to_bytes(4, "little") for word in words), [line_number for line_number, _, _ in found]
