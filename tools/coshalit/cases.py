"""What a case has to be: keys, types and ranges ('A case' of docs/PROGRAM.md), with a sentence for each mistake and each key that is ignored."""
from __future__ import annotations

import difflib
import json
import math
import re
from typing import Any, Callable, Dict, Iterator, List, Tuple

from .answers import BadForm, read_answer
from .machine import MODULUS
from .matches import LIMITS

MAX_IMAGE_BYTES, MAX_TEXT_BYTES, MAX_INPUT_BYTES = 4_194_304, 16_777_216, 1_048_576
MAX_BOUND, MAX_PROVERS, MAX_PATIENCE = LIMITS["bound"][1], LIMITS["provers"][1], LIMITS["patience"][1]
MAX_STAKE = 1_000_000_000
MAX_TASKS, MAX_ANSWERS, MAX_LEVELS = 8, 4_096, 127
SHOWN = 40


class NoJson(Exception):
    """The bytes aren't JSON as refcli reads it, with the reason."""


class OtherNumber(float):
    """A number that isn't of digits alone, or is 2^64 or above, with its spelling."""

    spelling = ""


class Members(Dict[str, Any]):
    """An object of JSON. Of a key that stands twice the last value counts; `twice` has these keys."""

    twice: List[str] = []


def number_of(text: str) -> object:
    """A number of digits alone, below 2^64, as an int, and each other one as a float with its spelling."""
    if text.isdigit() and len(text) <= 20 and int(text) < 1 << 64:
        return int(text)
    number = OtherNumber(text)
    if math.isinf(number):
        raise NoJson(f"{text[:SHOWN]} is beyond a double")
    number.spelling = text
    return number


def no_number(text: str) -> object:
    raise NoJson(f"{text} is no number of JSON")


def members_of(pairs: List[Tuple[str, object]]) -> Members:
    found = Members(pairs)
    if len(found) < len(pairs):
        keys = [key for key, _ in pairs]
        found.twice = [key for key in found if keys.count(key) > 1] if len(pairs) < 1000 else ["(one of very many)"]
    return found


def levels_of(text: str) -> int:
    """How deep the arrays and objects of a JSON text are nested."""
    deepest = depth = 0
    for found in re.finditer(r'"(?:[^"\\]|\\.)*"|[\[{]|([\]}])', text):
        if found[1]:
            depth -= 1
        elif found[0][0] != '"':
            depth += 1
            deepest = max(deepest, depth)
    return deepest


def tree_of(content: bytes) -> Any:
    """The tree of a JSON text in bytes. It raises `NoJson`."""
    try:
        text = content.decode()
        tree = json.loads(
            text, parse_int=number_of, parse_float=number_of, parse_constant=no_number, object_pairs_hook=members_of
        )
    except (ValueError, RecursionError) as fault:
        raise NoJson(str(fault)) from None
    # A pair of surrogates, a surrogate alone, or another escape.
    for found in re.finditer(r"\\(?:u[dD][89abAB]..\\u[dD][c-fC-F]..|(u[dD][89a-fA-F]..)|.)", text):
        if found[1]:
            raise NoJson(f"it has \\{found[1]}, half of a pair of surrogates")
    if levels_of(text) > MAX_LEVELS:
        raise NoJson(f"it has more than {MAX_LEVELS} levels")
    return tree


# What the value of a key has to be: functions that yield a sentence for each mistake. `where` names the value.

Test = Callable[[Any, str], Iterator[str]]


def shown(value: object) -> str:
    text = value.spelling if isinstance(value, OtherNumber) else json.dumps(value)
    return text if len(text) <= SHOWN else text[:SHOWN] + ".."


def whole(least: int, most: int) -> Test:
    def mistakes(value: Any, where: str) -> Iterator[str]:
        if type(value) is not int or not least <= value <= most:
            yield f"{where}: {shown(value)} isn't a whole number from {least:,} to {most:,}, in digits alone"

    return mistakes


def string(value: Any, where: str) -> Iterator[str]:
    if not isinstance(value, str):
        yield f"{where}: {shown(value)} isn't a string"


def word_of(*words: str) -> Test:
    def mistakes(value: Any, where: str) -> Iterator[str]:
        if value not in words:
            yield f"{where}: {shown(value)} is none of {', '.join(words)}"

    return mistakes


def no_tasks(_: Any, where: str) -> Iterator[str]:
    yield f"{where}: a task has no tasks of its own"


def digits(most: int = MAX_TEXT_BYTES) -> Test:
    def mistakes(value: Any, where: str) -> Iterator[str]:
        if not isinstance(value, str) or len(value) % 2 or not re.fullmatch("[0-9a-fA-F]*", value):
            yield f"{where}: {shown(value)} isn't a string of hexadecimal digits, two for each byte"
        elif len(value) > 2 * most:
            yield f"{where}: there are more than {most:,} bytes"

    return mistakes


def wire_form(value: Any, where: str) -> Iterator[str]:
    found = list(digits()(value, where))
    yield from found
    try:
        if not found:
            read_answer(bytes.fromhex(value))
    except BadForm:
        yield f"{where}: {shown(value)} isn't a wire form of docs/COMMITMENTS.md"


def array(least: int, most: int, each: Test) -> Test:
    """The test of an array. Its key is a plural, so `where` without its last letter names an element."""
    def mistakes(value: Any, where: str) -> Iterator[str]:
        if not isinstance(value, list):
            yield f"{where}: {shown(value)} isn't an array"
            return
        if not least <= len(value) <= most:
            yield f"{where}: there are {len(value):,}, not {least:,} to {most:,}"
        for number, element in enumerate(value, 1):
            yield from each(element, f"{where[:-1]} {number}")

    return mistakes


def members(tests: Dict[str, Test], optional: Tuple[str, ...] = ()) -> Test:
    """The test of an object with these keys, of which some may be missing, and others are ignored."""
    def mistakes(tree: Any, where: str) -> Iterator[str]:
        if not isinstance(tree, dict):
            yield f"{where}: {shown(tree)} isn't an object"
            return
        for key, test in tests.items():
            if key in tree:
                yield from test(tree[key], f"{where}, {key}")
            elif key not in optional:
                yield f"{where}: the key {json.dumps(key)} is missing"
        for key in tree:
            if key not in tests:
                near = difflib.get_close_matches(key.lower()[:SHOWN], [test for test in tests if test not in tree], 1)
                yield f"{where}: the key {shown(key)} is ignored" + (f"; is it meant for {json.dumps(near[0])}?" if near else "")
        yield from twice(tree, where)

    return mistakes


def twice(tree: Any, where: str) -> Iterator[str]:
    for key in tree.twice if isinstance(tree, Members) else ():
        yield f"{where}: the key {shown(key)} stands twice; the last one counts"


def of_kinds(kinds: Dict[str, Dict[str, Test]]) -> Test:
    """The test of an object with a kind, and with the keys of that kind."""
    def mistakes(part: Any, where: str) -> Iterator[str]:
        kind = part.get("kind") if isinstance(part, dict) else None
        if isinstance(part, dict) and (not isinstance(kind, str) or kind not in kinds):
            yield f"{where}: the kind is none of {', '.join(kinds)}"
            return
        yield from members({"kind": string, **kinds.get(kind or "", {})})(part, where)

    return mistakes


# The keys, with their types and ranges.
WORD, REGISTER = whole(0, MODULUS - 1), whole(1, 31)
TAMPERS: Dict[str, Dict[str, Test]] = {
    "flip": {"step": WORD, "addr": WORD, "mask": whole(0, 255)},
    "reg": {"step": WORD, "reg": REGISTER, "value": WORD},
    "early": {"steps": WORD},
}
MANNERS: Dict[str, Dict[str, Test]] = {
    "late": {"passes": whole(0, 1_000)},
    "silent": {"from": whole(0, 64)},
    "output": {"bytes": digits()},
    "forge": {"step": WORD, "reg": REGISTER, "value": WORD},
    "noise": {"seed": WORD},
    "tape": {"answers": array(0, MAX_ANSWERS, members({"dispute": WORD, "round": WORD, "answer": wire_form}))},
}
PROVER = members({"tamper": of_kinds(TAMPERS), "manner": of_kinds(MANNERS)}, ("tamper", "manner"))
CASE: Dict[str, Test] = {
    "format": word_of("flat", "elf", "asm"),
    "image": string,
    "input": digits(MAX_INPUT_BYTES),
    "bound": whole(*LIMITS["bound"]),
    "patience": whole(*LIMITS["patience"]),
    "version": whole(*LIMITS["version"]),
    "fan": whole(*LIMITS["fan"]),
    "stake": whole(0, MAX_STAKE),
    "provers": array(1, MAX_PROVERS, PROVER),
    "tasks": no_tasks,
}


def mistakes_of_case(case: Any, where: str) -> Iterator[str]:
    """A sentence for each mistake in a case, and for each key that is ignored."""
    has_text = isinstance(case, dict) and case.get("format") == "asm"
    tests = {**CASE, "image": string if has_text else digits()}
    yield from members(tests, ("version", "fan", "stake", "tasks"))(case, where)


def mistakes_of(tree: Any) -> Iterator[str]:
    """The same for a case or tasks."""
    if not isinstance(tree, dict) or "tasks" not in tree:
        yield from mistakes_of_case(tree, "the case")
        return
    for key in tree:
        if key != "tasks":
            yield f"the top: the key {shown(key)} is ignored beside \"tasks\"; each task has keys of its own"
    yield from twice(tree, "the top")
    yield from array(1, MAX_TASKS, mistakes_of_case)(tree["tasks"], "tasks")
