"""What a match is, however it was read, and the lines of its report (docs/GAME.md, 'The report' of docs/TEXTS.md)."""
from __future__ import annotations

from dataclasses import dataclass, field
from typing import Dict, Iterator, List, Optional, Tuple

# The least and the greatest number of each word of a head.
LIMITS = {"provers": (1, 16), "bound": (1, 4_294_967_295), "patience": (0, 100), "version": (1, 3), "fan": (2, 16)}
NUMBER = "(0|[1-9][0-9]*)"
NUMBERS = "".join(f" {name} {NUMBER}" for name in LIMITS) + " digest (sha256|weak8)"
# Numbers of texts have no more digits.
MOST_DIGITS = 20


class OutOfLimits(Exception):
    """A number isn't within its limits."""


@dataclass
class Head:
    """The first line of a report or a full text, without its word."""

    provers: int
    bound: int
    patience: int
    version: int
    fan: int
    digest: str

    @classmethod
    def of(cls, digits: Tuple[str, ...], digest: str) -> Head:
        """A head of these numbers, as they are written. It raises `OutOfLimits`."""
        for text, (least, most) in zip(digits, LIMITS.values()):
            if len(text) > MOST_DIGITS or not least <= int(text) <= most:
                raise OutOfLimits
        provers, bound, patience, version, fan = map(int, digits)
        return cls(provers, bound, patience, version, fan, digest)

    def words(self) -> str:
        return "".join(f" {name} {getattr(self, name)}" for name in LIMITS) + f" digest {self.digest}"


def ends_of(low: int, high: int, fan: int) -> List[int]:
    """The ends of the parts into which a round cuts an interval."""
    parts = min(fan, high - low)
    return [low + part * (high - low) // parts for part in range(parts + 1)]


def kept_part(first: List[bytes], second: List[bytes]) -> int:
    """Which part is kept, from 0, of the roots that two sides gave at the cuts between."""
    return next((part for part, (one, other) in enumerate(zip(first, second)) if one != other), len(first))


@dataclass
class Round:
    """A round of a dispute: the interval that was left, the ends of its parts, what each side's answer was, and which part is kept, from 0.

    The round with an interval of one step is that of the proofs. Of answers that are kept both words are `given`.
    """

    number: int
    low: int
    high: int
    ends: List[int]
    words: Tuple[str, str]
    part: Optional[int] = None

    def is_step(self) -> bool:
        return self.high - self.low == 1

    def cuts(self) -> List[int]:
        return self.ends[1:-1]

    def kept(self) -> Optional[Tuple[int, int]]:
        return None if self.part is None else (self.ends[self.part], self.ends[self.part + 1])


@dataclass
class Dispute:
    """Two provers that claim two roots, and their rounds."""

    number: int
    sides: Tuple[int, int]
    rounds: List[Round] = field(default_factory=list)

    def out(self) -> Dict[int, str]:
        """The sides that it puts out, with the word why."""
        last = self.rounds[-1]
        stays = "proved" if last.is_step() else "given"
        return {} if last.part is not None else {side: word for side, word in zip(self.sides, last.words) if word != stays}


Balances = Tuple[List[int], int]


@dataclass
class Match:
    """A match: what each prover claims, as a text has it, or why it has no claim; the disputes of each stage; and the verdict.

    `roots` has the claimed roots, if they are known: a full text has them, and a report has none. `balances` are what each prover has at the
    end, and the pool, if the text says so.
    """

    head: Head
    claims: Dict[int, str] = field(default_factory=dict)
    unclaimed: Dict[int, str] = field(default_factory=dict)
    stages: List[List[Dispute]] = field(default_factory=list)
    verdict: str = ""
    roots: Dict[int, bytes] = field(default_factory=dict)
    balances: Optional[Balances] = None

    def disputes(self) -> List[Dispute]:
        return [dispute for stage in self.stages for dispute in stage]

    def out(self) -> Dict[int, str]:
        """The provers that are out, with the word why: `faulty`, `spent` or `refuted`."""
        found = dict(self.unclaimed)
        for dispute in self.disputes():
            found.update(dispute.out())
        return found

    def live(self) -> List[int]:
        """The provers that aren't out."""
        out = self.out()
        return [prover for prover in self.claims if prover not in out]

    def balances_of(self, stake: int) -> Balances:
        """What each prover has at the end, and the pool, if each puts down this stake ('Deposits' of docs/GAME.md)."""
        out, won, pooled = self.out(), dict.fromkeys(range(1, self.head.provers + 1), 0), len(self.unclaimed)
        for dispute in self.disputes():
            losers = dispute.out()
            if len(losers) == 2:
                pooled += 2
            elif losers:
                won[next(side for side in dispute.sides if side not in losers)] += 1
        return [stake * (times + (prover not in out)) for prover, times in won.items()], stake * pooled

    def lines(self) -> Iterator[str]:
        """The lines of the report."""
        yield f"match{self.head.words()}"
        for prover in range(1, self.head.provers + 1):
            yield f"p{prover} claims {self.claims[prover]}" if prover in self.claims else f"out p{prover} {self.unclaimed[prover]}"
        for number, disputes in enumerate(self.stages, 1):
            yield f"stage {number}"
            for dispute in disputes:
                yield f"dispute {dispute.number} p{dispute.sides[0]} p{dispute.sides[1]}"
                for each in dispute.rounds:
                    yield self.line_of(dispute, each)
        if self.balances is not None:
            yield from lines_of_balances(self.balances)
        yield self.verdict

    def line_of(self, dispute: Dispute, each: Round) -> str:
        """The line of a round."""
        sides = " ".join(f"p{side} {word}" for side, word in zip(dispute.sides, each.words))
        if each.is_step():
            return f"step {each.low} {sides}"
        found = sides
        if each.part is not None:
            found = ("differ", "same")[each.part] if self.head.fan == 2 else f"keep {each.part + 1}"
        return f"{start_of_round(self.head.fan, each.number, each.ends)} {found}"


def start_of_round(fan: int, number: int, ends: List[int]) -> str:
    """How the line of a round begins, the proofs' excepted."""
    if fan == 2:
        return f"round {number} at {ends[1]}"
    return f"round {number} in {ends[0]} {ends[-1]} by {len(ends) - 1}"


def lines_of_balances(balances: Balances) -> Iterator[str]:
    of, pool = balances
    for prover, balance in enumerate(of, 1):
        yield f"balance p{prover} {balance}"
    yield f"pool {pool}"
