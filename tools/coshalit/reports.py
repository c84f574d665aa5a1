"""Reports of `refcli judge`: the only reader of their grammar ('The grammar' of docs/TEXTS.md)."""
from __future__ import annotations

import re
from typing import List, NoReturn, Optional

from .matches import MOST_DIGITS, NUMBER, NUMBERS, Dispute, Head, Match, OutOfLimits, Round, ends_of, start_of_round
from .process import shown

RESULT = rf"(?:running|(?:exited|trapped) {NUMBER}) output(?: [0-9a-f]+)?"
COLLISION = "collision [0-9a-f]+ [0-9a-f]+"
GIVEN, PROVED = "(given|faulty|spent)", "(proved|refuted|faulty|spent)"


class NoReport(Exception):
    """The text isn't a report, with the reason."""


class Reader:
    """A report that is read line by line. It raises `NoReport`."""

    def __init__(self, text: str) -> None:
        if text.startswith("refereed provers "):
            raise NoReport("it is a full text; leave out --full")
        lines = text.split("\n")
        if lines.pop() != "":
            raise NoReport("its last line has no line feed")
        self.lines, self.at = lines, 0

    def take(self, pattern: str) -> Optional[re.Match[str]]:
        """The next line, if it has this form; its numbers have at most twenty digits, its bytes two digits each."""
        found = re.fullmatch(pattern, self.lines[self.at]) if self.at < len(self.lines) else None
        if found is None:
            return None
        if any(group and group.isdigit() and len(group) > MOST_DIGITS for group in found.groups()):
            self.stop("has a number of too many digits")
        self.at += 1
        return found

    def stop(self, why: str) -> NoReturn:
        if self.at == len(self.lines):
            raise NoReport("it ends before a verdict")
        raise NoReport(f"line {self.at + 1} {why}: {shown(self.lines[self.at])}")

    def bytes_of(self, digits: str) -> None:
        """Demands that the line before ends in whole bytes."""
        if any(len(word) % 2 for word in digits.split(" ")):
            self.at -= 1
            self.stop("has half a byte")

    def match(self) -> Match:
        found = self.take(f"match{NUMBERS}")
        try:
            head = None if found is None else Head.of(found.groups()[:5], found[6])
        except OutOfLimits:
            head = None
        if head is None:
            self.at = 0
            self.stop("isn't the first line of a report")
        match = Match(head)
        for prover in range(1, head.provers + 1):
            self.read_claim(match, prover)
        while self.take(f"stage {len(match.stages) + 1}"):
            match.stages.append([])
            self.read_stage(match)
        self.read_balances(match)
        verdict = self.take(f"accept ({RESULT})") or self.take("none left") or self.take(COLLISION)
        if verdict is None:
            self.stop("isn't the next line of a report")
        if not verdict[0].startswith("none"):
            self.bytes_of(verdict[0].partition(" output ")[2] if verdict[0].startswith("accept") else verdict[0][len("collision ") :])
        match.verdict = verdict[0]
        if self.at != len(self.lines):
            self.stop("follows the verdict")
        return match

    def read_claim(self, match: Match, prover: int) -> None:
        claim = self.take(f"p{prover} claims ({RESULT})")
        if claim is not None:
            self.bytes_of(claim[1].partition(" output ")[2])
            match.claims[prover] = claim[1]
            return
        out = self.take(f"out p{prover} (faulty|spent)")
        if out is None:
            self.stop(f"isn't the claim of prover {prover}")
        match.unclaimed[prover] = out[1]

    def read_stage(self, match: Match) -> None:
        unpaired, number = set(match.claims) - set(match.out()), len(match.disputes()) + 1
        while True:
            head = self.take(f"dispute {number} p{NUMBER} p{NUMBER}")
            if head is None:
                break
            sides = int(head[1]), int(head[2])
            if sides[0] == sides[1] or not set(sides) <= unpaired:
                self.at -= 1
                self.stop("names a prover that is out, or twice in one stage")
            unpaired -= set(sides)
            dispute = Dispute(number, sides)
            self.read_rounds(match.head, dispute)
            match.stages[-1].append(dispute)
            number += 1
        if not match.stages[-1]:
            self.stop("isn't a dispute")

    def read_rounds(self, head: Head, dispute: Dispute) -> None:
        first, second = dispute.sides
        low, high, number = 0, head.bound, 1
        while high - low > 1:
            ends = ends_of(low, high, head.fan)
            start = start_of_round(head.fan, number, ends)
            found = self.take(f"{start} p{first} {GIVEN} p{second} {GIVEN}")
            if found is not None:
                dispute.rounds.append(Round(number, low, high, ends, (found[1], found[2])))
                if not dispute.out():
                    self.at -= 1
                    self.stop("ends a dispute, and nobody is out")
                return
            found = self.take(f"{start} (same|differ)" if head.fan == 2 else f"{start} keep {NUMBER}")
            part = -1 if found is None else {"differ": 0, "same": 1}[found[1]] if head.fan == 2 else int(found[1]) - 1
            if not 0 <= part < len(ends) - 1:
                self.at -= found is not None
                self.stop(f"isn't `{start} ..`")
            dispute.rounds.append(Round(number, low, high, ends, ("given", "given"), part))
            low, high, number = ends[part], ends[part + 1], number + 1
        found = self.take(f"step {low} p{first} {PROVED} p{second} {PROVED}")
        if found is None:
            self.stop(f"isn't `step {low} ..`")
        dispute.rounds.append(Round(number, low, high, [low, high], (found[1], found[2])))

    def read_balances(self, match: Match) -> None:
        """What each prover has at the end, and the pool; nothing if the match has no stakes."""
        of: List[int] = []
        for prover in range(1, match.head.provers + 1):
            found = self.take(f"balance p{prover} {NUMBER}")
            if found is None and prover == 1:
                return
            if found is None:
                self.stop(f"isn't the balance of prover {prover}")
            of.append(int(found[1]))
        pool = self.take(f"pool {NUMBER}")
        if pool is None:
            self.stop("isn't the pool")
        match.balances = of, int(pool[1])


def read(text: str) -> Match:
    """The match of a report. It raises `NoReport`."""
    return Reader(text).match()


def parts_of_tasks(text: str) -> List[str]:
    """The texts of the tasks of a text, in their order; none if the text is that of one match."""
    parts: List[List[str]] = []
    for line in re.findall("[^\n]*\n|[^\n]+", text) if text.startswith("task 1\n") else ():
        if line == f"task {len(parts) + 1}\n":
            parts.append([])
        else:
            parts[-1].append(line)
    return ["".join(lines) for lines in parts]
