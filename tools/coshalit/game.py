"""A match played from its full text: who is out, where and why, and what `refcli audit` answers (docs/GAME.md, docs/AUDIT.md)."""
from __future__ import annotations

from typing import Callable, Dict, Iterator, List, NamedTuple, NoReturn, Optional, Tuple

from .answers import Answer, Claim, Proof, Roots
from .commitments import DIGESTS
from .matches import Dispute, Match, Round, ends_of, kept_part, lines_of_balances
from .process import shown
from .referee import NOT_OPEN, WRONG_SHAPE, Refused, claims_collide, leads, proofs_collide
from .texts import FullText, Move, NoText, read

NOT_ASKED, OTHER_REPLY, OTHER_VERDICT, MOVES_MISSING, MOVES_AFTER_END = 1, 2, 3, 4, 5
WHY = {WRONG_SHAPE: "it has another shape than its step", NOT_OPEN: "it doesn't open the root that both agree on"}


class NoMatch(Exception):
    """The text isn't that of a match: the line that `refcli audit` writes of it, and why, in words."""

    def __init__(self, answer: str, why: str) -> None:
        super().__init__(why)
        self.answer = answer


class JudgedProof(NamedTuple):
    """A proof of a step before the referee: the root on which both sides agree, its side's own after the step, and why it is refuted."""

    dispute: int
    prover: int
    digits: str
    agreed: bytes
    own: bytes
    why: Optional[str]


class Played:
    """A full text that is played. `match` is its match, `why` says of each prover that is out where and why, `proofs` are those that were judged.

    It raises `NoMatch`.
    """

    def __init__(self, text: FullText) -> None:
        self.text, self.at = text, 0
        self.digest = DIGESTS[text.head.digest]
        self.match = Match(text.head)
        self.claims: Dict[int, Claim] = {}
        self.why: Dict[int, str] = {}
        self.proofs: List[JudgedProof] = []
        self.collision: Optional[Tuple[bytes, bytes]] = None
        self.found_by = ""  # how the collision was found
        self.play()

    # Lines

    def refuse(self, cause: int, why: str) -> NoReturn:
        line = self.at + 2
        raise NoMatch(f"refused {line} {cause}", f"line {line}: {why}")

    def take(self, dispute: int, round_: int, prover: int, is_fit: Callable[[Answer], bool]) -> Move:
        """The next line, which has to answer this question, and to say `given` if the answer fits and `faulty` if not."""
        wanted = f"`move {dispute} {round_} p{prover} ..` comes here"
        if self.at == len(self.text.moves):
            self.refuse(MOVES_MISSING, wanted)
        move = self.text.moves[self.at]
        if move.question() != (dispute, round_, prover):
            self.refuse(NOT_ASKED, wanted)
        if move.answer is not None:
            word = "given" if is_fit(move.answer) else "faulty"
            if move.word != word:
                self.refuse(OTHER_REPLY, f"its word has to be `{word}`")
        self.at += 1
        return move

    def play(self) -> None:
        for prover in range(1, self.text.head.provers + 1):
            self.take_claim(prover)
        self.find_collision_of_claims()
        while self.collision is None and self.play_stage():
            pass
        verdict = self.verdict()
        if self.at != len(self.text.moves):
            self.refuse(MOVES_AFTER_END, f"the match has ended: `{shown(verdict)}` comes here")
        if self.text.verdict != verdict:
            self.refuse(OTHER_VERDICT, f"`{shown(verdict)}` comes here")
        self.match.verdict = verdict

    def verdict(self) -> str:
        if self.collision is not None:
            return f"collision {self.collision[0].hex()} {self.collision[1].hex()}"
        live = self.match.live()
        return f"accept {self.match.claims[live[0]]}" if live else "none left"

    # Claims

    def take_claim(self, prover: int) -> None:
        move = self.take(0, 0, prover, lambda answer: isinstance(answer, Claim) and answer.is_sound(self.digest))
        if move.word == "given" and isinstance(move.answer, Claim):
            self.claims[prover] = move.answer
            self.match.claims[prover] = move.answer.words()
            self.match.roots[prover] = self.digest(move.answer.state_string(self.digest))
        else:
            self.match.unclaimed[prover] = move.word
            self.why[prover] = f"at its claim: {move.word}"

    def find_collision_of_claims(self) -> None:
        roots = self.match.roots
        for one in self.claims:
            for other in self.claims:
                if one < other and roots[one] == roots[other] and self.claims[one] != self.claims[other]:
                    self.collision = claims_collide(self.digest, self.claims[one], self.claims[other])
                    self.found_by = f"the claims of p{one} and p{other} have one root"
                    return

    # Disputes

    def play_stage(self) -> bool:
        """Plays the disputes of a stage. Whether there was one."""
        unpaired, pairs = self.match.live(), []
        while unpaired:
            first = unpaired.pop(0)
            second = next((prover for prover in unpaired if self.match.roots[prover] != self.match.roots[first]), None)
            if second is not None:
                unpaired.remove(second)
                pairs.append((first, second))
        if pairs:
            self.match.stages.append([])
        for sides in pairs:
            self.play_dispute(sides)
        return bool(pairs)

    def play_dispute(self, sides: Tuple[int, int]) -> None:
        dispute = Dispute(len(self.match.disputes()) + 1, sides)
        self.match.stages[-1].append(dispute)
        low, high, fan = 0, self.text.head.bound, self.text.head.fan
        agreed, own = self.text.start, [self.match.roots[side] for side in sides]
        while high - low > 1:
            ends, number = ends_of(low, high, fan), len(dispute.rounds) + 1
            moves = [self.take(dispute.number, number, side, lambda answer: self.are_roots_at(answer, ends)) for side in sides]
            given = [move.answer.roots for move in moves if move.word == "given" and isinstance(move.answer, Roots)]
            each = Round(number, low, high, ends, (moves[0].word, moves[1].word))
            dispute.rounds.append(each)
            if len(given) < 2:
                self.close(dispute, f"round {number}", dispute.out())
                return
            each.part = part = kept_part(*given)
            if part > 0:
                agreed = given[0][part - 1]
            if part < len(given[0]):
                own = [roots[part] for roots in given]
            low, high = ends[part], ends[part + 1]
        self.play_proofs(dispute, low, agreed, own)

    def are_roots_at(self, answer: Answer, ends: List[int]) -> bool:
        """Whether an answer is of the kind that a round with these ends asks, with a root for each cut."""
        return isinstance(answer, Roots) and answer.is_list == (self.text.head.fan > 2) and len(answer.roots) == len(ends) - 2

    def play_proofs(self, dispute: Dispute, low: int, agreed: bytes, own: List[bytes]) -> None:
        number, words, why, proved = len(dispute.rounds) + 1, [], {}, []
        for side, root in zip(dispute.sides, own):
            move = self.take(dispute.number, number, side, lambda answer: isinstance(answer, Proof))
            word, reason = move.word, move.word
            if isinstance(move.answer, Proof):
                refuted = self.why_refuted(move.answer, agreed, root)
                self.proofs.append(JudgedProof(dispute.number, side, move.digits, agreed, root, refuted))
                word, reason = ("proved", "") if refuted is None else ("refuted", f"refuted, {refuted}")
                proved += [move.answer] if refuted is None else []
            words.append(word)
            why[side] = reason
        dispute.rounds.append(Round(number, low, low + 1, [low, low + 1], (words[0], words[1])))
        self.close(dispute, f"step {low}", {side: why[side] for side in dispute.out()})
        if len(proved) == 2 and self.collision is None:
            self.collision = proofs_collide(self.digest, self.text.head.version, agreed, proved[0], proved[1])
            self.found_by = f"p{dispute.sides[0]} and p{dispute.sides[1]} both proved step {low} in dispute {dispute.number}"

    def why_refuted(self, proof: Proof, agreed: bytes, own: bytes) -> Optional[str]:
        """Why a proof is refuted; None if it is proved."""
        try:
            led = leads(self.digest, self.text.head.version, agreed, proof)
        except Refused as refused:
            return WHY[str(refused)]
        return None if led == own else "its step leads to another root than its own"

    def close(self, dispute: Dispute, where: str, out: Dict[int, str]) -> None:
        for side, why in out.items():
            other = dispute.sides[0] if side == dispute.sides[1] else dispute.sides[1]
            self.why[side] = f"in dispute {dispute.number} with p{other}, {where}: {why}"

    def lines(self, stake: Optional[int] = None) -> Iterator[str]:
        """The claimed roots, a line for each prover, the balances if there is a stake, and the verdict."""
        for prover, root in self.match.roots.items():
            yield f"p{prover} claims the root {root.hex()}"
        for prover in range(1, self.text.head.provers + 1):
            yield f"p{prover} is out {self.why[prover]}" if prover in self.why else f"p{prover} stays"
        if self.collision is not None:
            yield f"a collision: {self.found_by}"
        if stake is not None:
            yield from lines_of_balances(self.match.balances_of(stake))
        yield self.match.verdict


def played(content: bytes) -> Played:
    """The match of a full text, played. It raises `NoMatch`."""
    try:
        text = read(content)
    except NoText as fault:
        raise NoMatch(fault.answer, str(fault)) from None
    return Played(text)


def audited(content: bytes) -> str:
    """The line that `refcli audit` writes of these bytes."""
    try:
        return f"confirmed {played(content).match.verdict}"
    except NoMatch as fault:
        return fault.answer
