"""The board of a match, written from docs/GAME.md, docs/OPEN_MATCH.md and docs/AUDIT.md alone. It shares nothing with tools/.

A `Board` takes posts by anybody, in any order, and knows who is asked what. `second_referee` plays the matches of examples/vectors
on it, and `second_game` full texts.
"""
import itertools
from typing import NamedTuple

from referee import NOT_OPEN, WRONG_SHAPE, Refused, cuts_of, kept_part, leads
from wire_forms import CLAIM, DIGESTS, EXITED, ROOT, ROOTS, RUNNING, STEP_1, TRAPPED, Claim, Proof, Roots, read_answer

GIVEN, FAULTY, SPENT = "given", "faulty", "spent"
TAKEN, STALE = "taken", "stale"
STATUS_WORDS = {RUNNING: "running", EXITED: "exited {}", TRAPPED: "trapped {}"}
WHY = {WRONG_SHAPE: "it has another shape than its step", NOT_OPEN: "it doesn't open the root that both agree on"}


class Numbers(NamedTuple):
    """The numbers by which a match is played, and the root of the state at step 0."""

    version: int
    provers: int
    fan: int
    patience: int
    bound: int
    start: bytes
    digest: str = "sha256"


class Question(NamedTuple):
    """What a prover is asked. The kind is the tag of the answer's wire form, and of each proof that of version 1."""

    prover: int
    dispute: int
    round: int
    kind: int
    parts: int = 0  # of several roots: in how many parts the interval is cut
    low: int = 0  # the step of a root or of a proof; of several roots the interval's low end
    high: int = 0  # of several roots: the interval's high end


class Dispute:
    """Two provers, and the interval in which they part: its agreed root, and each side's own root at its high end."""

    def __init__(self, number, sides, bound, agreed, own):
        self.number, self.sides, self.agreed, self.own = number, sides, agreed, own
        self.low, self.high, self.round = 0, bound, 1
        self.settled = {}  # of this round, by side: the word and the answer

    def other(self, side):
        return self.sides[0] if side == self.sides[1] else self.sides[1]

    def keep(self, cuts, given):
        """Keeps the first part at whose end the roots that were given differ, or the last."""
        first, second = (given[side] for side in self.sides)
        part = kept_part(first, second)
        if part > 0:
            self.agreed = first[part - 1]
        if part < len(first):
            self.own = {side: given[side][part] for side in self.sides}
        self.low, self.high, self.round = cuts[part], cuts[part + 1], self.round + 1


class Board:
    """A match: the open questions, the settled answers, and what came of them."""

    def __init__(self, numbers):
        self.numbers, self.digest = numbers, DIGESTS[numbers.digest]
        everybody = range(1, numbers.provers + 1)
        self.asked = {prover: Question(prover, 0, 0, CLAIM) for prover in everybody}
        self.passes = dict.fromkeys(everybody, 0)  # on the open question
        self.moves = {}  # by dispute, round and prover: the word and the bytes
        self.claims, self.roots = {}, {}
        self.disputes = {}  # by number
        self.stages = 0
        self.out = {}  # by prover, in words
        self.won, self.pooled = dict.fromkeys(everybody, 0), 0  # in stakes
        self.collision = None
        self.collisions = {}  # of proofs, by dispute

    def post(self, prover, dispute, round_, sent):
        """The reply to the bytes of an answer, or to a pass, which has none. It raises `BadForm` if they are no answer."""
        answer = read_answer(sent) if sent else None
        question = self.asked.get(prover)
        if question is None or (question.dispute, question.round) != (dispute, round_):
            return STALE
        if answer is None:
            self.passes[prover] += 1
            if self.passes[prover] <= self.numbers.patience:
                return TAKEN
            word = SPENT
        else:
            word = GIVEN if self.fits(question, answer) else FAULTY
        self.moves[dispute, round_, prover] = word, sent
        del self.asked[prover]
        if dispute == 0:
            self.settle_claim(prover, word, answer)
        else:
            self.settle(self.disputes[dispute], prover, word, answer)
        if not self.asked:
            self.begin_stage()
        return TAKEN if word == GIVEN else word

    def fits(self, question, answer):
        """Whether an answer is of the kind that is asked for, a claim sound, and a list of roots of its length."""
        if question.kind == CLAIM:
            return isinstance(answer, Claim) and answer.is_sound(self.digest)
        if question.kind == STEP_1:
            return isinstance(answer, Proof)
        count = question.parts - 1 if question.kind == ROOTS else 1
        return isinstance(answer, Roots) and answer.is_list == (question.kind == ROOTS) and len(answer.roots) == count

    def ask(self, dispute):
        """Asks both sides of a dispute for its next round."""
        length = dispute.high - dispute.low
        if length == 1:
            what = STEP_1, 0, dispute.low
        elif self.numbers.fan == 2:
            what = ROOT, 0, dispute.low + length // 2
        else:
            what = ROOTS, min(self.numbers.fan, length), dispute.low, dispute.high
        dispute.settled = {}
        for side in dispute.sides:
            self.asked[side] = Question(side, dispute.number, dispute.round, *what)
            self.passes[side] = 0

    def settle_claim(self, prover, word, claim):
        if word == GIVEN:
            self.claims[prover], self.roots[prover] = claim, claim.root(self.digest)
            return
        self.out[prover] = f"at its claim: {word}"
        self.pooled += 1

    def settle(self, dispute, side, word, answer):
        """Settles a side's answer, and the round if the other side's is settled too."""
        dispute.settled[side] = word, answer
        if len(dispute.settled) < 2:
            return
        if dispute.high - dispute.low == 1:
            self.settle_proofs(dispute)
            return
        out = {side: word for side, (word, _) in dispute.settled.items() if word != GIVEN}
        if out:
            self.close(dispute, f"round {dispute.round}", out)
            return
        given = {side: answer.roots for side, (_, answer) in dispute.settled.items()}
        dispute.keep(cuts_of(dispute.low, dispute.high, self.numbers.fan), given)
        self.ask(dispute)

    def settle_proofs(self, dispute):
        out = {}
        for side, (word, proof) in dispute.settled.items():
            why = self.why_not(proof, dispute.agreed, dispute.own[side]) if word == GIVEN else word
            if why is not None:
                out[side] = why
        if out:
            self.close(dispute, f"step {dispute.low}", out)
            return
        strings = (strings_of_proof(self.digest, self.numbers.version, dispute.agreed, dispute.settled[side][1]) for side in dispute.sides)
        self.collisions[dispute.number] = pair(self.digest, *strings)

    def why_not(self, proof, agreed, own):
        """Why a proof is refuted; None if it is proved."""
        try:
            led = leads(self.digest, self.numbers.version, agreed, proof)
        except Refused as refused:
            return f"refuted, {WHY[str(refused)]}"
        return None if led == own else "refuted, its step leads to another root than its own"

    def close(self, dispute, where, out):
        """Closes a dispute of which a side is out. Its stake is the other side's, or the pool's if both are out."""
        for side, why in out.items():
            other = dispute.other(side)
            self.out[side] = f"in dispute {dispute.number} with p{other}, {where}: {why}"
            if other in out:
                self.pooled += 1
            else:
                self.won[other] += 1

    def live(self):
        return [prover for prover in sorted(self.claims) if prover not in self.out]

    def begin_stage(self):
        """Pairs the live provers, if the match isn't over. All claims are settled, and all disputes have closed."""
        if not self.disputes:
            self.collision = self.collision_of_claims()
        elif self.collisions:
            self.collision = self.collisions[min(self.collisions)]
        pairs = [] if self.collision else pairs_of(self.live(), self.roots)
        self.stages += bool(pairs)
        for sides in pairs:
            own = {side: self.roots[side] for side in sides}
            dispute = Dispute(len(self.disputes) + 1, sides, self.numbers.bound, self.numbers.start, own)
            self.disputes[dispute.number] = dispute
            self.ask(dispute)

    def collision_of_claims(self):
        """Of the least pair of claims that differ and have one root, two strings that differ and have one digest."""
        for one, other in itertools.combinations(sorted(self.claims), 2):
            if self.roots[one] == self.roots[other]:
                found = pair(self.digest, *(strings_of_claim(self.digest, self.claims[prover]) for prover in (one, other)))
                if found:
                    return found
        return None

    def verdict(self):
        """The last line of the texts of a match that is over."""
        if self.collision:
            return self.collision
        live = self.live()
        return accepted(self.claims[live[0]]) if live else "none left"

    def balances(self, stake):
        """What each prover has, and the pool, if the stake of a prover that is out goes to who put it out."""
        return [stake * (won + (prover not in self.out)) for prover, won in self.won.items()], stake * self.pooled

    def burned(self, stake):
        """What each prover has, and how much is burned, if the stake of a prover that is out is burned."""
        return [stake * (prover not in self.out) for prover in self.won], stake * len(self.out)

    def text(self):
        """The full text of a match that is over."""
        told = self.numbers
        yield (
            f"refereed provers {told.provers} bound {told.bound} patience {told.patience} version {told.version} fan {told.fan}"
            f" digest {told.digest} start {told.start.hex()}"
        )
        for (dispute, round_, prover), (word, sent) in sorted(self.moves.items()):
            yield f"move {dispute} {round_} p{prover} {word}{'' if word == SPENT else f' {sent.hex()}'}"
        yield self.verdict()


def pairs_of(provers, roots):
    """The pairs of a stage: of live provers, by number, each with the lowest later one whose claimed root is another."""
    unpaired, pairs = list(provers), []
    while unpaired:
        first = unpaired.pop(0)
        second = next((prover for prover in unpaired if roots[prover] != roots[first]), None)
        if second is not None:
            unpaired.remove(second)
            pairs.append((first, second))
    return pairs


def accepted(claim):
    control = claim.control
    digits = f" {claim.output.hex()}" if claim.output else ""
    return f"accept {STATUS_WORDS[control.status].format(control.code)} output{digits}"


# Two different strings with one digest ('Proofs of one step' of docs/COMMITMENTS.md)


def recording(digest, strings):
    """The digest, which also writes down what it digests."""

    def recorded(string):
        strings.append(string)
        return digest(string)

    return recorded


def strings_of_claim(digest, claim):
    """The strings of a claim, in the order in which two are compared: state, control, links."""
    strings = []
    claim.is_sound(recording(digest, strings))
    claim.root(recording(digest, strings))
    return [strings[-1], strings[-2], *strings[:-2]]


def strings_of_proof(digest, version, agreed, proof):
    """The strings that a proof which leads opens, in the order in which two are compared."""
    strings = []
    leads(recording(digest, strings), version, agreed, proof)
    openings = [*filter(None, (proof.fetched, proof.data, proof.input)), *proof.opened]
    # First come registers or storage, control and state, and the path of each opening has one string more than siblings.
    parts = 2 if version == 2 else 3
    order = [4, 8, 2, 3]
    count = sum(len(opening.siblings) + 1 for opening in openings)
    return sorted(strings[:parts], key=lambda string: order.index(string[0])) + strings[parts : parts + count]


def pair(digest, first, second):
    """The first strings of two lists that differ and have one digest, as a verdict; None if there are none."""
    found = next(((one, other) for one, other in zip(first, second) if one != other and digest(one) == digest(other)), None)
    return found and f"collision {found[0].hex()} {found[1].hex()}"
