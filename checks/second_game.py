"""A match played from its full text, a second time, from docs/GAME.md, docs/TEXTS.md and docs/AUDIT.md alone. It shares nothing with tools/."""
import re

from second_board import GIVEN, SPENT, TAKEN, Board, Numbers
from wire_forms import BadForm

NUMBER = "(0|[1-9][0-9]*)"
NUMBERS = "".join(f" {word} {NUMBER}" for word in ("provers", "bound", "patience", "version", "fan"))
HEAD = re.compile(rf"refereed{NUMBERS} digest (sha256|weak8) start ([0-9a-f]{{64}})")
MOVE = re.compile(rf"move {NUMBER} {NUMBER} p{NUMBER} (?:(given|faulty) ((?:[0-9a-f]{{2}})+)|(spent))")
LIMITS = (1, 16), (1, (1 << 32) - 1), (0, 100), (1, 3), (2, 16)


class NoMatch(Exception):
    """The text isn't that of a match, with the reason."""


def board_of(head):
    """The board before the first post of a match with this head."""
    found = HEAD.fullmatch(head)
    if found is None:
        raise NoMatch("line 1 isn't the head of a full text")
    numbers = [int(digits) for digits in found.groups()[:5] if len(digits) <= 10]
    if len(numbers) < 5 or any(not least <= value <= most for value, (least, most) in zip(numbers, LIMITS)):
        raise NoMatch("line 1: a number is out of its limits")
    provers, bound, patience, version, fan = numbers
    return Board(Numbers(version, provers, fan, patience, bound, bytes.fromhex(found[7]), found[6]))


class Text:
    """A match as its full text has it."""

    def __init__(self, text):
        lines = text.split("\n")
        if lines.pop() != "" or len(lines) < 2:
            raise NoMatch("a full text has a head and a verdict, and each line its line feed")
        self.board = board_of(lines[0])
        for line in lines[1:-1]:
            self.play(line)
        if self.board.asked or lines[-1] != self.board.verdict():
            raise NoMatch("the last line isn't the verdict of those before it")

    def play(self, line):
        """Posts what a line says. The next one is the claim of the lowest prover, or of the lowest dispute, of its first side."""
        found = MOVE.fullmatch(line)
        asked = min(self.board.asked.values(), key=lambda question: (question.dispute, question.prover), default=None)
        if asked is None or found is None or found.groups()[:3] != (str(asked.dispute), str(asked.round), str(asked.prover)):
            raise NoMatch(f"{line[:60]} isn't the next move")
        word, sent = found[4] or SPENT, bytes.fromhex(found[5] or "")
        try:
            replies = [self.board.post(asked.prover, asked.dispute, asked.round, sent) for _ in range(self.passes(word))]
        except BadForm:
            raise NoMatch(f"{line[:60]} has digits that are no wire form") from None
        if replies[-1] != (TAKEN if word == GIVEN else word):
            raise NoMatch(f"{line[:60]} says {word}, and it is {replies[-1]}")

    def passes(self, word):
        """By how many posts an answer is settled."""
        return self.board.numbers.patience + 1 if word == SPENT else 1

    def written(self, stake):
        """What is printed: the claimed roots, a line for each prover, the balances, and the verdict."""
        board = self.board
        for prover, root in sorted(board.roots.items()):
            yield f"p{prover} claims the root {root.hex()}"
        for prover in board.won:
            yield f"p{prover} is out {board.out[prover]}" if prover in board.out else f"p{prover} stays"
        balances, pool = board.balances(stake)
        for prover, balance in enumerate(balances, 1):
            yield f"balance p{prover} {balance}"
        yield f"pool {pool}"
        yield board.verdict()
