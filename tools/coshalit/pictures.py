"""Matches as pictures, in SVG. Time runs down; `docs/GAME.md`, 'A match, drawn', says what is what."""
from __future__ import annotations

import re
from typing import Iterable, List, Optional, Sequence, Tuple
from xml.sax.saxutils import escape

from .colours import colour_of, is_open, lines_of, shaded, states_of
from .matches import Dispute, Match, Round

# Pixels.
ROW, MARGIN = 22, 28
BAR_WIDTH, BAR_HEIGHT = 320, 8
CHARACTER, BOLD_CHARACTER = 8, 10
SMALL, SMALL_CHARACTER = 11, 7
LANES_WIDTH = 480
# The scale changes where an interval is so many times shorter than it.
ZOOM = 8
# Of an output so many bytes are shown.
SHOWN_BYTES = 16
GREY, DARK, LIGHT, CROSS, SAME, DIFFER = "#8a8f98", "#23272e", "#d9dee6", "#c1121f", "#2a7f3f", "#c1121f"
ONE_TEXT = "one text may stand for several states: only a dispute shows them"


def short(text: str) -> str:
    """A claim or a verdict, without most of a long output or a string."""
    def cut(found: re.Match[str]) -> str:
        digits = found[0]
        if len(digits) <= 2 * SHOWN_BYTES:
            return digits
        return f"{digits[:2 * SHOWN_BYTES]}.. ({len(digits) // 2:,} bytes)"

    return re.sub("[0-9a-f]{8,}", cut, text)


def title_of(match: Match) -> str:
    head = match.head
    words = f"{head.provers} prover{'s' * (head.provers > 1)}, bound {head.bound:,}, patience {head.patience}"
    for name, usual in ("version", 1), ("fan", 2), ("digest", "sha256"):
        if getattr(head, name) != usual:
            words += f", {name} {getattr(head, name)}"
    return words


class Picture:
    """Shapes, laid out from the top down: lanes on the left, bars in the middle, words on the right. The title stands above."""

    def __init__(self, match: Match, title: str) -> None:
        provers = match.head.provers
        self.match, self.title = match, title
        self.shapes: List[str] = []
        self.space = min(64, LANES_WIDTH // max(1, provers - 1))
        self.lane = {prover: MARGIN + 8 + self.space * (prover - 1) for prover in range(1, provers + 1)}
        self.bars = self.lane[provers] + MARGIN + 16
        self.words = self.bars + BAR_WIDTH + 16
        self.width = self.words
        self.scale = 0, match.head.bound
        self.borders: List[int] = []  # between stages
        claims = list(dict.fromkeys(match.claims[prover] for prover in sorted(match.claims)))
        self.states = states_of(match)
        self.colours = {state: shaded(colour_of(claims.index(state[0]), len(claims)), state[1]) for state in lines_of(self.states)}
        self.y = MARGIN

    def add(self, kind: str, content: Optional[str] = None, **attributes: object) -> None:
        words = "".join(f' {name.replace("_", "-")}="{value}"' for name, value in attributes.items())
        self.shapes.append(f"<{kind}{words}/>" if content is None else f"<{kind}{words}>{escape(content)}</{kind}>")

    def text(self, x: int, content: str, **attributes: object) -> None:
        each = BOLD_CHARACTER if "font_weight" in attributes else CHARACTER
        self.width = max(self.width, x + each * len(content))
        self.add("text", content, x=x, y=self.y + 5, **attributes)

    def line(self, x1: int, y1: int, x2: int, y2: int, stroke: str, width: int = 1, **attributes: object) -> None:
        self.add("line", x1=x1, y1=y1, x2=x2, y2=y2, stroke=stroke, stroke_width=width, **attributes)

    def lane_colour(self, prover: int) -> str:
        state = self.states.get(prover)
        return GREY if state is None else self.colours[state]

    def down(self, provers: Iterable[int], rows: int, disputing: Sequence[int] = ()) -> None:
        """The lines of these provers go on for so many rows, thicker where they dispute."""
        for prover in provers:
            width = 5 if prover in disputing else 2
            self.line(self.lane[prover], self.y, self.lane[prover], self.y + ROW * rows, self.lane_colour(prover), width)
        self.y += ROW * rows

    def cross(self, prover: int) -> None:
        x, y = self.lane[prover], self.y
        self.line(x - 6, y - 6, x + 6, y + 6, CROSS, 3)
        self.line(x - 6, y + 6, x + 6, y - 6, CROSS, 3)

    def draw(self) -> Tuple[int, int]:
        """Lays all out. The size."""
        self.text(MARGIN, self.title, font_weight="bold")
        self.y += ROW + 6
        self.draw_claims()
        live = sorted(self.match.claims)
        for number, disputes in enumerate(self.match.stages, 1):
            live = self.draw_stage(number, disputes, live)
        self.draw_verdict(live)
        return self.width + MARGIN // 2, self.y + MARGIN // 2

    def draw_claims(self) -> None:
        match = self.match
        for prover, x in self.lane.items():
            self.text(x, f"p{prover}", text_anchor="middle")
        self.y += ROW
        top = self.y
        for state, colour in self.colours.items():
            claim, shade = state
            names = " ".join(f"p{prover}" for prover in sorted(match.claims) if self.states[prover] == state)
            self.add("rect", x=self.bars, y=self.y - 6, width=12, height=12, fill=colour)
            other = ", of another state than one above" if shade else ""
            self.text(self.bars + 20, f"{names} {'claims' if ' ' not in names else 'claim'} {short(claim)}{other}")
            self.y += ROW
        for why in "faulty", "spent":
            names = " ".join(f"p{prover}" for prover, word in match.unclaimed.items() if word == why)
            if names:
                self.text(self.bars + 20, f"{names} out: {'no answer' if why == 'spent' else 'a faulty claim'}")
                self.y += ROW
        if is_open(match, self.states):
            self.text(self.bars + 20, ONE_TEXT, font_size=SMALL)
            self.y += ROW
        rows = (self.y - top) // ROW
        self.y = top
        for prover in match.unclaimed:
            self.cross(prover)
        self.down(sorted(match.claims), rows)

    def draw_stage(self, number: int, disputes: Sequence[Dispute], live: List[int]) -> List[int]:
        self.borders.append(self.y + ROW // 2)
        self.down(live, 1)
        self.text(self.bars, f"stage {number}", font_weight="bold")
        self.down(live, 1)
        for dispute in disputes:
            live = self.draw_dispute(dispute, live)
        return live

    def draw_dispute(self, dispute: Dispute, live: List[int]) -> List[int]:
        sides, out = dispute.sides, dispute.out()
        low, high = (self.lane[prover] for prover in sides)
        self.line(low, self.y, high, self.y, DARK, 2, stroke_dasharray="2 3")
        for prover in sides:
            self.add("circle", cx=self.lane[prover], cy=self.y, r=6, fill=self.lane_colour(prover))
        self.text(self.words, f"dispute {dispute.number}: p{sides[0]} and p{sides[1]}")
        self.set_scale(0, self.match.head.bound)
        self.down(live, 1, sides)
        for each in dispute.rounds:
            if not each.is_step() and ZOOM * (each.high - each.low) <= self.scale[1] - self.scale[0]:
                self.zoom(each.low, each.high)
                self.down(live, 1, sides)
            self.draw_round(sides, each)
            is_last = each is dispute.rounds[-1]
            if is_last:
                for prover in out:
                    self.cross(prover)
                live = [prover for prover in live if prover not in out]
            self.down(live, 1, () if is_last else sides)
        return live

    def set_scale(self, low: int, high: int) -> None:
        """Bars are from now on drawn between these steps."""
        self.scale = low, high
        self.text(self.bars, f"{low:,}", font_size=SMALL)
        self.text(self.bars + BAR_WIDTH, f"{high:,}", font_size=SMALL, text_anchor="end")

    def zoom(self, low: int, high: int) -> None:
        """From the interval on the old scale, in the row above, to the same on a scale of its own."""
        top, foot = self.y - ROW + BAR_HEIGHT // 2, self.y + ROW - BAR_HEIGHT // 2
        ends = f"{self.at(low)},{top} {self.at(high)},{top} {self.bars + BAR_WIDTH},{foot} {self.bars},{foot}"
        self.add("polygon", points=ends, fill=LIGHT, fill_opacity="0.5")
        self.set_scale(low, high)

    def at(self, step: int) -> int:
        low, high = self.scale
        return self.bars + BAR_WIDTH * (step - low) // (high - low)

    def bar(self, low: int, high: int, fill: str) -> None:
        start, end = self.at(low), self.at(high)
        self.add("rect", x=start, y=self.y - BAR_HEIGHT // 2, width=end - start, height=BAR_HEIGHT, rx=2, fill=fill)

    def draw_round(self, sides: Tuple[int, int], each: Round) -> None:
        self.bar(each.low, each.high, DARK if each.is_step() else LIGHT)
        words = ", ".join(f"p{side} {word}" for side, word in zip(sides, each.words))
        if each.is_step():
            self.text(self.words, f"step {each.low:,}: {words}")
            return
        kept, cuts, is_halved = each.kept(), each.cuts(), self.match.head.fan == 2
        if kept is not None:
            self.bar(*kept, GREY)
            words = ("differ", "same")[each.part or 0] if is_halved else f"part {(each.part or 0) + 1} is kept"
        for cut in cuts:
            # The roots at the cuts up to the part that is kept are the same, and those behind it may differ.
            mark = DARK if kept is None else SAME if cut <= kept[0] else DIFFER if cut == kept[1] else GREY
            self.line(self.at(cut), self.y - 8, self.at(cut), self.y + 8, mark, 2)
        where = f"at {cuts[0]:,}" if is_halved else f"by {len(cuts) + 1}"
        self.text(self.words, f"round {each.number} [{each.low:,}, {each.high:,}] {where}: {words}")

    def draw_verdict(self, live: Sequence[int]) -> None:
        self.borders.append(self.y + ROW // 2)
        self.down(live, 1)
        accepted = live[:1] if self.match.verdict.startswith("accept") else []
        for prover in live:
            colour = self.lane_colour(prover)
            fill = colour if prover in accepted else "#ffffff"
            self.add("circle", cx=self.lane[prover], cy=self.y, r=7, fill=fill, stroke=colour, stroke_width=2)
        self.text(self.bars, short(self.match.verdict), font_weight="bold")
        self.y += ROW
        if self.match.balances is not None:
            self.draw_balances(*self.match.balances)

    def draw_balances(self, of: Sequence[int], pool: int) -> None:
        """Each balance below its line if all of them fit there, else in a table."""
        numbers = [f"{balance:,}" for balance in of]
        widest = SMALL_CHARACTER * max(map(len, numbers))
        fits = widest <= self.space - SMALL_CHARACTER
        if fits:
            for prover, words in enumerate(numbers, 1):
                self.text(self.lane[prover], words, text_anchor="middle", font_size=SMALL)
        self.text(self.bars, f"what each has at the end; the pool {pool:,}", font_size=SMALL)
        self.y += ROW
        if not fits:
            self.draw_table(numbers, widest)

    def draw_table(self, numbers: Sequence[str], widest: int) -> None:
        for prover, words in enumerate(numbers, 1):
            self.text(self.bars, f"p{prover}", font_size=SMALL, fill=self.lane_colour(prover))
            self.text(self.bars + 5 * SMALL_CHARACTER + widest, words, text_anchor="end", font_size=SMALL)
            self.y += ROW

    def drawn(self, width: int) -> List[str]:
        """The shapes, with a line between stages over this width."""
        for y in self.borders:
            self.line(MARGIN // 2, y, width - MARGIN // 2, y, LIGHT)
        return self.shapes


def sheet(pictures: Sequence[Picture], title: str) -> str:
    """The pictures below one another, as the text of an SVG file."""
    sizes = [picture.draw() for picture in pictures]
    width, height = max(width for width, _ in sizes), sum(height for _, height in sizes)
    shapes: List[str] = []
    top = 0
    for picture, (_, own_height) in zip(pictures, sizes):
        own = picture.drawn(width)
        shapes += [f'<g transform="translate(0 {top})">', *own, "</g>"] if top else own
        top += own_height
    report = "\n".join(short(line) for picture in pictures for line in picture.match.lines())
    return "\n".join([
        f'<svg xmlns="http://www.w3.org/2000/svg" width="{width}" height="{height}" viewBox="0 0 {width} {height}"'
        ' role="img" font-family="DejaVu Sans, Verdana, sans-serif" font-size="13">',
        f"<title>{escape(title)}</title>",
        f"<desc>{escape(report)}</desc>",
        f'<rect width="{width}" height="{height}" fill="#ffffff"/>',
        f'<g fill="{DARK}">',
        *shapes,
        "</g>",
        "</svg>",
        "",
    ])


def picture_of(match: Match) -> str:
    """A match, as the text of an SVG file."""
    return sheet([Picture(match, title_of(match))], f"A match of {title_of(match)}")


def picture_of_tasks(matches: Sequence[Match]) -> str:
    """The matches of several tasks below one another, each under the number of its task."""
    pictures = [Picture(match, f"task {number}: {title_of(match)}") for number, match in enumerate(matches, 1)]
    return sheet(pictures, f"The matches of {len(matches)} task{'s' * (len(matches) > 1)}")
