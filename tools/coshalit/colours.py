"""The colour of each claim in a picture: one for each text, with a shade for each state of it, as far as states are known."""
from __future__ import annotations

import colorsys
from typing import Dict, List, Sequence, Tuple

from .matches import Match

# Lines of claims; more than these are taken from the circle of hues.
COLOURS = ["#0072b2", "#d55e00", "#009e73", "#cc79a7", "#7a5195", "#56718a", "#a6761d"]
# A claim, and which of the states of this text it is of, from 0.
State = Tuple[str, int]


def colour_of(number: int, count: int) -> Tuple[int, ...]:
    """The red, green and blue of a claim's line, each from 0 to 255."""
    if count <= len(COLOURS):
        return tuple(bytes.fromhex(COLOURS[number][1:]))
    return tuple(round(255 * part) for part in colorsys.hls_to_rgb(number / count, 0.38, 0.7))


def shaded(colour: Sequence[int], shade: int) -> str:
    """The colour of a claim, as it is written; a lighter one for each further shade."""
    left = 0.65**shade
    return "#" + bytes(round(255 - left * (255 - part)) for part in colour).hex()


# Which claims are of one state


def agreed_of(match: Match) -> List[int]:
    """The provers that are live when a claim is accepted: all of them claim its state."""
    return match.live() if match.verdict.startswith("accept") else []


def states_by_root(match: Match) -> Dict[int, State]:
    """The claims, by prover, each with the place of its root among those of its text; the accepted one is the first."""
    agreed, places, states = agreed_of(match), {}, {}
    for prover in [*agreed[:1], *sorted(match.claims)]:
        claim = match.claims[prover]
        roots: List[bytes] = places.setdefault(claim, [])
        if match.roots[prover] not in roots:
            roots.append(match.roots[prover])
        states[prover] = claim, roots.index(match.roots[prover])
    return states


def states_by_disputes(match: Match) -> Dict[int, State]:
    """The claims, by prover, each with a shade: the least that no other prover of this text has with whom it had a dispute.

    Two that had one claim different states. A report doesn't say whether two claim one state that never met, except for those that are live
    when a claim is accepted, which all do: they have the shade 0.
    """
    rivals = {frozenset(dispute.sides) for dispute in match.disputes()}
    states = {prover: (match.claims[prover], 0) for prover in agreed_of(match)}
    for prover, claim in sorted(match.claims.items()):
        if prover not in states:
            taken = {shade for other, (text, shade) in states.items() if text == claim and frozenset((prover, other)) in rivals}
            states[prover] = claim, next(shade for shade in range(17) if shade not in taken)
    return states


def states_of(match: Match) -> Dict[int, State]:
    """The claims, by prover, each with a shade for its state: by roots if they are known, else as far as disputes show it."""
    return states_by_root(match) if match.roots else states_by_disputes(match)


def is_open(match: Match, states: Dict[int, State]) -> bool:
    """Whether two claims have one colour, of which nothing shows that they are of one state."""
    agreed = agreed_of(match)
    others = [prover for prover in match.claims if prover not in agreed]
    colours = [states[prover] for prover in others + agreed[:1]]
    return not match.roots and len(set(colours)) < len(colours)


def lines_of(states: Dict[int, State]) -> List[State]:
    """Each state once: claims in the order of the first prover that has them, and the shades of one in theirs."""
    claims = list(dict.fromkeys(states[prover][0] for prover in sorted(states)))
    return sorted(set(states.values()), key=lambda state: (claims.index(state[0]), state[1]))
