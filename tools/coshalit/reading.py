"""Matches out of any text of `refcli judge`: a report or a full text, of one case or of several tasks."""
from __future__ import annotations

from typing import List, Tuple

from . import game, reports
from .cases import MAX_TASKS
from .matches import Match


class NoMatchText(Exception):
    """The text is none of these, with the reason."""


def match_of(text: str) -> Match:
    """The match of a report or a full text. It raises `NoMatchText`."""
    try:
        if text.startswith("refereed "):
            return game.played(text.encode("latin-1")).match
        return reports.read(text)
    except (game.NoMatch, reports.NoReport) as fault:
        raise NoMatchText(str(fault)) from None


def matches_of(text: str) -> Tuple[List[Match], bool]:
    """The matches of a text, and whether they are those of tasks. It raises `NoMatchText`."""
    parts = reports.parts_of_tasks(text)
    if not parts:
        return [match_of(text)], False
    if len(parts) > MAX_TASKS:
        raise NoMatchText(f"it has more than {MAX_TASKS} tasks")
    matches = []
    for number, part in enumerate(parts, 1):
        try:
            matches.append(match_of(part))
        except NoMatchText as fault:
            raise NoMatchText(f"task {number}: {fault}") from None
    return matches, True
