"""The continuations of a search, in order of their count, and the letters that they bear."""
from __future__ import annotations

from collections import Counter
from dataclasses import dataclass

from .answers import Hit, Search, Tally, Watched
from .words import letter


@dataclass(frozen=True)
class Continuation:
    letter: str
    colour: str
    x: int
    y: int
    tally: Tally
    # How many of its hits are new, in a watched search.
    new: int = 0


def counted(hits: list[Hit], known: set[tuple[str, int, int]]) -> list[tuple[tuple[str, int, int], Tally]]:
    """Continuations that hits have and that no row of the table tells, as in a record that is cut off."""
    tallies: dict[tuple[str, int, int], Tally] = {}
    for hit in hits:
        if hit.move is None or hit.move in known:
            continue
        tally = tallies.setdefault(hit.move, Tally(0, 0, 0, 0, 0, 0))
        tally.count += 1
        tally.later += hit.later
        tally.now += not hit.later
    return list(tallies.items())


def new_hits(answer: Search) -> list[Hit]:
    """The hits of a watched search that weren't told before."""
    known = isinstance(answer, Watched) and answer.before is not None
    return answer.hits[answer.before:] if known else []


def continuations(answer: Search) -> list[Continuation]:
    """Those that come most often first, and those of one count as the table has them."""
    rows = [(row.move, row.tally) for row in answer.rows]
    rows += counted(answer.hits, {row.move for row in answer.rows})
    rows.sort(key=lambda row: -row[1].count)
    new = Counter(hit.move for hit in new_hits(answer))
    return [Continuation(letter(i), *move, tally, new[move]) for i, (move, tally) in enumerate(rows)]
