"""What the page's own script works with, as JSON: games, hits, positions and players.

Names are short since a page may have 100,000 hits. JSON stands in the page as text between tags, so that
`<` and `&` are written as escapes: no text in it can end its element.
"""
from __future__ import annotations

import json
from typing import Any

from .answers import Counts, Opening, Players, Position, Search, Watched
from .continuations import continuations
from .program import ShownGame
from .record import Record
from .sgf import day_of
from .words import label_words, shown

LABELS = [label_words(label) for label in range(16)]


def game_data(game: ShownGame) -> list[Any]:
    """Players, event, place, date, result, its day as a number, file and place in the file."""
    record = game.record
    texts = (record.black, record.white, record.event, record.place, record.date, record.result)
    return [*map(shown, texts), day_of(record.date), shown(game.file), game.place]


def search_data(answer: Search, games: dict[int, ShownGame]) -> dict[str, Any]:
    """The hits as one list of numbers, seven for each: game, node, column, row, label, continuation, move.

    The continuation is twice its place in the list of letters, and one more where it comes later; -1 is
    none. The move is -1 where the game isn't known.
    """
    letters = continuations(answer)
    place = {(one.colour, one.x, one.y): i for i, one in enumerate(letters)}
    numbers: list[int] = []
    for hit in answer.hits:
        game = games.get(hit.game)
        move = game.record.move_of(hit.node) if game else None
        follows = 2 * place[hit.move] + hit.later if hit.move else -1
        numbers += (hit.game, hit.node, hit.x, hit.y, hit.label, follows, -1 if move is None else move)
    question = answer.statement.question
    told = {"before": answer.before, "since": answer.since} if isinstance(answer, Watched) else {}
    return {
        **told,
        "width": question.width if question else 0,
        "height": question.height if question else 0,
        "letters": [[one.letter, one.colour, one.x, one.y] for one in letters],
        "hits": numbers,
    }


def count_numbers(counts: Counts) -> list[int]:
    return [counts.count, counts.black, counts.white, counts.other]


def position_data(position: Position, columns: int) -> list[int]:
    """Six numbers for a position and six for each next move, one behind the other.

    For the position: its count, the games won by Black, by White and by neither, game and node; for a next
    move: 0 for Black and 1 for White, the number of its point or -1 for a pass, and the same four numbers.
    """
    numbers = [*count_numbers(position.counts), position.game, position.node]
    for one in position.nexts:
        point = -1 if one.point is None else one.point[1] * columns + one.point[0]
        numbers += ("BW".index(one.colour), point, *count_numbers(one.counts))
    return numbers


def opening_data(answer: Opening) -> dict[str, Any]:
    question = answer.question
    positions = [position_data(position, question.columns) for position in answer.positions]
    return {"columns": question.columns, "rows": question.rows, "positions": positions}


def page_data(record: Record, games: dict[int, ShownGame]) -> dict[str, Any]:
    searches = {a.statement.line: search_data(a, games) for a in record.answers if isinstance(a, Search)}
    players = {a.statement.line: [[p.games, p.wins, p.losses, shown(p.name)] for p in a.players]
               for a in record.answers if isinstance(a, Players)}
    openings = {a.statement.line: opening_data(a) for a in record.answers if isinstance(a, Opening)}
    return {"labels": LABELS, "games": {n: game_data(game) for n, game in games.items()},
            "searches": searches, "openings": openings, "players": players}


def as_text(value: Any) -> str:
    """JSON that may stand between the tags of a page."""
    text = json.dumps(value, ensure_ascii=False, separators=(",", ":"))
    return text.replace("&", "\\u0026").replace("<", "\\u003c").replace(">", "\\u003e")
