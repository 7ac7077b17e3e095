"""Numbers, labels, places and faults in plain words."""
from __future__ import annotations

import re

from .answers import Opening, Search, Watched
from .script import OpeningQuestion, Question

# A text on the page is cut behind so many letters; the whole one of a stranger may have any number.
LONGEST_TEXT = 300

SYMMETRIES = (
    "as drawn",
    "left and right exchanged",
    "upside down",
    "turned a half",
    "mirrored on the diagonal from the upper left",
    "turned a quarter to the left",
    "turned a quarter to the right",
    "mirrored on the diagonal from the upper right",
)

FAULTS = {
    "NoGame": "no game starts in the file",
    "Unexpected": "a character stands where none of its kind may stand",
    "Ended": "the file ends inside a game",
    "TooLong": "the file is longer than 16,777,216 bytes",
    "TooDeep": "more than 1,024 brackets are open at one time",
    "TooManyNodes": "a game has more than 65,536 nodes",
    "TooManyGames": "the file has more than 65,536 games",
    "NotGo": "a game is not a game of Go",
    "BadSize": "the size of a board is not from 1 to 52",
    "BadPoint": "a move or a stone lies outside its board",
    "TwoMoves": "a node has two moves",
    "full": "the base has no room for the file",
    "unread": "the file could not be read",
}

COLOURS = {"B": "Black", "W": "White"}

# Control characters, halves of pairs, and marks that turn the direction of the text around them.
UNSHOWN = re.compile("[\x00-\x08\x0b-\x1f\x7f-\x9f\u061c\u200e\u200f\u202a-\u202e\u2066-\u2069\ud800-\udfff\ufffe\uffff]")


def shown(text: str, longest: int = LONGEST_TEXT) -> str:
    """The text as it may stand on the page: no bytes that are no UTF-8, no controls, not too long."""
    if len(text) > longest:
        text = text[:longest] + "…"
    return UNSHOWN.sub("\ufffd", text.replace("\r", ""))


def times(count: int, one: str, many: str = "") -> str:
    """`1 game`, `1,200 games`."""
    return f"{count:,} {one if count == 1 else many or one + 's'}"


def often(count: int) -> str:
    return {0: "never", 1: "once", 2: "twice"}.get(count, f"{count:,} times")


def label_words(label: int) -> str:
    """What a label does to the pattern: `turned a quarter to the left, colours exchanged`."""
    symmetry, exchanged = label % 8, label >= 8
    if not exchanged:
        return SYMMETRIES[symmetry]
    return "colours exchanged" if symmetry == 0 else SYMMETRIES[symmetry] + ", colours exchanged"


def letter(index: int) -> str:
    """The letter of a continuation: A to Z, then AA, AB and so on."""
    text = ""
    index += 1
    while index > 0:
        index, rest = divmod(index - 1, 26)
        text = chr(ord("A") + rest) + text
    return text


def in_corner(question: Question) -> bool:
    return question.at == (0, 0, 0, 0)


def point_words(question: Question, x: int, y: int) -> str:
    """A point of the pattern: `6-3` in a corner, counted from its two edges, else by column and row."""
    if in_corner(question):
        return f"the {x + 1}-{y + 1} point"
    return f"column {x + 1}, row {y + 1}"


def place_words(question: Question) -> str:
    """Where the pattern may stand."""
    if question.at is None:
        return "anywhere on the board"
    x0, y0, x1, y1 = question.at
    if question.width == question.height == 1 and (x0, y0) == (x1, y1):
        return f"on the {x0 + 1}-{y0 + 1} point" + ("" if question.fixed else " of a corner")
    if in_corner(question):
        return "in the upper left corner" if question.fixed else "in a corner"
    if y0 == y1 == 0 and x1 > x0:
        return "along the upper edge" if question.fixed else "along an edge"
    if x0 == x1 == 0 and y1 > y0:
        return "along the left edge" if question.fixed else "along an edge"
    first = f"column {x0 + 1}, row {y0 + 1}"
    if (x0, y0) == (x1, y1):
        words = f"with its upper left point at {first}"
    else:
        words = f"with its upper left point from {first} to column {x1 + 1}, row {y1 + 1}"
    return words if question.fixed else words + ", or so turned"


def condition_words(name: str, text: str) -> str:
    known = {
        "player": f"a player called “{text}”",
        "black": f"Black called “{text}”",
        "white": f"White called “{text}”",
        "event": f"an event called “{text}”",
        "place": f"a place called “{text}”",
        "from": f"a date from {text} on",
        "to": f"a date up to {text}",
        "result": {
            "black": "a win of Black", "white": "a win of White", "draw": "a draw as result",
            "void": "no result", "unknown": "an unknown result", "other": "another result or none told",
        }.get(text, f"the result {text}"),
    }
    return known.get(name, f"{name} {text}")


def question_words(question: Question) -> str:
    """What is asked, in one sentence."""
    ways = ["as drawn only" if question.fixed else "also turned and mirrored",
            "colours as drawn" if question.same else "also with colours exchanged"]
    points = times(question.width * question.height, "point")
    if question.width > 1 and question.height > 1:
        points = f"{question.width} by {question.height} points"
    parts = [f"{points} {place_words(question)}", *ways]
    if question.main:
        parts.append("on main lines alone")
    if question.board:
        parts.append("on boards of {} by {}".format(*question.board))
    if question.moves:
        parts.append("at moves {:,} to {:,}".format(*question.moves))
    text = ", ".join(parts) + "."
    if question.conditions:
        asked = " and ".join(condition_words(c.name, c.text) for c in question.conditions)
        text += f" Only games with {asked}."
    return text


def search_words(answer: Search) -> str:
    """The totals of a search in one sentence."""
    with_hits = len({hit.game for hit in answer.hits})
    total = answer.total
    if answer.expected == 0:
        return f"Not found in the {times(answer.games, 'game')} of the base."
    text = f"Found {often(answer.expected)}, in {with_hits:,} of {times(answer.games, 'game')}"
    if total is None:
        return text + "."
    when = [f"{name} in {times(count, 'hit')}" for name, count in (("at once", total.now), ("later", total.later)) if count]
    went_on = f"play went on inside the pattern {' and '.join(when)}" if when else "play never went on inside the pattern"
    return (f"{text}: {went_on}; the pattern’s black won {total.black:,}, its white {total.white:,}, "
            f"neither {total.other:,}.")


def new_words(answer: Watched) -> str:
    """How many hits of a watched search are new, in one sentence."""
    since = f"since line {answer.since} of the script"
    new = answer.new_hits()
    if new == 0:
        return f"Nothing is new {since}."
    return f"{new:,} of {times(answer.expected, 'hit')} {'is' if new == 1 else 'are'} new {since}."


def opening_question_words(question: OpeningQuestion) -> str:
    """What an opening tree is asked for, in one sentence."""
    depth = f"up to move {question.depth:,}" if question.depth else "before the first move"
    least = f", {often(question.least)} at least" if question.least > 1 else ""
    return (f"Positions that came up on boards of {question.columns} by {question.rows}, {depth}{least}. What "
            "differs only by turning and mirroring is one position.")


def opening_words(answer: Opening) -> str:
    """The totals of an opening tree in one sentence."""
    base = f"the {times(answer.games, 'game')} of the base"
    return f"{times(answer.expected, 'position')} from {base}." if answer.expected else f"None in {base}."
