"""Reads the games that gobase printed: their information, and the move number of each node.

gobase prints a game in one line: information at the root, then setup stones, moves and variations. The
page's own script replays the moves; here they are only counted.
"""
from __future__ import annotations

import re
from dataclasses import dataclass

# A bracket of the tree, or a node with its properties. Every other byte is skipped.
PART = re.compile(r"([()])|;((?:[^\[\]();]+|\[(?:[^\]\\]|\\.)*\])*)", re.S)
PROPERTY = re.compile(r"([A-Z]*)\s*\[((?:[^\]\\]|\\.)*)\]", re.S)
# Behind the root there are points alone, so that no text can look like a move.
MOVE = re.compile(r"(?:^|[\]\s])[BW]\[")
DAY = re.compile(r" *(\d{4})(?:-(\d\d))?(?:-(\d\d))?(?![\d-])")
SIZE = re.compile(r"(\d{1,2})(?::(\d{1,2}))?$")


@dataclass
class GameRecord:
    sgf: str
    columns: int = 19
    rows: int = 19
    black: str = ""
    white: str = ""
    event: str = ""
    place: str = ""
    date: str = ""
    result: str = ""
    # The move number of each node, in order of the text.
    moves: tuple[int, ...] = ()
    # The number of moves of the main line.
    length: int = 0

    def move_of(self, node: int) -> int | None:
        return self.moves[node] if node < len(self.moves) else None


# What only informs: the page has it elsewhere, cut to a length.
INFORMATION = re.compile(r"(?:GM|FF|PB|PW|EV|PC|DT|RE)\[(?:[^\]\\]|\\.)*\]", re.S)

POINT = re.compile(r"\[(..)\]")
PAIRS = re.compile(r"(?:;B\[[A-Za-z]{2}\];W\[[A-Za-z]{2}\])+")

FIELDS = {"PB": "black", "PW": "white", "EV": "event", "PC": "place", "DT": "date", "RE": "result"}


def unescape(value: str) -> str:
    return re.sub(r"\\(.)", r"\1", value, flags=re.S)


def replayable(sgf: str) -> str:
    """Size, stones and moves of a game, for the page's script, as SGF that is packed a little.

    `;B[ab];W[cd];B[ef];W[gh]` is written `~abcdefgh`.
    """
    bare = INFORMATION.sub("", sgf).encode("ascii", "replace").decode()
    return PAIRS.sub(lambda pairs: "~" + "".join(POINT.findall(pairs[0])), bare)


def read_size(value: str) -> tuple[int, int] | None:
    match = SIZE.match(value)
    if match is None:
        return None
    columns = int(match[1])
    rows = int(match[2] or columns)
    return (columns, rows) if 1 <= columns <= 52 and 1 <= rows <= 52 else None


def read_root(game: GameRecord, properties: str) -> bool:
    """Takes the information of the root, and tells whether it has a move."""
    moves = False
    for name, value in PROPERTY.findall(properties):
        moves = moves or name in ("B", "W")
        if name in FIELDS:
            setattr(game, FIELDS[name], unescape(value))
        elif name == "SZ" and (size := read_size(value)):
            game.columns, game.rows = size
    return moves


def read_game(sgf: str) -> GameRecord:
    game = GameRecord(sgf)
    moves: list[int] = []
    # The move numbers to go back to where a variation ends.
    branches: list[int] = []
    current = 0
    for mark, properties in PART.findall(sgf):
        if mark == "(":
            branches.append(current)
        elif mark == ")":
            # The main line stands first, and ends with the first bracket.
            game.length = game.length or current
            current = branches.pop() if branches else current
        elif read_root(game, properties) if not moves else MOVE.search(properties):
            current += 1
            moves.append(current)
        else:
            moves.append(current)
    game.moves = tuple(moves)
    return game


def day_of(date: str) -> int:
    """The day by which games are put in order, as 20030412; 0 where the date tells none."""
    match = DAY.match(date)
    if match is None:
        return 0
    year, month, day = (int(part or 1) for part in match.groups())
    return year * 10000 + month * 100 + day if 1 <= month <= 12 and 1 <= day <= 31 else 0
