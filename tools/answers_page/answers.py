"""What each statement printed, one class for each kind of answer.

Each has `take`, which is handed the lines behind its first one and tells whether it has understood the
line, and `missing`, which tells what it still lacks where the record ends early.
"""
from __future__ import annotations

import re
from dataclasses import dataclass, field

from .script import OpeningQuestion, Statement

NUMBER = r"(\d{1,20})"
HIT = re.compile(r"hit (\d{1,10}) (\d{1,10}) (\d{1,2}) (\d{1,2}) (\d{1,2}) (?:-|([BW]) (\d{1,2}) (\d{1,2}) (now|later))$")
ROW = re.compile(r"row ([BW]) (\d{1,2}) (\d{1,2})" + (" " + NUMBER) * 6 + "$")
TOTAL = re.compile("total" + (" " + NUMBER) * 6 + "$")
PLAYER = re.compile("player" + (" " + NUMBER) * 3 + " (.*)$", re.S)
FOUND = re.compile(r"game (\d{1,10}) ([A-Za-z?]{12})$")
DOUBLE = re.compile(r"double ([A-Za-z?]{12})((?: \d{1,10})+)$")
COLLECTOR = re.compile(r"collector (\S+) (\S+)((?: \d{1,20})*)$")
REFUSED = re.compile(r"refused ([A-Za-z]+) " + NUMBER + " (.*)$")
FULL = re.compile("full" + (" " + NUMBER) * 2 + " (.*)$")
UNREAD = re.compile("unread (.*)$")
POSITION = re.compile("position" + (" " + NUMBER) * 4 + r" (\d{1,10}) (\d{1,10})$")
NEXT = re.compile(r"next ([BW]) (?:pass|(\d{1,2}) (\d{1,2}))" + (" " + NUMBER) * 4 + "$")


@dataclass
class Answer:
    """An answer of one line, or the lines of a statement that isn't known."""

    statement: Statement
    first: str
    extra: list[str] = field(default_factory=list)

    def take(self, line: str) -> bool:
        return False

    def missing(self) -> str:
        return ""


@dataclass
class Plain(Answer):
    """A statement that this page doesn't know: its lines as they are."""

    def take(self, line: str) -> bool:
        self.extra.append(line)
        return True


@dataclass(slots=True)
class Hit:
    game: int
    node: int
    x: int
    y: int
    label: int
    move: tuple[str, int, int] | None
    later: bool


@dataclass(slots=True)
class Tally:
    """The six numbers of a row or of the totals."""

    count: int
    now: int
    later: int
    black: int
    white: int
    other: int


@dataclass(slots=True)
class Row:
    move: tuple[str, int, int]
    tally: Tally


@dataclass
class Search(Answer):
    version: int = 0
    games: int = 0
    expected: int = 0
    hits: list[Hit] = field(default_factory=list)
    rows: list[Row] = field(default_factory=list)
    total: Tally | None = None

    def take(self, line: str) -> bool:
        if match := HIT.match(line):
            game, node, x, y, label, colour, column, row, when = match.groups()
            move = (colour, int(column), int(row)) if colour else None
            if int(label) < 16:
                self.hits.append(Hit(int(game), int(node), int(x), int(y), int(label), move, when == "later"))
                return True
        elif match := ROW.match(line):
            colour, *numbers = match.groups()
            x, y, *tally = map(int, numbers)
            self.rows.append(Row((colour, x, y), Tally(*tally)))
            return True
        elif match := TOTAL.match(line):
            self.total = Tally(*map(int, match.groups()))
            return True
        return False

    def missing(self) -> str:
        if len(self.hits) < self.expected:
            return f"it has {len(self.hits):,} of its {self.expected:,} hits"
        return "" if self.total else "its table and totals are not whole"


@dataclass
class Watch(Answer):
    """That a search is watched from now on, with the number of its hits; or that its name was taken.

    With neither of both: that no search is watched under the name.
    """

    name: str = ""
    version: int = 0
    found: int | None = None
    taken: bool = False


@dataclass
class Watched(Search):
    """A watched search. Its first `before` hits were told in the line `since`, the further ones are new."""

    name: str = ""
    before: int | None = None
    since: int = 0

    def new_hits(self) -> int:
        return 0 if self.before is None else max(self.expected - self.before, 0)


@dataclass(slots=True)
class Counts:
    """How often something came up, and how the games of it ended."""

    count: int
    black: int
    white: int
    other: int


@dataclass(slots=True)
class NextMove:
    """A move behind a position, where its least image lies. A pass has no point."""

    colour: str
    point: tuple[int, int] | None
    counts: Counts


@dataclass(slots=True)
class Position:
    """A position of an opening tree, with the game and the node at which it first came up."""

    counts: Counts
    game: int
    node: int
    nexts: list[NextMove] = field(default_factory=list)


@dataclass
class Opening(Answer):
    """Positions with their next moves. How many next moves there are is not told before them."""

    question: OpeningQuestion = OpeningQuestion(19, 19, 0, 1)
    version: int = 0
    games: int = 0
    expected: int = 0
    positions: list[Position] = field(default_factory=list)

    def take(self, line: str) -> bool:
        if match := POSITION.match(line):
            *counts, game, node = map(int, match.groups())
            self.positions.append(Position(Counts(*counts), game, node))
            return True
        if self.positions and (match := NEXT.match(line)):
            colour, x, y, *counts = match.groups()
            point = None if x is None else (int(x), int(y))
            if point is None or self.is_on_board(*point):
                self.positions[-1].nexts.append(NextMove(colour, point, Counts(*map(int, counts))))
                return True
        return False

    def is_on_board(self, x: int, y: int) -> bool:
        return x < self.question.columns and y < self.question.rows

    def missing(self) -> str:
        few = len(self.positions) < self.expected
        return f"it has {len(self.positions):,} of its {self.expected:,} positions" if few else ""


@dataclass
class Kept(Answer):
    version: int = 0
    games: int = 0
    kept: int = 0


@dataclass(slots=True)
class Player:
    games: int
    wins: int
    losses: int
    name: str


@dataclass
class Players(Answer):
    version: int = 0
    games: int = 0
    expected: int = 0
    players: list[Player] = field(default_factory=list)

    def take(self, line: str) -> bool:
        match = PLAYER.match(line)
        if match:
            games, wins, losses, name = match.groups()
            self.players.append(Player(int(games), int(wins), int(losses), name))
        return match is not None

    def missing(self) -> str:
        few = len(self.players) < self.expected
        return f"it has {len(self.players):,} of its {self.expected:,} players" if few else ""


@dataclass
class Signature(Answer):
    version: int = 0
    games: int = 0
    expected: int = 0
    found: list[tuple[int, str]] = field(default_factory=list)

    def take(self, line: str) -> bool:
        match = FOUND.match(line)
        if match:
            self.found.append((int(match[1]), match[2]))
        return match is not None

    def missing(self) -> str:
        few = len(self.found) < self.expected
        return f"it has {len(self.found):,} of its {self.expected:,} games" if few else ""


@dataclass
class Doubles(Answer):
    version: int = 0
    games: int = 0
    expected: int = 0
    groups: list[tuple[str, tuple[int, ...]]] = field(default_factory=list)

    def take(self, line: str) -> bool:
        match = DOUBLE.match(line)
        if match:
            self.groups.append((match[1], tuple(map(int, match[2].split()))))
        return match is not None

    def missing(self) -> str:
        few = len(self.groups) < self.expected
        return f"it has {len(self.groups):,} of its {self.expected:,} groups" if few else ""


@dataclass
class Game(Answer):
    number: int = 0
    version: int = 0
    place: int | None = None
    file: str = ""
    sgf: str = ""

    def take(self, line: str) -> bool:
        if self.place is None or self.sgf:
            return False
        if line.startswith("(;"):
            self.sgf = line
        else:
            # The name of a file may have line feeds.
            self.file += "\n" + line
        return True

    def missing(self) -> str:
        return "" if self.sgf or self.place is None else "the game itself is missing"


@dataclass(slots=True)
class Collector:
    name: str
    word: str
    numbers: tuple[int, ...]


@dataclass
class Report(Answer):
    expected: int = 0
    collectors: list[Collector] = field(default_factory=list)

    def take(self, line: str) -> bool:
        match = COLLECTOR.match(line)
        if match:
            self.collectors.append(Collector(match[1], match[2], tuple(map(int, match[3].split()))))
        return match is not None

    def missing(self) -> str:
        few = len(self.collectors) < self.expected
        return f"it has {len(self.collectors)} of its {self.expected} collectors" if few else ""


@dataclass
class Retire(Answer):
    name: str = ""
    gone: bool = False


@dataclass
class Import(Answer):
    path: str = ""


@dataclass
class Make(Answer):
    count: int = 0
    start: int = 0


@dataclass
class Wait(Answer):
    version: int = 0


@dataclass
class Until(Answer):
    awaited: int = 0
    version: int = 0


@dataclass(slots=True)
class Fault:
    """A file that wasn't accepted. `kind` is that of a refused one, or `full` or `unread`."""

    kind: str
    numbers: tuple[int, ...]
    name: str


@dataclass
class Imported(Answer):
    """The report of an import. `failure` is `unlisted` or `many`, and then nothing was read."""

    files: int = 0
    accepted: int = 0
    refused: int = 0
    full: int = 0
    unread: int = 0
    games: int = 0
    version: int = 0
    failure: str = ""
    faults: list[Fault] = field(default_factory=list)

    def take(self, line: str) -> bool:
        if match := REFUSED.match(line):
            self.faults.append(Fault(match[1], (int(match[2]),), match[3]))
        elif match := FULL.match(line):
            self.faults.append(Fault("full", (int(match[1]), int(match[2])), match[3]))
        elif match := UNREAD.match(line):
            self.faults.append(Fault("unread", (), match[1]))
        elif self.faults:
            # The name of a file may have line feeds.
            self.faults[-1].name += "\n" + line
        else:
            return False
        return True

    def missing(self) -> str:
        expected = self.refused + self.full + self.unread
        few = len(self.faults) < expected
        return f"it has {len(self.faults):,} of the {expected:,} files that were left out" if few else ""


@dataclass
class Made(Answer):
    games: int = 0
    full: int = 0
    version: int = 0
