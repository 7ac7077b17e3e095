"""Reads a script: which statement stands on which line, and what it asks.

It is lenient: the program judges scripts, and a line that isn't understood here is a statement all the
same, shown as plain text.
"""
from __future__ import annotations

import re
from dataclasses import dataclass

WORD = re.compile(r'[ \t]*(?:"((?:[^"\\]|\\["\\])*)"|([^ \t"]+))(?=[ \t]|$)')
PATTERN = re.compile(r"[.XOxo*]+(?:/[.XOxo*]+)*$")
NUMBER = re.compile(r"[0-9]{1,10}$")


@dataclass(frozen=True)
class Condition:
    name: str
    text: str


@dataclass(frozen=True)
class Question:
    """What a `search`, a `kept` or a `watch` asks."""

    rows: tuple[str, ...]
    same: bool = False
    fixed: bool = False
    main: bool = False
    board: tuple[int, int] | None = None
    moves: tuple[int, int] | None = None
    at: tuple[int, int, int, int] | None = None
    conditions: tuple[Condition, ...] = ()

    @property
    def width(self) -> int:
        return len(self.rows[0])

    @property
    def height(self) -> int:
        return len(self.rows)


@dataclass(frozen=True)
class OpeningQuestion:
    """What an `opening` asks: the board, up to which move, and how often a position has to come up."""

    columns: int
    rows: int
    depth: int
    least: int


@dataclass(frozen=True)
class Statement:
    """A line that is neither empty nor a comment. `lead` is the comment that stands above it."""

    line: int
    text: str
    words: tuple[str, ...]
    lead: str = ""
    in_block: bool = False
    question: Question | None = None

    @property
    def word(self) -> str:
        return self.words[0] if self.words else ""

    @property
    def prints(self) -> bool:
        return self.word not in ("together", "end")


@dataclass(frozen=True)
class Script:
    statements: tuple[Statement, ...]
    heading: str
    text: str

    def at_line(self, line: int) -> Statement | None:
        return next((s for s in self.statements if s.line == line), None)


def split_words(line: str) -> tuple[str, ...]:
    """The words of a line without their quotes, or the line cut at blanks where its quotes are bad."""
    words, at, end = [], 0, len(line.rstrip(" \t"))
    while at < end:
        match = WORD.match(line, at, end)
        if match is None:
            return tuple(line.split())
        quoted, bare = match.groups()
        words.append(bare if quoted is None else re.sub(r'\\(["\\])', r"\1", quoted))
        at = match.end()
    return tuple(words)


def read_question(words: tuple[str, ...]) -> Question | None:
    """Options, pattern and conditions behind the first word; nothing where they aren't understood."""
    rest = list(words[1:])
    flags: dict[str, bool] = {}
    numbers: dict[str, tuple[int, ...]] = {}

    def take_numbers(count: int) -> tuple[int, ...]:
        taken = tuple(int(word) for word in rest[:count])
        if len(taken) < count:
            raise ValueError("too few numbers")
        del rest[:count]
        return taken

    try:
        while rest and not PATTERN.match(rest[0]):
            option = rest.pop(0)
            if option in ("same", "fixed", "main"):
                flags[option] = True
            elif option in ("board", "moves"):
                numbers[option] = take_numbers(2)
            elif option == "at":
                corner = take_numbers(2)
                if rest and rest[0] == "to":
                    del rest[0]
                    numbers["at"] = corner + take_numbers(2)
                else:
                    numbers["at"] = corner + corner
            else:
                return None
        rows = tuple(rest.pop(0).split("/"))
        conditions = read_conditions(rest)
    except (ValueError, IndexError):
        return None
    if len({len(row) for row in rows}) != 1:
        return None
    return Question(rows, conditions=conditions, **flags, **numbers)


def read_opening(words: tuple[str, ...]) -> OpeningQuestion | None:
    """The four numbers behind `opening`; nothing where they aren't understood."""
    if len(words) != 5 or not all(NUMBER.match(word) for word in words[1:]):
        return None
    question = OpeningQuestion(*map(int, words[1:]))
    on_board = 1 <= question.columns <= 52 and 1 <= question.rows <= 52
    return question if on_board else None


def question_of(words: tuple[str, ...], watched: dict[str, Question | None]) -> Question | None:
    """What a statement asks for on the board, if anything.

    `watched` has the questions that are watched, by their names: a name stays with its first one.
    """
    if words[0] in ("search", "kept"):
        return read_question(words)
    if words[0] == "watch" and len(words) > 1:
        return watched.setdefault(words[1], read_question(words[1:]))
    if words[0] == "watched" and len(words) == 2:
        return watched.get(words[1])
    return None


def read_conditions(words: list[str]) -> tuple[Condition, ...]:
    """`where NAME TEXT and NAME TEXT`, as many as there are."""
    if len(words) % 3 != 0:
        raise ValueError("a condition is three words with its `where` or `and`")
    return tuple(Condition(words[i + 1], words[i + 2]) for i in range(0, len(words), 3))


def comment_text(lines: list[str]) -> str:
    """The comment of some lines: one paragraph for each stretch between empty comment lines."""
    paragraphs = "\n".join(lines).split("\n\n")
    return "\n\n".join(" ".join(p.split()) for p in paragraphs if p.strip())


def read_script(text: str) -> Script:
    statements: list[Statement] = []
    comment: list[str] = []
    heading, in_block = "", False
    watched: dict[str, Question | None] = {}
    for number, line in enumerate(text.split("\n"), start=1):
        line = line.removesuffix("\r")
        bare = line.strip(" \t")
        if bare.startswith("#"):
            comment.append(bare[1:].strip())
            continue
        if not bare:
            continue
        words = split_words(line)
        lead = comment_text(comment)
        # A block prints nothing itself, so that what is said of it is said of its first search.
        if words[0] != "together":
            comment = []
        # The comment at the top tells what the whole script is about.
        if not statements:
            heading, lead, comment = lead, "", []
        statements.append(Statement(number, bare, words, lead, in_block, question_of(words, watched)))
        if words[0] in ("together", "end"):
            in_block = words[0] == "together"
    return Script(tuple(statements), heading, text)
