"""Reads a record, that is what gobase printed for a script, into answers.

A first line of an answer has the number of its statement's line and the statement's name. It is taken as
one only where the script says so and in the script's order, since names of files and players are texts of
strangers and may look like anything.
"""
from __future__ import annotations

import re
from dataclasses import dataclass, field
from typing import Callable

from . import answers as kinds
from .answers import Answer, NUMBER
from .script import Script, Statement, read_opening

FIRST = re.compile(r"(\d{1,10}) ([^ ]+)(?: |$)")
OF_VERSION = r" version " + NUMBER + " games " + NUMBER


@dataclass
class Record:
    answers: list[Answer] = field(default_factory=list)
    # Lines before the first answer.
    strange: list[str] = field(default_factory=list)
    # How many lines there are, and the last one where it is cut off.
    lines: int = 0
    cut: str | None = None
    # Statements without an answer.
    unanswered: list[Statement] = field(default_factory=list)


Maker = Callable[[Statement, str, "re.Match[str]"], Answer]


def numbers_into(kind: type[Answer], *names: str) -> Maker:
    """Makes an answer whose numbers are those of the match, in order."""
    def make(statement: Statement, line: str, match: re.Match[str]) -> Answer:
        return kind(statement, line, **{name: int(text) for name, text in zip(names, match.groups())})
    return make


def make_game(statement: Statement, line: str, match: re.Match[str]) -> Answer:
    number, version, place, file = match.groups()
    if place is None:
        return kinds.Game(statement, line, number=int(number), version=int(version))
    return kinds.Game(statement, line, number=int(number), version=int(version), place=int(place), file=file)


def make_watched(statement: Statement, line: str, match: re.Match[str]) -> Answer:
    name, version, games, expected = match.groups()
    return kinds.Watched(statement, line, version=int(version), games=int(games), expected=int(expected), name=name)


def make_opening(statement: Statement, line: str, match: re.Match[str]) -> Answer:
    question = read_opening(statement.words)
    if question is None:
        return kinds.Plain(statement, line)
    version, games, expected = map(int, match.groups())
    return kinds.Opening(statement, line, question=question, version=version, games=games, expected=expected)


# For each name of a first line: what stands behind it, and the answer that this makes.
FORMS: list[tuple[str, re.Pattern[str], Maker]] = [
    (name, re.compile(pattern + "$"), maker) for name, pattern, maker in [
        ("import", r" (.*)", lambda s, line, m: kinds.Import(s, line, path=m[1])),
        ("imported", " files " + NUMBER + "".join(
            f" {word} {NUMBER}" for word in ("accepted", "refused", "full", "unread", "games", "version")),
         numbers_into(kinds.Imported, "files", "accepted", "refused", "full", "unread", "games", "version")),
        ("imported", " unlisted", lambda s, line, m: kinds.Imported(s, line, failure="unlisted")),
        ("imported", " too many files " + NUMBER,
         lambda s, line, m: kinds.Imported(s, line, failure="many", files=int(m[1]))),
        ("make", f" {NUMBER} {NUMBER}", numbers_into(kinds.Make, "count", "start")),
        ("made", f" games {NUMBER} full {NUMBER} version {NUMBER}",
         numbers_into(kinds.Made, "games", "full", "version")),
        ("wait", f" version {NUMBER}", numbers_into(kinds.Wait, "version")),
        ("until", f" {NUMBER} version {NUMBER}", numbers_into(kinds.Until, "awaited", "version")),
        ("search", f"{OF_VERSION} hits {NUMBER}", numbers_into(kinds.Search, "version", "games", "expected")),
        ("kept", f"{OF_VERSION} kept {NUMBER}", numbers_into(kinds.Kept, "version", "games", "kept")),
        ("signature", f"{OF_VERSION} found {NUMBER}",
         numbers_into(kinds.Signature, "version", "games", "expected")),
        ("players", f"{OF_VERSION} names {NUMBER}", numbers_into(kinds.Players, "version", "games", "expected")),
        ("doubles", f"{OF_VERSION} groups {NUMBER}", numbers_into(kinds.Doubles, "version", "games", "expected")),
        ("game", f" {NUMBER} version {NUMBER}(?: none| place {NUMBER} file (.*))", make_game),
        ("report", f" collectors {NUMBER}", numbers_into(kinds.Report, "expected")),
        ("retire", r" ([^ ]+)( none)?",
         lambda s, line, m: kinds.Retire(s, line, name=m[1], gone=m[2] is None)),
        ("opening", f"{OF_VERSION} positions {NUMBER}", make_opening),
        ("watch", f" ([^ ]+) version {NUMBER} hits {NUMBER}",
         lambda s, line, m: kinds.Watch(s, line, name=m[1], version=int(m[2]), found=int(m[3]))),
        ("watch", " ([^ ]+) taken", lambda s, line, m: kinds.Watch(s, line, name=m[1], taken=True)),
        ("watched", f" ([^ ]+){OF_VERSION} hits {NUMBER}", make_watched),
        ("watched", " ([^ ]+) none", lambda s, line, m: kinds.Watch(s, line, name=m[1])),
    ]
]

REPORTED = {"imported": "import", "made": "make"}


def answer_of(statement: Statement, name: str, rest: str, line: str) -> Answer:
    for known, pattern, maker in FORMS:
        if known == name and (match := pattern.match(rest)):
            return maker(statement, line, match)
    return kinds.Plain(statement, line)


class Reader:
    """Takes the lines of a record one after another."""

    def __init__(self, script: Script) -> None:
        self.record = Record()
        self.statements = [s for s in script.statements if s.prints]
        self.place = {s.line: i for i, s in enumerate(self.statements)}
        # The first statement that may be answered next.
        self.next = 0
        # Imports whose report is still to come.
        self.awaited: set[int] = set()
        # Watched searches by their names: how many hits were told, and in which line.
        self.told: dict[str, tuple[int, int]] = {}

    def first_line(self, line: str) -> Answer | None:
        """The answer that the line begins, if it begins one."""
        match = FIRST.match(line)
        place = self.place.get(int(match[1])) if match else None
        if match is None or place is None:
            return None
        statement, name = self.statements[place], match[2]
        rest = line[match.end(2):]
        if REPORTED.get(name) == statement.word and statement.line in self.awaited:
            self.awaited.discard(statement.line)
            return answer_of(statement, name, rest, line)
        if name != statement.word or place < self.next:
            return None
        self.record.unanswered += self.statements[self.next:place]
        self.next = place + 1
        if name in ("import", "make"):
            self.awaited.add(statement.line)
        return answer_of(statement, name, rest, line)

    def take(self, line: str) -> None:
        answers = self.record.answers
        if answer := self.first_line(line):
            answers.append(answer)
            self.look_at_watches(answer)
        elif not answers:
            self.record.strange.append(line)
        elif not answers[-1].take(line):
            answers[-1].extra.append(line)

    def look_at_watches(self, answer: Answer) -> None:
        """Hits stand in order of their games, so the first of a watched search are those that were told before."""
        if isinstance(answer, kinds.Watch) and answer.found is not None:
            self.told[answer.name] = (answer.found, answer.statement.line)
        elif isinstance(answer, kinds.Watched):
            if answer.name in self.told:
                answer.before, answer.since = self.told[answer.name]
            self.told[answer.name] = (answer.expected, answer.statement.line)

    def finish(self) -> Record:
        self.record.unanswered += self.statements[self.next:]
        return self.record


def read_record(text: str, script: Script) -> Record:
    reader = Reader(script)
    lines = text.split("\n")
    # Each printed line ends with a line feed: what stands behind the last one is the beginning of a line.
    last = lines.pop()
    for line in lines:
        reader.take(line)
    record = reader.finish()
    record.lines = len(lines) + (1 if last else 0)
    record.cut = last or None
    return record


def where_it_ended(record: Record) -> str:
    """Where a record ends that isn't whole; nothing where it is."""
    incomplete = next((a for a in record.answers if a.missing()), None)
    if not (record.cut or incomplete or record.unanswered or record.strange):
        return ""
    if not record.answers:
        return "This is no output of gobase for this script: none of its lines was understood."
    parts = []
    if record.cut or incomplete is not None or record.unanswered:
        last = record.answers[-1]
        parts.append(f"The record ends early, at its line {record.lines:,}, in the answer to line "
                     f"{last.statement.line} of the script.")
    if incomplete is not None:
        parts.append(f"The answer to line {incomplete.statement.line} isn’t whole: {incomplete.missing()}.")
    if record.cut:
        parts.append("Its last line is cut off and is left out.")
    if record.unanswered:
        names = ", ".join(str(s.line) for s in record.unanswered[:12])
        more = " and more" if len(record.unanswered) > 12 else ""
        parts.append(f"Without an answer: line {names}{more} of the script.")
    if record.strange:
        parts.append("Lines before the first answer weren’t understood.")
    return " ".join(parts)
