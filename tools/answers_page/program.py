"""Runs gobase: over the script, and for the games that the page shows."""
from __future__ import annotations

import re
import subprocess
from dataclasses import dataclass

from .answers import Doubles, Game, Opening, Search, Signature
from .record import Record, read_record
from .script import Script, read_script
from .sgf import GameRecord, read_game

# A page has no more games than this: with more of them it would be slow to open and to keep.
MOST_GAMES = 20_000


@dataclass
class Run:
    output: str
    code: int
    errors: str


@dataclass
class ShownGame:
    """A game of the base that the page can show."""

    number: int
    file: str
    place: int
    record: GameRecord


class NoProgram(Exception):
    """The program can't be started."""


def run_program(program: str, script: str) -> Run:
    try:
        done = subprocess.run([program], input=script.encode("utf-8", "surrogateescape"), capture_output=True)
    except OSError as error:
        raise NoProgram(f"{program}: {error.strerror}") from error
    return Run(done.stdout.decode("utf-8", "surrogateescape"), done.returncode,
               done.stderr.decode("utf-8", "surrogateescape"))


def wanted_games(record: Record) -> list[int]:
    """The numbers of the games that the answers speak of, in the order in which they come up."""
    numbers: dict[int, None] = {}
    for answer in record.answers:
        if isinstance(answer, Search):
            numbers.update((hit.game, None) for hit in answer.hits)
        elif isinstance(answer, Opening):
            numbers.update((position.game, None) for position in answer.positions)
        elif isinstance(answer, Signature):
            numbers.update((game, None) for game, _ in answer.found)
        elif isinstance(answer, Doubles):
            numbers.update((game, None) for _, games in answer.groups for game in games)
        elif isinstance(answer, Game) and answer.place is not None:
            numbers[answer.number] = None
    return list(numbers)


def script_for_games(script: Script, numbers: list[int]) -> str:
    """The imports of the script again, and then the games. Games keep their numbers while a base grows."""
    imports = [s.text for s in script.statements if s.word in ("import", "make")]
    return "\n".join([*imports, "wait", *(f"game {number}" for number in numbers)]) + "\n"


def games_of(record: Record) -> dict[int, ShownGame]:
    """The games that a record prints."""
    games = {}
    for answer in record.answers:
        if isinstance(answer, Game) and answer.sgf and answer.place is not None:
            games[answer.number] = ShownGame(answer.number, answer.file, answer.place, read_game(answer.sgf))
    return games


def reports_of(record: Record) -> list[str]:
    """The reports of imports, without the numbers of their lines."""
    return [re.sub(r"^\d+ ", "", answer.first) for answer in record.answers
            if re.match(r"\d+ (imported|made) ", answer.first)]


@dataclass
class Games:
    """The games that the page can show, and what is to be said of those that it can't."""

    shown: dict[int, ShownGame]
    notes: list[str]


def ask_for_games(program: str, script: Script, record: Record) -> Games:
    """Asks for the games that the answers speak of and that the record doesn't print itself."""
    shown = games_of(record)
    wanted = [number for number in wanted_games(record) if number not in shown]
    notes = []
    if len(wanted) > MOST_GAMES:
        notes.append(f"Of {len(wanted):,} games the first {MOST_GAMES:,} can be looked at here.")
        wanted = wanted[:MOST_GAMES]
    if not wanted:
        return Games(shown, notes)
    asked = script_for_games(script, wanted)
    try:
        run = run_program(program, asked)
    except NoProgram as error:
        return Games(shown, [*notes, f"The games can’t be shown. {error}"])
    printed = read_record(run.output, read_script(asked))
    shown |= games_of(printed)
    if run.code != 0:
        notes.append(f"Asked for the games, the program ended with code {run.code}: {run.errors.strip()}")
    reports = reports_of(record)
    if reports and reports != reports_of(printed):
        notes.append("The folders have changed since the answers were printed: games may be other ones than "
                     "those that were searched.")
    return Games(shown, notes)
