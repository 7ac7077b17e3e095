#!/usr/bin/env python3
"""Stands in for the native program where there is none: tells stored records.

It is handed the folder of records by GOBASE_RECORDS. A script whose record is there by name
(`joseki.script` has `joseki.txt`) is answered by it; a script of imports, `wait`, `opening` and `game N` alone
from `games.txt`, which has the sample games. Anything else ends with code 1.
"""
from __future__ import annotations

import os
import re
import sys
from pathlib import Path

if __name__ == "__main__":
    sys.path.insert(0, str(Path(__file__).parents[1]))

from tests import opening_trees

RECORDS = Path(os.environ.get("GOBASE_RECORDS", Path(__file__).parent / "records"))
SCRIPTS = Path(__file__).parents[2] / "scripts"


def stored_games() -> dict[int, tuple[str, str]]:
    """What stands behind the line's number in the first line of each sample game, and its text."""
    lines = (RECORDS / "games.txt").read_text().splitlines()
    found = {}
    for first, text in zip(lines, lines[1:]):
        if match := re.match(r"\d+ (game (\d+) .*)", first):
            found[int(match[2])] = (match[1], text)
    return found


def answer(script: str) -> str | None:
    for path in SCRIPTS.glob("*.script"):
        stored = RECORDS / f"{path.stem}.txt"
        if path.read_text() == script and stored.exists():
            return stored.read_text()
    stored, told, imports = stored_games(), "", 0
    for number, line in enumerate(script.splitlines(), start=1):
        word, *rest = line.split() or [""]
        if word == "" or word.startswith("#"):
            continue
        if word == "import":
            imports += 1
            told += (f"{number} {line}\n{number} imported files 14 accepted 14 refused 0 full 0 unread 0 games "
                     f"{len(stored)} version {imports}\n")
        elif word == "wait":
            told += f"{number} wait version {imports}\n"
        elif word == "game":
            told += game(stored, number, int(rest[0]), imports)
        elif word == "opening":
            told += opening(stored, number, list(map(int, rest)), imports)
        else:
            return None
    return told


def game(stored: dict[int, tuple[str, str]], line: int, number: int, imports: int) -> str:
    """A game of a base that has the sample games as often as they were imported."""
    if number >= imports * len(stored):
        return f"{line} game {number} version {imports} none\n"
    first, text = stored[number % len(stored)]
    behind = first.split(" ", 4)[4]
    return f"{line} game {number} version {imports} {behind}\n{text}\n"


def opening(stored: dict[int, tuple[str, str]], line: int, asked: list[int], imports: int) -> str:
    """An opening tree of such a base."""
    columns, rows, depth, least = asked
    games = [opening_trees.read(text) for _, (_, text) in sorted(stored.items())] * imports
    found = opening_trees.openings(games, columns, rows, depth)
    return opening_trees.printed(found, f"{line} opening version {imports} games {len(games)}", columns, least)


def main() -> int:
    told = answer(sys.stdin.read())
    if told is None:
        print("gobase: line 1 of the script is not a statement", file=sys.stderr)
        return 1
    sys.stdout.write(told)
    return 0


if __name__ == "__main__":
    sys.exit(main())
