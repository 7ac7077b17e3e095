"""The plain program of opening trees against the examples that were worked out by hand."""
from __future__ import annotations

import re
import unittest
from urllib.parse import unquote

from . import opening_trees
from .samples import ROOT

CASES = ROOT / "crates" / "run_cases" / "data" / "openings.cases"
# A game of a file: brackets and values, of which the former may nest.
PART = re.compile(r"\[(?:[^\]\\]|\\.)*\]|[()]", re.S)


def games_of(text: str) -> list[str]:
    """The texts of the games of a file."""
    found, depth, start = [], 0, 0
    for match in PART.finditer(text):
        if match[0] == "(":
            start = start if depth else match.start()
            depth += 1
        elif match[0] == ")":
            depth -= 1
            found += [] if depth else [text[start:match.end()]]
    return found


def answer(games: list[str], asked: str) -> str:
    """What the statement prints in line 3, over these games."""
    read = [opening_trees.read(game) for game in games]
    columns, rows, depth, least = map(int, asked.split()[1:])
    found = opening_trees.openings(read, columns, rows, depth)
    return opening_trees.printed(found, f"3 opening version 1 games {len(read)}", columns, least)


class Examples(unittest.TestCase):
    def test_first_moves_that_are_images_of_each_other(self) -> None:
        self.assertEqual(answer(["(;SZ[3];B[aa];W[cc])", "(;SZ[3]RE[B+1];B[ca];W[bb])"], "opening 3 3 1 1"),
                         """3 opening version 1 games 2 positions 2
position 2 1 0 1 0 0
next B 0 0 2 1 0 1
position 2 1 0 1 0 1
next W 0 0 1 0 0 1
next W 1 1 1 1 0 0
""")

    def test_variations_that_meet_again(self) -> None:
        game = "(;SZ[3](;B[aa];W[bb];B[cc])(;B[cc];W[bb];B[aa]))"
        self.assertEqual(answer([game], "opening 3 3 3 2"), """3 opening version 1 games 1 positions 3
position 2 0 0 2 0 1
next W 1 1 2 0 0 2
position 2 0 0 2 0 2
next B 0 0 2 0 0 2
position 2 0 0 2 0 3
""")

    @unittest.skipUnless(CASES.exists(), "wants the worked examples of openings")
    def test_each_worked_example(self) -> None:
        games: list[str] = []
        compared = 0
        for line in CASES.read_text().splitlines():
            if line.startswith("each over "):
                games = games_of(unquote(line.removeprefix("each over ")))
            elif line.startswith("opening ") and " => " in line:
                asked, expected = line.split(" => ", 1)
                self.assertEqual(answer(games, asked).rstrip("\n").replace("\n", " | "), expected, asked)
                compared += 1
        self.assertGreater(compared, 40)


if __name__ == "__main__":
    unittest.main()
