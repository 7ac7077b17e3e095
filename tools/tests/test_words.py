"""Labels, places, letters and information in words."""
from __future__ import annotations

import unittest

from answers_page import words
from answers_page.boards import Edges, edges_of, phases_chart, pattern_svg, results_bar
from answers_page.record import read_record
from answers_page.script import read_opening, read_question, read_script, split_words
from answers_page.sections import signature_words
from answers_page.sgf import day_of, read_game


def question(text: str):
    return read_question(split_words(text))


class Labels(unittest.TestCase):
    def test_all_sixteen(self) -> None:
        self.assertEqual([words.label_words(label) for label in range(16)], [
            "as drawn",
            "left and right exchanged",
            "upside down",
            "turned a half",
            "mirrored on the diagonal from the upper left",
            "turned a quarter to the left",
            "turned a quarter to the right",
            "mirrored on the diagonal from the upper right",
            "colours exchanged",
            "left and right exchanged, colours exchanged",
            "upside down, colours exchanged",
            "turned a half, colours exchanged",
            "mirrored on the diagonal from the upper left, colours exchanged",
            "turned a quarter to the left, colours exchanged",
            "turned a quarter to the right, colours exchanged",
            "mirrored on the diagonal from the upper right, colours exchanged",
        ])

    def test_letters(self) -> None:
        self.assertEqual([words.letter(i) for i in (0, 1, 25, 26, 27, 51, 52, 701, 702)],
                         ["A", "B", "Z", "AA", "AB", "AZ", "BA", "ZZ", "AAA"])


class Questions(unittest.TestCase):
    def test_places(self) -> None:
        for text, expected in (
                ("search XX", "anywhere on the board"),
                ("search at 0 0 XX", "in a corner"),
                ("search fixed at 0 0 XX", "in the upper left corner"),
                ("search at 0 0 to 18 0 XX", "along an edge"),
                ("search fixed at 0 0 to 0 9 XX", "along the left edge"),
                ("search at 3 3 X", "on the 4-4 point of a corner"),
                ("search fixed at 3 2 XX", "with its upper left point at column 4, row 3")):
            self.assertEqual(words.place_words(question(text)), expected)

    def test_sentence(self) -> None:
        asked = question('search same main board 19 19 moves 1 45 at 0 0 X./.O where black "Tom" and result draw')
        self.assertEqual(words.question_words(asked),
                         "2 by 2 points in a corner, also turned and mirrored, colours as drawn, on main lines alone, "
                         "on boards of 19 by 19, at moves 1 to 45. Only games with Black called “Tom” and a draw as result.")

    def test_totals(self) -> None:
        record = read_record("1 search version 1 games 15 hits 2\nhit 4 1 0 0 0 B 0 0 now\nhit 4 9 0 0 0 -\n"
                             "row B 0 0 1 1 0 0 1 0\ntotal 2 1 0 0 1 1\n", read_script("search X"))
        self.assertEqual(words.search_words(record.answers[0]),
                         "Found twice, in 1 of 15 games: play went on inside the pattern at once in 1 hit; "
                         "the pattern’s black won 0, its white 1, neither 1.")

    def test_what_is_new(self) -> None:
        def told(before: int, now: int) -> str:
            text = f"1 watch w version 1 hits {before}\n2 watched w version 2 games 2 hits {now}\n"
            return words.new_words(read_record(text, read_script("watch w X\nwatched w")).answers[1])
        self.assertEqual(told(2, 4), "2 of 4 hits are new since line 1 of the script.")
        self.assertEqual(told(0, 1), "1 of 1 hit is new since line 1 of the script.")
        self.assertEqual(told(3, 3), "Nothing is new since line 1 of the script.")

    def test_opening_trees(self) -> None:
        for text, expected in (
                ("opening 19 13 20 5", "Positions that came up on boards of 19 by 13, up to move 20, 5 times at least."),
                ("opening 9 9 1 2", "Positions that came up on boards of 9 by 9, up to move 1, twice at least."),
                ("opening 9 9 0 1", "Positions that came up on boards of 9 by 9, before the first move.")):
            asked = words.opening_question_words(read_opening(split_words(text)))
            self.assertEqual(asked, expected + " What differs only by turning and mirroring is one position.")

    def test_signature(self) -> None:
        self.assertEqual(signature_words("dfhb********"), "move 20: column 4, row 6; move 40: column 8, row 2")
        self.assertEqual(signature_words("????????A***"), "move 20: missing or a pass; move 31: missing or a pass; "
                         "move 40: missing or a pass; move 51: column 27, any row; move 60: missing or a pass")


class Pictures(unittest.TestCase):
    def test_edges(self) -> None:
        self.assertEqual(edges_of(question("search XX/XX"), (19, 19)), Edges())
        self.assertEqual(edges_of(question("search at 0 0 XX/XX"), None), Edges(left=True, top=True))
        self.assertEqual(edges_of(question("search at 0 0 to 9 0 XX/XX"), (19, 19)), Edges(top=True))
        self.assertEqual(edges_of(question("search at 17 17 XX/XX"), (19, 19)), Edges(right=True, bottom=True))

    def test_cells(self) -> None:
        drawn = pattern_svg(question("search XO/xo/*."), [], None)
        for name in ('class="black"', 'class="white"', 'class="half black"', 'class="half white"', 'class="any"'):
            self.assertEqual(drawn.count(name), 1, name)

    def test_bars(self) -> None:
        self.assertEqual(results_bar(0, 0, 0), "")
        self.assertIn("black won 3, white 4, neither 4", results_bar(3, 4, 4))
        self.assertIn("moves 10 to 19: 9 times", phases_chart((6, 9, 1) + (0,) * 28))


class Games(unittest.TestCase):
    def test_information_and_moves(self) -> None:
        game = read_game("(;GM[1]FF[4]SZ[9:13]PB[A \\] B]PW[<b>]DT[2003-04-12,13]RE[B+2]"
                         ";B[cc](;AW[dd];W[](;B[ab])(;W[aa]))(;W[bb]))")
        self.assertEqual((game.columns, game.rows, game.black, game.white, game.result), (9, 13, "A ] B", "<b>", "B+2"))
        self.assertEqual(game.moves, (0, 1, 1, 2, 3, 3, 2))
        self.assertEqual(game.length, 3)

    def test_what_is_no_game(self) -> None:
        for text in ("", "(", ")))", "(;B[", "B[aa]", "(;SZ[99]PB[", "[]" * 50):
            read_game(text)

    def test_days(self) -> None:
        for date, day in (("2003-04-12,13", 20030412), ("2003-04", 20030401), (" 1999", 19990101),
                          ("2003-4-12", 0), ("12 April 2003", 0), ("", 0), ("2003-13-01", 0)):
            self.assertEqual(day_of(date), day, date)


if __name__ == "__main__":
    unittest.main()
