"""The reading of scripts and of what gobase prints for them: each statement of docs/SCRIPT.md."""
from __future__ import annotations

import unittest

from answers_page import answers as kinds
from answers_page.continuations import continuations
from answers_page.record import Record, read_record, where_it_ended
from answers_page.script import Condition, OpeningQuestion, read_opening, read_question, read_script, split_words


WATCHES = "import d\nwait\nwatch w same X\nimport d\nwait\nwatched w\nwatched v\nwatch w O\n"
WATCHED = """1 import d
1 imported files 1 accepted 1 refused 0 full 0 unread 0 games 1 version 1
2 wait version 1
3 watch w version 1 hits 2
4 import d
4 imported files 1 accepted 1 refused 0 full 0 unread 0 games 1 version 2
5 wait version 2
6 watched w version 2 games 2 hits 4
hit 0 1 2 2 0 -
hit 0 3 2 1 0 -
hit 1 1 2 2 0 -
hit 1 3 2 1 0 -
total 4 0 0 0 0 4
7 watched v none
8 watch w taken
"""


def read(script: str, output: str) -> Record:
    return read_record(output, read_script(script))


class Scripts(unittest.TestCase):
    def test_words(self) -> None:
        self.assertEqual(split_words('import "my games/2024"'), ("import", "my games/2024"))
        self.assertEqual(split_words(r'search X where white "\"Ace\" \\"'),
                         ("search", "X", "where", "white", '"Ace" \\'))
        self.assertEqual(split_words('import "my games'), ("import", '"my', "games"))
        self.assertEqual(split_words("\twait \t"), ("wait",))

    def test_lines_are_counted_and_comments_lead(self) -> None:
        script = read_script("# All of it.\n#\n# More.\nimport one\r\n\n# Where?\nsearch X\nwait")
        self.assertEqual(script.heading, "All of it.\n\nMore.")
        self.assertEqual([(s.line, s.text, s.lead) for s in script.statements],
                         [(4, "import one", ""), (7, "search X", "Where?"), (8, "wait", "")])

    def test_a_block_hands_its_comment_on(self) -> None:
        script = read_script("import a\n# Both.\ntogether\n  search X\nend\n")
        self.assertEqual(script.at_line(4).lead, "Both.")
        self.assertTrue(script.at_line(4).in_block)
        self.assertFalse(script.at_line(3).prints)

    def test_all_options(self) -> None:
        question = read_question(split_words(
            'search same fixed main board 19 13 moves 1 60 at 0 1 to 3 4 ..O/.X. where player "Lee" and from 2003-01-01'))
        self.assertEqual(question.rows, ("..O", ".X."))
        self.assertTrue(question.same and question.fixed and question.main)
        self.assertEqual((question.board, question.moves, question.at), ((19, 13), (1, 60), (0, 1, 3, 4)))
        self.assertEqual(question.conditions, (Condition("player", "Lee"), Condition("from", "2003-01-01")))

    def test_what_is_no_question(self) -> None:
        for text in ("search", "search same", "search board 9 X", "search XX/X", "search y", "search X O", "kept at 1 X"):
            self.assertIsNone(read_question(split_words(text)), text)


    def test_opening_trees(self) -> None:
        self.assertEqual(read_opening(split_words("opening 19 13 20 5")), OpeningQuestion(19, 13, 20, 5))
        for text in ("opening", "opening 19 19 20", "opening 53 19 1 1", "opening 0 19 1 1", "opening 19 19 1 x",
                     "opening 9 9 1 1 1", "opening 9 9 -1 1"):
            self.assertIsNone(read_opening(split_words(text)), text)

    def test_a_name_stays_with_its_first_search(self) -> None:
        script = read_script("watched w\nwatch w same X where player \"Lee\"\nwatch v O\nwatched w\nwatch w\n")
        questions = [s.question and s.question.rows for s in script.statements]
        self.assertEqual(questions, [None, ("X",), ("O",), ("X",), ("X",)])
        self.assertEqual(script.statements[3].question.conditions, (Condition("player", "Lee"),))


class Outputs(unittest.TestCase):
    def one(self, script: str, output: str) -> kinds.Answer:
        record = read(script, output)
        self.assertEqual(where_it_ended(record), "")
        self.assertEqual(len(record.answers), 1)
        self.assertEqual(record.answers[0].extra, [])
        return record.answers[0]

    def test_first_script(self) -> None:
        record = read("# ?\nimport one\nwait\nsearch same X\n", """2 import one
2 imported files 1 accepted 1 refused 0 full 0 unread 0 games 1 version 1
3 wait version 1
4 search version 1 games 1 hits 2
hit 0 1 2 2 0 -
hit 0 3 2 1 0 -
total 2 0 0 0 0 2
""")
        self.assertEqual([type(a) for a in record.answers], [kinds.Import, kinds.Imported, kinds.Wait, kinds.Search])
        search = record.answers[3]
        self.assertEqual(search.hits, [kinds.Hit(0, 1, 2, 2, 0, None, False), kinds.Hit(0, 3, 2, 1, 0, None, False)])
        self.assertEqual(search.total, kinds.Tally(2, 0, 0, 0, 0, 2))
        self.assertEqual(where_it_ended(record), "")

    def test_search_with_a_table(self) -> None:
        search = self.one("search X", """1 search version 1 games 15 hits 3
hit 11 9 9 0 1 B 7 2 later
hit 11 40 0 0 12 W 8 2 now
hit 12 1 0 0 12 W 8 2 now
row B 7 2 1 0 1 1 0 0
row W 8 2 2 2 0 0 1 1
total 3 2 1 1 1 1
""")
        self.assertEqual(search.hits[0], kinds.Hit(11, 9, 9, 0, 1, ("B", 7, 2), True))
        self.assertEqual([(c.letter, c.colour, c.x, c.y, c.tally.count) for c in continuations(search)],
                         [("A", "W", 8, 2, 2), ("B", "B", 7, 2, 1)])

    def test_continuations_of_hits_without_their_rows(self) -> None:
        record = read("search X", "1 search version 1 games 15 hits 3\nhit 1 9 9 0 1 B 7 2 later\n")
        self.assertEqual([(c.letter, c.tally.count, c.tally.later) for c in continuations(record.answers[0])], [("A", 1, 1)])

    def test_make(self) -> None:
        record = read("make 3 1\nwait", "1 make 3 1\n1 made games 1 full 2 version 4\n2 wait version 4\n")
        make, made, wait = record.answers
        self.assertEqual((make.count, make.start), (3, 1))
        self.assertEqual((made.games, made.full, made.version, wait.version), (1, 2, 4, 4))

    def test_until(self) -> None:
        until = self.one("until 3", "1 until 3 version 0\n")
        self.assertEqual((until.awaited, until.version), (3, 0))

    def test_kept(self) -> None:
        kept = self.one("kept same XO", "1 kept version 1 games 7 kept 3\n")
        self.assertEqual((kept.games, kept.kept), (7, 3))
        self.assertEqual(kept.statement.question.rows, ("XO",))

    def test_signature(self) -> None:
        found = self.one("signature dfhb********",
                         "1 signature version 1 games 15 found 2\ngame 3 ddhh??df????\ngame 14 ddhh??df????\n")
        self.assertEqual(found.found, [(3, "ddhh??df????"), (14, "ddhh??df????")])

    def test_players(self) -> None:
        found = self.one("players", '1 players version 1 games 3 names 2\nplayer 2 2 0 Ann "Ace" Lee\nplayer 2 0 1 Bo\\Lo\n')
        self.assertEqual(found.players, [kinds.Player(2, 2, 0, 'Ann "Ace" Lee'), kinds.Player(2, 0, 1, "Bo\\Lo")])

    def test_doubles(self) -> None:
        found = self.one("doubles", "1 doubles version 1 games 15 groups 1\ndouble ddhh??df???? 3 14\n")
        self.assertEqual(found.groups, [("ddhh??df????", (3, 14))])

    def test_game(self) -> None:
        text = "(;GM[1]FF[4]SZ[3];B[bb](;B[cc])(;W[aa];AE[aa]))"
        game = self.one("game 0", f"1 game 0 version 1 place 2 file my a.sgf\n{text}\n")
        self.assertEqual((game.number, game.place, game.file, game.sgf), (0, 2, "my a.sgf", text))
        self.assertIsNone(self.one("game 9", "1 game 9 version 1 none\n").place)

    def test_opening(self) -> None:
        tree = self.one("opening 3 3 1 1", """1 opening version 1 games 2 positions 2
position 2 1 0 1 0 0
next B 0 0 2 1 0 1
position 2 1 0 1 0 1
next W 0 0 1 0 0 1
next W 1 1 1 1 0 0
""")
        self.assertEqual((tree.version, tree.games, tree.question), (1, 2, OpeningQuestion(3, 3, 1, 1)))
        first, second = tree.positions
        self.assertEqual((first.counts, first.game, first.node), (kinds.Counts(2, 1, 0, 1), 0, 0))
        self.assertEqual(first.nexts, [kinds.NextMove("B", (0, 0), kinds.Counts(2, 1, 0, 1))])
        self.assertEqual([(one.point, one.counts.count) for one in second.nexts], [((0, 0), 1), ((1, 1), 1)])

    def test_passes_of_an_opening(self) -> None:
        tree = self.one("opening 9 9 0 2", "1 opening version 4 games 3 positions 1\nposition 3 2 1 0 0 0\n"
                        "next B 4 4 2 2 0 0\nnext B pass 1 0 1 0\nnext W pass 4 2 2 0\n")
        self.assertEqual([(one.colour, one.point) for one in tree.positions[0].nexts],
                         [("B", (4, 4)), ("B", None), ("W", None)])

    def test_an_opening_that_is_not_whole_or_is_none(self) -> None:
        record = read("opening 3 3 1 1", "1 opening version 1 games 2 positions 2\nposition 2 1 0 1 0 0\n")
        self.assertIn("it has 1 of its 2 positions", where_it_ended(record))
        # A move before the first position, one beside the board, and a position without all its numbers.
        record = read("opening 3 3 1 1", "1 opening version 1 games 2 positions 1\nnext B 0 0 2 1 0 1\n"
                      "position 2 1 0 1 0 0\nnext B 3 0 2 1 0 1\nposition 2 1 0 1 0\n")
        self.assertEqual(record.answers[0].extra, ["next B 0 0 2 1 0 1", "next B 3 0 2 1 0 1", "position 2 1 0 1 0"])
        self.assertEqual(record.answers[0].positions[0].nexts, [])
        record = read("opening 3 0 1 1", "1 opening version 1 games 2 positions 0\n")
        self.assertIsInstance(record.answers[0], kinds.Plain)

    def test_watched_searches(self) -> None:
        record = read(WATCHES, WATCHED)
        self.assertEqual(where_it_ended(record), "")
        begun, told, none, taken = [a for a in record.answers if isinstance(a, (kinds.Watch, kinds.Watched))]
        self.assertEqual((begun.name, begun.version, begun.found, begun.taken), ("w", 1, 2, False))
        self.assertEqual((told.name, told.version, told.games, len(told.hits)), ("w", 2, 2, 4))
        self.assertEqual((told.before, told.since, told.new_hits()), (2, 3, 2))
        self.assertEqual([answer.statement.question.rows for answer in (begun, told)], [("X",)] * 2)
        self.assertTrue(told.statement.question.same)
        self.assertEqual((taken.name, taken.found, taken.taken), ("w", None, True))
        self.assertEqual((none.name, none.found, none.taken, none.statement.question), ("v", None, False, None))

    def test_each_look_tells_what_is_new_since_the_one_before(self) -> None:
        record = read("watch w X\nwatched w\nwatched w\nwatch none O\nwatched none", """1 watch w version 0 hits 0
2 watched w version 1 games 1 hits 1
hit 0 1 2 2 0 B 0 0 now
row B 0 0 1 1 0 0 0 1
total 1 1 0 0 0 1
3 watched w version 1 games 1 hits 1
hit 0 1 2 2 0 B 0 0 now
row B 0 0 1 1 0 0 0 1
total 1 1 0 0 0 1
4 watch none version 1 hits 0
5 watched none version 1 games 1 hits 0
total 0 0 0 0 0 0
""")
        looks = [a for a in record.answers if isinstance(a, kinds.Watched)]
        self.assertEqual([(a.name, a.before, a.since) for a in looks], [("w", 0, 1), ("w", 1, 2), ("none", 0, 4)])
        self.assertEqual([[one.new for one in continuations(a)] for a in looks], [[1], [0], []])

    def test_a_watched_search_whose_beginning_is_not_told(self) -> None:
        told = self.one("watched w", "1 watched w version 1 games 1 hits 0\ntotal 0 0 0 0 0 0\n")
        self.assertEqual((told.before, told.new_hits()), (None, 0))

    def test_file_names_with_line_feeds(self) -> None:
        game = self.one("game 0", "1 game 0 version 1 place 0 file a\nplayer 1 1 1 b.sgf\n(;GM[1])\n")
        self.assertEqual((game.file, game.sgf), ("a\nplayer 1 1 1 b.sgf", "(;GM[1])"))

    def test_report_and_retire(self) -> None:
        record = read("report\nretire labels\nretire labels", """1 report collectors 2
collector hits total 2
collector nexts nexts 0 0 2
2 retire labels
3 retire labels none
""")
        report, gone, none = record.answers
        self.assertEqual(report.collectors, [kinds.Collector("hits", "total", (2,)),
                                             kinds.Collector("nexts", "nexts", (0, 0, 2))])
        self.assertEqual((gone.gone, none.gone), (True, False))

    def test_reports_of_imports(self) -> None:
        record = read("import damaged\nimport none\nimport many\nwait", """1 import damaged
1 imported files 5 accepted 2 refused 1 full 1 unread 1 games 3 version 1
refused Ended 29 a b.sgf
full 400001 52000200 z.sgf
unread d.sgf
2 import none
2 imported unlisted
3 import many
3 imported too many files 100001
4 wait version 1
""")
        reports = [a for a in record.answers if isinstance(a, kinds.Imported)]
        self.assertEqual([(f.kind, f.numbers, f.name) for f in reports[0].faults],
                         [("Ended", (29,), "a b.sgf"), ("full", (400001, 52000200), "z.sgf"), ("unread", (), "d.sgf")])
        self.assertEqual([r.failure for r in reports], ["", "unlisted", "many"])
        self.assertEqual(where_it_ended(record), "")

    def test_a_report_may_come_late(self) -> None:
        record = read("import a\nsearch X\n", """1 import a
2 search version 0 games 0 hits 0
total 0 0 0 0 0 0
1 imported files 0 accepted 0 refused 0 full 0 unread 0 games 0 version 0
""")
        self.assertEqual([type(a) for a in record.answers], [kinds.Import, kinds.Search, kinds.Imported])

    def test_a_statement_that_is_not_known(self) -> None:
        record = read("tree 12\nwait", "1 tree version 1 nodes 2\nbranch a\nbranch b\n2 wait version 0\n")
        tree, wait = record.answers
        self.assertIsInstance(tree, kinds.Plain)
        self.assertEqual(tree.extra, ["branch a", "branch b"])
        self.assertIsInstance(wait, kinds.Wait)


class CutOff(unittest.TestCase):
    SCRIPT = "import a\nwait\nsearch X\nplayers"
    WHOLE = """1 import a
1 imported files 1 accepted 1 refused 0 full 0 unread 0 games 1 version 1
2 wait version 1
3 search version 1 games 1 hits 2
hit 0 1 2 2 0 -
hit 0 3 2 1 0 -
total 2 0 0 0 0 2
4 players version 1 games 1 names 1
player 1 1 0 Ann
"""

    def test_each_beginning_is_read(self) -> None:
        for length in range(len(self.WHOLE)):
            record = read(self.SCRIPT, self.WHOLE[:length])
            self.assertNotEqual(where_it_ended(record), "", length)
        self.assertEqual(where_it_ended(read(self.SCRIPT, self.WHOLE)), "")

    def test_where_it_ended(self) -> None:
        told = where_it_ended(read(self.SCRIPT, self.WHOLE[:self.WHOLE.index("hit 0 3") + 4]))
        self.assertIn("at its line 6, in the answer to line 3", told)
        self.assertIn("1 of its 2 hits", told)
        self.assertIn("line 4", told)

    def test_no_output_of_gobase(self) -> None:
        for text in ("", "hello\n", "\x00\x01", "9 wait version 1\n", "<html>\n3 players\n" * 20):
            told = where_it_ended(read(self.SCRIPT, text))
            self.assertIn("no output of gobase", told)


if __name__ == "__main__":
    unittest.main()
