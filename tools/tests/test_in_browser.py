"""The page in a real browser.

Each hit of the sample scripts is opened, and the board that the page shows is compared with the pattern:
page and program are checked against each other, by symmetries that are written here once more from the
table of docs/SCRIPT.md.
"""
from __future__ import annotations

import random
import subprocess
import unittest
from pathlib import Path
from typing import Any

from answers_page.answers import Hit, Search, Watched
from answers_page.record import read_record
from answers_page.script import Question, read_script

from .browser import SCROLL, BrowserTest
from .samples import NATIVE, ROOT, page_of, program, program_that_tells, program_with_games, scripts
from .test_answers import WATCHED, WATCHES
from .test_page import ENDING, FIRST_GAME, MARKUP, hostile_page

# Opens a hit by its address, and tells the stones of the board at its node, with the pattern turned back,
# and at the node before.
LOOK = """async (line, hit) => {
    const stones = () => Object.fromEntries([...document.querySelectorAll("#viewer-board [data-stone]")]
        .map(stone => [stone.dataset.point, stone.dataset.stone]));
    const press = id => document.getElementById(id).click();
    const changed = new Promise(done => addEventListener("hashchange", done, {once: true}));
    location.hash = `#${line}.${hit}`;
    await changed;
    press("as-game");
    const board = document.getElementById("viewer-board").dataset;
    const told = {game: Number(board.game), node: Number(board.node), stones: stones(),
        label: document.getElementById("viewer-label").textContent};
    press("as-pattern");
    told.turned = stones();
    const mark = document.querySelector("#viewer-board .placement");
    told.mark = ["x", "y", "width", "height"].map(name => (Number(mark.getAttribute(name))) / 28);
    press("as-game");
    told.atRoot = document.getElementById("step-back").disabled;
    press("step-back");
    told.before = stones();
    return told;
}"""


def cells_of(question: Question, hit: Hit) -> dict[tuple[int, int], str]:
    """The cells of a placement by their points of the board: turned, and exchanged by the label."""
    width, height = question.width, question.height
    turned = {
        0: lambda x, y: (x, y), 1: lambda x, y: (width - 1 - x, y),
        2: lambda x, y: (x, height - 1 - y), 3: lambda x, y: (width - 1 - x, height - 1 - y),
        4: lambda x, y: (y, x), 5: lambda x, y: (y, width - 1 - x),
        6: lambda x, y: (height - 1 - y, x), 7: lambda x, y: (height - 1 - y, width - 1 - x),
    }[hit.label % 8]
    exchange = str.maketrans("XOxo", "OXox") if hit.label >= 8 else {}
    cells = {}
    for y, row in enumerate(question.rows):
        for x, cell in enumerate(row.translate(exchange)):
            dx, dy = turned(x, y)
            cells[hit.x + dx, hit.y + dy] = cell
    return cells


def holds(cells: dict[tuple[int, int], str], stones: dict[str, str]) -> bool:
    allowed = {"X": ("black",), "O": ("white",), ".": (None,), "x": ("black", None), "o": ("white", None),
               "*": ("black", "white", None)}
    return all(stones.get(f"{x},{y}") in allowed[cell] for (x, y), cell in cells.items())


def game_at_random(numbers: random.Random, columns: int, rows: int) -> str:
    """A game with setup stones and variations, in which points are played again and again."""
    def point() -> str:
        return f"[{chr(97 + numbers.randrange(columns))}{chr(97 + numbers.randrange(rows))}]"

    def line(moves: int, colour: int) -> str:
        text = ""
        for i in range(moves):
            text += f";{'BW'[(colour + i) % 2]}{point()}"
            if numbers.random() < 0.06:
                text += f";AE{point()}"
            if i > 4 and numbers.random() < 0.12:
                return text + "".join(f"({line(moves - i - 1, colour + i + 1)})" for _ in range(2) if moves - i > 1)
        return text

    return f"(;SZ[{columns}:{rows}]AB{point()};AW{point()}{line(26, 0)})"


class InBrowser(BrowserTest):
    def check_hit(self, question: Question, hit: Hit, told: dict[str, Any]) -> None:
        cells = cells_of(question, hit)
        self.assertEqual((told["game"], told["node"]), (hit.game, hit.node))
        self.assertTrue(holds(cells, told["stones"]), "the pattern isn't on the board")
        if not told["atRoot"]:
            self.assertFalse(holds(cells, told["before"]), "the pattern was there before")
        # Turned back, the pattern lies in its mark as it is drawn.
        left, top, width, height = told["mark"]
        self.assertEqual((round(width), round(height)), (question.width, question.height))
        corner = Hit(0, 0, round(left - 24 / 28), round(top - 24 / 28), 0, None, False)
        self.assertTrue(holds(cells_of(question, corner), told["turned"]), "turned back, it isn't as drawn")

    def check_hits_of(self, script: Path, folder: Path) -> int:
        """Checks each hit of each search of a script, and tells how many they were."""
        page, checked = self.folder / f"{script.stem}.html", 0
        page_of(script, page, folder=folder)
        self.browser.open(page)
        for search in self.searches(script, folder):
            shown = self.browser.run(f"document.querySelector('[data-search=\"{search.statement.line}\"] .told')"
                                     "?.textContent ?? '0 hits'")
            self.assertEqual(shown.split()[0], f"{len(search.hits):,}")
            for number, hit in enumerate(search.hits, start=1):
                with self.subTest(script=script.name, line=search.statement.line, hit=number):
                    told = self.browser.run(f"({LOOK})({search.statement.line}, {number})")
                    self.check_hit(search.statement.question, hit, told)
                    checked += 1
        self.assertEqual(self.browser.complaints(), [])
        return checked

    def test_each_hit_of_the_sample_scripts(self) -> None:
        checked = sum(self.check_hits_of(script, ROOT) for script in scripts())
        print(f"{checked} hits of the sample scripts were looked at")
        self.assertGreater(checked, 100)

    @unittest.skipUnless(NATIVE.exists(), "wants the native program")
    def test_hits_in_games_at_random(self) -> None:
        """Boards that aren't square, variations, setup stones, captures, and patterns in all labels."""
        numbers = random.Random(7)
        (self.folder / "random").mkdir()
        for number, size in enumerate([(4, 6), (5, 5), (6, 4), (7, 7), (3, 8), (5, 5)]):
            (self.folder / "random" / f"{number}.sgf").write_text(game_at_random(numbers, *size))
        searches = ["search at 0 0 .x/oX", "search XO./oX.", "search at 1 0 to 4 0 .X./*O*", "search OX/XO/..", "search at 0 1 X/O/."]
        script = self.folder / "random.script"
        script.write_text("\n".join(["import random", "wait", *searches]) + "\n")
        checked = self.check_hits_of(script, self.folder)
        print(f"{checked} hits in games at random were looked at")
        self.assertGreater(checked, 50)

    def searches(self, script: Path, folder: Path) -> list[Search]:
        """The searches of a script, as the program answers it."""
        output = subprocess.run([program()], input=script.read_bytes(), cwd=folder, capture_output=True, check=True).stdout
        record = read_record(output.decode(), read_script(script.read_text()))
        return [answer for answer in record.answers if isinstance(answer, Search)]

    def test_lists_of_games_on_a_phone(self) -> None:
        page_of(ROOT / "scripts" / "players.script", self.folder / "phone.html")
        self.browser.open(self.folder / "phone.html")
        self.browser.size(390, 844)
        beside = self.browser.run("[...document.querySelectorAll('.games')].map(list => "
                                  "list.parentElement.scrollWidth - list.parentElement.clientWidth)")
        self.browser.size(1280, 900)
        self.assertEqual(beside, [0, 0], "a list of games doesn't fit")

    def test_hostile_texts_do_nothing(self) -> None:
        page = hostile_page(self.folder)
        self.browser.open(page)
        self.assertEqual(self.browser.complaints(), [])
        self.browser.run("document.querySelector('.hits .rows .row').click()")
        self.browser.run("document.querySelector('.one-game .open').click()")
        self.assertNotEqual(self.browser.run("document.title"), "ran")
        self.assertEqual(self.browser.run("document.querySelectorAll('img, main script, b, i').length"), 0)
        self.assertIn("<img src=x", self.browser.run("document.getElementById('viewer-players').textContent"))
        for width in (1280, 390):
            self.browser.size(width, 844)
            wide = self.browser.run("document.documentElement.scrollWidth")
            self.assertLessEqual(wide, width, "a text makes the page wider than the screen")
        self.browser.size(1280, 900)
        self.assertEqual(self.browser.complaints(), [])

    @unittest.skipUnless(NATIVE.exists(), "wants the native program")
    def test_a_hostile_game(self) -> None:
        """The same through the program: a file whose name and texts are markup, bytes that are no UTF-8, and long."""
        (self.folder / "hostile").mkdir()
        game = (b"(;SZ[5]PB[" + MARKUP.encode() + b"]PW[" + ENDING.encode() + b"]EV[\xff\xfe caf\xe9]PC[" + b"W" * 10_000
                + b"]DT[2020-01-01\"'<]RE[B+<b>R]C[" + MARKUP.encode() + b"];B[cc];W[bc]C[" + ENDING.encode() + b"])")
        (self.folder / "hostile" / "<b>a&quot;\n2 wait version 9.sgf").write_bytes(game)
        (self.folder / "hostile" / "<i>broken.sgf").write_bytes(b"(;B[")
        script = self.folder / "hostile.script"
        script.write_text("import hostile\n\nwait\nsearch X\nplayers\ngame 0\n")
        page = self.folder / "hostile.html"
        page_of(script, page, folder=self.folder)
        self.browser.open(page)
        self.browser.run("document.querySelector('.hits .rows .row').click()")
        self.assertNotEqual(self.browser.run("document.title"), "ran")
        self.assertEqual(self.browser.run("document.querySelectorAll('img, main script, b, i').length"), 0)
        self.assertIn("<img src=x", self.browser.run("document.getElementById('viewer-players').textContent"))
        self.assertIn("<i>broken.sgf", self.browser.run("document.querySelector('.faults').textContent"))
        self.assertLessEqual(self.browser.run("document.documentElement.scrollWidth"), 1280)
        self.assertEqual(self.browser.complaints(), [])

    def test_the_policy_stops_a_script_that_slipped_in(self) -> None:
        page = hostile_page(self.folder)
        page.write_text(page.read_text("utf-8").replace("<main>", "<main><script>document.title = 'ran'</script>"), "utf-8")
        self.browser.open(page)
        self.assertNotEqual(self.browser.run("document.title"), "ran")
        self.assertTrue(self.browser.complaints())

    def test_sorting_and_filtering(self) -> None:
        page = self.folder / "joseki.html"
        page_of(ROOT / "scripts" / "joseki.script", page)
        self.browser.open(page)
        dates = "[...document.querySelectorAll('[data-search=\"12\"] .rows .row')].sort((a, b) => " \
                "parseFloat(a.style.top) - parseFloat(b.style.top)).map(row => row.querySelector('.date').textContent)"
        newest = self.browser.run(dates)
        self.assertEqual(newest, sorted(newest, reverse=True))
        choose = "(value => { const s = document.querySelector('[data-search=\"12\"] select'); s.value = value; " \
                 "s.dispatchEvent(new Event('change')); })"
        self.browser.run(choose + "('oldest')")
        self.assertEqual(self.browser.run(dates), sorted(newest))
        self.browser.run("(() => { const f = document.querySelector('[data-search=\"12\"] input'); "
                         "f.value = 'spring'; f.dispatchEvent(new Event('input')); })()")
        self.assertEqual(self.browser.run("document.querySelector('[data-search=\"12\"] .told').textContent"), "2 of 14 hits")

    def test_a_hundred_thousand_hits(self) -> None:
        """Rows are made as they are looked at, so that neither opening nor scrolling waits for all."""
        hits = [f"hit {game} {node} {node % 18} {game % 18} {node % 16} {'BW'[node % 2]} {node % 2} 0 now"
                for game in range(2_000) for node in range(1, 51)]
        (self.folder / "big").write_text("\n".join(
            ["1 search version 1 games 2000 hits 100000", *hits, "total 100000 100000 0 0 0 100000"]) + "\n")
        (self.folder / "big.script").write_text("search XO\n")
        moves = "".join(f";{'BW'[i % 2]}[{chr(97 + i % 19)}{chr(97 + i // 19)}]" for i in range(200))
        games = "".join(f"{game + 2} game {game} version 1 place 0 file a.sgf\n"
                        f"(;GM[1]FF[4]SZ[19]PB[P {game % 7}]DT[{1950 + game % 70}]{moves})\n" for game in range(2_000))
        told = program_that_tells(self.folder / "big-program", "1 wait version 1\n" + games)
        page_of(self.folder / "big.script", self.folder / "big.html", "--output", str(self.folder / "big"),
                asked=told, folder=self.folder)
        self.browser.open(self.folder / "big.html")
        opened = self.browser.run("performance.getEntriesByType('navigation')[0].domContentLoadedEventEnd")
        waits = self.browser.run(SCROLL)
        print(f"100,000 hits: opened in {opened:.0f} ms, a scroll takes {waits[25]:.1f} ms, the longest {waits[-1]:.1f} ms")
        self.assertLess(self.browser.run("document.querySelectorAll('.rows .row').length"), 60)
        # Generous bounds, for machines that do other things too.
        self.assertLess(opened, 5_000)
        self.assertLess(waits[25], 200)
        below = self.browser.run("""(() => {
            const box = document.querySelector(".long-list");
            box.scrollTop = box.scrollHeight;
            box.dispatchEvent(new Event("scroll"));
            const ends = [...document.querySelectorAll(".rows .row")].map(row => row.getBoundingClientRect().bottom);
            return Math.max(...ends) - box.getBoundingClientRect().bottom;
        })()""")
        self.assertLess(abs(below), 4, "the last row isn't at the lower end")

    def test_what_is_new_in_a_watched_search(self) -> None:
        (self.folder / "w.record").write_text(WATCHED)
        (self.folder / "w.script").write_text(WATCHES)
        asked = program_with_games(self.folder / "w", WATCHED.split("3 watch")[0], [FIRST_GAME] * 2)
        page_of(self.folder / "w.script", self.folder / "w.html", "--output", str(self.folder / "w.record"), asked=asked,
                folder=self.folder)
        self.browser.open(self.folder / "w.html")
        watched = next(a for a in read_record(WATCHED, read_script(WATCHES)).answers if isinstance(a, Watched))
        for number, hit in enumerate(watched.hits, start=1):
            told = self.browser.run(f"({LOOK})(6, {number})")
            self.check_hit(watched.statement.question, hit, told)
            self.assertEqual("New since line 3 of the script." in told["label"], hit.game == 1)
        marks = "[...document.querySelectorAll('.hits .rows .row')].map(row => row.querySelector('.new-mark') !== null)"
        self.assertEqual(sorted(self.browser.run(marks)), [False, False, True, True])
        self.browser.run("""(() => { const which = document.querySelector(".hits [aria-label='New hits']");
            which.value = "new"; which.dispatchEvent(new Event("change")); })()""")
        self.assertEqual(self.browser.run(marks), [True, True])
        self.assertEqual(self.browser.run("document.querySelector('.hits .told').textContent"), "2 of 4 hits")
        self.assertEqual(self.browser.complaints(), [])

    def test_a_letter_picks_its_hits(self) -> None:
        page = self.folder / "letters.html"
        page_of(ROOT / "scripts" / "joseki.script", page)
        self.browser.open(page)
        self.browser.run("document.querySelector('#line-12 .pick').click()")
        self.assertEqual(self.browser.run("document.querySelector('[data-search=\"12\"] .told').textContent"), "11 of 14 hits")

    def test_variations_are_stepped_through(self) -> None:
        (self.folder / "v.script").write_text("game 0\n")
        told = program_that_tells(
            self.folder / "v", "1 game 0 version 1 place 0 file a.sgf\n(;GM[1]FF[4]SZ[3];B[bb](;W[ba];B[ab])(;W[aa];AE[bb]))\n")
        page_of(self.folder / "v.script", self.folder / "v.html", asked=told, folder=self.folder)
        self.browser.open(self.folder / "v.html")
        self.browser.run("document.querySelector('.open').click(); document.getElementById('step-on').click()")
        chips = self.browser.run("[...document.querySelectorAll('#viewer-variations button')].map(b => b.textContent)")
        self.assertEqual(chips, ["2 White B3", "2 White A3"])
        self.browser.run("document.querySelectorAll('#viewer-variations button')[1].click(); "
                         "document.getElementById('step-on').click()")
        stones = self.browser.run("[...document.querySelectorAll('#viewer-board [data-stone]')].map(s => s.dataset.point)")
        self.assertEqual(stones, ["0,0"])


if __name__ == "__main__":
    unittest.main()
