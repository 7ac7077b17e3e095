"""Opening trees in a real browser.

Each position of each tree is shown by the page, and its board is compared with one that is worked out from
the text of the game (opening_trees). Each next move is gone on to, and back.
"""
from __future__ import annotations

import random
import subprocess
import unittest
from pathlib import Path
from typing import Any

from answers_page.answers import Opening, Position
from answers_page.record import read_record
from answers_page.script import read_script

from . import opening_trees
from .browser import SCROLL, BrowserTest
from .opening_trees import PlainGame, played
from .samples import NATIVE, ROOT, page_of, program, program_with_games
from .stand_in import stored_games
from .test_in_browser import game_at_random
from .test_page import ENDING, MARKUP

# Shows a position by a click on its row, and tells its stones and letters, and where each next move leads.
LOOK = """(line, number) => {
    const place = document.querySelector(`[data-opening="${line}"]`);
    const stonesOf = board => Object.fromEntries([...board.querySelectorAll("[data-stone]")]
        .map(stone => [stone.dataset.point, stone.dataset.stone]));
    const figure = () => place.querySelector(".position");
    const told = () => ({position: Number(figure().dataset.position), turn: Number(figure().dataset.turn),
        stones: stonesOf(figure())});
    const box = place.querySelector(".long-list"), top = 92 * (number - 1);
    box.scrollTop = top;
    box.dispatchEvent(new Event("scroll"));
    [...box.querySelectorAll(".row")].find(row => parseFloat(row.style.top) === top).click();
    const found = told();
    found.letters = [...figure().querySelectorAll("[data-mark]")].flatMap(mark =>
        [...mark.querySelectorAll(".letter")].map(letter => [letter.textContent, mark.dataset.mark]));
    const rows = () => [...place.querySelectorAll(".nexts tbody tr")];
    found.nexts = rows().map((row, i) => {
        const pick = rows()[i].querySelector(".pick");
        const next = {colour: row.dataset.colour, point: Number(row.dataset.point), leads: null};
        if (pick.disabled) return next;
        pick.click();
        next.leads = told();
        place.querySelector(".way .back").click();
        return next;
    });
    found.again = told();
    const game = figure().querySelector(".open");
    game.click();
    const board = document.getElementById("viewer-board"), {game: at, node} = board.dataset;
    found.game = {game: Number(at), node: Number(node), stones: stonesOf(board)};
    document.getElementById("as-pattern").click();
    found.game.turned = stonesOf(board);
    document.getElementById("viewer-close").click();
    return found;
}"""

# Puts all lists in the order of the record, and waits until it is known where each move leads.
WAIT = """(async () => {
    for (const sort of document.querySelectorAll(".position-list select")) {
        sort.value = "entry";
        sort.dispatchEvent(new Event("change"));
    }
    while (document.querySelector('.opening[data-indexed="false"]'))
        await new Promise(done => setTimeout(done, 10));
})()"""

# Puts an address into the browser, and waits until the page has seen it.
ADDRESS = """new Promise(done => {
    addEventListener("hashchange", done, {once: true});
    location.hash = "%s";
})"""

# What the page tells of a position.
Told = dict[str, Any]

EXAMPLE_SCRIPT = "import d\nwait\nopening 3 3 1 1\n"
EXAMPLE_GAMES = ["(;SZ[3];B[aa];W[cc])", "(;SZ[3]RE[B+1];B[ca];W[bb])"]
EXAMPLE = """1 import d
1 imported files 2 accepted 2 refused 0 full 0 unread 0 games 2 version 1
2 wait version 1
3 opening version 1 games 2 positions 2
position 2 1 0 1 0 0
next B 0 0 2 1 0 1
next W pass 1 0 0 1
position 2 1 0 1 0 1
next W 0 0 1 0 0 1
next W 1 1 1 1 0 0
"""


def stones_of(position: opening_trees.Position, columns: int) -> dict[str, str]:
    return {f"{point % columns},{point // columns}": ["", "black", "white"][cell]
            for point, cell in enumerate(position) if cell}


def least_of(position: opening_trees.Position, columns: int, rows: int) -> opening_trees.Position:
    return min(image for image, _ in opening_trees.images(position, columns, rows))


def games_at_random(count: int) -> list[str]:
    """Boards that aren't square, variations, setup stones, captures, and moves on stones."""
    numbers = random.Random(11)
    sizes = [(3, 3), (4, 3), (3, 3), (5, 5), (4, 3), (3, 4)]
    results = ["", "RE[B+1]", "RE[W+R]", "RE[0]"]
    return [game_at_random(numbers, *sizes[i % len(sizes)]).replace("(;", "(;" + results[i % len(results)], 1)
            for i in range(count)]


def record_of(games: list[PlainGame], script: str, files: int | None = None) -> str:
    """What is printed for a script of an import, `wait` and opening trees."""
    count, lines = len(games), script.splitlines()
    files = count if files is None else files
    told = (f"1 {lines[0]}\n1 imported files {files} accepted {files} refused 0 full 0 unread 0 games {count} "
            "version 1\n2 wait version 1\n")
    for number, line in enumerate(lines[2:], start=3):
        columns, rows, depth, least = map(int, line.split()[1:])
        found = opening_trees.openings(games, columns, rows, depth)
        told += opening_trees.printed(found, f"{number} opening version 1 games {count}", columns, least)
    return told


class Openings(BrowserTest):
    def open_page(self, script: str, record: str, games: list[str]) -> list[Opening]:
        """Opens a page of a record, and tells its opening trees."""
        (self.folder / "a.script").write_text(script)
        (self.folder / "a.record").write_text(record)
        asked = program_with_games(self.folder / "a.program", record.split("\n3 ")[0] + "\n", games)
        page_of(self.folder / "a.script", self.folder / "a.html", "--output", str(self.folder / "a.record"),
                asked=asked, folder=self.folder)
        self.browser.open(self.folder / "a.html")
        self.browser.run(WAIT)
        answers = read_record(record, read_script(script)).answers
        return [answer for answer in answers if isinstance(answer, Opening)]

    def check_tree(self, tree: Opening, games: list[PlainGame], on_stones: bool) -> tuple[int, int]:
        """Checks each position of a tree, and tells how many they and their moves that lead on were."""
        columns, rows, leads = tree.question.columns, tree.question.rows, 0
        at = {least_of(games[p.game].nodes[p.node].position, columns, rows): i
              for i, p in enumerate(tree.positions)}
        for number, position in enumerate(tree.positions, start=1):
            with self.subTest(line=tree.statement.line, position=number):
                told = self.browser.run(f"({LOOK})({tree.statement.line}, {number})")
                self.assertEqual((told["position"], told["turn"]), (number - 1, 0))
                here = games[position.game].nodes[position.node].position
                least = least_of(here, columns, rows)
                self.assertEqual(told["stones"], stones_of(least, columns), "the board isn't the least image")
                self.check_game(position, told, games, columns)
                self.check_letters(position, told, columns)
                if not on_stones:
                    self.assertFalse({point for _, point in told["letters"]} & set(told["stones"]))
                leads += self.check_moves(told, least, at, columns, rows)
        return len(tree.positions), leads

    def check_game(self, position: Position, told: Told, games: list[PlainGame], columns: int) -> None:
        shown = told["game"]
        here = games[position.game].nodes[position.node].position
        self.assertEqual((shown["game"], shown["node"]), (position.game, position.node))
        self.assertEqual(shown["stones"], stones_of(here, columns))
        self.assertEqual(shown["turned"], told["stones"], "the game, turned, isn't the position")

    def check_letters(self, position: Position, told: Told, columns: int) -> None:
        nexts = sorted(position.nexts, key=lambda one: -one.counts.count)
        points = [-1 if one.point is None else one.point[1] * columns + one.point[0] for one in nexts]
        colours = ["black" if one.colour == "B" else "white" for one in nexts]
        self.assertEqual([(row["colour"], row["point"]) for row in told["nexts"]], list(zip(colours, points)))
        letters = {chr(65 + i): ",".join(map(str, one.point)) for i, one in enumerate(nexts[:26]) if one.point}
        self.assertEqual(dict(told["letters"]), letters)

    def check_moves(self, told: Told, least: opening_trees.Position, at: dict[opening_trees.Position, int],
                    columns: int, rows: int) -> int:
        leads = 0
        for row in told["nexts"]:
            point = None if row["point"] < 0 else row["point"]
            after = played(least, ["", "black", "white"].index(row["colour"]), point, columns, rows)
            goal = at.get(least_of(after, columns, rows))
            if row["leads"] is None:
                self.assertTrue(goal is None or goal == told["position"], "a move leads nowhere")
                continue
            self.assertEqual(row["leads"]["position"], goal)
            # The board lies as it lay: the move is the only thing that is new.
            self.assertEqual(row["leads"]["stones"], stones_of(after, columns))
            leads += 1
        self.assertEqual(told["again"], {name: told[name] for name in ("position", "turn", "stones")})
        return leads

    def check_all(self, script: str, record: str, texts: list[str],
                  on_stones: bool = False) -> tuple[int, int]:
        """Checks all trees of a record. `on_stones` tells that moves may be played on stones."""
        games = [opening_trees.read(text) for text in texts]
        counts = [self.check_tree(tree, games, on_stones) for tree in self.open_page(script, record, texts)]
        self.assertEqual(self.browser.complaints(), [])
        return sum(positions for positions, _ in counts), sum(leads for _, leads in counts)

    def check_program(self, script: str, record: str, folder: Path) -> None:
        """The program prints what the tests work out, if it has opening trees."""
        answered = subprocess.run([program()], input=script.encode(), cwd=folder, capture_output=True)
        if answered.returncode == 1:
            print("the program has no opening trees: those are shown that the tests work out")
        else:
            self.assertEqual(answered.stdout.decode(), record)

    def test_hostile_names(self) -> None:
        games = [f"(;SZ[3]PB[{MARKUP}]PW[{ENDING}]EV[{'W' * 10_000}];B[aa];W[cc])", "(;SZ[3]RE[B+1];B[ca];W[bb])"]
        self.open_page(EXAMPLE_SCRIPT, EXAMPLE, games)
        self.press(".nexts .pick")
        self.press(".position .open")
        self.assertIn("<img src=x", self.shown("return place.querySelector('.position').textContent"))
        self.assertIn("<img src=x", self.shown("return place.querySelector('.rows').textContent"))
        self.assertNotEqual(self.browser.run("document.title"), "ran")
        self.assertEqual(self.browser.run("document.querySelectorAll('img, main script, b, i').length"), 0)
        self.press(".way .back")
        self.browser.run("document.getElementById('viewer-close').click()")
        for width in (1280, 390):
            self.browser.size(width, 844)
            self.assertLessEqual(self.browser.run("document.documentElement.scrollWidth"), width)
        self.browser.size(1280, 900)
        self.assertEqual(self.browser.complaints(), [])

    def test_each_position_of_the_sample_games(self) -> None:
        texts = [text for _, text in (game for _, game in sorted(stored_games().items()))]
        trees = ((5, 1), (9, 2), (13, 1), (19, 1))
        script = "import games\nwait\n" + "".join(f"opening {side} {side} 12 {least}\n" for side, least in trees)
        record = record_of([opening_trees.read(text) for text in texts], script, files=14)
        self.check_program(script, record, ROOT)
        positions, leads = self.check_all(script, record, texts)
        print(f"{positions} positions of the sample games were looked at, and {leads} moves gone on to")
        self.assertGreater(positions, 100)
        self.assertGreater(leads, 80)

    def test_each_position_of_games_at_random(self) -> None:
        texts = games_at_random(24)
        trees = ("3 3 6 1", "3 3 30 2", "4 3 5 1", "3 4 4 1", "5 5 3 1", "7 7 3 1")
        script = "import random\nwait\n" + "".join(f"opening {tree}\n" for tree in trees)
        record = record_of([opening_trees.read(text) for text in texts], script)
        (self.folder / "random").mkdir()
        for number, text in enumerate(texts):
            (self.folder / "random" / f"{number:02}.sgf").write_text(text)
        if NATIVE.exists():
            self.check_program(script, record, self.folder)
        positions, leads = self.check_all(script, record, texts, on_stones=True)
        print(f"{positions} positions of games at random were looked at, and {leads} moves gone on to")
        self.assertGreater(positions, 100)
        self.assertGreater(leads, 50)

    def shown(self, script: str) -> Any:
        return self.browser.run(f"(() => {{ const place = document.querySelector('.opening'); {script} }})()")

    def press(self, selector: str) -> None:
        self.browser.run(f"document.querySelector('.opening {selector}').click()")

    def first_example(self) -> None:
        """The page of docs/SCRIPT.md's example, and one pass more."""
        self.open_page(EXAMPLE_SCRIPT, EXAMPLE, EXAMPLE_GAMES)

    def state(self) -> list[Any]:
        return self.shown("""
            const board = place.querySelector(".position"), words = selector =>
                [...place.querySelectorAll(selector)].map(one => one.textContent);
            const stones = [...board.querySelectorAll("[data-stone]")].map(one => one.dataset.point);
            return [Number(board.dataset.position), stones,
                words(".way button:not(.back):not(.turn)"), words(".nexts tbody td:nth-child(2)")];""")

    def test_the_way_on_and_back(self) -> None:
        self.first_example()
        start = [0, [], ["Position 1"], ["Black A3", "White passesthe position stays"]]
        self.assertEqual(self.state(), start)
        self.press(".nexts .pick")
        # The stone stays at A3; the record has it at C1, and White's moves at A3 and B2.
        went_on = [1, ["0,0"], ["Position 1", "Black A3"], ["White C1leads to none that is listed",
                                                              "White B2leads to none that is listed"]]
        self.assertEqual(self.state(), went_on)
        self.press(".way .turn")
        self.assertEqual(self.state()[1], ["2,2"])
        self.assertEqual(self.state()[3][0][:8], "White A3")
        self.press(".way .back")
        self.assertEqual(self.state(), went_on)
        self.press(".way .back")
        self.assertEqual(self.state(), start)
        self.assertTrue(self.shown("return place.querySelector('.way .back').disabled"))
        # A letter on the board is pressed as its button in the table is, and a step of the way leads back.
        self.shown("place.querySelector('.mark .letter').dispatchEvent(new MouseEvent('click', {bubbles: true}))")
        self.assertEqual(self.state(), went_on)
        self.press(".way button:nth-child(2)")
        self.assertEqual(self.state(), start)
        self.assertEqual(self.browser.complaints(), [])

    def test_an_address_shows_a_position(self) -> None:
        self.first_example()
        self.browser.run(ADDRESS % "#3.2")
        self.assertEqual(self.state()[:3], [1, ["2,2"], ["Position 2"]])
        self.browser.run(ADDRESS % "#3.9")
        self.assertEqual(self.state()[0], 1)

    def test_the_order_of_the_list(self) -> None:
        record = EXAMPLE.replace("position 2 1 0 1 0 1", "position 3 1 0 2 0 1")
        self.open_page(EXAMPLE_SCRIPT, record, EXAMPLE_GAMES)
        for order, expected in (("count", ["3 times", "twice"]), ("entry", ["twice", "3 times"])):
            counts = self.shown(f"""
                const sort = place.querySelector(".position-list select");
                sort.value = "{order}";
                sort.dispatchEvent(new Event("change"));
                return [...place.querySelectorAll(".rows .row")]
                    .sort((a, b) => parseFloat(a.style.top) - parseFloat(b.style.top))
                    .map(row => row.querySelector(".count").textContent);""")
            self.assertEqual(counts, expected)

    def test_games_that_are_not_there(self) -> None:
        """A record of other games, and one with numbers that are none of a board."""
        record = EXAMPLE.replace("position 2 1 0 1 0 0", "position 2 1 0 1 0 99").replace(
            "position 2 1 0 1 0 1", "position 2 1 0 1 1 0").replace("next W 1 1 1 1 0 0", "next W 7 1 1 1 0 0")
        self.open_page(EXAMPLE_SCRIPT, record, ["(;SZ[3];B[aa])", "(;SZ[4]PB[<b>A])"])
        text = self.shown("return place.textContent")
        self.assertIn("The game of this position isn’t on this page.", text)
        self.assertIn("its board isn’t known here", text)
        disabled = self.shown("return [...place.querySelectorAll('.pick')].map(one => one.disabled)")
        self.assertEqual(disabled, [True, True])
        self.assertIn("next W 7 1 1 1 0 0", self.browser.run("document.querySelector('.plain').textContent"))
        self.assertEqual(self.browser.run("document.querySelectorAll('main b').length"), 0)
        self.assertEqual(self.browser.complaints(), [])

    def test_thousands_of_positions(self) -> None:
        """Neither opening nor scrolling waits for all boards, nor does a step to a next move."""
        def move(game: int, i: int) -> str:
            return f";{'BW'[i % 2]}[{chr(97 + (game + i * 7) % 19)}{chr(97 + (game // 19 + i * 5) % 19)}]"
        games = ["(;SZ[19]" + "".join(move(game, i) for i in range(200)) + ")" for game in range(2_000)]
        lines = ["import d\nwait\nopening 19 19 30 1\n", "3 opening version 1 games 2000 positions 8000"]
        for game in range(2_000):
            for node in (5, 10, 20, 30):
                lines += [f"position {game % 97 + 3} 1 1 {game % 97 + 1} {game} {node}", "next B 3 3 1 1 0 0",
                          "next W 4 16 2 0 1 1"]
        record = record_of([], "import d\nwait\n") + "\n".join(lines[1:]) + "\n"
        self.open_page(lines[0], record, games)
        self.browser.open(self.folder / "a.html")
        opened = self.browser.run("performance.getEntriesByType('navigation')[0].domContentLoadedEventEnd")
        self.browser.run(WAIT)
        indexed = self.browser.run("performance.now()")
        waits = self.browser.run(SCROLL)
        step = self.browser.run("""(() => {
            const before = performance.now();
            document.querySelector(".position-list .row").click();
            document.querySelector(".position").getBoundingClientRect();
            return performance.now() - before;
        })()""")
        size = (self.folder / "a.html").stat().st_size
        print(f"8,000 positions, {size / 1e6:.1f} MB: opened in {opened:.0f} ms, moves known after {indexed:.0f} ms, "
              f"a scroll takes {waits[25]:.1f} ms, the longest {waits[-1]:.1f} ms, a click {step:.0f} ms")
        self.assertLess(self.browser.run("document.querySelectorAll('.rows .row').length"), 40)
        # Generous bounds, for machines that do other things too.
        self.assertLess(opened, 5_000)
        self.assertLess(waits[25], 200)
        self.assertLess(step, 1_000)


if __name__ == "__main__":
    unittest.main()
