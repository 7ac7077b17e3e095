"""Pages as texts: what is hostile or broken stands on them as text, and what ended badly is told."""
from __future__ import annotations

import re
import tempfile
import unittest
from html.parser import HTMLParser
from pathlib import Path

from .samples import page_of, program_that_tells, program_with_games, scripts
from .test_answers import WATCHED, WATCHES

MARKUP = """<img src=x onerror="document.title='ran'"><script>document.title='ran'</script>"""
ENDING = "</script></title></style><!--<svg onload=alert(1)>"
NO_UTF8 = "caf\udce9 \udcff\udcfe"
HOSTILE = (
    '1 import "a"\n1 imported files 3 accepted 1 refused 1 full 0 unread 1 games 1 version 1\n'
    f"refused Ended 29 {MARKUP}\nnext line.sgf\nunread {ENDING}\n2 wait version 1\n"
    "3 search version 1 games 1 hits 1\nhit 0 1 2 2 0 B 0 0 later\nrow B 0 0 1 0 1 0 0 1\ntotal 1 0 1 0 0 1\n"
    f"4 players version 1 games 1 names 4\nplayer 1 0 0 {MARKUP}\nplayer 1 0 0 {ENDING}\nplayer 1 0 0 {NO_UTF8}\n"
    f"player 1 0 0 {'W' * 10_000}\n"
    f"5 game 0 version 1 place 0 file {MARKUP}\n"
    f"(;GM[1]FF[4]SZ[5]PB[{MARKUP}]PW[{ENDING}]EV[{NO_UTF8}\u202e]PC[{'W' * 10_000}]DT[' \" & &amp;]RE[<b>B+R];B[cc];W[bc])\n"
    f"6 report collectors 1\ncollector <b>x {MARKUP.split(' ')[0]} 1 2\n7 something <i>{MARKUP}</i>\n{ENDING}\n")
HOSTILE_SCRIPT = (f"# {MARKUP}\n".encode() + b'import "a"\nwait\n# ' + ENDING.encode()
                  + b'\nsearch X where player "\xff<b>"\nplayers\ngame 0\nreport\nsomething <i>\n')


FIRST_GAME = "(;GM[1]FF[4]SZ[5];B[cc];W[bc];B[cb])"


class Tags(HTMLParser):
    def __init__(self) -> None:
        super().__init__()
        self.found: list[tuple[str, dict[str, str | None]]] = []

    def handle_starttag(self, tag: str, attrs: list[tuple[str, str | None]]) -> None:
        self.found.append((tag, dict(attrs)))


def hostile_page(folder: Path) -> Path:
    """A page of texts that are all markup. Lines of the record are those of a script without comments."""
    lines = [line for line in HOSTILE_SCRIPT.split(b"\n") if not line.startswith(b"#")]
    (folder / "a.script").write_bytes(b"\n".join(lines))
    program = program_that_tells(folder / "program", HOSTILE)
    page_of(folder / "a.script", folder / "a.html", asked=program, folder=folder)
    return folder / "a.html"


class Pages(unittest.TestCase):
    def setUp(self) -> None:
        self.room = tempfile.TemporaryDirectory()
        self.addCleanup(self.room.cleanup)
        self.folder = Path(self.room.name)

    def page(self, script: str | bytes, *words: str, asked: Path | None = None) -> str:
        path = self.folder / "s.script"
        path.write_bytes(script.encode() if isinstance(script, str) else script)
        page_of(path, self.folder / "s.html", *words, asked=asked, folder=self.folder)
        return (self.folder / "s.html").read_text("utf-8")

    def test_sample_pages_load_nothing(self) -> None:
        for script in scripts():
            page_of(script, self.folder / "a.html")
            text = (self.folder / "a.html").read_text("utf-8")
            tags = Tags()
            tags.feed(text)
            for tag, attributes in tags.found:
                self.assertNotIn(tag, ("img", "link", "iframe", "object", "embed", "base"), script.name)
                self.assertFalse({"src", "style", "srcset"} & set(attributes), (tag, attributes))
                self.assertFalse([name for name in attributes if name.startswith("on")], (tag, attributes))
                self.assertTrue((attributes.get("href") or "#").startswith("#"))
            self.assertNotRegex(text.replace("http://www.w3.org/2000/svg", ""), r"https?://|url\(|@import")

    def test_hostile_texts_are_text(self) -> None:
        text = hostile_page(self.folder).read_text("utf-8")
        tags = Tags()
        tags.feed(text)
        names = [tag for tag, _ in tags.found]
        self.assertEqual(names.count("script"), 3)
        self.assertEqual(names.count("style"), 1)
        self.assertEqual(names.count("img"), 0)
        self.assertEqual(names.count("i") + names.count("b"), 0)
        self.assertNotIn("W" * 400, re.sub(r'id="texts">.*', "", text))
        self.assertIsNone(re.search("[\x00-\x08\x0b-\x1f\u202e\ud800-\udfff]", text))

    def test_the_comments_of_a_hostile_script_are_text(self) -> None:
        text = self.page(HOSTILE_SCRIPT, asked=program_that_tells(self.folder / "program", ""))
        tags = Tags()
        tags.feed(text)
        self.assertEqual([tag for tag, _ in tags.found if tag in ("img", "i", "b", "svg")], [])

    def test_watched_searches_in_plain_words(self) -> None:
        (self.folder / "record").write_text(WATCHED)
        program = program_with_games(self.folder / "program", WATCHED.split("3 watch")[0], [FIRST_GAME] * 2)
        text = self.page(WATCHES, "--output", str(self.folder / "record"), asked=program)
        self.assertIn("Watched from now on under the name <bdi>w</bdi>: 2 hits so far, in version 1 of the base.", text)
        self.assertIn("Watched under the name <bdi>w</bdi>. <strong>2 of 4 hits are new since line 3 of the script.</strong>",
                      text)
        self.assertIn("No search is watched under the name <bdi>v</bdi>.", text)
        self.assertIn("The name <bdi>w</bdi> is taken: the search that is watched under it stays, and this one wasn’t asked.",
                      text)
        self.assertNotIn('class="plain"', text)

    def test_hostile_names_of_watched_searches(self) -> None:
        name = "<img/src=x><script>" + "\u202e" + "W" * 2_000
        script = f"watch {name} X\nwatched {name}\nwatch {name} O\nwatched </title><b>\nopening 3 3 1 1\n"
        (self.folder / "record").write_text(
            f"1 watch {name} version 0 hits 0\n2 watched {name} version 0 games 0 hits 0\ntotal 0 0 0 0 0 0\n"
            f"3 watch {name} taken\n4 watched </title><b> none\n5 opening version 0 games 0 positions 0\n")
        text = self.page(script, "--output", str(self.folder / "record"))
        tags = Tags()
        tags.feed(text)
        self.assertEqual([tag for tag, _ in tags.found if tag in ("img", "b", "i")], [])
        self.assertEqual([tag for tag, _ in tags.found].count("script"), 3)
        self.assertIn("None in the 0 games of the base.", text)
        self.assertNotIn("\u202e", text)

    def test_nothing_but_the_page_is_written(self) -> None:
        (self.folder / "record").write_text("1 wait version 0\n")
        self.page("wait\n", "--output", str(self.folder / "record"))
        self.assertEqual(sorted(path.name for path in self.folder.iterdir()), ["record", "s.html", "s.script"])

    def test_a_program_that_ends_with_a_code(self) -> None:
        program = program_that_tells(self.folder / "program", "", 1, "gobase: line 2 of the script is not a statement\n")
        text = self.page("wait\nserch <X>\n", asked=program)
        self.assertIn("The program ended with code 1: gobase: line 2 of the script is not a statement: serch &lt;X&gt;", text)
        self.assertNotIn("no output of gobase", text)

    def test_a_record_that_is_cut_off(self) -> None:
        (self.folder / "record").write_text("1 search version 1 games 15 hits 3\nhit 11 9 9 0 1 B 7 2 later\nhit 11 40 0 0 1")
        text = self.page("search at 0 0 X\nplayers\n", "--output", str(self.folder / "record"))
        self.assertIn("The record ends early, at its line 3, in the answer to line 1 of the script.", text)
        self.assertIn("Found 3 times", text)

    def test_a_record_that_is_none(self) -> None:
        (self.folder / "record").write_bytes(bytes(range(256)) * 20 + b"\n<b>\n")
        text = self.page("search X\n", "--output", str(self.folder / "record"))
        self.assertIn("This is no output of gobase", text)
        self.assertNotIn("<b>", text)

    def test_without_the_program_a_record_is_shown_all_the_same(self) -> None:
        (self.folder / "record").write_text("1 search version 1 games 15 hits 1\nhit 11 9 9 0 1 -\ntotal 1 0 0 0 0 1\n")
        text = self.page("search X\n", "--output", str(self.folder / "record"), asked=self.folder / "nothing")
        self.assertIn("The games can’t be shown", text)
        self.assertIn("Found once", text)

    def test_folders_that_changed(self) -> None:
        (self.folder / "record").write_text(
            "1 import a\n1 imported files 2 accepted 2 refused 0 full 0 unread 0 games 2 version 1\n"
            "2 wait version 1\n3 search version 1 games 2 hits 1\nhit 0 1 0 0 0 -\ntotal 1 0 0 0 0 1\n")
        program = program_that_tells(
            self.folder / "program", "1 import a\n1 imported files 1 accepted 1 refused 0 full 0 unread 0 games 1 version 1\n"
            "2 wait version 1\n3 game 0 version 1 place 0 file a.sgf\n(;GM[1]FF[4]SZ[5];B[aa])\n")
        text = self.page("import a\nwait\nsearch X\n", "--output", str(self.folder / "record"), asked=program)
        self.assertIn("The folders have changed", text)


if __name__ == "__main__":
    unittest.main()
