"""Puts sections, data, style and script together into one file.

The page forbids itself, by its content security policy, every script and style but its own two: those
whose hashes stand there. So even a text that slipped through an escape couldn't run or load anything.
"""
from __future__ import annotations

import base64
import hashlib
import re
from dataclasses import dataclass
from html import escape
from pathlib import Path

from . import answers as kinds
from .data import as_text, page_data
from .program import Games, Run
from .record import Record, where_it_ended
from .script import Script
from .sections import Context, is_told, lines_as_they_are, own_words, section, text
from .sgf import replayable
from .words import shown, times

HERE = Path(__file__).parent
SCRIPTS = ("game.js", "board.js", "list.js", "hits.js", "positions.js", "openings.js", "viewer.js", "start.js")
# A first paragraph longer than this is no heading.
LONGEST_HEADING = 160


@dataclass
class Made:
    """All that a page is made from."""

    script: Script
    name: str
    record: Record
    games: Games
    run: Run | None = None


def own_hash(content: str) -> str:
    digest = hashlib.sha256(content.encode()).digest()
    return f"'sha256-{base64.b64encode(digest).decode()}'"


def page_script() -> str:
    parts = "\n".join((HERE / name).read_text() for name in SCRIPTS)
    return f'(() => {{\n"use strict";\n{parts}}})();\n'


def headings(made: Made) -> str:
    first, _, rest = made.script.heading.partition("\n\n")
    if not first or len(first) > LONGEST_HEADING:
        first, rest = f"Answers to {made.name}", made.script.heading
    paragraphs = "".join(f"<p>{own_words(part)}</p>" for part in rest.split("\n\n") if part)
    return f"<h1>{text(first)}</h1>{paragraphs}"


def bad_line(made: Made) -> str:
    """The text of the line that the program calls no statement."""
    match = re.search(r"line (\d+) of the script", made.run.errors if made.run else "")
    statement = made.script.at_line(int(match[1])) if match else None
    return f": {statement.text}" if statement else ""


def how_it_ended(made: Made) -> str:
    """The lines that tell of a run that failed and of a record that isn't whole."""
    lines = []
    run, record = made.run, made.record
    if run is not None and run.code != 0:
        lines.append(f"The program ended with code {run.code}: {run.errors.strip()}{bad_line(made)}")
    # A run that printed nothing has told why.
    if (run is None or run.code == 0 or record.lines) and (ended := where_it_ended(record)):
        lines.append(ended)
    lines += made.games.notes
    return "".join(f'<p class="warning">{text(line)}</p>' for line in lines)


def found_words(answer: kinds.Search | kinds.Opening) -> str:
    return times(answer.expected, "hit" if isinstance(answer, kinds.Search) else "position")


def contents(made: Made) -> str:
    """Links to the searches and opening trees of a script that has several."""
    searches = [a for a in made.record.answers if isinstance(a, (kinds.Search, kinds.Opening))]
    if len(searches) < 4:
        return ""
    links = "".join(f'<li><a href="#line-{a.statement.line}">line {a.statement.line}</a>: '
                    f"{text(a.statement.lead or a.statement.text)} ({found_words(a)})</li>" for a in searches)
    return f"<nav><ol>{links}</ol></nav>"


def script_text(made: Made) -> str:
    listed = escape(text_of_script(made.script.text))
    return f"<details><summary>The script</summary><pre>{listed}</pre></details>"


def text_of_script(script: str) -> str:
    return "\n".join(shown(line, 1_000) for line in script.rstrip("\n").split("\n")[:2_000])


def body(made: Made) -> str:
    context = Context(made.games.shown)
    parts = [f"<header>{headings(made)}{how_it_ended(made)}{contents(made)}</header>"]
    if made.record.strange:
        parts.append(lines_as_they_are(made.record.strange))
    parts += [section(answer, context) for answer in made.record.answers if is_told(answer, made.record)]
    parts.append(script_text(made))
    parts.append(f"<footer>Answers of gobase to {text(made.name)}.</footer>")
    return "\n".join(parts)


def page(made: Made) -> str:
    style, script = (HERE / "page.css").read_text(), page_script()
    policy = (f"default-src 'none'; script-src {own_hash(script)}; style-src {own_hash(style)}; "
              "base-uri 'none'; form-action 'none'")
    games = {number: replayable(game.record.sgf) for number, game in made.games.shown.items()}
    title = made.script.heading.partition("\n\n")[0] or f"Answers to {made.name}"
    return f"""<!DOCTYPE html>
<html lang="en">
<head>
<meta charset="utf-8">
<meta http-equiv="Content-Security-Policy" content="{policy}">
<meta name="viewport" content="width=device-width, initial-scale=1">
<meta name="color-scheme" content="light dark">
<title>{text(title)}</title>
<style>{style}</style>
</head>
<body>
<main>
{body(made)}
</main>
{(HERE / "viewer.html").read_text()}
<script type="application/json" id="data">{as_text(page_data(made.record, made.games.shown))}</script>
<script type="application/json" id="texts">{as_text(games)}</script>
<script>{script}</script>
</body>
</html>
"""
