"""The HTML of each answer."""
from __future__ import annotations

from dataclasses import dataclass
from html import escape
from typing import Callable

from . import answers as kinds
from .answers import Answer, Collector, Fault
from .boards import Lettered, pattern_svg, phases_chart, results_bar, share_bar
from .continuations import Continuation, continuations
from .program import ShownGame
from .record import Record
from .script import Question
from .words import (COLOURS, FAULTS, label_words, new_words, often, opening_question_words, opening_words,
                    point_words, question_words, search_words, shown, times)

# So many continuations stand in the table at once, and so many have their letters on the board.
FIRST_ROWS, MOST_LETTERS = 8, 26
# A list that no script of the page makes shorter is cut behind so many lines.
MOST_LINES = 2_000


@dataclass
class Context:
    """What sections share: the games that can be shown."""

    games: dict[int, ShownGame]

    def common_size(self, answer: kinds.Search | kinds.Kept) -> tuple[int, int] | None:
        """The size of the board, where it is the same in all that an answer speaks of."""
        question = answer.statement.question
        if question is None or question.board:
            return question.board if question else None
        hits = answer.hits if isinstance(answer, kinds.Search) else []
        found = {(game.record.columns, game.record.rows)
                 for number in {hit.game for hit in hits} if (game := self.games.get(number))}
        return found.pop() if len(found) == 1 else None


def text(value: str) -> str:
    return escape(shown(value))


def own_words(value: str) -> str:
    """A text of the script, which may be longer than one of a game."""
    return escape(shown(value, 3_000))


def isolated(value: str) -> str:
    """A text of a stranger, which may not turn the direction of the words around it."""
    return f"<bdi>{text(value)}</bdi>"


def table(head: list[str], rows: list[list[str]], name: str = "") -> str:
    """A table of cells that are HTML already."""
    top = "".join(f"<th>{cell}</th>" for cell in head)
    body = "".join("<tr>" + "".join(f"<td>{cell}</td>" for cell in row) + "</tr>" for row in rows)
    head_html = f"<thead><tr>{top}</tr></thead>" if head else ""
    return f'<div class="scroll"><table class="{name}">{head_html}<tbody>{body}</tbody></table></div>'


def game_words(context: Context, number: int) -> str:
    """A game as a button that opens it, or its number where it can't be shown."""
    game = context.games.get(number)
    if game is None:
        return f"game {number}"
    record = game.record
    players = f"{isolated(record.black or '?')} – {isolated(record.white or '?')}"
    if not record.black and not record.white:
        players = f"{isolated(game.file)}, game {game.place + 1}"
    return f'<button type="button" class="open" data-game="{number}">{players}</button>'


# A search.

def move_cell(question: Question, one: Continuation) -> str:
    stone = "black" if one.colour == "B" else "white"
    return (f'<span class="stone {stone}"></span>{COLOURS[one.colour]} at '
            f'{point_words(question, one.x, one.y)}')


def continuation_row(question: Question, index: int, one: Continuation) -> str:
    tally = one.tally
    results = (f'{results_bar(tally.black, tally.white, tally.other)}<span class="small">black {tally.black:,}, '
               f'white {tally.white:,}, neither {tally.other:,}</span>')
    more = " class=\"more\"" if index >= FIRST_ROWS else ""
    new = f', <strong class="new">{one.new:,} new</strong>' if one.new else ""
    return (f'<tr{more}><td><button type="button" class="pick" data-letter="{index}" '
            f'title="Show the hits that go on so">{one.letter}</button></td>'
            f'<td>{move_cell(question, one)}</td><td>{often(tally.count)}<span class="small">at once {tally.now:,}, '
            f"later {tally.later:,}{new}</span></td><td>{results}</td></tr>")


def continuation_table(question: Question, letters: list[Continuation]) -> str:
    if not letters:
        return "<p>Play went on inside the pattern in none of the games.</p>"
    rows = "".join(continuation_row(question, i, one) for i, one in enumerate(letters))
    hidden = len(letters) - FIRST_ROWS
    more = (f'<button type="button" class="all-rows">Show {times(hidden, "more continuation")}</button>'
            if hidden > 0 else "")
    return ('<div class="scroll"><table class="continuations"><thead><tr><th></th><th>Move</th><th>How often</th>'
            "<th>Results of the pattern’s colours</th></tr></thead>"
            f"<tbody>{rows}</tbody></table></div>{more}")


def legend(question: Question, letters: list[Continuation]) -> str:
    """What the marks on the pattern mean, as far as it has them."""
    cells = "".join(question.rows)
    parts = []
    if "x" in cells:
        parts.append("small black stone: black or empty")
    if "o" in cells:
        parts.append("small white stone: white or empty")
    if "*" in cells:
        parts.append("veiled point: anything")
    if letters:
        most = f"the {MOST_LETTERS} that came most often, " if len(letters) > MOST_LETTERS else ""
        parts.append(f"letters: how it went on, {most}black for Black’s moves and white for White’s")
    return f'<figcaption>{"; ".join(parts)}.</figcaption>' if parts else ""


def pattern_figure(question: Question, letters: list[Continuation], size: tuple[int, int] | None) -> str:
    marks = [Lettered(one.letter, one.colour, one.x, one.y) for one in letters[:MOST_LETTERS]]
    return f"<figure>{pattern_svg(question, marks, size)}{legend(question, letters)}</figure>"


def hits_place(answer: kinds.Search) -> str:
    """Where the page's script makes the list of hits."""
    if not answer.hits:
        return ""
    return (f'<div class="hits" data-search="{answer.statement.line}">'
            '<noscript>The list of hits needs the script of this page.</noscript></div>')


def search(answer: kinds.Search, context: Context) -> str:
    question = answer.statement.question
    sentence = f'<p class="totals">{escape(search_words(answer))}</p>'
    if question is None:
        return f"{sentence}{hits_place(answer)}"
    letters = continuations(answer)
    asked = f'<p class="asked">{text(question_words(question))}</p>'
    figure = pattern_figure(question, letters, context.common_size(answer))
    side = continuation_table(question, letters) if answer.hits else ""
    wide = " wide" if question.width > 11 else ""
    return (f'{asked}{sentence}<div class="found{wide}">{figure}<div class="side">{side}</div></div>'
            f"{hits_place(answer)}")


def watch(answer: kinds.Watch, context: Context) -> str:
    name = isolated(answer.name)
    if answer.taken:
        return f"<p>The name {name} is taken: the search that is watched under it stays, and this one wasn’t asked.</p>"
    if answer.found is None:
        return f"<p>No search is watched under the name {name}.</p>"
    sentence = (f'<p class="totals">Watched from now on under the name {name}: {times(answer.found, "hit")} so far, '
                f"in version {answer.version:,} of the base.</p>")
    question = answer.statement.question
    if question is None:
        return sentence
    figure = pattern_figure(question, [], question.board)
    return f'<p class="asked">{text(question_words(question))}</p>{sentence}<div class="found">{figure}</div>'


def watched(answer: kinds.Watched, context: Context) -> str:
    new = f" <strong>{escape(new_words(answer))}</strong>" if answer.before is not None else ""
    return f'<p class="totals">Watched under the name {isolated(answer.name)}.{new}</p>{search(answer, context)}'


def opening(answer: kinds.Opening, context: Context) -> str:
    place = (f'<div class="opening" data-opening="{answer.statement.line}">'
             "<noscript>The positions need the script of this page.</noscript></div>") if answer.positions else ""
    return (f'<p class="asked">{escape(opening_question_words(answer.question))}</p>'
            f'<p class="totals">{escape(opening_words(answer))}</p>{place}')


def kept(answer: kinds.Kept, context: Context) -> str:
    question = answer.statement.question
    sentence = (f"<p class=\"totals\">{answer.kept:,} of {times(answer.games, 'game')} may have this pattern, by what "
                "each point and each corner was in the game as a whole.</p>")
    bar = f'<div class="kept-bar">{share_bar(answer.kept, answer.games)}</div>'
    if question is None:
        return sentence + bar
    figure = pattern_figure(question, [], context.common_size(answer))
    return (f'<p class="asked">{text(question_words(question))}</p>{sentence}'
            f'<div class="found">{figure}<div class="side">{bar}</div></div>')


# Players, signatures, doubles and games.

def players(answer: kinds.Players, context: Context) -> str:
    return (f"<p class=\"totals\">{times(len(answer.players), 'player')} in {times(answer.games, 'game')}.</p>"
            f'<div class="player-list" data-players="{answer.statement.line}">'
            "<noscript>The list of players needs the script of this page.</noscript></div>")


SIGNATURE_MOVES = (20, 40, 60, 31, 51, 71)


def side_words(name: str, byte: str) -> str:
    if byte == "*":
        return f"any {name}"
    if byte == "?":
        return "none"
    number = ord(byte) - ord("a") if byte >= "a" else ord(byte) - ord("A") + 26
    return f"{name} {number + 1}"


def signature_move(pair: str) -> str:
    """Where one move of a signature is, in words."""
    if pair == "**":
        return "anywhere or missing"
    if pair == "??":
        return "missing or a pass"
    return f"{side_words('column', pair[0])}, {side_words('row', pair[1])}"


def signature_words(pattern: str) -> str:
    """A signature by its six moves; those of which nothing is asked are left out."""
    moves = [(number, pattern[2 * i:2 * i + 2]) for i, number in enumerate(SIGNATURE_MOVES)]
    told = [f"move {number}: {signature_move(pair)}" for number, pair in sorted(moves) if pair != "**"]
    return "; ".join(told) or "any moves at all"


def game_row(context: Context, number: int) -> list[str]:
    game = context.games.get(number)
    if game is None:
        return [f"game {number}", "", "", "", ""]
    record = game.record
    return [game_words(context, number), isolated(record.event), isolated(record.date), isolated(record.result),
            f"{isolated(game.file)}, game {game.place + 1}"]


GAME_HEAD = ["Game", "Event", "Date", "Result", "File"]


def cut_note(count: int) -> str:
    return f"<p>Further {count - MOST_LINES:,} are left out here.</p>" if count > MOST_LINES else ""


def signature(answer: kinds.Signature, context: Context) -> str:
    asked = answer.statement.words[1] if len(answer.statement.words) > 1 else ""
    words = signature_words(asked) if len(asked) == 12 else text(asked)
    rows = [[*game_row(context, number), f"<code>{escape(found)}</code>"]
            for number, found in answer.found[:MOST_LINES]]
    listed = table([*GAME_HEAD, "Signature in canonical form"], rows, "games") if rows else ""
    return (f'<p class="asked">Asked for, as the game stands or turned or mirrored: {escape(words)}.</p>'
            f"<p class=\"totals\">Found {times(len(answer.found), 'game')} of {answer.games:,}.</p>{listed}"
            f"{cut_note(len(answer.found))}")


def doubles(answer: kinds.Doubles, context: Context) -> str:
    count = len(answer.groups)
    parts = [f"<p class=\"totals\">{times(count, 'group')} of games among {answer.games:,} that may be copies of one "
             "another, turned or not: moves 20, 31, 40, 51, 60 and 71 are at the same points.</p>"]
    for index, (_, games) in enumerate(answer.groups[:MOST_LINES], start=1):
        rows = [game_row(context, number) for number in games]
        parts.append(f"<h3>Group {index}: {times(len(games), 'game')}</h3>{table(GAME_HEAD, rows, 'games')}")
    return "".join(parts) + cut_note(count)


def game(answer: kinds.Game, context: Context) -> str:
    if answer.place is None:
        return f"<p>There is no game {answer.number} in the base.</p>"
    known = context.games.get(answer.number)
    if known is None:
        return f"<p>Game {answer.number}, of the file {isolated(answer.file)}.</p>"
    record = known.record
    facts = [("Black", record.black), ("White", record.white), ("Event", record.event), ("Place", record.place),
             ("Date", record.date), ("Result", record.result),
             ("File", f"{known.file}, game {known.place + 1}"),
             ("Board", f"{record.columns} by {record.rows}"),
             ("Moves", f"{record.length:,}")]
    listed = "".join(f"<dt>{name}</dt><dd>{isolated(value)}</dd>" for name, value in facts if value)
    return (f'<div class="one-game"><div class="small-board" data-board="{answer.number}"></div>'
            f"<div><dl>{listed}</dl>"
            f'<button type="button" class="open" data-game="{answer.number}">Step through the game</button>'
            "</div></div>")


# Imports.

def fault_place(fault: Fault) -> str:
    if fault.kind == "full":
        games, nodes = fault.numbers
        return f"it would then have {times(games, 'game')} and {times(nodes, 'node')}"
    if fault.kind == "unread":
        return ""
    return f"at byte {fault.numbers[0]:,}, counted from 0"


def faults(found: list[Fault]) -> str:
    """The files that were left out, by what is wrong with them, the most frequent first."""
    by_kind: dict[str, list[Fault]] = {}
    for fault in found:
        by_kind.setdefault(fault.kind, []).append(fault)
    parts = []
    for kind, group in sorted(by_kind.items(), key=lambda item: -len(item[1])):
        words = FAULTS.get(kind, kind)
        rows = [[isolated(fault.name), fault_place(fault)] for fault in group[:MOST_LINES]]
        parts.append(f"<h3>{times(len(group), 'file')}: {escape(words)}</h3>{table([], rows, 'faults')}"
                     f"{cut_note(len(group))}")
    return "".join(parts)


def imported(answer: kinds.Imported, context: Context) -> str:
    path = isolated(answer.statement.words[1] if len(answer.statement.words) > 1 else "")
    if answer.failure == "unlisted":
        return f"<p>The folder {path} isn’t there or can’t be listed. Nothing was imported.</p>"
    if answer.failure:
        return f"<p>The folder {path} has {times(answer.files, 'file')}, too many. Nothing was imported.</p>"
    left_out = [words for count, words in (
        (answer.refused, f"{answer.refused:,} refused"),
        (answer.full, f"{answer.full:,} without room"),
        (answer.unread, f"{answer.unread:,} unread")) if count]
    out = f" Left out: {', '.join(left_out)}." if left_out else ""
    return (f"<p>{times(answer.games, 'game')} came from {answer.accepted:,} of {times(answer.files, 'file')} in {path}."
            f"{out}</p>{faults(answer.faults)}")


def made(answer: kinds.Made, context: Context) -> str:
    full = f" For {answer.full:,} there was no room." if answer.full else ""
    return f"<p>{times(answer.games, 'made game')} came into the base.{full}</p>"


def begun_import(answer: kinds.Import, context: Context) -> str:
    return f"<p>Import of the folder {isolated(answer.path)} begun.</p>"


def begun_make(answer: kinds.Make, context: Context) -> str:
    return f"<p>Making {times(answer.count, 'game')} begun, from the number {answer.start:,}.</p>"


def waited(answer: kinds.Wait, context: Context) -> str:
    return f"<p>All imports are done: version {answer.version:,} of the base.</p>"


def awaited(answer: kinds.Until, context: Context) -> str:
    return f"<p>Waited for version {answer.awaited:,} of the base: it is version {answer.version:,}.</p>"


# Collectors.

def words_chart(names: list[str], counts: tuple[int, ...]) -> str:
    whole = max(counts, default=0)
    rows = [[escape(name), share_bar(count, whole), f"{count:,}"] for name, count in zip(names, counts) if count]
    return table([], rows, "bars") if rows else "<p>None.</p>"


OUTCOMES = ["Black won", "White won", "draw", "no result", "unknown", "other, or none told"]
NEXTS = ["by the next move", "later", "not at all"]


def collector(one: Collector) -> str:
    count = len(one.numbers)
    if one.word == "total" and count == 1:
        return f'<div><h3>Hits of all searches so far</h3><p class="big">{one.numbers[0]:,}</p></div>'
    if one.word == "labels" and count == 16:
        chart = words_chart([label_words(label) for label in range(16)], one.numbers)
        return f'<div class="broad"><h3>How the pattern lay</h3>{chart}</div>'
    if one.word == "phases" and count == 31:
        return (f'<div class="broad"><h3>Hits by tens of moves</h3>'
                f'<div class="scroll">{phases_chart(one.numbers)}</div></div>')
    if one.word == "outcomes" and count == 6:
        return f"<div><h3>Results of the games</h3>{words_chart(OUTCOMES, one.numbers)}</div>"
    if one.word == "nexts" and count == 3:
        return f"<div><h3>Play went on in the pattern</h3>{words_chart(NEXTS, one.numbers)}</div>"
    return f"<div><h3>{text(one.name)}</h3><p>{' '.join(f'{number:,}' for number in one.numbers)}</p></div>"


def report(answer: kinds.Report, context: Context) -> str:
    if not answer.collectors:
        return "<p>All collectors are retired.</p>"
    return f'<div class="collectors">{"".join(map(collector, answer.collectors))}</div>'


def retire(answer: kinds.Retire, context: Context) -> str:
    name = isolated(answer.name)
    if answer.gone:
        return f"<p>The collector {name} counts no more.</p>"
    return f"<p>There is no collector {name}.</p>"


def plain(answer: Answer, context: Context) -> str:
    return lines_as_they_are([answer.first, *answer.extra])


def lines_as_they_are(lines: list[str]) -> str:
    """Lines that this page doesn't know, the first ones of very many."""
    some = "\n".join(shown(line) for line in lines[:200])
    more = f"\n… and {len(lines) - 200:,} more lines" if len(lines) > 200 else ""
    return f'<pre class="plain">{escape(some)}{more}</pre>'


# For each kind of answer its section, and what it is called where no comment stands above its statement.
SECTIONS: dict[type[Answer], tuple[str, Callable[..., str]]] = {
    kinds.Search: ("Search", search),
    kinds.Watch: ("Watched search", watch),
    kinds.Watched: ("Watched search", watched),
    kinds.Opening: ("Opening tree", opening),
    kinds.Kept: ("Games that may have a pattern", kept),
    kinds.Players: ("Players", players),
    kinds.Signature: ("Games with a signature", signature),
    kinds.Doubles: ("Games that stand here twice", doubles),
    kinds.Game: ("", game),
    kinds.Report: ("All searches together", report),
    kinds.Retire: ("", retire),
    kinds.Import: ("", begun_import),
    kinds.Imported: ("", imported),
    kinds.Make: ("", begun_make),
    kinds.Made: ("", made),
    kinds.Wait: ("", waited),
    kinds.Until: ("", awaited),
    kinds.Plain: ("", plain),
}

# Answers of a line, which stand on the page without a heading of their own.
QUIET = (kinds.Retire, kinds.Import, kinds.Imported, kinds.Make, kinds.Made, kinds.Wait, kinds.Until)


def is_quiet(answer: Answer) -> bool:
    return isinstance(answer, QUIET) or (isinstance(answer, kinds.Watch) and answer.found is None)


def is_told(answer: Answer, record: Record) -> bool:
    """Whether an answer is worth a line. That an import began is told by its report, where there is one."""
    if not isinstance(answer, (kinds.Import, kinds.Make)) or answer.extra:
        return True
    return not any(isinstance(other, (kinds.Imported, kinds.Made)) and other.statement is answer.statement
                   for other in record.answers)


def heading_of(answer: Answer, name: str) -> str:
    if isinstance(answer, kinds.Game):
        name = f"Game {answer.number}"
    if isinstance(answer, kinds.Plain):
        name = answer.statement.word
    lead = answer.statement.lead.replace("\n\n", " ")
    return lead or name


def section(answer: Answer, context: Context) -> str:
    name, build = SECTIONS[type(answer)]
    body = build(answer, context)
    if answer.extra and not isinstance(answer, kinds.Plain):
        body += "<p>Lines that this page doesn’t know:</p>" + lines_as_they_are(answer.extra)
    line = answer.statement.line
    if is_quiet(answer):
        return f'<section class="quiet" data-line="{line}">{body}</section>'
    return (f'<section class="answer" id="line-{line}" data-line="{line}"><h2>{own_words(heading_of(answer, name))}</h2>'
            f"{body}</section>")
