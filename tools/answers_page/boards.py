"""Patterns as pieces of a board, bars and charts, all as SVG."""
from __future__ import annotations

from dataclasses import dataclass
from html import escape

from .script import Question
from .words import often, times

CELL = 28
# A point of a small pattern is drawn as large as this, one of a large pattern as small.
LARGEST, SMALLEST, USUAL_WIDTH = 42, 24, 300


@dataclass(frozen=True)
class Edges:
    """On which sides the piece ends where the board ends."""

    left: bool = False
    top: bool = False
    right: bool = False
    bottom: bool = False


@dataclass(frozen=True)
class Lettered:
    """A letter on a point of the pattern, in the colour that moves there."""

    text: str
    colour: str
    x: int
    y: int


def edges_of(question: Question, size: tuple[int, int] | None) -> Edges:
    """The sides on which `at` holds the pattern, on a board of this size where it is known."""
    if question.at is None:
        return Edges()
    x0, y0, x1, y1 = question.at
    columns, rows = size or (0, 0)
    return Edges(
        left=x0 == x1 == 0,
        top=y0 == y1 == 0,
        right=x0 == x1 and x0 + question.width == columns,
        bottom=y0 == y1 and y0 + question.height == rows,
    )


def star_lines(side: int) -> tuple[int, ...]:
    """The columns or rows of the star points of a board."""
    if side < 7:
        return ()
    first = 2 if side < 13 else 3
    middle = (side // 2,) if side % 2 else ()
    return (first, *middle, side - 1 - first)


def star_points(question: Question, size: tuple[int, int] | None) -> list[tuple[int, int]]:
    """The star points under the pattern, where its place and the board are known."""
    if question.at is None or size is None:
        return []
    x0, y0, x1, y1 = question.at
    if (x0, y0) != (x1, y1):
        return []
    columns, rows = star_lines(size[0]), star_lines(size[1])
    return [(x - x0, y - y0) for y in rows for x in columns
            if 0 <= x - x0 < question.width and 0 <= y - y0 < question.height]


def grid(width: int, height: int, edges: Edges) -> str:
    """The lines of the piece: they end at the edges of the board, and run on elsewhere."""
    half = CELL / 2
    left, right = (half if edges.left else 0), width * CELL - (half if edges.right else 0)
    top, bottom = (half if edges.top else 0), height * CELL - (half if edges.bottom else 0)
    parts = []
    for x in range(width):
        at = x * CELL + half
        rim = " rim" if (x == 0 and edges.left) or (x == width - 1 and edges.right) else ""
        parts.append(f'<path class="line{rim}" d="M{at} {top}V{bottom}"/>')
    for y in range(height):
        at = y * CELL + half
        rim = " rim" if (y == 0 and edges.top) or (y == height - 1 and edges.bottom) else ""
        parts.append(f'<path class="line{rim}" d="M{left} {at}H{right}"/>')
    return "".join(parts)


def cell(kind: str, x: int, y: int) -> str:
    cx, cy, radius = x * CELL + CELL / 2, y * CELL + CELL / 2, CELL * 0.46
    if kind in "XO":
        name = "black" if kind == "X" else "white"
        return f'<circle class="{name}" cx="{cx}" cy="{cy}" r="{radius:.1f}"/>'
    if kind in "xo":
        name = "black" if kind == "x" else "white"
        return f'<circle class="half {name}" cx="{cx}" cy="{cy}" r="{CELL * 0.3:.1f}"/>'
    if kind == "*":
        return (f'<rect class="any" x="{x * CELL}" y="{y * CELL}" width="{CELL}" height="{CELL}"/>'
                f'<circle class="anydot" cx="{cx}" cy="{cy}" r="2.5"/>')
    return ""


def letters_on(letters: list[Lettered], rows: tuple[str, ...]) -> str:
    """The letters on their points; where two stand on one point they share it."""
    at_point: dict[tuple[int, int], list[Lettered]] = {}
    for one in letters:
        at_point.setdefault((one.x, one.y), []).append(one)
    parts = []
    for (x, y), here in at_point.items():
        cx, cy = x * CELL + CELL / 2, y * CELL + CELL / 2
        if rows[y][x] in ".xo*":
            parts.append(f'<circle class="patch" cx="{cx}" cy="{cy}" r="{CELL * 0.42:.1f}"/>')
        small = " small" if len(here) > 1 or len(here[0].text) > 1 else ""
        for i, one in enumerate(here):
            tx = cx + (i - (len(here) - 1) / 2) * CELL * 0.48
            name = "by-black" if one.colour == "B" else "by-white"
            name += " on-black" if rows[y][x] == "X" else ""
            parts.append(f'<text class="letter {name}{small}" x="{tx:.1f}" y="{cy}">{escape(one.text)}</text>')
    return "".join(parts)


def pattern_svg(question: Question, letters: list[Lettered], size: tuple[int, int] | None) -> str:
    width, height = question.width * CELL, question.height * CELL
    parts = [f'<rect class="wood" width="{width}" height="{height}"/>', grid(
        question.width, question.height, edges_of(question, size))]
    parts += [f'<circle class="star" cx="{x * CELL + CELL / 2}" cy="{y * CELL + CELL / 2}" r="2.6"/>'
              for x, y in star_points(question, size)]
    parts += [cell(kind, x, y) for y, row in enumerate(question.rows) for x, kind in enumerate(row)]
    parts.append(letters_on([one for one in letters if one.x < question.width and one.y < question.height],
                            question.rows))
    label = "The pattern, row by row: " + ", ".join(question.rows)
    shown = min(LARGEST, max(SMALLEST, USUAL_WIDTH // question.width))
    return (f'<svg class="board pattern" viewBox="0 0 {width} {height}" width="{question.width * shown}" '
            f'height="{question.height * shown}" '
            f'role="img" aria-label="{escape(label)}">{"".join(parts)}</svg>')


def results_bar(black: int, white: int, other: int) -> str:
    """The results of the pattern's black and white: black from the left, white from the right."""
    whole = black + white + other
    words = f"black won {black:,}, white {white:,}, neither {other:,}"
    if whole == 0:
        return ""
    first, last = 100 * black / whole, 100 * white / whole
    return (f'<svg class="results" viewBox="0 0 100 10" preserveAspectRatio="none" role="img" '
            f'aria-label="{words}"><title>{words}</title>'
            f'<rect class="neither" width="100" height="10"/><rect class="won-black" width="{first:.2f}" '
            f'height="10"/><rect class="won-white" x="{100 - last:.2f}" width="{last:.2f}" height="10"/></svg>')


def share_bar(part: int, whole: int) -> str:
    width = 100 * part / whole if whole else 0
    return (f'<svg class="share" viewBox="0 0 100 10" preserveAspectRatio="none" aria-hidden="true">'
            f'<rect class="share-rest" width="100" height="10"/>'
            f'<rect class="share-part" width="{width:.2f}" height="10"/></svg>')


def phases_chart(counts: tuple[int, ...]) -> str:
    """Hits by tens of moves, as columns. What comes behind the last one that isn't empty is left out."""
    last = max((i for i, count in enumerate(counts) if count), default=0)
    used = counts[:min(max(last + 1, 6), len(counts))]
    greatest = max(used, default=0) or 1
    step, height, foot, head = 44 if len(used) <= 20 else 34, 110, 24, 20
    width = step * len(used)
    parts = []
    every = 1 if len(used) <= 14 else 5
    for i, count in enumerate(used):
        x, tall = i * step, height * count / greatest
        first, end = i * 10, i * 10 + 9
        name = f"from move {first}" if i == len(counts) - 1 else f"moves {first} to {end}"
        parts.append(f'<g><title>{name}: {times(count, "hit")}</title>'
                     f'<rect class="column" x="{x + 5}" y="{head + height - tall:.1f}" width="{step - 10}" '
                     f'height="{max(tall, 0.6):.1f}"/>')
        if count:
            parts.append(f'<text class="number" x="{x + step / 2}" y="{head + height - tall - 5:.1f}">'
                         f'{count:,}</text>')
        if i % every == 0:
            span = f"{first}–" if i == len(counts) - 1 else f"{first}–{end}"
            parts.append(f'<text class="axis" x="{x + step / 2}" y="{head + height + 16}">{span}</text>')
        parts.append("</g>")
    words = "; ".join(f"moves {i * 10} to {i * 10 + 9}: {often(count)}" for i, count in enumerate(used) if count)
    total = head + height + foot
    return (f'<svg class="chart" viewBox="0 0 {width} {total}" width="{width}" height="{total}" '
            f'role="img" aria-label="{words}">{"".join(parts)}</svg>')
