"""Opening trees, worked out plainly from the texts of games: apart from the page and from the program.

A position is a tuple of cells in order of the point numbers, row by row: 0 empty, 1 black, 2 white.
"""
from __future__ import annotations

import re
from collections import Counter
from dataclasses import dataclass, field

Position = tuple[int, ...]
Move = tuple[int, "int | None"]

TOKEN = re.compile(r"\[((?:[^\]\\]|\\.)*)\]|([A-Z]+)|([();])", re.S)
COLOURS = {"B": 1, "W": 2}
SETUPS = {"AE": 0, "AB": 1, "AW": 2}


def image_point(symmetry: int, columns: int, rows: int, x: int, y: int) -> tuple[int, int]:
    """Where a symmetry takes a point, by the table of docs/SCRIPT.md; those from 4 on want a square board."""
    right, down = columns - 1 - x, rows - 1 - y
    table = [(x, y), (right, y), (x, down), (right, down), (y, x), (y, right), (down, x), (down, right)]
    return table[symmetry]


def images(position: Position, columns: int, rows: int) -> list[tuple[Position, dict[int, int]]]:
    """The images of a position, each with the point to which each point comes."""
    found = []
    for symmetry in range(8 if columns == rows else 4):
        to = {}
        for point in range(columns * rows):
            x, y = image_point(symmetry, columns, rows, point % columns, point // columns)
            to[point] = y * columns + x
        image = [0] * len(position)
        for point, cell in enumerate(position):
            image[to[point]] = cell
        found.append((tuple(image), to))
    return found


def neighbours(point: int, columns: int, rows: int) -> list[int]:
    x, y = point % columns, point // columns
    around = [(x - 1, y), (x + 1, y), (x, y - 1), (x, y + 1)]
    return [j * columns + i for i, j in around if 0 <= i < columns and 0 <= j < rows]


def without_dead(position: list[int], colour: int, columns: int, rows: int) -> list[int]:
    """A position without the groups of a colour that have no liberty."""
    alive = {point for point, cell in enumerate(position) if cell == colour
             and any(position[next] == 0 for next in neighbours(point, columns, rows))}
    reached = list(alive)
    while reached:
        point = reached.pop()
        for next in neighbours(point, columns, rows):
            if position[next] == colour and next not in alive:
                alive.add(next)
                reached.append(next)
    return [0 if cell == colour and point not in alive else cell for point, cell in enumerate(position)]


def played(position: Position, colour: int, point: int | None, columns: int, rows: int) -> Position:
    """What stands after a move, where no group stood there without a liberty before."""
    if point is None:
        return position
    stones = list(position)
    stones[point] = colour
    return tuple(without_dead(without_dead(stones, 3 - colour, columns, rows), colour, columns, rows))


@dataclass
class Node:
    parent: int | None
    number: int
    position: Position
    move: Move | None = None
    setup: bool = False


@dataclass
class PlainGame:
    columns: int = 19
    rows: int = 19
    result: str = ""
    nodes: list[Node] = field(default_factory=list)

    def outcome(self) -> int:
        """0 where Black won, 1 where White did, else 2."""
        return {"B+": 0, "W+": 1}.get(self.result[:2], 2)

    def point(self, value: str) -> int | None:
        if len(value) != 2:
            return None
        x, y = (ord(c) - 97 if c >= "a" else ord(c) - 65 + 26 for c in value)
        return y * self.columns + x if x < self.columns and y < self.rows else None

    def add(self, parent: int | None, properties: list[tuple[str, str]]) -> None:
        for name, value in properties:
            if name == "SZ":
                sides = [int(side) for side in value.split(":")]
                self.columns, self.rows = sides[0], sides[-1]
            if name == "RE":
                self.result = value
        start = Node(None, 0, (0,) * (self.columns * self.rows))
        before = start if parent is None else self.nodes[parent]
        stones, move = list(before.position), None
        for name, value in properties:
            if name in SETUPS and (point := self.point(value)) is not None:
                stones[point] = SETUPS[name]
            elif name in COLOURS:
                move = (COLOURS[name], self.point(value))
        position = tuple(stones)
        if move:
            position = played(position, *move, self.columns, self.rows)
        setup = any(name in SETUPS for name, _ in properties)
        self.nodes.append(Node(parent, before.number + (move is not None), position, move, setup))


def read(sgf: str) -> PlainGame:
    game, branches, name = PlainGame(), [], ""
    parent: int | None = None
    properties: list[tuple[str, str]] | None = None

    def close() -> None:
        nonlocal parent, properties
        if properties is not None:
            game.add(parent, properties)
            parent, properties = len(game.nodes) - 1, None

    for value, identifier, mark in TOKEN.findall(sgf):
        if identifier:
            name = identifier
        elif not mark:
            properties.append((name, value))
        else:
            close()
            if mark == "(":
                branches.append(parent)
            elif mark == ")":
                parent = branches.pop()
            else:
                properties = []
    return game


@dataclass
class Opening:
    game: int
    node: int
    counts: list[int] = field(default_factory=lambda: [0, 0, 0, 0])
    nexts: dict[Move, list[int]] = field(default_factory=dict)


def openings(games: list[PlainGame], columns: int, rows: int, depth: int) -> dict[Position, Opening]:
    """The openings by their canonical positions, in order of their first entries."""
    found: dict[Position, Opening] = {}
    known: dict[Position, tuple[Position, list[dict[int, int]]]] = {}

    def canonical(position: Position) -> tuple[Position, list[dict[int, int]]]:
        if position not in known:
            all_images = images(position, columns, rows)
            least = min(image for image, _ in all_images)
            known[position] = least, [to for image, to in all_images if image == least]
        return known[position]

    on_board = [(i, game) for i, game in enumerate(games) if (game.columns, game.rows) == (columns, rows)]
    for i, game in on_board:
        for n, node in enumerate(game.nodes):
            changed = node.parent is None or node.position != game.nodes[node.parent].position
            if node.number <= depth and changed:
                opening = found.setdefault(canonical(node.position)[0], Opening(i, n))
                count(opening.counts, game)
    for _, game in on_board:
        for node in game.nodes:
            parent = None if node.parent is None else game.nodes[node.parent]
            if node.move and parent and parent.number <= depth:
                least, frames = canonical(parent.position)
                colour, point = node.move
                in_frame = None if point is None else min(to[point] for to in frames)
                count(found[least].nexts.setdefault((colour, in_frame), [0, 0, 0, 0]), game)
    return found


def count(numbers: list[int], game: PlainGame) -> None:
    numbers[0] += 1
    numbers[1 + game.outcome()] += 1


def printed(found: dict[Position, Opening], head: str, columns: int, least: int) -> str:
    """What is printed for an opening tree. `head` is its first line up to the number of the positions."""
    listed = [opening for opening in found.values() if opening.counts[0] >= least]
    lines = [f"{head} positions {len(listed)}"]
    for opening in listed:
        lines.append("position " + " ".join(map(str, [*opening.counts, opening.game, opening.node])))
        for (colour, point), counts in sorted(opening.nexts.items(), key=next_place):
            place = "pass" if point is None else f"{point % columns} {point // columns}"
            lines.append(f"next {' BW'[colour]} {place} {' '.join(map(str, counts))}")
    return "\n".join(lines) + "\n"


def next_place(item: tuple[Move, list[int]]) -> tuple[int, float]:
    """Black before White, then by the number of the point, a pass last."""
    (colour, point), _ = item
    return colour, float("inf") if point is None else point
