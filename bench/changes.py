#!/usr/bin/env python3
"""Writes five files of games, for what the changes of nodes cost, into the folder in which it is started.

    python3 bench/changes.py

moves200.sgf and moves300.sgf: 100 games of so many moves on any point; capture.sgf: 100 games of 300
moves, of which the last captures 150 stones; ko.sgf: 100 games of 100 captures in a ko; whole.sgf: 100
games of 200 setups of the whole board.
"""
LETTERS = "abcdefghijklmnopqrs"


def point(x, y):
    return LETTERS[x] + LETTERS[y]


def written(name, game):
    with open(name + ".sgf", "w") as file:
        file.write("\n".join(["(;GM[1]FF[4]SZ[19]" + text + ")" for text in game]))


def moves(seed, count):
    """Moves from a generator of numbers, on any point, whatever stands there."""
    text = ""
    for i in range(count):
        seed = (1103515245 * seed + 12345) % 2147483648
        p = seed // 1024 % 361
        text += ";" + "BW"[i % 2] + "[" + point(p % 19, p // 19) + "]"
    return text


def capture():
    """Black fills 15 columns by 10 rows in a corner, and White's last move captures these 150 stones."""
    black = [(x, y) for y in range(10) for x in range(15)]
    white = [(15, y) for y in range(10)] + [(x, 10) for x in range(15)]
    others = white[:-1] + [(x, y) for y in range(12, 19) for x in range(19)]
    text = ""
    for i, at in enumerate(black):
        text += ";B[" + point(*at) + "]"
        if i < len(black) - 1:
            text += ";W[" + (point(*others[i]) if i < len(others) else "") + "]"
    return text + ";W[" + point(*white[-1]) + "]"


KO = "AB[ba][ab][bc]AW[ca][bb][db][cc]" + ";B[cb];W[bb]" * 50
WHOLE = ";AB[aa:ss];AE[aa:ss]" * 100
written("moves200", [moves(game + 1, 200) for game in range(100)])
written("moves300", [moves(game + 1, 300) for game in range(100)])
written("capture", [capture()] * 100)
written("ko", [KO] * 100)
written("whole", [WHOLE] * 100)
