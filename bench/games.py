#!/usr/bin/env python3
"""Writes folders of games that nobody played, into the folder in which it is started.

    python3 bench/games.py

Folders: games500 to games8000 (so many files, each a game of 200 moves on 19 by 19), line16384 to
line65536 (one game in one line of so many nodes), variations250 to variations1000 (one game with so
many variations of 60 moves at one node), mixed and sorted (1,998 games on boards of 9, 13 and 19 lines,
from file to file and one board after another), board52x500 and board52x1000 (games on 52 by 52).
Further words are counts of further folders, as 20000 for games20000.
"""
import os
import sys

LETTERS = "abcdefghijklmnopqrstuvwxyzABCDEFGHIJKLMNOPQRSTUVWXYZ"


def played(seed, count, lines):
    """Moves on any point, whatever stands there, from a generator of numbers, and its last number."""
    text = ""
    for i in range(count):
        seed = (1103515245 * seed + 12345) % 2147483648
        p = seed // 1024 % (lines * lines)
        text += ";" + "BW"[i % 2] + "[" + LETTERS[p % lines] + LETTERS[p // lines] + "]"
    return text, seed


def moves(seed, count):
    return played(seed, count, 19)[0]


def told(lines, number, text):
    """A game with names and a result by a number."""
    return "(;GM[1]FF[4]SZ[%d]PB[Player %d]PW[Player %d]DT[2001-02-03]RE[%s+R]%s)" % (
        lines, number % 97, number % 89, "BW"[number % 2], text)


def game(seed, lines=19):
    return told(lines, seed, played(seed, 200, lines)[0])


def game_by_last_number(seed, lines):
    text, last = played(seed, 200, lines)
    return told(lines, last, text)


def folder(name, texts):
    os.mkdir(name)
    for i, text in enumerate(texts):
        with open("%s/%06d.sgf" % (name, i), "w") as file:
            file.write(text + "\n")


def branch(count):
    return "".join("(" + moves(i + 1, 60) + ")" for i in range(count))


def main():
    for count in [500, 1000, 2000, 4000, 8000] + [int(word) for word in sys.argv[1:]]:
        folder("games%d" % count, (game(seed + 1) for seed in range(count)))
    for count in (16384, 32768, 65536):
        folder("line%d" % count, ["(;GM[1]FF[4]SZ[19]" + moves(1, count - 1) + ")"])
    for count in (250, 500, 1000):
        folder("variations%d" % count, ["(;GM[1]FF[4]SZ[19];B[dd]" + branch(count) + ")"])
    sides = (9, 13, 19)
    folder("mixed", (game_by_last_number(seed + 1, sides[seed % 3]) for seed in range(1998)))
    by_board = [seed for k in range(3) for seed in range(k, 1998, 3)]
    folder("sorted", (game_by_last_number(seed + 1, sides[seed % 3]) for seed in by_board))
    for count in (500, 1000):
        folder("board52x%d" % count, (game(seed + 1, 52) for seed in range(count)))


main()
