#!/usr/bin/env python3
"""Times of one search by two programs, of which one may search in one piece and the other in eight.

    python3 bench/pieces.py ONE_PIECE EIGHT_PIECES

The program with one piece is that with MAX_PIECES 1 in crates/search_engine/src/pieces.rt. It is started in
the folder that holds games2000, games4000 and games8000.
"""
import os
import subprocess
import sys
import time

PATTERNS = {"corner": "at 0 0 ....../....../.....O/...X../....../..X...", "three": ".X./XO./.X*"}


def run(program, folder, pattern, count):
    """The least time of three runs of a script with so many searches."""
    script = "import %s\nwait\n" % folder + ("search %s\n" % pattern) * count
    best = 1e9
    for _ in range(3):
        start = time.time()
        subprocess.run([program], input=script.encode(), stdout=subprocess.DEVNULL)
        best = min(best, time.time() - start)
    return best


for folder in ("games2000", "games4000", "games8000"):
    for name, pattern in PATTERNS.items():
        for program in map(os.path.abspath, sys.argv[1:]):
            seconds = (run(program, folder, pattern, 4) - run(program, folder, pattern, 0)) / 4
            print(folder, name, program, seconds)
