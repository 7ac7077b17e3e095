#!/usr/bin/env python3
"""What `opening 19 19 D M` takes over N made games of 200 moves, by the depth D.

    PROGRAM=/path/to/gobase python3 bench/openings.py N [D ..]

For each D (10, 20, 60 and 400 without words): the instructions a game and a node within D, without text (M of
4,294,967,295, `--serial`, callgrind; a script with the statement less one without it); the milliseconds of a
statement by the clock, on one processor and on all, also with M of 5 and its text; and the bytes that it takes at
the peak beyond the base, in all and for an opening. A time is the middle of five differences of a script with six
of the statement and one with a single one, divided by five. The resident set differs by 0.5 MB from run to run.
"""
import os
import re
import statistics
import subprocess
import sys
import tempfile
import time

PROGRAM = os.environ["PROGRAM"]
MOVES = 200
NO_TEXT = 4294967295


def script(games, statement, count):
    return (f"make {games} 1\nwait\n" + f"{statement}\n" * count).encode()


def instructions(games, statement, count):
    command = ["valgrind", "--tool=callgrind", "--callgrind-out-file=/dev/null", PROGRAM, "--serial"]
    told = subprocess.run(command, input=script(games, statement, count), capture_output=True, check=True)
    return int(re.search(rb"Collected : (\d+)", told.stderr).group(1))


def seconds(games, statement, count, processors):
    command = ["taskset", "-c", processors, PROGRAM]
    begun = time.monotonic()
    subprocess.run(command, input=script(games, statement, count), stdout=subprocess.DEVNULL, check=True)
    return time.monotonic() - begun


def milliseconds(games, statement, processors):
    pairs = [[seconds(games, statement, count, processors) for count in (6, 1)] for _ in range(5)]
    return statistics.median(more - less for more, less in pairs) * 200


def resident(games, statement, count):
    """The greatest resident set in bytes, the middle one of three."""
    sizes = []
    for _ in range(3):
        with tempfile.NamedTemporaryFile() as told:
            command = ["/usr/bin/time", "-q", "-o", told.name, "-f", "%M", PROGRAM]
            subprocess.run(command, input=script(games, statement, count), stdout=subprocess.DEVNULL, check=True)
            sizes.append(int(told.read()) * 1024)
    return statistics.median(sizes)


def openings(games, depth):
    """How many openings there are: each is told once where one entry is enough."""
    asked = script(games, f"opening 19 19 {depth} 1", 1)
    text = subprocess.run([PROGRAM], input=asked, stdout=subprocess.PIPE, check=True).stdout
    return int(re.search(rb"opening version \d+ games \d+ positions (\d+)", text).group(1))


def main():
    games = int(sys.argv[1])
    everywhere = f"0-{os.cpu_count() - 1}"
    base = instructions(games, "", 0)
    memory = resident(games, "", 0)
    for depth in [int(word) for word in sys.argv[2:]] or [10, 20, 60, 400]:
        quiet, told = f"opening 19 19 {depth} {NO_TEXT}", f"opening 19 19 {depth} 5"
        taken = instructions(games, quiet, 1) - base
        nodes = games * (min(depth, MOVES) + 1)
        times = [milliseconds(games, s, p) for s in (quiet, told) for p in ("0", everywhere)]
        more = resident(games, quiet, 1) - memory
        count = openings(games, depth)
        print(
            f"{games} games, D {depth}: {taken / games:.0f} instructions a game, {taken / nodes:.0f} a node;"
            f" ms on one processor {times[0]:.1f}, on all {times[1]:.1f},"
            f" with M of 5 {times[2]:.1f} and {times[3]:.1f};"
            f" {count} openings, {more / 1e6:.1f} MB, {more / count:.0f} bytes each",
            flush=True,
        )


if __name__ == "__main__":
    main()
