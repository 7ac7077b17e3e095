#!/usr/bin/env python3
"""The times of statements over N made games, in milliseconds: by the clock, and of the processors.

    PROGRAM=/path/to/gobase python3 bench/times.py N

A time is a tenth of what a script with 11 of the statement takes more than one with a single one; of five such
differences the middle one is given. The text goes to /dev/null.
"""
import os
import resource
import statistics
import subprocess
import sys
import time

STATEMENTS = [
    "search at 0 0 ....../....../.....O/...X../....../..X...",
    "search ....../....../.....O/...X../....../..X...",
    "search .X./XO./.X*",
    "search *X*/XOX/*X*",
    "search XO/OX",
    "search xXo/oOx/xXo",
    "search ...../..X../...../.....",
    'search .X./XO./.X* where player "Player 5"',
    "kept .X./XO./.X*",
]


def run(games, statement, count):
    """The seconds by the clock, and of the processors, of a script with so many of a statement."""
    script = f"make {games} 1\nwait\n" + f"{statement}\n" * count
    before = resource.getrusage(resource.RUSAGE_CHILDREN)
    begun = time.monotonic()
    subprocess.run([os.environ["PROGRAM"]], input=script.encode(), stdout=subprocess.DEVNULL, check=True)
    clock = time.monotonic() - begun
    after = resource.getrusage(resource.RUSAGE_CHILDREN)
    return clock, after.ru_utime + after.ru_stime - before.ru_utime - before.ru_stime


def main():
    games = int(sys.argv[1])
    for statement in STATEMENTS:
        pairs = [(run(games, statement, 11), run(games, statement, 1)) for _ in range(5)]
        clock, processors = (
            statistics.median(more[i] - less[i] for more, less in pairs) * 100 for i in (0, 1)
        )
        print(f"{clock:8.2f} ms by the clock {processors:8.2f} ms of the processors  {statement}")


if __name__ == "__main__":
    main()
