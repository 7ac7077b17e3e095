#!/usr/bin/env python3
"""Imports by two programs in turn: by the clock, user time, the system's own, and resident at the peak.

    python3 bench/compare_imports.py OLD NEW FOLDER [RUNS]

The folder is imported by batches of 1, 64 and 512 files, and 100,000 games are made, each on all processors and
on one. The middle one of so many runs is given, 5 without a number.
"""
import os
import statistics
import subprocess
import sys
import tempfile
import time

FORMAT = "%U %S %M"


def run(program, words, processors, script):
    """The seconds by the clock, of the user and of the system, and the resident set in MB."""
    with tempfile.NamedTemporaryFile() as told:
        command = ["taskset", "-c", processors, "/usr/bin/time", "-q", "-o", told.name, "-f", FORMAT, program]
        begun = time.perf_counter()
        subprocess.run(command + words, input=script, stdout=subprocess.DEVNULL, check=True)
        clock = time.perf_counter() - begun
        user, system, kilobytes = (float(word) for word in told.read().split())
    return clock, user, system, kilobytes * 1024 / 1e6


def compare(label, programs, runs, words, processors, script):
    """Prints what a script takes, for each program."""
    got = {program: [] for program in programs}
    for number in range(runs):
        for program in programs if number % 2 == 0 else programs[::-1]:
            got[program].append(run(program, words, processors, script))
    for name, program in zip(("old", "new"), programs):
        clock, user, system, size = (statistics.median(values) for values in zip(*got[program]))
        print(f"{label}, {name}: {clock:.3f} s, user {user:.2f} s, system {system:.2f} s, {size:.1f} MB", flush=True)


def main():
    programs, folder = sys.argv[1:3], sys.argv[3]
    runs = int(sys.argv[4]) if len(sys.argv) > 4 else 5
    for processors in (f"0-{os.cpu_count() - 1}", "0"):
        where = "one processor" if processors == "0" else "all processors"
        for batch in ("1", "64", "512"):
            words = ["--batch", batch]
            script = f"import {folder}\nwait\n".encode()
            compare(f"{folder} --batch {batch}, {where}", programs, runs, words, processors, script)
        compare(f"make 100000 1, {where}", programs, runs, [], processors, b"make 100000 1\nwait\n")


if __name__ == "__main__":
    main()
