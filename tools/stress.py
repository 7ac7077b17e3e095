#!/usr/bin/env python3
"""Searches beside an import, under load.

    tools/stress.py PROGRAM [FILES [STATEMENTS]]

Makes a folder of small games and a script that imports it with `--batch 1` and asks searches and
blocks meanwhile. Then the same games are imported one after another by a serial run, which answers
every search in every version. The first run has to name versions that never fall, and to answer each
search as the serial run does in the version that it names.

What the first run printed is also audited as a record: it has to be lawful, and the same record with one
byte changed has to depart at that byte or before it. Where the byte is of the number of a search's version,
another version may be named, and the record has to depart in the same line. A record of zeros has to depart
at its first byte, and to be too long with one byte more than a record may have. Prints what it saw; the exit
status is 0 where all is so.
"""
import os
import random
import re
import subprocess
import sys
import tempfile

PATTERNS = ["XOXO/OXOX", "same OXX/XXO/OX.", "fixed at 0 0 XOX/OX*", "main XXXX/OOOO", "same fixed XOOXO"]
# How many records with one byte changed are audited.
CHANGES = 8
# How many bytes a record may have.
MAX_RECORD = 268435456
SEARCH_HEAD = re.compile(rb"[0-9]+ search version ([0-9]+)")


def game(numbers):
    """A game of 60 moves on 9 by 9 points, no point twice."""
    points = [x + y for x in "abcdefghi" for y in "abcdefghi"]
    numbers.shuffle(points)
    moves = "".join(";" + "BW"[i % 2] + "[" + p + "]" for i, p in enumerate(points[:60]))
    return "(;GM[1]FF[4]SZ[9]" + moves + ")"


def write_games(folder, path, count, numbers):
    """Each file in a folder of its own under `each`, and all under `path`."""
    os.makedirs(os.path.join(folder, path))
    for i in range(count):
        text = game(numbers)
        alone = os.path.join(folder, "each", str(i))
        os.makedirs(alone)
        for place in (os.path.join(folder, path), alone):
            with open(os.path.join(place, "%06d.sgf" % i), "w") as file:
                file.write(text)


def run(program, folder, script, *words):
    done = subprocess.run([program, *words], input=script.encode(), cwd=folder, stdout=subprocess.PIPE)
    if done.returncode != 0:
        sys.exit("the program ended with status %d" % done.returncode)
    return done.stdout


def beside_script(statements, numbers):
    """The script, and for each line that answers a search its pattern and its statement's number."""
    lines, asked = ["import d"], {}

    def search(statement):
        pattern = numbers.choice(PATTERNS)
        lines.append("search " + pattern)
        asked[len(lines)] = (pattern, statement)

    for statement in range(statements):
        if numbers.random() < 0.2:
            lines.append("together")
            for _ in range(numbers.randint(1, 8)):
                search(statement)
            lines.append("end")
        else:
            search(statement)
    lines.append("wait")
    return "\n".join(lines) + "\n", asked


def serial_script(files):
    """The script that answers each pattern in each version, and the pattern of each such line."""
    lines, asked = [], {}
    for pattern in PATTERNS:
        lines.append("search " + pattern)
        asked[len(lines)] = pattern
    for i in range(files):
        lines.append("import each/%d" % i)
        for pattern in PATTERNS:
            lines.append("search " + pattern)
            asked[len(lines)] = pattern
    return "\n".join(lines) + "\n", asked


def answers(output, asked):
    """For each search its line, the version that it names, and its text behind that number."""
    found, current = [], None
    for line in output.decode().splitlines():
        words = line.split(" ")
        if len(words) > 3 and words[1] == "search" and int(words[0]) in asked:
            current = [int(words[0]), int(words[3]), " ".join(words[4:])]
            found.append(current)
        elif words[0] in ("hit", "row", "total") and current is not None:
            current[2] += "\n" + line
        else:
            current = None
    return found


def check(beside, asked, expected):
    """What is wrong, or nothing."""
    floor, greatest, last, seen = 0, 0, None, set()
    if len(beside) != len(asked):
        return "%d of %d searches were answered" % (len(beside), len(asked)), seen
    for line, version, text in beside:
        pattern, statement = asked[line]
        # The searches of one block may name versions in any order.
        if statement != last:
            floor, last = greatest, statement
        if version < floor:
            return "line %d names version %d behind %d" % (line, version, floor), seen
        if expected[pattern, version] != text:
            return "line %d differs in version %d" % (line, version), seen
        seen.add(version)
        greatest = max(greatest, version)
    return None, seen


def audited(program, folder, script, record, length=None):
    """What an audit says of a record, or of one of so many bytes that begins so and goes on with zeros."""
    os.makedirs(os.path.join(folder, "r"), exist_ok=True)
    with open(os.path.join(folder, "r", "record"), "wb") as file:
        file.write(record)
        file.truncate(length)
    return run(program, folder, script, "audit", "r", "--batch", "1").decode()


def with_other_byte(record, at, numbers):
    """The record with another byte in this place."""
    byte = (record[at] + numbers.randrange(1, 256)) % 256
    return record[:at] + bytes([byte]) + record[at + 1:]


def latest_departure(record, at):
    """Where a record departs at the latest of which this byte is changed."""
    begin = record.rfind(b"\n", 0, at) + 1
    end = record.find(b"\n", at)
    head = SEARCH_HEAD.match(record[begin:end])
    if head and head.start(1) <= at - begin < head.end(1):
        return end
    return at


def check_audits(program, folder, script, record, numbers):
    """What is wrong of the audits of a record and of the same with one byte changed, or nothing."""
    said = audited(program, folder, script, record)
    if said != "audit lawful\n":
        return "of the whole record: " + said
    for _ in range(CHANGES):
        at = numbers.randrange(len(record))
        said = audited(program, folder, script, with_other_byte(record, at, numbers))
        departs = re.fullmatch("audit departs at ([0-9]+)\n", said)
        if not departs or int(departs.group(1)) > latest_departure(record, at):
            return "with byte %d changed: %s" % (at, said)
    for length, wanted in ((MAX_RECORD, "audit departs at 0\n"), (MAX_RECORD + 1, "audit too long\n")):
        said = audited(program, folder, script, b"", length)
        if said != wanted:
            return "of %d zeros: %s" % (length, said)
    return None


def main():
    program = os.path.abspath(sys.argv[1])
    files = int(sys.argv[2]) if len(sys.argv) > 2 else 2000
    statements = int(sys.argv[3]) if len(sys.argv) > 3 else 5000
    numbers = random.Random(1)
    with tempfile.TemporaryDirectory() as folder:
        write_games(folder, "d", files, numbers)
        script, asked = beside_script(statements, numbers)
        record = run(program, folder, script, "--batch", "1")
        beside = answers(record, asked)
        whole, every = serial_script(files)
        expected = {}
        for line, version, text in answers(run(program, folder, whole, "--serial", "--batch", "1"), every):
            expected[every[line], version] = text
        departed = check_audits(program, folder, script, record, numbers)
    wrong, seen = check(beside, asked, expected)
    print("searches %d, versions named %d, least %d, greatest %d of %d" % (
        len(beside), len(seen), min(seen, default=0), max(seen, default=0), files))
    print("record of %d bytes, audited whole and with %d of them changed in turn" % (len(record), CHANGES))
    if wrong or departed:
        sys.exit(wrong or departed)


main()
