"""The command line of tools/page.py."""
from __future__ import annotations

import argparse
import sys
from pathlib import Path

from .page import Made, page
from .program import NoProgram, Run, ask_for_games, run_program
from .record import read_record
from .script import read_script


def read_text(path: str) -> str:
    return Path(path).read_bytes().decode("utf-8", "surrogateescape")


def arguments(words: list[str]) -> argparse.Namespace:
    parser = argparse.ArgumentParser(
        prog="page.py", description="Makes one page of HTML from the answers of a script of gobase.")
    parser.add_argument("--program", default="build/gobase", help="the native program; build/gobase without it")
    parser.add_argument("--output", metavar="RECORD",
                        help="what the program printed for the script; it is then asked for games alone")
    parser.add_argument("script", metavar="SCRIPT", help="the script")
    return parser.parse_args(words)


def make_page(told: argparse.Namespace) -> str:
    script = read_script(read_text(told.script))
    run: Run | None = None
    if told.output is None:
        run = run_program(told.program, script.text)
        record = read_record(run.output, script)
    else:
        record = read_record(read_text(told.output), script)
    games = ask_for_games(told.program, script, record)
    return page(Made(script, Path(told.script).name, record, games, run))


def main(words: list[str]) -> int:
    told = arguments(words)
    try:
        made = make_page(told)
    except NoProgram as error:
        print(f"page.py: the program can’t be started: {error}", file=sys.stderr)
        return 2
    except OSError as error:
        print(f"page.py: {error.filename}: {error.strerror}", file=sys.stderr)
        return 2
    sys.stdout.buffer.write(made.encode("utf-8", "replace"))
    return 0
