"""Pages for tests: of the sample scripts, by the native program where it is there, else by its stand-in."""
from __future__ import annotations

import os
import subprocess
import sys
from pathlib import Path

ROOT = Path(__file__).parents[2]
NATIVE = Path(os.environ.get("GOBASE", ROOT / "build" / "gobase")).resolve()
STAND_IN = ROOT / "tools" / "tests" / "stand_in.py"


def program() -> Path:
    return NATIVE if NATIVE.exists() else STAND_IN


def page_of(script: Path, to: Path, *words: str, asked: Path | None = None, folder: Path = ROOT) -> None:
    """Runs tools/page.py as it is run by hand."""
    with to.open("wb") as file:
        subprocess.run([sys.executable, str(ROOT / "tools" / "page.py"), "--program", str(asked or program()), *words,
                        str(script)], stdout=file, cwd=folder, check=True)


def scripts() -> list[Path]:
    return sorted((ROOT / "scripts").glob("*.script"))


def program_with_games(path: Path, reports: str, games: list[str]) -> Path:
    """A program that prints these reports, and the games that it is asked for."""
    path.write_text(f"""#!{sys.executable}
import sys
games = {games!r}
told = {reports!r}
for number, line in enumerate(sys.stdin, start=1):
    if line.startswith("game "):
        game = int(line[5:])
        told += f"{{number}} game {{game}} version 1 place 0 file {{game}}.sgf\\n{{games[game]}}\\n"
sys.stdout.write(told)
""")
    path.chmod(0o755)
    return path


def program_that_tells(path: Path, output: str, code: int = 0, errors: str = "") -> Path:
    """A program that prints one and the same, whatever it is asked."""
    path.write_text(f"#!{sys.executable}\nimport sys\nsys.stdin.read()\n"
                    f"sys.stdout.buffer.write({output.encode('utf-8', 'surrogateescape')!r})\n"
                    f"sys.stderr.write({errors!r})\nsys.exit({code})\n")
    path.chmod(0o755)
    return path
