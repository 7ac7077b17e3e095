#!/usr/bin/env python3
"""Makes the pictures of docs/TOUR.md anew: `python3 -m tests.pictures` in the folder tools/."""
from __future__ import annotations

import tempfile
from pathlib import Path

from .browser import Browser
from .samples import ROOT, page_of
from .small_png import small_png

PICTURES = ROOT / "docs" / "pictures"
LARGEST = 60_000

BOX = "(() => { const r = document.querySelector(%r).getBoundingClientRect(); " \
      "return [r.left + scrollX, r.top + scrollY, r.width, r.height].map(Math.round); })()"


def box_of(browser: Browser, selector: str) -> tuple[int, int, int, int]:
    x, y, width, height = browser.run(BOX % selector)
    return x, y, width, height


def take(browser: Browser, name: str, part: tuple[int, int, int, int]) -> None:
    path = PICTURES / name
    browser.picture(path, part=part)
    path.write_bytes(small_png(path.read_bytes()))
    if path.stat().st_size >= LARGEST:
        raise SystemExit(f"{name} is too large: {path.stat().st_size:,} bytes")


def main() -> None:
    PICTURES.mkdir(exist_ok=True)
    with tempfile.TemporaryDirectory() as room, Browser(960, 900) as browser:
        for name in ("joseki", "phases", "opening"):
            page_of(ROOT / "scripts" / f"{name}.script", Path(room, f"{name}.html"))
        browser.open(Path(room, "joseki.html"))
        x, y, width, _ = box_of(browser, "#line-12")
        take(browser, "page-search.png", (x, y, width, 700))
        browser.run("location.hash = '#12.10'")
        browser.run("new Promise(done => setTimeout(done, 300))")
        x, y, width, _ = box_of(browser, "#viewer")
        take(browser, "page-hit.png", (x, y, width, 830))
        browser.size(860, 900)
        browser.open(Path(room, "phases.html"))
        x, y, width, height = box_of(browser, ".collectors")
        take(browser, "page-report.png", (x, y, width, height))
        browser.open(Path(room, "opening.html"))
        browser.run("document.querySelector('.nexts .pick').click()")
        browser.run("new Promise(done => setTimeout(done, 300))")
        x, y, width, height = box_of(browser, ".found.opened")
        take(browser, "page-opening.png", (x, y, width, height))


if __name__ == "__main__":
    main()
