#!/usr/bin/env python3
"""Makes one page of HTML from the answers of a script: boards to look at in place of rows to read.

    tools/page.py [--program build/gobase] [--output RECORD] SCRIPT > answers.html

Is run where the folders are that the script imports. See docs/TOUR.md for pictures.
"""
import sys

from answers_page.command import main

if __name__ == "__main__":
    sys.exit(main(sys.argv[1:]))
