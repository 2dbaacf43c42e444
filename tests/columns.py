#!/usr/bin/env python3
"""Whether the definitions (crates/*/specs) can be read on one screen: no line of theirs has more than 120 columns.

Prints what is amiss and `N passed, M failed`: a test is a file.
"""
import pathlib
import sys

ROOT = pathlib.Path(__file__).resolve().parent.parent
MOST = 120


def too_long(text):
    """The numbers of the lines that are too long, and their columns. (A character is a column: no line has combining ones.)"""
    return [(number, len(line)) for number, line in enumerate(text.split("\n"), 1) if MOST < len(line)]


def main():
    # the test itself: a line of 120 columns passes, also one of mathematical signs, and one of 121 does not
    assert too_long("≡" * MOST) == [] and too_long("\n" + "≡" * (MOST + 1)) == [(2, MOST + 1)]
    files = sorted(ROOT.glob("crates/*/specs/**/*.antt"))
    failed = 0
    for path in files:
        lines = too_long(path.read_text(encoding="utf-8"))
        failed += bool(lines)
        for number, columns in lines:
            print("%s:%d: %d columns" % (path.relative_to(ROOT), number, columns))
    print("%d passed, %d failed" % (len(files) - failed, failed))
    return 1 if failed or not files else 0


sys.exit(main())
