#!/usr/bin/env python3
"""Whether the numbers of the kinds stand in one place of the library's code, crates/frames/src/kinds.rt: nowhere else is a kind compared
with a number, matched on as one, or handed as one to a function that takes a kind. (The programs of bin/calls have kinds of values
too: there only the last is looked for.)

Prints what is amiss and `N passed, M failed`: a test is a source file of a crate.
"""
import pathlib
import re
import sys

ROOT = pathlib.Path(__file__).resolve().parent.parent
ONE_PLACE = "crates/frames/src/kinds.rt"
# The functions whose first argument is a kind's number.
TAKE_A_KIND = r"(?:search|frame|payload|one_frame|decode|find|content|write|next|encode|known|of)"
AMISS = [
    (re.compile(r"\bkind\s*(?:==|!=|<=|>=|<|>)\s*\d"), "a kind is compared with a number"),
    (re.compile(r"\d\s*(?:==|!=|<=|>=|<|>)\s*kind\b"), "a kind is compared with a number"),
    (re.compile(r"\bmatch kind\s*\{\s*\d"), "a kind is matched on as a number"),
    (re.compile(r"\b(?:frames|messages|commands|lines|kinds)::%s\(\s*[0-9]" % TAKE_A_KIND), "a kind's number is handed to a function"),
]


def code(text):
    """The source without its comments, contracts and strings."""
    kept = []
    for line in text.splitlines():
        if re.match(r"\s*(?://|ghost use|requires|ensures)", line):
            line = ""
        kept.append(re.sub(r'b?"(?:\\.|[^"\\])*"', '""', line.split("//")[0]))
    return "\n".join(kept)


def amiss_in(path):
    text = code(path.read_text(encoding="utf-8"))
    for pattern, what in AMISS[-1:] if "crates/calls_" in str(path) else AMISS:
        for found in pattern.finditer(text):
            yield "%s:%d: %s: %s" % (path.relative_to(ROOT), text.count("\n", 0, found.start()) + 1, what, found.group(0))


def main():
    # the test itself: the one place has what is looked for elsewhere
    assert re.search(r"\b1 => Some\(Kind::", (ROOT / ONE_PLACE).read_text(encoding="utf-8"))
    assert list(AMISS[0][0].finditer("if kind == 5 {")) and list(AMISS[3][0].finditer("frames::one_frame(5, frame)"))
    wrong, tests = [], 0
    for path in sorted(ROOT.glob("crates/*/src/**/*.rt")):
        if str(path.relative_to(ROOT)) == ONE_PLACE:
            continue
        tests += 1
        wrong += list(amiss_in(path))[:1]
    for line in wrong:
        print(line)
    print("%d passed, %d failed" % (tests - len(wrong), len(wrong)))
    return 1 if wrong or not tests else 0


sys.exit(main())
