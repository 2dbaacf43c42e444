#!/usr/bin/env python3
"""What each crate costs: lines of code, contract, definition and proof, wrong answers that must be refused, and the edits that they stand in.
The table stands in docs/COSTS.md.

scripts/costs.py --write   writes the counts there; the seconds of check stay as they are: they are of an older kit, and `rt` tells none now
scripts/costs.py --check   whether the counts there are those of the files
"""
import os
import re
import sys

ROOT = os.path.join(os.path.dirname(os.path.abspath(__file__)), "..")
sys.path.insert(0, os.path.join(ROOT, "tests"))
sys.dont_write_bytecode = True  # or Python leaves a folder beside those that are imported

import changes

PAGE = os.path.join(ROOT, "docs", "COSTS.md")
COLUMNS = ["crate", "code", "contract", "definition", "working definition", "proof", "wrong answers", "edits", "check, s (older kit)"]
HEAD = "| %s |\n|%s\n" % (" | ".join(COLUMNS), "---|" * len(COLUMNS))


def files(folder, ending):
    for path, _, names in os.walk(folder):
        for name in sorted(names):
            if name.endswith(ending):
                with open(os.path.join(path, name), encoding="utf-8") as file:
                    yield file.read().splitlines()


def written(lines, comment):
    """Lines that are neither blank nor comment."""
    return [line.strip() for line in lines if line.strip() and not line.strip().startswith(comment)]


def is_contract(line):
    return re.match(r"(requires|ensures|ghost use|invariant|decreases)\b", line) is not None


def counts(crate):
    folder = os.path.join(ROOT, "crates", crate)
    source = [line for lines in files(os.path.join(folder, "src"), ".rt") for line in written(lines, "//")]
    contract = sum(map(is_contract, source))

    def of(*below):
        return sum(len(written(lines, "--")) for lines in files(os.path.join(folder, *below), ".antt"))

    edits = changes.edits_of(crate)
    wrong = sum(len(changes.changes_in(edit)) for edit in edits)
    return (len(source) - contract, contract, of("specs", "Paper"), of("specs", "Work"), of("proofs"), wrong, len(edits))


def crates():
    with open(os.path.join(ROOT, "crates.txt"), encoding="utf-8") as file:
        return [re.split(r"[ :]", line)[0] for line in file if line.strip() and not line.startswith("#")]


def rows_of(page):
    """Each crate's row as it stands, its counts and its seconds."""
    rows = {}
    for line in page.splitlines():
        cells = [cell.strip() for cell in line.strip("|").split("|")]
        name = cells[0].strip("`")
        if len(cells) == len(COLUMNS) and name in crates():
            rows[name] = (tuple(map(int, cells[1:-1])), cells[-1])
    return rows


def table(seconds):
    lines, total = [], [0] * (len(COLUMNS) - 2)
    for crate in crates():
        found = counts(crate)
        total = [a + b for a, b in zip(total, found)]
        lines.append("| `%s` | %s | %s |\n" % (crate, " | ".join(map(str, found)), seconds.get(crate, "")))
    timed = [int(s) for s in seconds.values() if s.isdigit()]
    lines.append("| all | %s | %d |\n" % (" | ".join(map(str, total)), sum(timed)))
    return HEAD + "".join(lines)


def main(words):
    with open(PAGE, encoding="utf-8") as file:
        page = file.read()
    stands = rows_of(page)
    if words[:1] == ["--check"]:
        wrong = [crate for crate in crates() if stands.get(crate, (None,))[0] != counts(crate)]
        for crate in wrong:
            print("docs/COSTS.md: %s: %s, but the files have %s" % (crate, stands.get(crate, ("nothing",))[0], counts(crate)))
        print("%d passed, %d failed" % (len(crates()) - len(wrong), len(wrong)))
        return 1 if wrong else 0
    seconds = {crate: row[1] for crate, row in stands.items()}
    start = page.index(HEAD)
    end = re.compile(r"^\| all .*\n", re.M).search(page, start)
    with open(PAGE, "w", encoding="utf-8") as file:
        file.write(page[:start] + table(seconds) + (page[end.end() :] if end else ""))
    return 0


sys.exit(main(sys.argv[1:]))
