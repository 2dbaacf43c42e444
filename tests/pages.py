#!/usr/bin/env python3
"""Runs the examples of README.md and docs/, and compares what they print.

tests/pages.py [PAGE..]   the examples of these pages; of all pages without any

An example is one of these blocks:

- `console`: each line `$ COMMAND`, with its further lines `> ..`, is run by bash in the repository's folder; the lines behind it, up to the
  next command, are what it writes on standard output.
- `python`: a program, run in the same folder; the next block, a `text`, is what it prints.
- `rattle`: a program, built without a proof over the crates here, and run; the next block, a `text`, is what it prints.

(`c/check` builds and runs those in C.) What needs a program that is not on this machine, such as `jq`, is reported as not run. Beside the
examples it is tested that docs/LINES.md has an example of each message, and that docs/API.md lists each call of the library's face with its
refusals.
Ends with `N passed, M failed`: a test is a command, a program, a message or a call.
"""
import pathlib
import re
import shutil
import subprocess
import sys
import tempfile

sys.dont_write_bytecode = True  # or Python leaves a folder beside those that are imported

import claimed
import table

ROOT = pathlib.Path(__file__).resolve().parent.parent
BLOCK = re.compile(r"^```(\w+)\n(.*?)^```$", re.M | re.S)
# What an example needs and a machine may lack. The gate has the second, by bin/prove.
MAY_LACK = {
    "jq": lambda: shutil.which("jq"),
    "target/bin/listing": lambda: (ROOT / "target/bin/listing").exists(),
}
# The public functions with their refusals, to which the proofs hold the code.
FUNCTIONS = "crates/claims/specs/Paper/Functions.antt"
FACE = ("frames", "sheet", "messages", "commands", "shapes", "asked", "lines", "list", "book", "numbers")
# What a program here may take the longest, in seconds: the first one builds `bin/list` or `bin/calls`.
PATIENCE = 300


def commands(block):
    """Each command of a console block, and what it is said to print."""
    for part in re.split(r"^\$ ", block, flags=re.M)[1:]:
        lines = part.splitlines(keepends=True)
        behind = next((i for i, line in enumerate(lines[1:], 1) if not line.startswith("> ")), len(lines))
        yield lines[0] + "".join(line[2:] for line in lines[1:behind]), "".join(lines[behind:])


def examples(text):
    """Each example of a page: its language, what is run, and what it is said to print."""
    blocks = BLOCK.findall(text)
    for (language, body), (next_language, printed) in zip(blocks, blocks[1:] + [("", "")]):
        if language == "console":
            for command, expected in commands(body):
                yield language, command, expected
        elif language in ("python", "rattle"):
            yield language, body, printed if next_language == "text" else None


def output(words):
    done = subprocess.run(words, cwd=ROOT, stdin=subprocess.DEVNULL, capture_output=True, text=True, timeout=PATIENCE, check=False)
    return done.stdout, done.stderr


def rattle(program):
    """What a program in Rattle prints; it is a crate of its own, in a folder beside links to the crates here."""
    with tempfile.TemporaryDirectory() as name:
        folder = pathlib.Path(name)
        (folder / "crates/example/src").mkdir(parents=True)
        (folder / "crates/example/src/main.rt").write_text(program)
        for crate in (ROOT / "crates").iterdir():
            (folder / "crates" / crate.name).symlink_to(crate)
        known = (ROOT / "crates.txt").read_text()
        # all that the program of the listing stands on, and the crates of the other examples
        over = "book commands builds " + re.search(r"^listing: (.*)$", known, re.M).group(1)
        (folder / "crates.txt").write_text("%sexample: %s\n" % (known, over))
        built = subprocess.run(
            [ROOT / "scripts/unproved", folder, "example", folder / "program"], capture_output=True, text=True, timeout=PATIENCE, check=False
        )
        if built.returncode != 0:
            return "", built.stdout + built.stderr
        return output(["bash", "-c", '. scripts/run.sh && run "$1"', "run", folder / "program"])


RUN = {
    "console": lambda command: output(["bash", "-c", command]),
    "python": lambda program: output([sys.executable, "-c", program]),
    "rattle": rattle,
}


class Tally:
    def __init__(self):
        self.passed = self.failed = 0

    def judge(self, holds, what):
        self.passed += bool(holds)
        self.failed += not holds
        if not holds:
            print(what)


def run_examples(page, tally):
    """Runs the examples of a page; answers what they printed, all together."""
    everything = ""
    for language, body, expected in examples(page.read_text(encoding="utf-8")):
        first = body.splitlines()[0]
        where = "%s: %s: %s" % (page.relative_to(ROOT), language, first)
        lacks = [name for name, is_there in MAY_LACK.items() if language == "console" and name in body and not is_there()]
        if lacks:
            print("not run, since there is no %s here: %s" % (lacks[0], where))
            continue
        printed, said = RUN[language](body)
        everything += printed
        tally.judge(printed == expected, "%s\nprints\n%sand not\n%sIt said\n%s" % (where, printed, expected, said[-2000:]))
    return everything


def every_message(printed, tally):
    """Whether the examples of docs/LINES.md printed a line of each message."""
    for name in table.NAMES:
        tally.judge('"msg":"%s"' % name in printed, "docs/LINES.md: there is no example of the message %s" % name)


def every_call(text, tally):
    """Whether the table of docs/API.md lists exactly the public functions of the face, with their parameters' names and their refusals."""
    row = r"^\| `((?:%s)(?:::\w+)+)\(([^)]*)\)` \|[^|]*\| ([\d, ]+|none) \|" % "|".join(FACE)
    listed = {name: (arguments, refusals) for name, arguments, refusals in re.findall(row, text, re.M)}
    proved = dict(re.findall(r'\("([\w:]+)", ([\d ∷]*)\[\]\)', (ROOT / FUNCTIONS).read_text(encoding="utf-8")))
    there = {}
    for name, parameters in ((name, parameters) for crate in FACE for name, parameters, _ in claimed.declared(ROOT, crate)):
        there[name] = ", ".join(word for word, _ in parameters), ", ".join(re.findall(r"\d+", proved.get(name, ""))) or "none"
    for name in sorted(there.keys() | listed.keys()):
        tally.judge(listed.get(name) == there.get(name), "docs/API.md: %s: %s, but the code and its claim have %s" % (name, listed.get(name), there.get(name)))


def main(names):
    pages = [pathlib.Path(name).resolve() for name in names] or [ROOT / "README.md", *sorted((ROOT / "docs").glob("*.md"))]
    tally = Tally()
    for page in pages:
        printed = run_examples(page, tally)
        if page.name == "LINES.md":
            every_message(printed, tally)
        if page.name == "API.md":
            every_call(page.read_text(encoding="utf-8"), tally)
    print("%d passed, %d failed" % (tally.passed, tally.failed))
    return 1 if tally.failed or not tally.passed else 0


if __name__ == "__main__":
    sys.exit(main(sys.argv[1:]))
