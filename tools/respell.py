#!/usr/bin/env python3
"""Writes the repository's own definitions and lemmas in snake case, where they had a capital inside.

usage: tools/respell.py [FOLDER]

FOLDER is the top of the repository; if none is given, the folder above this one. The names are those of crates/*/specs and
crates/*/proofs; they are respelled there, in the clauses of crates/*/src, and in crates/*/must-fail. A name from a source file keeps
its spelling, and so do strings and comments that are not names. A lemma whose name would fall together with a definition's gets `_lem`. A second run changes nothing. It ends with 1 and writes nothing if
two names would fall together in a file.
"""

import glob
import os
import re
import sys

CAMEL = re.compile(r"(?<![A-Za-z0-9\\])[a-z][a-z0-9]*(?:[A-Z][a-z0-9]*)+(?![A-Za-z0-9])")
# names of the library, escapes in strings, and the hex digits that begin with one
KEPT = {"natAbs", "getD", "u001F", "u007FA", "uD83D", "xAA", "xD5"}
# lemmas that would now have the name of the definition that they are of
LEMMAS = "same_text low_value names_in units_of last_line last_digits first_field object_of".split()
LEMMA = re.compile(r"(?<![\w.:'`-])(%s)(?![\w.:'`-])" % "|".join(LEMMAS))


def snake(name):
    return re.sub(r"(?<=[a-z0-9])([A-Z])", r"_\1", name).lower()


def respelled(text):
    return CAMEL.sub(lambda m: m.group(0) if m.group(0) in KEPT else snake(m.group(0)), LEMMA.sub(r"\1_lem", text))


def clauses_respelled(text):
    """Rattle: a name with a capital inside stands in clauses, in `ghost use` and in comments alone; code has none."""
    return CAMEL.sub(lambda m: m.group(0) if m.group(0) in KEPT else snake(m.group(0)), text)


def clashes(path, text):
    """Names that the file declares in snake case already, beside the same in camel case."""
    bare = LEMMA.sub(r"\1_lem", re.sub(r"--[^\n]*|//[^\n]*", "", text))
    words = set(re.findall(r"(?m)^ *(?:abbrev |unfoldable )?(?:pub )?(?:abbrev |unfoldable )?([A-Za-z0-9_]+) :", bare))
    words |= {w for w in re.findall(r"[A-Za-z0-9_]+", bare) if CAMEL.fullmatch(w)}
    return ["%s: %s" % (path, w) for w in sorted(words) if CAMEL.fullmatch(w) and w not in KEPT and snake(w) in words]


def main():
    top = sys.argv[1] if len(sys.argv) > 1 else os.path.dirname(os.path.dirname(os.path.abspath(__file__)))
    below = lambda part: sorted(glob.glob(os.path.join(glob.escape(top), "crates", "*", part), recursive=True))
    files = [(p, respelled) for p in below("specs/**/*.antt") + below("proofs/**/*.antt") + below("must-fail/*.edit")]
    files += [(p, clauses_respelled) for p in below("src/**/*.rt")]
    texts = {p: open(p, encoding="utf-8").read() for p, _ in files}
    if all(m in KEPT for text in texts.values() for m in CAMEL.findall(text)):
        return 0  # it has run here: a lemma of the list would now be a definition
    found = [line for p, _ in files for line in clashes(os.path.relpath(p, top), texts[p])]
    if found:
        print("\n".join(found))
        return 1
    for p, turn in files:
        new = turn(texts[p])
        if new != texts[p]:
            with open(p, "w", encoding="utf-8") as f:
                f.write(new)
    return 0


if __name__ == "__main__":
    sys.exit(main())
