#!/usr/bin/env python3
"""Whether every link of README.md, docs/ and the other pages leads somewhere: to a file or folder that is there and, behind `#`, to a heading
of it. A file of this repository that a page names in words (`tests/run`, docs/API.md) must be there too, but for docs/CHANGELOG.md, which
also speaks of files that are gone. README.md has at most 60 lines: one screen.

Prints what is amiss and `N passed, M failed`: a test is a link, a name or README's length. With a folder as its argument it reads the pages
there.
"""
import pathlib
import re
import sys

ROOT = pathlib.Path(__file__).resolve().parent.parent
LINK = re.compile(r"\[[^\]]*\]\(([^)\s]+)\)")
# A name with a folder of the repository before it; `*` stands for anything.
NAMED = re.compile(r"(?<![\w/.])((?:crates|bin|scripts|tests|docs|c|second|fuzz|bench|include|examples|\.ci)/[\w.*/-]*[\w*/])")
# A part in capitals, as in crates/CRATE/src, stands for a name.
PLACEHOLDER = re.compile(r"/[A-Z]+(?:/|$)")
MOST_LINES = 60


def prose(page):
    """A page without its blocks of code."""
    return re.sub(r"^```.*?^```$", "", page.read_text(encoding="utf-8"), flags=re.M | re.S)


def anchors(page):
    """The headings of a page, as a link names them: lower case, hyphens for spaces, no other punctuation."""
    return {re.sub(r"[^\w -]", "", heading.lower()).replace(" ", "-") for heading in re.findall(r"^#+ (.*)$", prose(page), re.M)}


def links(page):
    """Each link of a page, and whether it leads somewhere."""
    for target in LINK.findall(prose(page)):
        if re.match(r"https?:", target):
            continue
        name, _, heading = target.partition("#")
        place = (page.parent / name) if name else page
        yield target, place.exists() and (not heading or (place.suffix == ".md" and heading in anchors(place)))


def names(page, root):
    """Each file that a page names, and whether there is one."""
    for name in sorted(set(NAMED.findall(page.read_text(encoding="utf-8")))):
        if not PLACEHOLDER.search(name):
            yield name, (root / name).exists() or any(root.glob(name))


def main(words):
    root = pathlib.Path(words[0]).resolve() if words else ROOT
    pages = [root / "README.md", *sorted((root / "docs").glob("*.md")), *sorted(root.glob("*/README.md"))]
    tests = []
    for page in pages:
        where = page.relative_to(root)
        tests += [("%s: the link %s leads nowhere" % (where, target), holds) for target, holds in links(page)]
        if page.name != "CHANGELOG.md":
            tests += [("%s: there is no %s" % (where, name), holds) for name, holds in names(page, root)]
    lines = len(pages[0].read_text(encoding="utf-8").splitlines())
    tests.append(("README.md has %d lines, and %d are a screen" % (lines, MOST_LINES), lines <= MOST_LINES))
    wrong = [what for what, holds in tests if not holds]
    for what in wrong:
        print(what)
    print("%d passed, %d failed" % (len(tests) - len(wrong), len(wrong)))
    return 1 if wrong else 0


if __name__ == "__main__":
    sys.exit(main(sys.argv[1:]))
