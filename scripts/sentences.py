#!/usr/bin/env python3
"""The sentences of README.md, docs/ and the other pages that have more than 35 words.

scripts/sentences.py [FILE..]: prints each such sentence with its file, line and number of words, and how many there are. Ends with 1 if
there is any. It is no part of the gate: a long sentence is a reason to write it again, not a fault of the library.

Blocks of code and headings are left out. A cell of a table and an item of a list are paragraphs of their own; a sentence goes up to a full
stop, a question mark or an exclamation mark before a space or a paragraph's end. Code between backquotes ends no sentence. A cell that
quotes a document is the document's sentence, and is left out.
"""
import pathlib
import re
import sys

ROOT = pathlib.Path(__file__).resolve().parent.parent
MOST = 35
ITEM = re.compile(r"^\s*(?:[-*]|\d+\.)\s")
# a point before a space that ends no sentence
NO_END = re.compile(r"\b(?:e\.g|i\.e|etc)\.$|\.\.$")


def paragraphs(text):
    """Each paragraph with the number of its first line."""
    first, gathered, in_code = 0, [], False
    for number, line in enumerate(text.splitlines() + [""], 1):
        fence = line.lstrip().startswith("```")
        is_row = line.startswith("|")
        is_code = in_code or fence or (line.startswith("    ") and not gathered)
        if fence:
            in_code = not in_code
        if gathered and (not line.strip() or is_code or is_row or ITEM.match(line) or line.startswith("#")):
            yield first, " ".join(gathered)
            gathered = []
        if is_row:
            for cell in line.strip().strip("|").split(" | "):
                if not re.fullmatch(r'\s*".*"\s*', cell):
                    yield number, cell
        elif line.strip() and not is_code and not line.startswith("#"):
            if not gathered:
                first = number
            gathered.append(ITEM.sub("", line, count=1).strip() if not gathered else line.strip())


def sentences(paragraph):
    gathered = []
    for word in re.sub(r"`[^`]*`", lambda code: re.sub(r"[.?!]", "_", code.group(0)), paragraph).split():
        gathered.append(word)
        if re.search(r"[.?!][)\"*_]*$", word) and not NO_END.search(word):
            yield gathered
            gathered = []
    if gathered:
        yield gathered


def long_in(path):
    for line, paragraph in paragraphs(path.read_text(encoding="utf-8")):
        for words in sentences(paragraph):
            count = sum(bool(re.search(r"\w", word)) for word in words)
            if count > MOST:
                yield line, count, " ".join(words)


def main(names):
    files = [pathlib.Path(name).resolve() for name in names] or [*sorted(ROOT.glob("*.md")), *sorted(ROOT.glob("*/*.md"))]
    total = 0
    for path in files:
        for line, count, sentence in long_in(path):
            total += 1
            print("%s:%d: %d words: %s" % (path.relative_to(ROOT) if ROOT in path.parents else path, line, count, sentence))
    print("%d sentences have more than %d words" % (total, MOST))
    return 1 if total else 0


if __name__ == "__main__":
    sys.exit(main(sys.argv[1:]))
