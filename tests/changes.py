"""The wrong answers in must-fail/*.edit: changes of code, or of a definition, that the prover must refuse.

`rt` tries an edit by one check of its whole crate, with all its changes made. So an edit has many: a line `wrong: NAME` begins each, and no
two of one edit stand in the same function, so that the prover says of each by itself that it is wrong. An edit without such a line is one
change, and has its name.
"""
import re
from typing import NamedTuple

from functions import ROOT, functions_in


class Change(NamedTuple):
    """What is wrong, and in which crate; the file, and each text that stands there once with what is put for it."""

    name: str
    crate: str
    file: str
    pairs: tuple

    def path(self):
        return ROOT / "crates" / self.crate / self.file

    def of_code(self):
        return self.file.startswith("src/")


def changes_in(path):
    """The changes of an edit, in order."""
    crate, found = path.parent.parent.name, []
    name, file, old = path.stem, None, None
    for line in path.read_text(encoding="utf-8").splitlines():
        word, _, rest = line.partition(":")
        rest = rest.removeprefix(" ")
        if word == "wrong":
            name = rest
        elif word == "file":
            file = rest
        elif word == "old":
            old = rest
        elif word == "new" and found and found[-1].name == name:
            found[-1] = found[-1]._replace(pairs=(*found[-1].pairs, (old, rest)))
        elif word == "new":
            found.append(Change(name, crate, file, ((old, rest),)))
    return found


def edits_of(crate):
    return sorted((ROOT / "crates" / crate / "must-fail").glob("*.edit"))


def crates_with_edits():
    return sorted({path.parent.parent.name for path in (ROOT / "crates").glob("*/must-fail/*.edit")})


def made(change, text):
    """A file's text with a change made."""
    for old, new in change.pairs:
        if text.count(old) != 1:
            raise SystemExit("%s/%s: what it replaces does not stand in %s once" % (change.crate, change.name, change.file))
        text = text.replace(old, new)
    return text


def stands_in(change, beside=()):
    """The functions in which a change of code stands: those whose lines it changes, or that name the constant that it changes, with the
    changes beside it made or without."""
    before = after = change.path().read_text(encoding="utf-8")
    for other in beside:
        after = made(other, after) if other != change and other.path() == change.path() else after
    functions = list(functions_in(change.crate, change.path()))
    found = set()
    for old, _ in change.pairs:
        number = before[: before.index(old)].count("\n")
        inside = [f.name for f in functions if f.first <= number <= f.last]
        found.update(inside or naming(before.splitlines(), number, functions) + naming(after.splitlines(), number, functions))
    return found


def naming(lines, number, functions):
    """The functions that name a constant: of the same type if the constant is a type's."""
    indent, name = re.match(r"( *)(?:pub(?:\(crate\))? )?const (\w+)", lines[number]).groups()
    ends = next((n for n in range(number, len(lines)) if lines[n] == "}"), len(lines)) if indent else len(lines)
    begins = max((n for n in range(number) if lines[n].startswith("impl ")), default=0) if indent else 0
    word = re.compile((r"Self::%s\b" if indent else r"\b%s\b") % name)
    return [f.name for f in functions if begins <= f.first and f.last <= ends and any(map(word.search, lines[f.first : f.last + 1]))]
