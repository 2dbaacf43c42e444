"""The functions of the crates' code, read off files as `rt fmt` lays them out."""
import pathlib
import re
from typing import NamedTuple

ROOT = pathlib.Path(__file__).resolve().parent.parent
# They repeat promises of other crates, one call each, for programs and tests in C to call: what is shown of those functions is shown of
# their own.
REPEATS = {"probe", "host_c", "host_lines_c", "host_list_c", "host_sheet_c", "host_asked_c", "host_book_c"}


class Function(NamedTuple):
    """A function as the prover names it, whether it is public, its first and last line in its file, and the name of the cycle of calls
    that it is in."""

    name: str
    public: bool
    first: int
    last: int
    cycle: str


def functions_in(crate, path, root=ROOT):
    """The functions of a file: one ends at the first brace that stands as far left as it begins. (Those of a trait for a type have the names
    of both before them.)"""
    parts = path.relative_to(root / "crates" / crate / "src").with_suffix("").parts
    module = [crate, *(part for part in parts if part not in ("lib", "main"))]
    kind, begun, cycle = [], None, ""
    for number, line in enumerate(path.read_text(encoding="utf-8").splitlines()):
        inside = re.match(r"impl(?:<[^>]*>)? (?:(\w+)(?:<(\w+)>)? for )?(\w+)", line)
        found = re.match(r'( *)(pub(?:\(crate\))? )?(?:extern "C" )?fn (\w+)', line)
        named = re.match(r" *#\[cycle\((\w+)\)\]", line)
        if inside:
            trait, argument, name = inside.groups(default="")
            kind = [name + trait + argument]
        elif named:
            cycle = named.group(1)
        elif found:
            begun = (found, number, cycle)
            cycle = ""
        elif begun and line == begun[0].group(1) + "}":
            indent, visible, name = begun[0].groups()
            yield Function("::".join([*module, *(kind if indent else []), name]), visible == "pub ", begun[1], number, begun[2])
            begun = None


def all_functions(crate, root=ROOT):
    """The functions of a crate."""
    for path in sorted((root / "crates" / crate / "src").rglob("*.rt")):
        yield from functions_in(crate, path, root)


def proved_in(crate, place, root=ROOT):
    """The functions whose proof stands in a folder of `proofs`: one, or all those of a cycle of calls, whose name has a `+` before it."""
    *module, last = place.split("/")
    if last.startswith("+"):
        return [function.name for function in all_functions(crate, root) if function.cycle == last[1:]]
    return ["::".join([crate, *module, last])]


def called_by_each_other(crate, root=ROOT):
    """The sets of a crate's functions that call each other, and so have one proof."""
    found = {}
    for function in all_functions(crate, root):
        if function.cycle:
            found.setdefault(function.cycle, set()).add(function.name)
    return list(found.values())


def libraries(root=ROOT):
    """The crates that are libraries."""
    return sorted(path.parent.parent.name for path in (root / "crates").glob("*/src/lib.rt"))


def public_functions(crate):
    """The names of a crate's public functions."""
    yield from (function.name for function in all_functions(crate) if function.public)
