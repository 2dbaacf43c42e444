#!/usr/bin/env python3
"""Holds include/bolsterweft.h to docs/API.md, to the structs of the crates `host`, `host_lines`, `host_list`, `host_sheet`, `host_asked` and
`host_book`, and to what `host_c`, `host_lines_c`, `host_list_c`, `host_sheet_c`, `host_asked_c` and `host_book_c` export.

tests/header.py          compares; the last line is `N passed, M failed`
tests/header.py --wrong  moves, in copies, each member and each type of either side, and more, and shows that each is found

Compared are: the structs with the `#[repr(C)]` structs, name by name, in order, by type, and their sizes and offsets as worked out
here with the header's static asserts; the functions, parameter by parameter; the versions; the sentences of the refusals with the
table in docs/API.md; the functions, their refusals, costs and stacks with the table there.
"""
import pathlib
import re
import sys

ROOT = pathlib.Path(__file__).resolve().parent.parent
HEADER = ROOT / "include/bolsterweft.h"
API = ROOT / "docs/API.md"
CRATES = ("host", "host_lines", "host_list", "host_sheet", "host_asked", "host_book")


def sources_of(crates):
    """The text of all source files of these crates."""
    paths = sorted(path for crate in crates for path in (ROOT / "crates" / crate / "src").glob("**/*.rt"))
    return "\n".join(path.read_text() for path in paths)


# Rattle's type: C's, its size
TYPES = {
    "u32": ("uint32_t", 4),
    "i32": ("int32_t", 4),
    "i64": ("int64_t", 8),
    "usize": ("size_t", 8),
    "f32": ("float", 4),
    "f64": ("double", 8),
}
SIZES = dict(TYPES.values())


def in_c(name):
    """The C name of a Rattle struct."""
    return "bolsterweft_" + re.sub(r"(?<=[a-z0-9])(?=[A-Z])", "_", name).lower()


def without_comments(text):
    return re.sub(r"/\*.*?\*/", " ", text, flags=re.S)


# ---- the two sides, read


def rattle_structs(text):
    """Name: a list of members, each its name and its C type."""
    found = {}
    for name, body in re.findall(r"#\[repr\(C\)\]\s*(?:#\[derive\([\w, ]*\)\]\s*)?pub struct (\w+) \{(.*?)\}", text, re.S):
        members = re.findall(r"pub (\w+): (\w+),", body)
        found[in_c(name)] = [(member, TYPES.get(kind, (kind, 0))[0]) for member, kind in members]
    return found


def c_structs(text):
    found = {}
    for name, body in re.findall(r"struct (\w+) \{(.*?)\};", without_comments(text), re.S):
        found[name] = [(member, kind) for kind, member in re.findall(r"(\w+) (\w+);", body)]
    return found


def rattle_functions(text):
    """Name: what it answers, and its parameters as C declares them."""
    found = {}
    for name, given, answer in re.findall(r'pub extern "C" fn (\w+)\((.*?)\)\s*->\s*(\w+)', text, re.S):
        parameters = []
        for parameter, kind in re.findall(r"(\w+): ([^,]+)", given):
            kind = kind.strip()
            if kind in ("&[u8]", "&mut [u8]"):
                pointer = "const uint8_t *" if kind == "&[u8]" else "uint8_t *"
                parameters += [pointer + parameter, f"size_t {parameter}_length"]
            else:
                parameters.append(f"{TYPES.get(kind, (kind, 0))[0]} {parameter}")
        answered = TYPES[answer][0] if answer in TYPES else "struct " + in_c(answer)
        found[name] = (answered, parameters or ["void"])
    return found


def c_functions(text):
    found = {}
    declared = r"^((?:struct )?\w+) (bolsterweft_\w+)\(([^;{]*?)\);"
    for answer, name, given in re.findall(declared, without_comments(text), re.S | re.M):
        found[name] = (answer, [" ".join(part.split()) for part in given.split(",")])
    return found


def laid_out(members):
    """The size of a struct by the System V rules, and the offset of each member."""
    at, widest, offsets = 0, 1, {}
    for member, kind in members:
        size = SIZES.get(kind, 0)
        if not size:
            return None, {}
        at = -(-at // size) * size
        offsets[member] = at
        at += size
        widest = max(widest, size)
    return -(-at // widest) * widest, offsets


def asserted(text):
    """What the header's static asserts say: sizes by struct, and offsets by struct and member."""
    sizes = {name: int(size) for name, size in re.findall(r"^BOLSTERWEFT_SIZE\((\w+), (\d+)\);", text, re.M)}
    offsets = {(name, member): int(at) for name, member, at in re.findall(r"^BOLSTERWEFT_AT\((\w+), (\w+), (\d+)\);", text, re.M)}
    return sizes, offsets


def sentences(header):
    """Number: sentence, of bolsterweft_refusal_text; None is any other number."""
    numbers = {name: int(value) for name, value in re.findall(r"(BOLSTERWEFT_\w+) = (\d+)", header)}
    body = header[header.index("bolsterweft_refusal_text(uint32_t refusal) {") :]
    found = {}
    for case, default, text in re.findall(r'(?:case (\w+)|(default)):\s*return "([^"]*)";', body):
        found[None if default else int(case) if case.isdigit() else numbers[case]] = text
    return found


def table(api, first):
    """The rows of the table of docs/API.md whose first column has this heading."""
    rows, inside = [], False
    for line in api.splitlines():
        cells = [cell.strip() for cell in line.strip().strip("|").split("|")]
        if line.startswith("|") and cells[0] == first:
            inside = True
        elif not line.startswith("|"):
            inside = False
        elif inside and not set(cells[0]) <= {"-"}:
            rows.append(cells)
    return rows


def notes(header):
    """Function: its refusals in order and its stack, by the comment before it."""
    found = {}
    for comment, name in re.findall(r"/\*((?:(?!\*/).)*?)\*/\s*(?:struct )?\w+ (bolsterweft_\w+)\(", header, re.S):
        refusals = re.findall(r"^ \*   (\d+)  if ", comment, re.M)
        stack = re.search(r"^ \* Stack: ([\d,]+) bytes\.$", comment, re.M)
        if stack and "\n * Answers: " in comment and "\n * Refuses" in comment and "\n * Cost: " in comment:
            found[name] = (", ".join(refusals) or "none", int(stack[1].replace(",", "")))
    return found


def before(header, name):
    """The comment before a function, without its example."""
    at = re.search(r"^(?:struct )?\w+ %s\(" % name, header, re.M).start()
    return header[header.rindex("/*", 0, at) : at].split(" * Example:")[0]


def given(function):
    """The names of a function's parameters."""
    return [] if function[1] == ["void"] else [parameter.replace("*", " ").split()[-1] for parameter in function[1]]


def version_number(text):
    major, minor, patch = (int(part) for part in text.strip().split("."))
    return major * 10000 + minor * 100 + patch


# ---- compared


def compare(header, sources, exports, api, version, changelog):
    """Each comparison: its name, and whether it holds."""
    ours, theirs = c_structs(header), rattle_structs(sources)
    sizes, offsets = asserted(header)
    yield "the same structs", bool(theirs) and set(ours) == set(theirs) == set(sizes)
    for name in sorted(set(ours) | set(theirs)):
        yield f"struct {name}", ours.get(name) == theirs.get(name)
        size, places = laid_out(theirs.get(name, []))
        yield f"its size, of {name}", size is not None and sizes.get(name) == size
        yield f"its offsets, of {name}", {m: at for (n, m), at in offsets.items() if n == name} == places
    ours, theirs = c_functions(header), rattle_functions(exports)
    yield "the same functions", bool(theirs) and set(ours) == set(theirs)
    yield "the same functions in the library and in the archive", rattle_functions(sources) == theirs
    for name in sorted(set(ours) | set(theirs)):
        yield f"{name}()", ours.get(name) == theirs.get(name)
    number = re.search(r"#define BOLSTERWEFT_VERSION (\d+)", header)
    returned = re.search(r"fn bolsterweft_version\(\).*?\{\s*([\d_]+)\s*\}\s*$", sources, re.S | re.M)
    yield "the version of header and archive", bool(number and returned) and int(number[1]) == int(returned[1].replace("_", ""))
    yield "the version in the file VERSION", bool(number) and int(number[1]) == version_number(version)
    yield "the version in docs/CHANGELOG.md", f"\n## {version.strip()}: " in changelog
    rows = table(api, "refusal")
    wanted = {None if row[0] == "any other" else int(row[0]): row[-1] for row in rows}
    yield "the sentences of the refusals", len(wanted) == 14 and sentences(header) == wanted
    names = {row[0]: row[1].strip("`") for row in rows}
    enum = dict(re.findall(r"(BOLSTERWEFT_\w+) = (\d+)", header[header.index("enum bolsterweft_refusal") :]))
    yield "the names of the refusals", all(enum.get(name) == at for at, name in names.items() if at not in ("0", "any other"))
    told = notes(header)
    rows = {row[0].strip("`"): (row[1], int(row[2].replace(",", ""))) for row in table(api, "call")}
    yield "the calls in docs/API.md", set(rows) == set(ours)
    for name in sorted(ours):
        yield f"refusals and stack of {name}", name in told and told[name] == rows.get(name)
        yield f"what is said of {name}", all(re.search(r"\b%s\b" % re.escape(word), before(header, name)) for word in given(ours[name]))
        yield f"an example of {name}", f"{name}(" in " ".join(re.findall(r"Example:\n(.*?)\*/", header, re.S))


def read():
    return [HEADER.read_text(), sources_of(CRATES), sources_of(crate + "_c" for crate in CRATES), API.read_text(),
            (ROOT / "VERSION").read_text(), (ROOT / "docs/CHANGELOG.md").read_text()]


def wrong_versions(header, sources):
    """A name, and the changed header and sources."""
    for name, members in c_structs(header).items():
        body = re.search(r"struct %s \{\n(.*?)\};" % name, header, re.S)[1]
        lines = body.splitlines(keepends=True)
        for i, (member, kind) in enumerate(members):
            other = "uint32_t" if kind != "uint32_t" else "int32_t"
            yield f"{name}.{member} of another type in C", header.replace(body, body.replace(lines[i], lines[i].replace(kind, other))), sources
            yield f"{name}.{member} gone in C", header.replace(body, "".join(lines[:i] + lines[i + 1 :])), sources
            if i + 1 < len(lines):
                swapped = lines[:i] + [lines[i + 1], lines[i]] + lines[i + 2 :]
                yield f"{name}.{member} moved in C", header.replace(body, "".join(swapped)), sources
    for head, body in re.findall(r"(pub struct \w+ \{\n)(.*?)\}", sources, re.S):
        lines = body.splitlines(keepends=True)
        for i, line in enumerate(lines):
            yield f"{head.split()[2]}: {line.strip()} gone in Rattle", header, sources.replace(head + body, head + "".join(lines[:i] + lines[i + 1 :]))
            if i + 1 < len(lines):
                swapped = lines[:i] + [lines[i + 1], lines[i]] + lines[i + 2 :]
                yield f"{head.split()[2]}: {line.strip()} moved in Rattle", header, sources.replace(head + body, head + "".join(swapped))
    for at in re.findall(r"^BOLSTERWEFT_(?:AT|SIZE)\(.*\);\n", header, re.M):
        yield f"{at.strip()} gone", header.replace(at, "", 1), sources
    for case, text in re.findall(r'(case \w+|default):\s*return "([^"]*)"', header):
        yield f"the sentence of {case}", header.replace(f'return "{text}"', 'return "No."'), sources
    yield "the version", header.replace("BOLSTERWEFT_VERSION 1", "BOLSTERWEFT_VERSION 2"), sources


def main():
    texts = read()
    if sys.argv[1:] == ["--wrong"]:
        found = []
        for name, header, sources in wrong_versions(*texts[:2]):
            caught = (header, sources) != tuple(texts[:2]) and not all(holds for _, holds in compare(header, sources, *texts[2:]))
            found.append(caught)
            if not caught:
                print(f"header: not found: {name}")
    else:
        found = []
        for name, holds in compare(*texts):
            found.append(holds)
            if not holds:
                print(f"header: {name}: the two sides differ")
    print(f"{found.count(True)} passed, {found.count(False)} failed")
    return 0 if found and all(found) else 1


sys.exit(main())
