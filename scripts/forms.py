#!/usr/bin/env python3
"""Counts the places in crates/*/src of which docs/DESIGN-PASS.md speaks, by the forms that show them.

scripts/forms.py [-v] [TOP]: a line for each form, with its point and how many places there are; -v lists the places.
"""
import pathlib
import re
import sys

ENUM = re.compile(r"enum (\w+)(?:<[^>]*>)? \{\n(.*?)\n\}", re.S)
STRUCT = re.compile(r"struct (\w+)(?:<[^>]*>)? \{\n(.*?)\n\}", re.S)
FUNCTION = re.compile(r"^(?:pub(?:\(crate\))? )?fn (\w+)(?:<[^>]*>)?\((.*?)\)(?: -> ([^\n{]+))?\n(.*?)^}$", re.S | re.M)
NONE_BY_NUMBER = re.compile(r"return (?:0|most|s\.len\(\));|^    (?:0|6|most)$", re.M)
LOOP = re.compile(r"^\s*while ", re.M)
WRITER = re.compile(r"room: &mut \[u8\], at: usize", re.S)
BUFFER = re.compile(r"(\w+): \[u8; [\w:]+\],\n\s*(?:pub )?(\w+): usize")
TABLE = re.compile(r"match (kind|known|direction)\b")
DERIVED = re.compile(r"#\[derive\(Clone, Copy\)\]")


def variants(body):
    """The variants of an enum, each with whether it holds anything."""
    flat = re.sub(r"//[^\n]*", "", body)
    depth, item, found = 0, "", []
    for c in flat + ",":
        depth += c in "({["
        depth -= c in ")}]"
        if c == "," and depth == 0:
            if item.strip():
                found.append((re.match(r"\s*(\w+)", item)[1], bool(re.search(r"[({]", item))))
            item = ""
        else:
            item += c
    return found


def places(path, text):
    """Of each place in a source its form and its name."""
    for name, body in ENUM.findall(text):
        here = variants(body)
        if re.search(r"\bRefused\(Refusal\)", body):
            yield "1 an enum of the shape of Result", name
        elif len(here) == 2 and sorted(full for _, full in here) == [False, True]:
            yield "1 an enum of the shape of Option", name
        elif any(n in ("None", "Nothing", "Passed", "Unknown") and not full for n, full in here) and len(here) > 2:
            yield "1 an enum with a case for nothing", name
    for name, body in STRUCT.findall(text):
        if re.search(r"\b(state|test|failed|end|bytes): (u8|usize|Test)\b", body) and "repr(C)" not in text:
            yield "1 a flag beside values", name
        for a, b in BUFFER.findall(body):
            yield "6 a buffer with a length beside it", f"{name}.{a}"
    for name, parameters, result, body in FUNCTION.findall(text):
        if result and re.match(r"(u8|u16|u32|usize)\b", result) and NONE_BY_NUMBER.search(body):
            yield "1 a number that stands for none", name
        if result and re.match(r"u8\b", result) and re.search(r"\b(row|number|kind|reason|state|worse|test)\b|_number$", name):
            yield "1 a number for a kind, a row or a state", name
        if WRITER.search(parameters):
            yield "5 a room and a place in it, side by side", name
        if re.search(r"digits: &mut \[u8", parameters):
            yield "5 a buffer for digits handed down", name
    for found in LOOP.finditer(text):
        yield "3 a loop by `while`", str(text.count("\n", 0, found.start()) + 1)
    for _ in DERIVED.finditer(text):
        yield "4 a type that derives neither equality nor Debug", ""
    for found in TABLE.finditer(text):
        yield "7 a match that picks a bus's function", found[1]


def main():
    loud = "-v" in sys.argv
    rest = [a for a in sys.argv[1:] if a != "-v"]
    top = pathlib.Path(rest[0] if rest else pathlib.Path(__file__).resolve().parent.parent)
    counts = {}
    for path in sorted(top.glob("crates/*/src/**/*.rt")):
        for form, name in places(path, path.read_text()):
            counts.setdefault(form, []).append(f"{path.relative_to(top / 'crates')}: {name}")
    for form in sorted(counts):
        print(f"{len(counts[form]):5} {form}")
        if loud:
            for place in counts[form]:
                print(f"        {place}")


main()
