#!/usr/bin/env python3
"""Holds the archive for C to what is said of it, by its own tables: it exports the functions of include/bolsterweft.h and nothing else,
needs `memcpy` and nothing else (but `memset` for three calls), and has no byte that could be written: no state.

tests/archive.py ARCHIVE: the last line is `N passed, M failed`.
"""
import pathlib
import re
import struct
import sys

ROOT = pathlib.Path(__file__).resolve().parent.parent
FOREIGN = {"memcpy"}
# `bolsterweft_encode` puts the content of a message together in cleared memory of its own: a refused call may not alter the lent room. The
# listing of a book notes the places of its payloads in memory that begins with zeros.
CLEARS, TO_CLEAR = {"bolsterweft_encode", "bolsterweft_book_list"}, {"memset"}
WRITABLE, SYMBOLS, LOCAL = 1, 2, 0


def objects(archive):
    """The object files of an archive."""
    at = 8
    while at < len(archive):
        size = int(archive[at + 48 : at + 58])
        content = archive[at + 60 : at + 60 + size]
        if content[:4] == b"\x7fELF":
            yield content
        at += 60 + size + size % 2


def sections(code):
    """Of each section its name's place, type, flags, offset, size and link."""
    table, entry, count, names = *struct.unpack_from("<Q", code, 40), *struct.unpack_from("<HH", code, 58), struct.unpack_from("<H", code, 62)[0]
    for i in range(count):
        name, kind, flags, _, offset, size, link = struct.unpack_from("<IIQQQQI", code, table + i * entry)
        yield name, kind, flags, offset, size, link


def symbols(code):
    """Of each symbol that is not local its name, and whether it is defined."""
    all_sections = list(sections(code))
    for _, kind, _, offset, size, link in all_sections:
        if kind != SYMBOLS:
            continue
        names = all_sections[link][3]
        for at in range(offset, offset + size, 24):
            name, info, _, section = struct.unpack_from("<IBBH", code, at)
            text = code[names + name : code.index(b"\0", names + name)].decode()
            if info >> 4 != LOCAL and text:
                yield text, section != 0


def exported(code):
    """The names that an object defines."""
    return {name for name, here in symbols(code) if here}


def main():
    found = list(objects(pathlib.Path(sys.argv[1]).read_bytes()))
    defined = {name for code in found for name in exported(code)}
    needed = {name for code in found if not CLEARS & exported(code) for name, here in symbols(code) if not here} - defined
    to_clear = [{name for name, here in symbols(code) if not here} - defined for code in found if CLEARS & exported(code)]
    writable = sum(size for code in found for _, _, flags, _, size, _ in sections(code) if flags & WRITABLE)
    header = re.sub(r"/\*.*?\*/", " ", (ROOT / "include/bolsterweft.h").read_text(), flags=re.S)
    declared = set(re.findall(r"^(?:struct )?\w+ (bolsterweft_\w+)\([^;{]*\);", header, re.M))
    tests = [
        ("it exports the functions of the header", bool(declared) and defined == declared, defined ^ declared),
        ("it needs memcpy", needed == FOREIGN, needed),
        ("its object that encodes and the one that lists a book need memset, too", to_clear == 2 * [FOREIGN | TO_CLEAR], to_clear),
        ("it has no state", bool(found) and writable == 0, writable),
    ]
    for name, holds, seen in tests:
        if not holds:
            print(f"archive: {name}: does not hold: {seen}")
    right = sum(holds for _, holds, _ in tests)
    print(f"{right} passed, {len(tests) - right} failed")
    return 0 if right == len(tests) else 1


sys.exit(main())
