#!/usr/bin/env python3
"""How much flash it takes: the bytes of code and of constants

- of a program in C that calls the search and the number text alone (bench/smallest.c), linked with --gc-sections
- of the whole archive for C
- of the program `listing`

scripts/sizes.py             of this repository
scripts/sizes.py FOLDER..    of each of these: the same program in C, over the crates there

What is measured is what was proved; what has not been proved there is proved first. What the C library adds is not counted.
"""
import pathlib
import struct
import subprocess
import sys
import tempfile

ROOT = pathlib.Path(__file__).resolve().parent.parent
CODE, BITS, WRITABLE, LOADED = 4, 1, 1, 2


def shell(folder, command, *words):
    """Runs a line of bash in a repository, with the kit's tools (scripts/x86-64.sh) and these words."""
    line = "set -euo pipefail; . scripts/x86-64.sh; " + command
    return subprocess.run(["bash", "-c", line, "sizes", *map(str, words)], cwd=folder, check=True, stdout=subprocess.PIPE, text=True).stdout


def objects(archive):
    """The object files of an archive."""
    at = 8
    while at < len(archive):
        size = int(archive[at + 48 : at + 58])
        content = archive[at + 60 : at + 60 + size]
        if content[:4] == b"\x7fELF":
            yield content
        at += 60 + size + size % 2


def sections(code):
    """Of each section its name, type, flags and size."""
    table, entry, count, names = struct.unpack_from("<Q", code, 40)[0], *struct.unpack_from("<HHH", code, 58)
    found = [struct.unpack_from("<IIQQQQ", code, table + i * entry) for i in range(count)]
    texts = found[names][4]
    for name, kind, flags, _, _, size in found:
        yield code[texts + name : code.index(b"\0", texts + name)].decode(), kind, flags, size


def code_and_constants(*files):
    """The bytes of the instructions, and of the constants, in these object files or programs."""
    code = constants = 0
    for name, kind, flags, size in (section for file in files for section in sections(file)):
        if kind == BITS and flags & LOADED and not flags & WRITABLE:
            if flags & CODE:
                code += size
            elif name.startswith(".rodata"):
                constants += size
    return code, constants


def measured(folder, room):
    """What is measured of a repository, each with its code and constants."""
    found = shell(folder, 'lock "$root"; archives "${library[@]}"; printf "%s\\n" "${archives[@]}"').splitlines()
    archives = [pathlib.Path(archive) for archive in found]
    shell(folder, "bin/prove list")
    shell(
        ROOT,
        '"$tools/clang" --target=x86_64-linux-gnu -std=c11 -O3 -ffreestanding -isystem scripts/headers -Wall -Wextra -Werror -c bench/smallest.c -o "$1.o"'
        ' && "$tools/ld.lld" --gc-sections --unresolved-symbols=ignore-all -e smallest -o "$1" "$1.o" "${@:2}"',
        room / "smallest",
        *archives,
    )
    yield "search and number text alone", code_and_constants((room / "smallest").read_bytes())
    yield "the archive for C", code_and_constants(*[file for archive in archives for file in objects(archive.read_bytes())])
    yield "the program `listing`", code_and_constants((folder / "target/bin/listing").read_bytes())


def main(words):
    for folder in words or [ROOT]:
        print("%s:\n%-30s %8s %10s %8s" % (folder, "", "code", "constants", "both"))
        with tempfile.TemporaryDirectory() as room:
            for what, (code, constants) in measured(pathlib.Path(folder).resolve(), pathlib.Path(room)):
                print("%-30s %8d %10d %8d" % (what, code, constants, code + constants))


if __name__ == "__main__":
    main(sys.argv[1:])
