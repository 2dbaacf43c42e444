#!/usr/bin/env python3
"""Takes the examples out of include/bolsterweft.h and docs/API.md, for c/check to build and run.

c/examples.py FOLDER: writes FOLDER/header.c, a program that runs the header's example of the number that it is given, and of each its
output, FOLDER/header.N; and each worked example of docs/API.md, FOLDER/api-N.c with its output FOLDER/api-N.
"""
import pathlib
import re
import sys

ROOT = pathlib.Path(__file__).resolve().parent.parent

BEFORE = r"""
#include "../../include/bolsterweft.h"
#include <stdio.h>
#include <stdlib.h>

static const uint8_t capture[] = {0xC0, 0x69, 0xC0, 0x69, 0x02, 0x64, 0x00, 0x66};
static const uint8_t nibe[] = {0xC0, 0x69, 0x02, 0x64, 0x00, 0x66};
static const uint8_t homiq[] = {'<', ';', 'I', '.', '3', ';', '1', ';', '0', 'H', ';', '0', ';', '4', '2', ';', 's', ';', '1', '3', '4', ';', '>', '\r', '\n'};
static const uint8_t book[] = {2, 9, 0, 0xD5, 0xAA, 0x96, 0xFF, 0, 0, 0, 0xA3, 0x4B, 0, 0, 0, 0, 1, 0, 10, 0, 0, 0};
static uint8_t room[BOLSTERWEFT_LINE_ROOM];
static uint8_t map[BOLSTERWEFT_MAP_ROOM];

"""


def header_examples(text):
    """Each example's lines of code, without the comment, and what it prints."""
    for block in re.findall(r" \* Example:\n \*\n((?: \*     .*\n)+)", text):
        lines = [line[3:] for line in block.splitlines()]
        code, printed = lines[-1].split(" // ")
        yield lines[:-1] + [code], printed


def api_examples(text):
    """Each program in a block of C, and what the block behind it says that it prints."""
    return re.findall(r"```c\n(.*?)```\n.*?```text\n(.*?)```", text, re.S)


def main():
    folder = pathlib.Path(sys.argv[1])
    examples = list(header_examples((ROOT / "include/bolsterweft.h").read_text()))
    source = BEFORE
    for number, (lines, printed) in enumerate(examples):
        if len(lines) != 3:
            sys.exit(f"examples: not three lines: {lines}")
        source += f"static void example_{number}(void) {{\n" + "\n".join(lines) + "\n}\n\n"
        (folder / f"header.{number}").write_text(printed + "\n")
    source += "int main(int count, char **words) {\n    switch (count > 1 ? strtoul(words[1], NULL, 10) : 0) {\n"
    for number in range(len(examples)):
        source += f"    case {number}:\n        example_{number}();\n        break;\n"
    source += "    default:\n        return 2;\n    }\n    return fflush(stdout) ? 1 : 0;\n}\n"
    (folder / "header.c").write_text(source)
    for number, (program, printed) in enumerate(api_examples((ROOT / "docs/API.md").read_text())):
        (folder / f"api-{number}.c").write_text(program.replace("<bolsterweft.h>", '"../../include/bolsterweft.h"'))
        (folder / f"api-{number}").write_text(printed)
    print(len(examples))


main()
