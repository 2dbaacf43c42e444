#!/usr/bin/env python3
"""How much stack each call for C takes at the deepest, and which functions of the C library it reaches, by the machine code of the archive:
outside the gate, needs objdump.

tests/stack.py ARCHIVE          a line for each call: its name, its bytes, return addresses included, and the foreign functions
tests/stack.py ARCHIVE --write  puts them into include/bolsterweft.h and docs/API.md, rounded up to a multiple of 64

Each function's instructions are followed along all their branches, with the depth of the stack at each; a call adds what the called
function takes. A function of the C library counts as a return address and nothing more. The function for a JSON value calls itself for the
values in it, and is followed as often as values may nest. What it cannot follow (a call by a register, another recursion, another change
of the stack pointer) ends it.
"""
import pathlib
import re
import subprocess
import sys

ROOT = pathlib.Path(__file__).resolve().parent.parent
FOREIGN = ("memcpy", "memset")
# values nest 16 deep, and a call for one that is deeper answers at once
NESTED, NESTED_MOST = "jsontext::value", 17
# what a function that calls none uses below its stack pointer
BELOW = re.compile(r"(?<![\w(])-(0x[0-9a-f]+)\(%rsp")
LINE = re.compile(r"^\s+([0-9a-f]+):\t\s*(\S+)\s*(.*)$")
RELOCATION = re.compile(r"^\s+[0-9a-f]+: R_X86_64_(?:PLT32|PC32)\s+(.+?)(?:[-+]0x[0-9a-f]+)?$")


def objects(archive):
    """Of each object, name: its instructions, each its address, its words, and the function that a relocation names. Two objects may have
    functions of the same name that are not the same, so a call is looked for in its own object."""
    done = subprocess.run(["objdump", "-dr", "--no-show-raw-insn", archive], stdout=subprocess.PIPE, text=True, check=True)
    found, name = [], None
    for line in done.stdout.splitlines():
        if re.match(r"^\S.*:\s+file format ", line):
            found.append({})
        head = re.match(r"^[0-9a-f]+ <(.*)>:$", line)
        if head:
            name = head[1]
            found[-1][name] = []
        elif name and (told := RELOCATION.match(line)):
            found[-1][name][-1][3] = told[1]
        elif name and (told := LINE.match(line)):
            found[-1][name].append([int(told[1], 16), told[2], told[3].split("#")[0].strip(), None])
    return found


class Stack:
    def __init__(self, code):
        self.code = code
        self.known = {}
        self.open = []

    def of(self, name, left=NESTED_MOST):
        """What a function takes, with its return address, if a value may be nested so many deep in it."""
        name = name.removeprefix(".text.")
        if name in FOREIGN:
            return 8
        if name not in self.code:
            sys.exit(f"stack: there is no {name}")
        if name == NESTED:
            left -= 1
        if left < 0:
            return 0
        if (name, left) in self.open:
            sys.exit(f"stack: a recursion: {self.open}")
        if (name, left) not in self.known:
            self.open.append((name, left))
            self.known[name, left] = 8 + self.body(name, left)
            self.open.pop()
        return self.known[name, left]

    def foreign(self, name, seen=None):
        """The functions of the C library that a function reaches."""
        seen = set() if seen is None else seen
        for *_, target in self.code.get(name, []):
            called = (target or name).removeprefix(".text.")
            if called in FOREIGN or called in self.code and called not in seen:
                seen.add(called)
                self.foreign(called, seen)
        return sorted(seen & set(FOREIGN))

    def body(self, name, left):
        code = self.code[name]
        place = {address: i for i, (address, *_) in enumerate(code)}
        depths, most, todo = {}, 0, [(0, 0, None)]
        while todo:
            i, depth, base = todo.pop()
            if i >= len(code) or depths.get(i, -1) >= depth:
                continue
            depths[i] = depth
            _, word, rest, target = code[i]
            depth, base = self.moved(name, word, rest, depth, base)
            most = max([most, depth, *(depth + int(below, 16) for below in BELOW.findall(rest))])
            if word.startswith("call"):
                if not target and "*" in rest:
                    sys.exit(f"stack: {name} calls by a register")
                most = max(most, depth + self.of(target or name, left))
            elif word.startswith("j"):
                to = re.match(r"^([0-9a-f]+)", rest)
                if target and word == "jmp" and "*" not in rest:
                    most = max(most, depth - 8 + self.of(target, left))
                elif "*" in rest:
                    # a table of places in this function: all of it is followed
                    todo += [(k, depth, base) for k in range(len(code)) if k not in depths]
                elif to and int(to[1], 16) in place:
                    todo.append((place[int(to[1], 16)], depth, base))
            if word not in ("jmp", "ret", "retq", "ud2"):
                todo.append((i + 1, depth, base))
        return most

    def moved(self, name, word, rest, depth, base):
        """The depth behind an instruction, and that of %rbp if it is a frame's."""
        if word.startswith("push"):
            return depth + 8, base
        if word.startswith("pop"):
            return depth - 8, base
        if rest == "%rsp,%rbp":
            return depth, depth
        changed = re.match(r"^\$(-?0x[0-9a-f]+),%rsp$", rest)
        if changed and word in ("sub", "subq", "add", "addq"):
            by = int(changed[1], 16)
            by = by - (1 << 64) if by >= 1 << 63 else by
            return depth + (by if word.startswith("sub") else -by), base
        if changed and word in ("and", "andq"):
            return depth + (1 << 64) - int(changed[1], 16) - 8, base
        restored = re.match(r"^-(0x[0-9a-f]+)\(%rbp\),%rsp$", rest)
        if restored and base is not None:
            return base + int(restored[1], 16), base
        if rest.endswith(",%rsp"):
            sys.exit(f"stack: {name}: {word} {rest}")
        return depth, base


def write(found):
    header, api = ROOT / "include/bolsterweft.h", ROOT / "docs/API.md"
    text, page = header.read_text(), api.read_text()
    for name, (taken, foreign) in found.items():
        taken = -(-taken // 64) * 64
        needs = ", ".join(f"`{other}`" for other in foreign) or "none"
        page = re.sub(r"(\| `%s` \| [^|]* \| )[\d,]+( \|[^|]*\|)[^|]*\|" % name, lambda m: f"{m[1]}{taken:,}{m[2]} {needs} |", page)
        at = re.search(r"^(?:struct )?\w+ %s\(" % name, text, re.M).start()
        before = re.sub(r"(.*Stack:[\s*]+)[\d,]+", lambda m: f"{m[1]}{taken:,}", text[:at], flags=re.S)
        text = before + text[at:]
    header.write_text(text)
    api.write_text(page)


def main():
    found = {}
    for stack in map(Stack, objects(sys.argv[1])):
        found |= {name: (stack.of(name), stack.foreign(name)) for name in stack.code if name.startswith("bolsterweft_")}
    for name, (taken, foreign) in sorted(found.items()):
        print(name, taken, *foreign)
    if "--write" in sys.argv:
        write(found)


main()
