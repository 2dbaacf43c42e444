#!/usr/bin/env python3
"""The program `verdicts`, run: what it prints is held byte for byte to faults.py.

tests/verdicts.py [N]   proves and builds the program if that has not been done, runs it on N captures of each kind, 60 if N is not
                        given, whole and at places, and compares. Half of the captures are fixed and half new; the seed is printed.

The last line is `N passed, M failed`: a test is a sort of input, over all its cases.
"""
import random
import re
import sys

sys.dont_write_bytecode = True  # or Python leaves a folder beside those that are imported

import examples
import faults
import listing
import paper
import proved

# the longest capture that is read
FULL = 65534
MARKS = {1: b"$", 2: b"\xd5\xaa\x96", 3: b"\xd5\xd5\xaa\x96", 4: b"\xc0", 5: b"<;"}

# ---- captures


def good(kind, pick):
    """A frame of a kind."""
    data = pick.randbytes(pick.choice((0, 1, 2, 4, 9)))
    if kind == 1:
        digits = (data or b"\x11").hex().upper().encode()
        return pick.choice((paper.link(digits), paper.link(digits), b"#N%06X\r" % pick.randrange(1 << 24), b"#E1\r"))
    if kind in (2, 3):
        return paper.nest(kind, pick.randrange(1 << 16), data)
    if kind == 4:
        return paper.nibe(pick.choice(paper.COMMANDS), data)
    command, type_ = pick.choice((b"HB", b"O.3", b"UD")), pick.choice((b"s", b"a"))
    return paper.homiq(b"%s;%d;0H;%d;%d;%s" % (command, pick.randrange(99), pick.randrange(9), pick.randrange(512), type_))


def damaged(frame, pick):
    """A frame with one change."""
    at = pick.randrange(len(frame))
    return pick.choice(
        (
            frame[:at],
            frame[:at] + frame[at + 1 :],
            frame[:at] + pick.randbytes(1) + frame[at:],
            frame[:at] + bytes([frame[at] ^ 1 << pick.randrange(8)]) + frame[at + 1 :],
            frame[:at] + pick.choice((b"0", b"F", b"f", b";", b"\r", b"$", b"#", b"\xc0", b"\xd5")) + frame[at + 1 :],
        )
    )


def capture(kind, pick):
    parts = []
    for _ in range(pick.randrange(1, 12)):
        frame = good(kind, pick)
        parts.append(pick.choice((frame, damaged(frame, pick), damaged(frame, pick), pick.randbytes(pick.randrange(5)))))
    return b"".join(parts)


# ---- the program


def expected(kind, given, place):
    if place > len(given):
        return b"refused 3\n"
    return faults.said(kind, given, place).encode() + b"\nend\n"


def cases(count, pick):
    """A test's name, the head, the capture, and what must be written."""
    for kind in paper.KINDS:
        yield "empty", "%d" % kind, b"", b"end\n"
        yield "empty, at its end", "%d 0" % kind, b"", expected(kind, b"", 0)
        yield "beyond its end", "%d 1" % kind, b"", b"refused 3\n"
        for far in (1 << 16, (1 << 32) - 1, 1 << 32, 10**25):
            yield "far beyond its end", "%d %d" % (kind, far), b"x", b"refused 3\n"
        yield "the longest", "%d" % kind, bytes(FULL), b"end\n"
        yield "too long", "%d" % kind, bytes(FULL + 1), b"refused 5\n"
        marks = (MARKS[kind] * FULL)[:4096]
        yield "marks alone", "%d" % kind, marks, faults.through(kind, marks) + b"end\n"
        for _ in range(count):
            given = capture(kind, pick)
            yield "whole", "%d" % kind, given, faults.through(kind, given) + b"end\n"
            for place in (0, len(given), len(given) + 1, pick.randrange(len(given) + 1)):
                yield "at a place", "%d %d" % (kind, place), given, expected(kind, given, place)


def fixed():
    """The same, of the examples and of what is no kind."""
    for kind, pieces in [*((kind, pieces) for kind, (_, _, pieces) in enumerate(examples.CAPTURES, 1)), (1, examples.FAULTS)]:
        given = b"".join(data for data, _, _ in pieces)
        yield "examples", "%d" % kind, given, faults.through(kind, given) + b"end\n"
        for place in range(len(given) + 1):
            yield "examples, at a place", "%d %d" % (kind, place), given, expected(kind, given, place)
    for kind in (0, 6, 9):
        yield "no such kind", "%d 0" % kind, b"x", b"refused 2\n"
        yield "no such kind", "%d" % kind, b"x", b"refused 2\n"
    for head in ("", "x", " "):
        yield "no kind at all", head, b"x", b"refused 2\n"


# the tests that a frame of a kind can fail
VERDICTS = {
    1: {"none", "start", "length", "fields", "first check", "second check"},
    2: {"none", "start", "length", "first check"},
    3: {"none", "start", "length", "first check"},
    4: {"none", "start", "length", "fields", "first check"},
    5: {"none", "start", "fields", "first check"},
}
VERDICT = re.compile(rb"^(?:\d+: )?([a-z ]+): ", re.M)


def main(arguments):
    count = int(arguments[0]) if arguments else 60
    seed = random.randrange(1 << 32)
    print("seed %d" % seed)
    asked = [*cases(count, random.Random(1)), *cases(count, random.Random(seed)), *fixed()]
    inputs = [listing.Case(test, head.encode() + b"\n" + given) for test, head, given, _ in asked]
    written = [out + err for out, err in listing.run(inputs, str(proved.program("verdicts")))]
    seen = {str(kind): set() for kind in VERDICTS}
    holds = {}
    for (test, head, given, must), does in zip(asked, written):
        if does != must and holds.get(test, True):
            print("%s: %s\n%s" % (test, head, listing.first_difference(must, does)))
            print("  again: the program on " + listing.kept(test, listing.Case(test, head.encode() + b"\n" + given)))
        holds[test] = holds.get(test, True) and does == must
        if does == must:
            seen.get(head[:1], set()).update(word.decode() for word in VERDICT.findall(does))
    for kind, verdicts in VERDICTS.items():
        holds["kind %d: every verdict is seen" % kind] = seen[str(kind)] == verdicts
    for test, held in holds.items():
        if not held:
            print("does not hold: " + test)
    failed = sum(not held for held in holds.values())
    print("%d answers" % len(asked))
    print("%d passed, %d failed" % (len(holds) - failed, failed))
    return 1 if failed else 0


if __name__ == "__main__":
    sys.exit(main(sys.argv[1:]))
