#!/usr/bin/env python3
"""The program `listing`, run: what it prints is held byte for byte to lines.py, and each of its lines is read by Python's own JSON
reader, from which the frame's bytes must come back.

tests/listing.py [SEED]       proves and builds the program if that has not been done, runs it on all cases and compares; with no
                              seed, a fixed one and a new one, which is printed
tests/listing.py --case FILE  runs it on one input, as a failing test left it, with FILE.sheet as `sheet.txt` if that is there, and shows
                              the first line that differs

BOLSTERWEFT_LISTING names another program to be held to the same. The last line is `N passed, M failed`: a test is a sort of input or
a sort of line, over all its cases.
"""
import binascii
import functools
import itertools
import json
import operator
import os
import random
import re
import shutil
import struct
import subprocess
import sys
import tempfile
from decimal import Decimal
from typing import NamedTuple, Optional

sys.dont_write_bytecode = True  # or Python leaves a folder beside those that are imported

import examples
import lines
import paper
import proved
import rows
import sheet
import table

ROOT = os.path.realpath(os.path.join(os.path.dirname(os.path.abspath(__file__)), ".."))
FAILED = os.path.join(ROOT, "target", "listing-failed")
KINDS = (1, 2, 3, 4, 5)
# with the two bytes before it, the longest capture that is listed
FULL = lines.MOST - 2


class Case(NamedTuple):
    test: str
    given: bytes
    slow: bool = False  # through a pipe, in pieces
    stored: Optional[bytes] = None  # what a file says that it prints
    sheet: Optional[bytes] = None  # what is in sheet.txt; none if there is no such file


def divided(name, message):
    return paper.remainder(message, *paper.CHECKS[name])


@functools.lru_cache(maxsize=None)
def quick(name, message):
    """A check value. Divisions of polynomials over captures of 64 KiB would take minutes, so the long ones are Python's own."""
    if name == "nest crc":
        return binascii.crc_hqx(message, 0)
    if name == "nikobus crc16":
        return binascii.crc_hqx(message, 0xFFFF)
    return functools.reduce(operator.xor, message, 0) if name == "nibe xor" else divided(name, message)


paper.value = quick


def captured(kind, *parts):
    """The program's input for a capture."""
    return b"%d\n" % kind + b"".join(parts)


# ---- how an input begins, and how long it is


def start_cases():
    for given in (b"", b"1", b"\n", b"12", b"6\n", b"0\n", b"1\r\n", b"1\r", b" 1\n", b"1 \n", b"\n1\n", b"11\n", b"01\n", b"-1\n", b"1"):
        yield Case("start", given)
        yield Case("start", given + paper.LINK_B)
    for kind in KINDS:
        yield Case("nothing captured", captured(kind))
    for b in b"\x00\x01\x05\x0a./0123456789:@AQ\x80\xb1\xff":
        yield Case("first byte", bytes([b, 0x0A]) + paper.TAILED)
    for b in b"\x00\x09\x0a\x0b\x0c\x0d 0#J\x85\x8a\xff":
        yield Case("second byte", bytes([0x31, b]) + paper.TAILED)


def size_cases():
    """A listing of the longest input and of one byte less, the refusal of one byte more, and which refusal goes first."""
    for kind, frame in ((1, paper.TAILED), (2, paper.RESET), (3, paper.REPLY), (4, paper.ASK), (5, paper.HOMIQ_G)):
        for size in (FULL - 1, FULL, FULL + 1, FULL + 2, 2 * FULL):
            test = "input of %d bytes" % (size + 2)
            many = (frame * (size // len(frame) + 1))[:size]
            yield Case(test, captured(kind, many))
            yield Case(test, captured(kind, many[: -len(frame)], frame))
            yield Case(test, captured(kind, bytes(size - len(frame)), frame))
            yield Case(test + ", bad start", b"%d\n" % (kind + 5) + many if kind % 2 else b"%d\r" % kind + many)


def dense_cases():
    """The frames with the most characters a byte."""
    for frame in (paper.nibe(0x6A, b"\xff\xff\xff"), paper.nibe(0x60, b"")):
        yield Case("many short frames", captured(4, frame * (FULL // len(frame))))


# ---- each message


def made(name, fields, content):
    """The frame, of a message that can be encoded."""
    frame = table.encode(table.KINDS[name], name, fields, content)
    assert isinstance(frame, bytes), (name, fields, content)
    return frame


def in_captures(test, kind, frames, between=b""):
    """The frames one behind the other, in as many captures as it takes."""
    capture = b""
    for frame in frames:
        if len(capture) + len(frame) + len(between) > FULL:
            yield Case(test, captured(kind, capture))
            capture = b""
        capture += frame + between
    yield Case(test, captured(kind, capture))


def message_cases():
    """The messages of rows.py, at the limits of their fields, each way: all one behind the other, with noise between, as other kinds;
    then those beyond the limits, with right check values all the same."""
    for name in table.NAMES:
        kind = table.KINDS[name]
        asked = [(fields, content) for fields, content in rows.MESSAGES[name]()]
        answers = [(table.encode(kind, name, fields, content), rows.forced(name, fields, content)) for fields, content in asked]
        good = [frame for frame, _ in answers if isinstance(frame, bytes)]
        beyond = [forced for frame, forced in answers if not isinstance(frame, bytes) and forced is not None]
        yield from in_captures("message " + name, kind, good)
        for frame in (good[0], good[-1]):
            yield Case("message " + name, captured(kind, frame))
        yield from in_captures("message %s, noise between" % name, kind, good, b"\xd5\xc0<;$#N\r\n")
        for other in KINDS:
            if other != kind:
                yield from in_captures("message %s as another kind" % name, other, good)
        if beyond:
            yield from in_captures("beyond the limits of " + name, kind, beyond, b"\n")


RAWS = (0, 1, 5, 9, 10, 99, 100, 125, 999, 1000, 1001, 9999, 10000, 32767, 32768, 65534, 65535)
WIDE = (65536, 16777214, 16777215, 16777216, 16777217, 16777218, 16777219, 33554431, 33554432, 33554434, 33554436, 2147483647)
WIDE += (2147483648, 2147483649, 4294967039, 4294967040, 4294967041, 4294967294, 4294967295, 1000000000, 999999999, 305419896)


def climate(temperature, humidity):
    return made("climate", {"temperature": temperature, "humidity": humidity}, b"")


def reading_cases():
    signed = (-32768, -32767, -12345, -1000, -999, -125, -101, -100, -99, -10, -9, -5, -1, *(raw for raw in RAWS if raw < 32768))
    yield from in_captures("readings of climate", 3, [climate(raw, RAWS[i % len(RAWS)]) for i, raw in enumerate(signed)])
    yield from in_captures("readings of climate", 3, [climate(0, raw) for raw in RAWS])
    states = []
    for i, vin in enumerate(RAWS):
        volts = struct.pack("<HHH", vin, RAWS[(i + 5) % len(RAWS)], RAWS[(i + 11) % len(RAWS)])
        states += [made("state", {}, b"\x80" * 8 + volts + b"\xfe" * more) for more in (2, 3, 1010)]
    yield from in_captures("readings of state", 3, states)
    for name in ("reply", "put"):
        values = [(1, raw) for raw in RAWS + (255,) if raw < 256] + [(2, raw) for raw in RAWS] + [(4, raw) for raw in RAWS + WIDE]
        frames = [made(name, {"register": raw & 0xFFFF, "width": width, "value": raw}, b"") for width, raw in values]
        yield from in_captures("readings of " + name, 4, frames)
    powers = [n for k in range(33) for n in (2**k - 1, 2**k, 2**k + 1, 3 << k, 2**k - 256, 2**k - 255, 2**k - 128) if 0 <= n < 1 << 32]
    frames = [made("reply", {"register": 40004, "width": 4, "value": n}, b"") for n in powers]
    yield from in_captures("what a single holds", 4, frames)


def text_cases():
    for number in table.TEXTS:
        singles = [made("text", {"id": number}, bytes([b])) for b in range(256)]
        yield from in_captures("each byte of a text", 3, singles)
        pairs = [made("text", {"id": number}, bytes(two)) for two in itertools.product(b'"\\u0/\n\r\x1f ~\x7f\xff', repeat=2)]
        yield from in_captures("quotes and backslashes", 3, pairs)
        long = [bytes(range(256)) * 4, b'"' * 1024, b"\\" * 1024, b"\x00" * 1024, b"\xff" * 1023, bytes(range(255, -1, -1))]
        yield from in_captures("long texts", 3, [made("text", {"id": number}, text) for text in long])
    characters = [bytes([c]) for c in range(0x21, 0x7F) if c not in b";<>"]
    for at, most in enumerate((8, 16, 4, 4)):
        fields = [[b"GI", b"1", b"0H", b"yy"] for _ in range(2 * len(characters))]
        for c, one, full in zip(characters, fields, fields[len(characters) :]):
            one[at], full[at] = c, c * most
        yield from in_captures("each character of a Homiq field", 5, [paper.homiq(b";".join(f) + b";7;a") for f in fields])


# ---- what goes wrong on a line


def line_end_cases():
    """0D and 0A in a frame, and what changing the one to the other does."""
    frames = {
        1: [paper.LINK_A, paper.LINK_B, paper.PRESSED, paper.TAILED],
        2: [paper.nest(2, 0x0D, b"\x0d\x0a\x0d"), paper.nest(2, 0x0A0D, b""), paper.nest(2, 0x82, b"\x0d" * 13)],
        3: [paper.nest(3, 0x18, b"Backplate-\r7"), paper.nest(3, 0x18, b"Backplate-\n7"), paper.nest(3, 0x0B, b"\x0d" * 16)],
        4: [paper.nibe(0x6A, bytes.fromhex("0d0a0d00")), paper.nibe(0x68, b"\r\n" * 9), paper.nibe(0x69, b"\x0d\x0d")],
        5: [paper.HOMIQ_G, paper.HOMIQ_H],
    }
    for kind, good in frames.items():
        texts = []
        for s in (b"".join(good), b"\r\n".join(good)):
            texts += [s, s.replace(b"\r", b"\n"), s.replace(b"\n", b"\r"), s.replace(b"\r\n", b"\n"), s.replace(b"\n", b"")]
        for frame in good:
            ends = [at for at, b in enumerate(frame) if b in (0x0A, 0x0D)]
            texts.append(b"".join(frame[:at] + bytes([frame[at] ^ 7]) + frame[at + 1 :] + good[0] for at in ends))
        for text in dict.fromkeys(texts):
            yield Case("0D and 0A, kind %d" % kind, captured(kind, text))


HEADS = {
    1: [b"$", b"$1", b"$FE", b"$10", b"$0C", b"#", b"#N", b"#E", b"#N12AB3", b"$10110000B8CF9", b"$0510"],
    2: [b"\xd5", b"\xd5\xaa", b"\xd5\xaa\x96", b"\xd5\xaa\x96\x01\x00\x00\x04", b"\xd5\xaa\x96\x01\x00\x09\x00", b"\xd5\xd5\xaa\x96"],
    3: [b"\xd5", b"\xd5\xd5", b"\xd5\xd5\xd5\xaa\x96", b"\xd5\xd5\xaa\x96\x01\x00\x00\x04", b"\xd5\xd5\xaa\x96\x18\x00\x0e\x00"],
    4: [b"\xc0", b"\xc0\x69", b"\xc0\x68\xff", b"\xc0\x6a\x06", b"\xc0\x69\x02", b"\xc0\xc0", b"\xc0\x69\xc0"],
    5: [b"<", b"<;", b"<;I.3;1;", b"<;I.3;1;0H;0;42;s;134;>", b"<;I.3;1;0H;0;42;s;134;>\r", b"<;<;"],
}
GOOD = {1: paper.LINK_B, 2: paper.RESET, 3: paper.REPLY_CLIMATE, 4: paper.ASK, 5: paper.HOMIQ_G}


def false_start_cases():
    """A start whose length reaches over good frames, and past the capture's end."""
    for kind in KINDS:
        test, good = "false starts, kind %d" % kind, GOOD[kind]
        for head in HEADS[kind]:
            for rest in (good + good, bytes(1100) + good, good * 200):
                yield Case(test, captured(kind, head, rest))
            yield Case(test, captured(kind, good, head, good, bytes(1100), head))
    yield Case("false starts, kind 4", captured(4, bytes.fromhex("c069c06902640066")))
    # one frame in another: the outer one is found, and with its check spoilt the inner one
    for kind in (2, 3):
        outer = paper.nest(kind, 0x18, GOOD[kind] * 3)
        yield Case("false starts, kind %d" % kind, captured(kind, outer, outer[:-1] + bytes([outer[-1] ^ 1])))
    outer = paper.nibe(0x68, paper.ASK * 3)
    yield Case("false starts, kind 4", captured(4, outer, outer[:-1] + bytes([outer[-1] ^ 1])))


def cut_cases():
    for kind in KINDS:
        good = GOOD[kind]
        for n in range(len(good)):
            yield Case("cut frames, kind %d" % kind, captured(kind, good[:n], good, good[n:], good, good[:n]))


def slow_cases():
    """Through a pipe, where the bytes come in pieces."""
    for kind in KINDS:
        yield Case("in pieces", captured(kind, GOOD[kind] * 40), slow=True)
    for given in (b"", b"1", captured(1, paper.TAILED * 16383), captured(4, bytes(FULL)), captured(4, bytes(FULL + 1)), b"6\n" + bytes(70000)):
        yield Case("in pieces", given, slow=True)


def example_cases():
    """The captures of examples/, and the listings beside them."""
    for kind, (name, _, _) in enumerate(examples.CAPTURES, 1):
        base = os.path.join(examples.FOLDER, name)
        yield Case("example " + name, captured(kind, read(base + ".bin")), stored=read(base + ".json"))
    base = os.path.join(examples.FOLDER, "pump")
    yield Case("example pump", captured(4, read(base + ".bin")), stored=read(base + ".json"), sheet=read(base + ".sheet"))


# ---- with a register sheet

TYPES = [(width, signed, decimals) for width, signed in sheet.TYPES.values() for decimals in range(4)]
PAIRED = (0x62, 0x68, 0x68)
BAD_SHEET = b'{"refused":10}\n'


def limits(width, signed):
    """The least and the most that a type holds, their neighbours, and some between."""
    most = (1 << 8 * width - signed) - 1
    least = -most - 1 if signed else 0
    return [raw for raw in (least, least + 1, -1, 0, 1, 125, most // 2, most - 1, most, 16777216, 16777217) if least <= raw <= most]


def many_rows(count, first):
    """A sheet of so many lines, each of twelve bytes if the first register has five digits."""
    return {first + i: TYPES[8 + i % 16 if first > 9999 else i % 24] for i in range(count)}


def type_cases():
    """Each type with each number of decimals, at its limits: as pairs, and as values whose width agrees or does not."""
    found = {1000 + i: sort for i, sort in enumerate(TYPES)}
    pairs, valued = [], []
    for register, (width, signed, _) in found.items():
        for raw in limits(width, signed):
            data = sheet.joined(found, [(register, raw)])
            pairs.append(data)
            valued += [paper.nibe(command, data) for command in (0x6A, 0x6B)]
            valued += [paper.nibe(0x6A, (data + bytes(4))[: 2 + other]) for other in (1, 2, 4) if other != width]
    single = [paper.nibe(command, data) for command in PAIRED for data in pairs]
    several = [paper.nibe(0x68, b"".join(pairs[i : i + 40])) for i in range(0, len(pairs), 40)]
    for frames in (single, several, valued):
        yield Case("each type of a sheet", captured(4, *frames), sheet=sheet.written(found))


def sheet_size_cases():
    """500 lines and 501, 6,000 bytes and 6,001."""
    pump = paper.nibe(0x68, bytes.fromhex("102701000000")) + paper.nibe(0x62, b"")
    full = sheet.written(many_rows(500, 10000))
    assert len(full) == sheet.MOST_BYTES
    texts = [b"", full, full[:-1], full + b"\n", full + b"1", full[12:], sheet.written(many_rows(501, 10000)), full * 12]
    texts += [sheet.written(many_rows(count, 0)) for count in (499, 500, 501)]
    for text in texts:
        for kind in (4, 1):
            yield Case("sheets of all lengths", captured(kind, pump, paper.TAILED), sheet=text)


def dense_sheet_cases():
    """64 KiB of pairs of u8, and of replies."""
    found = {register: (1, False, 3) for register in range(500)}
    pairs = paper.nibe(0x68, b"".join(struct.pack("<HB", i, 255 - i) for i in range(85)))
    replies = b"".join(paper.nibe(0x6A, struct.pack("<HB", i, i & 255)) for i in range(500))
    for frames in (pairs, replies):
        yield Case("64 KiB with a sheet", captured(4, (frames * (FULL // len(frames) + 1))[:FULL]), sheet=sheet.written(found))


WRONG_LINES = (
    b"|,|,,|,,,|1|1,u8|1,u8,|1,,0|,u8,0|1,u8,0,|1,u8,0,0|01,u8,0|00,u8,0|65536,u8,0|-1,u8,0|+1,u8,0|1 ,u8,0|4294967297,u8,0|1;u8;0|"
    b"1,U8,0|1,u08,0|1,u64,0|1,i16,0|1, u8,0|1,u8,4|1,u8,00|1,u8,-1|1,u8,0 |1,u8,0\r|register,type,decimals|\0|1,u8,\xff"
).split(b"|")


def bad_sheet_cases():
    """Each sort of wrong line, first, between good ones, last and without LF; with captures of each kind; after 01's refusals."""
    pump = captured(4, paper.nibe(0x68, b"\x00\x00\x01"))
    for line in WRONG_LINES:
        for text in (line + b"\n", b"0,u8,0\n" + line + b"\n9,u8,0\n", b"0,u8,0\n" + line):
            yield Case("wrong lines of a sheet", pump, sheet=text)
    for text in (b"0,u8,0", b"0,u8,0\r\n", b"1,u8,0\n1,u8,0\n", b"2,u8,0\n1,u8,0\n", b"\n", b"0,u8,0\n\n", b"\xef\xbb\xbf0,u8,0\n"):
        yield Case("sheets that are none", pump, sheet=text)
        for kind in KINDS:
            yield Case("sheets that are none, any kind", captured(kind, GOOD[kind]), sheet=text)
        for given in (b"", b"4", b"6\n", b"4\r", captured(4, bytes(FULL + 1)), b"6\n" + bytes(FULL + 1)):
            yield Case("01's refusals before the sheet's", given, sheet=text)
    for kind in KINDS:
        yield Case("a sheet and any kind", captured(kind, GOOD[kind] * 3), sheet=b"0,u8,0\n40004,s16,1\n")


def any_rows(rng):
    drawn = rng.randrange(20)
    if drawn == 0:
        return {}
    if drawn == 1:
        return many_rows(500, rng.choice((0, 10000, 65036)))
    pool = rng.choice((range(40), range(40000, 40040), range(65536)))
    return {register: rng.choice(TYPES) for register in sorted(rng.sample(pool, rng.randint(1, 8)))}


def any_raw(width, signed, rng):
    if rng.randrange(2):
        return rng.choice(limits(width, signed))
    return int.from_bytes(rng.randbytes(width), "little", signed=signed)


def any_pairs(found, rng):
    """Data of pairs; cut, or with a register that is not listed, now and then."""
    most = rng.choice((1, 3, 6, 90))
    registers = rng.choices(list(found), k=rng.randint(0, most)) if found else []
    data = sheet.joined(found, [(register, any_raw(*found[register][:2], rng)) for register in registers])
    drawn = rng.randrange(8)
    if drawn == 0:
        data = data[: rng.randrange(len(data) + 1)]
    elif drawn == 1:
        data += struct.pack("<H", rng.randrange(65536)) + rng.randbytes(rng.randrange(4))
    elif drawn == 2:
        data = struct.pack("<HB", rng.randrange(65536), 7) + data
    return data[:255]


def any_pumped(found, rng):
    """A frame of Nibe that a sheet says something of, or nearly so."""
    drawn = rng.randrange(10)
    if drawn == 0 or not found:
        return any_piece(4, rng)
    if drawn < 6:
        return paper.nibe(rng.choice((0x60, *PAIRED)), any_pairs(found, rng))
    register = rng.choice(list(found)) if rng.randrange(6) else rng.randrange(65536)
    width, signed, _ = found.get(register, (2, False, 0))
    value = any_raw(width, signed, rng).to_bytes(width, "little", signed=signed)
    if rng.randrange(4) == 0:
        value = rng.randbytes(rng.choice((1, 2, 4)))
    return paper.nibe(rng.choice((0x6A, 0x6B)), struct.pack("<H", register) + value)


def spoilt(text, rng):
    """A sheet with a byte changed, lost or put in; it may still be one."""
    at = rng.randrange(len(text) + 1)
    byte = bytes([rng.choice(b"0123456789,us\n\r ")])
    return text[:at] + rng.choice((byte + text[at:], byte + text[at + 1 :], text[at + 1 :]))


def random_sheet_cases(seed):
    rng = random.Random("sheets %d" % seed)
    test = "random captures with sheets, seed %d" % seed
    for _ in range(1000):
        found = any_rows(rng)
        text = sheet.written(found)
        if rng.randrange(6) == 0:
            text = spoilt(text, rng)
        capture = b"".join(any_pumped(found, rng) for _ in range(rng.randint(1, 20)))
        yield Case(test, captured(4 if rng.randrange(12) else rng.choice(KINDS), capture), sheet=text)


# ---- random ones


def any_frame(kind, rng):
    """With right check values; now and then a field is outside its limits."""
    if kind == 5 and rng.randrange(4) == 0:
        fields = (bytes(rng.choice(b'"\\/!~uOI.019AZ') for _ in range(rng.randint(1, most))) for most in (8, 16, 4, 4))
        return paper.homiq(b";".join((*fields, b"%d" % rng.randint(0, 511), rng.choice((b"s", b"a")))))
    name = rng.choice(table.OF_KIND[kind])
    if kind == 4 and rng.randrange(2):
        name = rng.choice(("ask", "reply", "put", "done"))
    return rows.forced(name, rows.any_fields(name, rng), rows.any_content(name, rng)) or b""


def any_piece(kind, rng):
    drawn = rng.randrange(16)
    if drawn == 0:
        return rng.randbytes(rng.randrange(20))
    if drawn == 1:
        return rng.choice(HEADS[kind])
    if drawn == 2:
        return bytes(rng.choice(b"$#\xd5\xaa\x96\xc0<;\r\n\x00") for _ in range(rng.randrange(12)))
    if drawn == 3:
        return any_frame(rng.choice(KINDS), rng)
    frame = any_frame(kind, rng)
    if drawn == 4:
        return frame[: rng.randrange(len(frame) + 1)]
    if drawn == 5:
        return frame[rng.randrange(len(frame) + 1) :]
    if drawn in (6, 7) and frame:
        at = rng.randrange(len(frame))
        return frame[:at] + bytes([frame[at] ^ 1 << rng.randrange(8)]) + frame[at + 1 :]
    return frame


def any_capture(kind, size, rng):
    pieces, length = [], 0
    while length < size:
        pieces.append(any_piece(kind, rng))
        length += len(pieces[-1])
    return b"".join(pieces)[:size]


def random_cases(seed):
    rng = random.Random(seed)
    for kind in KINDS:
        test = "random captures, kind %d, seed %d" % (kind, seed)
        for _ in range(25):
            yield Case(test, captured(kind, any_capture(kind, rng.choice((20, 200, 2000, 4000)) + rng.randrange(100), rng)))
        test = "random captures of 64 KiB, kind %d, seed %d" % (kind, seed)
        full = any_capture(kind, FULL, rng)
        yield Case(test, captured(kind, full))
        yield Case(test, captured(KINDS[kind % 5], full))
        flipped = bytearray(any_capture(kind, FULL, rng))
        for _ in range(300):
            flipped[rng.randrange(FULL)] ^= 1 << rng.randrange(8)
        yield Case(test, captured(kind, flipped))
        yield Case("noise of 64 KiB, kind %d, seed %d" % (kind, seed), captured(kind, rng.randbytes(FULL)))
        marks = bytes(rng.choice(HEADS[kind][-1] + HEADS[kind][0] * 3) for _ in range(FULL))
        yield Case("noise of 64 KiB, kind %d, seed %d" % (kind, seed), captured(kind, marks))


def fixed_cases():
    yield Case("the whole example of document 01", PAPER_INPUT)
    for cases in (start_cases, size_cases, dense_cases, message_cases, reading_cases, text_cases, line_end_cases, false_start_cases, cut_cases):
        yield from cases()
    yield from slow_cases()
    yield from example_cases()
    for cases in (type_cases, sheet_size_cases, dense_sheet_cases, bad_sheet_cases):
        yield from cases()


# ---- each line read from outside

# 01, "JSON and the listing program": the members behind at, len and msg
ORDER = {
    "read": "group,addr",
    "set": "group,addr,out",
    "answer": "addr,third,out",
    "press": "addr",
    "tail": "",
    "break": "",
    "end": "",
    "link": "data",
    "command": "id,data",
    "response": "id,data",
    "climate": "temp,hum",
    "state": "vin,vop,vbat,data",
    "text": "id,text",
    "ask": "reg",
    "reply": "reg,width,value",
    "put": "reg,width,value",
    "done": "ok",
    "nibe": "cmd,data",
    **{name: "cmd,val,src,dst,id,type" for name in table.HOMIQ},
}
WHOLE = {"at", "len", "group", "third", "id", "reg", "width", "frames", "skipped", "refused"}
DECIMALS = {"temp": 2, "hum": 1, "vin": 2, "vop": 3, "vbat": 3}


class Wrong(Exception):
    pass


def hold(is_so, *what):
    if not is_so:
        raise Wrong(" ".join(map(str, what)))


def no_number(text):
    raise Wrong("a number that is not whole: " + text)


def members(pairs):
    """An object's members in their order; a name that stands there twice is an error."""
    hold(len({name for name, _ in pairs}) == len(pairs), "a name twice:", pairs)
    return dict(pairs)


def parsed(line):
    found = json.loads(line, object_pairs_hook=members, parse_float=no_number, parse_constant=no_number)
    hold(isinstance(found, dict), "no object:", line)
    return found


def hold_reading(name, r, decimals):
    """Whether raw, decimals, text and f32 say one number, of so many decimals."""
    hold(isinstance(r, dict) and ",".join(r) == "raw,dec,text,f32", name, "is no reading:", r)
    raw, dec, text, f32 = r.values()
    hold(type(raw) is int and type(dec) is int and type(text) is str and type(f32) is bool, name, "has another sort:", r)
    hold(dec == decimals, name, "has other decimals:", r)
    sign, digits, exponent = Decimal(text).as_tuple()
    hold(-exponent == dec and len(digits) >= 1, name, "has other digits behind the point:", r)
    hold(Decimal(text) == Decimal(raw).scaleb(-dec) and bool(sign) == (raw < 0), name, "has another text:", r)
    hold(text.lstrip("-").split(".")[0] == str(abs(raw) // 10**dec), name, "has another whole part:", r)
    hold(f32 == (struct.unpack("<f", struct.pack("<f", raw))[0] == raw), name, "has another f32:", r)


def hold_sort(name, msg, v):
    if name in DECIMALS:
        hold_reading(name, v, DECIMALS[name])
    elif name == "ok":
        hold(type(v) is bool, name, "is not true or false")
    elif name in WHOLE or (name, msg) == ("cmd", "nibe"):
        hold(type(v) is int and v >= 0, name, "is no whole number:", v)
    else:
        hold(type(v) is str, name, "is no string:", v)


def said(m):
    """The fields and the content that a line's members say."""
    msg, fields, content = m["msg"], {}, b""
    for name, field in (("group", "group"), ("third", "third"), ("id", "id"), ("reg", "register"), ("width", "width"), ("cmd", "command")):
        if name in m and msg not in table.HOMIQ:
            fields[field] = m[name]
    if msg == "press":
        fields["digits"] = m["addr"].encode()
    elif "addr" in m:
        fields["address"] = int(m["addr"], 16)
    if "out" in m:
        fields["out"] = bytes.fromhex(m["out"])
    if "ok" in m:
        fields["ok"] = int(m["ok"])
    for name, field in (("temp", "temperature"), ("hum", "humidity")):
        if name in m:
            fields[field] = m[name]["raw"]
    if "value" in m:
        fields["value"] = m["value"]["raw"] % (1 << 8 * m["width"])
    if "data" in m:
        content = m["data"].encode() if msg == "link" else bytes.fromhex(m["data"])
    if msg == "text":
        content = m["text"].encode("latin-1")
    if msg in table.HOMIQ:
        content = ";".join((m["cmd"], m["val"], m["src"], m["dst"], str(m["id"]), m["type"])).encode("latin-1")
    return fields, content


def hold_values(m, found):
    """The pairs of a line, by a sheet: each a register and a reading of its decimals, and together the data."""
    hold(type(m["values"]) is list and m["cmd"] in sheet.SPLIT, "no list of values, or not of 62 or 68:", m)
    for pair in m["values"]:
        hold(list(pair) == ["reg", "value"] and pair["reg"] in found, "no pair, or of another register:", pair)
        hold_reading("value", pair["value"], found[pair["reg"]][2])
    pairs = [(pair["reg"], pair["value"]["raw"]) for pair in m["values"]]
    hold(sheet.joined(found, pairs) == bytes.fromhex(m["data"]), "values that the data have not:", m)


def hold_valued(m, found):
    """The value of a reply or put, by a sheet if the width agrees."""
    width, signed, decimals = found.get(m["reg"], (0, False, 0))
    if width != m["width"]:
        signed, decimals = False, 0
    hold_reading("value", m["value"], decimals)
    hold(paper.held(m["value"]["raw"], m["width"], signed) is not None, "no value of the type:", m)


def hold_line(kind, capture, m, found):
    """One frame's line, by the rows of a sheet if there is one: its members, and the frame that they say."""
    msg = m.get("msg")
    hold(msg in table.OF_KIND[kind], "no message of the kind:", m)
    more = ["values"] if msg == "nibe" and "values" in m and found is not None else []
    hold(list(m) == ["at", "len", "msg", *filter(None, ORDER[msg].split(",")), *more], "other members, or in another order:", m)
    for name, v in m.items():
        if name not in ("value", "values"):
            hold_sort(name, msg, v)
    if "value" in m:
        hold_valued(m, found or {})
    if more:
        hold_values(m, found)
    fields, content = said(m)
    if msg == "state":
        volts = [m[name]["raw"] for name in ("vin", "vop", "vbat")]
        hold(volts == list(struct.unpack_from("<HHH", content, 8)), "voltages that the data have not:", m)
    frame = table.encode(kind, msg, fields, content)
    hold(isinstance(frame, bytes), "says no frame:", m)
    hold(frame == capture[m["at"] : m["at"] + m["len"]], "says another frame than stands there:", m)


def hold_last(m, capture, count, inside):
    hold(list(m) == ["frames", "skipped"] and all(type(v) is int for v in m.values()), "no last line:", m)
    hold(m["frames"] == count, count, "lines and not", m["frames"])
    hold(inside + m["skipped"] == len(capture), inside, "bytes in frames of", len(capture), "and", m["skipped"], "skipped")


def outside(given, written, text):
    """What each line is a test of, and what is wrong with it, or none; `text` is that of a sheet, if there is one."""
    hold(written.endswith(b"\n"), "no LF at the end")
    hold(re.fullmatch(rb"[\n -~]*", written), "a byte outside 0x20 to 0x7E")
    texts = written.decode("ascii").split("\n")[:-1]
    found = [parsed(text) for text in texts]
    if "refused" in found[0]:
        hold(len(found) == 1 and list(found[0]) == ["refused"] and type(found[0]["refused"]) is int, "more than a refusal")
        yield "refusal", None
        return
    kind, capture, end = given[0] - 0x30, given[2:], 0
    by = None if text is None else sheet.rows(text)
    for m in found[:-1]:
        try:
            hold_line(kind, capture, m, by)
            hold(end <= m["at"], "begins in the frame before it:", m)
            end = m["at"] + m["len"]
            yield m["msg"], None
        except (Wrong, KeyError, TypeError, ValueError, ArithmeticError) as e:
            yield m.get("msg", "no msg"), str(e)
    hold_last(found[-1], capture, len(found) - 1, sum(m["len"] for m in found[:-1]))
    yield "last line", None


# ---- the script's own implementation, held to document 01

PAPER_INPUT = b"2\n" + bytes.fromhex("D5 AA 96 FF 00 00 00 A3 4B FF")
PAPER_OUTPUT = b"""\
{"at":0,"len":9,"msg":"command","id":255,"data":""}
{"frames":1,"skipped":1}
"""


SHEET = b"40004,s16,1\n47011,u8,0\n"
SHEET_FRAMES = "C06807449C83FFA3B70ABD C06A04449C83FFA0 C06A06449C83FF0000A2"
SHEET_LINES = [
    '{"at":0,"len":11,"msg":"nibe","cmd":104,"data":"449C83FFA3B70A","values":['
    '{"reg":40004,"value":{"raw":-125,"dec":1,"text":"-12.5","f32":true}},'
    '{"reg":47011,"value":{"raw":10,"dec":0,"text":"10","f32":true}}]}',
    '{"at":11,"len":8,"msg":"reply","reg":40004,"width":2,"value":{"raw":-125,"dec":1,"text":"-12.5","f32":true}}',
    '{"at":19,"len":10,"msg":"reply","reg":40004,"width":4,"value":{"raw":65411,"dec":0,"text":"65411","f32":true}}',
]


def own(expected):
    """Each with what it is; of the cases' expected listings, that they have everything."""
    yield "01's whole example", lines.listing(PAPER_INPUT) == PAPER_OUTPUT
    yield "01's reading", lines.reading(-125, 1) == '{"raw":-125,"dec":1,"text":"-12.5","f32":true}'
    yield "known point (i)", lines.decimal(-5, 2) == "-0.05"
    singles = [paper.survives(n) for n in (16777216, 4294967040, 16777217, 33554434)]
    yield "known point (j)", singles == [True, True, False, False]
    yield "known point (b)", b'"msg":"read","group":1,"addr":"4707"}' in lines.listing(captured(1, paper.LINK_B))
    yield "known point (f)", lines.listing(captured(4, b"\xc0\x69", paper.ASK)).startswith(b'{"at":2,"len":6,"msg":"ask","reg":100}')
    rng = random.Random(0)
    strings = [rng.randbytes(n) for n in (*range(40), 255, 1028)]
    yield "check values against divisions", all(quick(name, s) == divided(name, s) for name in paper.CHECKS for s in strings)
    for name in table.NAMES:
        yield "a case has " + name, any(b'"msg":"%s"' % name.encode() in text for text in expected)
    for refusal in (2, 5, 10):
        yield "a case is refused with %d" % refusal, b'{"refused":%d}\n' % refusal in expected
    yield "K2's sheet", sheet.rows(SHEET) == {40004: (2, True, 1), 47011: (1, False, 0)}
    yield "K2's lines", lines.listing(captured(4, bytes.fromhex(SHEET_FRAMES)), SHEET).decode().splitlines()[:3] == SHEET_LINES
    for what in (b'"values":[{"reg":', b'"values":[]', b'"value":{"raw":-'):
        yield "a case has " + what.decode(), any(what in text for text in expected)
    longest = max(map(len, expected))
    yield "a listing is long, and within the program's room", 1000000 < longest <= 32 * lines.MOST + 50


# ---- running

# the inputs whose numbers end in these digits; what comes in pieces stands in files of its own. Each is run in its folder, which has the
# sheet, or in an empty one.
SCRIPT = """
. scripts/x86-64.sh
for f in "$1"/*["$3"].in; do
    [ -e "$f" ] || continue
    cd "${f%.in}.folder" 2>/dev/null || cd "$1/empty" || exit
    run "$2" <"$f" >"${f%.in}.out" 2>"${f%.in}.err" || echo "status $?" >>"${f%.in}.err"
done
cd "$1/empty" || exit
for f in "$1"/*["$3"].slow; do
    [ -e "$f" ] || continue
    { head -c 1 "$f"; sleep 0.02; head -c 4000 "$f" | tail -c +2; sleep 0.02; tail -c +4001 "$f"; } 2>"${f%.slow}.ignored" |
        run "$2" >"${f%.slow}.out" 2>"${f%.slow}.err" || echo "status $?" >>"${f%.slow}.err"
done
"""


def program():
    """The proved program, or another that is named instead."""
    proved.lock()
    named = os.environ.get("BOLSTERWEFT_LISTING")
    return os.path.abspath(named) if named else str(proved.program("listing"))


def read(path):
    with open(path, "rb") as f:
        return f.read()


def write(path, data):
    with open(path, "wb") as f:
        f.write(data)


def run(cases, asked):
    """What a program writes on standard output and on standard error, for each case."""
    os.makedirs(os.path.join(ROOT, "target"), exist_ok=True)
    with tempfile.TemporaryDirectory(dir=os.path.join(ROOT, "target"), prefix="listing-") as folder:
        os.mkdir(os.path.join(folder, "empty"))
        for i, case in enumerate(cases):
            write(os.path.join(folder, "%05d.%s" % (i, "slow" if case.slow else "in")), case.given)
            if case.sheet is not None:
                os.mkdir(os.path.join(folder, "%05d.folder" % i))
                write(os.path.join(folder, "%05d.folder" % i, "sheet.txt"), case.sheet)
        shells = [subprocess.Popen(["bash", "-c", SCRIPT, "listing.py", folder, asked, digits], cwd=ROOT) for digits in ("02468", "13579")]
        for shell in shells:
            if shell.wait() != 0:
                sys.exit("the program could not be run")
        bases = [os.path.join(folder, "%05d" % i) for i in range(len(cases))]
        return [(read(base + ".out"), read(base + ".err")) for base in bases]


def unsaid(case, said):
    """What standard error does not say of a bad sheet, or none: it names the line. A sheet that is too long is not read whole."""
    line, test = sheet.fault(case.sheet)
    if len(case.sheet) > sheet.MOST_BYTES:
        return None if said else "nothing is said of a sheet that is too long"
    return None if re.search(rb"\bline %d\b" % line, said) else "line %d (%s) of the sheet is not named: %r" % (line, test, said)


def first_difference(expected, written):
    """The first line that differs, from shortly before the difference on."""
    for i, (a, b) in enumerate(itertools.zip_longest(expected.split(b"\n"), written.split(b"\n")), 1):
        if a != b:
            at = len(os.path.commonprefix([a or b"", b or b""]))
            return "line %d, character %d\n  expected %s\n  written  %s" % (i, at, shown(a, at), shown(b, at))
    return "no difference"


def shown(text, at):
    if text is None:
        return "nothing"
    start = max(0, at - 40)
    return (".." if start else "") + text[start : at + 60].decode("latin-1") + (".." if len(text) > at + 60 else "")


def kept(test, case):
    """Writes a failing case's input, and its sheet, so that it can be run again."""
    os.makedirs(FAILED, exist_ok=True)
    path = os.path.join(FAILED, "".join(c if c.isalnum() else "-" for c in test) + ".in")
    write(path, case.given)
    if case.sheet is not None:
        write(path + ".sheet", case.sheet)
    return os.path.relpath(path, ROOT)


def compare(cases, answers, listings):
    """All tests, and those that failed, with the first case of each."""
    tests, wrong = set(), {}

    def tell(test, case, what):
        wrong[test] = wrong.get(test, 0) + 1
        if wrong[test] == 1:
            print("%s: %s\n  again: tests/listing.py --case %s" % (test, what, kept(test, case)))

    for case, (written, said), expected in zip(cases, answers, listings):
        tests.add(case.test)
        if expected == BAD_SHEET:
            tests.add("what is said of a bad sheet")
            missing = unsaid(case, said)
            if missing:
                tell("what is said of a bad sheet", case, missing)
        else:
            written += said
        if written != expected:
            tell(case.test, case, first_difference(expected, written))
        elif case.stored not in (None, written):
            tell(case.test, case, "the stored listing differs: " + first_difference(case.stored, written))
        try:
            for sort, what in outside(case.given, written, case.sheet):
                tests.add("JSON: " + sort)
                if what is not None:
                    tell("JSON: " + sort, case, what)
        except (Wrong, KeyError, IndexError, TypeError, ValueError) as e:
            tests.add("JSON: the whole")
            tell("JSON: the whole", case, str(e))
    for test, count in wrong.items():
        print("%s: %d wrong" % (test, count))
    return tests, wrong


def one(path):
    """A single input."""
    case = Case(path, read(path), sheet=read(path + ".sheet") if os.path.exists(path + ".sheet") else None)
    answer, expected = run([case], program())[0], lines.listing(case.given, case.sheet)
    print(first_difference(expected, answer[0]))
    tests, wrong = compare([case], [answer], [expected])
    print("%d passed, %d failed" % (len(tests) - len(wrong), len(wrong)))
    return 1 if wrong else 0


def main(arguments):
    if len(arguments) == 2 and arguments[0] == "--case":
        return one(arguments[1])
    if len(arguments) > 1 or not all(word.isdigit() for word in arguments):
        print(__doc__, file=sys.stderr)
        return 2
    shutil.rmtree(FAILED, ignore_errors=True)
    seeds = [int(word) for word in arguments] or [1, random.SystemRandom().randrange(1 << 32)]
    drawn = (case for seed in seeds for cases in (random_cases, random_sheet_cases) for case in cases(seed))
    cases = [*fixed_cases(), *drawn]
    expected = [lines.listing(case.given, case.sheet) for case in cases]
    print("seeds %s, %d inputs, %d lines" % (" ".join(map(str, seeds)), len(cases), sum(text.count(b"\n") for text in expected)))
    tests, wrong = compare(cases, run(cases, program()), expected)
    mine = list(own(expected))
    unheld = [what for what, is_so in mine if not is_so]
    for what in unheld:
        print("the script's own test does not hold: " + what)
    failed = len(wrong) + len(unheld)
    print("%d passed, %d failed" % (len(tests) + len(mine) - failed, failed))
    return 1 if failed else 0


if __name__ == "__main__":
    sys.exit(main(sys.argv[1:]))
