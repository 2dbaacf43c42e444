#!/usr/bin/env python3
"""Every row of the message table, run: bin/calls against table.py, on each field's limits and beyond, all kinds, rooms just
long enough and too short, frames whole and damaged, and on random ones.

tests/rows.py [SEED]            proves and builds the program if that has not been done, runs it and compares; with no seed, a fixed
                                one and a new one, which is printed
tests/rows.py --files IN OUT [SEED]   writes the requests and the answers that they should have, a line each, and runs nothing

The last line is `N passed, M failed`: a test is a row and what is asked of it, over all its cases, for a seed.
"""
import functools
import random
import sys
from typing import NamedTuple

sys.dont_write_bytecode = True  # or Python leaves a folder beside those that are imported

import calls
import lines
import paper
import table
from calls import answer, clipped, in_room, request

ALL_KINDS = (0, 1, 2, 3, 4, 5, 6, 255)
# many cases share a frame, and a division for each would take most of the time
paper.value = functools.lru_cache(maxsize=None)(paper.value)


class Case(NamedTuple):
    test: str
    asked: str  # decode, encode, acknowledge, search, field, next id, voltages, pair, meant, content line, payload, allowed or line
    kind: int = 0
    name: str = "read"  # a message's, or a tag's if a content is asked of
    fields: dict = {}
    content: bytes = b""
    room: int = 0
    to: int = 0
    at: int = 0
    length: int = 0


def decoded(kind, s):
    """A frame's message and the content beside it; a climate's also as the panel is shown it."""
    found = table.decode(kind, s)
    content = b""
    if isinstance(found, tuple):
        name, fields, first, last = found
        found, content = (*calls.message(name, fields), first, last), s[first:last]
    yield request("messages::decode", kind, s), answer(found)
    yield request("messages::content", kind, s), answer((content,))
    if isinstance(found, tuple) and found[0] == "climate":
        yield request("numbers::panel::pair", *found[1:3]), answer(shown(fields))


def shown(climate):
    """The pair of singles, raw: each holds every number of 16 bits."""
    return "single", climate["temperature"], "single", climate["humidity"]


def told(found):
    """The answer that is a message, or a refusal's number."""
    return answer(found if isinstance(found, int) else calls.message(*found))


def line_made(name, fields, content, at, length):
    """A message's line; 5 if it is none of the table, whatever the cause."""
    if table.allowed(name, fields, content) != ():
        return 5
    return line_of(name, fields, content, at, length)


def content_line(tag, fields, payload, at, length):
    """The line of a content's message, or the refusal's number."""
    found = table.of(tag, fields, payload)
    return found if isinstance(found, int) else line_of(*found, payload, at, length)


def line_of(name, fields, content, at, length):
    return lines.text(name, fields, content, at, length).encode("ascii") + b"\n"


def pairs(case):
    """The requests of a case, each with its answer."""
    _, asked, kind, name, fields, content, room, to, at, length = case
    if asked == "decode":
        yield from decoded(kind, content)
    elif asked == "encode":
        made = table.encode(kind, name, fields, content)
        yield request("commands::encode", kind, *calls.message(name, fields), content, room), in_room(made, room)
    elif asked == "acknowledge":
        yield request("commands::acknowledge", content, room), in_room(table.acknowledge(content), room)
    elif asked == "field":
        field = dict(enumerate(content.split(b";"))).get(fields["number"], b"")
        yield request("messages::homiq::field", content, fields["number"]), answer((field,))
    elif asked == "search":
        yield request("frames::search", kind, content, 0), answer(paper.search(kind, content, 0))
        yield request("frames::why", kind, content, 0), answer(paper.why(kind, content, 0))
    elif asked == "next id":
        yield request("messages::homiq::next_id", fields["id"]), answer(paper.next_id(fields["id"]))
    elif asked == "voltages":
        yield request("messages::nest::voltages", content), answer(table.voltages(content))
    elif asked == "meant":
        yield request("messages::of", *calls.tag(name, fields), content), told(table.of(name, fields, content))
    elif asked == "content line":
        made = content_line(name, fields, content, at, length)
        yield request("lines::put_content", *calls.tag(name, fields), content, at, length, b"", room, to), clipped(made, room, to)
    elif asked == "payload":
        yield request("layouts::homiq::is_payload", content), answer((paper.is_payload(content),))
    elif asked == "allowed":
        yield request("messages::allowed", *calls.message(name, fields), content), answer(table.allowed(name, fields, content))
    elif asked == "line":
        made = line_made(name, fields, content, at, length)
        yield request("lines::of", *calls.message(name, fields), content, at, length, room, to), in_room(made, room, to)
    else:
        yield request("messages::nest::for_panel", *calls.message(name, fields)), answer(shown(fields) if name == "climate" else 5)


# ---- the messages of each row: fields and content, at their limits and beyond

WORDS = (0, 1, 255, 256, 0x4707, 0xFF00, 65535)
OUTS = (bytes(6), b"\xff" * 6, b"\x01\x02\x03\x04\x05\xfe")
GROUPS = (0, 1, 2, 3, 18, 255)
EDGES = b"/0 9:@AFG`afg\x00\xff"
JUNK = (b"", b"120747", b"BRK", b"O.1;1;0H;0;42;s", bytes(range(256)) * 4)
LENGTHS = (0, 1, 2, 3, 4, 5, 15, 16, 17, 1023, 1024, 1025, 1100)
IDS = (0, 1, 2, 3, 0x0A, 0x0B, 0x0C, 0x17, 0x18, 0x19, 0x1A, 0x2E, 0x2F, 0x30, 0xFF, 0x0100, 0x0B00, 0x1800, 0x2F00, 65535)
TEMPERATURES = (-32768, -32767, -12345, -257, -256, -255, -1, 0, 1, 127, 128, 255, 256, 2500, 32766, 32767)
VALUES = (0, 1, 127, 128, 255, 256, 257, 32768, 65535, 65536, 65537, 2**24, 2**31, 2**32 - 1)


def pattern(length):
    return bytes(i * 37 + 11 & 255 for i in range(length))


def read_messages():
    for group in GROUPS:
        for address in WORDS:
            yield {"group": group, "address": address}, JUNK[address % 5]


def set_messages():
    for group in GROUPS:
        for address in WORDS:
            yield {"group": group, "address": address, "out": OUTS[address % 3]}, JUNK[address % 5]
    for out in OUTS:
        yield {"group": 2, "address": 0x4707, "out": out}, b""


def answer_messages():
    for third in (0, 1, 0xFF):
        for address in WORDS + (0x4712, 0x0015):
            yield {"address": address, "third": third, "out": OUTS[address % 3]}, JUNK[address % 5]


def press_messages():
    for digits in (b"12AB34", b"000000", b"FFFFFF", b"9AF0A9", b"12ab34", bytes(6), b"\xff" * 6):
        yield {"digits": digits}, JUNK[digits[0] % 5]
    for at in range(6):
        for c in EDGES:
            yield {"digits": b"12AB34"[:at] + bytes([c]) + b"12AB34"[at + 1 :]}, b""


def link_contents():
    for length in (0, 1, 2, 3, 4, 8, 9, 10, 11, 121, 122, 123, 200):
        yield (b"\x11" + pattern(length))[:length].hex().upper().encode()
    for payload in ("120747", "170747", "110747", "130747", "180747", "160747", "150747", "1207", "12074700", "170747FF"):
        yield payload.encode()
    # sets, and what lacks one thing to be a set
    for code in ("15", "16", "14", "17", "12"):
        for last in ("FF", "FE", "00", "", "FFFF"):
            yield ("%s0747010203040506%s" % (code, last)).encode()
    # odd counts, lower case, characters beside the digits'
    yield from (b"1", b"123", b"12074", b"1207470", b"A" * 243, b"A" * 244, b"A" * 245, b"A" * 246)
    yield from (b"11ab00", b"12ab47", b"1207fF", b"fF", b"0x12", b"$10110000B8CF9D\r", b"110000\r", b" 11", b"11 00")
    for c in EDGES:
        yield b"1100" + bytes([c]) + b"0"
        yield b"1100" + b"0" + bytes([c])
        yield bytes([c]) + b"10000"


def link_messages():
    for content in link_contents():
        yield {}, content


def command_messages():
    for number in IDS:
        for length in (0, 3, 4, 16):
            yield {"id": number}, pattern(length)
    for length in LENGTHS:
        yield {"id": 0x82}, pattern(length)


def climate_messages():
    for temperature in TEMPERATURES:
        for humidity in (0, 1, 255, 256, 499, 32767, 32768, 65535):
            yield {"temperature": temperature, "humidity": humidity}, JUNK[humidity % 5]


def state_messages():
    for length in LENGTHS + (18, 24, 1000):
        yield {}, pattern(length)
    yield {}, bytes(16)
    yield {}, b"\xff" * 16


def fixed_messages():
    for content in JUNK:
        yield {}, content


def text_messages():
    for number in IDS:
        for payload in (b"", b"BRK", b"BR", b"BRK\x00", b"brk", b"KRB", b"hello\r\n", pattern(16)):
            yield {"id": number}, payload
    for number in (0x01, 0x18, 0x19, 0x1A):
        for length in LENGTHS:
            yield {"id": number}, pattern(length)


def response_messages():
    yield from text_messages()
    for number in (0x02, 0x0B, 0x2F, 0x03):
        for length in LENGTHS:
            yield {"id": number}, pattern(length)


def ask_messages():
    for register in WORDS + (40004, 47011, 47043):
        yield {"register": register}, JUNK[register % 5]


def valued_messages():
    for width in (0, 1, 2, 3, 4, 5, 8, 255):
        for value in VALUES:
            yield {"register": WORDS[value % 7], "width": width, "value": value}, JUNK[value % 5]
    for register in WORDS:
        yield {"register": register, "width": 2, "value": 0x1234}, b""


def done_messages():
    for ok in (0, 1):
        for content in JUNK:
            yield {"ok": ok}, content


def nibe_messages():
    for command in (*paper.COMMANDS, 0x00, 0x5F, 0x61, 0x63, 0x67, 0x6D, 0xC0, 0xFF):
        for length in (0, 1, 2, 3, 4, 5, 6, 7, 254, 255, 256, 300):
            yield {"command": command}, pattern(length)
        for content in (b"\x00", b"\x01", b"\x02", b"\xff", b"\x00\x00", b"\x01\x00"):
            yield {"command": command}, content


def homiq_contents():
    """CMD to TYPE: commands with values, then IDs and types, then the fields' lengths and characters."""
    for letter, count in ((b"O", 12), (b"I", 18)):
        for i in range(count):
            for value in (b"0", b"1"):
                yield b"%s.%d;%s;0H;0;42;s" % (letter, i, value)
        for number in b"|00|01|09|015|-1|+1|1.|x|99|100|256|265|429496|99999".split(b"|"):
            yield b"%s.%s;1;0H;0;42;s" % (letter, number)
        for value in b"|2|00|01|10|on|x".split(b"|"):
            yield b"%s.3;%s;0H;0;42;s" % (letter, value)
    for command in b"O|I|O3|I3|o.3|i.3|U.3|OO.3|UD|ud|U|UDD|D|HB|hb|H|HBB|O.1.|I.-0".split(b"|"):
        for value in b"0|1|u|d|s|x|U|ud|11".split(b"|"):
            yield b"%s;%s;0H;0;42;s" % (command, value)
    for number in b"0|00|000|1|9|10|99|100|510|511|512|513|999|1000|007|01||-1|+1|4x|x| 1|4294967297".split(b"|"):
        for kind in (b"s", b"a"):
            yield b"I.3;1;0H;0;%s;%s" % (number, kind)
    for kind in b"|x|S|A|ss|sa|as| |\x00|b|r|t".split(b"|"):
        yield b"HB;1;0H;0;42;" + kind
    full = (b"ABCDEFGH", b"0123456789ABCDEF", b"0HJK", b"0LMN")
    yield b";".join(full) + b";511;s"
    for at in range(4):
        for field in (b"", full[at][:1], full[at][:-1], full[at], full[at] + b"Z"):
            yield b";".join([*full[:at], field, *full[at + 1 :], b"42", b"s"])
            yield b";".join([*(b"UD", b"u", b"0", b"1")[:at], field, *(b"UD", b"u", b"0", b"1")[at + 1 :], b"42", b"a"])
        for c in b" !:<=>?~\x7f\x80\xff\x00\r\n":
            fields = [b"HB", b"1", b"0H", b"0"]
            fields[at] = bytes([c])
            yield b";".join(fields + [b"42", b"s"])
    yield from b"|;|;;;;;|HB|HB;1;0H;0;42|HB;1;0H;0;42;s;|;HB;1;0H;0;42;s|HB;1;0H;0;42;s;134|HB;1;0H;0;0;42;s".split(b"|")
    yield from (paper.HOMIQ_G, bytes(64), b"A" * 64, b"A" * 1100, b";" * 1100)


def homiq_messages():
    for content in homiq_contents():
        yield {}, content


MESSAGES = {
    "read": read_messages,
    "set": set_messages,
    "answer": answer_messages,
    "press": press_messages,
    "tail": fixed_messages,
    "link": link_messages,
    "command": command_messages,
    "climate": climate_messages,
    "state": state_messages,
    "break": fixed_messages,
    "end": fixed_messages,
    "text": text_messages,
    "response": response_messages,
    "ask": ask_messages,
    "reply": valued_messages,
    "put": valued_messages,
    "done": done_messages,
    "nibe": nibe_messages,
    **{name: homiq_messages for name in table.HOMIQ},
}


# ---- what is asked of them


def encode_cases(name, fields, content):
    """As its own kind into rooms just long enough, one too short, none and longer; then as each other kind."""
    kind = table.KINDS[name]
    made = table.encode(kind, name, fields, content)
    rooms = (len(made), len(made) - 1, 0, len(made) + 3) if isinstance(made, bytes) else (0, 64)
    for room in rooms:
        yield Case("encode " + name, "encode", kind, name, fields, content, room)
    for other in ALL_KINDS:
        if other != kind:
            yield Case("encode as another kind " + name, "encode", other, name, fields, content, 64 * (len(content) & 1))


FAR = 2**64 - 1


def line_cases(test, asked, made, name, fields, content):
    """A line into a room with just as many bytes left, one fewer, more, none, and a place beyond the room."""
    at, length = (0, FAR, 65535)[len(content) % 3], (0, 16, FAR)[len(content) % 3]
    line = made(name, fields, content, at, length)
    n = len(line) if isinstance(line, bytes) else 64
    for room, to in ((n, 0), (n + 3, 3), (n + 9, 4), (n - 1, 0), (n + 2, 3), (0, 0), (n, n), (n, n + 1), (n, FAR)):
        yield Case(test, asked, table.KINDS[name], name, fields, content, room, to, at, length)


def standing_cases(name, fields, content):
    """Whether it is allowed; and its line."""
    yield Case("allowed " + name, "allowed", table.KINDS[name], name, fields, content)
    yield from line_cases("line of " + name, "line", line_made, name, fields, content)


# the tags that the content of a row is asked with: Nest's in both directions, digits as a link's and as a press's
ASKED_WITH = {
    **{name: ("command", "response") for name in ("command", "text", "response")},
    **{name: ("link", "press") for name in ("link", "press")},
    **{name: (name,) for name in ("tail", "nibe", "homiq")},
}


def content_cases(name, fields, content):
    """The message that the content of a row is, and its line."""
    payload = fields["digits"] if name == "press" else content
    for tag in ASKED_WITH.get(name, ()):
        yield Case("meant, " + tag, "meant", table.KINDS[tag], tag, fields, payload)
        yield from line_cases("line of a content, " + tag, "content line", content_line, tag, fields, payload)
    if name == "homiq":
        yield Case("is_payload", "payload", content=content)


def forced(name, fields, content):
    """The bytes that a message would have, right check values and all, even if a field is outside its limits; none if there are none."""
    kind = table.KINDS[name]
    made = table.MAKE[name](fields, content) if fields.get("width", 1) in paper.WIDTHS else None
    if made is not None:
        return table.frame(kind, made)
    if name == "press":
        return b"#N" + fields["digits"] + b"\r"
    if name == "link":
        try:
            return paper.link(content, over=bytes.fromhex(content.decode()))
        except ValueError:
            return paper.link(content, over=b"")
    if name in ("command", "text", "response", "state"):
        return paper.nest(kind, fields.get("id", 0x0B), content)
    if name == "nibe" and len(content) < 256:
        return paper.nibe(fields["command"], content)
    return paper.homiq(content) if kind == 5 else None


def damaged(s, rng):
    """One byte changed at each place, or at some of a long one's; a byte more, a byte fewer."""
    places = range(len(s)) if len(s) <= 32 else sorted(rng.sample(range(len(s)), 8)) + [len(s) - 1, len(s) - 2, 3, 4]
    for at in places:
        changed = rng.choice((s[at] ^ 1 << rng.randrange(8), s[at] ^ 0x20, rng.randrange(256)))
        yield s[:at] + bytes([changed]) + s[at + 1 :]
    extra = bytes([rng.choice((0, 0x0A, 0x0D, 0xFF, s[-1]))])
    yield from (s + extra, extra + s, s[:-1], s[1:])


def message_in(kind, s):
    """The name of the message that a frame has, for the test's name."""
    found = table.decode(kind, s)
    return "what is none of kind %d" % kind if isinstance(found, int) else found[0]


def decode_cases(kind, s, rng):
    """As its own kind and as each other, then damaged, then twice."""
    name = message_in(kind, s)
    for other in ALL_KINDS:
        yield Case("decode " + name if other == kind else "decode as another kind " + name, "decode", other, content=s)
    for other in (*damaged(s, rng), (s + s)[:1100]):
        yield Case("decode damaged " + name, "decode", kind, content=other)


def acknowledge_cases(test, s):
    made = table.acknowledge(s)
    rooms = (len(made), len(made) - 1, 0, len(made) + 3) if isinstance(made, bytes) else (0, 64)
    for room in rooms:
        yield Case(test, "acknowledge", content=s, room=room)


def field_cases(content):
    for number in (*range(8), 255, 2**32 - 1):
        yield Case("field", "field", fields={"number": number}, content=content)


def id_cases():
    """Each ID, many numbers that are none, and other texts: wherever one is read, and what follows it."""
    for number in [b"%d" % i for i in range(601)] + b"|00|000|0000|01|-0|+0| 0|0 ".split(b"|"):
        content = b"HB;1;0H;0;%s;s" % number
        s = paper.homiq(content)
        yield Case("each ID found", "search", 5, content=s)
        yield Case("each ID decoded", "decode", 5, content=s)
        yield Case("each ID encoded", "encode", 5, "beat", content=content, room=60)
        yield Case("each ID acknowledged", "acknowledge", content=s, room=60)
    for number in (*range(601), 1023, 1024, 65535):
        yield Case("the ID after each", "next id", fields={"id": number})


def limit_cases():
    """All of the messages above."""
    rng = random.Random(0)
    seen = set()
    for name in table.NAMES:
        for fields, content in MESSAGES[name]():
            yield from encode_cases(name, fields, content)
            yield from standing_cases(name, fields, content)
            yield from content_cases(name, fields, content)
            kind, s = table.KINDS[name], forced(name, fields, content)
            if s is None or len(s) > 1100 or (kind, s) in seen:
                continue
            seen.add((kind, s))
            yield from decode_cases(kind, s, rng)
    for content in homiq_contents():
        s = paper.homiq(content)[:1100]
        yield from acknowledge_cases("acknowledge", s)
        yield from field_cases(content)
        for other in damaged(s, rng) if len(s) < 64 else ():
            yield from acknowledge_cases("acknowledge damaged", other)
    yield from id_cases()
    for s in (paper.LINK_A, paper.RESET, paper.ASK, b""):
        yield from acknowledge_cases("acknowledge", s)
        yield from field_cases(s)
    for length in LENGTHS[:-2] + (18, 24, 1000):
        yield Case("voltages", "voltages", content=pattern(length))
    for name in table.RESPONSES:
        for fields, content in MESSAGES[name]():
            yield Case("pair", "pair", 3, name, fields)


# ---- random ones


def any_word(rng):
    return rng.choice((rng.choice(WORDS), rng.choice(IDS), rng.randrange(65536)))


def any_fields(name, rng):
    """Each field that the row has, most of them within their limits."""
    width = rng.choice((1, 2, 4, 4, rng.randrange(256)))
    drawn = {
        "group": rng.choice((1, 2, 1, 2, rng.randrange(256))),
        "address": any_word(rng),
        "third": rng.randrange(256),
        "out": rng.randbytes(6),
        "digits": bytes(rng.choice(b"0123456789ABCDEF") for _ in range(6)),
        "id": any_word(rng),
        "temperature": rng.randrange(-32768, 32768),
        "humidity": any_word(rng),
        "register": any_word(rng),
        "width": width,
        "value": rng.randrange(1 << rng.choice((8 * min(width, 4) or 8, 32))),
        "ok": rng.randrange(2),
        "command": rng.choice((*paper.COMMANDS, rng.randrange(256))),
    }
    if name == "text":
        drawn["id"] = rng.choice((*table.TEXTS, *table.TEXTS, any_word(rng)))
    if rng.randrange(8) == 0:
        drawn["digits"] = bytes(rng.choice(b"0123456789ABCDEFabcdefgG/:@") for _ in range(6))
    return {key: drawn[key] for key in FIELD_NAMES[name]}


FIELD_NAMES = {name: list(next(iter(MESSAGES[name]()))[0]) for name in table.NAMES}


def any_homiq(rng):
    def text(most):
        return bytes(rng.choice(b"!#09:=?AZaz~.OIUDHB") for _ in range(rng.randint(1, most)))

    command = rng.choice((b"O.%d" % rng.randrange(12), b"I.%d" % rng.randrange(18), b"UD", b"HB", text(8), text(9)))
    value = rng.choice((b"0", b"1", b"u", b"d", b"s", text(16), text(17)))
    number = b"%d" % rng.choice((rng.randint(0, 511), rng.randint(0, 511), rng.randint(0, 600)))
    s = b";".join((command, value, text(4), text(4), number, rng.choice((b"s", b"a"))))
    if rng.randrange(8) == 0:
        at = rng.randrange(len(s))
        s = s[:at] + rng.choice((b"", b";", bytes([rng.randrange(256)]))) + s[at + rng.randrange(2) :]
    return s


def any_content(name, rng):
    kind = table.KINDS[name]
    if kind == 5:
        return any_homiq(rng)
    if name == "link":
        payload = rng.randbytes(rng.choice((1, 2, 3, 3, 9, 10, 10, 11, rng.randint(0, 123))))
        if payload and rng.randrange(2):
            payload = bytes([rng.choice((0x12, 0x17, 0x15, 0x16))]) + payload[1:-1] + b"\xff"
        digits = payload.hex().upper()
        return (digits if rng.randrange(8) else rng.choice((digits.lower(), digits[:-1], digits + "0", digits + "G"))).encode()
    if rng.randrange(40) == 0:
        return rng.randbytes(rng.choice((1023, 1024, 1025) if kind in (2, 3) else (254, 255, 256)))
    return rng.choice((b"BRK", b"", rng.randbytes(rng.choice((1, 2, 3, 4, 6, 15, 16, 17, 20))), rng.randbytes(rng.randrange(40))))


def random_cases(seed, count=3000):
    rng = random.Random(seed)
    for _ in range(count):
        name = rng.choice(table.NAMES)
        kind = table.KINDS[name]
        fields, content = any_fields(name, rng), any_content(name, rng)
        made = table.encode(kind, name, fields, content)
        room = max(0, len(made) + rng.choice((-1, 0, 0, 5, rng.randint(-20, 20)))) if isinstance(made, bytes) else rng.randrange(80)
        asked = kind if rng.randrange(8) else rng.choice(ALL_KINDS)
        yield Case("encode at random " + name, "encode", asked, name, fields, content, room)
        yield Case("allowed at random " + name, "allowed", kind, name, fields, content)
        at, length, to = rng.randrange(1 << rng.choice((8, 64))), rng.randrange(1 << rng.choice((8, 64))), rng.randrange(9)
        made = line_made(name, fields, content, at, length)
        room = to + max(0, len(made) + rng.choice((-1, 0, 0, 5, rng.randint(-20, 20)))) if isinstance(made, bytes) else rng.randrange(80)
        yield Case("line at random of " + name, "line", kind, name, fields, content, room, to, at, length)
        yield from (case._replace(test=case.test + " at random") for case in content_cases(name, fields, content))
        s = forced(name, fields, content)
        if s is None or len(s) > 1100:
            continue
        yield Case("decode at random, kind %d" % kind, "decode", kind, content=s)
        for other in rng.sample(list(damaged(s, rng)), 2):
            yield Case("decode damaged at random, kind %d" % kind, "decode", kind, content=other)
        if kind == 5:
            room = rng.choice((64, rng.randrange(52)))
            yield Case("acknowledge at random", "acknowledge", content=s, room=room)
            yield Case("field at random", "field", fields={"number": rng.randrange(8)}, content=content)
        if kind == 3:
            yield Case("voltages at random", "voltages", content=content[:1024])
            yield Case("pair at random", "pair", 3, name, fields)


# ---- the script's own implementation, held to document 01 and to itself


def known():
    """The known points (a), (b), (c), (e), (g) and (h) of document 01, as table.py has them."""
    yield table.decode(1, paper.LINK_A) == ("link", {}, 3, 9)
    yield table.decode(1, paper.LINK_B) == ("read", {"group": 1, "address": 0x4707}, 3, 9)
    yield table.encode(1, "link", {}, b"110000") == paper.LINK_A
    yield table.encode(1, "link", {}, b"120747") == 6
    yield table.encode(1, "read", {"group": 1, "address": 0x4707}, b"") == paper.LINK_B
    yield table.decode(2, paper.RESET) == ("command", {"id": 255}, 7, 7)
    yield table.encode(2, "command", {"id": 255}, b"") == paper.RESET
    yield table.decode(4, paper.ASK_E) == ("ask", {"register": 40004}, 3, 5)
    yield table.encode(4, "ask", {"register": 40004}, b"") == paper.ASK_E
    yield table.decode(5, paper.HOMIQ_G)[0] == "input" and table.decode(5, paper.HOMIQ_G.replace(b"134", b"143")) == 5
    yield table.acknowledge(paper.HOMIQ_G) == paper.HOMIQ_H and table.acknowledge(paper.HOMIQ_H) == 5
    yield table.of("link", {}, b"110000") == ("link", {}) and table.of("link", {}, b"120747") == ("read", {"group": 1, "address": 0x4707})
    yield line_made("command", {"id": 255}, b"", 0, 9) == b'{"at":0,"len":9,"msg":"command","id":255,"data":""}\n'


def reached(cases, exchanges):
    """Each row is encoded and decoded, and each refusal given that an encoder, a decoder and an acknowledgement have."""
    seen = {(case.asked, case.name, " ".join(first.split(" ")[:2])) for case, ((_, first), *_) in zip(cases, exchanges)}
    refused = {(what, told[-1:]) for what, _, told in seen if told.startswith("refused")}
    yield {name for what, name, told in seen if what == "encode" and told.startswith("ok")} == set(table.NAMES)
    yield {told for what, _, told in seen if what == "decode"} == {*("ok " + name for name in table.NAMES), "refused 2", "refused 5"}
    yield {no for what, no in refused if what == "encode"} == set("24567")
    yield {no for what, no in refused if what == "acknowledge"} == set("45")
    yield {name for what, name, told in seen if (what, told) == ("encode", "refused 6")} == table.LAST
    for what, refusals, names in (("allowed", "56", table.NAMES), ("line", "45", table.NAMES), ("content line", "5", table.TAGS)):
        yield {name for asked, name, told in seen if asked == what and told.startswith("ok")} == set(names)
        yield {no for asked, no in refused if asked == what} == set(refusals)
    yield {name for what, name, told in seen if (what, told) == ("allowed", "refused 6")} == table.LAST
    meanings = {" ".join(right.split(" ")[:2]) for case, exchange in zip(cases, exchanges) if case.asked == "meant" for _, right in exchange}
    yield meanings == {*("ok " + name for name in table.NAMES), "refused 5"}
    yield {right for case, ((_, right), *_) in zip(cases, exchanges) if case.asked == "payload"} == {"ok true", "ok false"}


def round_trip(case):
    """Whether what table.py encodes it decodes to the same message."""
    made = table.encode(case.kind, case.name, case.fields, case.content)
    if isinstance(made, int):
        return True
    name, fields, first, last = table.decode(case.kind, made)
    beside = made[first:last] == case.content or name not in table.LAST | {"command", "state", *table.HOMIQ}
    return (name, fields) == (case.name, case.fields) and beside


# ---- running


def compare(cases, exchanges, lines):
    """The tests that failed, with an example of each of the first few."""
    wrong = {}

    def fails(test):
        wrong[test] = wrong.get(test, 0) + 1
        return wrong[test] == 1

    requests = sum(map(len, exchanges))
    if len(lines) != requests:
        print("%d answers to %d requests" % (len(lines), requests))
        fails("lines")
    answers = iter(lines)
    for case, exchange in zip(cases, exchanges):
        if case.asked == "encode" and not round_trip(case):
            fails(case.test)
            print("not the same way back: %s" % (case,))
        for (line, right), found in zip(exchange, answers):
            if found != right and fails(case.test) and len(wrong) <= 5:
                print("%s\n  %s\n  expected %s\n  answered %s" % (case.test, line, right, found))
    for test, count in wrong.items():
        print("%s: %d wrong" % (test, count))
    return wrong


def main(arguments):
    files = arguments[1:3] if arguments[:1] == ["--files"] else []
    rest = arguments[3:] if files else arguments
    if len(rest) > 1 or not all(word.isdigit() for word in rest) or len(files) not in (0, 2):
        print(__doc__, file=sys.stderr)
        return 2
    seeds = [int(word) for word in rest] or [1, random.SystemRandom().randrange(1 << 32)]
    cases = list(limit_cases()) + [case._replace(test="%s, seed %d" % (case.test, seed)) for seed in seeds for case in random_cases(seed)]
    exchanges = [list(pairs(case)) for case in cases]
    requests, answers = zip(*(pair for exchange in exchanges for pair in exchange))
    if files:
        for name, lines in zip(files, (requests, answers)):
            with open(name, "w", encoding="ascii") as f:
                f.writelines(line + "\n" for line in lines)
        return 0
    own = [*known(), *reached(cases, exchanges)]
    wrong = compare(cases, exchanges, calls.run(requests))
    tests = {case.test for case in cases}
    failed = len(wrong) + own.count(False)
    print("seeds %s, %d answers compared, %d of the script's own tests hold" % (" ".join(map(str, seeds)), len(answers), own.count(True)))
    print("%d passed, %d failed" % (len(tests) + len(own) - failed, failed))
    return 1 if failed else 0


if __name__ == "__main__":
    sys.exit(main(sys.argv[1:]))
