#!/usr/bin/env python3
"""Commands as JSON, run: what `asked` and `shapes` answer is held to a reader in Python, over Python's own reader of JSON.

tests/asked.py [COUNT [SEED]]   proves and builds the programs if that has not been done, asks bin/calls of COUNT commands, 10,000 if COUNT
                                is not given, and compares. Without a seed, half of the commands are fixed and half new; the seed is printed.

A command is the line of a frame, of any row of the message table, with `kind` in place of `at` and `len`, its members in any order, blanks
and other spellings. Half of them have one change more. Others are made to lack one thing, or two, of which the first is told. Lines are those
of lines.py, frames and limits those of table.py; texts are read as in grammar.py. Nothing is taken from the Rattle code.

BOLSTERWEFT_CALLS names another command to be held to the same. The last line is `N passed, M failed`: a test is a sort of change, over all
its commands, for a seed; or a time.
"""
import collections
import json
import os
import random
import re
import sys

sys.dont_write_bytecode = True  # or Python leaves a folder beside those that are imported

import calls
import grammar
import lines
import listing  # its check values are quick
import paper
import proved
import rows
import table
from calls import answer, in_room, request
from grammar import Members, Number

sys.set_int_max_str_digits(0)  # a number may be as long as a text

ENCODE, READ, FIRST = ("asked::" + name for name in ("encode", "read", "lacks::first"))
NAME_OF, SORT_OF = "shapes::name_of", "shapes::sort_of"

# ---- what Python says

DECIMALS = {**listing.DECIMALS, "value": 0}
HEX = {"addr": "[0-9A-F]{4}", "out": "[0-9A-F]{12}", "data": "([0-9A-F]{2})*"}
# what table.py takes for granted of numbers; the other limits are its own
BYTE, WORD = range(1 << 8), range(1 << 16)
WITHIN = {"third": BYTE, "cmd": BYTE, "id": WORD, "reg": WORD, "hum": WORD, "temp": range(-(1 << 15), 1 << 15), "width": paper.WIDTHS}


def told(text):
    """The kind, the message's name, its fields and the content that a text says; or the refusal's number: 11, 12, 5 or 6."""
    found = grammar.values(text, grammar.members)
    if not found:
        return 11
    said = spelt(found[0])
    if said is None:
        return 12
    if not is_within(said):
        return 5
    fields, content = listing.said(said)
    why = table.allowed(said["msg"], fields, content)
    return why or (said["kind"], said["msg"], fields, content)


def framed(text):
    """The frame, or the refusal's number."""
    found = told(text)
    return found if isinstance(found, int) else table.encode(*found)


def spelt(value):
    """The members under their names, if they are just those of a message and each is spelt as in a line; else none."""
    given = dict(value) if isinstance(value, Members) else {}
    msg = given.get("msg")
    kind = table.KINDS.get(msg) if type(msg) is str else None
    if kind is None or whole(given.get("kind")) != kind:
        return None
    names = members_in(msg)
    if set(given) != {"kind", "msg", *names}:
        return None
    said = {name: of_sort(name, msg, given[name]) for name in names}
    if None in said.values() or msg == "state" and not agree(said):
        return None
    return {"kind": kind, "msg": msg, **said}


def of_sort(name, msg, value):
    """The value of a member, or none if it is of another sort or spelling."""
    if name in DECIMALS:
        return reading(value, DECIMALS[name])
    if name == "ok":
        return value if type(value) is bool else None
    if name in listing.WHOLE or (name, msg) == ("cmd", "nibe"):
        return whole(value)
    if type(value) is not str or any(character > "\xff" for character in value):
        return None
    pattern = "[0-9A-F]{6}" if msg == "press" else HEX.get(name, "(?s:.*)")
    return value if re.fullmatch(pattern, value) else None


def whole(value):
    return int(value) if type(value) is Number and re.fullmatch("0|-?[1-9][0-9]*", value) else None


def reading(value, decimals):
    """A reading's four members, if they agree. Whether a raw number out of the range fits a single is not asked."""
    given = dict(value) if isinstance(value, Members) else {}
    if set(given) != {"raw", "dec", "text", "f32"}:
        return None
    raw, text, single = whole(given["raw"]), given["text"], given["f32"]
    if raw is None or whole(given["dec"]) != decimals or type(text) is not str or type(single) is not bool:
        return None
    fits = paper.survives(raw) if paper.LOWEST <= raw <= paper.HIGHEST else single
    return {"raw": raw} if text == lines.decimal(raw, decimals) and single == fits else None


def agree(state):
    """Whether the data are long enough for the voltages, and have these."""
    data = bytes.fromhex(state["data"])
    return len(data) >= 14 and [state[name]["raw"] for name in ("vin", "vop", "vbat")] == [table.u16(data, at) for at in (8, 10, 12)]


def is_within(said):
    """Whether each number is one that its field can have."""
    raw = {name: value["raw"] if name in DECIMALS else value for name, value in said.items()}
    if any(raw[name] not in limits for name, limits in WITHIN.items() if isinstance(raw.get(name), int)):
        return False
    return "value" not in raw or raw["value"] in range(1 << 8 * raw["width"])


def lack(text):
    """The first thing that a text lacks to be a command, in words."""
    found = grammar.values(text, grammar.members)
    if not found:
        return ("text",)
    if not isinstance(found[0], Members):
        return ("object",)
    given = dict(found[0])
    kind, msg = whole(given.get("kind")), given.get("msg")
    if kind not in table.OF_KIND:
        return "kind", "kind" in given
    if msg not in table.OF_KIND[kind]:
        return "msg", "msg" in given
    names = members_in(msg)
    for number, name in enumerate(names):
        if name not in given or of_sort(name, msg, given[name]) is None:
            return "member", 1 + table.NAMES.index(msg), number, name in given
    if len(given) > 2 + len(names):
        return ("extra",)
    return ("volts",) if msg == "state" and not agree({name: of_sort(name, msg, given[name]) for name in names}) else ("nothing",)


def members_in(msg):
    """The names of a message's members behind `msg`, in the order of its line."""
    return [*filter(None, listing.ORDER[msg].split(","))]


def member_at(row, number):
    """The message of a row, counted from 1, and the name of its member, counted from 0; none if there is none."""
    msg = table.NAMES[row - 1] if 0 < row <= len(table.NAMES) else "tail"
    names = members_in(msg)
    return (msg, names[number]) if number < len(names) else None


def sort_told(msg, name):
    """What the value of a member must be, in words."""
    if name in DECIMALS:
        return "reading", DECIMALS[name]
    if name == "ok":
        return ("truth",)
    if name in listing.WHOLE or (name, msg) == ("cmd", "nibe"):
        return ("number",)
    if msg == "press":
        return "digits", 6
    return {"addr": ("bytes", 2), "out": ("bytes", 6), "data": ("content",)}.get(name, ("text",))


def members_asked():
    """Requests about each member of each row, and about rows and members that there are not, with what Python answers."""
    for row in range(31):
        for number in range(9):
            found = member_at(row, number)
            yield request(SORT_OF, row, number), answer(sort_told(*found) if found else ("nothing",))
            for room in range(10):
                yield request(NAME_OF, row, number, room), in_room(found[1].encode() if found else 5, room)


def asked_of(text, pick):
    """The requests about a text, each with what Python answers, into rooms just long enough, a byte too short, empty and longer."""
    found = told(text)
    frame = framed(text)
    yield request(ENCODE, text, room := room_for(frame, pick)), in_room(frame, room)
    content, values = found, ()
    if not isinstance(found, int):
        kind, name, fields, content = found
        values = (kind, *calls.message(name, fields), len(content))
    yield request(READ, text, room := room_for(content, pick)), in_room(content, room, values=values)
    yield request(FIRST, text), answer(lack(text))


def room_for(written, pick):
    if isinstance(written, int):
        return pick.choice((0, 1, 12, 40, 300))
    return max(0, pick.choice((len(written), len(written), len(written) - 1, len(written) + 1, len(written) + pick.randrange(40), 0)))


# ---- commands that are made


def good_frame(pick):
    """A frame of any row, each as likely as the others."""
    return frame_of(pick.choice(table.NAMES), pick)


def frame_of(name, pick):
    while True:
        made = table.encode(table.KINDS[name], name, rows.any_fields(name, pick), rows.any_content(name, pick))
        if isinstance(made, bytes):
            return table.KINDS[name], made


def members_of(kind, frame):
    """The members of a frame's line, `kind` in place of at and len: a list of names and values, which can be changed."""
    line = lines.line(kind, 0, frame)
    read = json.loads(line, object_pairs_hook=Members, parse_int=Number)
    return Members([("kind", Number(kind)), *read[2:]])


def written(value, pick):
    """One of the texts of a value."""
    if isinstance(value, Number):
        return value
    if isinstance(value, str):
        return grammar.string(value, pick) if pick.random() < 0.5 else json.dumps(value, ensure_ascii=pick.random() < 0.5 or not is_utf8(value))
    if isinstance(value, Members):
        parts = [grammar.member(name, written(inner, pick), pick) for name, inner in value]
        pick.shuffle(parts)
        return grammar.enclosed("{}", parts, pick)
    if isinstance(value, list):
        return grammar.enclosed("[]", [written(inner, pick) for inner in value], pick)
    return json.dumps(value)


def is_utf8(text):
    return not any("\ud800" <= character <= "\udfff" for character in text)


def text_of(value, pick):
    return grammar.encoded(grammar.blanks(pick) + written(value, pick) + grammar.blanks(pick))


# ---- changes of their members

NAMES = ["at", "len", "time", "values", "", "Kind", "kind\0", "msg ", "data", "id", "text", "raw", "val", "ok", "reg", "group", "cmd"]
OTHERS = [Number("0"), Number("1"), "", "1", "true", True, False, None, [], Members(), ["1"], Members([("raw", Number("1"))])]
DIGITS = "0 1 2 3 4 5 6 9 10 13 255 256 511 512 32767 32768 65535 65536 4294967295 4294967296 99999999999999999999999".split()
CHARACTERS = "0AFGagsOI.;<>~ \0\x7f\x80\xe9\xff\u0100\u20ac\ud800\U0001f600"
RAWS = (0, -1, 1, 255, 256, -32768, -32769, 32767, 32768, 65535, 65536, 16777216, 16777217, 33554434, -2147483648, -2147483649)
RAWS += (2147483648, 4294967040, 4294967295, 4294967296, 10**23 - 1, -(10**23), 2**64, 2**128)


def places(value, is_one):
    """Each list of members, here or within, and a place in it whose value is one."""
    for at, (_, inner) in enumerate(value):
        if is_one(inner):
            yield value, at
        if isinstance(inner, Members):
            yield from places(inner, is_one)


def change(value, pick, is_one, to):
    """Puts another value in one of the places; none if there are none."""
    found = list(places(value, is_one))
    if not found:
        return None
    members, at = pick.choice(found)
    members[at] = members[at][0], to(members[at][1])
    return value


def lost(value, pick):
    members, at = pick.choice([*places(value, lambda inner: True)])
    del members[at]
    return value


def inside(value, pick):
    """The members, or those of a reading."""
    return pick.choice([value, *(inner for _, inner in value if isinstance(inner, Members))])


def added(value, pick):
    inside(value, pick).append((pick.choice(NAMES), pick.choice(OTHERS)))
    return value


def twice(value, pick):
    members = inside(value, pick)
    members.append((pick.choice(members)[0], pick.choice(OTHERS)))
    return value


def renamed(value, pick):
    members, at = pick.choice([*places(value, lambda inner: True)])
    name, inner = members[at]
    members[at] = pick.choice((name.upper(), name[:-1], name + "s", "\u0131" + name[1:], pick.choice(NAMES))), inner
    return value


def other_sort(value, pick):
    return change(value, pick, lambda inner: True, lambda inner: pick.choice((*OTHERS, [inner], str(inner))))


def other_number(value, pick):
    def to(number):
        ways = (pick.choice(DIGITS), "-" + pick.choice(DIGITS), number + ".0", number + "e0", "-0", "0" + number, "+" + number, number + "0")
        return Number(pick.choice((*ways, str(int(number) + 1), str(pick.randrange(70000)))))

    return change(value, pick, lambda inner: type(inner) is Number, to)


def other_string(value, pick):
    def to(string):
        at = pick.randrange(len(string) + 1)
        character = pick.choice(CHARACTERS)
        ways = (string[:at] + character + string[at:], string[:at] + character + string[at + 1 :], string[:at] + string[at + 1 :])
        return pick.choice((*ways, "", string.lower(), string * 2, string[: at & ~1], character * pick.choice((1, 2, 4, 5, 8, 16, 17))))

    return change(value, pick, lambda inner: type(inner) is str, to)


def other_reading(value, pick):
    """Another raw number, and mostly the text and f32 that it has."""

    def to(reading):
        said = dict(reading)
        raw = pick.choice((*RAWS, pick.randrange(-40000, 70000)))
        decimals = int(said["dec"]) if pick.random() < 0.8 else pick.randrange(5)
        in_range = paper.LOWEST <= raw <= paper.HIGHEST
        fits = paper.survives(raw) if in_range and pick.random() < 0.9 else pick.choice((True, False))
        text = lines.decimal(raw if pick.random() < 0.9 else raw + 1, decimals)
        return Members([("raw", Number(raw)), ("dec", Number(decimals if pick.random() < 0.9 else 0)), ("text", text), ("f32", fits)])

    return change(value, pick, lambda inner: isinstance(inner, Members), to)


def other_message(value, pick):
    """Another message or another kind, or both."""
    said = dict(value)
    name = pick.choice((pick.choice(table.NAMES), pick.choice(table.OF_KIND[table.KINDS[said["msg"]]]), "frame", "Read", ""))
    kind = pick.choice((said["kind"], table.KINDS.get(name, 0), pick.choice(("0", "1", "2", "3", "4", "5", "6", "9", "-1", "1.0", "01"))))
    return Members([("kind", Number(kind)), ("msg", name), *value[2:]])


def as_the_rest(value, pick):
    """The content as that of the last message of its kind, or of a text: one that a message above has may not be."""
    said = spelt(value)
    first, *others = table.MAKE[said["msg"]](*listing.said(said))
    if said["kind"] == 5:
        return Members([value[0], ("msg", "homiq"), *value[2:]])
    [payload] = others
    data = ("data", payload.hex().upper())
    if said["kind"] == 1:
        return Members([value[0], ("msg", "link"), data])
    if said["kind"] == 4:
        return Members([value[0], ("msg", "nibe"), ("cmd", Number(first)), data])
    shown = pick.choice(((("msg", "response"), data), (("msg", "text"), ("text", payload.decode("latin-1")))))
    return Members([("kind", Number(3)), ("id", Number(first)), *shown])


def other_length(value, pick):
    """Bytes or characters at the limits of their number: a state's are cut near its voltages too."""

    def to(string):
        count = pick.choice((0, 1, 8, 13, 14, 15, 16, 17, 121, 122, 123, 254, 255, 256, 257, 1023, 1024, 1025))
        return (string * (2 * count // max(len(string), 1) + 1))[: 2 * count]

    return change(value, pick, lambda inner: type(inner) is str and len(inner) % 2 == 0 and inner not in table.KINDS, to)


def deeper(value, pick):
    """A member that is nested as deep as may be, or one deeper."""
    levels = pick.choice((grammar.DEEPEST - 2, grammar.DEEPEST - 1, grammar.DEEPEST))
    inner = Number("1")
    for _ in range(levels - 1):
        inner = [inner]
    return Members([*value, (pick.choice(NAMES), inner)])


# how often each is tried; few messages have readings
CHANGES = {lost: 2, added: 2, twice: 1, renamed: 2, other_sort: 2, other_number: 5, other_string: 3, other_reading: 15}
CHANGES |= {other_message: 2, as_the_rest: 2, other_length: 4, deeper: 1}


# ---- changes of their texts


def spoilt(text, pick):
    return grammar.spoilt(text, pick)


def lengthened(text, pick):
    """As long as may be, or a byte off, by blanks."""
    more = grammar.MOST_BYTES + pick.randint(-1, 1) - len(text)
    before = pick.randrange(more + 1)
    return b" " * before + text + b"\n" * (more - before)


def enclosed(text, pick):
    """What is no object, or begins otherwise."""
    return pick.choice((b"[%b]" % text, b"\xef\xbb\xbf" + text, b'{"a":%b}' % text, text + text, text + b",", b"\0" + text, b'"%b"' % text))


TEXT_CHANGES = [spoilt, lengthened, enclosed]


def changed(value, pick):
    """The name of a change, and a text with it."""
    if pick.random() < 0.2:
        change_text = pick.choice(TEXT_CHANGES)
        return change_text.__name__, change_text(text_of(value, pick), pick)
    while True:
        [change_members] = pick.choices([*CHANGES], CHANGES.values())
        other = change_members(value, pick)
        if other is not None:
            return change_members.__name__, text_of(other, pick)


def drawn(count, seed):
    """Commands under the names of their changes; those without one with the frame that their line is of."""
    pick = random.Random(seed)
    for nth in range(count):
        kind, frame = good_frame(pick)
        value = members_of(kind, frame)
        change_name, text = changed(value, pick) if nth % 2 else ("good", text_of(value, pick))
        yield "%s, seed %d" % (change_name, seed), text, None if nth % 2 else frame


# ---- commands that are made to lack something

LOST = object()  # in place of a value: the member is taken away


def lacks_of(row, name, data):
    """What a command of a row can lack, in the order in which it is told, with the member that is put there for it, and its value."""
    for member in ("kind", "msg"):
        yield (member, False), member, LOST
        yield (member, True), member, None
    for number, member in enumerate(members_in(name)):
        yield ("member", row, number, False), member, LOST
        yield ("member", row, number, True), member, None
    yield ("extra",), "more", Number("1")
    if name == "state":
        yield ("volts",), "data", data[:16] + ("1" if data[16] == "0" else "0") + data[17:]


def aimed(seed):
    """Commands of each row that lack one thing, or two: the first of them, and the text."""
    pick = random.Random(seed)
    for row, name in enumerate(table.NAMES, 1):
        value = members_of(*short_frame(name, pick))
        lacks = [*lacks_of(row, name, dict(value).get("data"))]
        for at, (first, *put) in enumerate(lacks):
            for _, *more in lacks[at:]:
                if more == put or more[0] != put[0]:
                    yield first, text_of(with_members(value, (put, more)), pick)


def short_frame(name, pick):
    """A frame whose command is no longer than a text may be, however it is spelt."""
    while True:
        kind, frame = frame_of(name, pick)
        if len(frame) < 300:
            return kind, frame


def with_members(value, changes):
    """The members, with these in place of those of the same names."""
    names = [name for name, _ in changes]
    return Members([*(one for one in value if one[0] not in names), *((name, new) for name, new in dict(changes).items() if new is not LOST)])


# ---- commands that are listed


def climate(temperature, humidity='{"raw":452,"dec":1,"text":"45.2","f32":true}'):
    return '{"kind":3,"msg":"climate","temp":%s,"hum":%s}' % (temperature, humidity)


def state(data, vin='{"raw":1,"dec":2,"text":"0.01","f32":true}'):
    volt = '{"raw":2,"dec":3,"text":"0.002","f32":true}'
    return '{"kind":3,"msg":"state","vin":%s,"vop":%s,"vbat":%s,"data":"%s"}' % (vin, volt, volt, data)


def reply(width, raw, text=None, single="true"):
    value = '{"raw":%s,"dec":0,"text":"%s","f32":%s}' % (raw, raw if text is None else text, single)
    return '{"kind":4,"msg":"reply","reg":40004,"width":%s,"value":%s}' % (width, value)


def homiq(msg="input", cmd="I.3", val="1", src="0H", number="42", sort="s"):
    return '{"kind":5,"msg":"%s","cmd":"%s","val":"%s","src":"%s","dst":"0","id":%s,"type":"%s"}' % (msg, cmd, val, src, number, sort)


def read(group="1", addr="4707", kind="1", more=""):
    return '{"kind":%s,"msg":"read","group":%s,"addr":"%s"%s}' % (kind, group, addr, more)


LONG = "9" * 23
VOLTS = "0000000000000000010002000200"
CLIMATE = bytes.fromhex("D5D5AA9602000400FBFFC401870D")
# the readings of request K4, and what is answered: a frame or a number
KNOWN = [
    (read(), paper.LINK_B),
    (' {"addr":"\\u0034707","group":1,"m\\u0073g":"read","\\u006Bind":1}\n', paper.LINK_B),
    ('{"kind":1,"\\u006bind":1,"msg":"tail"}', 11),
    ('{"kind":1,"msg":"tail"}', paper.TAILED),
    (read("3"), 5),
    (read("3", "c9a5"), 12),
    (read("1.0"), 12),
    ('{"kind":2,"msg":"tail"}', 12),
    ('{"kind":4,"msg":"done","ok":1}', 12),
    (climate('{"raw":-5,"dec":2,"text":"-0.05","f32":true}'), CLIMATE),
    (climate('{"f32":true,"t\\u0065xt":"\\u002d0.05","dec":2,"raw":-5}'), CLIMATE),
    (climate('{"raw":-5,"dec":2,"text":"-0.05","f32":false}'), 12),
    (climate('{"raw":32768,"dec":2,"text":"327.68","f32":true}'), 5),
    ('{"kind":3,"msg":"text","id":1,"text":"\xe9\\u0000\\/"}', bytes.fromhex("D5D5AA9601000300E9002F9EBD")),
    # kinds, names and members
    *((read(kind=kind), 12) for kind in ("0", "2", "3", "6", "9", "-1", "1.0", "-0", '"1"', LONG)),
    *((read(kind=kind), 11) for kind in ("01", "+1")),
    *((read(more=',"%s":%s' % more), 12) for more in (("at", "0"), ("len", "16"), ("time", '"0"'), ("values", "[]"), ("", "1"), ("Kind", "1"))),
    (read(more=',"\\u0061ddr":"4707"'), 11),
    *((text, 12) for text in ("{}", "[]", "1", '"read"', "null", '{"kind":1}', '{"msg":"tail"}', '{"kind":1,"msg":"\\uD800"}')),
    ("\ufeff" + read(), 11),
    ("", 11),
    # whole numbers
    *((read(group), 12) for group in ("1e0", "-0", '"1"', "true", "null")),
    *((read(group), 11) for group in ("01", "+1", "1.", ".1")),
    *((read(group), 5) for group in ("0", "-1", "256", LONG, "-" + LONG)),
    *((reply(width, "7"), 5) for width in ("0", "3", "8", "-1", LONG)),
    *((homiq(number=number), 5) for number in ("512", "-1", LONG)),
    (homiq(number="0"), paper.homiq(b"I.3;1;0H;0;0;s")),
    # hex
    *((read(addr=addr), 12) for addr in ("470", "47070", "", "470g", "470\\u0130", "\\ud8007")),
    *(('{"kind":1,"msg":"press","addr":"%s"}' % addr, 12) for addr in ("4707", "12ab34", "12AB3", "12AB3G", "12AB345")),
    *(('{"kind":1,"msg":"link","data":"%s"}' % data, 12) for data in ("1", "11000", "11000a", "11 0")),
    *(('{"kind":1,"msg":"link","data":"%s"}' % data, 5) for data in ("", "00" * 123)),
    ('{"kind":2,"msg":"command","id":1,"data":"%s"}' % ("00" * 1025), 5),
    ('{"kind":2,"msg":"command","id":1,"data":"%s0"}' % ("00" * 1025), 12),
    ('{"kind":1,"msg":"set","group":1,"addr":"4707","out":"0102030405"}', 12),
    # readings
    *((climate('{"raw":-5,"dec":%s,"text":"-0.05","f32":true}' % decimals), 12) for decimals in ("1", "3", "2.0", '"2"')),
    *((climate('{"raw":-5,"dec":2,"text":%s,"f32":true}' % text), 12) for text in ('"-.05"', '"-0.5"', '"-0.050"', "-0.05")),
    (climate('{"raw":-5,"dec":1,"text":"-0.5","f32":true}'), 12),
    (climate('{"raw":-5,"dec":2,"text":"-0.05"}'), 12),
    (climate('{"raw":-5,"dec":2,"text":"-0.05","f32":true,"more":1}'), 12),
    *((reply("4", "4294967296", single=single), 5) for single in ("true", "false")),
    *((reply("4", raw), 5) for raw in ("-2147483649", LONG, "-1")),
    *((reply("4", raw, text), 12) for raw, text in (("4294967296", "4294967295"), (LONG, LONG[1:]), ("-0", "0"), ("7.0", "7"))),
    (reply("4", "4294967296", single="1"), 12),
    (reply("4", "16777217", single="false"), paper.nibe(0x6A, bytes.fromhex("449C01000001"))),
    (reply("1", "256"), 5),
    # a state's voltages
    (state(VOLTS + "0000"), paper.nest(3, 11, bytes.fromhex(VOLTS + "0000"))),
    *((state(data), 12) for data in ("", VOLTS[:26], "00" * 16, "00" * 14)),
    *((state(data), 5) for data in (VOLTS, VOLTS + "00", VOLTS + "00" * 1011)),
    (state(VOLTS + "0000", '{"raw":65537,"dec":2,"text":"655.37","f32":true}'), 12),
    (state(VOLTS + "0000", '{"raw":%s,"dec":2,"text":"%s.99","f32":true}' % (LONG, LONG[2:])), 12),
    # strings
    *((homiq(sort=sort), 5) for sort in ("x", "", "ss")),
    *((homiq(src=src), 5) for src in ("", "0HHHH", "0;H", "0 H", "\xe9")),
    *((homiq(src=src), 12) for src in ("0HHHH\u20ac", "\u0100", "\\ud83d\\ude00")),
    (homiq("output", "O.10"), 5),
    (homiq("output"), 5),
    (homiq("homiq"), 6),
    *(('{"kind":3,"msg":"text","id":%s,"text":"a"}' % number, 5) for number in ("2", "65536", "-1")),
    ('{"kind":3,"msg":"text","id":1,"text":"BRK"}', 6),
    ('{"kind":3,"msg":"text","id":1,"text":"%s"}' % ("a" * 1025), 5),
    ('{"kind":3,"msg":"text","id":1,"text":"%s\u20ac"}' % ("a" * 1025), 12),
    ('{"kind":3,"msg":"response","id":47,"data":""}', 6),
    ('{"kind":1,"msg":"link","data":"120747"}', 6),
    ('{"kind":4,"msg":"nibe","cmd":108,"data":"01"}', 6),
    *(('{"kind":4,"msg":"nibe","cmd":%s,"data":"01"}' % command, 5) for command in ("97", "256", "-1")),
    *(('{"kind":4,"msg":"done","ok":%s}' % ok, 12) for ok in ("0", '"true"', "null")),
]


# what some of them lack
LACKING = [
    ("", "text"),
    ('{"kind":1,"\\u006bind":1,"msg":"tail"}', "text"),
    *((text, "object") for text in ("[]", "1", '"read"', "null", "[%s]" % read())),
    ("{}", "kind false"),
    ('{"msg":"tail"}', "kind false"),
    *((read(kind=kind), "kind true") for kind in ("0", "6", "-1", "1.0", "-0", '"1"', LONG)),
    ('{"kind":1}', "msg false"),
    ('{"kind":2,"msg":"tail"}', "msg true"),
    ('{"kind":1,"msg":["read"]}', "msg true"),
    (read(kind="2"), "msg true"),
    ('{"kind":1,"msg":"read"}', "member 1 0 false"),
    (read("1.0", "c9a5"), "member 1 0 true"),
    (read("3", "c9a5"), "member 1 1 true"),
    (read("3", more=',"more":1'), "extra"),
    (read("3", "c9a5", more=',"more":1'), "member 1 1 true"),
    ('{"kind":1,"msg":"tail","addr":1}', "extra"),
    ('{"kind":1,"msg":"press","addr":"4707"}', "member 4 0 true"),
    ('{"kind":4,"msg":"done","ok":1}', "member 17 0 true"),
    (climate('{"raw":-5,"dec":2,"text":"-0.05","f32":false}'), "member 8 0 true"),
    (climate('{"raw":32768,"dec":2,"text":"327.68","f32":true}'), "nothing"),
    (homiq(sort="\u0100"), "member 20 5 true"),
    (homiq("homiq"), "nothing"),
    *((state(data), "volts") for data in ("", VOLTS[:26], "00" * 16)),
    (state(VOLTS), "nothing"),
    (state(VOLTS[:27]), "member 9 3 true"),
    (read(), "nothing"),
]


def timed():
    """A text of many names, what it is, and the number that it is refused with."""
    for what, text, is_one in grammar.timed():
        yield what, text, 12 if is_one else 11
    yield "a command and 1,100 members more", b'{"kind":1,"msg":"tail",' + grammar.many_members(1100)[1:], 12
    yield "1,100 members more and a command", grammar.many_members(1100)[:-1] + b',"kind":1,"msg":"tail"}', 12


# ---- the comparison


def differing(cases):
    """The answers that are others than Python's, under their tests: cases are a test, a request, the right answer and the one that came."""
    wrong = {}
    for test, line, right, does in cases:
        if right != does:
            wrong.setdefault(test, []).append((line, right, does))
    return wrong


def own(commands):
    """Whether this script reads what it should, and can fail: by name, whether it holds."""
    for nth, (text, right) in enumerate(KNOWN):
        yield "known, %d, by Python" % nth, framed(text.encode()) == right
    for nth, (text, right) in enumerate(LACKING):
        yield "lacking, %d, by Python" % nth, answer(lack(text.encode())) == "ok " + right
    yield "each line gives its frame, by Python", all(framed(text) == frame for _, text, frame in commands if frame)
    kept = {kind: set() for kind in table.OF_KIND}
    for _, text, frame in commands:
        if frame:
            kept[told(text)[0]].add(told(text)[1])
    yield "each row has a command", kept == {kind: set(names) for kind, names in table.OF_KIND.items()}
    right = [("a", "request", "ok 1", "ok 1"), ("b", "request", "refused 5", "refused 5")]
    yield "right answers pass", differing(right) == {}
    agreed = {("ok 1", "nothing"), ("refused 5", "nothing"), ("refused 11", "text"), ("refused 12", "object"), ("refused 12", "kind false")}
    for encoded in ("ok 1", "refused 5", "refused 11", "refused 12"):
        for lacking in ("nothing", "text", "object", "kind false"):
            pair = [("a", ENCODE + " 7B 0", "", encoded + " room -+0"), ("a", FIRST + " 7B", "", "ok " + lacking)]
            yield "%s and %s agree or not" % (encoded, lacking), agreeing(pair)[1] == ((encoded, lacking) in agreed)
    wrong = [("a", "request", "ok 1", "ok 1"), ("b", "request", "refused 5", "refused 12")]
    yield "a wrong answer is found", differing(wrong) == {"b": [("request", "refused 5", "refused 12")]}


def seen(cases):
    """Each sort of answer has come, and of `lacks` each answer, by name whether it holds."""
    told = {(line.split()[0], sort) for _, line, _, does in cases for sort in (does, grammar.sort_of(does))}
    for function, numbers in ((ENCODE, (11, 12, 5, 6, 4)), (READ, (11, 12, 5, 6, 4)), (NAME_OF, (5, 4))):
        for sort in ("ok", *map(answer, numbers)):
            yield "%s answers %s" % (function, sort), (function, sort) in told
    lacks = {("nothing",), ("text",), ("object",), ("volts",)}
    sorts = {("nothing",)}
    for row, name in enumerate(table.NAMES, 1):
        lacks |= {one for one, _, _ in lacks_of(row, name, "0" * 32)}
        sorts |= {sort_told(name, member) for member in members_in(name)}
    for function, all_told in ((FIRST, lacks), (SORT_OF, sorts)):
        for one in sorted(map(answer, all_told)):
            yield "%s answers %s" % (function, one), (function, one) in told


def agreeing(cases):
    """How many texts lack each thing; and whether the program refuses with 11 exactly those that lack `text`, and with 12 those that lack another."""
    refused, lacked = {}, {}
    for _, line, _, does in cases:
        function, text = line.split()[:2]
        if function == ENCODE:
            refused[text] = next((number for number in (11, 12) if grammar.sort_of(does) == answer(number)), None)
        elif function == FIRST:
            lacked[text] = does.split()[1]
    numbers = {"text": 11, "nothing": None}
    return collections.Counter(lacked.values()), refused == {text: numbers.get(word, 12) for text, word in lacked.items()}


def main(arguments):
    count, seeds = grammar.wanted(arguments, 10000, __doc__)
    commands = [("known", text.encode(), None) for text, _ in KNOWN]
    commands += [("lacking", text.encode(), None) for text, _ in LACKING]
    commands += [one for seed in seeds for one in drawn(count // len(seeds), seed)]
    made_lacking = [one for seed in seeds for one in aimed(seed)]
    commands += [("aimed: " + first[0], text, None) for first, text in made_lacking]
    pick = random.Random(seeds[0])
    asked = [(test, *pair) for test, text, _ in commands for pair in asked_of(text, pick)]
    asked += [("members", *pair) for pair in members_asked()]
    command = os.environ.get("BOLSTERWEFT_CALLS") or str(proved.calls())
    does = grammar.answers(command, [line for _, line, _ in asked])
    cases = [(*one, did) for one, did in zip(asked, does)]
    wrong = differing(cases)
    holds = {test: test not in wrong for test, _, _ in asked}
    for test, found in wrong.items():
        line, right, did = min(found, key=lambda one: len(one[0]))
        print("%s: %d differ; the shortest: %s: %s, and Python has %s" % (test, len(found), line, did, right))
    holds["an answer to each request"] = len(does) == len(asked)
    holds.update(own(commands))
    holds.update(seen(cases))
    holds["Python finds what was aimed at"] = all(lack(text) == first for first, text in made_lacking)
    lacked, holds["what is lacked agrees with the refusals"] = agreeing(cases)
    print("%s: %d texts: %s" % (FIRST, lacked.total(), ", ".join("%s %d" % one for one in lacked.most_common())))
    slowest = list(timed())
    for (what, text, number), (taken, did) in zip(slowest, grammar.seconds(command, [request(ENCODE, text, 99) for _, text, _ in slowest])):
        print("%s, %d bytes: %.1f ms" % (what, len(text), 1000 * taken))
        holds[what] = taken < grammar.SOON and did == in_room(number, 99) and framed(text) == number
    for (what, text, _), (taken, did) in zip(slowest, grammar.seconds(command, [request(FIRST, text) for _, text, _ in slowest])):
        print("%s, what it lacks: %.1f ms" % (what, 1000 * taken))
        holds[what + ", what it lacks"] = taken < grammar.SOON and did == answer(lack(text))
    told_ok = sum(did.startswith("ok") for did in does)
    return grammar.counted_up(holds, "%d commands and %d requests, %d of them answered with ok" % (len(commands), len(asked), told_ok))


if __name__ == "__main__":
    sys.exit(main(sys.argv[1:]))
