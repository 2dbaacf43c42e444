#!/usr/bin/env python3
"""Texts of JSON, run: what `jsontext::accepts`, and the readers of members and characters, answer is held to Python's own reader of JSON; what
`jsontext::fault` answers, to a reader that is written here from docs/CALLS.md.

tests/grammar.py [COUNT [SEED]]   proves and builds the programs if that has not been done, asks bin/calls of COUNT texts, 20,000 if COUNT
                                  is not given, about half of them damaged, and compares. Without a seed, half of the texts are fixed and
                                  half new; the seed is printed.

Python reads the bytes as UTF-8 first, strictly. Its reader is laxer than RFC 8259 at NaN and Infinity, and stricter at long numbers; both are
switched off. Length, depth and equal names are worked out here. Of each text it is also asked how many members it has, where the values of
some names stand, and which characters it has, in a room that is long enough or a byte too short.

Where a text goes wrong is asked of each text too. `none` must be told exactly of the texts that Python takes. A quarter as many texts more are
put together so that they go wrong at a known place, by a known word: the reader here and the program must both say so. How often each word was
told is printed, and none may be missing.

BOLSTERWEFT_CALLS names another command to be held to the same. The last line is `N passed, M failed`: a test is a sort of text, over all its
cases, for a seed; or a time.
"""
import itertools
import json
import os
import platform
import random
import re
import subprocess
import sys
import time
from string import ascii_letters

sys.dont_write_bytecode = True  # or Python leaves a folder beside those that are imported

import proved
from calls import answer, in_room, request

MOST_BYTES = 8192
DEEPEST = 16
# what a text of many names may take, in seconds, the start of the programs not counted; more if the processor is emulated
SOON = 0.1 if platform.machine() == "x86_64" else 2.0
# the same for a fault deep inside, if the text is read once more at each level
LATER = 10 * SOON

# ---- what Python says


class Refused(Exception):
    """What Python reads, and RFC 8259 or document 02 does not."""


class Members(list):
    """The members of an object, as pairs."""


class Number(str):
    """A number, as it is spelt."""


def units(name):
    """The code units of a string."""
    return name.encode("utf-16-be", "surrogatepass")


def members(pairs):
    names = [units(name) for name, _ in pairs]
    if len(set(names)) < len(names):
        raise Refused("a name twice")
    return Members(pairs)


def no_number(name):
    raise Refused(name)


def depth(value):
    """How deep values are nested, this one counted."""
    if isinstance(value, Members):
        return 1 + max((depth(inner) for _, inner in value), default=0)
    if isinstance(value, list):
        return 1 + max(map(depth, value), default=0)
    return 1


def values(text, pairs):
    """The value of these bytes, alone in a list, by Python's reader and the limits; none if they are no text."""
    if len(text) > MOST_BYTES:
        return []
    try:
        value = json.loads(text.decode("utf-8"), object_pairs_hook=pairs, parse_int=Number, parse_float=Number, parse_constant=no_number)
    except (UnicodeDecodeError, json.JSONDecodeError, Refused):
        return []
    except RecursionError:
        return []  # some hundred levels
    return [value] if depth(value) <= DEEPEST else []


def accepted(text):
    return values(text, members) != []


def counted(text):
    """How many members it has that is an object; else 12."""
    return next(((len(value),) for value in values(text, Members) if isinstance(value, Members)), 12)


def places(text):
    """The members of a text that is an object: a name, and where its value begins and ends."""
    if counted(text) == 12:
        return []
    spelt, found = text.decode("utf-8"), []
    read = json.JSONDecoder(parse_int=Number, parse_float=Number).raw_decode
    at = past(spelt, "{", 0)
    while spelt[at] != "}":
        name, at = read(spelt, at)
        at = past(spelt, ":", at)
        _, to = read(spelt, at)
        found.append((name, len(spelt[:at].encode()), len(spelt[:to].encode())))
        at = past(spelt, ",", to)
    return found


def past(spelt, mark, at):
    """The place behind blanks, the mark if it stands there, and blanks."""
    while spelt[at] in BLANKS:
        at += 1
    return at if spelt[at] != mark else past(spelt, "", at + 1)


def value_of(text, name):
    """Where the value of the first member with this name, a byte a character, begins and ends; else 12."""
    return next(((at, to) for other, at, to in places(text) if units(other) == units(name.decode("latin-1"))), 12)


def characters(text):
    """The characters of a string that stands alone, a byte each; else 12."""
    for value in values(text, Members):
        if type(value) is str and text[:1] == b'"' == text[-1:] and all(character <= "\xff" for character in value):
            return value.encode("latin-1")
    return 12


# ---- where a text goes wrong

# each word that is told
TOLD = ("none", "long", "value", "depth", "name", "other-name", "colon", "comma", "end")
SPACE = re.compile(rb"[ \t\n\r]*")
STRING = re.compile(rb'"(?:[^"\\\x00-\x1f]|\\(?:["\\/bfnrt]|u[0-9A-Fa-f]{4}))*"')
LITERAL = re.compile(rb"true|false|null")
# as far as a number goes, and whether that is one
NUMBER = re.compile(rb"-?(?:0|[1-9][0-9]*)(?:\.[0-9]*)?(?:[eE][+-]?[0-9]*)?")
WHOLE_NUMBER = re.compile(rb"-?(?:0|[1-9][0-9]*)(?:\.[0-9]+)?(?:[eE][+-]?[0-9]+)?")


class Fault(Exception):
    """A place, and the word for what must stand there."""


def fault(text):
    """Where these bytes go wrong, and the word for what must stand there."""
    if len(text) > MOST_BYTES:
        return 0, "long"
    try:
        at = behind_blanks(text, behind_value(text, 0, 1))
        if at < len(text):
            raise Fault(at, "end")
    except Fault as found:
        return found.args
    return 0, "none"


def behind_blanks(text, at):
    return SPACE.match(text, at).end()


def behind_value(text, at, level):
    """The place behind the value at a place or behind blanks there."""
    at = behind_blanks(text, at)
    if level > DEEPEST and at < len(text):
        raise Fault(at, "depth")
    if text.startswith(b"[", at):
        return behind_parts(text, at + 1, b"]", lambda each: behind_value(text, each, level + 1))
    if text.startswith(b"{", at):
        taken = set()
        return behind_parts(text, at + 1, b"}", lambda each: behind_member(text, each, level + 1, taken))
    return behind_word(text, at, "value", (STRING, LITERAL, NUMBER))


def behind_parts(text, at, bracket, behind_part):
    """The place behind an array or an object, whose opening bracket stands before this one."""
    at = behind_blanks(text, at)
    if text.startswith(bracket, at):
        return at + 1
    while True:
        at = behind_blanks(text, behind_part(at))
        if text.startswith(bracket, at):
            return at + 1
        at = behind_mark(text, at, b",", "comma")


def behind_member(text, at, level, taken):
    """The place behind a member, whose name is not taken and is then."""
    at = behind_blanks(text, at)
    to = behind_word(text, at, "name", (STRING,))
    behind = behind_value(text, behind_mark(text, behind_blanks(text, to), b":", "colon"), level)
    name = units(json.loads(text[at:to].decode("utf-8")))
    if name in taken:
        raise Fault(at, "other-name")
    taken.add(name)
    return behind


def behind_mark(text, at, mark, lacking):
    if not text.startswith(mark, at):
        raise Fault(at, lacking)
    return at + 1


def behind_word(text, at, lacking, patterns):
    """The place behind a string, a literal or a number."""
    for pattern in patterns:
        found = pattern.match(text, at)
        if found and is_good(found.group()):
            return found.end()
    raise Fault(at, lacking)


def is_good(word):
    """Whether a string is UTF-8, and a number one as far as it goes."""
    if word[:1] != b'"':
        return bool(LITERAL.fullmatch(word) or WHOLE_NUMBER.fullmatch(word))
    try:
        word.decode("utf-8")
    except UnicodeDecodeError:
        return False
    return True


# ---- texts that are made

BLANKS = " \t\n\r"
SHORT = {'"': '\\"', "\\": "\\\\", "/": "\\/", "\b": "\\b", "\f": "\\f", "\n": "\\n", "\r": "\\r", "\t": "\\t"}
# characters at the edges of UTF-8 and UTF-16, and some that have an escape of their own; and surrogates, which only escapes can give
CHARACTERS = 'abA0 !/"\\\0\b\f\n\r\t\x1f\x7f\x80\xe9\u07ff\u0800\ud7ff\ue000\ufeff\uffff\U00010000\U0001f600\U0010ffff'
SURROGATES = "\ud800\udbff\udc00\udfff\ud83d\ude00"


def blanks(pick):
    return "" if pick.random() < 0.7 else "".join(pick.choices(BLANKS, k=pick.randint(1, 3)))


def escape(unit, pick):
    digits = "%04x" % unit
    return "\\u" + "".join(pick.choice((digit, digit.upper())) for digit in digits)


def spelt(character, pick):
    """One of the ways to write a character in a string."""
    way = pick.randrange(3)
    if way == 0 and character in SHORT:
        return SHORT[character]
    if way < 2 and character >= " " and character not in '"\\' and not "\ud800" <= character <= "\udfff":
        return character
    encoded = units(character)
    return "".join(escape(int.from_bytes(encoded[at : at + 2], "big"), pick) for at in range(0, len(encoded), 2))


def name(pick):
    """The characters of a name or a string."""
    return "".join(pick.choice(SURROGATES if pick.random() < 0.1 else CHARACTERS) for _ in range(pick.randrange(4)))


def string(characters, pick):
    return '"%s"' % "".join(spelt(character, pick) for character in characters)


def number(pick):
    whole = pick.choice(("0", str(pick.randrange(1, 10 ** pick.randint(1, 30)))))
    frac = "." + "".join(pick.choices("0123456789", k=pick.randint(1, 4))) if pick.random() < 0.3 else ""
    exp = pick.choice("eE") + pick.choice(("", "+", "-")) + "%0*d" % (pick.randint(1, 3), pick.randrange(400)) if pick.random() < 0.3 else ""
    return pick.choice(("", "-")) + whole + frac + exp


def plain(pick):
    return pick.choice((lambda: "true", lambda: "false", lambda: "null", lambda: string(name(pick), pick), lambda: number(pick)))()


def enclosed(marks, parts, pick):
    between = blanks(pick) + "," + blanks(pick)
    return marks[0] + blanks(pick) + between.join(parts) + blanks(pick) + marks[1]


def member(characters, value, pick):
    return string(characters, pick) + blanks(pick) + ":" + blanks(pick) + value


def value(deep, pick):
    sort = pick.randrange(3) if deep > 1 else 0
    if sort == 0:
        return plain(pick)
    inner = [value(deep - 1, pick) for _ in range(pick.randrange(4))]
    if sort == 1:
        return enclosed("[]", inner, pick)
    return enclosed("{}", [member(name(pick), one, pick) for one in inner], pick)


def good(pick):
    return blanks(pick) + value(pick.randint(1, 6), pick) + blanks(pick)


def nested(levels, pick):
    """So many values, each in the one before it, and others beside them."""
    text = pick.choice(("[]", "{}", plain(pick)))
    for _ in range(levels - 1):
        parts = [text]
        if pick.random() < 0.2:
            parts.insert(pick.randrange(2), value(2, pick))
        text = enclosed("[]", parts, pick) if pick.random() < 0.5 else enclosed("{}", [member("k%d" % n, v, pick) for n, v in enumerate(parts)], pick)
    return text


def deep(pick):
    return nested(pick.choice((DEEPEST - 1, DEEPEST, DEEPEST, DEEPEST + 1)), pick)


def names(pick):
    """An object in which a name may stand twice: near, far apart, under another spelling, in an object within, or cut by a character."""
    one = name(pick)
    other = pick.choice((one, one, one + name(pick), one[:-1], name(pick)))
    between = ["%s%d" % (name(pick), n) for n in range(pick.choice((0, 0, 1, 2, 9)))]
    parts = [member(n, value(2, pick), pick) for n in (one, *between)]
    last = member(other, plain(pick), pick)
    text = enclosed("{}", [*parts, member("within", enclosed("{}", [last], pick), pick)] if pick.random() < 0.2 else [*parts, last], pick)
    for _ in range(pick.randrange(3)):
        text = pick.choice((lambda: enclosed("[]", [plain(pick), text], pick), lambda: enclosed("{}", [member(one, text, pick)], pick)))()
    return text


def long(pick):
    """A text as long as may be, or a byte off: a number, a string, an array, an object; the rest are blanks."""
    length = MOST_BYTES + pick.randint(-1, 1)
    most = length - pick.randrange(40)
    text = pick.choice(
        (
            lambda: "1",
            lambda: "-" + "9" * (most - 1),
            lambda: "0." + "0" * (most - 2),
            lambda: '"' + "\\u0041" * (most // 6 - 1) + '"',
            lambda: '"' + pick.choice("\xe9\u20ac\U0001f600") * (most // 4 - 1) + '"',
            lambda: "[" + ",".join(["null"] * (most // 5 - 1)) + "]",
            lambda: "{" + ",".join('"%04d":0' % pick.randrange(9999) for _ in range(12)) + "}",
            lambda: "{" + ",".join('"%04d":0' % n for n in range(most // 9 - 1)) + "}",
        )
    )()
    room = length - len(text.encode())
    before = pick.randrange(room + 1)
    return "".join(pick.choices(BLANKS, k=before)) + text + "".join(pick.choices(BLANKS, k=room - before))


def encoded(text):
    """A text in UTF-8; a surrogate can only have come from damage here."""
    return text.encode("utf-8", "surrogatepass")


MARKS = [b"{", b"}", b"[", b"]", b'"', b",", b":", b"\\", b"0", b"1", b".", b"e", b"E", b"+", b"-", b"u", b" ", b"\f", b"\v", b"\0", b"/"]
WORDS = [b"NaN", b"Infinity", b"true", b"null", b'"a":1', b"[]", b"{}", b"\\u0061", b"\\ud83d", b"01", b"\xef\xbb\xbf", b"\xc2\xa0", b"\xed\xa0\x80"]


def spoilt(text, pick):
    """One change."""
    at = pick.randrange(len(text) + 1)
    to = min(len(text), at + pick.choice((1, 1, 1, 2, 5)))
    return pick.choice(
        (
            lambda: text[:at] + text[to:],
            lambda: text[:at] + text[at:to] + text[at:],
            lambda: text[:at] + pick.choice(MARKS) + text[at:],
            lambda: text[:at] + pick.choice(MARKS) + text[to:],
            lambda: text[:at] + pick.choice(WORDS) + text[at:],
            lambda: text[:at] + pick.randbytes(1) + text[at:],
            lambda: text[:at] + pick.randbytes(1) + text[to:],
            lambda: text[:at],
            lambda: text[at:],
        )
    )()


def damaged(pick):
    text = encoded(pick.choice((good, good, good, names, deep))(pick))
    for _ in range(pick.choice((1, 1, 1, 2))):
        text = spoilt(text, pick)
    return text


def scrambled(pick):
    """Marks in any order."""
    return b"".join(pick.choices(MARKS, k=pick.randint(1, 6)))


SORTS = {
    "good": lambda pick: encoded(good(pick)),
    "damaged": damaged,
    "names": lambda pick: encoded(names(pick)),
    "deep": lambda pick: encoded(deep(pick)),
    "scrambled": scrambled,
    "long": lambda pick: encoded(long(pick)),
}
# of a thousand texts so many are of a sort
SHARES = {"good": 240, "damaged": 480, "names": 180, "deep": 60, "scrambled": 35, "long": 5}


def drawn(count, seed):
    """Texts under the names of their sorts."""
    pick = random.Random(seed)
    for sort, share in SHARES.items():
        for _ in range(max(count * share // 1000, 20)):
            yield "%s, seed %d" % (sort, seed), SORTS[sort](pick)


# ---- texts that go wrong at a known place: what is good up to it, and then what must not stand there

# what is neither a value, a name nor a mark, whatever stands behind it; a string may not have the line feed
NOTHING = [b"", b"x", b"'a'", b"\f", b"\0", b"\x80", b"\xff", b"\xc3\xa9", b"\xef\xbb\xbf", b"=", b"/*", b";"]
NO_STRING = [b'"\n', b'"a\\x"', b'"\\u00g0"', b'"\xff"', b'"\xc3"', b'"\xed\xa0\x80"', b'"\xc0\xaf\\"']
NO_VALUE = [b"1.", b"-", b"1e", b"0.5E+", b"-1.", b"-.5", b"+1", b".5", b"nul", b"True", b"fals", b"-Infinity", b"1.e5", b",", b":", b"}"]
NO_NAME = [b"1", b"null", b"{}", b"[", b"]", b",", b":", b"a:"]
NO_COLON = [b"}", b",", b"1", b'"a"', b"]", b"[1]", b"{"]
NO_END = [b"]", b"}", b",", b":", b'"', b"{}", b"[", b"null"]


def sound(deep, pick):
    """A good value that is nested so deep at most."""
    return next(text for text in iter(lambda: value(deep, pick), None) if accepted(encoded(text)))


def part_of(level, pick):
    """A good value for a place at this level."""
    return sound(pick.randint(1, min(2, DEEPEST + 1 - level)), pick)


def marked(mark, pick):
    return blanks(pick) + mark + blanks(pick)


def other_names(count, pick):
    """So many names, of which no two are equal."""
    return ["%s%d" % (name(pick), n) for n in range(count)]


def some(level, pick):
    """How many stand before the place; where it is too deep, none can."""
    return pick.choice((0, 0, 0, 1, 2)) if level <= DEEPEST else 0


def members_at(level, names, pick):
    """Members with these names, and a comma behind each."""
    return "".join(member(each, part_of(level, pick), pick) + marked(",", pick) for each in names)


def opened_array(level, pick):
    """An array up to an element at this level."""
    return marked("[", pick) + "".join(part_of(level, pick) + marked(",", pick) for _ in range(some(level, pick)))


def opened_object(level, pick):
    """An object up to a member whose value is at this level, and no name has "-" at its end."""
    return marked("{", pick) + members_at(level, other_names(some(level, pick), pick), pick)


def opened(levels, pick):
    """So many arrays and objects up to where a value must stand, each in the one before it."""
    text = blanks(pick)
    for level in range(2, levels + 2):
        named = opened_object(level, pick) + string(name(pick) + "-", pick) + marked(":", pick) if pick.random() < 0.5 else ""
        text += named or opened_array(level, pick)
    return text


def lacks_value(pick):
    return opened(pick.randrange(DEEPEST), pick), NOTHING + NO_STRING + NO_VALUE


def lacks_depth(pick):
    return opened(DEEPEST, pick), [each for each in NOTHING + NO_STRING + NO_VALUE if each] + [b"1", b"[]", b'""', b"{"]


def lacks_name(pick):
    levels = pick.randrange(DEEPEST - 1)
    return opened(levels, pick) + opened_object(levels + 2, pick), NOTHING + NO_STRING + NO_NAME


def lacks_other_name(pick):
    """What stands behind the member makes no difference."""
    levels = pick.randrange(DEEPEST - 1)
    level, again = levels + 2, name(pick)
    names = [again, *other_names(some(level, pick), pick)]
    while len({units(each) for each in names}) < len(names):
        names.pop()
    pick.shuffle(names)
    member_again = encoded(member(again, part_of(level, pick), pick))
    before = opened(levels, pick) + marked("{", pick) + members_at(level, names, pick)
    return before, [member_again + end for end in (b"", b"x", b",", b"}", b" ]", b"\xff")]


def lacks_colon(pick):
    levels = pick.randrange(DEEPEST - 1)
    return opened(levels, pick) + opened_object(levels + 2, pick) + string(name(pick) + "-", pick) + blanks(pick), NOTHING + NO_COLON


def lacks_comma(pick):
    """Only the bracket of the other sort is no good one."""
    levels = pick.randrange(DEEPEST - 1)
    level, (inside, other) = levels + 2, pick.choice(((opened_array, b"}"), (opened_object, b"]")))
    last = part_of(level, pick)
    if inside is opened_object:
        last = member(name(pick) + "-", last, pick)
    return opened(levels, pick) + inside(level, pick) + last + blanks(pick), NOTHING + [other, b":", b"[", b"{"]


def lacks_end(pick):
    return blanks(pick) + sound(4, pick) + blanks(pick), [each for each in NOTHING + NO_END if each]


LACKS = {
    "value": lacks_value,
    "depth": lacks_depth,
    "name": lacks_name,
    "other-name": lacks_other_name,
    "colon": lacks_colon,
    "comma": lacks_comma,
    "end": lacks_end,
}


def aimed(word, pick):
    """A text that goes wrong by this word, and where."""
    good_part, bad = LACKS[word](pick)
    before, wrong = encoded(good_part), pick.choice(bad)
    # a mark first: other bytes could make `1.` or `nul` a value
    behind = pick.choice((b"", b",", b" ", b"]", b":"))
    if behind:
        behind += pick.choice((b"", pick.randbytes(3), b'"a":1}]'))
    return before + wrong + (behind if wrong else b""), len(before)


def too_long(pick):
    text, _ = aimed(pick.choice([*LACKS]), pick)
    return text + b" " * (MOST_BYTES + pick.choice((1, 1, 2, 900)) - len(text))


def all_aimed(count, seed):
    """So many texts for each word, each with its place and its word."""
    pick = random.Random(seed)
    for _ in range(count):
        for word in LACKS:
            text, place = aimed(word, pick)
            if len(text) <= MOST_BYTES:
                yield text, (place, word)
        yield too_long(pick), (0, "long")


# ---- texts that are listed

TAILS = [
    b"",
    b"\x80",
    b"\xbf",
    b"\x7f",
    b"\xc0",
    b"\x80\x80",
    b"\x8f\xbf",
    b"\x90\x80",
    b"\x9f\xbf",
    b"\xa0\x80",
    b"\xbf\xbf",
    b"\x80\x80\x80",
    b"\x8f\xbf\xbf",
    b"\x90\x80\x80",
    b"\xbf\xbf\xbf",
]

GOOD = [
    b"[" * 16 + b"]" * 16,
    b" " * 8191 + b"1",
    b"[" * 15 + b"1" + b"]" * 15,
    b'{"a":' * 15 + b"1" + b"}" * 15,
    b"-0",
    b"1e007",
    b'"\\uD800"',
    b'"\xef\xbb\xbf"',
    b'{"a":1,"b":{"a":1},"c":[{"a":1}]}',
    b"9" * 8192,
    b'{"\\ud83d":1,"\\ude00":2}',
]
BAD = [
    b"[" * 17 + b"]" * 17,
    bytes.fromhex("22EDA08022"),
    b'{"a":1,"\\u0061":2}',
    b" " * 8192 + b"1",
    b"",
    b"01",
    b"+1",
    b"\f1",
    b"NaN",
    b"-Infinity",
    b"[1,]",
    b'{"a":1,}',
    b'"\x1f"',
    b'"\xc0\x80"',
    b'"\xf4\x90\x80\x80"',
    b"\xef\xbb\xbf1",
    b"[" * 15 + b"[1]" + b"]" * 15,
    b'{"\xf0\x9f\x98\x80":1,"\\ud83d\\ude00":2}',
    b'{"a":1,"b":2,"a":3}',
    b'[{"x":{"a":1,"a":2}}]',
    b"9" * 8193,
]


# by hand from docs/CALLS.md; the first are its own examples
WRONG = [
    (b'"abc', 0, "value"),
    (b'"\\x"', 0, "value"),
    (b"1.", 0, "value"),
    (b"nul", 0, "value"),
    (b'{"a":1,"a":x}', 11, "value"),
    (b"", 0, "value"),
    (b" \n", 2, "value"),
    (b"[", 1, "value"),
    (b"[1, ]", 4, "value"),
    (b'{"a": }', 6, "value"),
    (b"[[1],[2,nul]]", 8, "value"),
    (b"[" * 16 + b" ", 17, "value"),
    (b"[" * 16 + b" 1", 17, "depth"),
    (b"[" * 16 + b"x", 16, "depth"),
    (b"[" * 17 + b"]" * 17, 16, "depth"),
    (b'{"a":' * 16 + b"}", 80, "depth"),
    (b"{", 1, "name"),
    (b'{"a', 1, "name"),
    (b'{"a":1, }', 8, "name"),
    (b'{"\xff":1}', 1, "name"),
    (b'{"a" }', 5, "colon"),
    (b'{"a"', 4, "colon"),
    (b"[1 2]", 3, "comma"),
    (b"[01]", 2, "comma"),
    (b"[1}", 2, "comma"),
    (b'{"a":1', 6, "comma"),
    (b'{"a":1,"\\u0061":2 x', 7, "other-name"),
    (b'[{"a":1,"b":2, "a":{}}', 15, "other-name"),
    (b'{"\xc3\xa9":1,"\\u00e9":2}', 8, "other-name"),
    (b'{"a":1,"a":{"b":1,"b":2}}', 18, "other-name"),
    (b"01", 1, "end"),
    (b"1.5.5", 3, "end"),
    (b"nulll", 4, "end"),
    (b" [] ]", 4, "end"),
    (b"1\xff", 1, "end"),
    (b" " * 8193, 0, "long"),
    (b" " * 8192, 8192, "value"),
    (b"x" * 8193, 0, "long"),
]


def listed():
    """The same, of which there are few enough."""
    for text in GOOD + BAD + [text for text, _, _ in WRONG]:
        yield "known", text
    for lead, tail in itertools.product(range(256), TAILS):
        yield "each lead byte", b'"%c%b"' % (lead, tail)
    for byte in range(256):
        for before, behind in ((b"", b""), (b"", b"1"), (b"1", b""), (b"[", b"]"), (b'"', b'"'), (b'"\\', b'"'), (b'"\\u004', b'"'), (b"0", b"0")):
            yield "each byte", b"%b%c%b" % (before, byte, behind)
    for length in (8191, 8192, 8193):
        yield "lengths", b" " * (length - 1) + b"1"
        yield "lengths", b'"' + b"a" * (length - 2) + b'"'
    for levels, inner in itertools.product(range(1, 20), (b"", b"1", b'""', b"[]", b"{}")):
        yield "depths", b"[" * levels + inner + b"]" * levels
        yield "depths", b'{"a":' * levels + (inner or b"0") + b"}" * levels
    yield "far too deep", b"[" * 8192
    yield "far too deep", b"[" * 4096 + b"]" * 4096
    yield "far too deep", (b'{"a":' * 1400 + b"1" + b"}" * 1400)[:MOST_BYTES]


# ---- times


def two_letters(count):
    """So many names of two letters."""
    return [one + other for one, other in itertools.islice(itertools.product(ascii_letters, repeat=2), count)]


def many_members(count):
    return ("{" + ",".join('"%s":1' % each for each in two_letters(count)) + "}").encode()


def levels_of_members(levels, count, at):
    """An object whose member number `at` is such an object, and so on."""
    text = "1"
    for _ in range(levels):
        parts = ['"%s":%s' % (each, text if n == at else 1) for n, each in enumerate(two_letters(count))]
        text = "{" + ",".join(parts) + "}"
    return text.encode()


def timed():
    """A text's name, the text, and whether it is one. A value in the last of 16 objects would be the seventeenth."""
    yield "1,100 members", many_members(1100), True
    yield "1,100 members and the first again", many_members(1100)[:-1] + b',"aa":1}', False
    yield "1,100 members and the last again", many_members(1100)[:-1] + b',"\\u0076h":1}', False
    inside = levels_of_members(1, 550, 0)
    yield "550 members before an object of 550", many_members(550)[:-1] + b',"last":' + inside + b"}", True
    yield "550 members behind an object of 550", b'{"first":' + inside + b"," + many_members(550)[1:], True
    for at in (0, 30, 59):
        yield "60 members each to level 16, inside the one of number %d" % at, levels_of_members(15, 60, at), True
        yield "60 members each in 16 objects, inside the one of number %d" % at, levels_of_members(16, 60, at), False
    yield "two names of 4,000 characters", b'{"' + b"a" * 4000 + b'":1,"' + b"a" * 4000 + b'b":1}', True


def timed_faults():
    """The same for faults, with the seconds that they may take."""
    for what, text, is_one in timed():
        yield what, text, is_one, SOON
    for levels in (1, DEEPEST - 2):
        yield "1,050 members and none behind the last comma, %d deep" % levels, b"[" * levels + many_members(1050)[:-1] + b",x", False, LATER


def seconds(command, requests):
    """How long one process takes for each request, and what it answers; the start is waited for first."""
    process = subprocess.Popen([command], stdin=subprocess.PIPE, stdout=subprocess.PIPE)

    def ask(line):
        process.stdin.write(line.encode() + b"\n")
        process.stdin.flush()
        return process.stdout.readline().decode().strip()

    ask(request("jsontext::accepts", b"1"))
    taken = []
    for line in requests:
        each = []
        for _ in range(3):  # the machine may do something else meanwhile
            from_ = time.perf_counter()
            does = ask(line)
            each.append(time.perf_counter() - from_)
        taken.append((min(each), does))
    process.stdin.close()
    process.wait()
    return taken


def in_time(command, function, right, slowest):
    """Whether each of these texts is answered rightly and in time."""
    requests = [request(function, text) for _, text, _, _ in slowest]
    for (what, text, is_one, most), (taken, told) in zip(slowest, seconds(command, requests)):
        print("%s, %s, %d bytes: %.1f ms" % (function, what, len(text), 1000 * taken))
        yield "%s, %s" % (function, what), taken < most and told == right(text) and accepted(text) == is_one


# ---- the comparison


def answers(command, requests):
    given = "".join(line + "\n" for line in requests).encode("ascii")
    return subprocess.run([command], input=given, stdout=subprocess.PIPE, check=True).stdout.decode("ascii").splitlines()


def asked_of(text, pick):
    """Requests about the members and the characters of a text, each with what Python answers."""
    yield request("jsontext::members::count", text), answer(counted(text))
    names = [name for name, _, _ in places(text) if all(character <= "\xff" for character in name)]
    for name in {*pick.sample(names, min(len(names), 3)), pick.choice(("", "a", "kind", "\xe9"))}:
        name = name.encode("latin-1")
        yield request("jsontext::members::value_of", text, name), answer(value_of(text, name))
    made = characters(text)
    room = max(0, (0 if made == 12 else len(made)) + pick.choice((-1, 0, 0, 2)))
    yield request("jsontext::members::characters", text, room), in_room(made, room)


def strings(count, seed):
    """Strings of characters up to U+00FF, and now and then one above."""
    pick = random.Random(seed)
    for _ in range(count):
        each = [chr(pick.choice((pick.randrange(256), pick.randrange(32), 0xFF, 0x22, 0x5C))) for _ in range(pick.randrange(6))]
        if pick.random() < 0.2:
            each.append(pick.choice("\u0100\u0161\uff00" + CHARACTERS + SURROGATES))
        text = encoded(string(each, pick))
        yield pick.choice((text, text, text, text, b" " + text, text + b"\n", spoilt(text, pick)))


def sort_of(told):
    """`ok`, or `refused` and its number."""
    words = told.split()
    return words[0] if words[0] == "ok" else " ".join(words[:2])


def readers(command, cases, seeds):
    """What is answered about members and characters: by name, whether it holds."""
    pick = random.Random(seeds[0])
    texts = [text for _, text in cases] + [text for seed in seeds for text in strings(len(cases) // 20, seed)]
    asked = [one for text in texts for one in asked_of(text, pick)]
    does = answers(command, [line for line, _ in asked])
    seen = {}
    for (line, right), told in zip(asked, does):
        seen.setdefault((line.split()[0], sort_of(told)), []).append((line, right, told))
    for (function, sort), found in sorted(seen.items()):
        wrong = min((one for one in found if one[1] != one[2]), key=lambda one: len(one[0]), default=None)
        print("%s: %d answered with %s" % (function, len(found), sort))
        if wrong:
            print("differs: %s: %s, and Python has %s" % (wrong[0], wrong[2], wrong[1]))
        yield "%s, %s" % (function, sort), not wrong
    yield "an answer to each request", len(does) == len(asked)
    sorts = {("count", "ok"), ("count", "refused 12"), ("value_of", "ok"), ("value_of", "refused 12")}
    sorts |= {("characters", "ok"), ("characters", "refused 12"), ("characters", "refused 4")}
    yield "each sort of answer about members", {(function.split("::")[-1], sort) for function, sort in seen} == sorts


def differing(cases, does, right):
    """The cases that are answered otherwise than right, under their tests."""
    if len(cases) != len(does):
        raise SystemExit("grammar: %d answers to %d texts" % (len(does), len(cases)))
    wrong = {}
    for (test, text), told in zip(cases, does):
        if told != right(text):
            wrong.setdefault(test, []).append((text, told))
    return wrong


def told_of(text):
    """Whether it is a text, as it is answered."""
    return answer((accepted(text),))


def told_where(text):
    """Where it goes wrong, as it is answered."""
    return answer(fault(text))


def shortest(wrong):
    """Prints of each test the shortest case that differs."""
    for test, found in wrong.items():
        text, told = min(found, key=lambda one: len(one[0]))
        print("%s: %d differ; the shortest is answered with %s: %s" % (test, len(found), told, text.hex().upper()))


def faults(command, cases, count, seeds):
    """What is answered about faults: by name, whether it holds."""
    made = [one for seed in seeds for one in all_aimed(count // len(LACKS), seed)]
    cases = [("fault: " + test, text) for test, text in cases] + [("aimed: " + word, text) for text, (_, word) in made]
    does = answers(command, [request("jsontext::fault", text) for _, text in cases])
    wrong = differing(cases, does, told_where)
    shortest(wrong)
    yield from ((test, test not in wrong) for test, _ in cases)
    # the place that a text was put together for, the reader here, and Python's
    for text, aim in made:
        if fault(text) != aim:
            print("aimed at %s, and the reader here has %s: %s" % (aim, fault(text), text.hex().upper()))
    yield "the reader here finds what was aimed at", all(fault(text) == aim for text, aim in made)
    yield "none is told exactly of the texts that Python takes", all((told == "ok 0 none") == accepted(text) for (_, text), told in zip(cases, does))
    words = [told.split()[-1] for told in does]
    print("jsontext::fault: %d texts: %s" % (len(cases), ", ".join("%s %d" % (word, words.count(word)) for word in TOLD)))
    yield "each word is told", set(words) == set(TOLD)


def own():
    """Whether this script tells texts from others, and can fail: by name, whether it holds."""
    yield "known texts are taken by Python", all(map(accepted, GOOD))
    yield "known other texts are not", not any(map(accepted, BAD))
    read = counted(b" {} "), value_of(b'{"\\u0061": 1 ,"a":2}', b"a"), characters(b'"\\u00e9\xc3\xbf"')
    yield "known members and characters are read by Python", read == ((0,), (11, 12), b"\xe9\xff")
    refused = counted(b"[]"), value_of(b'{"b":{"a":1}}', b"a"), characters(b'"\xc4\x80"'), characters(b' "a"')
    yield "known others are not", refused == (12, 12, 12, 12)
    cases = [("good", text) for text in GOOD] + [("bad", text) for text in BAD]
    right = ["ok true"] * len(GOOD) + ["ok false"] * len(BAD)
    yield "right answers pass", differing(cases, right, told_of) == {}
    for at in range(len(cases)):
        wrong = [*right]
        wrong[at] = "ok false" if right[at] == "ok true" else "ok true"
        yield "a wrong answer is found, %d" % at, differing(cases, wrong, told_of) == {cases[at][0]: [(cases[at][1], wrong[at])]}
    yield "known texts have no fault", all(fault(text) == (0, "none") for text in GOOD)
    yield "known other texts have", all(fault(text) != (0, "none") for text in BAD)
    for text, place, word in WRONG:
        yield "%.40r goes wrong as known" % text, fault(text) == (place, word)
        others = "ok %d %s" % (place + 1, word), "ok %d %s" % (place, "end" if word != "end" else "comma")
        found = [differing([("it", text)], [told], told_where) for told in others]
        yield "%.40r and a wrong answer" % text, found == [{"it": [(text, told)]} for told in others]


def wanted(arguments, count, usage):
    """How many cases are asked for, and from which seeds, which are printed; the script ends if the arguments are others."""
    if len(arguments) > 2 or not all(word.isdigit() for word in arguments):
        print(usage, file=sys.stderr)
        raise SystemExit(2)
    seeds = [int(word) for word in arguments[1:]] or [1, random.SystemRandom().randrange(1 << 32)]
    print("seeds " + " ".join(map(str, seeds)))
    return int(arguments[0]) if arguments else count, seeds


def counted_up(holds, cases):
    """Says which tests do not hold, what the cases were, and how many tests hold; the script's status."""
    for test, held in holds.items():
        if not held:
            print("does not hold: " + test)
    failed = sum(not held for held in holds.values())
    print(cases)
    print("%d passed, %d failed" % (len(holds) - failed, failed))
    return 1 if failed else 0


def main(arguments):
    count, seeds = wanted(arguments, 20000, __doc__)
    cases = [*listed(), *(case for seed in seeds for case in drawn(count // len(seeds), seed))]
    command = os.environ.get("BOLSTERWEFT_CALLS") or str(proved.calls())
    does = answers(command, [request("jsontext::accepts", text) for _, text in cases])
    wrong = differing(cases, does, told_of)
    holds = {test: test not in wrong for test, _ in cases}
    shortest(wrong)
    for sort in SORTS:
        seen = {told for (test, _), told in zip(cases, does) if test.startswith(sort + ",")}
        holds["both answers are seen: " + sort] = seen == {"ok true", "ok false"}
    holds.update(own())
    holds.update(faults(command, cases, count // (4 * len(seeds)), seeds))
    holds.update(readers(command, cases, seeds))
    slowest = [(*each, SOON) for each in timed()]
    holds.update(in_time(command, "jsontext::accepts", told_of, slowest))
    holds.update(in_time(command, "jsontext::fault", told_where, list(timed_faults())))
    return counted_up(holds, "%d texts, %d of them accepted" % (len(cases), does.count("ok true")))


if __name__ == "__main__":
    sys.exit(main(sys.argv[1:]))
