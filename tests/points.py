#!/usr/bin/env python3
"""The paper's cases, and the small ranges whole, as requests to bin/calls, and what it should answer: by paper.py, which is from the
documents alone, and written as docs/CALLS.md says. A case is a request and its answer.

tests/points.py           shows them, each answer under its request
tests/points.py --write   writes tests/points.requests and tests/points.answers, to be read, and sent by hand
tests/points.py --check   whether those files are what this script writes, and the proved programs answer so; proves them if that has not
                          been done
"""
import functools
import itertools
import operator
import os
import sys

sys.dont_write_bytecode = True  # or Python leaves a folder beside those that are imported

import calls
import lines
import paper
import sheet
from calls import answer, in_room, request
from paper import ASK, ASK_E, COMMAND_D, HOMIQ_G, HOMIQ_H, LINK_A, LINK_B, PREAMBLES, PRESSED, REPLY, REPLY_CLIMATE, RESET, TAILED
from paper import HIGHEST, LOWEST, homiq, link, nest, nibe

FILES = os.path.join(os.path.dirname(os.path.abspath(__file__)), "points.")


def or_refused(value, number):
    """A value that is not there is refused with this number."""
    return number if value is None else (value,)


# ---- digits


def characters_case(*characters):
    """One character as a digit, two as a byte, four as a number of 16 bits."""
    given = characters if len(characters) < 4 else [bytes(characters)]
    function = {1: "value", 2: "byte_of", 4: "word_of"}[len(characters)]
    return request("digits::hex::" + function, *given), answer(or_refused(paper.hex_value(characters), 5))


def hex_cases():
    """Each character, each byte, and each number of 16 bits whose two bytes are alike."""
    for n in range(256):
        yield characters_case(n)
        for function, number, digits in (("two_digits", n, b"%02X" % n), ("four_digits", n * 257, b"%04X" % (n * 257))):
            yield request("digits::hex::" + function, number), answer((digits,))
            yield characters_case(*digits)
    for text in (b"a0", b"0f", b" 1"):
        yield characters_case(*text)


def decimal_cases():
    """The numbers at each power of ten and of two, and texts that are no number's."""
    tens = [n for k in range(18) for n in (10**k - 1, 10**k)] + [10**18, 10**19]
    twos = [n for k in range(62) for n in (2**k - 1, 2**k)] + [2**62, 2**64 - 1]
    texts = b"|0|00|01|-0|+1|1a|1 |511|4294967295|4294967296|9999999999|10000000000|18446744073709551616".split(b"|")
    for n in tens + twos:
        yield request("digits::decimal::digits", n), answer((b"%d" % n,))
    for text in [b"%d" % n for n in tens + twos] + texts:
        yield request("digits::decimal::number_of", text), answer(or_refused(paper.decimal_value(text), 7))


def low_first_cases():
    """The numbers at the ends of each width, and byte strings of every length up to five."""
    numbers = [("one", 0, 1), ("one", 255, 1), ("two", 0, 2), ("two", 255, 2), ("two", 256, 2), ("two", 40004, 2), ("two", 65535, 2)]
    numbers += [("four", n, 4) for n in (0, 65536, 16777217, 305419896, 2**32 - 1)]
    strings = [n.to_bytes(width, "little") for _, n, width in numbers]
    for (function, n, _), s in zip(numbers, strings):
        yield request("digits::low_first::" + function, n), answer((s,))
    strings += [b"", b"\x80", b"\x44\x9c", b"\x01\x02\x03", b"\x78\x56\x34\x12", b"\x01\x02\x03\x04\x05"]
    for s in strings:
        yield request("digits::low_first::number_of", s), answer(or_refused(paper.low_first_value(s), 7))


# ---- numbers


def text_case(raw, decimals, room=14):
    return request("numbers::text::write", raw, decimals, room), in_room(paper.number_text(raw, decimals), room)


def with_its_text(asked, found):
    """What is read; and if that is a number, the number written again."""
    yield asked, answer(found)
    if isinstance(found, tuple):
        yield text_case(found[0], 0, 12)


def text_cases():
    """The paper's numbers, the ends of the range and one beyond, each place of the point, short rooms; 7 goes before 5, 5 before 4."""
    numbers = [(-5, 2), (-125, 1), (0, 0), (0, 3), (HIGHEST, 0), (HIGHEST, 3), (LOWEST, 0), (LOWEST, 3), (16777216, 0), (16777217, 0)]
    numbers += [(33554434, 0), (4294967040, 0), (9, 1), (10, 1), (-99, 2), (-100, 2), (999, 3), (1000, 3), (1, 3), (5, 4), (5, 2**32 - 1)]
    numbers += [(HIGHEST + 1, 0), (LOWEST - 1, 3), (HIGHEST + 1, 4), (2**63 - 1, 0), (-(2**63), 0)]
    rooms = [(-5, 2, 5), (-5, 2, 4), (-5, 2, 0), (HIGHEST + 1, 2, 1), (HIGHEST + 1, 9, 1), (LOWEST, 3, 12), (LOWEST, 3, 11)]
    for case in numbers + rooms:
        yield text_case(*case)


def reading_cases():
    texts = b"-0.05|-12.5|0|0.000|4294967295|4294967.295|-2147483.648|16777217|-0|-0.0|00|01|1.|.5|+1|1.2345||-|.|1.2.3|1,5|1e3| 1|1 |--1|0x10"
    texts += b"|4294967296|-2147483649|4294967.296|-2147483.6480|1234567890123|99999999999999999999"
    for text in texts.split(b"|"):
        yield from with_its_text(request("numbers::text::read", text), paper.text_number(text))


def value_case(raw, width, signed, room=6):
    return request("numbers::byte_values::write", raw, width, signed, room), in_room(paper.number_bytes(raw, width, signed), room)


def value_cases():
    """The ends of each width and sign and one beyond, other widths, and short rooms."""
    for width in (1, 2, 4):
        half = 256**width // 2
        for raw, signed in ((-half, True), (half - 1, True), (2 * half - 1, False), (-1, True), (0, False)):
            yield value_case(raw, width, signed)
    for width in (1, 2, 4):
        half = 256**width // 2
        for raw, signed in ((-half - 1, True), (half, True), (2 * half, False)):
            yield value_case(raw, width, signed)
    for raw, width, signed in ((-1, 4, False), (0, 0, False), (0, 3, False), (2**63 - 1, 8, True)):
        yield value_case(raw, width, signed)
    for raw, width, room in ((40004, 2, 2), (40004, 2, 1), (40004, 1, 0)):
        yield value_case(raw, width, False, room)


def byte_cases():
    strings = [("80", 1, 1), ("80", 1, 0), ("7f", 1, 1), ("ffff", 2, 1), ("ffff", 2, 0), ("0080", 2, 1), ("449c", 2, 0), ("00000080", 4, 1)]
    strings += [("ffffffff", 4, 1), ("ffffffff", 4, 0), ("01000001", 4, 0), ("0102", 1, 0), ("01", 2, 0), ("", 4, 1), ("010203", 3, 0)]
    strings += [("0102", 3, 0), ("", 0, 0)]
    for digits, width, signed in strings:
        data, signed = bytes.fromhex(digits), bool(signed)
        yield from with_its_text(request("numbers::byte_values::read", data, width, signed), paper.bytes_number(data, width, signed))


def single_cases():
    numbers = [0, -5, 16777215, 16777216, 16777217, -16777217, 33554432, 33554434, 33554436, 4294967040, 4294967041, HIGHEST, LOWEST]
    for raw in numbers + [HIGHEST + 1, LOWEST - 1]:
        yield request("numbers::single::fits", raw), answer(paper.fits(raw))
        yield request("numbers::panel::of", raw), answer(paper.for_panel(raw))


# ---- check values

CHECKED_BY = {
    "nikobus crc16": "checks::nikobus::Crc16::of",
    "nikobus crc8": "checks::nikobus::Crc8::of",
    "nest crc": "checks::nest::Crc::of",
    "nibe xor": "checks::nibe::Xor::of",
    "homiq crc": "checks::homiq::Crc::of",
}


def check_case(name, message):
    value = paper.value(name, message)
    assert name != "nibe xor" or value == functools.reduce(operator.xor, message, 0)
    return request(CHECKED_BY[name], message), answer((value,))


def check_cases():
    """The paper's; then the string whose check values catalogues give, nothing, and one byte."""
    examples = [
        ("nest crc", b"\x82\x00\x02\x00\x00\x00"),
        ("nest crc", b"\xff\x00\x00\x00"),
        ("nest crc", b"\x82\x00\x03\x00\x00\x00\x00"),
        ("nest crc", b"\x82\x00\x03\x00\x01\x10\x21"),
        ("nikobus crc16", b"\x11\x00\x00"),
        ("nikobus crc16", b"\x12\x07\x47"),
        ("nikobus crc8", b"$10110000B8CF"),
        ("nikobus crc8", b"$10120747402B"),
        ("nibe xor", b"\x02\x64\x00"),
        ("nibe xor", b"\x02\x44\x9c"),
        ("nibe xor", b"\xc0\x69\x02\x64\x00"),
        ("homiq crc", b"I.310H042s"),
        ("homiq crc", b"I.3100H42a"),
    ]
    for name, message in examples:
        yield check_case(name, message)
    for message in (b"123456789", b"", b"\x00", b"\xff"):
        for name in paper.CHECKS:
            yield check_case(name, message)


# ---- frames


def why_case(kind, place, s):
    """The verdict on a place."""
    return request("frames::why", kind, s, place), answer(paper.why(kind, s, place))


def search_cases(kind, place, s):
    """The search, and the two parts of the bytes that it hands back: none if it is refused. And the verdict on the place."""
    found = paper.search(kind, s, place)
    payload, frame = b"", b""
    if isinstance(found, tuple):
        start, length, first, last = found
        payload, frame = s[first:last], s[start : start + length]
    yield request("frames::search", kind, s, place), answer(found)
    yield request("frames::payload", kind, s, place), answer((payload,))
    yield request("frames::frame", kind, s, place), answer((frame,))
    yield why_case(kind, place, s)


def one_case(kind, s):
    return request("frames::one_frame", kind, s), answer(paper.one_frame(kind, s))


def both_cases(kind, *buffers):
    """Searched from the front, and taken for one frame."""
    for s in buffers:
        yield from search_cases(kind, 0, s)
        yield one_case(kind, s)


def known_frame_cases():
    """The paper's known points (a) to (g), the acknowledgement (h) and the two of one CRC (l)."""
    yield from both_cases(1, LINK_A, LINK_B)
    yield from both_cases(2, RESET, COMMAND_D)
    yield from both_cases(4, ASK_E, b"\xc0\x69" + ASK)
    yield from both_cases(5, HOMIQ_G, HOMIQ_G.replace(b"134", b"143"), HOMIQ_H)
    yield from both_cases(2, nest(2, 0x82, bytes(3)), nest(2, 0x82, b"\x01\x10\x21"))


def later_frame_cases():
    """Document 02, K3: IDs 0 and 511 are frames' IDs, 512 and `00` are not; the ID after each."""
    beats = b"<;HB;1;0H;0;0;s;149;>", b"<;HB;1;0H;0;511;s;48;>", b"<;HB;1;0H;0;512;s;101;>", b"<;HB;1;0H;0;00;s;250;>"
    yield from both_cases(5, *[beat + b"\r\n" for beat in beats])
    for number in (0, 1, 510, 511, 512, 513, 65535):
        yield request("messages::homiq::next_id", number), answer(paper.next_id(number))


def nikobus_cases():
    # LL at its lower limit and below it, odd, and not that of what follows: the check values are right for what stands there
    lengths = [link(b""), link(b"11"), link(b"110", over=b"\x11"), link(b"110", over=b"\x01\x10"), link(b"1100")]
    yield from both_cases(1, *lengths, link(b"110000", ll=b"12"), link(b"110000", ll=b"0E"))
    longest = link(b"A" * 244)
    yield from both_cases(1, longest)
    yield from search_cases(1, 1, longest)
    # lower case in LL, in the payload, in each check value
    reply, lower = b"0747FF0102030405FE", bytes.fromhex("12abcd")
    yield from both_cases(1, link(reply), link(reply, ll=b"1c"), link(b"12ABCD"), link(b"12aBCD", over=lower))
    yield from both_cases(1, link(b"110000", crc16=b"b8cf"), link(b"110000", crc8=b"9d"))
    # one check value wrong and the other right for what stands there, both wrong, CRC16 with its low byte first
    yield from both_cases(1, link(b"110000", crc16=b"B8CE"), link(b"110000", crc8=b"9C"))
    yield from both_cases(1, link(b"110000", crc16=b"B8CE", crc8=b"9D"), link(b"110000", crc16=b"CFB8"))
    # presses and tails; characters beside the digits'
    presses = [b"N12AB34", b"N12aB34", b"N12AB345", b"N12AB3", b"N12AB3/", b"N12AB3:", b"N12AB3@", b"N12AB3G", b"n12AB34"]
    yield from both_cases(1, *[b"#" + text + b"\r" for text in presses + [b"E1", b"E2", b"e1"]])
    # 0A in the place of 0D, and behind it
    forms = (LINK_A, PRESSED, TAILED)
    yield from both_cases(1, *[s.replace(b"\r", b"\n") for s in forms], *[s + b"\n" for s in forms])


def nest_cases():
    # both directions, each also taken for the other; a damaged response around a command
    damaged = bytearray(nest(3, 0x18, RESET))
    damaged[-1] ^= 1
    yield from both_cases(3, REPLY, REPLY_CLIMATE)
    yield from both_cases(2, REPLY, REPLY_CLIMATE)
    yield from both_cases(3, RESET, COMMAND_D, bytes(damaged))
    # the CRC and the length with the high byte first, a length not that of what follows, another preamble, a byte more
    yield from both_cases(2, bytes(damaged), nest(2, 0xFF, b"", "big"), nest(2, 0x82, bytes(2), "big"))
    yield from both_cases(3, nest(3, 2, paper.CLIMATE, "big"))
    yield from both_cases(2, nest(2, 0x82, bytes(2), length=0x200), nest(2, 0x82, bytes(2), length=1))
    yield from both_cases(2, b"\xd5\xaa\x97" + RESET[3:], RESET + b"\xff")
    # the longest payload and one byte more, of bytes that begin a preamble
    for length in (1024, 1025):
        command, response = (nest(kind, 0x18, b"\xd5" * length) for kind in (2, 3))
        for kind, s in ((3, response), (2, response), (2, command), (3, command)):
            yield from both_cases(kind, s)


def nibe_cases():
    # each command that is listed, and some that are not
    yield from both_cases(4, *[nibe(command, b"\x05") for command in bytes.fromhex("606268696a6b6c6163676d00")])
    # the check taken from C0, from the command, over the data alone, and as it should be
    over = (b"\xc0\x69\x02\x64\x00", b"\x69\x02\x64\x00", b"\x64\x00", b"\x02\x64\x00")
    yield from both_cases(4, *[nibe(0x69, b"\x64\x00", paper.value("nibe xor", s)) for s in over])
    yield from both_cases(4, nibe(0x69, b""), nibe(0x69, b"", 0xC0), b"\x5c" + ASK[1:])
    longest = nibe(0x6A, b"\xc0" * 255)
    yield from both_cases(4, longest, longest[:-1] + bytes([paper.value("nibe xor", longest[:-1])]))


def homiq_cases():
    for number in (b"0", b"00", b"000", b"01", b"1", b"511", b"512", b"042", b"1000", b"4x", b"-1", b""):
        yield from both_cases(5, homiq(b"I.3;1;0H;0;%s;s" % number))
    # CRC 0 and 255, 256 for 0, leading zeros, none, a sign
    zero, most, acknowledged = b"I.3;1;0H;0;187;s", b"I.3;1;0H;0;182;s", b"I.3;1;0;0H;42;a"
    assert homiq(zero).endswith(b"s;0;>\r\n") and homiq(most).endswith(b"s;255;>\r\n")
    yield from both_cases(5, homiq(zero), homiq(zero, b"256"), homiq(zero, b"00"), homiq(zero, b""), homiq(most))
    yield from both_cases(5, homiq(acknowledged, b"064"), homiq(acknowledged, b"+64"), homiq(b"I.3;1;0H;0;90;s"))
    # fields at their longest, one longer, and empty
    heads = [b"ABCDEFGH;1;0H;0", b"ABCDEFGHI;1;0H;0", b"I.3;0123456789ABCDEF;0H;0", b"I.3;0123456789ABCDEFG;0H;0", b"I.3;1;0HJK;0", b"I.3;1;0HJKL;0"]
    heads += [b"I.3;1;0H;0LMN", b"I.3;1;0H;0LMNO", b";1;0H;0", b"I.3;;0H;0", b"I.3;1;;0", b"I.3;1;0H;"]
    yield from both_cases(5, *[homiq(head + b";42;s") for head in heads])
    # other types, the characters at the ends of a field's range and beside them, a field more and a field less
    yield from both_cases(5, *[homiq(b"I.3;1;0H;0;42;" + letter) for letter in (b"a", b"x", b"S", b"ss")])
    yield from both_cases(5, *[homiq(b"I%s3;1;0H;0;42;s" % c) for c in (b">", b"<", b" ", b"!", b"~", b"\x7f", b":=?")])
    yield from both_cases(5, homiq(b"I.3;1;0H;0;0;42;s"), homiq(b"I.3;1;0H;42;s"))
    # CR or LF missing, or the other way round
    line = HOMIQ_G[:-2]
    yield from both_cases(5, line + b"\r", line + b"\n", line, line + b"\n\r", line[:-1] + b"\r\n", line + b"\r\n\n")


def start_cases():
    # a good frame inside the length that a false start claims, if the buffer has that many bytes and if it has not
    command, response = PREAMBLES[2] + b"\x82\x00", PREAMBLES[3] + b"\x82\x00"
    yield from both_cases(1, b"$FE" + LINK_A, b"$20" + LINK_A + b"0" * 12 + b"\r", b"#N12" + PRESSED, b"$1011" + TAILED)
    yield from both_cases(2, command + b"\xff\x03" + RESET, command + b"\x10\x00" + RESET + bytes(9))
    yield from both_cases(3, response + b"\xff\x03" + REPLY, response + b"\x10\x00" + REPLY + bytes(8))
    yield from both_cases(4, b"\xc0\x69\x08" + ASK + bytes(3), b"\xc0\x6a\xff" + ASK)
    yield from both_cases(5, b"<;I.3;1;" + HOMIQ_G, b"<;I.3;1;0H;0;42;s;" + HOMIQ_G)
    # other false starts before a good frame
    yield from both_cases(1, b"$$" + LINK_A, b"#" + LINK_A, b"$10" + PRESSED, b"#E#E1" + TAILED)
    yield from both_cases(2, b"\xd5\xaa" + RESET, b"\xd5\xd5" + RESET, PREAMBLES[2] + RESET)
    yield from both_cases(3, b"\xd5" + REPLY, PREAMBLES[3] + REPLY)
    yield from both_cases(4, b"\xc0" + ASK, b"\xc0\x69\xc0" + ASK)
    yield from both_cases(5, b"<" + HOMIQ_G, b"<;" + HOMIQ_G, b"\r\n" + HOMIQ_G)


def place_cases():
    # one byte short at the end
    cut = [(1, LINK_A), (1, PRESSED), (1, TAILED), (2, RESET), (2, COMMAND_D), (3, REPLY_CLIMATE), (4, ASK), (4, nibe(0x69, b"")), (5, HOMIQ_H)]
    for kind, s in cut:
        yield from both_cases(kind, s[:-1])
    # two frames back to back, and one inside another: from the front, from one byte into the first and from its end
    pairs = [(1, LINK_A, LINK_B), (1, PRESSED, TAILED), (1, TAILED, LINK_A), (2, RESET, COMMAND_D), (3, REPLY, REPLY_CLIMATE)]
    pairs += [(4, ASK, ASK_E), (5, HOMIQ_G, HOMIQ_H), (2, nest(2, 0x18, RESET), b""), (4, nibe(0x68, ASK), b"")]
    for kind, first, second in pairs:
        for place in (0, 1, len(first)):
            yield from search_cases(kind, place, first + second)
        yield one_case(kind, first + second)
    # a frame of each kind, taken for each
    for s in (LINK_A, RESET, REPLY, ASK, HOMIQ_G):
        for kind in paper.KINDS:
            yield from both_cases(kind, s)
    # places at and beyond the length, and kinds that there are not, which is tested first
    far = 2**64 - 1
    places = [(1, 15, LINK_A), (1, 16, LINK_A), (1, 17, LINK_A), (2, 9, RESET), (2, 10, RESET), (3, 11, REPLY)]
    places += [(4, 6, ASK), (4, 7, ASK), (4, far, ASK), (5, 26, HOMIQ_G)]
    places += [(0, 0, ASK), (6, 0, ASK), (255, 0, ASK), (0, 7, ASK), (6, far, ASK), (255, 7, ASK)]
    for case in places:
        yield from search_cases(*case)
    # the empty buffer
    for kind in range(7):
        yield from both_cases(kind, b"")
    for kind in (1, 5, 6):
        yield from search_cases(kind, 1, b"")


# ---- verdicts

# document 02's tests, by example
VERDICTS = [
    (1, LINK_A, "none 0 0"),
    (1, b"$10110000B8CE9D\r", "first 47310 47311"),
    (1, b"$10110000B8CF9C\r", "second 156 157"),
    (1, b"$10110000000000\r", "first 0 47311"),
    (1, b"$10110000B8CF9D\n", "fields 0 0"),
    (1, b"$12110000B8CF9D\r", "length 0 0"),
    (1, b"#N4ECB1A", "length 0 0"),
    (1, b"#E", "start 0 0"),
    (2, COMMAND_D[:-2] + b"\xb2\x08", "first 2226 45576"),
    (4, b"\xc0\x06\x00\x01", "fields 0 0"),
    (5, b"<;I.3;1;0H;0;42;s;143;>\r", "fields 0 0"),
    # where the document leaves it open: the place at the length; a press and a tail cut short; Nibe's command and too few bytes; how a check
    # value is spelt; both checks wrong
    (1, b"", "start 0 0"),
    (1, b"#E1", "length 0 0"),
    (1, b"#Nxyz", "length 0 0"),
    (4, b"\xc0\x06", "length 0 0"),
    (4, b"\xc0\x06\x01\x00", "length 0 0"),
    (5, homiq(b"I.3;1;0H;0;42;s", b"007"), "fields 0 0"),
    (5, homiq(b"I.3;1;0H;0;42;s", b"256"), "fields 0 0"),
    (1, link(b"110000", crc16=b"b8cf"), "fields 0 0"),
    (1, link(b"110000", crc16=b"B8CE", crc8=b"00"), "first 47310 47311"),
    (1, b"$1c0747FF0102030405FE", "length 0 0"),
]


def verdict_cases():
    """The examples; their answers stand there."""
    for kind, s, verdict in VERDICTS:
        assert calls.answer(paper.why(kind, s, 0)) == "ok " + verdict
        yield request("frames::why", kind, s, 0), "ok " + verdict


def off_by_a_bit(kind):
    """Frames that are laid out well, each bit of each check value changed. Those that are bytes are changed among the other bytes."""
    crc16 = paper.value("nikobus crc16", b"\x11\x00\x00")
    for bit in range(16 if kind == 1 else 0):
        wrong = b"%04X" % (crc16 ^ 1 << bit)
        yield link(b"110000", crc16=wrong)
        yield link(b"110000", crc16=wrong, crc8=LINK_A[-3:-1])
        yield link(b"110000", crc8=b"%02X" % (int(LINK_A[-3:-1], 16) ^ 1 << bit % 8))
    for bit in range(8 if kind == 5 else 0):
        yield homiq(b"I.3;1;0H;0;42;s", b"%d" % (134 ^ 1 << bit))


def by_bytes(s):
    """Each byte changed, lost, and cut off with all behind it; a byte inserted before it."""
    for at, byte in enumerate(s):
        yield from (s[:at] + bytes([byte ^ 1 << bit]) + s[at + 1 :] for bit in range(8))
        yield from (s[:at] + bytes([other]) + s[at + 1 :] for other in b"0;\n")
        yield s[:at] + s[at + 1 :]
        yield s[:at]
        yield from (s[:at] + bytes([more]) + s[at:] for more in (s[0], 0x30))


def head_case(kind, s):
    """What stands at the front: a frame's length and its payload's places, or zeros; then the verdict."""
    asked = {2: "nest::frame command", 3: "nest::frame response"}.get(kind) or BUSES[kind] + "::frame"
    return request("layouts::" + asked, s), answer((*(paper.frame_at(kind, s, 0) or (0, 0, 0)), *paper.verdict(kind, s)))


def damage_cases():
    """A good frame of each form, damaged in each place: every verdict that a kind can have comes. Then all its places, and some beyond."""
    frames = {1: (LINK_A, PRESSED, TAILED), 2: (RESET, COMMAND_D), 3: (REPLY,), 4: (nibe(0x60, b""), ASK), 5: (HOMIQ_G,)}
    for kind, good in frames.items():
        damaged = dict.fromkeys(s for frame in good for s in (frame, *by_bytes(frame))) | dict.fromkeys(off_by_a_bit(kind))
        assert {paper.verdict(kind, s)[0] for s in damaged} == set(paper.VERDICTS[kind])
        for s in damaged:
            yield why_case(kind, 0, s)
            yield head_case(kind, s)
        for frame in good:
            yield from (why_case(kind, place, frame) for place in (*range(len(frame) + 3), 2**32, 2**64 - 1))
    for kind in range(256):
        yield why_case(kind, 0, ASK)
        yield why_case(kind, 7, ASK)


# ---- kinds, and what is asked of bytes alone

BUSES = {1: "nikobus", 4: "nibe", 5: "homiq"}


def kind_cases():
    """Each number, and each name."""
    for n in range(256):
        yield request("frames::kinds::known", n), answer((n in paper.KINDS,))
        yield request("frames::kinds::of", n), answer(or_refused(paper.KIND_NAMES.get(n), 2))
    for n, name in paper.KIND_NAMES.items():
        yield request("frames::kinds::number", name), answer((n,))


def begin_case(kind, s):
    """Whether a frame can begin so."""
    asked = {2: "nest::may_start command", 3: "nest::may_start response"}.get(kind) or BUSES[kind] + "::may_start"
    return request("layouts::" + asked, s), answer((paper.may_start(kind, s),))


def begin_cases():
    """The first bytes of a frame of each kind, with each byte at each of the first two places and some at the third; fewer; more."""
    frames = [(1, LINK_A), (1, PRESSED), (2, RESET), (3, REPLY), (4, ASK), (5, HOMIQ_G)]
    for kind, s in frames:
        for at in (0, 1):
            yield from (begin_case(kind, s[:at] + bytes([b]) + s[at + 1 : 3]) for b in range(256))
        yield from (begin_case(kind, s[:2] + bytes([b])) for b in (0x00, 0x30, 0x96, 0x97, 0xAA, 0xAB, 0xD5, 0xFF))
        yield from (begin_case(kind, s[:length]) for length in (0, 1, 2, 3, 4, len(s)))
        yield begin_case(kind, b"\x00" + s)
    for _, s in frames:
        yield from (begin_case(kind, s) for kind in paper.KINDS)
    yield begin_case(1, TAILED)


def digits_case(s):
    return request("layouts::nikobus::all_digits", s), answer((paper.hex_value(s) is not None,))


def payload_case(s):
    return request("layouts::homiq::is_payload", s), answer((paper.is_payload(s),))


def test_cases():
    """Each character for a digit, alone and among others; each command; fields at their limits and beyond."""
    yield digits_case(b"")
    for c in range(256):
        yield digits_case(bytes([c]))
        yield request("layouts::nibe::is_command", c), answer((c in paper.COMMANDS,))
    for at in (0, 3, 5):
        yield from (digits_case(b"12AB34"[:at] + bytes([c]) + b"12AB34"[at + 1 :]) for c in b"/0 9:@AFG`afg")
    yield digits_case(b"A" * 244)
    fields = [b"I.3", b"1", b"0H", b"0", b"42", b"s"]
    for at, others in enumerate((b"|ABCDEFGH|ABCDEFGHI", b"|0123456789ABCDEF|0123456789ABCDEFG", b"|0HJK|0HJKL", b"|0LMN|0LMNO")):
        yield from (payload_case(b";".join([*fields[:at], other, *fields[at + 1 :]])) for other in others.split(b"|"))
        yield from (payload_case(b";".join([*fields[:at], bytes([c]), *fields[at + 1 :]])) for c in b" !:;<=>?~\x7f\x80")
    yield from (payload_case(b";".join([*fields[:4], number, b"s"])) for number in b"|0|00|1|511|512|042|1000|4x|-1".split(b"|"))
    yield from (payload_case(b";".join([*fields[:5], letter])) for letter in b"|s|a|x|S|ss|sa".split(b"|"))
    yield from (payload_case(s) for s in (b"", b";;;;;", b"I.3;1;0H;0;42", b"I.3;1;0H;0;42;s;", b";I.3;1;0H;0;42;s", b"I.3;1;0H;0;0;42;s", HOMIQ_G))


# ---- the next line of a capture


def next_line(kind, place, s, rows=None):
    """The next frame's start, its length and its line; or the refusal's number."""
    found = paper.search(kind, s, place)
    if isinstance(found, int):
        return found
    start, length = found[:2]
    return start, length, lines.line(kind, start, s[start : start + length], rows).encode("ascii") + b"\n"


def line_cases(kind, place, s, rows=None):
    """Measured; and put if it just fits, if a byte more or less is left, in no room, and beyond the room. Without rows the map is empty."""
    found = next_line(kind, place, s, rows)
    refused = isinstance(found, int)
    start, length, line = (0, 0, found) if refused else found
    size = 0 if refused else len(line)
    of_map = b"" if rows is None else sheet.mapped(rows)
    yield request("lines::measure", kind, s, place, of_map), answer(found if refused else (start, length, size))
    for room, to in ((size, 0), (size + 1, 0), (size + 3, 3), (size + 2, 3), (max(size - 1, 0), 0), (0, 0), (size, size + 1), (9, 2**64 - 1)):
        yield request("lines::next", kind, s, place, of_map, room, to), in_room(line, room, to, (start, length, to + size))


def next_cases():
    """Frames back to back: from the front, from one byte into the first, and from the end; the search's refusals before the room's."""
    captures = [(1, LINK_A + PRESSED + TAILED), (2, RESET + COMMAND_D), (3, REPLY + REPLY_CLIMATE), (4, ASK + ASK_E), (5, HOMIQ_G + HOMIQ_H)]
    for kind, s in captures:
        for place in (0, 1, len(s) - 1, len(s), len(s) + 1):
            yield from line_cases(kind, place, s)
    for kind, place in ((0, 0), (6, 0), (255, 7), (4, 2**64 - 1)):
        yield from line_cases(kind, place, ASK)


# ---- the register sheet

SHEET = b"40004,s16,1\n47011,u8,0\n"
ROWS = {0: (1, False, 0), 1: (1, True, 1), 2: (2, False, 2), 3: (2, True, 3), 4: (4, False, 0), 5: (4, True, 1)}
# the second of these is the empty sheet, and good
OTHER_SHEETS = b"x||1,u8,0|01,u8,0\n|65536,u8,0\n|1,u8,0\r\n|1,u8\n|1,U8,0\n|1,u8,4\n|1,u8,0\n1,u8,0\n|2,u8,0\n1,u8,0\n|\n|1,u8,0\n\n"
OTHER_SHEETS = OTHER_SHEETS.split(b"|")


def splits_case(command, text, data, room):
    """The pairs, in a room of this length; 5, 10 and 9 go before the room."""
    found = sheet.rows(text)
    if command not in sheet.SPLIT or found is None:
        made = 5 if command not in sheet.SPLIT else 10
    else:
        pairs = sheet.split(found, data)
        made = 9 if pairs is None else b"".join(pair_bytes(*pair) for pair in pairs)
    return request("sheet::split", command, data, text, room), in_room(made, room)


def pair_bytes(register, raw):
    return register.to_bytes(2, "little") + raw.to_bytes(8, "little", signed=True)


def joins_case(text, pairs, room):
    """The data of pairs that are right, but for values that are not held and for registers that are not listed."""
    found = sheet.rows(text)
    given = b"".join(pair_bytes(*pair) for pair in pairs)
    if any(register not in found for register, _ in pairs):
        made = 9
    elif any(paper.held(raw, *found[register][:2]) is None for register, raw in pairs):
        made = 5
    else:
        made = sheet.joined(found, pairs)
    return request("sheet::join", 0x68, given, text, room), in_room(5 if isinstance(made, bytes) and len(made) > 255 else made, room)


def sheet_cases():
    """K2's examples; each type at its limits; each fault; the refusals in their order."""
    for text in (SHEET, sheet.written(ROWS), *OTHER_SHEETS):
        found = sheet.rows(text)
        yield request("sheet::open", text), answer(10 if found is None else (len(found),))
        yield request("sheet::fault", text), answer(sheet.fault(text))
        for register in (0, 1, 40004, 47011, 65535):
            listed = 10 if found is None else found.get(register, 9)
            yield request("sheet::type_of", text, register), answer(listed)
        yield splits_case(0x68, text, b"", 0)
        yield splits_case(0x6A, text, b"\x01", 0)
    data = bytes.fromhex("449CEB00A3B70A")
    for end in range(len(data) + 1):
        yield splits_case(0x68, SHEET, data[:end], 20)
    for command, room in ((0x62, 20), (0x68, 19), (0x68, 21), (0x60, 20), (0x6A, 20)):
        yield splits_case(command, SHEET, data, room)
    text = sheet.written(ROWS)
    for register, (width, signed, _) in ROWS.items():
        most = (1 << 8 * width - signed) - 1
        for raw in (-most - 2, -most - 1, -1, 0, most, most + 1, 2**63 - 1, -(2**63)):
            yield joins_case(text, [(register, raw)], 2 + width)
            if paper.held(raw, width, signed) is not None:
                yield splits_case(0x68, text, sheet.joined(ROWS, [(register, raw)]), 10)
    for count in (85, 86):
        yield joins_case(text, [(0, 7)] * count, 300)
    for of_map in (b"", b"\x00", bytes(range(30)), sheet.mapped(ROWS)):
        for register in range(32):
            byte = of_map[register : register + 1] or b"\x00"
            sort = [*sheet.TYPES.values()][(byte[0] - 1) // 4] if 1 <= byte[0] <= 24 else None
            yield request("sheet::type_in", of_map, register), answer(9 if sort is None else (*sort, (byte[0] - 1) % 4))
    for end in range(len(data) + 1):
        by_map = sheet.split(ROWS, b"\x02\x00" + data[:end]) is not None
        yield request("sheet::splits", sheet.mapped(ROWS), b"\x02\x00" + data[:end]), answer((by_map,))
    for n in (0, 1, 255, 2**32, 2**63, 2**64 - 1):
        yield request("digits::low_first::eight", n), answer((n.to_bytes(8, "little"),))


def line_with(kind, frame, text):
    """A frame's line by a sheet, or the refusal's number."""
    found = paper.one_frame(kind, frame)
    if isinstance(found, int):
        return found
    rows = sheet.rows(text)
    return 10 if rows is None else lines.line(kind, 7, frame, rows).encode("ascii") + b"\n"


def sheet_line_cases():
    """K2's lines, by the text and by a map; and the refusals in their order."""
    pairs = [(register, raw) for register, raw in zip(ROWS, (255, -128, 65535, -32768, 4294967295, -2147483648))]
    data = sheet.joined(ROWS, pairs)
    frames = [nibe(command, data[:end]) for command in (0x60, 0x62, 0x68) for end in (0, 3, len(data) - 1, len(data))]
    frames += [nibe(command, sheet.joined(ROWS, [pair])) for command in (0x6A, 0x6B) for pair in pairs]
    frames += [nibe(0x6A, b"\x01\x00\xff\xff"), nibe(0x6A, b"\x09\x00\xff\xff"), nibe(0x69, b"\x01\x00")]
    text = sheet.written(ROWS)
    for frame in frames:
        yield request("lines::write_with", 4, frame, 7, text, 900), in_room(line_with(4, frame, text), 900)
        yield from line_cases(4, 0, frame, ROWS)
        for of_map, rows in ((sheet.mapped(ROWS), ROWS), (b"\x00", {}), (b"", None)):
            line = lines.line(4, 7, frame, rows).encode("ascii") + b"\n"
            yield request("lines::write_mapped", 4, frame, 7, of_map, 900), in_room(line, 900)
    for kind, frame in ((0, TAILED), (6, TAILED), (1, TAILED), (4, TAILED), (5, HOMIQ_G)):
        for text in (b"", b"x", SHEET):
            yield request("lines::write_with", kind, frame, 7, text, 300), in_room(line_with(kind, frame, text), 300)
            yield request("lines::write_with", kind, frame, 7, text, 0), in_room(line_with(kind, frame, text), 0)


# ---- the requests themselves


def example_cases():
    """The example of docs/CALLS.md, as it stands there."""
    yield "numbers::text::write -5 2 8", "ok 5 room 2D302E3035+3"
    yield "frames::search 4 C069C06902640066 0", "ok 2 6 5 7"


# each has one thing that no request has
NO_REQUESTS = [
    "",
    "digits",
    "digits::hex::values 65",
    "Digits::hex::value 65",
    # fewer words, more words, other spaces
    "digits::hex::value",
    "digits::hex::value 65 65",
    "digits::hex::byte_of 65",
    "frames::search 4 C06902640066",
    "frames::why 4 C06902640066",
    "frames::why 4 C06902640066 0 0",
    "digits::hex::value  65",
    " digits::hex::value 65",
    "digits::hex::value 65 ",
    "digits::hex::value\t65",
    # what the parameter's type does not hold
    "digits::hex::value 256",
    "digits::hex::value -1",
    "digits::hex::four_digits 65536",
    "digits::decimal::digits 18446744073709551616",
    "numbers::text::write 9223372036854775808 0 12",
    "numbers::text::write -9223372036854775809 0 12",
    "numbers::text::write 5 4294967296 12",
    "numbers::panel::pair 32768 0",
    "numbers::panel::pair -32769 0",
    "frames::search 256 C06902640066 0",
    "frames::search 4 C06902640066 18446744073709551616",
    "frames::why 256 C06902640066 0",
    "frames::why 4 C06902640066 18446744073709551616",
    # a number otherwise written
    "digits::hex::value 065",
    "digits::hex::value 00",
    "digits::hex::value +65",
    "digits::hex::value 0x41",
    "digits::hex::value -",
    "digits::hex::value A",
    "numbers::text::write -0 0 12",
    "numbers::text::write -05 0 12",
    "numbers::single::fits 5.0",
    # bytes otherwise written, or not as many as there must be
    "frames::one_frame 4 c06902640066",
    "frames::one_frame 4 C0690264006",
    "frames::one_frame 4 C069026400GG",
    "frames::one_frame 4 --",
    "digits::hex::word_of 303030",
    "digits::hex::word_of 3030303030",
    # another word than the parameter has, a room that is too long, a message that is none, or of another kind, or with other fields
    "numbers::byte_values::read 80 1 1",
    "numbers::byte_values::read 80 1 True",
    "layouts::nest::frame both D5AA96FF000000A34B",
    "puts::front 41 2097203",
    "commands::encode 1 reads 1 18183 - 16",
    "commands::encode 1 read 18183 - 16",
    "commands::encode 1 tail 1 - 16",
    "commands::encode 1 press 3132414233 - 16",
    "messages::nest::for_panel tail",
    # a kind otherwise named
    "frames::kinds::number 4",
    "frames::kinds::number Nibe",
    "frames::kinds::number nest",
    "frames::kinds::number nest_command",
    "frames::kinds::of nibe",
    "frames::kinds::of 256",
    # a message without what stands beside it
    "messages::allowed tail",
    "lines::of tail 0 4 40 0",
    # a room for what writes nothing
    "lines::measure 4 C06902640066 0 - 80 0",
    # no map; no sheet; a register that there is not
    "lines::measure 4 C06902640066 0",
    "lines::next 4 C06902640066 0 80 0",
    "lines::write_with 4 C06902640066 0 80",
    "sheet::open",
    "sheet::type_of - 65536",
    "sheet::type_in 01 -1",
    "sheet::split 256 - - 0",
    "digits::low_first::eight 18446744073709551616",
    # a content without its payload; a tag that is none, or without what it has, or with more than its type holds
    "messages::of tail",
    "lines::put_content tail - 0 4 40 0",
    "messages::of Tail -",
    "messages::of input 492E333B313B30483B303B34323B73",
    "messages::of read 1 18183 -",
    "messages::of command 42524B",
    "messages::of response 65536 42524B",
    "messages::of nibe 256 449C",
    "messages::of link 6 110000",
    # functions that there were
    "messages::message_in 4 C06902640066",
    "lines::tested 4 C06902640066 0 80 0",
    "messages::nikobus::of_press 344543423141",
    "messages::nest::of response 1 42524B",
]


def no_request_cases():
    for line in NO_REQUESTS:
        yield line, "request?"


SUBJECTS = [
    example_cases,
    hex_cases,
    decimal_cases,
    low_first_cases,
    text_cases,
    reading_cases,
    value_cases,
    byte_cases,
    single_cases,
    check_cases,
    known_frame_cases,
    later_frame_cases,
    nikobus_cases,
    nest_cases,
    nibe_cases,
    homiq_cases,
    start_cases,
    place_cases,
    verdict_cases,
    damage_cases,
    kind_cases,
    begin_cases,
    test_cases,
    next_cases,
    sheet_cases,
    sheet_line_cases,
    no_request_cases,
]


def files():
    """The end of each file's name, and its lines: the requests, and the answers."""
    cases = [case for subject in SUBJECTS for case in subject()]
    yield from zip(("requests", "answers"), zip(*cases))


def stored(name):
    if not os.path.exists(FILES + name):
        return []
    with open(FILES + name, encoding="ascii", newline="") as f:
        return f.read().removesuffix("\n").split("\n")


def same(what, right, found):
    """Whether two lists of lines are the same; if not, the first that differs is printed."""
    pairs = itertools.zip_longest(right, found)
    wrong = next(((i, line, other) for i, (line, other) in enumerate(pairs, 1) if line != other), None)
    if wrong:
        print("%s: line %d is not\n  %s\nbut\n  %s" % (what, *wrong))
    return not wrong


def main(words):
    if words == ["--write"]:
        for name, lines in files():
            with open(FILES + name, "w", encoding="ascii", newline="") as f:
                f.writelines(line + "\n" for line in lines)
    elif words == ["--check"]:
        (_, requests), (_, answers) = files()
        held = [same("tests/points." + name, lines, stored(name)) for name, lines in files()]
        held.append(same("the answers of bin/calls", answers, calls.run(requests)))
        print("%d passed, %d failed" % (held.count(True), held.count(False)))
        return 0 if all(held) else 1
    elif words:
        print(__doc__, file=sys.stderr)
        return 2
    else:
        for subject in SUBJECTS:
            for case in subject():
                print("%s\n  %s" % case)
    return 0


if __name__ == "__main__":
    sys.exit(main(sys.argv[1:]))
