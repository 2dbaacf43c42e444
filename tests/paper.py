"""Digits, numbers, check values and frames of document 01, and the verdicts of document 02 (K1), from the documents alone: nothing here is
taken from the Rattle code.

What a public function is asked is answered here with what it answers, a tuple of values or the bytes that it writes, or with the
refusal's number. Whether a lent room is long enough is not looked at here.
"""
import re
import struct
from decimal import Context, Decimal

# ---- digits


def hex_digit(c):
    """A hex digit's value; upper case only."""
    if 0x30 <= c <= 0x39:
        return c - 0x30
    if 0x41 <= c <= 0x46:
        return c - 0x41 + 10
    return None


def hex_value(s):
    """The number that hex digits are, or none."""
    values = [hex_digit(c) for c in s]
    if None in values:
        return None
    return sum(v << 4 * i for i, v in enumerate(reversed(values)))


def decimal_value(s):
    """The number of at most 32 bits that decimal digits without leading zeros are, or none."""
    try:
        n = int(s)
    except ValueError:
        return None
    return n if str(n).encode() == s and 0 <= n < 1 << 32 else None


def low_first_value(s):
    """The number that 1, 2 or 4 bytes are, low byte first, or none."""
    return int.from_bytes(s, "little") if len(s) in WIDTHS else None


# ---- numbers

LOWEST, HIGHEST = -2147483648, 4294967295
WIDTHS = (1, 2, 4)
TEXT = re.compile(rb"(-?)(0|[1-9][0-9]*)(?:\.([0-9]{1,3}))?")
EXACT = Context(prec=40)


def number_text(raw, decimals):
    """A raw number at its decimals, by exact fractions."""
    if decimals > 3:
        return 7
    if not LOWEST <= raw <= HIGHEST:
        return 5
    text = Decimal(raw).scaleb(-decimals).quantize(Decimal(1).scaleb(-decimals), context=EXACT) if decimals else raw
    return str(text).encode()


def text_number(text):
    """The raw number and the decimals of a text."""
    found = TEXT.fullmatch(text)
    if not found or len(text) > 12:
        return 7
    decimals = found.group(3) or b""
    raw = int(found.group(1) + found.group(2) + decimals)
    return (raw, len(decimals)) if LOWEST <= raw <= HIGHEST and not (found.group(1) and raw == 0) else 7


def held(raw, width, signed):
    """The bytes, or none if this width does not hold the number."""
    try:
        return raw.to_bytes(width, "little", signed=signed)
    except OverflowError:
        return None


def number_bytes(raw, width, signed):
    if width not in WIDTHS:
        return 7
    data = held(raw, width, signed)
    return 5 if data is None else data


def bytes_number(data, width, signed):
    if width not in WIDTHS:
        return 7
    return (int.from_bytes(data, "little", signed=signed),) if len(data) == width else 5


def survives(raw):
    """Whether a single holds the number, by the machine's own."""
    return struct.unpack("<f", struct.pack("<f", raw))[0] == raw


def fits(raw):
    return (survives(raw),) if LOWEST <= raw <= HIGHEST else 5


def for_panel(raw):
    """Raw and not divided, so the number that the float is is the raw number itself."""
    return ("single" if survives(raw) else "double", raw) if LOWEST <= raw <= HIGHEST else 5


# ---- check values


def remainder(message, width, poly, start, low_first):
    """A check value as the remainder of a division of polynomials over whole numbers."""
    bits = "".join(format(b, "08b")[:: -1 if low_first else 1] for b in message)
    value = (int(bits, 2) if bits else 0) << width
    value ^= start << len(bits)
    generator = 1 << width | poly
    for shift in range(len(bits) - 1, -1, -1):
        if value >> shift + width & 1:
            value ^= generator << shift
    text = format(value, "0%db" % width)
    return int(text[:: -1 if low_first else 1], 2)


# name: width, polynomial with the first bit at the top, start, low bit first. 0x31 is 0x8C in the other order.
CHECKS = {
    "nikobus crc16": (16, 0x1021, 0xFFFF, False),
    "nikobus crc8": (8, 0x99, 0, False),
    "nest crc": (16, 0x1021, 0, False),
    "nibe xor": (8, 0x01, 0, False),
    "homiq crc": (8, 0x31, 0, True),
}


def value(name, message):
    return remainder(message, *CHECKS[name])


# ---- frames

KINDS = (1, 2, 3, 4, 5)
KIND_NAMES = dict(zip(KINDS, ("nikobus", "nest-command", "nest-response", "nibe", "homiq")))
CHARACTER = rb"[!-:=?-~]"
LINK = re.compile(rb"\$([0-9A-F]{2})((?:[0-9A-F]{2})+)([0-9A-F]{4})([0-9A-F]{2})\r")
PRESS = re.compile(rb"#N([0-9A-F]{6})\r")
# a tail's payload is empty; document 01 does not say where, docs/CALLS.md does: at the end
TAIL = re.compile(rb"#E1\r()")
NATURAL = rb"(0|[1-9][0-9]*)"
FIELDS = rb"(C{1,8});(C{1,16});(C{1,4});(C{1,4});N;([sa])".replace(b"C", CHARACTER).replace(b"N", NATURAL)
HOMIQ = re.compile(rb"<;(%s);%s;>\r\n" % (FIELDS, NATURAL))
# document 02, K3: Homiq counts from 0 to this ID, and from there goes on with 0
LAST_ID = 511
COMMANDS = bytes.fromhex("606268696a6b6c")
PREAMBLES = {2: bytes.fromhex("d5aa96"), 3: bytes.fromhex("d5d5aa96")}


def link_values(found):
    """Of a match of LINK: CRC16's value that stands there and the one worked out, then CRC8's."""
    _, digits, crc16, crc8 = found.groups()
    yield int(crc16, 16), value("nikobus crc16", bytes.fromhex(digits.decode()))
    yield int(crc8, 16), value("nikobus crc8", found.string[found.start() : found.start(4)])


def homiq_values(found):
    """Of a match of HOMIQ: the CRC that stands there, and the one worked out."""
    return int(found.group(8)), value("homiq crc", b"".join(found.group(*range(2, 8))))


def nikobus_at(s, at):
    """A frame's end and its payload's span; LL is compared with the length that the form has."""
    found = LINK.match(s, at)
    if found:
        length = found.end() - at
        right = int(found.group(1), 16) == length and 0x0C <= length <= 0xFE
        right = right and all(stands == worked_out for stands, worked_out in link_values(found))
        return (found.end(), *found.span(2)) if right else None
    found = PRESS.match(s, at) or TAIL.match(s, at)
    return (found.end(), *found.span(1)) if found else None


def nest_at(kind, s, at):
    """Id and length are the four bytes behind the preamble."""
    start = at + len(PREAMBLES[kind])
    if s[at:start] != PREAMBLES[kind] or len(s) < start + 4:
        return None
    last = start + 4 + int.from_bytes(s[start + 2 : start + 4], "little")
    if last > start + 4 + 1024 or len(s) < last + 2:
        return None
    crc = value("nest crc", s[start:last])
    return (last + 2, start + 4, last) if s[last : last + 2] == struct.pack("<H", crc) else None


def nibe_at(s, at):
    """With the check byte behind them, the length and the data XOR to 0."""
    head, rest = s[at : at + 2], s[at + 2 :]
    if head not in [bytes([0xC0, command]) for command in COMMANDS] or not rest or len(rest) < rest[0] + 2:
        return None
    end = at + rest[0] + 4
    return (end, at + 3, end - 1) if value("nibe xor", s[at + 2 : end]) == 0 else None


def homiq_at(s, at):
    """The form by a pattern, then the two numbers."""
    found = HOMIQ.match(s, at)
    if not found or int(found.group(6)) > LAST_ID:
        return None
    stands, right = homiq_values(found)
    return (found.end(), *found.span(1)) if stands == right else None


def frame_at(kind, s, at):
    if kind == 1:
        return nikobus_at(s, at)
    if kind == 4:
        return nibe_at(s, at)
    return homiq_at(s, at) if kind == 5 else nest_at(kind, s, at)


# what docs/CALLS.md says that a frame of a kind can begin with: a pattern of its first three bytes
STARTS = {1: rb"[$#][^\x00-/].", 2: rb"\xd5\xaa\x96", 3: rb"\xd5\xd5\xaa", 4: rb"\xc0[\x60-\x6f].", 5: rb"<;."}


def may_start(kind, s):
    return bool(re.match(STARTS[kind], s, re.DOTALL))


def is_payload(s):
    """Whether these are Homiq's six fields; the ID's limit is compared as a number."""
    found = re.fullmatch(FIELDS, s)
    return bool(found) and int(found.group(5)) <= LAST_ID


def next_id(number):
    """The ID after this one, or the refusal's number."""
    if number > LAST_ID:
        return 5
    return (0,) if number == LAST_ID else (number + 1,)


def search(kind, s, place):
    """Start, length and the payload's places of the frame with the smallest start: every place is tried."""
    if kind not in KINDS:
        return 2
    if place > len(s):
        return 3
    starts = [at for at in range(place, len(s)) if frame_at(kind, s, at)]
    if not starts:
        return 1
    start = min(starts)
    end, first, last = frame_at(kind, s, start)
    return start, end - start, first, last


# ---- verdicts

MARKS = {1: (b"$", b"#N", b"#E1"), 2: PREAMBLES[2], 3: PREAMBLES[3], 4: b"\xc0", 5: b"<;"}
# the verdicts that a place can have: Nest has no field that can be wrong, Homiq no length, and Nikobus alone two checks
VERDICTS = {
    1: ("none", "start", "length", "fields", "first", "second"),
    2: ("none", "start", "length", "first"),
    3: ("none", "start", "length", "first"),
    4: ("none", "start", "length", "fields", "first"),
    5: ("none", "start", "fields", "first"),
}


def claimed(kind, s):
    """How many bytes a frame with this mark must have; none if its length is missing or not allowed. Homiq's ends where its fields end."""
    if kind == 1 and s[:1] == b"#":
        return 9 if s[1:2] == b"N" else 4
    if kind == 1:
        ll = hex_value(s[1:3]) if len(s) > 2 else None
        return ll if ll in range(0x0C, 0x100, 2) else None
    if kind in (2, 3):
        before = len(PREAMBLES[kind]) + 4
        length = int.from_bytes(s[before - 2 : before], "little")
        return before + length + 2 if len(s) >= before and length <= 1024 else None
    if kind == 4:
        return 4 + s[2] if len(s) > 2 else None
    return 0


def check_values(kind, s, size):
    """For each check the value that stands in a frame of this size, and the one worked out; none if a field is not as it must be."""
    if kind == 1:
        found = LINK.fullmatch(s, 0, size)
        if found:
            return list(link_values(found))
        return [] if PRESS.fullmatch(s, 0, size) or TAIL.fullmatch(s, 0, size) else None
    if kind in (2, 3):
        covered = s[len(PREAMBLES[kind]) : size - 2]
        return [(int.from_bytes(s[size - 2 : size], "little"), value("nest crc", covered))]
    if kind == 4:
        return [(s[size - 1], value("nibe xor", s[2 : size - 1]))] if s[1] in COMMANDS else None
    found = HOMIQ.match(s)
    return [homiq_values(found)] if found and int(found.group(6)) <= LAST_ID and int(found.group(8)) <= 255 else None


def verdict(kind, s):
    """The first test that a frame at the front fails, the check value found and the one expected: both 0 without a failed check."""
    if not s.startswith(MARKS[kind]):
        return "start", 0, 0
    size = claimed(kind, s)
    if size is None or len(s) < size:
        return "length", 0, 0
    values = check_values(kind, s, size)
    if values is None:
        return "fields", 0, 0
    wrong = ((test, *pair) for test, pair in zip(("first", "second"), values) if pair[0] != pair[1])
    return next(wrong, ("none", 0, 0))


def why(kind, s, place):
    """The verdict on a place."""
    if kind not in KINDS:
        return 2
    return verdict(kind, s[place:]) if place <= len(s) else 3


def one_frame(kind, s):
    """The payload's places, of one frame and no byte more."""
    if kind not in KINDS:
        return 2
    found = frame_at(kind, s, 0)
    return found[1:] if found and found[0] == len(s) else 5


# ---- frames made


def link(digits, ll=None, over=None, crc16=None, crc8=None):
    """A link around these digits; LL and the check values are the right ones if none are given. `over`: what CRC16 is taken of."""
    ll = ll or b"%02X" % (len(digits) + 10)
    over = bytes.fromhex(digits.decode()) if over is None else over
    s = b"$" + ll + digits + (crc16 or b"%04X" % value("nikobus crc16", over))
    return s + (crc8 or b"%02X" % value("nikobus crc8", s)) + b"\r"


def nest(kind, number, payload, order="little", length=None):
    """A command or response; `order` is that of the CRC."""
    s = struct.pack("<HH", number, len(payload) if length is None else length) + payload
    return PREAMBLES[kind] + s + value("nest crc", s).to_bytes(2, order)


def nibe(command, content, check=None):
    s = bytes([len(content)]) + content
    return bytes([0xC0, command]) + s + bytes([value("nibe xor", s) if check is None else check])


def homiq(fields, crc=None):
    """The right CRC is that of all that stands there without `;`, even if that is no field."""
    right = b"%d" % value("homiq crc", fields.replace(b";", b""))
    return b"<;" + fields + b";" + (right if crc is None else crc) + b";>\r\n"


# the frames that the documents print, and some short ones of the other sorts
CLIMATE = bytes.fromhex("c409f401")
LINK_A, LINK_B, PRESSED, TAILED = b"$10110000B8CF9D\r", b"$10120747402BFC\r", b"#N12AB34\r", b"#E1\r"
RESET, COMMAND_D = bytes.fromhex("d5aa96ff000000a34b"), bytes.fromhex("d5aa9682000200000008b2")
REPLY, REPLY_CLIMATE = nest(3, 0xFF, b""), nest(3, 2, CLIMATE)
ASK, ASK_E = bytes.fromhex("c06902640066"), bytes.fromhex("c06902449cda")
HOMIQ_G, HOMIQ_H = b"<;I.3;1;0H;0;42;s;134;>\r\n", b"<;I.3;1;0;0H;42;a;64;>\r\n"
