"""The message table of document 01, from the documents alone: what a frame is decoded to, what a message is encoded to, and what
a Homiq frame is acknowledged with. Frames and check values are those of paper.py; nothing is taken from the Rattle code.

A row reads the parts of a frame (Nikobus: form and payload; Nest: id and payload; Nibe: command and data; Homiq: the six fields) and
answers the message's fields, or none if the parts are another row's; and it makes the parts from fields, or none if a field is
outside its limits.
"""
import re
import struct

import paper

NIKOBUS = ["read", "set", "answer", "press", "tail", "link"]
RESPONSES = ["climate", "state", "break", "end", "text", "response"]
NIBE = ["ask", "reply", "put", "done", "nibe"]
HOMIQ = ["output", "input", "shutter", "beat", "homiq"]
OF_KIND = {1: NIKOBUS, 2: ["command"], 3: RESPONSES, 4: NIBE, 5: HOMIQ}
NAMES = [name for names in OF_KIND.values() for name in names]
KINDS = {name: kind for kind, names in OF_KIND.items() for name in names}
# what "may not be encoded with a content that a message above them in the table has"
LAST = {"link", "text", "response", "nibe", "homiq"}
# the tags of contents; each has the kind, and but for a press the fields, of the row of its name
TAGS = ("link", "press", "tail", "command", "response", "nibe", "homiq")
TEXTS = (0x0001, 0x0018, 0x0019)
DIGITS = re.compile(rb"(?:[0-9A-F]{2}){1,122}")
SIX_DIGITS = re.compile(rb"[0-9A-F]{6}")


def u16(data, at):
    return struct.unpack_from("<H", data, at)[0]


def parts(kind, frame):
    """The parts of one frame of a kind and no byte more, with its payload's two places; or none."""
    found = paper.frame_at(kind, frame, 0)
    if not found or found[0] != len(frame):
        return None
    _, first, last = found
    payload = frame[first:last]
    if kind == 1:
        form = {b"$": "link", b"#N": "press", b"#E": "tail"}[frame[: 1 if frame[0] == 0x24 else 2]]
        return (form, bytes.fromhex(payload.decode()) if form == "link" else payload), first, last
    if kind in (2, 3):
        return (u16(frame, first - 4), payload), first, last
    if kind == 4:
        return (frame[1], payload), first, last
    return tuple(payload.split(b";")), first, last


def frame(kind, made):
    """The frame with these parts."""
    if kind == 1:
        form, payload = made
        if form == "link":
            return paper.link(payload.hex().upper().encode())
        return {"press": b"#N" + payload + b"\r", "tail": b"#E1\r"}[form]
    if kind in (2, 3):
        return paper.nest(kind, *made)
    return paper.nibe(*made) if kind == 4 else paper.homiq(b";".join(made))


def read_read(form, p):
    if form == "link" and len(p) == 3 and p[0] in (0x12, 0x17):
        return {"group": 1 if p[0] == 0x12 else 2, "address": u16(p, 1)}
    return None


def read_set(form, p):
    if form == "link" and len(p) == 10 and p[0] in (0x15, 0x16) and p[9] == 0xFF:
        return {"group": 1 if p[0] == 0x15 else 2, "address": u16(p, 1), "out": p[3:9]}
    return None


def read_answer(form, p):
    return {"address": u16(p, 0), "third": p[2], "out": p[3:]} if form == "link" and len(p) == 9 else None


def read_climate(number, p):
    return dict(zip(("temperature", "humidity"), struct.unpack("<hH", p))) if number == 2 and len(p) == 4 else None


def valued(command):
    def read(found, data):
        if found != command or len(data) - 2 not in paper.WIDTHS:
            return None
        return {"register": u16(data, 0), "width": len(data) - 2, "value": int.from_bytes(data[2:], "little")}

    return read


def sent(commands, values):
    return lambda cmd, val, *rest: {} if cmd in commands and val in values else None


READ = {
    "read": read_read,
    "set": read_set,
    "answer": read_answer,
    "press": lambda form, p: {"digits": p} if form == "press" else None,
    "tail": lambda form, p: {} if form == "tail" else None,
    "link": lambda form, p: {},
    "command": lambda number, p: {"id": number},
    "climate": read_climate,
    "state": lambda number, p: {} if number == 0x0B and len(p) >= 16 else None,
    "break": lambda number, p: {} if number == 0x01 and p == b"BRK" else None,
    "end": lambda number, p: {} if number == 0x2F and not p else None,
    "text": lambda number, p: {"id": number} if number in TEXTS else None,
    "response": lambda number, p: {"id": number},
    "ask": lambda command, data: {"register": u16(data, 0)} if command == 0x69 and len(data) == 2 else None,
    "reply": valued(0x6A),
    "put": valued(0x6B),
    "done": lambda command, data: {"ok": data[0]} if command == 0x6C and data in (b"\x00", b"\x01") else None,
    "nibe": lambda command, data: {"command": command},
    "output": sent([b"O.%d" % i for i in range(10)], (b"0", b"1")),
    "input": sent([b"I.%d" % i for i in range(16)], (b"0", b"1")),
    "shutter": sent([b"UD"], (b"u", b"d", b"s")),
    "beat": sent([b"HB"], (b"1",)),
    "homiq": lambda *fields: {},
}


def coded(f, first, second, *more):
    """A link's payload: a code by the group, the address, and what follows."""
    code = {1: first, 2: second}.get(f["group"])
    return None if code is None else ("link", bytes([code]) + struct.pack("<H", f["address"]) + b"".join(more))


def nest_parts(number, payload, least=0):
    return (number, payload) if least <= len(payload) <= 1024 else None


def value_parts(command, f):
    data = paper.held(f["value"], f["width"], False)
    return None if data is None else (command, struct.pack("<H", f["register"]) + data)


def homiq_parts(_, content):
    return tuple(content.split(b";")) if paper.is_payload(content) else None


MAKE = {
    "read": lambda f, content: coded(f, 0x12, 0x17),
    "set": lambda f, content: coded(f, 0x15, 0x16, f["out"], b"\xff"),
    "answer": lambda f, content: ("link", struct.pack("<HB", f["address"], f["third"]) + f["out"]),
    "press": lambda f, content: ("press", f["digits"]) if SIX_DIGITS.fullmatch(f["digits"]) else None,
    "tail": lambda f, content: ("tail", b""),
    "link": lambda f, content: ("link", bytes.fromhex(content.decode())) if DIGITS.fullmatch(content) else None,
    "command": lambda f, content: nest_parts(f["id"], content),
    "climate": lambda f, content: nest_parts(0x02, struct.pack("<hH", f["temperature"], f["humidity"])),
    "state": lambda f, content: nest_parts(0x0B, content, 16),
    "break": lambda f, content: nest_parts(0x01, b"BRK"),
    "end": lambda f, content: nest_parts(0x2F, b""),
    "text": lambda f, content: nest_parts(f["id"], content) if f["id"] in TEXTS else None,
    "response": lambda f, content: nest_parts(f["id"], content),
    "ask": lambda f, content: (0x69, struct.pack("<H", f["register"])),
    "reply": lambda f, content: value_parts(0x6A, f),
    "put": lambda f, content: value_parts(0x6B, f),
    "done": lambda f, content: (0x6C, bytes([f["ok"]])),
    "nibe": lambda f, content: (f["command"], content) if f["command"] in paper.COMMANDS and len(content) < 256 else None,
    **{name: homiq_parts for name in HOMIQ},
}


def first_row(kind, made):
    """The first row of the table that has these parts, and its fields."""
    rows = ((name, READ[name](*made)) for name in OF_KIND[kind])
    return next((name, fields) for name, fields in rows if fields is not None)


def of(tag, fields, payload):
    """The name and the fields of the message of a content; 5 if something is outside its limits. A press's digits are its payload."""
    made = MAKE[tag]({"digits": payload} if tag == "press" else fields, payload)
    return 5 if made is None else first_row(KINDS[tag], made)


def decode(kind, s):
    """The message's name, its fields and its payload's places, or the refusal's number."""
    if kind not in OF_KIND:
        return 2
    found = parts(kind, s)
    return (*first_row(kind, found[0]), *found[1:]) if found else 5


def encode(kind, name, fields, content):
    """The frame, or the refusal's number; the room is the caller's to look at. In the order 2, 7, 5, 6."""
    if kind not in OF_KIND:
        return 2
    if fields.get("width", 1) not in paper.WIDTHS:
        return 7
    if KINDS[name] != kind:
        return 5
    why = allowed(name, fields, content)
    return why or frame(kind, MAKE[name](fields, content))


def allowed(name, fields, content):
    """Nothing, if the message with this content is one of the table; or the refusal's number."""
    made = MAKE[name](fields, content) if fields.get("width", 1) in paper.WIDTHS else None
    if made is None:
        return 5
    if first_row(KINDS[name], made)[0] != name:
        return 6 if name in LAST else 5
    return ()


def acknowledge(s):
    """The acknowledgement's frame, or the refusal's number."""
    found = parts(5, s)
    if not found or found[0][5] != b"s":
        return 5
    cmd, val, src, dst, number, _ = found[0]
    return frame(5, (cmd, val, dst, src, number, b"a"))


def voltages(payload):
    """Vin, Vop and Vbat, or the refusal's number."""
    return [u16(payload, at) for at in (8, 10, 12)] if len(payload) >= 16 else 5
