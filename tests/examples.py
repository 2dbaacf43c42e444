#!/usr/bin/env python3
"""The captures of examples/, made from the bytes that the bus documents print, with the check values that document 01's rules give.

tests/examples.py --write   writes examples/*.bin, their listings examples/*.json, what bin/why prints of them (examples/*.why), the
                            register sheet examples/pump.sheet, the commands examples/commands.jsonl and their frames
                            examples/commands.hex, and examples/README.md
tests/examples.py --check   whether these files are what this script writes
"""
import json
import os
import sys

sys.dont_write_bytecode = True  # or Python leaves a folder beside those that are imported

import faults
import lines
import paper
import sheet
import table

FOLDER = os.path.join(os.path.dirname(os.path.abspath(__file__)), "..", "examples")
RIGHT = ", with the right check value"
FRAMED = ", in a frame by its layout"


def printed(text):
    """Nikobus characters as document 000 prints them, with the CR that ends each."""
    return text.encode() + b"\r"


def command(number, payload=b""):
    return paper.nest(2, number, payload)


def response(number, payload=b""):
    return paper.nest(3, number, payload)


def nibe(text):
    """Bytes as document 002 prints them, but for the last: the check byte is worked out."""
    data = bytes.fromhex(text)
    assert data[2] == len(data) - 4
    return paper.nibe(data[1], data[3:-1])


def words(*numbers):
    return b"".join((n & 0xFFFF).to_bytes(2, "little") for n in numbers)


SENSE = b"*sense 06d1 06d0 0001 0001 0000 0000 0000 0001 06d9 06d8 06d8; detect 09d3 065c"
HARDWARE = response(0x18, b'Backplate-\r5 "D"\\1')
ASKED = bytes.fromhex("C0 69 02 64 00 66")

# the bytes; what they are, first the message that the listing has for them; and where the document has them, or "ours"
NIKOBUS = [
    (printed("$10110000B8CF9D"), "link: the handshake", "000, 4, worked example"),
    (b"$0510", "no frame: a false start, the prefix of an inventory response", "000, 5.5, `$0510$2E`"),
    (printed("$10120747402BFC"), "read: module 4707, outputs 1 to 6", "000, 5.1, example 3"),
    (printed("$1C074700FF0000000000CCAEA3"), "answer: module 4707", "000, 5.4, example 1"),
    (paper.link(b"170747"), "read: module 4707, outputs 7 to 12", "000, 5.1, `0x17` (group 2)" + FRAMED),
    (printed("$1CA5C9000000008000001EF205"), "answer: module C9A5", "000, 5.4, example 2"),
    (printed("$1C9483000000000000FF43D59B"), "answer: module 8394", "000, 5.4, example 3"),
    (printed("$1E150747FF0000000000FF8C3D0A"), "set: module 4707, outputs 1 to 6", "000, 5.1, example 1"),
    (printed("$1E16A5C9000080000000FF07EAE2"), "set: module C9A5, outputs 7 to 12", "000, 5.1, example 2"),
    (b"\xff\x00\r\n", "no frame: noise", "ours"),
    (printed("#N4ECB1A"), "press: a button", "000, 5.2, example 1"),
    (printed("#E1"), "tail: what follows a press", "000, 5.2, example 1"),
    (printed("#NC86C4E"), "press: a button", "000, 5.2, example 2"),
    (printed("#E1"), "tail: what follows a press", "000, 5.2, example 2"),
    (printed("$10110000b8cf9d"), "no frame: lower case", "ours, from the worked example"),
    (printed("$10110000B8CF9C"), "no frame: CRC8 wrong", "ours, from the worked example"),
    (paper.link(b"110000", crc16=b"B8CE"), "no frame: CRC16 wrong, CRC8 right for it", "ours, from the worked example"),
    (printed("#n4ECB1A"), "no frame: lower case", "ours, from 5.2, example 1"),
    (b"$1E150747FF", "no frame: cut off", "000, 5.1, example 1, its beginning"),
]
COMMANDS = [
    (paper.RESET, "command: reset", '001, Example: A Complete "Reset" Command'),
    (b"\x00\x00", "no frame: noise", "ours"),
    (command(0x8F), "command: FET presence ACK", "001, Phase 2, `0x008f`" + FRAMED),
    (command(0x83), "command: periodic status", "001, Phase 2, `0x0083`" + FRAMED),
    (command(0x90), "command: get the id", "001, Phase 2, `0x0090`" + FRAMED),
    (command(0x98), "command: get the version", "001, Phase 2, `0x0098`" + FRAMED),
    (paper.COMMAND_D, "command: FET control", "001, CRC checksum, example: the check is 0xB208, the bytes sent 08 B2"),
    (paper.nest(2, 0x82, bytes(2), "big"), "no frame: the check high byte first", "ours, from that example"),
    (command(0xC0, bytes(4)), "command: power steal mode", "001, Phase 3, `0x00c0`" + FRAMED),
    (paper.PREAMBLES[2] + b"\x18\x00\x00\x04", "no frame: a false start that claims 1,024 bytes", "ours"),
    (command(0xA2), "command: ask for the buffers", "001, Phase 4, `0x00a2`" + FRAMED),
    (command(0xA3), "command: acknowledge their end", "001, Phase 4, `0x00a3`" + FRAMED),
    (paper.RESET[:5], "no frame: cut off", "001, the reset, its beginning"),
]
RESPONSES = [
    (response(0x01, b"4.2.8 2019-04-03 12:00:00 K"), "text: version and time", "001, Phase 1, first line of the burst; the values ours"),
    (response(0x04, b"\x01"), "response: FET presence", "001, Phase 1, `0004`; its byte ours"),
    (response(0x09, b"\x01\x00"), "response: FET presence", "001, Phase 1, `0009`; its bytes ours"),
    (response(0x01, SENSE), "text: what it senses", "001, Phase 1, the line `*sense ..`" + FRAMED),
    (response(0x01, b"BRK"), "break: the end of the burst", "001, Phase 1, the line `BRK`" + FRAMED),
    (b"\xd5\xd5", "no frame: half a preamble", "ours"),
    (response(0x18, b"4.2.8 2019-04-03"), "text: the version", "001, Example 1" + FRAMED),
    (HARDWARE, "text: with 0D, a quotation mark and a backslash", "001, Handling Line Breaks; the text ours"),
    (HARDWARE.replace(b"\r", b"\n"), "no frame: the same, 0D changed to 0A on the way", "001, Handling Line Breaks"),
    (response(0x02, words(2150, 453)), "climate: 21.50 and 45.3", "001, Example 2; the values ours"),
    (response(0x02, words(-5, 1000)), "climate: -0.05 and 100.0", "001, Example 2; the values ours"),
    (response(0x0B, words(0, 0, 0, 0, 2945, 4962, 3871, 0)), "state: 29.45, 4.962 and 3.871", "001, Example 3; the values ours"),
    (response(0x22, words(2150)), "response: a buffered temperature", "001, `0x0022`; its bytes ours"),
    (response(0x2F), "end: of the buffers", "001, Phase 4, `0x002f`" + FRAMED),
    (paper.RESET, "no frame: a command is none of this kind", "001, the reset"),
]
NIBE = [
    (ASKED, "ask: register 100", "002, Example Messages, request: its check is right"),
    (bytes.fromhex("C0 6A 04 64 00 EB 00 8E"), "no frame: the check as it is printed", "002, Example Messages, response"),
    (nibe("C0 6A 04 64 00 EB 00 8E"), "reply: 235", "002, Example Messages, response" + RIGHT),
    (b"\x06", "no frame: a single byte", "002, Acknowledgment"),
    (nibe("C0 69 02 44 9C 07"), "ask: register 40004", "002, Read Register" + RIGHT),
    (nibe("C0 6A 04 44 9C EB 00 2E"), "reply: 235", "002, Response Format (0x6A)" + RIGHT),
    (b"\x06", "no frame: a single byte", "002, Acknowledgment"),
    (nibe("C0 6B 03 A3 B7 0A 4F"), "put: 10 into 47011", "002, Write Register; 47011 is B7A3" + RIGHT),
    (nibe("C0 6C 01 01 6D"), "done: yes", "002, Writing a Register" + RIGHT),
    (b"\x06", "no frame: a single byte", "002, Acknowledgment"),
    (b"\xc0\x69", "no frame: a false start before a good frame", "01, known point (f)"),
    (ASKED, "ask: register 100", "01, known point (f)"),
    (nibe("C0 6B 04 C3 B7 F4 01 BC"), "put: 500 into 47043", "002, Write Hot Water Setpoint; 47043 is B7C3" + RIGHT),
    (nibe("C0 6C 01 00 6D"), "done: no", "002, Response Format (0x6C), `0x00`" + FRAMED),
    (b"\x15", "no frame: a single byte", "002, Acknowledgment"),
    (nibe("C0 6B 03 A3 B7 14 5B"), "put: 20 into 47011", "002, Enable Modbus in Pump; 47011 is B7A3" + RIGHT),
    (nibe("C0 6A 06 45 9C 01 00 00 01 00"), "reply: 16777217, which a single float does not hold", "ours"),
    (nibe("C0 68 0C 44 9C EB 00 45 9C 23 01 48 9C 83 FF 00"), "nibe: data", "002, Unsolicited Data; the last four bytes ours"),
    (nibe("C0 62 00 00"), "nibe: RMU data, empty", "002, Command Types, `0x62`" + FRAMED),
    (bytes.fromhex("C0 06 00 00"), "no frame: no such command", "ours"),
]
HOMIQ = [
    (b"<;I.3;1;0H;0;42;s;143;>\r\n", "no frame: the CRC as it is printed", "004, ACK, RX"),
    (paper.HOMIQ_G, "input: number 3 is high", "004, ACK, RX" + RIGHT),
    (paper.HOMIQ_H, "input: its acknowledgement", "004, ACK, TX" + RIGHT),
    (paper.homiq(b"O.3;1;0;0H;7;s"), "output: number 3 on", "004, outputs" + FRAMED),
    (paper.homiq(b"O.3;1;0H;0;7;a"), "output: its acknowledgement", "004, outputs" + FRAMED),
    (b"\n", "no frame: noise", "ours"),
    (paper.homiq(b"I.15;0;05;0;511;s"), "input: number 15 is low", "004, inputs; with the last ID" + FRAMED),
    (paper.homiq(b"I.14;0;05;0;0;s"), "input: number 14 is low", "004, inputs; with the ID that follows the last" + FRAMED),
    (paper.homiq(b"UD;u;0;05;8;s"), "shutter: up", "004, shutters" + FRAMED),
    (paper.homiq(b"UD;s;0;05;9;s"), "shutter: stop", "004, shutters" + FRAMED),
    (paper.homiq(b"HB;1;0H;yy;1;s"), "beat: to all", "004, system" + FRAMED),
    (b"<;O.3;1;", "no frame: a false start before a good frame", "ours"),
    (paper.homiq(b"GI;1;0;0H;10;s"), "homiq: get info", "004, system" + FRAMED),
    (paper.homiq(b'S.0;A"1\\2;0H;0;11;s'), "homiq: a serial with a quotation mark and a backslash", "004, system; the serial ours"),
    (paper.homiq(b"O.3;1;0;0H;512;s"), "no frame: ID 512", "ours"),
    (paper.homiq(b"O.3;0;0;0H;12;s").replace(b"\r\n", b"\n"), "no frame: no CR", "ours"),
]
# Nikobus, with one fault of each sort: what is said of a piece that is no frame begins with the test that it fails first
FAULTS = [
    (printed("$10110000B8CF9D"), "link: the handshake", "000, 4, worked example"),
    (printed("10110000B8CF9D"), "start: `$` is lost, so `bin/why` has no line for it", "ours, from the worked example"),
    (printed("$11110000B8CF9D"), "length: LL is odd", "ours, from the worked example"),
    (printed("$10110000b8cf9d"), "fields: lower case", "ours, from the worked example"),
    (printed("$10110000B8CE9D"), "first: CRC16 wrong", "ours, from the worked example"),
    (printed("$10110000B8CF9C"), "second: CRC8 wrong", "ours, from the worked example"),
    (printed("#N4ECB1A"), "press: a button", "000, 5.2, example 1"),
    (b"$1E150747FF", "length: cut off", "000, 5.1, example 1, its beginning"),
]
# the sheet is not called sheet.txt: in examples/ that would be opened for all captures
SHEET = b"""\
40004,s16,1
40005,s16,1
40008,s16,1
43005,s32,1
43420,u32,0
45001,s8,0
47011,u8,0
47043,s16,1
"""
ROWS = sheet.rows(SHEET)


def pumped(command, *pairs):
    """A message of register and value pairs."""
    return paper.nibe(command, sheet.joined(ROWS, pairs))


DATA = nibe("C0 68 0C 44 9C EB 00 45 9C 23 01 48 9C 83 FF 00")
PUMP = [
    (DATA, "nibe: three temperatures, 23.5, 29.1 and -12.5", "002, Unsolicited Data; the last four bytes ours"),
    (pumped(0x68, (47011, 10), (43420, 16777217), (43005, -6001)), "nibe: values of one and of four bytes", "ours"),
    (b"\x06", "no frame: a single byte", "002, Acknowledgment"),
    (pumped(0x62, (45001, -3), (40004, -125)), "nibe: RMU data", "002, Command Types, `0x62`; the pairs ours"),
    (nibe("C0 62 00 00"), "nibe: RMU data, empty, so no values", "002, Command Types, `0x62`" + FRAMED),
    (paper.nibe(0x68, DATA[3:-2]), "nibe: the data end inside a pair, so they are not split", "ours, from the first"),
    (paper.nibe(0x68, DATA[3:-1] + words(100, 0)), "nibe: register 100 is not listed, so the data are not split", "ours, from the first"),
    (paper.nibe(0x60, DATA[3:-1]), "nibe: the same data under 60, which is not split", "ours, from the first"),
    (ASKED, "ask: register 100", "002, Example Messages, request: its check is right"),
    (nibe("C0 6A 04 64 00 EB 00 8E"), "reply: 235, as in 01: register 100 is not listed", "002, Example Messages, response" + RIGHT),
    (nibe("C0 6A 04 44 9C EB 00 2E"), "reply: 23.5", "002, Response Format (0x6A)" + RIGHT),
    (nibe("C0 6A 06 44 9C 83 FF 00 00 00"), "reply: four bytes, as in 01: the sheet says two", "ours"),
    (nibe("C0 6B 04 C3 B7 F4 01 BC"), "put: 50.0 into 47043", "002, Write Hot Water Setpoint; 47043 is B7C3" + RIGHT),
    (nibe("C0 6B 03 A3 B7 14 5B"), "put: 20 into 47011", "002, Enable Modbus in Pump; 47011 is B7A3" + RIGHT),
]
# by kind: the file's name, how a reader knows the bus, and what stands there
CAPTURES = [
    ("nikobus", "Nikobus", NIKOBUS),
    ("nest-command", "Nest, to the backplate", COMMANDS),
    ("nest-response", "Nest, from the backplate", RESPONSES),
    ("nibe", "Nibe", NIBE),
    ("homiq", "Homiq", HOMIQ),
]


def shown(data, as_text):
    """Characters with `\\r` and `\\n`, or hex; of a long piece the two ends."""
    if as_text:
        text = data.decode("latin-1").replace("\\", "\\\\").replace("\r", "\\r").replace("\n", "\\n")
        return "`%s`" % "".join(c if " " <= c <= "~" else "\\x%02X" % ord(c) for c in text)
    text = data.hex(" ").upper()
    return "`%s`" % (text if len(data) <= 16 else "%s .. %s" % (text[:35], text[-11:]))


def rows_of(kind, pieces):
    at = 0
    yield "| at | bytes | what it is | from |"
    yield "|---|---|---|---|"
    for data, what, where in pieces:
        yield "| %d | %s | %s | %s |" % (at, shown(data, kind in (1, 5)), what, where)
        at += len(data)


def readme():
    yield "# Captures to try the listing on, and commands"
    yield ""
    yield "One for each bus and direction. `bin/list nibe examples/nibe.bin` lists one; what it prints is in the file of the same name with"
    yield "`.json`. What `bin/why nibe examples/nibe.bin` prints is in the one with `.why`."
    yield ""
    yield "The bytes are those that the bus documents print. If a document's check value is wrong by its own rule, the right one stands"
    yield "here. Some of the wrong ones stand here too, and noise, and the listing passes over them. `tests/examples.py --write` makes these"
    yield "files, this one too."
    for kind, (name, bus, pieces) in enumerate(CAPTURES, 1):
        yield ""
        yield "## %s.bin: %s (kind %d)" % (name, bus, kind)
        yield ""
        yield from rows_of(kind, pieces)
    yield ""
    yield "## pump.bin: Nibe (kind 4), with a register sheet"
    yield ""
    yield "`bin/list --sheet examples/pump.sheet nibe examples/pump.bin` prints what is in pump.json. The sheet says of each register its"
    yield "type and its decimals, as `40004,s16,1`. A sheet that is called `sheet.txt` is read without `--sheet` too, by a command in its"
    yield "folder; this one has another name, so that it is not read for the other captures."
    yield ""
    yield from rows_of(4, PUMP)
    yield ""
    yield "## faults.bin: Nikobus (kind 1), one fault of each sort"
    yield ""
    yield "`bin/why nikobus examples/faults.bin` says what is wrong, and prints what is in faults.why."
    yield ""
    yield from rows_of(1, FAULTS)
    yield ""
    yield "## commands.jsonl: a command for each message of each kind"
    yield ""
    yield "`bin/encode --hex examples/commands.jsonl` writes the frames, a line each, that are in commands.hex. They are the first of each"
    yield "message in the captures of the five kinds."


def commands():
    """The first frame of each message of each kind, and the command that it is the frame of."""
    for kind, (_, _, pieces) in enumerate(CAPTURES, 1):
        first = {}
        for _, frame in lines.frames(kind, b"".join(data for data, _, _ in pieces)):
            first.setdefault(table.decode(kind, frame)[0], frame)
        for frame in first.values():
            place = '{"at":0,"len":%d,' % len(frame)
            yield frame, lines.line(kind, 0, frame).replace(place, '{"kind":%d,' % kind, 1)


def files():
    """Each file's name and content."""
    for kind, (name, _, pieces) in enumerate(CAPTURES, 1):
        capture = b"".join(data for data, _, _ in pieces)
        yield name + ".bin", capture
        yield name + ".json", lines.listing(b"%d\n" % kind + capture)
        yield name + ".why", faults.through(kind, capture)
    capture = b"".join(data for data, _, _ in PUMP)
    yield "pump.bin", capture
    yield "pump.sheet", SHEET
    yield "pump.json", lines.listing(b"4\n" + capture, SHEET)
    yield "pump.why", faults.through(4, capture)
    capture = b"".join(data for data, _, _ in FAULTS)
    yield "faults.bin", capture
    yield "faults.why", faults.through(1, capture)
    yield "commands.jsonl", "".join(text + "\n" for _, text in commands()).encode()
    yield "commands.hex", "".join(frame.hex().upper() + "\n" for frame, _ in commands()).encode()
    yield "README.md", "".join(line + "\n" for line in readme()).encode()


def as_said():
    """Whether each piece is the message that it is said to be, or none; and whether each piece of the pump's data is split or not."""
    for kind, (name, _, pieces) in [*enumerate(CAPTURES, 1), (4, ("pump", "", PUMP))]:
        found = dict(lines.frames(kind, b"".join(data for data, _, _ in pieces)))
        at = 0
        for data, what, _ in pieces:
            is_frame = found.pop(at, None) == data
            said = table.decode(kind, data)[0] if is_frame else "no frame"
            yield "%s at %d: %s" % (name, at, what), what.split(":")[0] == said
            at += len(data)
        yield "%s: frames that are no piece" % name, not found
    for data, what, _ in PUMP:
        if what.startswith("nibe"):
            is_split = '"values":' in lines.line(4, 0, data, ROWS)
            yield "pump: %s" % what, is_split == ("not split" not in what)
    at, capture = 0, b"".join(data for data, _, _ in FAULTS)
    for data, what, _ in FAULTS:
        test = paper.why(1, capture, at)[0]
        yield "faults at %d: %s" % (at, what), what.split(":")[0] == (table.decode(1, data)[0] if test == "none" else test)
        at += len(data)
    yield "commands: a command for each of the 23 messages", len({json.loads(text)["msg"] for _, text in commands()}) == 23


def stored(name):
    path = os.path.join(FOLDER, name)
    if not os.path.exists(path):
        return None
    with open(path, "rb") as f:
        return f.read()


def main(arguments):
    if arguments == ["--write"]:
        os.makedirs(FOLDER, exist_ok=True)
        for name, data in files():
            with open(os.path.join(FOLDER, name), "wb") as f:
                f.write(data)
        return 0
    if arguments != ["--check"]:
        print(__doc__, file=sys.stderr)
        return 2
    held = [*as_said(), *(("examples/" + name, stored(name) == data) for name, data in files())]
    for what, is_so in held:
        if not is_so:
            print("not as this script has it: " + what)
    failed = sum(not is_so for _, is_so in held)
    print("%d passed, %d failed" % (len(held) - failed, failed))
    return 1 if failed else 0


if __name__ == "__main__":
    sys.exit(main(sys.argv[1:]))
