"""Requests to bin/calls and its answers, as docs/CALLS.md says that they are written; and the command, proved and run."""
import subprocess

import proved

FILLED = b"\xee"
# a message's fields in their order, under the names of table.py; the others have none
FIELDS = {
    "read": ("group", "address"),
    "set": ("group", "address", "out"),
    "answer": ("address", "third", "out"),
    "press": ("digits",),
    "command": ("id",),
    "climate": ("temperature", "humidity"),
    "text": ("id",),
    "response": ("id",),
    "ask": ("register",),
    "reply": ("register", "width", "value"),
    "put": ("register", "width", "value"),
    "done": ("ok",),
    "nibe": ("command",),
}


def word(value):
    if isinstance(value, bytes):
        return value.hex().upper() or "-"
    if isinstance(value, bool):
        return "true" if value else "false"
    return str(value)


def message(name, fields):
    """A message, as words of their own."""
    values = [fields[key] for key in FIELDS.get(name, ())]
    return [name, *(map(bool, values) if name == "done" else values)]


def tag(name, fields):
    """A content's tag, as words of their own: a press's digits are no field of it, but its payload."""
    return [name] if name == "press" else message(name, fields)


def request(function, *arguments):
    return " ".join([function, *map(word, arguments)])


def answer(found):
    """What is answered with these values, or with a refusal's number."""
    return "refused %d" % found if isinstance(found, int) else " ".join(["ok", *map(word, found)])


def in_room(made, room, to=0, values=()):
    """What is answered if these bytes are to be written from a place on, or with a refusal's number; and the whole room afterwards. The
    values are how many bytes they are, or others."""
    if isinstance(made, bytes) and to + len(made) > room:
        made = 4
    refused = isinstance(made, int)
    written = b"" if refused else FILLED * to + made
    front = written.ljust(room, FILLED).rstrip(FILLED)
    return "%s room %s+%d" % (answer(made if refused else values or (len(made),)), word(front), room - len(front))


def clipped(made, room, to):
    """The same where they are written as far as the room goes: the value is the place behind them, as far as a number can say it."""
    if isinstance(made, int):
        return in_room(made, room)
    return in_room(made[: max(room - to, 0)], room, min(to, room), (min(to + len(made), 2**64 - 1),))


def run(requests):
    """The proved programs' answers."""
    given = "".join(line + "\n" for line in requests).encode("ascii")
    return subprocess.run([proved.calls()], input=given, stdout=subprocess.PIPE, check=True).stdout.decode("ascii").splitlines()
