"""What bin/why prints: the verdicts are those of paper.py, from the documents alone, and the words are written anew here."""
import paper

MARKS = {1: "$, #N or #E1", 2: "D5 AA 96", 3: "D5 D5 AA 96", 4: "C0", 5: "<;"}
LENGTHS = {
    1: "LL is not an even number from 0C to FE, or ",
    2: "the length is above 1,024, or ",
    3: "the length is above 1,024, or ",
    4: "",
}
FIELDS = {
    1: "a character is no upper-case hex digit, or CR is missing",
    4: "the command is not 60, 62, 68, 69, 6A, 6B or 6C",
    5: "a field is not as it must be, or the frame does not end with ;> CR LF",
}


def value(kind, test, v):
    """A check value in hex at its check's width, and in decimal."""
    digits = 4 if test == "first" and kind in (1, 2, 3) else 2
    return "%0*X (%d)" % (digits, v, v)


def said(kind, capture, place):
    """The verdict on a place in words."""
    test, found, expected = paper.why(kind, capture, place)
    if test == "none":
        return "none: a frame of %d bytes stands here" % length(kind, capture, place)
    if test == "start":
        return "start: no %s stands here" % MARKS[kind]
    if test == "length":
        return "length: %sthe capture ends inside the frame" % LENGTHS[kind]
    if test == "fields":
        return "fields: " + FIELDS[kind]
    return "%s check: found %s, expected %s" % (test, value(kind, test, found), value(kind, test, expected))


def length(kind, capture, place):
    """The length of the frame that stands at a place."""
    start, len_, _, _ = paper.search(kind, capture, place)
    assert start == place
    return len_


def through(kind, capture):
    """What is printed for a whole capture."""
    place, text = 0, []
    while place < len(capture):
        test = paper.why(kind, capture, place)[0]
        if test == "none":
            place += length(kind, capture, place)
            continue
        if test != "start":
            text.append("%d: %s\n" % (place, said(kind, capture, place)))
        place += 1
    return "".join(text).encode()
