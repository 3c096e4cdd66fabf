"""Where the time is in a line: (begin, end), or None if the line has no such place.

A CR at the end of the line isn't part of a time.
"""


def body(line):
    return line[:-1] if line.endswith(b"\r") else line


def quoted_field(line, at, delimiter):
    """A field that begins with a quote ends with one, before a delimiter or the end; two quotes stand for one."""
    end = at + 1
    while True:
        end = line.find(b'"', end)
        if end < 0:
            return None
        if line[end + 1:end + 2] != b'"':
            break
        end += 2
    if end + 1 < len(line) and line[end + 1:end + 2] != delimiter:
        return None
    return at + 1, end, end + 1


def field(line, number, kind, delimiter):
    """Field `number` from 1, of fields that a byte delimits, in quotes or not."""
    at = 0
    while True:
        if kind == "csv" and line[at:at + 1] == b'"':
            found = quoted_field(line, at, delimiter)
            if not found:
                return None
        else:
            end = line.find(delimiter, at)
            found = (at, end, end) if end >= 0 else (at, len(line), len(line))
        if number == 1:
            return found[:2]
        if found[2] >= len(line):
            return None
        number, at = number - 1, found[2] + 1


def word(line, number):
    """The word with that number, from 1, between runs of space and TAB."""
    at, found = 0, None
    for _ in range(number):
        while line[at:at + 1] in (b" ", b"\t"):
            at += 1
        end = at
        while end < len(line) and line[end:end + 1] not in (b" ", b"\t"):
            end += 1
        if end == at:
            return None
        found, at = (at, end), end
    return found


def span(place, line):
    """The part of a line that is its time, or starts with it; None for `anywhere`."""
    kind, *said = place
    inside = body(line)
    if kind in ("whole", "front"):
        return 0, len(inside)
    if kind == "after":
        at = inside.find(said[0])
        return None if at < 0 else (at + len(said[0]), len(inside))
    if kind == "between":
        at = line.find(said[0])
        end = -1 if at < 0 else line.find(said[1], at + len(said[0]))
        return None if end < 0 else (at + len(said[0]), end)
    if kind == "blanks":
        return word(inside, said[0])
    return field(inside, said[0], kind, said[1])


def is_open(place):
    """Whether the time ends where its format does."""
    return place[0] in ("front", "after", "anywhere")
