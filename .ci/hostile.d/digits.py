"""Runs of digits in bytes. A reader returns the value and its end, or None."""


def run(text, at, least, most):
    """From `least` to `most` digits, as many as there are."""
    end = at
    while end < len(text) and end - at < most and text[end] in b"0123456789":
        end += 1
    return (int(text[at:end]), end) if end - at >= least else None


def two(text, at):
    return run(text, at, 2, 2)


def padded(text, at, least, most, padding):
    """A number with a padding: zeros, spaces in place of zeros, or none."""
    if padding == "none":
        return run(text, at, 1, most)
    begin = at
    while padding == "space" and at < len(text) and at - begin < least - 1 and text[at] == 32:
        at += 1
    return run(text, at, least - (at - begin), most - (at - begin))


def signed(text, at):
    """An optional sign."""
    return (text[at:at + 1], at + 1) if text[at:at + 1] in (b"+", b"-") else (b"", at)


def named(text, at, names, exact):
    """The number of the first name that matches, in its own case or in any."""
    for number, name in enumerate(names):
        part = text[at:at + len(name)]
        if part == name.encode() or not exact and part.lower() == name.lower().encode():
            return number, at + len(name)
    return None
