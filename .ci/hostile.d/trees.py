"""Descriptions as trees, which are parsed as their documentation specifies.

A tree is ("literal", bytes), ("component", Component), ("list", trees), ("optional", tree) or ("first", trees).
"""
import components
from values import Refused


class Walk:
    """The result of parsing a text by a tree.

    `reading` is its end, with the record, or None. `fault` is the error. `misses` are the leaves that were started and
    parsed nothing, each as the index and what was expected there, in the order in which the first that goes furthest is
    reported: of trees in turn the later come first. `marks` are the parsed components, with the index where each starts,
    the last one first.
    """

    def __init__(self, reading, fault=None, misses=(), marks=()):
        self.reading, self.fault, self.misses, self.marks = reading, fault, list(misses), list(marks)


def literal(text, at, record, wanted):
    same = 0
    while same < len(wanted) and text[at + same:at + same + 1] == wanted[same:same + 1]:
        same += 1
    if same == len(wanted):
        return Walk((at + same, record))
    return Walk(None, Refused("literal"), [(at + same, wanted[same:same + 1])])


def component(text, at, record, wanted):
    found = components.read(wanted, text, at, record)
    if found:
        return Walk(found, marks=[(wanted, at)])
    return Walk(None, wanted.refused(), [(at, None if wanted.name == "end" else wanted.called)])


def in_turn(text, at, record, trees):
    whole = Walk((at, record))
    for tree in trees:
        here = walk(tree, text, *whole.reading)
        whole.misses = here.misses + whole.misses
        whole.marks = here.marks + whole.marks
        whole.reading, whole.fault = here.reading, here.fault
        if here.reading is None:
            whole.marks = []
            break
    return whole


def first_of(text, at, record, trees):
    misses, fault = [], None
    for tree in trees:
        here = walk(tree, text, at, record)
        misses += here.misses
        if here.reading:
            return Walk(here.reading, None, misses, here.marks)
        fault = fault or here.fault
    return Walk(None, fault, misses) if trees else Walk((at, record))


def walk(tree, text, at, record):
    kind, inside = tree
    if kind == "literal":
        return literal(text, at, record, inside)
    if kind == "component":
        return component(text, at, record, inside)
    if kind == "list":
        return in_turn(text, at, record, inside)
    if kind == "first":
        return first_of(text, at, record, inside)
    here = walk(inside, text, at, record)
    return here if here.reading else Walk((at, record), None, here.misses)


def furthest(misses):
    """The first of those that go furthest."""
    return max(misses, key=lambda it: it[0], default=None)


def place_of(tree, text, record):
    """Where a text that isn't parsed whole fails, and what was expected there (bytes, a name, or None for the end)."""
    seen = walk(tree, text, 0, record)
    if seen.reading is None:
        return furthest(seen.misses)
    if seen.reading[0] == len(text):
        return None
    return furthest([(seen.reading[0], None), *seen.misses])


def is_called(part, name):
    """Whether a range with that name is about the component. Of an ISO week the date's error has another name."""
    return part.called == name or name == "week" and part.name == "week_number" and part.repr == "iso"


def mark_of(tree, text, record, name):
    """Where the last component with a name starts, in the prefix that the tree parses; or None."""
    marks = walk(tree, text, 0, record).marks
    return next((at for part, at in marks if is_called(part, name)), None)
