"""Shared code of the readers of RFC 3339 and RFC 2822: a text is read place by place.

A place that fails raises a Stop: the index of the failing byte, what was expected there, and the error. A text is read
by the form of its places alone, or by their ranges too.
"""
from values import Refused


class Stop(Exception):
    def __init__(self, at, wanted, fault):
        super().__init__(at, wanted, fault)
        self.at, self.wanted, self.fault = at, wanted, fault


def byte_missing(at, byte):
    return Stop(at, byte, Refused("literal"))


def part_missing(at, name, wanted=None):
    return Stop(at, wanted or name, Refused("component", name))


def ask_range(at, name, value, least, most, ranges):
    if ranges and not least <= value <= most:
        raise part_missing(at, name)
