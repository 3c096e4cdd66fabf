"""Prints each text as a datetime and as the nanoseconds since 1970-01-01T00:00:00Z.

    python -m pelzaune [--format FORMAT] [TEXT..]

The format is rfc3339, rfc2822, iso8601 or a description. Without a text it reads lines of standard input. The exit status
is 0 if all texts were parsed, 1 if one was rejected, and 2 for wrong arguments, such as an unknown format.
"""
import argparse
import os
import sys

import pelzaune


def options():
    parser = argparse.ArgumentParser(prog="python -m pelzaune", description="Prints each text as a datetime and as nanoseconds since 1970.")
    parser.add_argument("--version", action="version", version=f"pelzaune {pelzaune.__version__}")
    parser.add_argument("--format", default="rfc3339", help="rfc3339, rfc2822, iso8601 or a description (default: %(default)s)")
    parser.add_argument("texts", nargs="*", metavar="TEXT", help="without one, lines of standard input")
    return parser


def check(parser, form):
    """Exits with status 2 if the format is neither a name nor a valid description."""
    try:
        pelzaune.column(b"", form)
    except ValueError as error:
        index = getattr(error, "index", None)
        parser.error(f"argument --format: {error}" if index is None else f"argument --format: {error}, at index {index}")


def line_of(text, form):
    nanoseconds = pelzaune.unix_ns(text, form)
    return f"{pelzaune.parse(text, form).isoformat()} {nanoseconds}"


def main():
    parser = options()
    given = parser.parse_args()
    form = os.fsencode(given.format)
    check(parser, form)
    texts = map(os.fsencode, given.texts) if given.texts else (it.removesuffix(b"\n").removesuffix(b"\r") for it in sys.stdin.buffer)
    status = 0
    for text in texts:
        try:
            print(line_of(text, form))
        except pelzaune.ParseError as error:
            print(f"{text.decode(errors='backslashreplace')}: {error}", file=sys.stderr)
            status = 1
    return status


if __name__ == "__main__":
    sys.exit(main())
