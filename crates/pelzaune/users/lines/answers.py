"""Answers the lines that make_lines.py writes with the nanoseconds since 1970, as `answers nanoseconds` does."""
import sys

import pelzaune

FORMATS = {b"rfc3339": pelzaune.RFC3339, b"rfc2822": pelzaune.RFC2822, b"iso8601": pelzaune.ISO8601}
answers = []
texts = {form: [] for form in FORMATS}
for line in sys.stdin.buffer:
    name, _, text = line[:-1].split(b"\t", 2)
    try:
        count = pelzaune.unix_ns(text, FORMATS[name])
        answers.append(f"{count}\n" if -(2**63) <= count < 2**63 else "too wide\n")
    except pelzaune.ParseError as error:
        count = pelzaune.NO_COUNT
        answers.append(f"error: {error}\n")
    texts[name].append((text, count if -(2**63) <= count < 2**63 else pelzaune.NO_COUNT))
sys.stdout.write("".join(answers))
for name, all_of in texts.items():
    # A CR before LF ends the line with it, so a text that ends with CR needs another.
    lines = b"".join(text + (b"\r\n" if text.endswith(b"\r") else b"\n") for text, _ in all_of)
    entries = pelzaune.column(lines, FORMATS[name])
    if entries.tolist() != [count for _, count in all_of]:
        sys.exit(f"the column of {name.decode()} differs")
