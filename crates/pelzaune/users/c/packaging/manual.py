"""Prints the manual page of the library, made from its header.

    manual.py HEADER VERSION

Each comment of the header with the declarations after it becomes a part of the page.
"""
import re
import sys

COMMENT = re.compile(r"/\*.*?\*/", re.DOTALL)
# Lines that are no part of the interface.
SKIPPED = re.compile(r'#(?!define PELZAUNE_(?!H\b|TEXTS))|extern "C"|}$')


def text_of(comment):
    """The paragraphs of a comment. Indented lines are kept as they are."""
    lines = [re.sub(r"^ ?\*? ?", "", it).rstrip() for it in comment[2:-2].strip().split("\n")]
    return [it for it in "\n".join(lines).split("\n\n") if it.strip()]


def groups(header):
    """Pairs of a comment, or "", and the lines of the declarations after it."""
    found = [["", []]]
    for block in re.split(r"\n\n+", header):
        comment = COMMENT.match(block)
        # A block without a comment of its own belongs to the comment before it.
        if comment:
            found.append([comment[0], []])
            block = block[comment.end():]
        # Of an inline function only the declaration is of interest.
        block = re.sub(r"(?s)^(\n?static inline [^{]*?)\n\{.*", r"\1;", block)
        found[-1][1] += [it for it in block.split("\n") if it and not SKIPPED.match(it)]
    return found


def roff(text):
    text = text.replace("\\", "\\e").replace("-", "\\-")
    return "\n".join("\\&" + it if it[:1] in (".", "'") else it for it in text.split("\n"))


def page(header, version):
    (_, _), (head, _), *rest = groups(header)
    first, *others = text_of(head)
    summary = first.split(":")[0].rstrip(".")
    made = [f'.TH PELZAUNE 3 "" "pelzaune {version}" "Library Functions"', ".SH NAME",
            f"pelzaune \\- {roff(summary[0].lower() + summary[1:])}", ".SH SYNOPSIS", ".nf", ".B #include <pelzaune.h>",
            ".PP", r"\fIcc\fP program.c \-lpelzaune", ".fi", ".SH DESCRIPTION"]
    for paragraph in (first, *others):
        made += [".PP", roff(paragraph)]
    made.append(".SH INTERFACE")
    for comment, lines in rest:
        if lines:
            made += [".PP", ".nf", ".ft B", roff("\n".join(lines)), ".ft R", ".fi"]
        for paragraph in text_of(comment) if comment else []:
            made += [".RS 4", ".PP", roff(paragraph), ".RE"]
    made += [".SH SEE ALSO", r".BR strptime (3)", ""]
    return "\n".join(made)


def main(path, version):
    with open(path, encoding="utf-8") as file:
        header = file.read()
    sys.stdout.write(page(header, version))


if __name__ == "__main__":
    main(*sys.argv[1:])
