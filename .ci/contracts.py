"""Quotes the signatures and the clauses of public functions, for .ci/pages.

A fence such as

    ```text contracts src/date.rt Date::from_ordinal_date Date::year src/time.rt Time::hour

has the contracts of these functions as in the files, without comments and bodies. A path is relative to the page's
folder, and the names after it are of that file: `name` of a function, `Type::name` of a function or a ghost member in
an `impl` of the type or in a trait with that name. The head of the `impl` or trait precedes its members, and if a fence
quotes several files the path precedes functions outside of any.
"""
import os
import re

FENCE = re.compile(r"(?ms)^```text contracts (?P<names>[^\n]+)\n(?P<body>.*?)^```$")
HEAD = re.compile(r"(?P<kind>pub trait|trait|impl)\b(?:<.*?>)? ?(?P<rest>.*?) \{$")


class Missing(Exception):
    """The name isn't that of a public function of the file."""


def blocks(lines):
    """The functions and ghost members of a file: the head of their `impl` or trait, its types, their name and first line."""
    head, types = None, []
    for number, line in enumerate(lines):
        found = HEAD.match(line)
        if found:
            head = line[: -len(" {")]
            types = re.findall(r"\w+", re.sub(r"<.*?>", "", found["rest"]))
        elif line == "}":
            head, types = None, []
        member = re.match(r"\s*(?:pub )?(?:(?:const|final|unsafe) )*(?:fn|ghost) (\w+)", line)
        if member and not line.lstrip().startswith("ghost use"):
            yield head, types, member[1], number


def header(lines, number):
    """The lines of a function up to its body, or of a ghost member to its end, without comments."""
    indent = lines[number][: len(lines[number]) - len(lines[number].lstrip())]
    kept = []
    for line in lines[number:]:
        if line.startswith(f"{indent}{{"):
            break
        text = line.strip()
        if text.startswith("//") or not text:
            continue
        if text.endswith(" {") and line.startswith(indent) and not line.startswith(f"{indent} "):
            kept.append(line[: -len(" {")])
            break
        kept.append(line)
        if text.endswith(";"):
            break
    return kept


def contract(lines, wanted):
    """The head above a function, and its lines."""
    kind, _, name = wanted.rpartition("::")
    for head, types, member, number in blocks(lines):
        public = lines[number].lstrip().startswith("pub ") or head and (" for " in head or head.startswith("pub trait "))
        if member == name and public and (kind in types if kind else head is None):
            return head, header(lines, number)
    raise Missing(wanted)


def quote(folder, names):
    """The text of a fence with these words in its first line."""
    made, lines, path, last = [], [], "", ""
    several = names.count(".rt") > 1
    for word in names.split():
        if word.endswith(".rt"):
            path = word
            if not os.path.exists(f"{folder}/{path}"):
                raise Missing(path)
            with open(f"{folder}/{path}", encoding="utf-8") as file:
                lines = file.read().split("\n")
            continue
        try:
            head, quoted = contract(lines, word)
        except Missing:
            raise Missing(f"{word} in {path}") from None
        head = head or (f"// {path}" if several else "")
        if head != last:
            made += [""] * bool(made) + [head] * bool(head)
        last = head
        made += quoted
    return "\n".join(made) + "\n"


def written(folder, page):
    """The page with its fences of contracts updated, and what is wrong with the names."""
    wrong = []

    def filled(found):
        try:
            return f"```text contracts {found['names']}\n{quote(folder, found['names'])}```"
        except Missing as it:
            wrong.append(f"no public function {it}")
            return found[0]

    return FENCE.sub(filled, page), wrong


def check(folder, name, page, failed):
    """Tests a page's fences of contracts, and returns how many there are."""
    text, wrong = written(folder, page)
    failed.extend(f"{name}: {it}" for it in wrong)
    for old, new in zip(FENCE.finditer(page), FENCE.finditer(text)):
        if old["body"] != new["body"]:
            failed.append(f"{name}: the contracts of {old['names']} aren't those of the sources: run .ci/pages --write")
    return len(FENCE.findall(page))
