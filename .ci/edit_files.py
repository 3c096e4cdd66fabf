"""The mutations of a crate, as .ci/edits and .ci/edits-page read them.

must-fail/NAME.edit has one mutation, since `rt` requires a file for each. more-edits/mutations.edits has all others, in
blocks that a name heads, with a blank line between two. A line `file:` names the source that the lines below it change.
A mutation has lines `old:` and `new:`, once or more often, then `wrong:` and `clause:`. The files drawn_*.edit of
.ci/draw-edits repeat some of mutations.edits, and aren't read.
"""
import glob
import os
import re

TOP = os.path.dirname(os.path.dirname(os.path.abspath(__file__)))
LINE = re.compile(r"(file|old|new|wrong|clause):(?: (.*))?")


def read(path):
    with open(f"{TOP}/{path}", encoding="utf-8") as file:
        return file.read()


class Edit:
    """A mutation: its pairs have a file of the crate, a text that occurs there once, and the text that replaces it."""

    def __init__(self, name, path, line):
        self.name, self.path, self.place = name, path, f"{path}:{line}"
        self.pairs, self.old, self.wrong, self.clause = [], None, "", ""

    def add(self, key, value, file):
        """Adds the value of a line: `new:` completes a pair, which changes that file."""
        if key == "new":
            self.pairs.append((file, self.old, value))
        else:
            setattr(self, key, value if key == "old" else value.strip())

    def error(self, folder):
        """Why the mutation can't be made in that crate, or nothing."""
        texts = {}
        for file, old, new in self.pairs:
            if file is None or not os.path.exists(f"{TOP}/{folder}/{file}"):
                return f"there is no {file}"
            text = texts.setdefault(file, read(f"{folder}/{file}"))
            if not old or text.count(old) != 1:
                return f"`{old}` occurs {text.count(old) if old else 0} times in {file}"
            texts[file] = text.replace(old, new)
        return None if self.pairs else "it has no lines `old:` and `new:`"


def parse(path):
    """The mutations of a file, and the errors in its lines."""
    name, ending = os.path.splitext(os.path.basename(path))
    edits, errors, file = [Edit(name, path, 1)] if ending == ".edit" else [], [], None
    is_inside = bool(edits)
    for number, text in enumerate(read(path).split("\n"), 1):
        found = LINE.fullmatch(text)
        if found and found[1] == "file":
            file = found[2]
        elif found and is_inside:
            edits[-1].add(found[1], found[2] or "", file)
        elif not text:
            is_inside = False
        elif not is_inside and re.fullmatch(r"\w+", text):
            edits.append(Edit(text, path, number))
            is_inside = True
        else:
            errors.append(f"{path}:{number}: `{text}` is neither the name of a mutation nor one of its lines")
    return edits, errors


def edits_of(crate):
    """The mutations of a crate, and what is wrong with them, a line each."""
    edits, errors, first = [], [], {}
    folder = f"crates/{crate}"
    for path in [*sorted(glob.glob(f"{folder}/must-fail/*.edit", root_dir=TOP)),
                 *glob.glob(f"{folder}/more-edits/mutations.edits", root_dir=TOP)]:
        if "/drawn_" in path:
            continue
        found, malformed = parse(path)
        edits += found
        errors += malformed
    for it in edits:
        error, other = it.error(folder), first.setdefault(it.name, it)
        errors += [f"{it.place}: {it.name}: {error}"] if error else []
        errors += [f"{it.place}: {it.name} is also at {other.place}"] if other is not it else []
    return edits, errors
