"""Descriptions as text, parsed from the left: a tree, or the first fault."""
from components import MODIFIERS, Component
from descriptions import BYTES_OF, FLAGGED, FLAGS, LETTERS, SHORTHANDS, of_letter
from stamping import escaped

MOST_LISTS = 8
SPACES = b" \t\n\x0c\r"
GROUPS = (b"optional", b"first")


class Fault(Exception):
    """The error of a malformed description, and the index of its first fault."""

    def __init__(self, text, index):
        super().__init__(text, index)
        self.text, self.index = f"{text} at byte index {index}", index


def quoted(word):
    return escaped(word).removeprefix("expected '")[:-1]


def invalid(what, word, index):
    return Fault(f"invalid {what} `{quoted(word)}`", index)


def looked_up(names, word):
    return next((it for it in names if it.encode().lower() == word.lower()), None)


class Brackets:
    """A description of version 1, where `[[` is a literal bracket, or 2, where a backslash escapes."""

    def __init__(self, text, version):
        self.text, self.version, self.at = text, version, 0

    def next(self):
        return self.text[self.at:self.at + 1]

    def spaces(self):
        begun = self.at
        while self.next() and self.next() in SPACES:
            self.at += 1
        return self.at - begun

    def word(self):
        begun = self.at
        while self.next() and self.next() not in SPACES + b"[]":
            self.at += 1
        return self.text[begun:self.at]

    def need(self, byte, text, index):
        if self.next() != byte:
            raise Fault(text, index)
        self.at += 1

    def tree(self):
        return "list", self.items(0, False)

    def items(self, depth, nested):
        found = []
        while self.next() and not (nested and self.next() == b"]"):
            found.append(self.item(depth, nested))
        return found

    def item(self, depth, nested):
        opening = self.at
        if self.next() == b"[":
            self.at += 1
            self.spaces()
            kind = self.word()
            if kind in GROUPS:
                if depth == MOST_LISTS:
                    raise Fault("a list in more than seven others is not supported in a description", opening)
                return self.group(kind.decode(), opening, depth)
            self.at = opening
            if self.version == 1 and self.text[opening + 1:opening + 2] == b"[":
                self.at += 2
                return "literal", b"["
            return "component", self.component()
        if self.version == 2 and self.next() == b"\\":
            self.at += 2
            if self.text[self.at - 1:self.at] not in (b"[", b"]", b"\\"):
                raise Fault("expected an escaped `[`, `]` or `\\`", opening + 1)
            return "literal", self.text[self.at - 1:self.at]
        return "literal", self.plain(nested)

    def plain(self, nested):
        begun = self.at
        while self.next() and self.next() != b"[" and not (self.version == 2 and self.next() == b"\\") and \
                not (nested and self.next() == b"]"):
            self.at += 1
        return self.text[begun:self.at]

    def group(self, kind, opening, depth):
        if not self.spaces():
            raise Fault(f"expected whitespace after `{kind}`", self.at)
        self.need(b"[", "expected an opening bracket", self.at)
        lists = [self.list(opening, depth)]
        while kind == "first":
            after = self.at
            self.spaces()
            if self.next() != b"[":
                self.at = after
                break
            self.at += 1
            lists.append(self.list(opening, depth))
        self.spaces()
        self.need(b"]", "unclosed opening bracket", opening)
        return (kind, lists) if kind == "first" else (kind, lists[0])

    def list(self, opening, depth):
        items = self.items(depth + 1, True)
        self.need(b"]", "unclosed opening bracket", opening)
        return "list", items

    def component(self):
        opening = self.at
        self.at += 1
        space, begun = self.spaces(), self.at
        word = self.word()
        if not word:
            raise Fault("missing component name", opening + (space > 0))
        name = looked_up(MODIFIERS, word)
        if not name:
            raise invalid("component name", word, begun)
        given = {}
        while True:
            self.spaces()
            index, word = self.at, self.word()
            if not word:
                break
            key, value = self.modifier(name, word, index)
            given[key] = value
        if self.next() == b"[":
            raise Fault("expected a modifier or a closing bracket", self.at)
        self.need(b"]", "unclosed opening bracket", opening)
        if name == "ignore" and not given:
            raise Fault("missing required modifier `count` for component", begun)
        return Component(name, **given)

    def modifier(self, name, word, index):
        key, colon, value = word.partition(b":")
        known = dict(MODIFIERS[name])
        found = looked_up(known, key)
        if not colon or not found:
            raise invalid("modifier", word if not colon else key, index)
        if found == "count":
            meant = str(int(value)) if value.isdigit() and 1 <= int(value) <= 65_535 else None
        else:
            meant = looked_up(known[found], value)
        if meant is None:
            raise invalid("modifier", value, index + len(key) + 1)
        return found, meant


def strftime(text):
    items, at = [], 0
    while at < len(text):
        if text[at:at + 1] != b"%":
            items.append(("literal", text[at:at + 1]))
            at += 1
            continue
        percent, at = at, at + 1
        flag = text[at:at + 1].decode(errors="replace")
        flag = flag if flag in FLAGS or flag in {it[0] for it in FLAGGED} else ""
        at += len(flag)
        letter = text[at:at + 1]
        items += conversion(letter, flag, percent, at)
        at += 1
    return "list", items


def conversion(byte, flag, percent, at):
    letter = byte.decode(errors="replace")
    if letter in ("E", "O", "Z"):
        raise Fault("this conversion is not supported in a strftime description", percent)
    if letter not in LETTERS and letter not in SHORTHANDS and letter not in BYTES_OF and letter != "z" or not letter:
        raise invalid("component name", byte, at)
    if not flag:
        return of_letter(letter)
    if flag + letter in FLAGGED:
        return FLAGGED[flag + letter]
    component = LETTERS[letter][1] if letter in LETTERS else None
    if flag not in FLAGS or component is None or not component.is_padded():
        raise invalid("modifier", flag.encode(), at - 1)
    return [("component", Component(component.name, **{**component.given, "padding": FLAGS[flag]}))]


def read(text, version):
    return Brackets(text, version).tree() if b"[" in text else strftime(text)


def steps(tree):
    """Each byte of a literal and each component is a step, as is each group and each list of a choice."""
    kind, inside = tree
    if kind in ("literal", "component"):
        return len(inside) if kind == "literal" else 1
    if kind == "optional":
        return 1 + steps(inside)
    return sum(map(steps, inside)) + (1 + len(inside) if kind == "first" else 0)


def shown(tree):
    """A tree as text, to compare two."""
    kind, inside = tree
    if kind == "component":
        return f"{inside.name}{sorted(inside.said.items())}"
    if kind == "literal":
        return f"{kind}{inside}"
    return f"{kind}{[shown(it) for it in ([inside] if kind == 'optional' else inside)]}"
