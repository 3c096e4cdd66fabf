"""Random descriptions: trees, with their texts in brackets, of both versions, or of strftime."""
from components import MODIFIERS, Component
from formats import part, several

LETTERS = {
    "a": part("weekday", repr="short"), "A": part("weekday"), "b": part("month", repr="short"),
    "h": part("month", repr="short"), "B": part("month", repr="long"), "C": part("year", repr="century"),
    "g": part("year", repr="last_two", base="iso_week"), "G": part("year", base="iso_week"),
    "y": part("year", repr="last_two"), "Y": part("year"), "d": part("day"), "e": part("day", padding="space"),
    "j": part("ordinal"), "H": part("hour"), "k": part("hour", padding="space"), "I": part("hour", repr="12"),
    "l": part("hour", repr="12", padding="space"), "m": part("month"), "M": part("minute"), "S": part("second"),
    "f": part("subsecond"), "N": part("subsecond", digits="9"),
    "p": part("period"), "P": part("period", case="lower"), "s": part("unix_timestamp"),
    "u": part("weekday", repr="monday"), "w": part("weekday", repr="sunday", one_indexed="false"),
    "U": part("week_number", repr="sunday"), "V": part("week_number"), "W": part("week_number", repr="monday"),
}
SHORTHANDS = {"D": "m/d/y", "x": "m/d/y", "F": "Y-m-d", "R": "H:M", "T": "H:M:S", "X": "H:M:S", "r": "I:M:S p",
              "c": "a b e H:M:S Y"}
BYTES_OF = {"n": b"\n", "t": b"\t", "%": b"%"}
FLAGS = {"-": "none", "_": "space", "0": "zero"}
# The items of a letter after a flag that isn't one of padding.
FLAGGED = {
    **{f"{digits}f": [part("subsecond", digits=digits)] for digits in "369"},
    ".f": [("optional", ("list", [("literal", b"."), part("subsecond")]))],
    ":z": [part("offset_hour", sign="mandatory"), ("literal", b":"), part("offset_minute")],
}
# Groups of components that make a date, a time, an offset or a moment.
DATES = ["Y-m-d", "d/b/Y", "e b Y", "Y-j", "G-V-u", "a, d B Y", "C y m d", "Y U w", "Y W u", "F", "D", "d.m.y", "Ymd",
         "g V a"]
TIMES = ["H:M", "H:M:S", "H:M:Sf", "H:M:S.N", "I:M p", "l:M:S P", "T", "R", "k:M", "r", "HMS"]
LITERALS = ["-", "/", ":", ".", " ", "T", "Z", ",", ", ", "at ", "W", "x1", "0", "+", "'", "\\", "]", "[", "\t", "%",
            "\u00e9"]


def of_letter(letter):
    """The items that a letter of strftime means."""
    if letter == "z":
        return [part("offset_hour", sign="mandatory"), part("offset_minute")]
    if letter in BYTES_OF:
        return [("literal", BYTES_OF[letter])]
    if letter in SHORTHANDS:
        return [LETTERS.get(it) or ("literal", it.encode()) for it in SHORTHANDS[letter]]
    return [LETTERS[letter]]


def whole_words(rng):
    """Words of a date, a time and mostly an offset."""
    return f"{rng.choice(DATES)}{rng.choice('T :')}{rng.choice(TIMES)}{rng.choice(['z', ' z', 'z', ''])}"


def strftime(rng, words=None):
    """A description of strftime, and its tree, in which each byte is an item."""
    given = words
    words = words or rng.choice([rng.choice(DATES), rng.choice(TIMES), f"{rng.choice(DATES)} {rng.choice(TIMES)}",
                                 whole_words(rng), "s", "c z"])
    if not given and rng.random() < 0.3:
        words = "".join(rng.choice([*LETTERS, *SHORTHANDS, *"zn-:/ ,.xT"]) for _ in range(rng.randint(1, 6)))
    text, items = b"", []
    for word in words:
        is_letter = (word in LETTERS or word in SHORTHANDS or word == "z") and (word not in "Tx" or rng.random() < 0.5)
        if not is_letter:
            if word == "%" or rng.random() < 0.02:
                word = rng.choice("nt%")
                text, items = text + b"%" + word.encode(), items + of_letter(word)
            else:
                text, items = text + word.encode(), items + [("literal", bytes([it])) for it in word.encode()]
            continue
        flag, meant = "", of_letter(word)
        if word in LETTERS and LETTERS[word][1].is_padded() and rng.random() < 0.2:
            flag = rng.choice("-_0")
            old = LETTERS[word][1]
            meant = [("component", Component(old.name, **{**old.given, "padding": FLAGS[flag]}))]
        elif word in "fz" and rng.random() < 0.5:
            flag = rng.choice([it[0] for it in FLAGGED if it[1] == word])
            meant = FLAGGED[flag + word]
        text, items = text + f"%{flag}{word}".encode(), items + meant
    return text, ("list", items)


def random_component(rng, name=None):
    name = name or rng.choice([*MODIFIERS, "year", "month", "day", "hour", "minute", "second", "offset_hour"])
    given = {}
    for key, values in MODIFIERS[name]:
        if key == "count" or rng.random() < 0.3:
            given[key] = rng.choice(values)
    return "component", Component(name, **given)


def from_words(rng, words, is_brackets):
    """The items of words such as those of DATES, with some modifiers changed."""
    items = []
    for word in words:
        if not word.isalpha() or word in "TZ" and is_brackets:
            items.append(("literal", word.encode()))
            continue
        for item in of_letter(word):
            changes = item[0] == "component" and rng.random() < 0.15
            items.append(random_component(rng, item[1].name) if changes else item)
    return items


def random_items(rng, version, depth, words=None):
    if words or rng.random() < 0.75:
        words = words or rng.choice([rng.choice(DATES), rng.choice(TIMES), "z", "s", whole_words(rng),
                                     f"{rng.choice(DATES)} {rng.choice(TIMES)}"])
        items = from_words(rng, words, True)
    else:
        items = [random_component(rng) if rng.random() < 0.6 else ("literal", rng.choice(LITERALS).encode())
                 for _ in range(rng.randint(0, 5))]
    if rng.random() < 0.15:
        items.insert(rng.randint(0, len(items)), ("literal", rng.choice(LITERALS).encode()))
    if rng.random() < 0.05:
        items.append(random_component(rng, rng.choice(["end", "subsecond", "offset_second", "ignore"])))
    if version == 2 and depth and rng.random() < 0.4:
        items[rng.randint(0, len(items)):] = [random_group(rng, depth, items)]
    return items


def random_group(rng, depth, items):
    """An optional part or a choice, of new items or of the last ones."""
    inside = items[rng.randint(0, len(items)):] if rng.random() < 0.5 else random_items(rng, 2, depth - 1)
    if rng.random() < 0.5:
        return "optional", ("list", inside)
    others = [("list", random_items(rng, 2, depth - 1)) for _ in range(rng.randint(0, 2))]
    others.insert(rng.randint(0, len(others)), ("list", inside))
    return "first", others


def space(rng, least=0):
    return "".join(rng.choice("   \t\n") for _ in range(least + (rng.random() < 0.1)))


def cased(rng, word):
    return word.upper() if rng.random() < 0.05 else word


def component_text(rng, component):
    words = [cased(rng, component.name)]
    given = list(component.given.items())
    rng.shuffle(given)
    if given and given[0][0] != "count" and rng.random() < 0.05:
        key = given[0][0]
        words.append(f"{key}:{rng.choice(dict(MODIFIERS[component.name])[key])}")  # the later one overrides this
    words += [f"{cased(rng, key)}:{cased(rng, value)}" for key, value in given]
    return "[" + space(rng) + "".join(word + space(rng, 1) for word in words[:-1]) + words[-1] + space(rng) + "]"


def literal_items(text, version, nested):
    """The texts and the trees of a literal: an escaped byte is a literal of its own."""
    special = b"[" if version == 1 else b"[\\]" if nested else b"[\\"
    found = []
    for byte in text:
        one = bytes([byte])
        if one in [bytes([it]) for it in special]:
            found.append((b"[[" if version == 1 else b"\\" + one, one, True))
        elif found and not found[-1][2]:
            found[-1] = (found[-1][0] + one, found[-1][1] + one, False)
        else:
            found.append((one, one, False))
    return found


def joined(items):
    """The items, without two literals in a row."""
    found = []
    for item in items:
        if item[0] == "literal" and found and found[-1][0] == "literal":
            found[-1] = ("literal", found[-1][1] + item[1])
        else:
            found.append(item)
    return found


def brackets(rng, items, version, nested=False):
    """The text of items in brackets, and the items that it parses as."""
    text, read = "", []
    for kind, inside in joined(items):
        if kind == "literal":
            pieces = literal_items(inside, version, nested)
            text += b"".join(it[0] for it in pieces).decode()
            read += [("literal", it[1]) for it in pieces]
        elif kind == "component":
            text += component_text(rng, inside)
            read.append((kind, inside))
        else:
            lists = [inside[1]] if kind == "optional" else [it[1] for it in inside]
            made = [brackets(rng, it, version, True) for it in lists]
            text += f"[{space(rng)}{kind}{space(rng, 1)}"
            text += space(rng).join(f"[{it[0]}]" for it in made) + space(rng) + "]"
            trees = [("list", it[1]) for it in made]
            read.append((kind, trees[0] if kind == "optional" else trees))
    return text, read


def random_description(rng, most=200, says_all=False):
    """The syntax (`v1`, `v2` or `strftime`), the bytes and the tree of a description; of a moment if requested."""
    while True:
        syntax = rng.choice(["v1", "v2", "v2", "v2", "strftime"])
        words = whole_words(rng) if says_all and rng.random() < 0.9 else None
        if syntax == "strftime":
            text, tree = strftime(rng, words)
            if b"[" in text or b"%" not in text:
                continue
        else:
            version = 1 if syntax == "v1" else 2
            told, read = brackets(rng, random_items(rng, version, 2, words), version)
            text, tree = told.encode(), ("list", read)
            if b"[" not in text:
                continue
        if len(text) <= most:
            return syntax, text, tree
