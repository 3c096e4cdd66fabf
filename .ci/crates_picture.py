"""The picture of the crates: three columns of the library, for reading, values and writing, and below them its users.

An arrow leads from a group to one that uses it. A bold name marks where a reader starts in a column. It reports a crate
that no group has or that is gone, a line that doesn't fit, and an arrow without a dependency in crates.txt or the other
way around.
"""

WIDE, COLUMN, GAP, LINE, LEFT = 800, 232, 28, 31, 24
STAGES = ("text", "numbers", "record", "value", "text")
# Each group of the library: its crates with their purposes, and the entry point first.
COLUMNS = {
    "Read": {
        "time_parsing": "a text's value, or its error",
        "time_locating": "where a rejected text fails",
        "time_preparing": "a description for many texts",
        "time_record": "what was parsed, and its value",
        "time_readers": "RFC 3339, RFC 2822, ISO 8601",
        "time_descriptions": "descriptions, and their texts",
        "time_components": "how a component is spelled",
        "time_digits": "digits and signs",
    },
    "Values": {
        "time_values": "dates, times, offsets, errors",
        "time_zones": "moments in named time zones",
    },
    "Write": {
        "time_formatting": "texts of moments",
    },
}
# Each group of users: its purpose, and its lines of crates.
USERS = {
    "Rust's paths": ("one crate to depend on", "time", "time_uses"),
    "Lines of texts": ("programs that print values", "programs_answers", "time_lines, time_parse"),
    "restamp": ("times rewritten in logs", "restamp_place", "restamp_formats", "restamp_lines", "restamp_stream", "restamp_in_place",
                "restamp_command", "restamp"),
    "C, Python, SQL": ("the library for C, and on it", "pelzaune_ffi", "pelzaune"),
}
STREAMS = ("Streams", "what programs read and write", "byte_streams")
# The arrows between groups; the library is the three columns together.
ARROWS = [("Values", "Read"), ("Read", "Write"), ("Values", "Write"), ("Write", "Read")]
FROM_STREAMS = ("Lines of texts", "restamp", "C, Python, SQL")


def groups():
    """The crates of each group."""
    found = {name: set(crates) for name, crates in COLUMNS.items()}
    for name, (_, *lines) in [*USERS.items(), (STREAMS[0], STREAMS[1:])]:
        found[name] = {it for line in lines for it in line.split(", ")}
    return found


def is_test(crate):
    return "_tests" in crate or crate == "time_bench"


def differences(below):
    """What is wrong with the groups and the arrows, by the crates' dependencies."""
    of = {crate: name for name, crates in groups().items() for crate in crates}
    wrong = [f"{it} has no group" for it in below if it not in of and not is_test(it)]
    wrong += [f"{it} is no crate" for it in of if it not in below]
    used = {(of[low], of[crate]) for crate, lower in below.items() for low in lower if crate in of and low in of}
    used = {(low, user) for low, user in used if low != user and not (low in COLUMNS and user in USERS)}
    drawn_ones = {*ARROWS, *((STREAMS[0], it) for it in FROM_STREAMS)}
    wrong += [f"an arrow from {low} to {user} {'is missing' if (low, user) in used else 'has no dependency'}"
              for low, user in sorted(used ^ drawn_ones)]
    return wrong


class Picture:
    """The shapes so far, and what doesn't fit."""

    def __init__(self, text):
        self.text, self.shapes, self.wrong = text, [], []

    def words(self, x, y, words, kind, most, anchor="start"):
        if len(words) * (6.7 if "code" in kind else 5.9) > most:
            self.wrong.append(f"`{words}` doesn't fit")
        self.shapes.append(self.text(x, y, words, kind, anchor))

    def box(self, x, y, wide, high, kind="box"):
        self.shapes.append(f'<rect class="{kind}" x="{x}" y="{y}" width="{wide}" height="{high}" rx="8"/>')

    def arrow(self, *points):
        """A path, whose last part is horizontal or vertical, with a head at its end."""
        (a, b), (x, y) = points[-2:]
        across, down = (x > a) - (x < a), (y > b) - (y < b)
        head = f"l {-7 * across - 4 * down} {-7 * down - 4 * across} l {8 * down} {8 * across} z"
        self.shapes.append(f'<path class="line" d="M {" L ".join(f"{p} {q}" for p, q in points)}"/>')
        self.shapes.append(f'<path class="head" d="M {x} {y} {head}"/>')

    def stages(self):
        """What a text becomes, across the top."""
        step = (WIDE - 2 * LEFT) // len(STAGES)
        for k, stage in enumerate(STAGES):
            middle = LEFT + step * k + step // 2
            self.words(middle, 32, stage, "", step, "middle")
            if k:
                self.arrow((middle - step + 36, 28), (middle - 36, 28))

    def column(self, k, title, crates, y, high):
        """A column, as high as its crates in the middle, so that arrows between the others pass below it."""
        x = LEFT + k * (COLUMN + GAP)
        high = high if k != 1 else 46 + LINE * len(crates)
        self.box(x, y, COLUMN, high)
        self.words(x + 12, y + 22, title, "", COLUMN)
        for line, (crate, purpose) in enumerate(crates.items()):
            at = y + 46 + line * LINE
            self.words(x + 12, at, crate, "code" if line else "code entry", COLUMN - 24)
            self.words(x + 12, at + 13, purpose, "small", COLUMN - 24)

    def users(self, y):
        """The groups of users side by side, and their bottom."""
        wide = (WIDE - 2 * LEFT - 3 * 12) // 4
        high = 52 + 15 * max(len(lines) - 1 for lines in USERS.values())
        for k, (title, (purpose, *lines)) in enumerate(USERS.items()):
            x = LEFT + k * (wide + 12)
            self.arrow((x + wide // 2 - 30, y - 34), (x + wide // 2 - 30, y - 2))
            if title in FROM_STREAMS:
                self.arrow((x + wide // 2 + 30, y + high + 34), (x + wide // 2 + 30, y + high + 2))
            self.box(x, y, wide, high)
            self.words(x + 10, y + 20, title, "", wide)
            self.words(x + 10, y + 35, purpose, "small", wide - 12)
            for line, crates in enumerate(lines):
                self.words(x + 10, y + 53 + 15 * line, crates, "code", wide)
        return y + high

    def draw(self):
        """Everything, and the picture's height."""
        self.stages()
        top, high = 62, 46 + LINE * max(len(it) for it in COLUMNS.values())
        self.box(8, top - 12, WIDE - 16, high + 24, "band")
        for k, (title, crates) in enumerate(COLUMNS.items()):
            self.column(k, title, crates, top, high)
        one, two, three = (LEFT + k * (COLUMN + GAP) for k in range(3))
        self.arrow((two, top + 24), (one + COLUMN + 2, top + 24))
        self.arrow((two + COLUMN, top + 24), (three - 2, top + 24))
        low = top + high - 60
        self.arrow((one + COLUMN, low), (three - 2, low))
        self.arrow((three, low + 24), (one + COLUMN + 2, low + 24))
        bottom = self.users(top + high + 48)
        wide = (WIDE - 2 * LEFT - 3 * 12) // 4
        self.box(LEFT + wide + 12, bottom + 36, 3 * wide + 24, 44)
        self.words(LEFT + wide + 24, bottom + 56, f"{STREAMS[0]}: {STREAMS[1]}", "", 2 * wide)
        self.words(LEFT + wide + 24, bottom + 72, STREAMS[2], "code", wide)
        self.words(LEFT, bottom + 52, "An arrow leads from a", "small", wide)
        self.words(LEFT, bottom + 66, "group to one that uses it.", "small", wide)
        self.words(LEFT, bottom + 80, "Start at a bold name.", "small", wide)
        return bottom + 96


def drawn(below, text):
    """The picture's width, height and shapes, and what is wrong with it."""
    picture = Picture(text)
    high = picture.draw()
    return WIDE, high, picture.shapes, picture.wrong + differences(below)
