"""Fuzz tests of `time_lines` and `time_parse`."""
import reading_descriptions as reading
import texts
from descriptions import random_description
from formats import FORMATS, ByTree, answer, expected, line_answer
from programs import Cases, answers, piped, run
from records import TARGETS

MOST_STEPS = 1024
MADE = {"rfc3339": texts.rfc3339, "rfc2822": texts.rfc2822, "iso8601": texts.iso8601}


def named_text(rng, name):
    if name in MADE:
        return texts.some_text(rng, MADE[name](rng))
    return texts.some_text(rng, texts.spelled(rng, FORMATS[name].tree, texts.random_moment(rng)))


def lines(rng, tally, command, count=400):
    """Lines of every format and target, and some malformed ones."""
    sent = []
    for _ in range(count):
        name = rng.choice([*FORMATS, "rfc3339", "rfc2822", "iso8601"])
        target = rng.choice(TARGETS)
        line = b"\t".join([name.encode(), target.encode(), named_text(rng, name)])
        sent.append(texts.clean(texts.damaged(rng, line)) if rng.random() < 0.02 else line)
    answers(tally, "time_lines", command, sent, [line_answer(it) for it in sent])


def by_names(rng, tally, command, count=60):
    name, target = rng.choice(list(FORMATS)), rng.choice(TARGETS)
    tells = rng.random() < 0.7
    sent = [named_text(rng, name) for _ in range(count)]
    words = [*(["--place"] if tells else []), name, target]
    answers(tally, "time_parse", [*command, *words], sent, [answer(FORMATS[name], target, it, tells) for it in sent])


def fitting(rng, tree):
    """A target, often one that a tree has the parts of."""
    called = str(names_in(tree))
    wanted = ["date"] * ("year" in called) + ["time"] * ("hour" in called) + ["offset"] * ("offset_hour" in called)
    wanted += ["plain", "datetime", "utc"] * ("year" in called and "hour" in called)
    wanted += ["timestamp", "datetime", "utc"] * ("unix" in called)
    return rng.choice(wanted) if wanted and rng.random() < 0.8 else rng.choice(TARGETS)


def names_in(tree):
    kind, inside = tree
    if kind == "literal":
        return []
    if kind == "component":
        return [inside.name]
    return [name for it in ([inside] if kind == "optional" else inside) for name in names_in(it)]


def by_descriptions(rng, tally, command, count=40):
    syntax, described, tree = random_description(rng)
    target, tells, form = fitting(rng, tree), rng.random() < 0.7, ByTree(tree)
    moments = [texts.random_moment(rng) for _ in range(5)]
    sent = [texts.some_text(rng, texts.spelled(rng, tree, rng.choice(moments))) for _ in range(count)]
    words = [*(["--place"] if tells else []), *(["--v1"] if syntax == "v1" else []), described.decode(), target]
    answers(tally, "time_parse", [*command, *words], sent, [answer(form, target, it, tells) for it in sent])


def by_damaged_descriptions(rng, tally, command):
    """A damaged description, or one with the greatest number of steps, or with one more."""
    syntax, text, tree = random_description(rng)
    version = 1 if syntax == "v1" else 2
    tally.same("the readers", reading.shown(reading.read(text, version)), reading.shown(tree), lambda: repr(text))
    room = MOST_STEPS - reading.steps(tree)
    text = b"x" * (room + rng.randint(0, 1)) + text if rng.random() < 0.05 else texts.damaged(rng, text)
    if b"\x00" in text or text in (b"", b"--v1") or not texts.is_utf8(text):
        return
    words = [*(["--v1"] if version == 1 else []), text.decode(), "time"]
    if not isinstance(tally, Cases):
        out, log, status = run([*command, *words], b"12:34\n")
        got = out.decode(errors="replace"), log.decode(errors="replace"), status
        tally.same("time_parse", got, described(text, version), lambda: piped([*command, *words], b"12:34\n"))


def described(text, version):
    """The expected output of `time_parse` for a time by a description, its report, and its status."""
    said = "".join(chr(it) if 32 <= it <= 126 else "?" for it in text)
    try:
        if b"[" not in text and b"%" not in text:
            if text.decode() in FORMATS:
                return answer(FORMATS[text.decode()], "time", b"12:34") + "\n", "", 0
            return "", f"error: no format has this name, and a description has a `[` or a `%`\n  {said}\n  ^\n", 2
        tree = reading.read(text, version)
    except reading.Fault as fault:
        return "", f"error: {fault.text}\n  {said}\n  {' ' * fault.index}^\n", 2
    if reading.steps(tree) > MOST_STEPS:
        return "", "error: the description is too long\n", 2
    return answer(ByTree(tree), "time", b"12:34") + "\n", "", 0


def programs(rng, tally, command):
    """A round of `time_parse`."""
    for _ in range(12):
        by_damaged_descriptions(rng, tally, command)
    for _ in range(2):
        by_names(rng, tally, command)
    for _ in range(6):
        by_descriptions(rng, tally, command)
