"""The programs, their expected output, and how a failing test is reported so that it can be repeated."""
import os
import re
import shlex
import subprocess

LIMIT = 120  # seconds that a program may take for a batch


def quoted(word):
    """Bytes as a word of bash."""
    if re.fullmatch(rb"[\w@%+=:,./-]+", word):
        return word.decode()
    if all(32 <= it < 127 for it in word):
        return shlex.quote(word.decode())
    return "$'" + "".join(chr(it) if 32 <= it < 127 and it not in b"'\\" else f"\\x{it:02x}" for it in word) + "'"


def piped(command, given):
    """A command of bash that pipes bytes to a program."""
    sent = "".join(chr(it) if 32 <= it < 127 and it not in b"'\\%" else f"\\{it:03o}" for it in given)
    return f"printf '{sent}' | {' '.join(quoted(os.fsencode(it)) for it in command)}"


class Tally:
    """The counts of passed and failed tests. Of each part the first differences are reported."""

    def __init__(self, most=20):
        self.passed, self.failed, self.most, self.told = 0, 0, most, {}

    def same(self, part, got, wanted, again):
        """Counts a test; `again` makes the text that repeats it."""
        if got == wanted:
            self.passed += 1
            return True
        self.differ(part, f"{again()}\n    answers {got!r}\n    and not {wanted!r}")
        return False

    def differ(self, part, text):
        self.failed += 1
        self.told[part] = self.told.get(part, 0) + 1
        if self.told[part] <= self.most:
            print(f"failed: {part}: {text}", flush=True)
        elif self.told[part] == self.most + 1:
            print(f"failed: {part}: more, which are counted alone", flush=True)


class Cases(Tally):
    """Inputs and expected outputs, which are written for `rt try --cases`."""

    def __init__(self, folder):
        super().__init__()
        self.folder, self.count = folder, 0
        os.makedirs(folder, exist_ok=True)

    def write(self, command, given, wanted):
        if any("\n" in it for it in command):
            return  # an argument is a line
        path = f"{self.folder}/{self.count:04}"
        self.count += 1
        words = b"".join(os.fsencode(it) + b"\n" for it in command[1:])
        for name, data in ((path, given), (f"{path}.stdout", wanted), (f"{path}.args", words)):
            with open(name, "wb") as file:
                file.write(data)


def run(command, given, cwd=None, env=None):
    """Standard output, standard error and status, or how the run ended."""
    try:
        done = subprocess.run(command, input=given, capture_output=True, timeout=LIMIT, cwd=cwd, env=env, check=False)
    except subprocess.TimeoutExpired:
        return b"", b"no end within the time", -1
    return done.stdout, done.stderr, done.returncode


def answers(tally, part, command, lines, wanted):
    """Compares the lines that a program prints with the expected ones. If the last is short, no LF ends it."""
    sent = b"".join(it + b"\n" for it in lines)
    if lines and 0 < len(lines[-1]) < 10:
        sent = sent[:-1]
    if isinstance(tally, Cases):
        tally.write(command, sent, "".join(f"{it}\n" for it in wanted).encode())
        return
    out, log, status = run(command, sent)
    got = [it.decode(errors="backslashreplace") for it in out.split(b"\n")[:-1]]
    if status or log or len(got) != len(lines):
        alone = next((it for it in lines if run(command, it + b"\n")[1:] != (b"", 0)), lines[0] if lines else b"")
        tally.differ(part, f"{piped(command, alone)}\n    ends with {status} and {log!r}, after {len(got)} of "
                           f"{len(lines)} answers")
        return
    for line, one, other in zip(lines, got, wanted):
        tally.same(part, one, other, lambda line=line: piped(command, line))
