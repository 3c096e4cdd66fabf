#!/usr/bin/env python3
"""Proves the library for wasm64 and links its module.

    prove.py TARGET

A crate is built for one target, and crates.txt names that of C. So this copies the sources to a folder outside of the
repository, and changes that line there. The libraries below come along as `rt ci`, `rt check` or `rt lib` left them. If
each is valid, only the library itself is proved, for wasm64, which takes a minute. Otherwise `rt lib` proves them in the
copy.
"""
import os
import re
import shutil
import subprocess
import sys
import tempfile

TOP = os.path.realpath(f"{os.path.dirname(os.path.abspath(__file__))}/../../../../..")
NAME = "pelzaune"
# The calls were seen to use less than 10,000 bytes of stack. The linker wants a multiple of 65536.
STACK = 131072
SOURCES = ("src", "specs", "proofs")


def link_or_copy(old, new):
    """Links a file of a library, which no command changes, since a library has up to 70 MB."""
    try:
        os.link(old, new)
    except OSError:
        shutil.copy2(old, new)


def below(lines, name):
    """The crates below one, by the lines of crates.txt."""
    found = set()
    for it in re.search(rf"(?m)^{name}\b[^:#\n]*:(.*)$", lines)[1].split():
        if re.search(rf"(?m)^{it}\b[^#\n]*:", lines):
            found |= {it} | below(lines, it)
    return found


def copy_sources(at):
    """Copies the sources, with the other target, and the libraries below."""
    with open(f"{TOP}/crates.txt", encoding="utf-8") as file:
        text, count = re.subn(rf"(?m)^{NAME} staticlib:", f"{NAME} wasm64 stack={STACK}:", file.read())
    if count != 1:
        sys.exit(f"crates.txt has no line of {NAME} as a static library")
    with open(f"{at}/crates.txt", "w", encoding="utf-8") as file:
        file.write(text)
    shutil.copy(f"{TOP}/HANDLES", at)
    needed = below(text, NAME)
    for name in os.listdir(f"{TOP}/crates"):
        shutil.copytree(f"{TOP}/crates/{name}", f"{at}/crates/{name}", ignore=shutil.ignore_patterns("out", "users"))
        if name in needed and os.path.isdir(f"{TOP}/crates/{name}/out/rlib"):
            shutil.copytree(f"{TOP}/crates/{name}/out/rlib", f"{at}/crates/{name}/out/rlib", copy_function=link_or_copy)


def is_newer(name):
    """Whether a library is newer than its sources, as after `rt ci`, which leaves libraries without a stamp."""
    library = f"{TOP}/crates/{name}/out/rlib/{name}.rlib"
    if not os.path.isdir(library) or os.path.exists(f"{library}/../stamp"):
        return False
    built = os.path.getmtime(library)
    return all(os.path.getmtime(f"{at}/{it}") <= built
               for kind in SOURCES for at, _, names in os.walk(f"{TOP}/crates/{name}/{kind}") for it in names)


def build(at):
    """Proves and links the library in the copy. The kit has no command for libraries that `rt ci` left, so this calls the
    module of its `rt`."""
    os.chdir(at)
    sys.path.insert(0, os.path.dirname(os.path.realpath(shutil.which("rt"))))
    import rtlib
    rtlib.guarded()
    crate = next(it for it in rtlib.crates_below(at) if it.name == NAME)
    if not all(it.is_built() or is_newer(it.name) for it in crate.below()):
        return subprocess.run(["rt", "lib"], cwd=crate.folder, check=False).returncode
    crate.out = sys.stdout
    os.makedirs(f"{crate.folder}/out", exist_ok=True)
    return crate.build_static(["--jobs", str(min(os.cpu_count() or 1, 2))])


def main(target):
    target = os.path.abspath(target)
    with tempfile.TemporaryDirectory() as at:
        at = os.path.realpath(at)
        copy_sources(at)
        status = build(at)
        if status == 0:
            shutil.copy(f"{at}/crates/{NAME}/out/{NAME}.wasm", target)
    return status


if __name__ == "__main__":
    sys.exit(main(*sys.argv[1:]))
