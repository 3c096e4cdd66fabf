"""Builds the extension module from include/pelzaune.h and libpelzaune.a: in lib/ of this folder, as in a source archive,
or in out/ of the folder PELZAUNE_HOME, or else of the library's folder, two above this one."""
import glob
import os

from setuptools import Extension, setup

HERE = os.path.dirname(os.path.abspath(__file__))
HOME = os.environ.get("PELZAUNE_HOME", os.path.dirname(os.path.dirname(HERE)))
ARCHIVE = os.path.join(HOME, "out", "libpelzaune.a")
if os.path.exists(os.path.join(HERE, "lib")):
    HOME, ARCHIVE = HERE, os.path.join(HERE, "lib", "libpelzaune.a")
if not os.path.exists(ARCHIVE):
    raise SystemExit(f"no {ARCHIVE}: run make in the folder of the library, or set PELZAUNE_HOME")


def page():
    """The page of a source archive, which the repository keeps elsewhere."""
    path = os.path.join(HERE, "README.md")
    if not os.path.exists(path):
        return ""
    with open(path, encoding="utf-8") as file:
        return file.read()


setup(
    long_description=page(),
    long_description_content_type="text/markdown",
    ext_modules=[
        Extension(
            "pelzaune._pelzaune",
            sources=["pelzaune/_pelzaune.c"],
            include_dirs=[os.path.join(HOME, "include")],
            extra_objects=[ARCHIVE],
            extra_compile_args=["-std=c99", "-Wall", "-Wextra", "-fvisibility=hidden"],
            extra_link_args=["-Wl,--exclude-libs,ALL"],
            depends=[ARCHIVE, *sorted(glob.glob("pelzaune/*.h", root_dir=HERE))],
        )
    ]
)
