"""Packs a built package into a wheel.

    wheel.py FOLDER VERSION TARGET PAGE LICENCE..

FOLDER has the package `pelzaune` with its extension module. The wheel is written into TARGET, with the page as its
description, the licences, and the metadata of users/python/pyproject.toml.

Its platform is that of the Python that packs it, such as linux_x86_64. A tag of manylinux would promise any processor of
that name (PEP 600), and the library requires x86-64-v2, for which there is no tag: the module tests it when imported.
"""
import base64
import hashlib
import os
import sys
import sysconfig
import zipfile

try:
    import tomllib
except ImportError:  # before Python 3.11
    from setuptools.extern import tomli as tomllib

folder, version, target, page, *licences = sys.argv[1:]
python = f"cp{sys.version_info.major}{sys.version_info.minor}"
info = f"pelzaune-{version}.dist-info"
files = {}
for name in sorted(os.listdir(f"{folder}/pelzaune")):
    if not name.endswith((".c", ".h")) and os.path.isfile(f"{folder}/pelzaune/{name}"):
        with open(f"{folder}/pelzaune/{name}", "rb") as file:
            files[f"pelzaune/{name}"] = file.read()

platform = sysconfig.get_platform().replace("-", "_").replace(".", "_")
tag = f"{python}-{python}-{platform}"

for path in licences:
    with open(path, "rb") as file:
        files[f"{info}/{os.path.basename(path)}"] = file.read()
with open(page, encoding="utf-8") as file:
    description = file.read()
with open(os.path.join(os.path.dirname(os.path.abspath(__file__)), "../python/pyproject.toml"), "rb") as file:
    project = tomllib.load(file)["project"]
rows = [("Metadata-Version", "2.1"), ("Name", project["name"]), ("Version", version), ("Summary", project["description"]),
        ("License", project["license"]["text"]), ("Requires-Python", project["requires-python"]),
        ("Author", ", ".join(it["name"] for it in project["authors"])), ("Keywords", ",".join(project["keywords"]))]
rows += [("Classifier", it) for it in project["classifiers"]]
for extra, wanted in project["optional-dependencies"].items():
    rows += [("Provides-Extra", extra), *(("Requires-Dist", f'{it}; extra == "{extra}"') for it in wanted)]
rows.append(("Description-Content-Type", "text/markdown"))
files[f"{info}/METADATA"] = ("".join(f"{name}: {value}\n" for name, value in rows) + f"\n{description}").encode()
files[f"{info}/WHEEL"] = f"Wheel-Version: 1.0\nGenerator: pelzaune\nRoot-Is-Purelib: false\nTag: {tag}\n".encode()
record = ""
for name, data in files.items():
    digest = base64.urlsafe_b64encode(hashlib.sha256(data).digest()).rstrip(b"=").decode()
    record += f"{name},sha256={digest},{len(data)}\n"
files[f"{info}/RECORD"] = f"{record}{info}/RECORD,,\n".encode()
with zipfile.ZipFile(f"{target}/pelzaune-{version}-{tag}.whl", "w", zipfile.ZIP_DEFLATED) as wheel:
    for name, data in files.items():
        member = zipfile.ZipInfo(name)
        member.external_attr = 0o100644 << 16
        member.compress_type = zipfile.ZIP_DEFLATED
        wheel.writestr(member, data)
