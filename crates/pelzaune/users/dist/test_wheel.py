"""Tests the wheel in the archive of `make dist`.

    test_wheel.py ARCHIVE

Its tag is that of its own files, and promises no more than the module has. Its metadata are those of the project.
"""
import base64
import email.parser
import hashlib
import io
import sys
import tarfile
import zipfile

with tarfile.open(sys.argv[1]) as archive:
    name = next(it for it in archive.getnames() if it.endswith(".whl"))
    wheel = zipfile.ZipFile(io.BytesIO(archive.extractfile(name).read()))
files = {it: wheel.read(it) for it in wheel.namelist()}
_, version, *tag = name.rsplit("/", 1)[1].removesuffix(".whl").split("-")
info = f"pelzaune-{version}.dist-info"


def headers(path):
    return email.parser.Parser().parsestr(files[f"{info}/{path}"].decode())


assert headers("WHEEL")["Tag"] == "-".join(tag)
# manylinux means any processor of x86-64, and the library requires x86-64-v2.
assert tag[2].startswith("linux_"), tag
metadata = headers("METADATA")
assert (metadata["Name"], metadata["Version"], metadata["Requires-Python"]) == ("pelzaune", version, ">=3.10"), metadata.items()
assert metadata["Author"] and metadata["License"] == "MIT OR Apache-2.0" and metadata["Requires-Dist"] == 'pandas; extra == "pandas"'
assert "Programming Language :: Python :: 3" in metadata.get_all("Classifier")
assert metadata.get_payload().startswith("# Pelzaune for Python")
rows = [it.split(",") for it in files[f"{info}/RECORD"].decode().splitlines()]
assert [it[0] for it in rows] == list(files)
for path, digest, size in rows[:-1]:
    found = base64.urlsafe_b64encode(hashlib.sha256(files[path]).digest()).rstrip(b"=").decode()
    assert (digest, int(size)) == (f"sha256={found}", len(files[path])), path
