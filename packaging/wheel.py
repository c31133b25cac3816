#!/usr/bin/env python3
"""Makes the wheel of callers/python with the library in it, for any Python 3 on x86-64 Linux.

    packaging/wheel.py BUILT LIBRARY VERSION GLIBC FOLDER

packaging/dist calls it. The date in it is SOURCE_DATE_EPOCH. Python 3.11 or later, standard library
alone.
"""
import base64
import hashlib
import os
import sys
import time
import tomllib
import zipfile
from pathlib import Path

ROOT = Path(__file__).resolve().parent.parent
PACKAGE = ROOT / "callers" / "python"


def metadata(project, version):
    """The file METADATA (version 2.1 of the core metadata)."""
    lines = [
        "Metadata-Version: 2.1",
        f"Name: {project['name']}",
        f"Version: {version}",
        f"Summary: {project['description']}",
        f"Author: {', '.join(it['name'] for it in project['authors'])}",
        f"License: {project['license']['text']}",
        f"Keywords: {','.join(project['keywords'])}",
        f"Requires-Python: {project['requires-python']}",
        *(f"Classifier: {it}" for it in project["classifiers"]),
        "Description-Content-Type: text/markdown",
        "License-File: LICENSE",
    ]
    return "\n".join(lines) + "\n\n" + (PACKAGE / project["readme"]).read_text()


def record(files):
    """The file RECORD: each file with its sum and its size."""
    rows = []
    for name, octets in files:
        digest = base64.urlsafe_b64encode(hashlib.sha256(octets).digest()).rstrip(b"=").decode()
        rows.append(f"{name},sha256={digest},{len(octets)}")
    return "\n".join(rows)


def main():
    built, library, version, glibc, folder = sys.argv[1:]
    project = tomllib.loads((PACKAGE / "pyproject.toml").read_text())["project"]
    # no installer asks for an older glibc than 2.5 (PEP 600)
    minor = max(5, int(glibc.split(".")[1]))
    tag = f"py3-none-manylinux_2_{minor}_x86_64"
    info = f"gonxebhula-{version}.dist-info"
    wheel = f"Wheel-Version: 1.0\nGenerator: gonxebhula\nRoot-Is-Purelib: false\nTag: {tag}\n"
    files = [(f"rpki/{it.name}", it.read_bytes()) for it in sorted((PACKAGE / "rpki").glob("*.py"))]
    files += [
        ("rpki/py.typed", (PACKAGE / "rpki" / "py.typed").read_bytes()),
        (f"rpki/{Path(library).name}", Path(library).read_bytes()),
        (f"{info}/BUILT", Path(built).read_bytes()),
        (f"{info}/LICENSE", (ROOT / "LICENSE").read_bytes()),
        (f"{info}/METADATA", metadata(project, version).encode()),
        (f"{info}/WHEEL", wheel.encode()),
    ]
    files.append((f"{info}/RECORD", (record(files) + f"\n{info}/RECORD,,\n").encode()))
    # a zip's first year is 1980
    date = time.gmtime(max(int(os.environ["SOURCE_DATE_EPOCH"]), 315532800))[:6]
    path = Path(folder) / f"gonxebhula-{version}-{tag}.whl"
    with zipfile.ZipFile(path, "w", zipfile.ZIP_DEFLATED, compresslevel=9) as made:
        for name, octets in files:
            entry = zipfile.ZipInfo(name, date)
            entry.compress_type = zipfile.ZIP_DEFLATED
            entry.create_system = 3
            entry.external_attr = (0o755 if ".so" in name else 0o644) << 16
            made.writestr(entry, octets)
    print(f"packaging/dist: {path}", file=sys.stderr)


if __name__ == "__main__":
    main()
