#!/usr/bin/env python3
"""Writes the version, which stands in the file VERSION, wherever else it is said: in the command,
the header for C, the packages for Python and Rust, and the README.

    docs/make_version.py            writes all of them
    docs/make_version.py --check    writes nothing, and exits with 1 if one isn't up to date

Plain Python 3, standard library alone.
"""
import re
import sys
from pathlib import Path

ROOT = Path(__file__).resolve().parent.parent
NUMBER = r"\d+\.\d+(?:\.\d+)?"
# a file, what stands before the version there, and what follows
PLACES = [
    ("crates/rpki_command/src/about.rt", r'const VERSION: &str = "rpki \(Gonxebhula\) ', r"\\n"),
    ("crates/rpki_command/specs/AboutTexts.antt", r'codes "rpki \(Gonxebhula\) ', r"\\n"),
    ("include/rpki.h", r'#define RPKI_VERSION "', '"'),
    ("crates/rpki_c/src/version.rt", 'codes "', r'\\0"'),
    ("crates/rpki_c/src/version.rt", 'out.text = b"', r'\\0"'),
    ("callers/python/pyproject.toml", r'^version = "', '"'),
    ("callers/python/rpki/__init__.py", r'^__version__ = "', '"'),
    ("callers/rust/Cargo.toml", r'^version = "', '"'),
    ("README.md", r"^Status: version ", ","),
]


def main():
    version = (ROOT / "VERSION").read_text().strip()
    if not re.fullmatch(r"\d+\.\d+\.\d+", version):
        sys.exit(f"VERSION: {version!r} is no version, expected MAJOR.MINOR.PATCH")
    stale = []
    for name, before, behind in PLACES:
        path = ROOT / name
        text = path.read_text()
        pattern = re.compile(f"({before}){NUMBER}({behind})", re.M)
        made, count = pattern.subn(rf"\g<1>{version}\g<2>", text)
        if count != 1:
            sys.exit(f"{name}: the version stands there {count} times, expected once")
        if made != text:
            stale.append(name)
            if "--check" not in sys.argv[1:]:
                path.write_text(made)
    if stale and "--check" in sys.argv[1:]:
        sys.exit("not up to date: " + ", ".join(stale))


if __name__ == "__main__":
    main()
