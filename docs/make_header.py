#!/usr/bin/env python3
"""Writes what callers read of the tables of faults in crates/rpki_files: the numbers, names and
sentences of faults in include/rpki.h, the enums FaultCode of callers/python and callers/rust, and
the names of faults in the documentation of callers/rust.

    docs/make_header.py            writes all
    docs/make_header.py --check    writes nothing, and exits with 1 where one isn't up to date

A comment that stands above a number of the header, or behind it, stays with the number. Plain
Python 3, standard library alone.
"""
import re
import sys
import textwrap
from pathlib import Path

ROOT = Path(__file__).resolve().parent.parent
TABLES = ROOT / "crates" / "rpki_files" / "src" / "faults.rt"
HEADER = ROOT / "include" / "rpki.h"
CRATE = ROOT / "callers" / "rust" / "src" / "fault.rs"
RUST_CODES = ROOT / "callers" / "rust" / "src" / "code.rs"
PYTHON_CODES = ROOT / "callers" / "python" / "rpki" / "_faults.py"
PREFIXES = {
    "GENERAL": "",
    "READING": "DECODE_",
    "INSPECTION": "INSPECTION_",
    "VERIFICATION": "VERIFICATION_",
    "REVOCATION": "REVOCATION_",
    "PATH": "",
    "LOCATOR": "LOCATOR_",
    "ISSUING": "ISSUING_",
}

# The kinds of the crate whose names are those of one table.
KINDS = {
    "Decode": "READING",
    "Inspection": "INSPECTION",
    "Verification": "VERIFICATION",
    "Revocation": "REVOCATION",
}


def upper(name):
    """BadSignature as BAD_SIGNATURE."""
    return re.sub(r"([a-z0-9])([A-Z])", r"\1_\2", name).upper()


def rows(text, table):
    """The rows of a table of the source."""
    found = re.search(rf"const {table}: .*? = &\w+! {{\n(.*?)\n}};", text, re.S)
    if not found:
        sys.exit(f"docs/make_header.py: {TABLES.name} has no table {table}")
    return found.group(1)


def faults(text):
    """The number and the name of each fault."""
    for table, prefix in PREFIXES.items():
        for number, name in re.findall(r'^    (\d+) "(\w+)"', rows(text, table), re.M):
            yield int(number), "RPKI_OK" if number == "0" else f"RPKI_{prefix}{upper(name)}"


def parts(text):
    """The number and the name of each part."""
    for number, name in enumerate(re.findall(r'^    "(\w+)"', rows(text, "PARTS"), re.M)):
        yield number, f"RPKI_FIELD_{upper(name)}"


def texts(text):
    """The number, the name and the sentence of each fault; of one that speaks of a part, the texts
    before and behind the part's name."""
    row = r'^    (\d+) "(\w+)" "([^"]*)"(?: "([^"]*)")?'
    for table in PREFIXES:
        for number, name, before, behind in re.findall(row, rows(text, table), re.M):
            has_part = re.search(rf'^    {number} "\w+" "[^"]*" "', rows(text, table), re.M)
            yield int(number), name, before, behind if has_part else None


FIELD_TEXTS = "#define RPKI_EACH_FIELD("
FAULT_TEXTS = "#define RPKI_EACH_FAULT("


def defined(header, macro, head, lines):
    """The header with these lines in a macro's definition, up to the empty line behind it."""
    begin = header.index(macro)
    end = header.index("\n\n", begin)
    told = [head, *(f"    {line}" for line in lines)]
    width = max(map(len, told)) + 1
    return header[:begin] + "\n".join([f"{it:<{width}}\\" for it in told[:-1]] + told[-1:]) + header[end:]


def with_texts(header, text):
    """The header with the names and sentences of faults."""
    fields = [f'X(number + {number}, name, before "{name}" behind)'
              for number, name in enumerate(re.findall(r'^    "(\w+)"', rows(text, "PARTS"), re.M))]
    faults = [f'X({number}, "{name}", "{before}")' if behind is None
              else f'RPKI_EACH_FIELD(X, {number}, "{name}", "{before}", "{behind}")'
              for number, name, before, behind in sorted(texts(text), key=lambda it: it[0])]
    made = defined(header, FIELD_TEXTS, f"{FIELD_TEXTS}X, number, name, before, behind)", fields)
    return defined(made, FAULT_TEXTS, f"{FAULT_TEXTS}X)", faults)


def comments(body):
    """What stands above each number of an enum, and what stands behind it."""
    above, behind, lines = {}, {}, []
    for line in body.split("\n"):
        item = re.match(r"    RPKI_\w+ = (\d+),?(?: +(/\*.*\*/))?$", line)
        if not item:
            lines.append(line)
            continue
        above[int(item.group(1))] = lines
        behind[int(item.group(1))] = item.group(2)
        lines = []
    return above, behind


def enum(header, name, items):
    """The header with these numbers in the enum."""
    begin = header.index(f"enum {name} {{\n") + len(f"enum {name} {{\n")
    end = header.index("\n};", begin)
    above, behind = comments(header[begin:end])
    lines = []
    for place, (number, item) in enumerate(items):
        lines += [(line, None) for line in above.get(number, [])]
        comma = "," if place + 1 < len(items) else ""
        lines.append((f"    {item} = {number}{comma}", behind.get(number)))
    return header[:begin] + "\n".join(aligned(lines)) + header[end:]


def aligned(lines):
    """Lines, with the comments behind neighbours below each other."""
    told = []
    for place, (line, comment) in enumerate(lines):
        if not comment:
            told.append(line)
            continue
        first = last = place
        while first > 0 and lines[first - 1][1]:
            first -= 1
        while last + 1 < len(lines) and lines[last + 1][1]:
            last += 1
        width = max(len(it) for it, _ in lines[first : last + 1])
        told.append(f"{line:<{width}} {comment}")
    return told


def documented(crate, kind, names):
    """The crate's source with these names in the last paragraph above a kind."""
    above = re.search(rf"((?:    ///.*\n)*)    {kind},\n", crate)
    paragraphs = re.sub(r"    /// ?", "", above.group(1)).split("\n\n")
    listed = ", ".join(f"`{name}`" for name in names[:-1]) + f" or `{names[-1]}`"
    joined = " ".join(paragraphs[-1].split())
    paragraphs[-1] = re.sub(r"Its name is (`\w+`(, | or )?)+\.", f"Its name is {listed}.", joined)
    paragraphs[-1] = "\n".join(textwrap.wrap(paragraphs[-1], 92)) + "\n"
    lines = "\n\n".join(paragraphs).split("\n")[:-1]
    told = "".join(f"    /// {line}".rstrip() + "\n" for line in lines)
    return crate[: above.start(1)] + told + crate[above.end(1) :]


PYTHON_HEAD = '''\
"""The numbers of faults, as enum rpki_fault of rpki.h has them. docs/make_header.py writes this."""

import enum


class FaultCode(enum.IntEnum):
    """The number of a fault, by its name in rpki.h without RPKI_. A fault of reading that speaks of a
    part (DECODE_MISSING, DECODE_DUPLICATE ..) is here without the part's number."""

'''

RUST_HEAD = '''\
//! The numbers of faults, as enum rpki_fault of rpki.h has them. docs/make_header.py writes this.

/// The number of a fault, by its name in rpki.h. A fault of reading that speaks of a part
/// (`DecodeMissing`, `DecodeDuplicate` ..) is here without the part's number.
#[derive(Clone, Copy, Debug, PartialEq, Eq, Hash, PartialOrd, Ord)]
#[cfg_attr(feature = "serde", derive(serde::Serialize, serde::Deserialize))]
#[cfg_attr(feature = "serde", serde(rename_all = "snake_case"))]
#[non_exhaustive]
#[repr(u32)]
pub enum FaultCode {
'''

RUST_MIDDLE = '''\
}

impl FaultCode {
    /// Returns the code with this number, if there is one.
    pub fn of(number: u32) -> Option<FaultCode> {
        ALL.iter().copied().find(|it| *it as u32 == number)
    }
}

const ALL: &[FaultCode] = &[
'''


def python_codes(codes):
    """The source of Python's enum of these numbers and names."""
    return PYTHON_HEAD + "".join(f"    {name[5:]} = {number}\n" for number, name in codes)


def rust_codes(codes):
    """The source of Rust's enum of these numbers and names."""
    named = [(number, name[5:].title().replace("_", "")) for number, name in codes]
    variants = "".join(f"    /// `RPKI_{name[5:]}` of rpki.h.\n    {rust} = {number},\n"
                       for (_, name), (number, rust) in zip(codes, named))
    listed = "".join(f"    FaultCode::{rust},\n" for _, rust in named)
    return f"{RUST_HEAD}{variants}{RUST_MIDDLE}{listed}];\n"


def main():
    text, header, crate = TABLES.read_text(), HEADER.read_text(), CRATE.read_text()
    made = enum(header, "rpki_field", list(parts(text)))
    made = enum(made, "rpki_fault", sorted(faults(text)))
    made = with_texts(made, text)
    told = crate
    for kind, table in KINDS.items():
        told = documented(told, kind, re.findall(r'^    \d+ "(\w+)"', rows(text, table), re.M))
    codes = [it for it in sorted(faults(text)) if it[0] != 0]
    files = {HEADER: made, CRATE: told, RUST_CODES: rust_codes(codes),
             PYTHON_CODES: python_codes(codes)}
    if sys.argv[1:] == ["--check"]:
        return 0 if all(it.exists() and it.read_text() == files[it] for it in files) else 1
    for file, written in files.items():
        file.write_text(written)
    return 0


if __name__ == "__main__":
    sys.exit(main())
