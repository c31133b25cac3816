#!/usr/bin/env python3
"""Writes docs/TRUSTED.md, what has to be believed for each headline, docs/api/headline.md, the
definitions of one headline in reading order, and its two numbers in README.

    docs/make_trusted.py            writes the pages, and the numbers
    docs/make_trusted.py --check    writes nothing, and exits with 1 if one of them would change

It begins with the definitions that a headline's contracts cite, and follows names: a definition that
is reached reaches each definition whose name is a word of it, and each record that has a field which it
reads. Words are compared without regard to what is bound inside a definition, so the count is an upper
bound. Exits with 1 if a file imports a name that no file has. Plain Python 3, standard library alone.
"""
import re
import sys
from pathlib import Path

from make_api import CRATES, HEADLINE, ROOT, Source, wrapped

PAGE = ROOT / "docs" / "TRUSTED.md"
README = ROOT / "README.md"

RSA = ("rpki_keys/src/verifier.rt", "impl Verifier for RsaVerifier")
# A headline: its name, its calls, and where their contracts are. The verifier is one of the caller's
# choice, unless the headline names RSA's.
HEADLINES = [
    ("A path with real signatures, with CRLs as given, a TAL and names",
     "`judge`, `RsaVerifier`, `Crl::decode`, `GivenLists`, `Tal::read_named`, `test_anchor`, `first_unchained`",
     [RSA, ("rpki_keys/src/tal/tal.rt", "fn read_named"), ("rpki_crl/src/crl.rt", "fn decode"),
      ("rpki_path/src/names.rt", "fn first_unchained"), ("rpki_path/src/located.rt", "fn test_anchor"),
      ("rpki_path/src/revocation/given.rt", "impl<'l> RevocationSource for GivenLists<'l>"),
      ("rpki_path/src/judging.rt", "fn judge")]),
    ("A path with real signatures alone", "`validate_path`, `RsaVerifier`",
     [RSA, ("rpki_path/src/validating.rt", "fn validate_path")]),
    ("RSA alone", "`RsaVerifier`", [RSA]),
    ("A directory", "`Walk::from_anchor`, `RsaVerifier`", [RSA, ("rpki_folder/src/walk.rt", "fn from_anchor")]),
    ("Issuing", "`prepare`, `complete`, `prepare_list`, `complete_list`, `RsaVerifier`",
     [RSA, ("rpki_issuing/src/prepared.rt", "fn prepare"), ("rpki_issuing/src/completing.rt", "fn complete"),
      ("rpki_issuing/src/prepared_list.rt", "fn prepare_list"),
      ("rpki_issuing/src/prepared_list.rt", "fn complete_list")]),
    ("The C library's path", "`rpki_path_validate`", [("rpki_c/src/paths.rt", "fn rpki_path_validate")]),
]

HEAD = """\
# What has to be believed

This page is for readers of proofs. A proof shows that a function meets its contract. For each
headline you believe the definitions that its contracts cite, and the toolchain that checks the
proofs. The page is made by `docs/make_trusted.py`, which begins with the definitions in the contracts
and follows the names in each definition. A line counts if it is in such a definition or in the comment
above it. Names are compared by their letters alone, so the numbers are upper bounds.
"""

READING = """\
[The definitions of the first headline](api/headline.md) are on one page, each behind those that it
names. These are their files, each with how many of its lines are counted:
"""

TAIL = """\
## The views

Contracts see private types as numbers and lists, by lines `ghost view` in the code (`git grep
'ghost view' crates`) and by the files `specs/F/Views.antt`. No proof can say that a view is the right
one. Definitions also name enums of the code, as the kinds of certificates and the errors.

## The toolchain

- **The logic and its checker.** A proved crate has no hole and adds no axiom of logic. The gate also
  refuses a contract that no call can meet. A tactic only searches for a proof. The contracts of C
  functions that compiled code reaches are taken as they are written, and counted as axioms: the
  library for C reaches three, which allocate, resize and free memory.
- **The standard library and the ported crates** (`base64`, `bytes`, `hex`, `jiff_core`, `sha1`,
  `sha2`, `thiserror`; the command also `anyhow`, `json`, `serde_json`): their
  contracts are taken as the kit states them. SHA-1 and SHA-256 are theirs.
- **Compiling**: the kit's translation to LLVM, LLVM, the linker and the C library.
- **`HANDLES`** names what a program may reach beyond files, clock and memory: threads, waiting,
  sockets, other programs. This one may reach none.
- `rt ci` prints a line of `rattle` for each check, with `logic-built=trusted`, `libraries-built=trusted`
  and `statements=trusted`. These words are about the logic, the kit's libraries and the statements of the
  crates below. That step takes them as they were checked before, and doesn't check them again.

[docs/api](api/README.md) has every definition, crate by crate, and the laws. A proved program can
still run out of stack. How hard a signature is to forge is not a matter of proof.
[PROVED](PROVED.md) lists what is only tested, and what is neither.
"""

USE = re.compile(r"^(?:pub )?use (Rattle\.[\w.]+?)(?:\.\{([^}]*)\}|( as )\w+|\s*$)", flags=re.M)
HEADING = re.compile(r"(?:(?:abbrev|unfoldable|data|record|pub) )+(?!mod |use )(\S+)")
# A word of a definition: a field that is read, a name, or an operator.
WORD = re.compile(r"\.([A-Za-z_]\w*)|([A-Za-z_]\w*'*|[^\s\w(){}\[\],;.:λ→|\"'`]+)")


def plain(name):
    """A name as it is used: an operator without the places of its arguments."""
    return name.strip().replace("◌", "")


class Definition:
    """A definition of a file: its lines with the comment above it, and the names that it gives."""

    def __init__(self, file, lines):
        self.file, self.lines = file, lines
        self.code = [line for line in lines if not re.match(r"\s*(--|infix)", line)]
        heading = HEADING.match(self.code[0]) if self.code else None
        self.names = {plain(heading.group(1))} if heading else set()
        self.fields = set()
        inside = [found.group(1).split() for found in map(re.compile(r"  ([^:]+?) :").match, self.code[1:]) if found]
        if heading and "record" in heading.group(0).split():
            self.fields = {name for line in inside for name in line[1:]}
        elif heading and "data" in heading.group(0).split():
            self.names |= {plain(name) for line in inside for name in line}

    def reaches(self):
        """The definitions that this one names."""
        for field, name in WORD.findall("\n".join(self.code)):
            yield from self.file.scope.get(name, [])
            yield from self.file.records().get(field, [])
            yield from self.file.behind.get(field, [])


class File:
    """A file of definitions, and those below it."""

    known = {}

    def __init__(self, path):
        File.known[path] = self
        text = path.read_text()
        self.path, self.below, self.scope, self.behind, self.found = path, [], {}, {}, None
        blocks = [block.split("\n") for block in re.split(r"\n\s*\n", text.strip("\n"))]
        self.definitions = [made for made in (Definition(self, block) for block in blocks) if made.names]
        for made in self.definitions:
            for name in made.names:
                self.scope.setdefault(name, []).append(made)
        for module, names, renamed in USE.findall(text):
            lower = file_of(module)
            if lower:
                self.below.append(lower)
                self.take(lower, names)
            if lower and renamed:
                self.behind.update(lower.scope)

    def take(self, lower, names):
        """Names of a file below, each as it is called here."""
        for name in filter(None, map(str.strip, names.split(","))):
            known, _, here = name.partition(" as ")
            if plain(known) not in lower.scope:
                sys.exit(f"{self.path}: {lower.path} has no {known}")
            self.scope.setdefault(plain(here or known), []).extend(lower.scope[plain(known)])

    def all_below(self, seen):
        """This file behind those that it imports, each once."""
        if self not in seen:
            for file in self.below:
                file.all_below(seen)
            if self not in seen:
                seen.append(self)
        return seen

    def records(self):
        """The records here and below, by their fields."""
        if self.found is None:
            self.found = {}
            for file in self.all_below([]):
                for made in file.definitions:
                    for field in made.fields:
                        self.found.setdefault(field, []).append(made)
        return self.found


def file_of(module):
    """The file of a module of definitions, or None if it is no file of this repository."""
    parts = module.split(".")
    if len(parts) < 4 or not parts[1].startswith("rpki") or parts[2] != "specs":
        return None
    path = CRATES / parts[1] / "specs" / Path(*parts[3:])
    path = path.with_name(path.name + ".antt")
    return File.known.get(path) or (File(path) if path.exists() else None)


def cited(place, item):
    """The definitions that a contract cites: a function's clauses, or the promises of an impl."""
    source = Source(CRATES / place)
    wanted = re.compile(r"\s*(?:pub )?(?:extern \"C\" )?" + re.escape(item) + r"\b" if item.startswith("fn") else re.escape(item))
    at = next(at for at, line in enumerate(source.lines) if wanted.match(line))
    text = "\n".join(source.signature(at) if item.startswith("fn") else source.promises(at))
    for word in dict.fromkeys(re.findall(r"[A-Za-z_]\w*", text)):
        if word in source.cited:
            crate, module, name = source.cited[word]
            lower = file_of(f"Rattle.{crate}.specs.{module}")
            yield from lower.scope[plain(name)] if lower else []


def reached(contracts):
    """The definitions that contracts reach, file by file, each file behind those that it imports."""
    waiting, found, files = [made for place in contracts for made in cited(*place)], set(), []
    while waiting:
        made = waiting.pop()
        if made not in found:
            found.add(made)
            made.file.all_below(files)
            waiting += made.reaches()
    return {file: [made for made in file.definitions if made in found] for file in files
            if any(made in found for made in file.definitions)}


def count(definitions):
    return sum(len(made.lines) for made in definitions)


def total(files):
    """How many definitions there are in these files, and how many lines."""
    made = [made for definitions in files.values() for made in definitions]
    return len(made), count(made)


def lines_of(file):
    return len(file.path.read_text().splitlines())


def crate_of(file):
    return file.path.relative_to(CRATES).parts[0]


def by_crate(files):
    """The files by crate, from the ground up."""
    for crate in re.findall(r"^(\w+)(?: staticlib)?:", (ROOT / "crates.txt").read_text(), flags=re.M):
        inside = {file: made for file, made in files.items() if crate_of(file) == crate}
        if inside:
            yield crate, inside


def listed(files):
    """A line for each crate, with its files and how many of their lines are counted."""
    for crate, inside in by_crate(files):
        parts = []
        for file, made in inside.items():
            name = file.path.relative_to(CRATES / crate / "specs").with_suffix("")
            parts.append(f"[{name}](../{file.path.relative_to(ROOT)}) {count(made)}")
        yield f"- `{crate}`: " + ", ".join(parts)


def page(found):
    made = [HEAD, "| Headline | Contracts of | Definitions | Lines | Files | Lines of these files |", "|---|---|---|---|---|---|"]
    for (name, calls, _), files in zip(HEADLINES, found):
        definitions, lines = total(files)
        whole = sum(map(lines_of, files))
        made.append(f"| {name} | {calls} | {definitions} | {lines:,} | {len(files)} | {whole:,} |")
    made += ["", "## The first headline, in reading order", "", READING]
    made += listed(found[0])
    for (name, _, _), files in list(zip(HEADLINES, found))[1:]:
        more = {file: [one for one in inside if one not in found[0].get(file, [])] for file, inside in files.items()}
        more = {file: inside for file, inside in more.items() if inside}
        if more:
            made += ["", f"## {name}: beside these", ""]
            made += listed(more)
    return "\n".join(made) + "\n\n" + TAIL


def about(file):
    """The comment at the head of a file."""
    head = re.match(r"(?:-- .*\n)+", file.path.read_text())
    return " ".join(line[3:] for line in head.group(0).splitlines()) if head else ""


def text(found):
    """The page with the definitions of the first headline."""
    definitions, lines = total(found[0])
    out = ["# The definitions of the headline", ""]
    out += wrapped(f"What the contracts of {HEADLINES[0][1]} reach: {definitions} definitions, {lines:,} lines with "
                   "their comments. [TRUSTED](../TRUSTED.md) says how they are found, "
                   "[CONTRACTS](../CONTRACTS.md) how to read one.")
    out += ["", "Made by `docs/make_trusted.py` from the sources; edit those."]
    for crate, inside in by_crate(found[0]):
        out += ["", f"## `{crate}`"]
        for file, made in inside.items():
            name = file.path.relative_to(CRATES / crate / "specs").with_suffix("")
            out += ["", f"### [{name}](../../{file.path.relative_to(ROOT)})", "", *wrapped(about(file)), "", "```"]
            out += ["\n\n".join("\n".join(one.lines) for one in made), "```"]
    return "\n".join(out) + "\n"


def readme(found):
    """README with the numbers of the first headline."""
    definitions, lines = total(found[0])
    said = f"{definitions} definitions ({lines:,} lines"
    return re.sub(r"\d+ definitions \([\d,]+ lines", said, README.read_text())


def main():
    found = [reached(contracts) for _, _, contracts in HEADLINES]
    made = {PAGE: page(found), HEADLINE: text(found), README: readme(found)}
    if "--check" in sys.argv[1:]:
        stale = [path for path, now in made.items() if not path.exists() or path.read_text() != now]
        for path in stale:
            print(f"{path.relative_to(ROOT)} would change")
        sys.exit(1 if stale else 0)
    for path, now in made.items():
        path.write_text(now)


if __name__ == "__main__":
    main()
