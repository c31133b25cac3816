#!/usr/bin/env python3
"""Checks what pages say of the sources, and their links.

    docs/claims.py --check    prints each line that isn't so, and exits with 1 then

A claim of docs/PROVED.md is an item of a list, with at most 25 words and links to contracts behind
them. A link's text is `CALL` or `CALL:CLAUSE,CLAUSE`. The place that it names is there, and the call
has these clauses. The table of crates in docs/ARCHITECTURE.md has each crate of crates.txt and no
other, and the modules that it or a crate's README lists are there. What PROVED and CONTRACTS quote is in
the sources, line by line. Each link from a page to another file names a file, and a place that the file
has. Plain Python 3, standard library alone.
"""
import re
import sys
from pathlib import Path

ROOT = Path(__file__).resolve().parent.parent
DOCS = ROOT / "docs"
IMPL = re.compile(r"impl(?:<[^{]*?>)? (?:[\w:<>, ']+ for )?([A-Z]\w*)")
FUNCTION = re.compile(r"\s*(?:pub(?:\(\w+\))? )?(?:extern \"C\" )?fn (\w+)")
CLAUSE = re.compile(r"\s*ensures\*? (\w+) \{")
PROMISE = re.compile(r"\s+ghost (\w+) = \{")
LINK = re.compile(r"\[`(\w+(?:::\w+)*)(?::([\w,]+))?`\]\((api/[\w./-]+)#([^)]*)\)")
LONGEST = 25


def clauses():
    """The names of the clauses of each function, and of each type's functions together."""
    found = {}
    for path in sorted((ROOT / "crates").glob("*/src/**/*.rt")):
        if re.search(r"_tests|_vectors|_calls|_bench", path.relative_to(ROOT / "crates").parts[0]):
            continue
        owner = function = None
        for line in path.read_text().split("\n"):
            head = IMPL.match(line)
            if head:
                owner, function = head.group(1), None
            elif line == "}":
                owner = function = None
            named = FUNCTION.match(line)
            if named:
                function = named.group(1)
            label = CLAUSE.match(line) or PROMISE.match(line)
            for name in (function, owner, owner and function and f"{owner}::{function}"):
                if name and (named or label):
                    found.setdefault(name, set()).update([label.group(1)] if label else [])
    return found


def anchors(page):
    """The places of a page that a link may name: its headings."""
    heads = re.findall(r"^#+ (.*)$", page.read_text(), flags=re.M) if page.exists() else []
    return {re.sub(r"[^\w\- ]", "", head.lower()).replace(" ", "-") for head in heads}


def items(text):
    """The items of a page's lists, each on one line."""
    item = None
    for line in [*text.split("\n"), ""]:
        if item is not None and line.startswith("  "):
            item += " " + line.strip()
            continue
        if item is not None:
            yield item
        item = line[2:] if line.startswith("- ") else None


def wrong_claims(text):
    known, places = clauses(), {}
    for item in items(text):
        links = LINK.findall(item)
        said = re.sub(r" \((?:`[\w:]+`|\[[^()]*\]\([^)]*\)|, )+\)", "", item)
        if len(said.split()) > LONGEST:
            yield f"{len(said.split())} words: {said}"
        for call, labels, page, place in links:
            if page not in places:
                places[page] = anchors(DOCS / page)
            if place not in places[page]:
                yield f"`{call}`: no place {page}#{place}"
            name = next((name for name in (call, call.rpartition("::")[2]) if name in known), None)
            if not name and place not in (call.lower(), call.replace("::", "").lower()):
                yield f"`{call}`: no such call"
            for label in filter(None, labels.split(",")):
                if name and label not in known[name]:
                    yield f"`{call}`: no clause `{label}`"


def wrong_rows(text):
    """What the table of crates has otherwise than crates.txt and the files of src/."""
    crates = re.findall(r"^(\w+)(?: staticlib)?:", (ROOT / "crates.txt").read_text(), flags=re.M)
    rows = dict(re.findall(r"^\| \[?`(\w+)`.*\|(.*)\|$", text, flags=re.M))
    for crate in sorted(set(crates) ^ set(rows)):
        yield f"{crate}: in crates.txt or in the table of crates, and not in both"
    for crate in set(crates) & set(rows):
        files = (ROOT / "crates" / crate / "src").rglob("*.rt")
        modules = {path.stem for path in files} | set(crates)
        readme = ROOT / "crates" / crate / "README.md"
        listed = re.search(r"^## Modules\n(.*?)(?=^## |\Z)", readme.read_text() if readme.exists() else "", flags=re.M | re.S)
        named = listed.group(1).partition("Those of `rpki_calls`")[0] if listed else rows[crate]
        for name in re.findall(r"`([a-z]\w*)`", named):
            if name not in modules:
                yield f"{crate} {name}: no such module"


def wrong_quotes(text):
    """The quotes of a page that no source has, without regard to how deep they are indented."""
    sources = [path.read_text() for pattern in ("specs/**/*.antt", "src/**/*.rt") for path in ROOT.glob(f"crates/*/{pattern}")]
    for quote in re.findall(r"^```\w*\n(.*?)^```$", text, flags=re.M | re.S):
        lines = r"\n\s*".join(re.escape(line.strip()) for line in quote.strip().split("\n"))
        if not any(re.search(lines, source) for source in sources):
            yield f"no source has: {quote}"


def pages():
    """The pages that are written by hand, and those made of the sources beside docs/api."""
    for pattern in ("*.md", "docs/*.md", "crates/*/README.md", "bench/*.md", "callers/*/README.md", "reference/README.md"):
        yield from sorted(ROOT.glob(pattern))


def wrong_links(page):
    """The links of a page that lead to no file or place."""
    for target in re.findall(r"\]\(([^()\s]+)\)", page.read_text()):
        name, _, place = target.partition("#")
        if re.match(r"\w+:", name):
            continue
        file = (page.parent / name).resolve() if name else page
        if not file.exists():
            yield f"no file {target}"
        elif place and file.suffix == ".md" and place not in anchors(file):
            yield f"no place {target}"


def main():
    architecture = (DOCS / "ARCHITECTURE.md").read_text()
    layers = architecture[architecture.index("## Layers"):architecture.index("## A crate")]
    wrong = [f"PROVED.md: {line}" for line in wrong_claims((DOCS / "PROVED.md").read_text())]
    wrong += [f"ARCHITECTURE.md: {line}" for line in wrong_rows(layers)]
    for name in ("PROVED.md", "CONTRACTS.md"):
        wrong += [f"{name}: {line}" for line in wrong_quotes((DOCS / name).read_text())]
    for page in pages():
        wrong += [f"{page.relative_to(ROOT)}: {line}" for line in wrong_links(page)]
    for line in wrong:
        print(line)
    sys.exit(1 if wrong else 0)


if __name__ == "__main__":
    main()
