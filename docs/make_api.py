#!/usr/bin/env python3
"""Makes docs/api: a page for each public module of the crate `rpki`, from the facade and the sources,
and one for each crate that the facade doesn't re-export: the command's libraries and the programs.

    docs/make_api.py            writes the pages
    docs/make_api.py --check    writes nothing, and exits with 1 where a page isn't up to date

Both exit with 1 if a public name has no section, or a definition that a clause cites has no line.

A page has each public item of its module: the comment, the signature, the clauses of the contract,
and where the definitions stand that the clauses cite. The page of a program has each function with
a contract, since a program has no public ones. docs/api/definitions has a page for each crate with
the comment of each definition, file by file. Plain Python 3, standard library alone.
"""
import re
import sys
from pathlib import Path

ROOT = Path(__file__).resolve().parent.parent
CRATES = ROOT / "crates"
FACADE = CRATES / "rpki" / "src"
PAGES = ROOT / "docs" / "api"
# The page that docs/make_trusted.py makes.
HEADLINE = PAGES / "headline.md"
# Crates that the facade doesn't re-export, and of which nothing else shows the contracts.
LIBRARIES_BESIDE = ["rpki_document", "rpki_files", "rpki_text", "rpki_verdicts", "rpki_answers", "rpki_requests"]
PROGRAMS = ["rpki_command", "rpki_c"]
# Modules of the facade's crates that only the command and the library for C call.
MODULES_BESIDE = {"rpki_issuing": ["values", "wanted"]}
ITEM = re.compile(r"(\s*)pub (fn|struct|enum|trait|type|const) ([A-Za-z_0-9]+)")
ANY_FUNCTION = re.compile(r"(\s*)(pub(?:\(\w+\))? )?(?:extern \"C\" )?fn (\w+)")
IMPL = re.compile(r"impl(?:<[^{]*?>)? ([A-Z][A-Za-z0-9]*)(?:<.*>)?(?: where .*)? \{?$")
OF_TRAIT = re.compile(r"impl(?:<[^{]*?>)? ((?:fmt::)?[A-Z][A-Za-z]*(?:<[^{]*>)?) for ([A-Z][A-Za-z0-9]*)(?:<.*>)? ?(?:where .*)?\{?$")
# What an impl says to a proof that isn't a promise to a caller.
PRIVATE = {"view", "inverse", "inverse_ok", "laws", "Value", "invariant"}
# Views, which definitions have, and comparing, which the page of that name has.
ELSEWHERE = {"Model", "PartialEq", "Eq", "PartialOrd", "Ord", "Hash", "Clone"}
# A line at which a clause begins.
CLAUSE = re.compile(r"\s*(?:requires|ensures)\b")
# A definition that other files may name.
DEFINED = re.compile(r"(?:(?:abbrev|unfoldable|data|record) )*pub (?:(?:abbrev|unfoldable|data|record) )*(\S+)")
IMPORT = re.compile(r"^(?:pub )?use Rattle\.(rpki_\w+)\.specs\.([\w.]+?)(?=\.\{| as |$|\s)", flags=re.M)
# What may stand before a definition's name.
DEFINES = re.compile(r"(?:(?:abbrev|unfoldable|data|record|pub) )*")
FROM = re.compile(r"impl(?:<[^{]*?>)? (From<.*>|FromIterator<.*>|fmt::Display|Display) for ([A-Z][A-Za-z0-9]*)")


class Source:
    """A source file: its lines, and where the names of its clauses come from."""

    def __init__(self, path):
        self.path = path
        self.lines = path.read_text().split("\n")
        self.cited = {}
        for crate, module, names in re.findall(
            r"ghost use Rattle\.(rpki_\w+)\.specs\.([\w.]+)\.\{([^}]*)\}", "\n".join(self.lines)
        ):
            for name in names.split(","):
                known, _, here = name.strip().partition(" as ")
                self.cited[here or known] = (crate, module, known)

    def comment(self, at, marks=("///",)):
        """The paragraphs of the comment above a line, attributes passed over. A heading as `# Errors`
        becomes the beginning of its paragraph."""
        found = []
        at -= 1
        while at >= 0 and self.lines[at].strip().startswith((*marks, "#[")):
            if not self.lines[at].strip().startswith("#["):
                found.append(self.lines[at].strip().lstrip("/").strip())
            at -= 1
        paragraphs, heading = [[]], ""
        for line in reversed(found):
            if line.startswith("# "):
                heading = f"**{line[2:]}**:"
            if not line or line.startswith(("# ", "- ")):
                paragraphs.append([])
            if line and not line.startswith("# "):
                paragraphs[-1] += [heading, line] if heading else [line]
                heading = ""
        return [" ".join(lines) for lines in paragraphs if lines]

    def signature(self, at):
        """A function's head with its clauses, without its body. The braces of a clause are closed
        before the body's opens."""
        indent = len(self.lines[at]) - len(self.lines[at].lstrip())
        taken, open_braces = [], 0
        for line in self.lines[at:]:
            bare = line[indent:] if line[:indent].strip() == "" else line
            of_clause = open_braces or CLAUSE.match(bare)
            if not of_clause and bare.rstrip() in ("{", "{}", "{ }"):
                break
            if not of_clause and bare.endswith((" {", " {}")):
                taken.append(bare.rpartition(" {")[0])
                break
            taken.append(bare)
            if of_clause:
                open_braces += bare.count("{") - bare.count("}")
            elif bare.endswith(";"):
                break
        return taken

    def constant(self, at):
        """A constant's declaration, to its semicolon."""
        indent = len(self.lines[at]) - len(self.lines[at].lstrip())
        taken = []
        for line in self.lines[at:]:
            taken.append(line[indent:])
            if line.endswith(";"):
                break
        return taken

    def declaration(self, kind, at):
        """What a call or a constant of a type is shown by."""
        return self.constant(at) if kind == "const" else self.signature(at)

    def promises(self, at):
        """What an impl of a trait promises in its own words: its lines `ghost NAME = { .. };`."""
        taken, taking = [], False
        for line in self.lines[at + 1:]:
            if line == "}":
                break
            begun = re.match(r"    ghost (\w+) = ", line)
            taking = taking or bool(begun and begun.group(1) not in PRIVATE and "Prim.search" not in line)
            if taking:
                taken.append(line[4:])
            taking = taking and not line.rstrip().endswith("};")
        return taken

    def whole(self, at):
        """A declaration to its closing brace."""
        if self.lines[at].rstrip().endswith(";"):
            return [self.lines[at]]
        taken = []
        for line in self.lines[at:]:
            taken.append(line)
            if line in ("}", ");") or line.rstrip().endswith("{}"):
                break
        return taken


class Library:
    """The items of one library by name, each with its module, and the calls of its types."""

    def __init__(self, crate):
        self.crate = crate
        self.items, self.calls, self.modules, self.gives, self.promised = {}, {}, {}, {}, {}
        folder = CRATES / crate / "src"
        for path in sorted(folder.rglob("*.rt")):
            self.read(Source(path), "::".join(path.relative_to(folder).with_suffix("").parts))
        self.handed = {public: (lower, name) for lower, name, public in uses((folder / "lib.rt").read_text())}

    def item(self, path):
        """The item of a path inside the library; its modules may be those that hand it on."""
        modules, name = re.fullmatch(r"((?:\w+::)*)(\w+)", path).groups()
        inside = [found for found in self.items.get(name, []) if f"{found[0]}::".startswith(modules)]
        return inside[0][1:] if inside else None

    def read(self, source, module):
        owner = None
        for at, line in enumerate(source.lines):
            if line.startswith("impl"):
                head = IMPL.match(line)
                owner = head.group(1) if head else None
                of = FROM.match(line)
                if of:
                    self.gives.setdefault(of.group(2), []).append(of.group(1))
                trait = OF_TRAIT.match(line)
                if trait and trait.group(1) not in ELSEWHERE and source.promises(at):
                    self.promised.setdefault(trait.group(2), []).append((trait.group(1), source, at))
            elif line == "}":
                owner = None
            found = ITEM.match(line)
            if not found:
                continue
            indent, kind, name = found.groups()
            if not indent:
                self.items.setdefault(name, []).append((module, kind, source, at))
                self.modules.setdefault(module, []).append((kind, name, source, at))
            elif owner and kind in ("fn", "const"):
                self.calls.setdefault(owner, []).append((kind, name, source, at))


LIBRARIES = {}
# The definitions whose lines weren't found.
UNPLACED = set()


def library(crate):
    if crate not in LIBRARIES:
        LIBRARIES[crate] = Library(crate)
    return LIBRARIES[crate]


def declared(crate, name):
    """The library that declares what this one hands on under a name, and its name there."""
    while library(crate).item(name) is None and name in library(crate).handed:
        crate, name = library(crate).handed[name]
    return crate, name


def definition(crate, module, name):
    """Where a definition stands: a path from the root, with its line. One that a file hands on is
    looked for in the file that has it; a constructor stands inside its type."""
    path = CRATES / crate / "specs" / (module.replace(".", "/") + ".antt")
    if not path.exists():
        return None
    text = path.read_text()
    handed = re.search(r"^pub use Rattle\.(rpki_\w+)\.specs\.([\w.]+)\.\{[^}]*\b" + re.escape(name) + r"\b[^}]*\}",
                       text, flags=re.M)
    if handed:
        return definition(*handed.groups(), name)
    wanted = re.compile(DEFINES.pattern + r"pub " + DEFINES.pattern + re.escape(name) + r"\b")
    inside = re.compile(r"  (?:  )?(?:\w+ )*" + re.escape(name) + r" (?:\w+ )*:")
    for line_is in (wanted, inside):
        for number, line in enumerate(text.split("\n"), 1):
            if line_is.match(line):
                return f"{path.relative_to(ROOT)}#L{number}"
    UNPLACED.add(f"{name} in {path.relative_to(ROOT)}")
    return str(path.relative_to(ROOT))


def links(page, source, text):
    """The definitions that a text cites, as links from a page."""
    up = "../" * len(page.relative_to(ROOT).parent.parts)
    found = []
    for word in dict.fromkeys(re.findall(r"[A-Za-z_][A-Za-z_0-9]*", text)):
        if word in source.cited:
            place = definition(*source.cited[word])
            if place:
                found.append(f"[`{word}`]({up}{place})")
    return found


def wrapped(text, width=100):
    lines, line = [], ""
    for word in text.split():
        if line and len(line) + 1 + len(word) > width:
            lines.append(line)
            line = word
        else:
            line = f"{line} {word}" if line else word
    return lines + [line] if line else lines


def entry(page, title, source, at, code, level, marks=("///",)):
    out = [f"{'#' * level} {title}", ""]
    for paragraph in source.comment(at, marks):
        if paragraph.startswith("- "):
            first, *rest = wrapped(paragraph, 98)
            out[-1:] = ([""] if not out[-2].startswith(("- ", "  ")) else []) + [first] + [f"  {line}" for line in rest] + [""]
        else:
            out += wrapped(paragraph) + [""]
    out += ["```rust"] + code + ["```", ""]
    cited = links(page, source, "\n".join(code))
    if cited:
        out += wrapped("Definitions: " + ", ".join(cited)) + [""]
    return out


def is_public(trait, home):
    """Whether callers can name a trait: a library's own is one that the facade hands on."""
    name = re.match(r"(?:\w+::)*(\w+)", trait).group(1)
    own = {crate for crate, lib in LIBRARIES.items()
           if any(kind == "trait" for _, kind, _, _ in lib.items.get(name, []))}
    return not own or any(crate in own and path.rpartition("::")[2] == name for crate, path in home)


def of_item(page, crate, name, public, home):
    lib = library(crate)
    if lib.item(name) is None:
        return None
    kind, source, at = lib.item(name)
    name = name.rpartition("::")[2]
    code = source.signature(at) if kind == "fn" else shown(source, kind, at)
    out = entry(page, f"`{public}`", source, at, code, 2)
    gives = [f"`{what}`" for what in lib.gives.get(name, [])]
    if gives:
        out += wrapped("Implements " + ", ".join(gives) + ".") + [""]
    for trait, where, line in lib.promised.get(name, []):
        if not is_public(trait, home):
            continue
        code = [where.lines[line].rstrip(" {")] + where.promises(line)
        out += entry(page, f"`{trait}` of `{public}`", where, line, code, 3)
    for kind, call, where, line in lib.calls.get(name, []):
        out += entry(page, f"`{public}::{call}`", where, line, where.declaration(kind, line), 3)
    return out


def shown(source, kind, at):
    """A type as a caller sees it: fields that aren't public are left out."""
    whole = source.whole(at)
    if kind != "struct" or len(whole) == 1:
        return whole
    inside = [line for line in whole[1:-1] if line.strip().startswith("pub ")]
    hidden = len(inside) < len([line for line in whole[1:-1] if line.strip() and "//" not in line])
    return [whole[0]] + inside + (["    // private"] if hidden else []) + [whole[-1]]


def of_module(page, crate, module, public):
    out = []
    for kind, name, source, at in library(crate).modules.get(module, []):
        code = source.signature(at) if kind == "fn" else shown(source, kind, at)
        out += entry(page, f"`{public}::{name}`", source, at, code, 2)
    return out


def uses(text):
    """The names that a file hands on of libraries: crate, path inside it, public name."""
    for crate, modules, rest in re.findall(r"pub use (rpki_\w+)::((?:\w+::)*)([^;]+);", text):
        for part in re.sub(r"[{}]", "", rest).split(","):
            name, _, public = part.strip().partition(" as ")
            if name:
                yield crate, modules + name, public or name


def homes():
    """The page of each item: the deepest that hands it on."""
    found = {}
    for path in sorted(FACADE.rglob("*.rt"), key=lambda path: (len(path.parts), path)):
        page = page_of(path)
        for crate, name, public in uses(path.read_text()):
            found[declared(crate, name)] = (page, public)
    return found


def page_of(path):
    parts = list(path.relative_to(FACADE).with_suffix("").parts)
    return PAGES / ("/".join(["rpki"] if parts == ["lib"] else parts) + ".md")


def pages(missing):
    """The pages; a public name that gets no section is added to what is missing."""
    home = homes()
    for path in sorted(FACADE.rglob("*.rt")):
        parts = list(path.relative_to(FACADE).with_suffix("").parts)
        module = "::".join(["rpki"] + ([] if parts == ["lib"] else parts))
        page = page_of(path)
        text = path.read_text()
        head = " ".join(line[3:].strip() for line in text.split("\n") if line.startswith("//!"))
        out = [f"# `{module}`", ""] + wrapped(head) + [""]
        out += ["Made by `docs/make_api.py` from the sources; edit those.", ""]
        body = []
        for crate, name, public in uses(text):
            crate, name = declared(crate, name)
            at, there = home[crate, name]
            if at != page:
                body += [f"- `{public}`: [here]({at.relative_to(page.parent)})"]
                continue
            sections = of_item(page, crate, name, public, home) or of_module(page, crate, name, public)
            if not sections:
                missing.append(f"{module}::{public}")
            body += sections
        if body:
            yield page, module, head, "\n".join(out + body).rstrip() + "\n"


def contracts(source, is_program):
    """The functions of a file that its page has, each with its name and line."""
    owner = None
    for at, line in enumerate(source.lines):
        if line.startswith("impl"):
            head = IMPL.match(line)
            owner = head.group(1) if head else None
        elif line == "}":
            owner = None
        found = ANY_FUNCTION.match(line)
        if not found or found.group(1) and not owner:
            continue
        public = (found.group(2) or "").strip() == "pub"
        if (public or is_program) and any("ensures" in part for part in source.signature(at)):
            yield f"{owner}::{found.group(3)}" if found.group(1) else found.group(3), at


def of_crate(crate):
    """The page of a crate that the facade doesn't re-export, with what each of its functions promises."""
    page, folder = PAGES / "crates" / f"{crate}.md", CRATES / crate / "src"
    root = next(path for path in (folder / "lib.rt", folder / "main.rt") if path.exists())
    about = [line[3:].strip() for line in root.read_text().split("\n") if line.startswith("//!")]
    head = " ".join(about[:about.index("")] if "" in about else about)
    if crate in MODULES_BESIDE:
        head = "The modules that only the command and the library for C call."
    out = [f"# `{crate}`", ""] + wrapped(head) + [""]
    out += ["Made by `docs/make_api.py` from the sources; edit those.", ""]
    for path in sorted(folder.rglob("*.rt")):
        parts = path.relative_to(folder).with_suffix("").parts
        if crate in MODULES_BESIDE and parts[0] not in MODULES_BESIDE[crate]:
            continue
        source, module = Source(path), "::".join(parts)
        body = []
        for name, at in contracts(source, crate in PROGRAMS):
            body += entry(page, f"`{module}::{name}`", source, at, source.signature(at), 3, ("///", "//"))
        for at, line in enumerate(source.lines):
            trait = OF_TRAIT.match(line)
            if trait and trait.group(1) not in ELSEWHERE and source.promises(at):
                code = [line.rstrip(" {")] + source.promises(at)
                body += entry(page, f"`{trait.group(1)}` of `{trait.group(2)}`", source, at, code, 3)
        if body:
            out += [f"## Module `{module}`", ""] + body
    return page, crate, head, "\n".join(out).rstrip() + "\n"


def of_definitions(crate):
    """The page of a crate's definitions: each file behind those that it names, with its comments."""
    folder, page = CRATES / crate / "specs", PAGES / "definitions" / f"{crate}.md"
    files = {"/".join(path.relative_to(folder).with_suffix("").parts): path for path in sorted(folder.rglob("*.antt"))}
    files.pop("Lib", None)
    order = []

    def visit(name):
        if name in order or name not in files:
            return
        for other, module in IMPORT.findall(files[name].read_text()):
            if other == crate and module.replace(".", "/") != name:
                visit(module.replace(".", "/"))
        if name not in order:
            order.append(name)

    for name in files:
        visit(name)
    up = "../" * len(page.relative_to(ROOT).parent.parts)
    out = [f"# Definitions of `{crate}`", "", "Made by `docs/make_api.py` from the sources; edit those.", ""]
    lines_in_all = 0
    for name in order:
        lines = files[name].read_text().split("\n")
        place = f"{up}{files[name].relative_to(ROOT)}"
        lines_in_all += len(lines) - 1
        head, body, comment = [], [], []
        for number, line in enumerate(lines, 1):
            if line.startswith("-- ") and not line.startswith("-- -"):
                comment.append(line[3:].strip())
                continue
            defined = DEFINED.match(line)
            if defined and defined.group(1) not in ("mod", "use"):
                text = f"- [`{defined.group(1)}`]({place}#L{number})" + (": " + " ".join(comment) if comment else "")
                first, *rest = wrapped(text, 98)
                body += [first] + [f"  {part}" for part in rest]
            elif comment and not head and not body:
                head = comment
            comment = []
        out += [f"## [{name}]({place})", "", f"{len(lines) - 1} lines. " + " ".join(head), ""]
        out[-2:-1] = wrapped(out[-2])
        out += body + [""] if body else []
    return page, len(order), lines_in_all, "\n".join(out).rstrip() + "\n"


def calls_of(page, text):
    """The calls and items of a page, each with its place."""
    for name in re.findall(r"^##+ `([\w:]+)`$", text, flags=re.M):
        yield name, f"{page.relative_to(PAGES)}#" + re.sub(r"[^\w]", "", name.lower())


def by_name(calls):
    """A line for each item, with the calls of a type behind it."""
    lines = {}
    for name, place in calls:
        owner, _, call = name.rpartition("::")
        if owner and owner[0].isupper():
            lines.setdefault(owner, []).append(f"[`{call}`]({place})")
        else:
            lines.setdefault(name, []).insert(0, f"[`{name}`]({place})")
    for name in sorted(lines, key=str.lower):
        first, *rest = lines[name]
        text = wrapped(first + (": " + ", ".join(rest) if rest else ""), 98)
        yield from [f"- {text[0]}"] + [f"  {line}" for line in text[1:]]


def main():
    made, calls, missing = {}, [], []
    index = ["# The public calls", "", "A page for each public module, with the contract of each call."]
    index += ["Made by `docs/make_api.py` from the sources; edit those.", "", "| Module | What it has |", "|---|---|"]
    for page, module, head, text in pages(missing):
        made[page] = text
        calls += calls_of(page, text)
        index.append(f"| [`{module}`]({page.relative_to(PAGES)}) | {head} |")
    index += ["", "Crates that the facade doesn't re-export:", "", "| Crate | What it is |", "|---|---|"]
    for crate in [*MODULES_BESIDE, *LIBRARIES_BESIDE, *PROGRAMS]:
        page, crate, head, text = of_crate(crate)
        made[page] = text
        index.append(f"| [`{crate}`]({page.relative_to(PAGES)}) | {head} |")
    index += ["", "Definitions, each with its comment. Files `F/Reading` only compute, and `F/Steps` serve proofs."]
    index += [f"[One page]({HEADLINE.name}) has what has to be believed for the headline.", ""]
    index += ["| Crate | Files | Lines |", "|---|---|---|"]
    for crate in re.findall(r"^(\w+)(?: staticlib)?:", (ROOT / "crates.txt").read_text(), flags=re.M):
        if any((CRATES / crate / "specs").glob("[!L]*.antt")) and not re.search("_tests|_vectors|_calls|_bench", crate):
            page, files, lines, text = of_definitions(crate)
            made[page] = text
            index.append(f"| [`{crate}`]({page.relative_to(PAGES)}) | {files} | {lines} |")
    index += ["", "## By name", ""]
    index += by_name(calls)
    made[PAGES / "README.md"] = "\n".join(index) + "\n"
    missing = [f"no section: {name}" for name in missing]
    missing += [f"no line: {name}" for name in sorted(UNPLACED)]
    for line in missing:
        print(line)
    if "--check" in sys.argv[1:]:
        stale = [page for page, text in made.items() if not page.exists() or page.read_text() != text]
        stale += [page for page in PAGES.rglob("*.md") if page not in made and page != HEADLINE]
        for page in stale:
            print(f"not up to date: {page.relative_to(ROOT)}")
        sys.exit(1 if stale or missing else 0)
    for page, text in made.items():
        page.parent.mkdir(parents=True, exist_ok=True)
        page.write_text(text)
    print(f"{len(made)} pages")
    sys.exit(1 if missing else 0)


if __name__ == "__main__":
    main()
