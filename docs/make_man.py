#!/usr/bin/env python3
"""Makes docs/rpki.1.md and its like, the command's pages for a browser, from its manual pages docs/rpki.1 ..

    docs/make_man.py            writes the pages
    docs/make_man.py --check    writes nothing, and exits with 1 if a page isn't up to date

It knows the macros of mdoc(7) that the manual pages use, and tables of two or more columns (tbl(1)), and
stops at another macro. Plain Python 3, standard library alone.
"""
import re
import shlex
import sys
import textwrap
from pathlib import Path

ROOT = Path(__file__).resolve().parent.parent
MANUALS = sorted((ROOT / "docs").glob("rpki*.[1-9]"))
NAMES = {it.name for it in MANUALS}
COLUMNS = 100
ESCAPES = {r"\-": "-", r"\e": "\\", r"\&": "", r"\(dq": '"'}
CLOSING = set(".,;:?!)]")
# A font that is neither that of the text around it nor its end.
FONT = re.compile(r"\\f[BI](.*?)\\fR")
# Macros whose words are code, and what others have around theirs.
CODE = {"Ql", "Sq", "Cm", "Fl", "Ar", "Va", "Pa", "Nm"}
AROUND = {"Op": "[]", "Pq": "()", "Dq": '""'}
KNOWN = CODE | set(AROUND) | {"Xr"}


def plain(text):
    """The text without escapes."""
    return re.sub(r"\\(\(dq|.)", lambda it: ESCAPES[it.group(0)], text)


def join(parts):
    """Words side by side, where punctuation stands close."""
    out = ""
    for part in parts:
        space = out and not out.endswith("(") and not (set(part) <= CLOSING)
        out += (" " if space else "") + part
    return out


def code(words, is_bare):
    """Words as code, whose spaces end no line."""
    text = " ".join(words)
    return text if is_bare else f"`{text}`".replace(" ", "\0")


def linked(text):
    """The text, in which the names of the other manual pages are links."""
    return re.sub(r"(?<![\w-])(rpki[a-z-]*)\((\d)\)", lambda it: f"[{it.group(0)}]({it.group(1)}.{it.group(2)}.md)"
                  if f"{it.group(1)}.{it.group(2)}" in NAMES else it.group(0), text)


def styled(macro, words, is_bare):
    """The words of a macro: as code, or bare where all stands in a code block."""
    words = [plain(word) for word in words]
    if macro == "Xr":
        return linked(f"{words[0]}({words[1]})")
    if macro == "Fl":
        words = ["-" + word for word in words]
    if macro == "Ar":
        words = [word.upper() for word in words]
    return code(words or ["rpki"], is_bare)


def inline(words, is_bare=False):
    """What a line of macros prints."""
    if words and words[0] in AROUND:
        end = len(words)
        while set(words[end - 1]) <= CLOSING:
            end -= 1
        left, right = AROUND[words[0]]
        inner = next((at for at in range(1, end) if words[at] in AROUND), end)
        parts = [inline(words[1:inner], is_bare)] + ([inline(words[inner:end], is_bare)] if inner < end else [])
        return join([left + " ".join(parts) + right, *words[end:]])
    parts, macro, taken = [], None, []

    def close():
        if taken or macro == "Nm":
            parts.append(styled(macro, taken, is_bare))

    for word in words:
        if word in KNOWN:
            close()
            macro, taken = word, []
        elif set(word) <= CLOSING | {"|"}:
            # behind a bar or a comma the macro goes on
            close()
            parts.append(word)
            macro, taken = (macro if macro != "Nm" else None), []
        elif macro:
            taken.append(word)
        else:
            parts.append(plain(word))
    close()
    return join(parts)


def wrap(parts, **how):
    """Lines that leave room for the margins of an item inside an item."""
    return textwrap.wrap(
        join(parts), COLUMNS - 4, break_long_words=False, break_on_hyphens=False, **how
    )


def split(line):
    """The words of a line, where quotes keep several together."""
    kept = line.replace("\\", "\1").replace("'", "\2")
    return [word.replace("\1", "\\") for word in shlex.split(kept)]


class Reader:
    """Reads the lines of the manual page into blocks of Markdown, each a list of lines."""

    def __init__(self, name, lines):
        self.name = name
        self.lines = [it for it in lines if it[:3] not in ('.\\"', '\'\\"')]
        self.at = 0

    def blocks(self, end=()):
        """The blocks up to a line with one of these macros."""
        found, words = [], []

        def close():
            if words:
                found.append(wrap(words))
                words.clear()

        while self.at < len(self.lines):
            line = self.lines[self.at]
            macro, _, rest = line[1:].partition(" ") if line.startswith(".") else ("", "", "")
            if macro in end:
                break
            self.at += 1
            if not macro:
                words.append(plain(line))
            elif macro in ("Dd", "Dt", "Os"):
                continue
            elif macro in ("Sh", "Ss"):
                close()
                title = rest.capitalize() if macro == "Sh" and rest != "JSON" else rest
                found.append([("## " if macro == "Sh" else "### ") + title])
                if rest == "SYNOPSIS":
                    found.append(self.synopsis())
            elif macro == "Nd":
                words[-1] += ":"
                words.append(rest)
            elif macro == "Pp":
                close()
            elif macro == "Bl":
                close()
                found.append(self.items())
            elif macro == "TS":
                close()
                found.append(self.table())
            elif macro in ("Bd", "Dl"):
                close()
                found.append(self.display() if macro == "Bd" else ["    " + plain(rest)])
            elif macro in KNOWN:
                words.append(inline(split(line[1:])))
            else:
                sys.exit(f"docs/make_man.py: {self.name} has the unknown macro {macro}")
        close()
        return found

    def synopsis(self):
        """Each form of the command, as code."""
        forms = []
        while not self.lines[self.at].startswith(".Sh"):
            words = split(self.lines[self.at][1:])
            if words[0] == "Nm":
                forms.append([])
            forms[-1].append(inline(words, True).replace(" ", "\0"))
            self.at += 1
        return [
            "    " + it
            for form in forms
            for it in wrap(form, subsequent_indent="        ")
        ]

    def display(self):
        found = []
        while self.lines[self.at] != ".Ed":
            found.append("    " + plain(self.lines[self.at]))
            self.at += 1
        self.at += 1
        return found

    def table(self):
        """A table: a line with the form of its columns, then a line for each row, of which a cell may go
        over several."""
        self.at += 1
        rows = []
        while self.lines[self.at] != ".TE":
            cells = self.lines[self.at].split("\t")
            self.at += 1
            if cells[-1] == "T{":
                end = self.lines.index("T}", self.at)
                cells[-1] = " ".join(self.lines[self.at:end])
                self.at = end + 1
            rows.append([linked(plain(FONT.sub("`\\1`" if rows else "\\1", it))).replace("|", "\\|") for it in cells])
        self.at += 1
        rows.insert(1, ["---"] * len(rows[0]))
        return ["| " + " | ".join(it) + " |" for it in rows]

    def items(self):
        """A list: a line for each item, its tag before its text."""
        found = []
        while self.lines[self.at] != ".El":
            tag = split(self.lines[self.at][4:])
            self.at += 1
            blocks = self.blocks(("It", "El"))
            if tag:
                head = inline(tag) if tag[0] in KNOWN else code(tag, False)
                head = head.replace("` `", "\0") + (":" if blocks else "")
                blocks[:1] = [wrap([head] + (blocks[0] if blocks else []))]
            text = "\n\n".join("\n".join(it) for it in blocks)
            found.append("- " + textwrap.indent(text, "  ")[2:])
        self.at += 1
        # items of several blocks stand apart
        return (("\n\n" if "\n\n" in "".join(found) else "\n").join(found)).split("\n")


def page(manual):
    """The page of a manual page, in Markdown."""
    blocks = Reader(manual.name, manual.read_text().splitlines()).blocks()
    made = f"Made from the manual page [{manual.name}]({manual.name}) by `docs/make_man.py`."
    title = f"# {manual.stem}({manual.suffix[1:]})"
    text = "\n\n".join("\n".join(it) for it in [[title], [made], *blocks]) + "\n"
    return text.replace("\0", " ").replace("\2", "'")


def main():
    wrong = []
    for manual in MANUALS:
        place, text = manual.with_name(manual.name + ".md"), page(manual)
        if "--check" not in sys.argv[1:]:
            place.write_text(text)
        elif not place.exists() or place.read_text() != text:
            wrong.append(place.name)
    if wrong:
        sys.exit(f"{', '.join(wrong)}: not up to date: docs/make_man.py writes it")


if __name__ == "__main__":
    main()
