#!/usr/bin/env python3
"""Makes docs/path.svg (a path, its CRLs, indices and resources) and docs/proof.svg (what is proved of
what, and what has to be believed).

    docs/make_pictures.py            writes both
    docs/make_pictures.py --check    writes nothing, and exits with 1 if one would change

Plain Python 3, standard library alone.
"""
import sys
from pathlib import Path
from xml.sax.saxutils import escape

DOCS = Path(__file__).resolve().parent
FILLS = {"cert": "#e8f0fe", "list": "#fef3e0", "code": "#eaf7ea", "base": "#f3f3f3", "none": "#ffffff"}


class Picture:
    """Boxes, arrows and texts on a white ground."""

    def __init__(self, width, height, title):
        self.parts = [
            f'<svg xmlns="http://www.w3.org/2000/svg" viewBox="0 0 {width} {height}" width="{width}" '
            f'height="{height}" font-family="sans-serif" font-size="12">',
            f"<title>{escape(title)}</title>",
            '<defs><marker id="tip" viewBox="0 0 8 8" refX="7" refY="4" markerWidth="7" markerHeight="7" '
            'orient="auto"><path d="M0 0 L8 4 L0 8 z" fill="#444"/></marker></defs>',
            f'<rect width="{width}" height="{height}" fill="#ffffff"/>',
        ]

    def text(self, x, y, said, bold=False, anchor="start", colour="#222"):
        weight = ' font-weight="bold"' if bold else ""
        self.parts.append(f'<text x="{x}" y="{y}" text-anchor="{anchor}" fill="{colour}"{weight}>{escape(said)}</text>')

    def box(self, x, y, width, height, kind, head, *lines):
        self.parts.append(f'<rect x="{x}" y="{y}" width="{width}" height="{height}" rx="6" '
                          f'fill="{FILLS[kind]}" stroke="#667"/>')
        self.text(x + 10, y + 20, head, bold=True)
        for number, line in enumerate(lines, 1):
            self.text(x + 10, y + 20 + 17 * number, line)

    def arrow(self, x1, y1, x2, y2, said="", x=None, y=None):
        self.parts.append(f'<line x1="{x1}" y1="{y1}" x2="{x2}" y2="{y2}" stroke="#444" stroke-width="1.4" '
                          'marker-end="url(#tip)"/>')
        if said:
            self.text(x if x is not None else (x1 + x2) / 2 + 8, y if y is not None else (y1 + y2) / 2 + 4, said, colour="#444")

    def end(self):
        return "\n".join([*self.parts, "</svg>"]) + "\n"


def path_picture():
    """Four certificates from the trust anchor down, with the CRL that each CA signed."""
    picture = Picture(860, 490, "A path, with its CRLs, indices and resources")
    rows = [
        ("0", "trust anchor", "lists 10.0.0.0/8, AS 64500-64599", "holds what it lists"),
        ("1", "CA", "lists 10.1.0.0/16, AS 64500-64510", "holds what it lists"),
        ("2", "CA", "lists 10.1.2.0/24, inherits AS numbers", "holds 10.1.2.0/24, AS 64500-64510"),
        ("3", "end entity", "lists 10.1.2.0/25", "holds 10.1.2.0/25"),
    ]
    picture.text(20, 24, "index", bold=True)
    picture.text(90, 24, "certificate", bold=True)
    picture.text(500, 24, "CRL of its key", bold=True)
    for place, (index, kind, lists, holds) in enumerate(rows):
        y = 40 + 106 * place
        picture.text(38, y + 38, index, bold=True, anchor="middle")
        picture.box(80, y, 290, 70, "cert", kind, lists, holds)
        if place < 3:
            picture.arrow(225, y + 70, 225, y + 104, "signs, and is the issuer of", 235, y + 92)
            picture.box(490, y, 240, 70, "list", f"CRL of {index}", "newest number that has begun,", "not past its nextUpdate")
            picture.arrow(370, y + 24, 488, y + 24, "signs", 408, y + 18)
            picture.arrow(600, y + 70, 376, y + 130, f"doesn't list {rows[place + 1][0]}", 520, y + 104)
    picture.text(80, 450, "A TAL names the key of index 0.")
    picture.text(80, 470, "A path holds what its anchor lists and every later certificate lists or inherits.")
    return picture.end()


def proof_picture():
    """What stands on what: from bytes to the verdict, and what has to be believed below it."""
    picture = Picture(860, 430, "From bytes to a verdict, and what has to be believed")
    steps = [
        ("bytes", "what a file holds"),
        ("Format", "one description of an", "ASN.1 type, with a law"),
        ("IsCertificate", "these bytes are this", "certificate (RFC 5280)"),
        ("IsValidPath", "profiles, checks, CRLs", "hold down the path"),
    ]
    for place, (head, *lines) in enumerate(steps):
        x = 20 + 212 * place
        picture.box(x, 60, 186, 70, "cert", head, *lines)
        if place < 3:
            picture.arrow(x + 186, 95, x + 210, 95)
    picture.text(20, 40, "Definitions: relations in the standards' words (a reader believes these)", bold=True)
    code = [("Cursor", "a span of the buffer"), ("readers, writers", "one clause, both ways"),
            ("Cert, inspect, verify", "first error, by name"), ("validate_path, judge", "Ok if and only if valid")]
    for place, (head, line) in enumerate(code):
        x = 20 + 212 * place
        picture.box(x, 190, 186, 52, "code", head, line)
        picture.arrow(x + 93, 190, x + 93, 132, "proved" if place else "", x + 101, 165)
        if place < 3:
            picture.arrow(x + 186, 216, x + 210, 216)
    picture.text(20, 180, "Code")
    picture.text(20, 284, "Trusted base: nothing here is proved", bold=True)
    base = [("logic and checker", "no axiom, no hole"), ("std and ported crates", "their contracts"),
            ("compiler and LLVM", "linker, C library"), ("views", "types as contracts see")]
    for place, (head, line) in enumerate(base):
        picture.box(20 + 212 * place, 296, 186, 52, "base", head, line)
    picture.text(20, 380, "Tests compare the definitions with OpenSSL, rpki-client and an independent reader in Python.")
    picture.text(20, 402, "TRUSTED.md counts the files of definitions for each headline.")
    return picture.end()


def main():
    made = {DOCS / "path.svg": path_picture(), DOCS / "proof.svg": proof_picture()}
    if "--check" in sys.argv[1:]:
        stale = [page for page, text in made.items() if not page.exists() or page.read_text() != text]
        for page in stale:
            print(f"not up to date: {page.name}")
        sys.exit(1 if stale else 0)
    for page, text in made.items():
        page.write_text(text)


if __name__ == "__main__":
    main()
