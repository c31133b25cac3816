"""Names of certificates and lists as text, by RFC 4514."""

from __future__ import annotations

from collections.abc import Iterator
from typing import NamedTuple

# by the content of the identifier: the table of RFC 4514 3, and 2.31 of RFC 4519
_SHORT = {
    b"\x55\x04\x03": "CN",
    b"\x55\x04\x05": "serialNumber",
    b"\x55\x04\x06": "C",
    b"\x55\x04\x07": "L",
    b"\x55\x04\x08": "ST",
    b"\x55\x04\x09": "STREET",
    b"\x55\x04\x0a": "O",
    b"\x55\x04\x0b": "OU",
    bytes.fromhex("0992268993f22c640101"): "UID",
    bytes.fromhex("0992268993f22c640119"): "DC",
}

# the string types of X.520, by their tags
_CODECS = {
    0x0C: "utf-8",
    0x12: "ascii",
    0x13: "ascii",
    0x14: "latin-1",
    0x16: "ascii",
    0x1C: "utf-32-be",
    0x1E: "utf-16-be",
}


class Value(NamedTuple):
    """A value of DER: its first octet, its content, and all of it."""

    tag: int
    content: bytes
    der: bytes


def values(data: bytes) -> Iterator[Value]:
    """Gives the values of DER that stand one behind the other, all of which the library has read."""
    while data:
        at = 1
        if data[0] & 31 == 31:
            while data[at] & 128:
                at += 1
            at += 1
        length, at = data[at], at + 1
        if length >= 128:
            behind = at + length - 128
            length, at = int.from_bytes(data[at:behind], "big"), behind
        yield Value(data[0], data[at : at + length], data[: at + length])
        data = data[at + length :]


def dotted(content: bytes) -> str:
    """Returns the dotted-decimal form of an identifier."""
    arcs, arc = [], 0
    for octet in content:
        arc = arc << 7 | octet & 127
        if not octet & 128:
            arcs.append(arc)
            arc = 0
    first = min(arcs[0] // 40, 2)
    return ".".join(map(str, [first, arcs[0] - 40 * first, *arcs[1:]]))


def _escaped(text: str) -> str:
    """Escapes what RFC 4514 2.4 asks for, and what can't be printed, so that a name is one line."""

    def shown(at: int, it: str) -> str:
        at_end = at in (0, len(text) - 1)
        if it in '"+,;<>\\' or at_end and it == " " or at == 0 and it == "#":
            return "\\" + it
        if it.isprintable():
            return it
        return "".join(f"\\{octet:02X}" for octet in it.encode())

    return "".join(shown(at, it) for at, it in enumerate(text))


def _attribute(content: bytes) -> str:
    kind, value = values(content)
    name, codec = _SHORT.get(kind.content), _CODECS.get(value.tag)
    if name is None or codec is None:
        return f"{name or dotted(kind.content)}=#{value.der.hex().upper()}"
    try:
        return f"{name}={_escaped(value.content.decode(codec))}"
    except UnicodeError:
        return f"{name}=#{value.der.hex().upper()}"


def text_of(der: bytes) -> str:
    """Returns the text of a Name in DER: its parts stand from the last one to the first."""
    ((_, parts, _),) = values(der)
    texts = ("+".join(_attribute(it.content) for it in values(part)) for _, part, _ in values(parts))
    return ",".join(reversed([*texts]))
