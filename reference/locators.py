"""Trust anchor locators (RFC 8630 2.2): URIs, and the key of a trust anchor."""

import base64
import binascii
import itertools
from typing import NamedTuple

from der import Cursor
from parts import Key, take_key
from refusals import DecodeError, LocatorError
from uris import is_https, is_rsync

WHITE_SPACE = b' \t\n\x0c\r'     # that of ASCII


class Locator(NamedTuple):
    uris: list
    key: Key


def lines_of(octets):
    """The lines, each without its LF or CRLF; the last one may have none."""
    *ended, rest = octets.split(b'\n')
    lines = [line.removesuffix(b'\r') for line in ended]
    return [*lines, rest] if rest else lines


def is_text(octets):
    try:
        octets.decode('utf-8')
    except UnicodeDecodeError:
        return False
    return True


def decode_base64(digits):
    """What base64 stands for (RFC 4648 4); None where another spelling does."""
    try:
        octets = base64.b64decode(digits)
    except binascii.Error:
        return None
    return octets if base64.b64encode(octets) == digits else None


def key_of(lines):
    digits = b'\n'.join(lines).translate(None, WHITE_SPACE)
    octets = decode_base64(digits)
    if octets is None:
        raise LocatorError('BadKey')
    cursor = Cursor(octets)
    try:
        key = take_key(cursor)
        cursor.finish()
    except DecodeError:
        raise LocatorError('BadKey') from None
    return key


def decode_locator(octets, strict=True):
    """The locator that a file is; the error is what is wrong first in it."""
    if strict and not is_text(octets):
        raise LocatorError('NoText')
    lines = list(itertools.dropwhile(lambda line: line.startswith(b'#'),
                                     lines_of(octets)))
    uris = list(itertools.takewhile(len, lines))
    if not all(is_rsync(uri) or is_https(uri) for uri in uris):
        raise LocatorError('BadUri')
    if len(uris) == len(lines):
        raise LocatorError('NoKey')
    if not uris:
        raise LocatorError('NoUri')
    return Locator(uris, key_of(lines[len(uris) + 1:]))
