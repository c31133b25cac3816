"""What an answer of the command says, once: lines, in which each value has its place in the JSON. The
text and the JSON of an answer are read off the same lines.

A line has a label and pieces: words that are in the text alone, and values. A value is in the text in
one form and in the JSON in another, at a place: the keys and the numbers that lead to it.
"""

import datetime
import json
import re
from typing import NamedTuple

COLUMN = 26
SEPARATORS = ':,>('


class Value(NamedTuple):
    """What is in the line, what is in the JSON, and where in it; of a place None it is in no JSON."""
    place: tuple
    said: str
    data: object


def escaped(text, signs=''):
    """The text by its bytes: visible ASCII as it is, without a backslash and these signs."""
    return ''.join(chr(it) if 32 <= it < 127 and chr(it) not in '\\' + signs else f'\\x{it:02X}'
                   for it in text.encode())


def at(place, key):
    return None if place is None else (*place, key)


def text(place, word):
    return Value(place, escaped(word), word)


def inner(place, word):
    """A text that more follows in its line."""
    return Value(place, escaped(word, SEPARATORS), word)


def visible(place, octets):
    """Octets as characters, in both."""
    said = ''.join(chr(it) if 32 <= it < 127 and it != 92 else f'\\x{it:02X}' for it in octets)
    return Value(place, said, said)


def word(place, said, data):
    return Value(place, said, data)


def count(place, number):
    return Value(place, str(number), number)


def flag(place, is_so):
    return Value(place, 'yes' if is_so else 'no', is_so)


def colons(octets):
    return octets.hex(':').upper()


def identifier(place, octets):
    return text(place, colons(octets))


def seconds(moment):
    """The seconds from 1970 on of a time; the calendar is the same each 400 years."""
    year, *rest = moment
    cycles = (year - 1) // 400 if year < 1 else 0
    its = datetime.datetime(year - 400 * cycles, *rest)
    return int((its - datetime.datetime(1970, 1, 1)).total_seconds()) + cycles * 146097 * 86400


def time(place, moment):
    return Value(place, '%04d-%02d-%02dT%02d:%02d:%02dZ' % tuple(moment), seconds(moment))


def capital(written):
    """JSON whose escapes have capital digits, but for those of control characters (RFC 8259 7 has both)."""
    return re.sub(r'\\(u[0-9a-f]{4}|.)', lambda it: '\\' + (
        f'u{it[1][1:].upper()}' if len(it[1]) == 5 and it[1] >= 'u0020' else it[1]), written)


def json_text(data):
    return capital(json.dumps(data, indent=2, sort_keys=True)) + '\n'


def json_line(data):
    return capital(json.dumps(data, separators=(',', ':'), sort_keys=True)) + '\n'


class Answer:
    """Lines, and the data that grow with them."""

    def __init__(self):
        self.lines, self.data = [], {}

    def put(self, place, data):
        """The data at a place: what leads to it is made where it isn't there yet."""
        its = self.data
        for key, following in zip(place, place[1:]):
            empty = [] if isinstance(following, int) else {}
            if isinstance(its, list):
                if key == len(its):
                    its.append(empty)
                its = its[key]
            else:
                its = its.setdefault(key, empty)
        if isinstance(its, list):
            assert place[-1] == len(its)
            its.append(data)
        else:
            its[place[-1]] = data

    def data_at(self, place):
        its = self.data
        for key in place:
            its = its[key]
        return its

    def keep(self, *values):
        """Values that are in no line."""
        for it in values:
            if it.place is not None:
                self.put(it.place, it.data)

    def array(self, place):
        """A list, which may stay empty."""
        self.put(place, [])

    def said(self, pieces):
        """What a line says."""
        self.keep(*(it for it in pieces if isinstance(it, Value)))
        return ''.join(it.said if isinstance(it, Value) else it for it in pieces)

    def head(self, label, *pieces):
        self.lines.append(f'{label}: {self.said(pieces)}')

    def line(self, label, *pieces):
        self.lines.append(f'{label}:'.ljust(COLUMN) + self.said(pieces))

    def further(self, *pieces):
        """A line more of the label above."""
        self.lines.append(' ' * COLUMN + self.said(pieces))

    def aside(self, say):
        """What is said is in no line."""
        lines, self.lines = self.lines, []
        say()
        self.lines = lines

    def text(self):
        return ''.join(f'{it}\n' for it in self.lines)

    def json(self):
        return json_text(self.data)

    def json_line(self):
        return json_line(self.data)
