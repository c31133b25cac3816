"""How questions of the vectors are taken apart, and values of their answers shown.

A question is a vector of words; HEX is octets in hexadecimal digits, `-` for
none; TEXT stands as it is, or is `octets:HEX`. The head of
`crates/rpki_vectors/src/main.rt` lists the words.
"""

import reference as ref

GREATEST = (1 << 128) - 1


class Words:
    """The words of a question; a word that is absent is `-`."""

    def __init__(self, line):
        self.line, self.words = line, line.split()

    def at(self, place):
        return self.words[place] if place < len(self.words) else '-'

    def rest(self):
        """What stands behind the first space."""
        return self.line.partition(' ')[2]

    def named(self, name):
        """What stands behind `NAME=`, `none` where no word begins so."""
        found = [w.partition('=')[2] for w in self.words
                 if w.partition('=')[:2] == (name, '=')]
        return found[0] if found else 'none'

    def octets(self, place):
        return octets_of(self.at(place))

    def characters(self, place):
        return characters_of(self.at(place))

    def number(self, place):
        """A number in decimal digits, 0 where it has more than 32 bits."""
        number = decimal(self.at(place))
        return number if number < 1 << 32 else 0

    def small(self, place):
        number = decimal(self.at(place))
        return number if number < 1 << 8 else 0

    def signed(self, place):
        number = decimal(self.at(place))
        number = number if number < 1 << 31 else 0
        return -number if self.at(place).startswith('-') else number

    def octet(self, place):
        return hexadecimal(self.at(place)) & 255


def digit(character):
    return int(character, 16) if character in '0123456789abcdefABCDEF' else 0


def octets_of(word):
    digits = [digit(c) for c in word]
    return bytes(16 * a + b for a, b in zip(digits[::2], digits[1::2]))


def characters_of(word):
    if word.startswith('octets:'):
        return octets_of(word[len('octets:'):])
    return word.encode()


def decimal(word):
    number = 0
    for character in word.replace('-', ''):
        number = (10 * number + digit(character)) & GREATEST
    return number


def hexadecimal(word):
    number = 0
    for character in word:
        number = (16 * number + digit(character)) & GREATEST
    return number


def moment_of(word):
    """The moment YYYYMMDDhhmmss, None where there is none."""
    if len(word) < 14:
        return None
    cuts = (0, 4, 6, 8, 10, 12, 14)
    return ref.time_utc(*(decimal(word[a:b]) for a, b in zip(cuts, cuts[1:])))


# ------------------------------------------------------------ showing ---

def line(head, *fields):
    """An answer: its first word, then NAME=VALUE of each pair."""
    return ' '.join([head, *(f'{name}={value}' for name, value in fields)])


def refused(fault):
    return f'refused {fault}'


def yes(holds):
    return 'yes' if holds else 'no'


def hexed(octets):
    return octets.hex() or '-'


def text(octets):
    """Octets as text, in hexadecimal where they are none."""
    try:
        return octets.decode()
    except UnicodeDecodeError:
        return hexed(octets)


def uri(octets):
    return 'none' if octets is None else text(octets)


def identifier(octets):
    return 'none' if octets is None else hexed(octets)


def same(known, octets):
    """`same` where octets are some that are known."""
    return 'same' if octets == known else hexed(octets)


def again(asked, octets):
    """`same` where the question begins with what is written of its value."""
    return 'same' if octets and asked.startswith(octets) else hexed(octets)


def compared(first, other):
    return 'same' if first == other else f'[{other}]'


def serial(number):
    return hexed(ref.put_unsigned(number))


def time(moment):
    return ref.Cursor(ref.put_time(moment)).take_value(
        0x17 if 1950 <= moment[0] <= 2049 else 0x18).rest().decode()


def algorithm(has_null):
    return hexed(ref.put_algorithm(has_null))


def key(value):
    allowed = 'rpki:' if value.format == ref.RSA else 'router:'
    return allowed + hexed(value.bits)


def span(cursor):
    return '{}-{}'.format(*cursor.span())


def left(cursor):
    return 'left', span(cursor)


ADDRESSES, NUMBERS = 'addresses', 'asns'


def number_of(kind, word):
    if kind == ADDRESSES:
        return hexadecimal(word)
    return min(decimal(word), ref.AS_MAX)


def shown_set(kind, ranges):
    form = '{:x}-{:x}' if kind == ADDRESSES else '{}-{}'
    return ','.join(form.format(*block) for block in ranges) or '-'


def listed(kind, resources):
    if resources == ref.MISSING:
        return 'missing'
    if resources == ref.INHERIT:
        return 'inherited'
    return shown_set(kind, resources)


def blocks_of(kind, word):
    """The blocks LOW-HIGH,.. of a word, their ends in order."""
    if word in ('-', 'none'):
        return []
    pairs = [pair.split('-', 1) for pair in word.split(',')]
    return [tuple(sorted(number_of(kind, end) for end in (p[0], p[-1])))
            for p in pairs]


def resources_of(kind, word):
    if word == 'inherit':
        return ref.INHERIT
    return ref.blocks(blocks_of(kind, word))


def held(result):
    """The three sets of a certificate that was verified."""
    return line('ok', ('v4', shown_set(ADDRESSES, result.v4)),
                ('v6', shown_set(ADDRESSES, result.v6)),
                ('as', shown_set(NUMBERS, result.asn)))
