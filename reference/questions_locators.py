"""Random questions about trust anchor locators, sound ones and others."""

import base64

import faults
import random_paths as sound
import reference as ref
from answer_words import hexed
from questions_parts import a_uri, damaged

chance = sound.chance
BLANKS = [b' ', b'\t', b'\x0b', b'\x0c', b'\r', b'\xc2\xa0', b'\0']
ODD_LINES = [b'# behind a URI', b'#', b' ', b'\t', b'\r', b'\x0b',
             b'http://example.com/ta.cer', b'example.com/ta.cer',
             b'rsync://example.com/ta.cer ', b' https://example.com/ta.cer',
             b'https://example.com/a b', b'rsync://example.com', b'-']


def a_comment(rng):
    text = rng.choice([b'', b' a comment', b'#', b' \xc3\xbc', b'\t\x0c',
                       b' \xfc', b'\xed\xa0\x80', b'\xc0\xaf', b'\r', b' \0',
                       b' rsync://example.com/ta/ta.cer'])
    return b'#' + (text if text.isascii() or chance(rng, 0.5) else b' text')


def a_line(rng):
    """A line of the URI section."""
    if chance(rng, 0.08):
        return rng.choice(ODD_LINES)
    scheme = rng.choice(['rsync', 'https'])
    if chance(rng, 0.08):
        return a_uri(rng, scheme)
    uri = (sound.random_uri if scheme == 'rsync' else sound.random_https)(rng)
    return uri if len(uri) < 300 else uri[:60]


def a_key(rng):
    key = sound.random_key(rng)
    if chance(rng, 0.2):
        key = ref.Key(ref.P256, b'\4' + rng.randbytes(64))
    return key


def octets_of_key(rng, key):
    octets = sound.encoded_key(rng, key)
    draw = rng.random()
    if draw < 0.06:
        return octets + rng.choice([b'\0', b'\5\0', octets])
    return damaged(rng, octets) if draw < 0.12 else octets


def other_digits(rng, digits):
    """Base64 in a spelling that mustn't be read."""
    return rng.choice([
        digits.rstrip(b'='), digits + b'=', digits + b'====', digits[:-1],
        digits.replace(b'A', b'-', 1), digits + b'AAAA', b'*' + digits,
        digits.replace(b'=', b'A', 1), b'=' + digits, b'',
        digits[:4] + b'#' + digits[4:], loose_bits(rng, digits)])


def loose_bits(rng, digits):
    """The digits with a bit set in the last one that stands for nothing."""
    front = digits.rstrip(b'=')
    table = (b'ABCDEFGHIJKLMNOPQRSTUVWXYZabcdefghijklmnopqrstuvwxyz'
             b'0123456789+/')
    last = table.find(front[-1:]) ^ rng.choice([1, 2])
    return front[:-1] + table[last:last + 1] + digits[len(front):]


def lines_of_digits(rng, octets):
    digits = base64.b64encode(octets)
    if chance(rng, 0.12) and digits:
        digits = other_digits(rng, digits)
    width = rng.choice([64, 76, 1 + len(digits), 1 + len(digits), 7])
    lines = [digits[at:at + width] for at in range(0, len(digits), width)]
    for _ in range(rng.choice([0, 0, 0, 1, 2])):
        place = rng.randrange(len(lines) + 1)
        lines.insert(place, rng.choice([b'', b'', *BLANKS]))
    return [line + rng.choice(BLANKS[:5]) if chance(rng, 0.05) else line
            for line in lines]


def between(rng):
    """What stands between the URIs and the key: mostly one empty line."""
    if chance(rng, 0.9):
        return [b'']
    return rng.choice([[], [b'', b''], [b' '], [b'#'], [b'\r'], [b'', b'\r']])


def a_locator(rng, key):
    lines = [a_comment(rng) for _ in range(rng.choice([0, 0, 1, 2, 3]))]
    lines += [a_line(rng) for _ in range(rng.choice([0, 1, 1, 1, 2, 2, 3]))]
    lines += between(rng)
    lines += lines_of_digits(rng, octets_of_key(rng, key))
    ends = rng.choice([[b'\n'], [b'\n'], [b'\r\n'], [b'\n', b'\r\n'], [b'\r'],
                       [b'\n', b'\n', b'\n', b'\n\r']])
    octets = b''.join(line + rng.choice(ends) for line in lines)
    if chance(rng, 0.3):
        octets = octets.removesuffix(b'\n')
    return faults.change_octets(rng, octets) if chance(rng, 0.12) else octets


def another_key(rng, key):
    """A key that is the same, or nearly."""
    other = ref.P256 if key.format == ref.RSA else ref.RSA
    return rng.choice([
        key, key, key, ref.Key(other, key.bits), ref.Key(key.format, b'\0'),
        ref.Key(key.format, key.bits + b'\0'),
        ref.Key(key.format, key.bits[:-1])])


def locator_question(rng):
    key = a_key(rng)
    mode = rng.choice(['strict', 'lenient'])
    octets = a_locator(rng, key)
    asked = sound.encoded_key(rng, another_key(rng, key))
    return mode, f'locator {mode} {hexed(octets)} {hexed(asked)}'
