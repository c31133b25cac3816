"""The line program: lines of input, lines of output, exit status."""

from refusals import DecodeError, PathError
from der import Cursor, DEPTH
from values import serial_from_slice, time_from_digits
from profiles import DETACHED, EE
from lists import is_revoked, take_revoked
from paths import validate_path

INPUT_LIMIT = 1 << 24           # octets of input
HEX_DIGITS = b'0123456789abcdefABCDEF'
DONE, REFUSED, BAD_INPUT, RUN_FAULT = 0, 1, 2, 3


class BadInput(Exception):
    """The number of the first line that doesn't fit."""


def split_lines(data):
    """Lines end with LF; the last LF may be absent."""
    lines = data.split(b'\n')
    return lines[:-1] if lines[-1] == b'' else lines


def hex_word(word):
    """The octets of a word HEX, None for any other word."""
    if word == b'-':
        return b''
    if len(word) < 2 or len(word) % 2 or any(o not in HEX_DIGITS for o in word):
        return None
    return bytes.fromhex(word.decode('ascii'))


def read_revoked_line(line):
    words = line.split(b' ')
    if len(words) != 3 or words[0] != b'revoked':
        raise BadInput(1)
    octets, serial = hex_word(words[1]), hex_word(words[2])
    if octets is None or serial is None or serial_from_slice(serial) is None:
        raise BadInput(1)
    return octets, serial_from_slice(serial)


def run_revoked(lines):
    octets, serial = read_revoked_line(lines[0])
    if len(lines) > 1:
        raise BadInput(2)
    cursor = Cursor(octets)
    try:
        revoked = take_revoked(cursor)
        cursor.finish()
    except DecodeError as fault:
        return [f'refused decode {fault.name}'], REFUSED
    return ['yes' if is_revoked(revoked, serial) else 'no'], DONE


def read_moment_line(line):
    words = line.split(b' ')
    moment = time_from_digits(words[1]) if len(words) == 2 else None
    if words[0] != b'at' or moment is None:
        raise BadInput(1)
    return moment


def read_member_line(number, line, allowed):
    words = line.split(b' ')
    octets = hex_word(words[1]) if len(words) == 2 else None
    if words[0] not in allowed or octets is None:
        raise BadInput(number)
    return words[0].decode('ascii'), octets


def read_path_lines(lines):
    now = read_moment_line(lines[0])
    if len(lines) < 2 or lines[1] not in (b'strict', b'lenient'):
        raise BadInput(2)
    if len(lines) < 3:
        raise BadInput(3)
    members = [read_member_line(3, lines[2], (b'ta',))]
    for number, line in enumerate(lines[3:], 4):
        if members[-1][0] in (EE, DETACHED):
            raise BadInput(number)
        members.append(read_member_line(number, line,
                                        (b'ca', b'ee', b'detached')))
    return now, lines[1] == b'strict', members


def range_lines(result):
    def line(label, ranges, end):
        words = [f'{end(low)}-{end(high)}' for low, high in ranges] or ['none']
        return f'{label} ' + ' '.join(words)
    return [line('v4', result.v4, lambda n: f'{n >> 96:08x}'),
            line('v6', result.v6, lambda n: f'{n:032x}'),
            line('as', result.asn, str)]


def run_path(lines, depth):
    now, strict, members = read_path_lines(lines)
    head = ['stand-in signatures']
    try:
        result = validate_path(members, strict, now, depth=depth)
    except PathError as e:
        last = f'refused {e.index} {e.stage} {e.fault.name}'
        return head + [last], REFUSED
    return head + ['accepted'] + range_lines(result), DONE


def run_lines(lines, depth):
    if not lines:
        raise BadInput(1)
    if lines[0].split(b' ')[0] == b'revoked':
        return run_revoked(lines)
    return run_path(lines, depth)


def program(data, depth=DEPTH):
    """Standard output and exit status for standard input."""
    if len(data) > INPUT_LIMIT:
        return b'', RUN_FAULT
    try:
        printed, status = run_lines(split_lines(data), depth)
    except BadInput as bad:
        printed, status = [f'bad input {bad.args[0]}'], BAD_INPUT
    return ''.join(line + '\n' for line in printed).encode('ascii'), status
