"""What is found where the reading of a certificate or of a revocation list stops.

The octets from the one on at which reading stops are compared with what the component there may be:
how it begins (RFC 5280 4.1, 5.1), the form of a value of DER (X.690 8.1, 10.1), and then the content
of serial numbers, versions, times and single extensions. Told is the first flaw, in this order.
"""

import places
from der import Cursor
from extensions import KINDS, kind_of, take_extension
from lists import CRL_KINDS
from refusals import DecodeError
from values import SERIAL_LIMIT, days_of_month

INTEGER, BIT_STRING, UTC_TIME, GENERALIZED_TIME, SEQUENCE = 0x02, 0x03, 0x17, 0x18, 0x30
LIST_TAG, CERTIFICATE_TAG = 0xA0, 0xA3

VALUES = {      # X.680 8.4, table 1
    0x01: 'a BOOLEAN', 0x02: 'an INTEGER', 0x03: 'a BIT STRING', 0x04: 'an OCTET STRING',
    0x05: 'a NULL', 0x06: 'an OBJECT IDENTIFIER', 0x0C: 'a UTF8String', 0x13: 'a PrintableString',
    0x17: 'a UTCTime', 0x18: 'a GeneralizedTime', 0x30: 'a SEQUENCE', 0x31: 'a SET',
    **{0xA0 + number: f'a value inside [{number}]' for number in range(4)}}


def openings(field, is_list):
    """The identifier octets with which a component may begin."""
    return {
        'the version': [INTEGER] if is_list else [0xA0],
        'the serial number': [INTEGER],
        'this update': [UTC_TIME, GENERALIZED_TIME],
        'next update': [UTC_TIME, GENERALIZED_TIME],
        'the extensions': [LIST_TAG if is_list else CERTIFICATE_TAG, SEQUENCE],
        'what follows the extensions': [],
        'the signature': [BIT_STRING],
    }.get(field, [SEQUENCE])


def content_of(octets, tag):
    """The content of the value with this identifier octet at the front, None where there is none."""
    try:
        return Cursor(octets).take_value(tag).rest()
    except DecodeError:
        return None


def of_serial(octets):
    content = content_of(octets, INTEGER)
    if content == b'':
        return 'an INTEGER without bytes'
    if content[0] >= 0x80:
        return 'a negative number'
    if len(content) > 1 and content[0] == 0 and content[1] < 0x80:
        return "a number that isn't in the shortest form"
    is_large = int.from_bytes(content, 'big') >= SERIAL_LIMIT
    return 'a number of more than 20 bytes' if is_large else None


def of_version(octets, is_list):
    content = content_of(octets if is_list else content_of(octets, 0xA0), INTEGER)
    known = {b'\0': 'version 1', **({} if is_list else {b'\1': 'version 2'})}
    if content is None or content == (b'\1' if is_list else b'\2'):
        return None
    return known.get(content, 'another number')


def numbers_of(octets):
    """The numbers of the time at the front, and the octets behind it; None where it isn't spelled."""
    for tag, digits in ((UTC_TIME, 12), (GENERALIZED_TIME, 14)):
        text = content_of(octets, tag)
        if text is not None and len(text) == digits + 1 and text[-1:] == b'Z' and \
                all(0x30 <= octet <= 0x39 for octet in text[:-1]):
            if tag == UTC_TIME:         # RFC 5280 4.1.2.5.1
                text = (b'19' if text[:1] >= b'5' else b'20') + text
            behind = Cursor(octets)
            behind.take_value(tag)
            cuts = (0, 4, 6, 8, 10, 12, 14)
            return [int(text[a:b]) for a, b in zip(cuts, cuts[1:])], behind.rest()
    return None


def of_time(octets):
    found = numbers_of(octets)
    if found is None:
        return 'no UTCTime YYMMDDhhmmssZ and no GeneralizedTime YYYYMMDDhhmmssZ'
    year, month, day, hour, minute, second = found[0]
    if not 1 <= month <= 12:
        return 'a month that is 0 or above 12'
    if not 1 <= day <= days_of_month(year, month):
        return "a day that the month doesn't have"
    for number, most, text in ((hour, 23, 'an hour above 23'), (minute, 59, 'a minute above 59'),
                               (second, 59, 'a second above 59')):
        if number > most:
            return text
    return None


def of_validity(octets):
    times = content_of(octets, SEQUENCE)
    first = of_time(times)
    if first:
        return f'notBefore has {first}'
    second = of_time(numbers_of(times)[1])
    return f'notAfter has {second}' if second else None


def of_extension(octets, is_list):
    identifier, critical, content = take_extension(Cursor(octets))
    if is_list:
        kind = places.OfList.kind_of(identifier)
        flag, read = None, CRL_KINDS.get(kind)
    else:
        kind = kind_of(identifier)
        flag, read = KINDS[kind][1:] if kind else (False, lambda content: None)
    if read is None:
        return None
    if flag is False and critical:
        return 'critical'
    if flag is True and not critical:
        return 'not critical'
    try:
        read(content)
    except DecodeError:
        return 'another content'
    return 'a second one'


def is_list(octets):
    """Whether octets are read as a list, as places.py does."""
    try:
        return places.begins_list(Cursor(octets).take_sequence().take_sequence())
    except DecodeError:
        return False


def found_at(octets, place, listed=None):
    """What is found at a place of a certificate or a list, which octets look like if it isn't said; None
    where nothing is told."""
    listed, rest = is_list(octets) if listed is None else listed, octets[place.octet:]
    if not rest:
        return 'nothing: the file ends there'
    if rest[0] not in openings(place.field, listed):
        return VALUES.get(rest[0], 'a value of another type')
    if content_of(rest, rest[0]) is None:
        return "a value whose length isn't DER's, or goes past the end of the file"
    if place.field == 'the serial number':
        return of_serial(rest)
    if place.field == 'the version':
        return of_version(rest, listed)
    if place.field in ('this update', 'next update'):
        return of_time(rest)
    if place.field == 'the validity':
        return of_validity(rest)
    return of_extension(rest, listed) if place.field in places.NAMES.values() else None
