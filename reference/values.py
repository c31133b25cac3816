"""Serial numbers and times (RFC 5280 4.1.2.2, 4.1.2.5).

A moment is a tuple (year, month, day, hour, minute, second), a serial number an int.
"""

from der import enc, reader, require, take_number

SERIAL_LIMIT = 1 << 160


def take_serial(cursor):
    """A serial number, from 0 to below 2^160 (RFC 5280 4.1.2.2)."""
    return take_number(cursor, SERIAL_LIMIT)


def serial_from_slice(octets):
    number = int.from_bytes(octets, 'big')
    return number if number < SERIAL_LIMIT else None


def days_of_month(year, month):
    if month == 2:
        leap = year % 4 == 0 and (year % 100 != 0 or year % 400 == 0)
        return 29 if leap else 28
    return 30 if month in (4, 6, 9, 11) else 31


def time_utc(year, month, day, hour, minute, second):
    """A moment, None where there is no such (RFC 5280 4.1.2.5)."""
    exists = (0 <= year <= 9999 and 1 <= month <= 12 and
              1 <= day <= days_of_month(year, month) and
              0 <= hour <= 23 and 0 <= minute <= 59 and 0 <= second <= 59)
    return (year, month, day, hour, minute, second) if exists else None


def time_from_digits(text):
    """YYYYMMDDhhmmss."""
    if len(text) != 14 or not all(0x30 <= octet <= 0x39 for octet in text):
        return None
    cuts = (0, 4, 6, 8, 10, 12, 14)
    return time_utc(*(int(text[a:b]) for a, b in zip(cuts, cuts[1:])))


@reader
def take_time(cursor):
    """UTCTime of 1950 to 2049, or GeneralizedTime (RFC 5280 4.1.2.5)."""
    tag = cursor.peek()
    if tag == 0x17:
        text = cursor.take_value(0x17).rest()
        require(len(text) == 13)
        text = (b'19' if text[:1] >= b'5' else b'20') + text
    else:
        text = cursor.take_value(0x18).rest()
        require(len(text) == 15)
    require(text[-1:] == b'Z')
    time = time_from_digits(text[:-1])
    require(time is not None)
    return time


def put_utc_time(time):
    return enc(0x17, b'%02d%02d%02d%02d%02d%02dZ' % (time[0] % 100, *time[1:]))


def put_generalized_time(time):
    return enc(0x18, b'%04d%02d%02d%02d%02d%02dZ' % time)


def put_time(time):
    if 1950 <= time[0] <= 2049:
        return put_utc_time(time)
    return put_generalized_time(time)
