"""Values of DER (X.690): a cursor over octets, the primitive types, writers."""

import functools

from refusals import DecodeError

DEPTH = 32              # constructed values, one inside the other, that are skipped


def length_octets(length):
    """The shortest definite length (X.690 8.1.3, 10.1)."""
    if length < 0x80:
        return bytes([length])
    octets = length.to_bytes((length.bit_length() + 7) // 8, 'big')
    return bytes([0x80 + len(octets)]) + octets


def enc(tag, *contents):
    """A value: identifier octet, shortest length, content (X.690 8.1, 10.1)."""
    content = b''.join(contents)
    assert tag & 0x1F != 0x1F and len(content) < 1 << 32
    return bytes([tag]) + length_octets(len(content)) + content


class Cursor:
    """A place in a span of octets; a refused read leaves the place alone."""

    def __init__(self, data, start=0, end=None, depth=DEPTH):
        self.data, self.place, self.depth = data, start, depth
        self.end = len(data) if end is None else end

    def is_empty(self):
        return self.place == self.end

    def rest(self):
        return self.data[self.place:self.end]

    def span(self):
        return self.place, self.end

    def inside(self, start, end):
        return Cursor(self.data, start, end, self.depth)

    def peek(self):
        """The next identifier octet, None at the end."""
        return None if self.is_empty() else self.data[self.place]

    def head(self, tag=None):
        """Identifier, start and end of the next value's content."""
        found = self.peek()
        if found is None:
            raise DecodeError('Truncated')
        if found & 0x1F == 0x1F or tag not in (None, found):
            raise DecodeError('BadTag')
        length, start = self.length(self.place + 1)
        if start + length > self.end:
            raise DecodeError('Truncated')
        return found, start, start + length

    def length(self, place):
        """The length at a place and the place after it (X.690 8.1.3, 10.1)."""
        if place >= self.end:
            raise DecodeError('Truncated')
        first = self.data[place]
        if first < 0x80:
            return first, place + 1
        if not 0x81 <= first <= 0x84:
            raise DecodeError('BadLength')
        after = place + 1 + first - 0x80
        if after > self.end:
            raise DecodeError('Truncated')
        octets = self.data[place + 1:after]
        length = int.from_bytes(octets, 'big')
        if octets[0] == 0 or length < 0x80:
            raise DecodeError('BadLength')
        return length, after

    def take_value(self, tag):
        _, start, end = self.head(tag)
        self.place = end
        return self.inside(start, end)

    def take_opt_value(self, tag):
        return self.take_value(tag) if self.peek() == tag else None

    def take_sequence(self):
        return self.take_value(0x30)

    def take_opt_sequence(self):
        return self.take_opt_value(0x30)

    def finish(self):
        if not self.is_empty():
            raise DecodeError('Trailing')

    def skip_one(self, levels=None):
        """One well-formed value, of at most `levels` constructed ones, nested."""
        levels = self.depth if levels is None else levels
        tag, start, end = self.head()
        if tag & 0x20:
            if levels == 0:
                raise DecodeError('TooDeep')
            inside = self.inside(start, end)
            while not inside.is_empty():
                inside.skip_one(levels - 1)
        self.place = end

    def skip_all(self):
        place = self.place
        try:
            while not self.is_empty():
                self.skip_one()
        except DecodeError:
            self.place = place
            raise

    def capture_one(self):
        """One whole value by identifier and length, its inside unread."""
        place = self.place
        self.place = self.head()[2]
        return self.data[place:self.place]

    def capture_rest(self):
        octets, self.place = self.rest(), self.end
        return octets


def reader(take):
    """Makes a reader leave its cursor where it stood when it refuses."""
    @functools.wraps(take)
    def taken(cursor, *rest):
        place = cursor.place
        try:
            return take(cursor, *rest)
        except DecodeError:
            cursor.place = place
            raise
    return taken


def require(condition, name='BadValue'):
    if not condition:
        raise DecodeError(name)


@reader
def take_bool_or_false(cursor):
    """An optional BOOLEAN, absent is false (X.690 8.2, 11.1, 11.5; see README)."""
    value = cursor.take_opt_value(0x01)
    if value is None:
        return False
    require(value.rest() in (b'\x00', b'\xff'))
    return value.rest() == b'\xff'


@reader
def take_integer(cursor):
    """The number of an INTEGER, of either sign (X.690 8.3)."""
    octets = cursor.take_value(0x02).rest()
    require(octets)
    if len(octets) > 1:
        require(not (octets[0] == 0x00 and octets[1] < 0x80))
        require(not (octets[0] == 0xFF and octets[1] >= 0x80))
    return int.from_bytes(octets, 'big', signed=True)


@reader
def take_unsigned(cursor):
    """A cursor over the content of an INTEGER from 0 on."""
    place = cursor.place
    require(take_integer(cursor) >= 0)
    cursor.place = place
    return cursor.take_value(0x02)


@reader
def take_number(cursor, limit):
    """An INTEGER from 0 to below the limit."""
    number = take_integer(cursor)
    require(0 <= number < limit)
    return number


def take_u32(cursor):
    return take_number(cursor, 1 << 32)


@reader
def take_bits(cursor):
    """The count of unused bits and the octets of a BIT STRING (X.690 8.6, 11.2)."""
    content = cursor.take_value(0x03).rest()
    require(content)
    unused, octets = content[0], content[1:]
    require(unused <= 7 and (octets or unused == 0))
    require(not octets or octets[-1] % (1 << unused) == 0)
    return unused, octets


@reader
def take_whole_octets(cursor):
    """A BIT STRING with no unused bits."""
    unused, octets = take_bits(cursor)
    require(unused == 0)
    return octets


def is_oid(octets):
    """Whether octets are the content of an OBJECT IDENTIFIER (X.690 8.19)."""
    begins = [True] + [octet < 0x80 for octet in octets[:-1]]
    return (len(octets) > 0 and octets[-1] < 0x80 and
            not any(b and o == 0x80 for b, o in zip(begins, octets)))


@reader
def take_oid(cursor):
    octets = cursor.take_value(0x06).rest()
    require(is_oid(octets))
    return octets


@reader
def take_null(cursor):
    require(cursor.take_value(0x05).is_empty())


def put_unsigned(number):
    """An INTEGER, written shortest."""
    return enc(0x02, number.to_bytes(number.bit_length() // 8 + 1, 'big'))


def put_bits(unused, octets):
    return enc(0x03, bytes([unused]), octets)
