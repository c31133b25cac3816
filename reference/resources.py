"""Sets of addresses and AS numbers, and the two extensions of RFC 3779.

A set is a tuple of pairs (low, high), ascending, disjoint and not adjacent;
IPv4 stands in the upper 32 of 128 bits. Resources are MISSING, INHERIT or a set.
"""

from der import (
    enc, put_bits, put_unsigned, reader, require, take_bits, take_null, take_u32)

ADDRESS_BITS = 128
AS_MAX = (1 << 32) - 1

MISSING, INHERIT = 'missing', 'inherit'
REFUSE, TRIM = 'Refuse', 'Trim'


def union(blocks):
    """The set of the numbers of the blocks."""
    ranges = []
    for low, high in sorted(blocks):
        if ranges and low <= ranges[-1][1] + 1:
            ranges[-1] = (ranges[-1][0], max(high, ranges[-1][1]))
        else:
            ranges.append((low, high))
    return tuple(ranges)


def intersection(one, other):
    return union((max(a, c), min(b, d)) for a, b in one for c, d in other
                 if max(a, c) <= min(b, d))


def contains(ranges, number):
    return any(low <= number <= high for low, high in ranges)


def is_encompassed(one, other):
    return intersection(one, other) == one


def blocks(ranges):
    """Resources of a set; an empty one is missing."""
    return union(ranges) or MISSING


def is_set(resources):
    return resources not in (MISSING, INHERIT)


def issued(issuer_set, resources, mode):
    """What an issuer's set leaves of resources (RFC 6487 7.2, RFC 8360 4.2.4.4).

    None stands for an overclaim.
    """
    if resources == MISSING:
        return ()
    if resources == INHERIT:
        return issuer_set
    if mode == REFUSE and not is_encompassed(resources, issuer_set):
        return None
    return intersection(resources, issuer_set)


def block_of_bits(unused, octets, limit):
    """The lowest and highest address that begin with these bits."""
    count = 8 * len(octets) - unused
    require(count <= limit)
    spare = ADDRESS_BITS - count
    low = (int.from_bytes(octets, 'big') >> unused) << spare
    return low, low | (1 << spare) - 1


def take_ip_element(cursor, limit):
    if cursor.peek() == 0x03:
        return block_of_bits(*take_bits(cursor), limit)
    pair = cursor.take_sequence()
    low = block_of_bits(*take_bits(pair), limit)[0]
    high = block_of_bits(*take_bits(pair), limit)[1]
    require(low <= high)
    pair.finish()
    return low, high


def take_as_element(cursor):
    if cursor.peek() == 0x02:
        number = take_u32(cursor)
        return number, number
    pair = cursor.take_sequence()
    low, high = take_u32(pair), take_u32(pair)
    require(low <= high)
    pair.finish()
    return low, high


def take_choice(cursor, take_element):
    """NULL, or a SEQUENCE of elements; an empty one is missing (see README)."""
    if cursor.peek() == 0x05:
        take_null(cursor)
        return INHERIT
    vector, elements = cursor.take_sequence(), []
    while not vector.is_empty():
        elements.append(take_element(vector))
    return blocks(elements)


IP_FAMILIES = {b'\x00\x01': ('v4', 32), b'\x00\x02': ('v6', 128)}


@reader
def take_families(cursor):
    """Resources of IPv4 and IPv6, None where a family is absent (RFC 3779 2.2.3)."""
    vector, found = cursor.take_sequence(), {}
    require(not vector.is_empty())
    while not vector.is_empty():
        family = vector.take_sequence()
        name = family.take_value(0x04).rest()
        require(name in IP_FAMILIES)
        kind, limit = IP_FAMILIES[name]
        require(kind not in found)
        found[kind] = take_choice(family, lambda c: take_ip_element(c, limit))
        family.finish()
    return found.get('v4'), found.get('v6')


@reader
def take_as_resources(cursor):
    """The AS numbers, without routing domains (RFC 3779 3.2.3)."""
    outer = cursor.take_sequence()
    inner = outer.take_value(0xA0)
    resources = take_choice(inner, take_as_element)
    inner.finish()
    outer.finish()
    return resources


def put_address_bits(value, count):
    """A BIT STRING of the first `count` bits of a 128-bit number."""
    size = (count + 7) // 8
    return put_bits(8 * size - count,
                    (value >> ADDRESS_BITS - 8 * size).to_bytes(size, 'big'))


def trailing_zeros(value):
    count = 0
    while count < ADDRESS_BITS and not value >> count & 1:
        count += 1
    return count


def put_ip_block(block):
    """A prefix where one covers the block, else a range (RFC 3779 2.2.3.7-9)."""
    low, high = block
    ones = (1 << ADDRESS_BITS) - 1
    size = high - low + 1
    if size & size - 1 == 0 and low % size == 0:
        return put_address_bits(low, ADDRESS_BITS - size.bit_length() + 1)
    low_count = ADDRESS_BITS - trailing_zeros(low)
    spare = trailing_zeros(high ^ ones)
    high_start = high >> spare << spare
    return enc(0x30, put_address_bits(low, low_count),
               put_address_bits(high_start, ADDRESS_BITS - spare))


def put_as_block(block):
    low, high = block
    if low == high:
        return put_unsigned(low)
    return enc(0x30, put_unsigned(low), put_unsigned(high))


def put_choice(resources, put_block):
    if resources == INHERIT:
        return enc(0x05)
    return enc(0x30, *map(put_block, resources))


def put_ip_content(v4, v6):
    families = [(name, value) for name, value in
                ((b'\x00\x01', v4), (b'\x00\x02', v6)) if value != MISSING]
    return enc(0x30, *(enc(0x30, enc(0x04, name), put_choice(v, put_ip_block))
                       for name, v in families))


def put_as_content(resources):
    return enc(0x30, enc(0xA0, put_choice(resources, put_as_block)))
