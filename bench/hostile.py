#!/usr/bin/env python3
"""Makes hostile certificates: each sort is a certificate of the worked trust anchor of which one part is as large, as deep or as tangled as a length lets it be.

usage: hostile.py FOLDER [--sizes 4]

Writes FOLDER/NN-SIZE.cer, SIZE from 0 on and each four times the one before, and FOLDER/sorts, a line for each NN: what it is. Sizes of sorts with blocks lie
just above a power of two, where a vector that doubled would have most room to spare. At most 2^15 prefixes of five octets are apart from one another.
"""
import argparse
import os
import random
import sys

sys.path.insert(0, os.path.join(os.path.dirname(os.path.abspath(__file__)), '..', 'reference'))
import reference as ref  # noqa: E402
import worked  # noqa: E402

HEAD, PIECES, TAIL = ref.cert_pieces(worked.A.octets())
SHUFFLES = {}


def with_pieces(pieces, head=HEAD):
    return ref.with_pieces(head, pieces, TAIL)


def without(kind):
    """The anchor's extensions but the one of this kind."""
    return [piece for piece in PIECES if ref.kind_of(ref.take_extension(ref.Cursor(piece))[0]) != kind]


def replaced(kind, identifier, critical, content):
    return with_pieces([*without(kind), ref.put_extension(identifier, critical, content)])


def head_with(place, value):
    """The head of the certificate with another value in this place."""
    cursor, values = ref.Cursor(HEAD), []
    while not cursor.is_empty():
        values.append(cursor.capture_one())
    values[place] = value
    return b''.join(values)


def addresses(elements):
    family = ref.enc(0x30, ref.enc(4, b'\0\1'), ref.enc(0x30, b''.join(elements)))
    return replaced('IpResources', ref.OID_IP[ref.TRIM], True, ref.enc(0x30, family))


def numbers(elements):
    content = ref.enc(0x30, ref.enc(0xA0, ref.enc(0x30, b''.join(elements))))
    return replaced('AsResources', ref.OID_AS[ref.TRIM], True, content)


def address(number):
    return b'\3\5\0' + number.to_bytes(4, 'big')


def policy(qualifiers):
    content = ref.enc(0x30, ref.enc(0x30, ref.enc(6, ref.OID_POLICY[ref.TRIM]), qualifiers))
    return replaced('CertificatePolicies', ref.OID['CertificatePolicies'], True, content)


def tower(levels, inside=b''):
    for _ in range(levels):
        inside = ref.enc(0x30, inside)
    return inside


def distribution(names):
    content = ref.enc(0x30, ref.enc(0x30, ref.enc(0xA0, ref.enc(0xA0, names))))
    return replaced('CrlDistributionPoints', ref.OID['CrlDistributionPoints'], False, content)


def access(descriptions):
    return replaced('SubjectInformationAccess', ref.OID['SubjectInformationAccess'], False, ref.enc(0x30, descriptions))


def purposes(identifiers):
    return replaced('ExtendedKeyUsage', ref.OID['ExtendedKeyUsage'], False, ref.enc(0x30, identifiers))


def shuffled(count):
    if count not in SHUFFLES:
        SHUFFLES[count] = random.Random(5).sample(range(count), count)
    return SHUFFLES[count]


URI = ref.put_uri_name(b'rsync://h/m/p')
UNKNOWN = ref.put_extension(b'\x2a\3', False, b'')
COMMON_NAME = ref.enc(0x31, ref.enc(0x30, ref.enc(6, ref.OID_COMMON_NAME), ref.enc(0x13, b'A')))
REPOSITORY = ref.enc(0x30, ref.enc(6, ref.OID_CA_REPOSITORY), URI)
BAD_REPOSITORY = ref.enc(0x30, ref.enc(6, ref.OID_CA_REPOSITORY), ref.put_uri_name(b'rsync://h/m/' + b'a/' * 50 + b'..'))
MANY, LONG = 16400, 1 << 18

SORTS = [
    ('unknown extensions', 6400, lambda n: with_pieces(PIECES[:3] + [UNKNOWN] * n + PIECES[3:])),
    ('unknown extensions, the last one critical', 6400,
     lambda n: with_pieces(PIECES + [UNKNOWN] * n + [ref.put_extension(b'\x2a\3', True, b'')])),
    ('blocks in ascending order', MANY, lambda n: addresses(address(2 * i) for i in range(n))),
    ('blocks in descending order', MANY, lambda n: addresses(address(2 * (n - i)) for i in range(n))),
    ('blocks in random order', MANY, lambda n: addresses(address(2 * i) for i in shuffled(n))),
    ('blocks that touch', MANY, lambda n: addresses(address(i) for i in shuffled(n))),
    ('one block again and again', MANY, lambda n: addresses([address(7)] * n)),
    ('prefixes of three octets', MANY, lambda n: addresses([b'\3\1\0'] * n)),
    ('prefixes of four octets by turns', MANY, lambda n: addresses([b'\3\2\7\0', b'\3\2\7\x80'] * (n // 2))),
    ('prefixes of five octets, apart', MANY // 2, lambda n: addresses(b'\3\3\0' + (2 * i % 2 ** 16).to_bytes(2, 'big') for i in shuffled(n))),
    ('prefixes of six octets, apart', MANY, lambda n: addresses(b'\3\4\0' + (2 * i).to_bytes(3, 'big') for i in shuffled(n))),
    ('ranges inside ranges', MANY, lambda n: addresses(ref.enc(0x30, address(i), address((1 << 32) - 1 - i)) for i in range(n))),
    ('AS numbers of one octet', MANY, lambda n: numbers([b'\2\1\7'] * n)),
    ('AS numbers in random order', MANY, lambda n: numbers(ref.put_unsigned(2 * i) for i in shuffled(n))),
    ('AS numbers that ascend, then descend', MANY, lambda n: numbers(ref.put_unsigned(2 * min(i, n - i)) for i in range(n))),
    ('blocks, the last one wrong', MANY, lambda n: addresses([*(address(2 * i) for i in range(n)), b'\3\6\0\0\0\0\0\0'])),
    ('an octet string in an unknown extension', LONG, lambda n: with_pieces(PIECES + [ref.put_extension(b'\x2a\3', False, bytes(n))])),
    ('an octet string among qualifiers', LONG, lambda n: policy(ref.enc(4, bytes(n)))),
    ('32 levels round an octet string', LONG, lambda n: policy(tower(32, ref.enc(4, bytes(n))))),
    ('towers of 32 levels', 4000, lambda n: policy(tower(32) * n)),
    ('towers, the last one of 33 levels', 4000, lambda n: policy(tower(32) * n + tower(33))),
    ('empty values in 32 levels', LONG // 2, lambda n: policy(tower(31, ref.enc(0x30, b'\5\0' * n)))),
    ("names that don't read", LONG // 2, lambda n: distribution(URI + b'\x86\0' * n)),
    ('names that read', 20000, lambda n: distribution(URI * n)),
    ('a long URI', LONG, lambda n: distribution(ref.put_uri_name(b'rsync://h/m/' + b'a' * n))),
    ('a URI of many segments', LONG // 2, lambda n: distribution(ref.put_uri_name(b'rsync://h/m/' + b'a/' * n))),
    ('a URI of many segments, the last one ..', LONG // 2,
     lambda n: distribution(URI + ref.put_uri_name(b'rsync://h/m/' + b'a/' * n + b'..'))),
    ('descriptions of one method', 8000, lambda n: access(REPOSITORY * n)),
    ("descriptions whose URIs don't read", 3000, lambda n: access(BAD_REPOSITORY * n + REPOSITORY)),
    ('descriptions of an unknown method', 16000, lambda n: access(ref.enc(0x30, ref.enc(6, b'\x2a\3'), b'\5\0') * n)),
    ('purposes', LONG // 2, lambda n: purposes(b'\6\1\x2a' * n)),
    ('a long identifier', LONG, lambda n: purposes(ref.enc(6, b'\x81' * n + b'\1'))),
    ('a long name', LONG, lambda n: with_pieces(PIECES, head_with(3, ref.put_name([[(ref.OID_COMMON_NAME, ref.enc(0x13, bytes(n)))]])))),
    ('a name of many sets', 16000, lambda n: with_pieces(PIECES, head_with(5, ref.enc(0x30, COMMON_NAME * n)))),
    ('a long key', LONG, lambda n: with_pieces(PIECES, head_with(6, ref.put_key(ref.Key(ref.RSA, bytes(n)))))),
    ('a long signature', LONG, lambda n: ref.SignedData(worked.A.signed.data, True, bytes(n)).octets()),
    ('a long serial number', LONG, lambda n: with_pieces(PIECES, head_with(1, ref.enc(2, b'\1' * n)))),
    ('octets behind the certificate', LONG, lambda n: worked.A.octets() + bytes(n)),
    ('no certificate', LONG, bytes),
    ('octets behind the content of an extension', LONG,
     lambda n: replaced('KeyUsage', ref.OID['KeyUsage'], True, b'\3\2\1\6' + bytes(n))),
]


def main():
    words = argparse.ArgumentParser(description=__doc__, formatter_class=argparse.RawDescriptionHelpFormatter)
    words.add_argument('folder')
    words.add_argument('--sizes', type=int, default=4)
    given = words.parse_args()
    with open(f'{given.folder}/sorts', 'w') as sorts:
        for place, (name, least, make) in enumerate(SORTS):
            print(f'{place:02} {name}', file=sorts)
            for size in range(given.sizes):
                with open(f'{given.folder}/{place:02}-{size}.cer', 'wb') as file:
                    file.write(make(least * 4 ** size))


if __name__ == '__main__':
    main()
