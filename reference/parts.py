"""Names, keys, algorithms and signed data.

An algorithm is a bool: whether its NULL is there.
"""

import hashlib
from typing import NamedTuple

from der import (
    Cursor, enc, put_bits, reader, require, take_oid, take_whole_octets)


def hex_octets(text):
    return bytes.fromhex(text)


OID_SHA256_RSA = hex_octets('2A864886F70D01010B')
OID_RSA = hex_octets('2A864886F70D010101')
OID_EC = hex_octets('2A8648CE3D0201')
OID_P256 = hex_octets('2A8648CE3D030107')
OID_COMMON_NAME = hex_octets('550403')
OID_SERIAL_NUMBER = hex_octets('550405')
RSA, P256 = 'Rsa', 'EcdsaP256'


class Key(NamedTuple):
    format: str
    bits: bytes

    def identifier(self):
        """The SHA-1 of the key's bits (RFC 5280 4.2.1.2, method 1)."""
        return hashlib.sha1(self.bits).digest()

    def subject_name(self):
        """The octets of a Name made of the key's identifier."""
        digits = self.identifier().hex().upper().encode()
        return put_name([[(OID_COMMON_NAME, enc(0x13, digits))]])


def put_name(sets):
    """A name of sets of attributes: pairs of identifier and written value."""
    return enc(0x30, *(enc(0x31, *(enc(0x30, enc(0x06, oid), value)
                                   for oid, value in vector)) for vector in sets))


@reader
def take_name(cursor):
    """The name's own octets (RFC 5280 4.1.2.4)."""
    place = cursor.place
    sets = cursor.take_sequence()
    while not sets.is_empty():
        vector = sets.take_value(0x31)
        require(not vector.is_empty())
        while not vector.is_empty():
            attribute = vector.take_sequence()
            take_oid(attribute)
            attribute.skip_one()
            attribute.finish()
    return cursor.data[place:cursor.place]


def name_attributes(name):
    """Pairs of identifier and the value's identifier octet."""
    sets, found = Cursor(name).take_sequence(), []
    while not sets.is_empty():
        vector = sets.take_value(0x31)
        while not vector.is_empty():
            attribute = vector.take_sequence()
            found.append((take_oid(attribute), attribute.peek()))
    return found


def name_fits(name, string_tags):
    attributes = name_attributes(name)
    identifiers = [identifier for identifier, _ in attributes]
    return (identifiers.count(OID_COMMON_NAME) == 1 and
            identifiers.count(OID_SERIAL_NUMBER) <= 1 and
            all(i in (OID_COMMON_NAME, OID_SERIAL_NUMBER)
                for i in identifiers) and
            all(tag in string_tags for _, tag in attributes))


def inspect_rpki_name(name, strict):
    return name_fits(name, (0x13,) if strict else (0x13, 0x0C))


def inspect_router_name(name, _strict):
    return name_fits(name, (0x13, 0x0C))


@reader
def take_algorithm(cursor):
    """sha256WithRSAEncryption: whether its NULL is there (RFC 4055 5)."""
    sequence = cursor.take_sequence()
    require(take_oid(sequence) == OID_SHA256_RSA)
    return take_opt_null(sequence)


def take_opt_null(sequence):
    """An optional NULL at the end of a SEQUENCE; absent before another value."""
    value = sequence.take_opt_value(0x05)
    require(value is None or value.is_empty())
    sequence.finish()
    return value is not None


def put_algorithm(has_null):
    return enc(0x30, enc(0x06, OID_SHA256_RSA), enc(0x05) if has_null else b'')


@reader
def take_key(cursor):
    """A public key, RSA or of the curve P-256 (RFC 7935 3, RFC 8608 3.1)."""
    sequence = cursor.take_sequence()
    algorithm = sequence.take_sequence()
    identifier = take_oid(algorithm)
    require(identifier in (OID_RSA, OID_EC))
    if identifier == OID_RSA:
        take_opt_null(algorithm)
    else:
        require(take_oid(algorithm) == OID_P256)
        algorithm.finish()
    bits = take_whole_octets(sequence)
    sequence.finish()
    return Key(RSA if identifier == OID_RSA else P256, bits)


def put_key(key):
    if key.format == RSA:
        algorithm = enc(0x30, enc(0x06, OID_RSA), enc(0x05))
    else:
        algorithm = enc(0x30, enc(0x06, OID_EC), enc(0x06, OID_P256))
    return enc(0x30, algorithm, put_bits(0, key.bits))


class SignedData(NamedTuple):
    """What is signed, the outer algorithm and the signature (RFC 5280 4.1.1)."""
    data: bytes
    algorithm: bool
    signature: bytes

    def octets(self):
        return enc(0x30, self.data, put_algorithm(self.algorithm),
                   put_bits(0, self.signature))


@reader
def take_signed_content(cursor):
    """The content of the SEQUENCE; the order of the octets."""
    return SignedData(cursor.capture_one(), take_algorithm(cursor),
                      take_whole_octets(cursor))


def stand_in(key, _algorithm, message, signature):
    """The stand-in for signatures: the key's bits followed by the message."""
    return signature == key.bits + message


def stand_in_sign(key, algorithm, message):
    return SignedData(message, algorithm, key.bits + message)
