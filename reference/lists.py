"""Revocation lists, their entries, and lists under URIs (RFC 6487 5, RFC 5280 5)."""

from dataclasses import dataclass
from typing import NamedTuple

from refusals import DecodeError, RevocationError
from der import Cursor, DEPTH, enc, put_unsigned, reader, require, take_integer
from values import put_time, take_serial, take_time
from uris import uri_equal
from parts import (
    SignedData, put_algorithm, stand_in, stand_in_sign, take_algorithm, take_name,
    take_signed_content)
from extensions import OID, put_extension, take_authority_key_identifier, take_extension
from certificates import put_key_id_content


class Entry(NamedTuple):
    serial: int
    date: tuple


@reader
def take_entry(cursor):
    """A serial number and a time, no extensions (RFC 6487 5)."""
    sequence = cursor.take_sequence()
    entry = Entry(take_serial(sequence), take_time(sequence))
    sequence.finish()
    return entry


def put_entry(entry):
    return enc(0x30, put_unsigned(entry.serial), put_time(entry.date))


def entries_of(octets):
    cursor, entries = Cursor(octets), []
    while not cursor.is_empty():
        entries.append(take_entry(cursor))
    return entries


@reader
def take_revoked(cursor):
    """The vector of entries of an optional SEQUENCE, as octets."""
    vector = cursor.take_opt_sequence()
    if vector is None:
        return b''
    octets = vector.rest()
    while not vector.is_empty():
        take_entry(vector)
    return octets


def put_revoked(octets):
    return enc(0x30, octets) if octets else b''


def is_revoked(octets, serial):
    return any(entry.serial == serial for entry in entries_of(octets))


@dataclass(frozen=True)
class TbsCertList:
    issuer: bytes
    this_update: tuple
    next_update: tuple
    revoked: bytes
    authority_key_identifier: bytes
    crl_number: int
    signature: bool = True

    def is_stale(self, now):
        return self.next_update < now


@reader
def take_tbs_list(cursor):
    """A TBSCertList (RFC 5280 5.1, RFC 6487 5)."""
    tbs = cursor.take_sequence()
    require(take_integer(tbs) == 1)
    signature, issuer = take_algorithm(tbs), take_name(tbs)
    this_update, next_update = take_time(tbs), take_time(tbs)
    revoked = take_revoked(tbs)
    wrapped = tbs.take_value(0xA0)
    values = take_crl_extensions(wrapped.take_sequence())
    wrapped.finish()
    tbs.finish()
    return TbsCertList(issuer, this_update, next_update, revoked,
                       values['AuthorityKeyIdentifier'], values['CrlNumber'],
                       signature)


CRL_KINDS = {'AuthorityKeyIdentifier': take_authority_key_identifier,
             'CrlNumber': take_serial}


def take_crl_extensions(vector):
    values = {}
    while not vector.is_empty():
        identifier, _, content = take_extension(vector)
        kinds = [kind for kind in CRL_KINDS if OID[kind] == identifier]
        if not kinds:
            raise DecodeError('InvalidExtension', identifier.hex())
        if kinds[0] in values:
            raise DecodeError('Duplicate', kinds[0])
        values[kinds[0]] = CRL_KINDS[kinds[0]](content)
    for kind in CRL_KINDS:
        if kind not in values:
            raise DecodeError('Missing', kind)
    return values


def crl_triples(r):
    return [(OID['AuthorityKeyIdentifier'], False,
             put_key_id_content(r.authority_key_identifier)),
            (OID['CrlNumber'], False, put_unsigned(r.crl_number))]


def encode_list(r, extensions=None):
    """The encoding of a list's fields; its extensions may be given."""
    if extensions is None:
        extensions = [put_extension(*triple) for triple in crl_triples(r)]
    return enc(0x30, put_unsigned(1), put_algorithm(r.signature), r.issuer,
               put_time(r.this_update), put_time(r.next_update),
               put_revoked(r.revoked), enc(0xA0, enc(0x30, *extensions)))


@dataclass(frozen=True)
class Crl:
    tbs: TbsCertList
    signed: SignedData

    def octets(self):
        return self.signed.octets()

    def entries(self):
        return entries_of(self.tbs.revoked)

    def contains(self, serial):
        return is_revoked(self.tbs.revoked, serial)


def into_crl(r, key):
    return Crl(r, stand_in_sign(key, r.signature, encode_list(r)))


@reader
def take_crl_content(cursor):
    """The content of a revocation list's SEQUENCE."""
    signed = take_signed_content(cursor)
    tbs = take_tbs_list(Cursor(signed.data, depth=cursor.depth))
    require(tbs.signature == signed.algorithm, 'AlgorithmMismatch')
    return Crl(tbs, signed)


@reader
def take_crl(cursor):
    """A revocation list (RFC 5280 5.1)."""
    content = cursor.take_sequence()
    crl = take_crl_content(content)
    content.finish()
    return crl


def decode_crl(octets, depth=DEPTH):
    return take_crl(Cursor(octets, depth=depth))


def contains_counted(octets, serial, cached):
    """The answer and the comparisons made: all uncached, halving cached."""
    serials = [entry.serial for entry in entries_of(octets)]
    if not cached:
        hit = serial in serials
        return hit, serials.index(serial) + 1 if hit else len(serials)
    table, low, count = sorted(serials), 0, 0
    high = len(table)
    while low < high:
        middle, count = (low + high) // 2, count + 1
        if table[middle] == serial:
            return True, count
        if table[middle] < serial:
            low = middle + 1
        else:
            high = middle
    return False, count


class CrlStore:
    """Pairs of URI and list; the earliest under an equal URI counts."""

    def __init__(self, pairs=()):
        self.pairs = list(pairs)

    def push(self, uri, crl):
        self.pairs.append((uri, crl))

    def get(self, uri):
        """The earliest list under a URI."""
        for known, crl in self.pairs:
            if uri_equal(known, uri):
                return crl
        return None

    def check(self, uri, serial, issuer, now, verifier=stand_in):
        """Whether a serial is not revoked: five conditions, in this order."""
        def expect_that(condition, name):
            if not condition:
                raise RevocationError(name)
        crl, f = self.get(uri), issuer.cert.tbs
        expect_that(crl is not None, 'NoCrl')
        expect_that(crl.tbs.authority_key_identifier ==
                    f.subject_key_identifier, 'WrongKeyId')
        expect_that(verifier(f.key, crl.signed.algorithm, crl.signed.data,
                             crl.signed.signature), 'BadSignature')
        expect_that(not crl.tbs.is_stale(now), 'Stale')
        expect_that(not crl.contains(serial), 'Revoked')
