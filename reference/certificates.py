"""Certificates: their fields, read, written and rearranged (RFC 6487 4)."""

from dataclasses import dataclass
from typing import Optional

from refusals import DecodeError, RearrangeError
from der import Cursor, DEPTH, enc, put_unsigned, reader, require, take_integer
from values import put_time, take_serial, take_time
from resources import MISSING, put_as_content, put_ip_content
from parts import (
    Key, SignedData, hex_octets, put_algorithm, put_key, stand_in_sign, take_algorithm,
    take_key, take_name, take_signed_content)
from extensions import (
    KEY_USAGE, OID, OID_AS, OID_CA_ISSUERS, OID_IP, OID_POLICY, SIA_METHODS, kind_of,
    put_extension, take_cert_extensions)


@dataclass(frozen=True)
class TbsCert:
    serial: int
    issuer: bytes
    not_before: tuple
    not_after: tuple
    subject: bytes
    key: Key
    key_usage: str
    overclaim: str
    signature: bool = True
    subject_key_identifier: Optional[bytes] = None
    basic_ca: Optional[bool] = None
    authority_key_identifier: Optional[bytes] = None
    extended_key_usage: Optional[bytes] = None
    crl_uri: Optional[bytes] = None
    ca_issuer: Optional[bytes] = None
    ca_repository: Optional[bytes] = None
    rpki_manifest: Optional[bytes] = None
    signed_object: Optional[bytes] = None
    rpki_notify: Optional[bytes] = None
    v4: object = MISSING
    v6: object = MISSING
    asn: object = MISSING

    def __post_init__(self):
        if self.subject_key_identifier is None:
            object.__setattr__(self, 'subject_key_identifier',
                               self.key.identifier())

    def is_ca(self):
        return self.basic_ca is True

    def is_self_signed(self):
        return self.authority_key_identifier in (
            None, self.subject_key_identifier)

    def has_ip_resources(self):
        return self.v4 != MISSING or self.v6 != MISSING


@reader
def take_tbs_cert(cursor):
    """A TBSCertificate (RFC 5280 4.1, RFC 6487 4)."""
    tbs = cursor.take_sequence()
    version = tbs.take_value(0xA0)
    require(take_integer(version) == 2)
    version.finish()
    header = take_tbs_header(tbs)
    wrapped = tbs.take_value(0xA3)
    values = take_cert_extensions(wrapped.take_sequence())
    wrapped.finish()
    tbs.finish()
    return tbs_of_values(header, values)


def take_tbs_header(tbs):
    header = {'serial': take_serial(tbs), 'signature': take_algorithm(tbs),
              'issuer': take_name(tbs)}
    header['not_before'], header['not_after'] = take_validity(tbs)
    header['subject'] = take_name(tbs)
    header['key'] = take_key(tbs)
    return header


@reader
def take_validity(cursor):
    sequence = cursor.take_sequence()
    times = take_time(sequence), take_time(sequence)
    sequence.finish()
    return times


def tbs_of_values(header, values):
    def value(kind, default=None):
        return values[kind][1] if kind in values else default
    v4, v6 = value('IpResources', (None, None))
    sia = value('SubjectInformationAccess', {})
    return TbsCert(
        **header, **sia,
        key_usage=value('KeyUsage'),
        overclaim=value('CertificatePolicies'),
        subject_key_identifier=value('SubjectKeyIdentifier'),
        basic_ca=value('BasicConstraints'),
        authority_key_identifier=value('AuthorityKeyIdentifier'),
        extended_key_usage=value('ExtendedKeyUsage'),
        crl_uri=value('CrlDistributionPoints'),
        ca_issuer=value('AuthorityInformationAccess'),
        v4=MISSING if v4 is None else v4, v6=MISSING if v6 is None else v6,
        asn=value('AsResources', MISSING))


def put_uri_name(text):
    return enc(0x86, text)


def put_sia_content(f):
    return enc(0x30, *(enc(0x30, enc(0x06, method),
                           put_uri_name(getattr(f, field)))
                       for field, method, _ in SIA_METHODS
                       if getattr(f, field) is not None))


def put_crl_points_content(uri):
    return enc(0x30, enc(0x30, enc(0xA0, enc(0xA0, put_uri_name(uri)))))


def put_authority_access_content(uri):
    return enc(0x30, enc(0x30, enc(0x06, OID_CA_ISSUERS), put_uri_name(uri)))


def put_key_id_content(identifier):
    return enc(0x30, enc(0x80, identifier))


def known_contents(f):
    """Triples of the known kinds that f has, in the order in which they are written."""
    def add(present, identifier, critical, content):
        if present:
            triples.append((identifier, critical, content()))
    triples = []
    add(f.basic_ca is not None, OID['BasicConstraints'], True,
        lambda: enc(0x30, enc(0x01, b'\xff') if f.basic_ca else b''))
    add(True, OID['SubjectKeyIdentifier'], False,
        lambda: enc(0x04, f.subject_key_identifier))
    add(f.authority_key_identifier is not None, OID['AuthorityKeyIdentifier'],
        False, lambda: put_key_id_content(f.authority_key_identifier))
    add(True, OID['KeyUsage'], True, lambda: KEY_USAGE[f.key_usage])
    add(f.extended_key_usage is not None, OID['ExtendedKeyUsage'], False,
        lambda: enc(0x30, f.extended_key_usage))
    add(f.crl_uri is not None, OID['CrlDistributionPoints'], False,
        lambda: put_crl_points_content(f.crl_uri))
    add(f.ca_issuer is not None, OID['AuthorityInformationAccess'], False,
        lambda: put_authority_access_content(f.ca_issuer))
    add(any(getattr(f, field) is not None for field, _, _ in SIA_METHODS),
        OID['SubjectInformationAccess'], False, lambda: put_sia_content(f))
    add(True, OID['CertificatePolicies'], True,
        lambda: enc(0x30, enc(0x30, enc(0x06, OID_POLICY[f.overclaim]))))
    add(f.has_ip_resources(), OID_IP[f.overclaim], True,
        lambda: put_ip_content(f.v4, f.v6))
    add(f.asn != MISSING, OID_AS[f.overclaim], True,
        lambda: put_as_content(f.asn))
    return triples


def put_validity(f):
    return enc(0x30, put_time(f.not_before), put_time(f.not_after))


def tbs_octets(f, extensions, validity=None, key=None):
    """A TbsCert around written extensions; some pieces may be given."""
    return enc(0x30, hex_octets('A003020102'), put_unsigned(f.serial),
               put_algorithm(f.signature), f.issuer,
               validity or put_validity(f), f.subject, key or put_key(f.key),
               enc(0xA3, enc(0x30, *extensions)))


def encode_tbs(f):
    """The one encoding that is written of fields."""
    return tbs_octets(f, [put_extension(*t) for t in known_contents(f)])


@dataclass(frozen=True)
class Cert:
    tbs: TbsCert
    signed: SignedData

    def octets(self):
        return self.signed.octets()


def into_cert(f, key):
    """The certificate of fields, signed by the stand-in."""
    return Cert(f, stand_in_sign(key, f.signature, encode_tbs(f)))


@reader
def take_cert_content(cursor):
    """`Cert::from_constructed`: the content of the outer SEQUENCE."""
    signed = take_signed_content(cursor)
    return Cert(take_tbs_cert(Cursor(signed.data, depth=cursor.depth)), signed)


@reader
def take_cert(cursor):
    """A certificate (RFC 5280 4.1)."""
    content = cursor.take_sequence()
    cert = take_cert_content(content)
    content.finish()
    return cert


def decode_cert(octets, depth=DEPTH):
    return take_cert(Cursor(octets, depth=depth))


def cert_pieces(octets, depth=DEPTH):
    """What stands before the extensions, each of these, the outer rest."""
    decode_cert(octets, depth)
    whole = Cursor(octets).take_sequence()
    tbs = whole.take_sequence()
    start = tbs.place
    for _ in range(7):
        tbs.capture_one()
    head = octets[start:tbs.place]
    vector, pieces = tbs.take_value(0xA3).take_sequence(), []
    while not vector.is_empty():
        pieces.append(vector.capture_one())
    return head, pieces, whole.rest()


def with_pieces(head, pieces, tail):
    """A certificate put together of pieces that stand already."""
    return enc(0x30, enc(0x30, head, enc(0xA3, enc(0x30, *pieces))), tail)


def rearrange(octets, order, extras, depth=DEPTH):
    """The certificate with its extensions in another order, and extras between.

    An extra is a triple of place, identifier, content; the signature stays.
    """
    try:
        head, pieces, tail = cert_pieces(octets, depth)
    except DecodeError:
        raise RearrangeError('NoCertificate') from None
    count = len(pieces)
    if sorted(order) != list(range(count)) or any(
            at > count for at, _, _ in extras):
        raise RearrangeError('NotAnOrder')
    if any(kind_of(identifier) for _, identifier, _ in extras):
        raise RearrangeError('KnownExtra')
    vector = []
    for place in range(count + 1):
        vector += [put_extension(identifier, False, content)
                for at, identifier, content in extras if at == place]
        vector += [pieces[order[place]]] if place < count else []
    return with_pieces(head, vector, tail)
