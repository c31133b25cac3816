"""The sort of a file that begins with no certificate and no CRL, by the first values of DER in it, or the
first line of a TAL. PEM isn't looked at."""

from der import Cursor, take_oid
from extensions import OID, OID_AS, OID_IP, take_certificate_policies, take_extension
from refusals import Refusal

SEQUENCE, SET, INTEGER, BITS, OCTETS = 0x30, 0x31, 0x02, 0x03, 0x04
ID_SIGNED_DATA = bytes.fromhex('2A864886F70D010702')
CONTENT_TYPES = {'Roa': 24, 'Manifest': 26, 'Ghostbusters': 35}


def into(cursor, tag):
    return cursor.take_value(tag)


def over(cursor, *tags):
    for tag in tags:
        cursor.take_value(tag)
    return cursor


def content_type(octets):
    """The type of what is signed (RFC 5652 3, 5.1, 5.2)."""
    info = into(Cursor(octets), SEQUENCE)
    if take_oid(info) != ID_SIGNED_DATA:
        return None
    data = over(into(into(info, 0xA0), SEQUENCE), INTEGER, SET)
    return take_oid(into(data, SEQUENCE))


def is_object(number):
    return lambda octets: content_type(octets) == bytes.fromhex('2A864886F70D01091001') + bytes([number])


def is_meant_as_locator(octets):
    """Whether the first line after comments and empty lines begins as the URI of a TAL (RFC 8630 2.2)."""
    lines = (it for it in octets.split(b'\n') if it.strip(b' \t\r\f') and not it.startswith(b'#'))
    return next(lines, b'').startswith((b'rsync:', b'http'))


def begins(*steps):
    """Whether values of these tags follow, each inside the last one of the step before."""
    def holds(octets):
        cursor = Cursor(octets)
        for tags in steps[:-1]:
            cursor = into(over(cursor, *tags[:-1]), tags[-1])
        over(cursor, *steps[-1])
        return True
    return holds


def is_other_certificate(octets):
    """A certificate of X.509 without resources and without the RPKI's policy."""
    fields = over(into(into(Cursor(octets), SEQUENCE), SEQUENCE), 0xA0, INTEGER, *[SEQUENCE] * 5)
    elements = into(into(fields, 0xA3), SEQUENCE)
    while not elements.is_empty():
        identifier, _, content = take_extension(elements)
        if identifier in (*OID_IP.values(), *OID_AS.values()):
            return False
        if identifier == OID['CertificatePolicies']:
            try:
                take_certificate_policies(content)
                return False
            except Refusal:
                pass
    return True


SORTS = {
    'Empty': lambda octets: not octets,
    'Locator': is_meant_as_locator,
    **{name: is_object(number) for name, number in CONTENT_TYPES.items()},
    'SignedData': lambda octets: content_type(octets) is not None,
    'PrivateKey': begins([SEQUENCE], [INTEGER, SEQUENCE, OCTETS]),
    'RsaPrivateKey': begins([SEQUENCE], [INTEGER] * 9),
    'CurvePrivateKey': begins([SEQUENCE], [INTEGER, OCTETS]),
    'PublicKey': begins([SEQUENCE], [SEQUENCE, BITS]),
    'Request': begins([SEQUENCE], [SEQUENCE], [INTEGER, SEQUENCE, SEQUENCE, 0xA0]),
    'Version1': begins([SEQUENCE], [SEQUENCE], [INTEGER, *[SEQUENCE] * 5]),
    'OtherCertificate': is_other_certificate,
}


def holds(is_so, octets):
    try:
        return is_so(octets)
    except Refusal:
        return False


def sort_of(octets):
    """The name of the first sort that a file in DER is of, or None."""
    return next((name for name, is_so in SORTS.items() if holds(is_so, octets)), None)
