"""Names and identifiers as text (RFC 4514, RFC 4512 1.4), and what a certificate says beside its fields."""

from der import Cursor, take_oid
from extensions import OID_CA_ISSUERS, OID_CA_REPOSITORY, OID_MANIFEST, OID_NOTIFY, OID_SIGNED_OBJECT, kind_of
from notes import ID_CPS, Raw
from parts import hex_octets
from refusals import Refusal

PRINTABLE_STRING, UTF8_STRING, IA5_STRING, URI = 0x13, 0x0C, 0x16, 0x86
SHORT = {hex_octets('550403'): 'CN', hex_octets('550405'): 'serialNumber', hex_octets('550406'): 'C',
         hex_octets('55040A'): 'O', hex_octets('55040B'): 'OU'}
METHODS = {OID_CA_REPOSITORY: ('further_carepository', 'ca_repository'),
           OID_MANIFEST: ('further_manifest', 'rpki_manifest'),
           OID_SIGNED_OBJECT: ('further_signed_object', 'signed_object'),
           OID_NOTIFY: ('further_notify_url', 'rpki_notify')}


# ---- names

def numbers_of(identifier):
    """The numbers of an object identifier (X.690 8.19)."""
    numbers, number = [], 0
    for octet in identifier:
        number = number << 7 | octet & 0x7F
        if octet < 0x80:
            numbers.append(number)
            number = 0
    first = min(numbers[0] // 40, 2)
    return [first, numbers[0] - 40 * first, *numbers[1:]]


def is_small(identifier):
    """Whether each subidentifier is below 2^64."""
    number = 0
    for octet in identifier:
        number = number << 7 | octet & 0x7F
        if number >= 1 << 64:
            return False
        number *= octet >= 0x80
    return True


def dotted(identifier):
    return '.'.join(map(str, numbers_of(identifier)))


def identifier_text(identifier):
    return dotted(identifier) if is_small(identifier) else identifier.hex(':').upper()


def string_text(octets):
    """RFC 4514 2.4; what isn't visible ASCII is two digits behind a backslash."""
    said = []
    for place, octet in enumerate(octets):
        sign = chr(octet)
        is_at_edge = sign == ' ' and place in (0, len(octets) - 1) or sign == '#' and place == 0
        if not 32 <= octet < 127:
            said.append(f'\\{octet:02X}')
        else:
            said.append('\\' * (is_at_edge or sign in '"+,;<>\\') + sign)
    return ''.join(said)


def attribute_text(attribute):
    kind, tag = take_oid(attribute), attribute.peek()
    whole = attribute.rest()
    is_string = kind in SHORT and tag in (PRINTABLE_STRING, UTF8_STRING)
    value = string_text(attribute.take_value(tag).rest()) if is_string else f'#{whole.hex().upper()}'
    name = SHORT.get(kind) or (dotted(kind) if is_small(kind) else f'oid:{kind.hex().upper()}')
    return f'{name}={value}'


def name_text(octets):
    """The parts of a name in their order, with a comma and a space between them."""
    sets, parts = Cursor(octets).take_sequence(), []
    while not sets.is_empty():
        part, attributes = sets.take_value(0x31), []
        while not part.is_empty():
            attributes.append(attribute_text(part.take_sequence()))
        parts.append('+'.join(attributes))
    return ', '.join(parts)


# ---- what a certificate says beside its fields

def practices(content):
    """The URI of the statement of practices, where it is the first qualifier (RFC 5280 4.2.1.4, RFC 7318 2)."""
    try:
        policy = Cursor(content).take_sequence().take_sequence()
        take_oid(policy)
        qualifier = policy.take_sequence().take_sequence()
        if take_oid(qualifier) == ID_CPS:
            yield 'practice_statement', qualifier.take_value(IA5_STRING).rest()
    except Refusal:
        pass


def others(key, names, kept):
    """The URIs among names beside the one that is kept."""
    while not names.is_empty():
        uri = names.take_value(URI).rest()
        if uri != kept:
            yield key, uri


def of_points(content, f):
    names = Cursor(content).take_sequence().take_sequence().take_value(0xA0).take_value(0xA0)
    return others('further_crl', names, f.crl_uri)


def of_issuer(content, f):
    description = Cursor(content).take_sequence().take_sequence()
    assert take_oid(description) == OID_CA_ISSUERS
    return others('further_aia', description, f.ca_issuer)


def of_access(content, f):
    vector = Cursor(content).take_sequence()
    while not vector.is_empty():
        description = vector.take_sequence()
        method = take_oid(description)
        if method in METHODS:
            key, field = METHODS[method]
            yield from others(key, description, getattr(f, field))
        else:
            yield 'unknown_access_method', method
            if not description.is_empty() and description.peek() == URI:
                yield 'method_uri', description.take_value(URI).rest()


def facts_of(cert):
    """Further URIs, unknown methods and extensions, and the statement of practices, in their order."""
    raw = Raw(cert)
    of_kinds = {'CertificatePolicies': lambda content, f: practices(content), 'CrlDistributionPoints': of_points,
                'AuthorityInformationAccess': of_issuer, 'SubjectInformationAccess': of_access}
    for identifier, _, content in raw.extensions:
        kind = kind_of(identifier)
        if kind is None:
            yield 'unknown_extension', identifier
        elif kind in of_kinds:
            yield from of_kinds[kind](content, raw.f)
