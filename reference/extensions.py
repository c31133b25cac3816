"""The kinds of extensions of a certificate (RFC 6487 4.8, RFC 5280 4.2)."""

from refusals import DecodeError
from der import (
    Cursor, enc, put_bits, reader, require, take_bits, take_bool_or_false, take_oid)
from resources import REFUSE, TRIM, take_as_resources, take_families
from uris import is_https, is_rsync
from parts import hex_octets

PKIX = hex_octets('2B0601050507')
OID = {
    'BasicConstraints': hex_octets('551D13'),
    'SubjectKeyIdentifier': hex_octets('551D0E'),
    'AuthorityKeyIdentifier': hex_octets('551D23'),
    'KeyUsage': hex_octets('551D0F'),
    'ExtendedKeyUsage': hex_octets('551D25'),
    'CrlDistributionPoints': hex_octets('551D1F'),
    'CertificatePolicies': hex_octets('551D20'),
    'CrlNumber': hex_octets('551D14'),
    'AuthorityInformationAccess': PKIX + hex_octets('0101'),
    'SubjectInformationAccess': PKIX + hex_octets('010B'),
}
OID_IP = {REFUSE: PKIX + hex_octets('0107'), TRIM: PKIX + hex_octets('011C')}
OID_AS = {REFUSE: PKIX + hex_octets('0108'), TRIM: PKIX + hex_octets('011D')}
OID_POLICY = {REFUSE: PKIX + hex_octets('0E02'),
              TRIM: PKIX + hex_octets('0E03')}
OID_CA_ISSUERS = PKIX + hex_octets('3002')
OID_CA_REPOSITORY = PKIX + hex_octets('3005')
OID_MANIFEST = PKIX + hex_octets('300A')
OID_SIGNED_OBJECT = PKIX + hex_octets('300B')
OID_NOTIFY = PKIX + hex_octets('300D')
OID_ROUTER = PKIX + hex_octets('031E')

KEY_USAGE = {'Ca': hex_octets('03020106'), 'Ee': hex_octets('03020780')}

# The fields of a TbsCert that Subject Information Access holds, in the
# writer's order, with their methods and what may stand in them.
SIA_METHODS = (
    ('ca_repository', OID_CA_REPOSITORY, is_rsync),
    ('rpki_manifest', OID_MANIFEST, is_rsync),
    ('signed_object', OID_SIGNED_OBJECT, is_rsync),
    ('rpki_notify', OID_NOTIFY, is_https))


@reader
def take_extension(cursor):
    """Identifier, flag, and a cursor over the content (RFC 5280 4.2)."""
    sequence = cursor.take_sequence()
    identifier = take_oid(sequence)
    critical = take_bool_or_false(sequence)
    content = sequence.take_value(0x04)
    sequence.finish()
    return identifier, critical, content


def put_extension(identifier, critical, content):
    """An extension, its flag absent where false (RFC 5280 4.2, X.690 11.5)."""
    return enc(0x30, enc(0x06, identifier),
               enc(0x01, b'\xff') if critical else b'', enc(0x04, content))


@reader
def take_basic_constraints(cursor):
    sequence = cursor.take_sequence()
    is_ca = take_bool_or_false(sequence)
    require(sequence.peek() != 0x02)            # a path length
    sequence.finish()
    return is_ca


@reader
def take_subject_key_identifier(cursor):
    octets = cursor.take_value(0x04).rest()
    require(len(octets) == 20)
    return octets


@reader
def take_authority_key_identifier(cursor):
    sequence = cursor.take_sequence()
    octets = sequence.take_value(0x80).rest()
    require(len(octets) == 20)
    sequence.finish()
    return octets


@reader
def take_key_usage(cursor):
    unused, octets = take_bits(cursor)
    for usage, octets_of in KEY_USAGE.items():
        if put_bits(unused, octets) == octets_of:
            return usage
    raise DecodeError('BadValue')


@reader
def take_extended_key_usage(cursor):
    """The identifiers' octets."""
    sequence = cursor.take_sequence()
    vector = sequence.rest()
    require(vector)
    while not sequence.is_empty():
        take_oid(sequence)
    return vector


def identifiers_of(vector):
    cursor, found = Cursor(vector), []
    while not cursor.is_empty():
        found.append(take_oid(cursor))
    return found


@reader
def take_uri_name(cursor):
    """The text of a name `86`."""
    text = cursor.take_value(0x86).rest()
    require(all(octet < 0x80 for octet in text))
    return text


def take_one_rsync(cursor):
    """The one text among the names that is an rsync URI (RFC 6487 4.8.6, 4.8.7)."""
    texts = []
    while not cursor.is_empty():
        texts.append(take_uri_name(cursor))
    read = [text for text in texts if is_rsync(text)]
    require(len(read) == 1)
    return read[0]


@reader
def take_crl_distribution_points(cursor):
    points = cursor.take_sequence()
    point = points.take_sequence()
    name = point.take_value(0xA0)
    full = name.take_value(0xA0)
    uri = take_one_rsync(full)
    for level in (name, point, points):
        level.finish()
    return uri


@reader
def take_authority_information_access(cursor):
    vector = cursor.take_sequence()
    description = vector.take_sequence()
    require(take_oid(description) == OID_CA_ISSUERS)
    uri = take_one_rsync(description)
    vector.finish()
    return uri


@reader
def take_subject_information_access(cursor):
    """The four URIs, first of each that reads, by field name."""
    vector, pairs = cursor.take_sequence(), []
    require(not vector.is_empty())
    known = [method for _, method, _ in SIA_METHODS]
    while not vector.is_empty():
        description = vector.take_sequence()
        method = take_oid(description)
        if method in known:
            pairs.append((method, take_uri_name(description)))
            description.finish()
        else:
            description.skip_all()
    return {field: next((t for m, t in pairs if m == method and reads(t)), None)
            for field, method, reads in SIA_METHODS}


@reader
def take_certificate_policies(cursor):
    vector = cursor.take_sequence()
    policy = vector.take_sequence()
    identifier = take_oid(policy)
    modes = [m for m, known in OID_POLICY.items() if known == identifier]
    require(modes)
    policy.skip_all()
    vector.finish()
    return modes[0]


# Kind: identifiers, flag (True required, False refused, None not tested),
# reader of the content (RFC 6487 4.8).
KINDS = {
    'BasicConstraints':
        ([OID['BasicConstraints']], True, take_basic_constraints),
    'SubjectKeyIdentifier':
        ([OID['SubjectKeyIdentifier']], False, take_subject_key_identifier),
    'AuthorityKeyIdentifier':
        ([OID['AuthorityKeyIdentifier']], False,
         take_authority_key_identifier),
    'KeyUsage': ([OID['KeyUsage']], True, take_key_usage),
    'ExtendedKeyUsage':
        ([OID['ExtendedKeyUsage']], False, take_extended_key_usage),
    'CrlDistributionPoints':
        ([OID['CrlDistributionPoints']], False, take_crl_distribution_points),
    'AuthorityInformationAccess':
        ([OID['AuthorityInformationAccess']], False,
         take_authority_information_access),
    'SubjectInformationAccess':
        ([OID['SubjectInformationAccess']], False,
         take_subject_information_access),
    'CertificatePolicies':
        ([OID['CertificatePolicies']], True, take_certificate_policies),
    'IpResources': (list(OID_IP.values()), None, take_families),
    'AsResources': (list(OID_AS.values()), None, take_as_resources),
}


def kind_of(identifier):
    kinds = [k for k, (known, _, _) in KINDS.items() if identifier in known]
    return kinds[0] if kinds else None


def only(triples, kind):
    """The extensions of a kind, in their order."""
    return [triple for triple in triples if kind_of(triple[0]) == kind]


def take_cert_extensions(vector):
    """A vector of extensions: kind to identifier and value."""
    triples, values = [], {}
    while not vector.is_empty():
        identifier, critical, content = take_extension(vector)
        triples.append((identifier, critical, content))
        kind = kind_of(identifier)
        if kind is None:
            if critical:
                raise DecodeError('UnexpectedCritical', identifier.hex())
            continue
        check_use(only(triples, kind), kind)
        values[kind] = identifier, KINDS[kind][2](content)
    check_presence(values)
    return values


def check_use(members, kind):
    """Refuses a second one of a kind, and a wrong flag (RFC 5280 4.2)."""
    if len(members) > 1:
        raise DecodeError('Duplicate', kind)
    wanted, found = KINDS[kind][1], members[0][1]
    if wanted is False and found:
        raise DecodeError('Critical', kind)
    if wanted is True and not found:
        raise DecodeError('NotCritical', kind)


def check_presence(values):
    """Refuses a vector that lacks what has to be there (RFC 6487 4.8)."""
    if 'IpResources' not in values and 'AsResources' not in values:
        raise DecodeError('Missing', 'Resources')
    mode = values.get('CertificatePolicies', (None, None))[1]
    for kind, identifiers in (('IpResources', OID_IP), ('AsResources', OID_AS)):
        if kind in values and values[kind][0] != identifiers.get(mode):
            raise DecodeError('WrongResources', kind)
    for kind in ('SubjectKeyIdentifier', 'KeyUsage', 'CertificatePolicies'):
        if kind not in values:
            raise DecodeError('Missing', kind)
