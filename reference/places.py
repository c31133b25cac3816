"""Where the reading of a certificate or of a revocation list stops.

The ASN.1 of RFC 5280 4.1 and 5.1 as RFC 6487 4 and 5 have it, gone through from left to right: told
is the first component that has to begin and doesn't, or what stands where a structure has to end,
and the octet of that. A component inside another is told by the inner one's name, down to single
extensions and single revoked certificates; what is wrong inside one of these is told as the whole.

Two things are told by a whole, since no octet is theirs: extensions that are missing or don't agree
with one another, by the field of the extensions; octets behind the signature, by the signature.
"""

from typing import NamedTuple

from refusals import DecodeError
from der import Cursor, reader, require, take_integer, take_whole_octets
from values import take_serial, take_time
from parts import take_algorithm, take_key, take_name
from extensions import KINDS, OID, check_presence, check_use, kind_of, take_extension
from certificates import take_validity
from lists import CRL_KINDS, take_entry

INTEGER, SEQUENCE = 0x02, 0x30


class Place(NamedTuple):
    field: str
    octet: int


class Stops(Exception):
    def __init__(self, field, octet):
        super().__init__(f'{field}, from octet {octet}')
        self.place = Place(field, octet)


def component(field, take, cursor):
    """What a component holds, which has to begin where the cursor stands."""
    octet = cursor.place
    try:
        return take(cursor)
    except DecodeError:
        raise Stops(field, octet) from None


def components(table, cursor):
    """What the components of a table hold, by their names."""
    return {field: component(field, take, cursor) for field, take in table}


def end(field, cursor):
    """The structure in which the cursor stands has to end there."""
    if not cursor.is_empty():
        raise Stops(field, cursor.place)


# ------------------------------------------------------ TBSCertificate, TBSCertList ---

@reader
def take_version_3(cursor):
    """[0] EXPLICIT INTEGER, v3 (RFC 5280 4.1.2.1, RFC 6487 4.1)."""
    tagged = cursor.take_value(0xA0)
    require(take_integer(tagged) == 2)
    tagged.finish()


@reader
def take_version_2(cursor):
    """INTEGER, v2 (RFC 5280 5.1.2.1, RFC 6487 5)."""
    require(take_integer(cursor) == 1)


TBS_CERTIFICATE = (
    ('the version', take_version_3), ('the serial number', take_serial),
    ('the signature algorithm', take_algorithm), ('the issuer', take_name),
    ('the validity', take_validity), ('the subject', take_name),
    ('the public key', take_key))
TBS_CERT_LIST = (
    ('the version', take_version_2), ('the signature algorithm', take_algorithm),
    ('the issuer', take_name), ('this update', take_time), ('next update', take_time))


def revoked_certificates(tbs):
    """SEQUENCE OF SEQUENCE .. OPTIONAL: absent where another value begins."""
    if tbs.peek() == SEQUENCE:
        entries = component('the revoked certificates', Cursor.take_sequence, tbs)
        while not entries.is_empty():
            component('a revoked certificate', take_entry, entries)


# ------------------------------------------------------------------ extensions ---

NAMES = {       # RFC 6487 4.8, 5
    'BasicConstraints': 'Basic Constraints',
    'SubjectKeyIdentifier': 'Subject Key Identifier',
    'AuthorityKeyIdentifier': 'Authority Key Identifier',
    'KeyUsage': 'Key Usage', 'ExtendedKeyUsage': 'Extended Key Usage',
    'CrlDistributionPoints': 'CRL Distribution Points',
    'AuthorityInformationAccess': 'Authority Information Access',
    'SubjectInformationAccess': 'Subject Information Access',
    'CertificatePolicies': 'Certificate Policies', 'IpResources': 'IP Resources',
    'AsResources': 'AS Resources', 'CrlNumber': 'CRL Number', None: 'an unknown extension'}


class OfCertificate:
    """The extensions of a certificate (RFC 6487 4.8): each known kind at most once, with its flag."""
    tag, kind_of = 0xA3, staticmethod(kind_of)

    def __init__(self):
        self.before, self.values = [], {}

    def read(self, kind, extension):
        identifier, critical, content = extension
        if kind is None:
            require(not critical)
            return
        self.before.append(extension)
        check_use([it for it in self.before if kind_of(it[0]) == kind], kind)
        self.values[kind] = identifier, KINDS[kind][2](content)

    def check(self):
        check_presence(self.values)


class OfList:
    """The extensions of a revocation list (RFC 6487 5): two kinds, each once; no flag is tested."""
    tag = 0xA0

    def __init__(self):
        self.before = []

    @staticmethod
    def kind_of(identifier):
        return next((kind for kind in CRL_KINDS if OID[kind] == identifier), None)

    def read(self, kind, extension):
        require(kind is not None and kind not in self.before)
        CRL_KINDS[kind](extension[2])
        self.before.append(kind)

    def check(self):
        require(len(self.before) == len(CRL_KINDS))


def extensions(of, tbs):
    """[3] EXPLICIT, or of a list [0] EXPLICIT, SEQUENCE OF Extension (RFC 5280 4.1, 5.1)."""
    octet = tbs.place
    tagged = component('the extensions', lambda it: it.take_value(of.tag), tbs)
    row = component('the extensions', Cursor.take_sequence, tagged)
    while not row.is_empty():
        begin = row.place
        extension = component('an extension', take_extension, row)
        kind = of.kind_of(extension[0])
        try:
            of.read(kind, extension)
        except DecodeError:
            raise Stops(NAMES[kind], begin) from None
    try:
        of.check()
    except DecodeError:
        raise Stops('the extensions', octet) from None
    end('what follows the extensions', tagged)


# ------------------------------------------------------------------- the whole ---

def is_version_1(tbs):
    """Whether values begin as those of a certificate of version 1, whose version is absent (RFC 5280
    4.1): an INTEGER and five SEQUENCEs. Of a list the fourth value is a time."""
    try:
        for tag in (INTEGER, *[SEQUENCE] * 5):
            tbs.take_value(tag)
    except DecodeError:
        return False
    return True


def begins_list(tbs):
    """Whether what is signed begins as a list does: with its version, an INTEGER (RFC 5280 5.1). A
    certificate begins with [0], since its version isn't the default (RFC 6487 4.1)."""
    return tbs.peek() == INTEGER and not is_version_1(tbs.inside(*tbs.span()))


def same(algorithm):
    """The outer algorithm of a list is the inner one (RFC 5280 5.1.1.2). Of a certificate, for which
    4.1.1.2 has the same, inspection asks it, and reading doesn't."""
    @reader
    def take(cursor):
        require(take_algorithm(cursor) == algorithm)
    return take


@reader
def take_signature(cursor):
    """A BIT STRING, behind which the outer SEQUENCE ends (RFC 5280 4.1, 5.1)."""
    take_whole_octets(cursor)
    cursor.finish()


def read_whole(cursor, is_list=None):
    """A Certificate, or a CertificateList (RFC 5280 4.1, 5.1), which it looks like if it isn't said;
    anything may stand behind it."""
    outer = component('the outer SEQUENCE', Cursor.take_sequence, cursor)
    tbs = component('the to-be-signed part', Cursor.take_sequence, outer)
    if begins_list(tbs) if is_list is None else is_list:
        algorithm = components(TBS_CERT_LIST, tbs)['the signature algorithm']
        revoked_certificates(tbs)
        extensions(OfList(), tbs)
        take_outer = same(algorithm)
    else:
        components(TBS_CERTIFICATE, tbs)
        extensions(OfCertificate(), tbs)
        take_outer = take_algorithm
    end('what follows the extensions', tbs)
    component('the algorithm of the signature', take_outer, outer)
    component('the signature', take_signature, outer)


def place_of(octets, is_list=None):
    """Where reading stops; None where octets begin with a certificate or a list."""
    try:
        read_whole(Cursor(octets), is_list)
    except Stops as stop:
        return stop.place
    return None
