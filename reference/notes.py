"""What is accepted in a certificate although a standard forbids it (docs/PROFILE.md)."""

from der import Cursor, take_oid
from extensions import (
    KINDS, OID, OID_AS, OID_IP, OID_MANIFEST, OID_CA_REPOSITORY, OID_NOTIFY, OID_SIGNED_OBJECT, take_extension)
from parts import hex_octets, inspect_rpki_name
from refusals import Refusal
from resources import MISSING, put_as_content, put_ip_content

PRINTABLE = set(b"ABCDEFGHIJKLMNOPQRSTUVWXYZabcdefghijklmnopqrstuvwxyz0123456789 '()+,-./:=?")
PRINTABLE_STRING, GENERALIZED_TIME = 0x13, 0x18
ID_CPS = hex_octets('2B06010505070201')
KNOWN_METHODS = (OID_CA_REPOSITORY, OID_MANIFEST, OID_SIGNED_OBJECT, OID_NOTIFY)


class Raw:
    """A certificate as it is encoded: its fields, and its extensions with their flags."""

    def __init__(self, cert):
        self.f = cert.tbs
        tbs = Cursor(cert.signed.data).take_sequence()
        tbs.take_value(0xA0)
        tbs.take_value(0x02)
        _, self.issuer, self.validity, self.subject, _ = (tbs.take_sequence() for _ in range(5))
        elements = tbs.take_value(0xA3).take_sequence()
        self.flags, self.extensions = [], []
        while not elements.is_empty():
            octets = elements.capture_one()
            identifier, critical, content = take_extension(Cursor(octets))
            self.extensions.append((identifier, critical, content.rest()))
            fields = Cursor(octets).take_sequence()
            take_oid(fields)
            self.flags.append(fields.take_opt_value(0x01))

    def of(self, *identifiers):
        return [it for it in self.extensions if it[0] in identifiers]


def attributes(name):
    """The identifier octet and the content of each value of a name."""
    sets, found = Cursor(name.rest()), []
    while not sets.is_empty():
        part = sets.take_value(0x31)
        while not part.is_empty():
            attribute = part.take_sequence()
            take_oid(attribute)
            tag = attribute.peek()
            found.append((tag, attribute.take_value(tag).rest()))
    return found


def has_other_characters(raw):
    return any(tag == PRINTABLE_STRING and not set(octets) <= PRINTABLE
               for name in (raw.issuer, raw.subject) for tag, octets in attributes(name))


def has_other_time(raw):
    times = Cursor(raw.validity.rest())
    for moment in (raw.f.not_before, raw.f.not_after):
        tag = times.peek()
        times.take_value(tag)
        if tag == GENERALIZED_TIME and 1950 <= moment[0] <= 2049:
            return True
    return False


def descriptions(raw):
    """The methods of Subject Information Access, and what follows each."""
    found = []
    for _, _, content in raw.of(OID['SubjectInformationAccess']):
        vector = Cursor(content).take_sequence()
        while not vector.is_empty():
            description = vector.take_sequence()
            found.append((take_oid(description), description))
    return found


def is_elsewhere(description):
    """Whether the location is a URI of another scheme than https."""
    if description.peek() != 0x86:
        return False
    return description.take_value(0x86).rest()[:8].lower() != b'https://'


def has_other_qualifiers(raw):
    for _, _, content in raw.of(OID['CertificatePolicies']):
        policy = Cursor(content).take_sequence().take_sequence()
        take_oid(policy)
        if policy.peek() != 0x30:
            continue
        qualifiers = policy.take_sequence()
        try:
            first = qualifiers.take_sequence()
            if take_oid(first) != ID_CPS or not qualifiers.is_empty():
                return True
        except Refusal:
            return True
    return False


def is_not_one_value(content):
    cursor = Cursor(content)
    try:
        cursor.take_value(cursor.peek())
    except Refusal:
        return True
    return not cursor.is_empty()


def is_end_entity(raw):
    return raw.f.key_usage == 'Ee'


def count_of(raw, method):
    return sum(it == method for it, _ in descriptions(raw))


def canonical(raw, kind):
    """The one content of resources; there is none of no resources."""
    f = raw.f
    if {f.v4, f.v6} == {MISSING} if kind is OID_IP else f.asn == MISSING:
        return None
    return put_ip_content(f.v4, f.v6) if kind is OID_IP else put_as_content(f.asn)


def is_other_form(raw, kind):
    return any(content != canonical(raw, kind) for _, _, content in raw.of(*kind.values()))


def is_not_critical(raw, kind):
    return any(not critical for _, critical, _ in raw.of(*kind.values()))


KNOWN = {it for known, _, _ in KINDS.values() for it in known}
# each note and what it is of, in the order in which they are told
NOTES = {
    'SerialZero': lambda raw: raw.f.serial == 0,
    'SerialLong': lambda raw: raw.f.serial >= 1 << 159,
    'IssuerForm': lambda raw: not inspect_rpki_name(raw.f.issuer, True),
    'TimeForm': has_other_time,
    'SubjectForm': lambda raw: raw.f.extended_key_usage is None and not inspect_rpki_name(raw.f.subject, True),
    'NameCharacters': has_other_characters,
    'EndEntityNotify': lambda raw: is_end_entity(raw) and raw.f.rpki_notify is not None,
    'EndEntityMethod': lambda raw: is_end_entity(raw) and any(
        it not in KNOWN_METHODS for it, _ in descriptions(raw)),
    'EndEntityObjects': lambda raw: is_end_entity(raw) and count_of(raw, OID_SIGNED_OBJECT) > 1,
    'NotifyForm': lambda raw: raw.f.rpki_notify is None and count_of(raw, OID_NOTIFY) > 0,
    'NotifyScheme': lambda raw: raw.f.rpki_notify is not None and any(
        it == OID_NOTIFY and is_elsewhere(rest) for it, rest in descriptions(raw)),
    'QualifierForm': has_other_qualifiers,
    'IpNotCritical': lambda raw: is_not_critical(raw, OID_IP),
    'AsNotCritical': lambda raw: is_not_critical(raw, OID_AS),
    'IpForm': lambda raw: is_other_form(raw, OID_IP),
    'AsForm': lambda raw: is_other_form(raw, OID_AS),
    'BytesAfterValue': lambda raw: any(is_not_one_value(content) for it, _, content in raw.extensions if it in KNOWN),
    'FlagForm': lambda raw: any(it and it.rest() == b'\0' for it in raw.flags),
    'ExtensionTwice': lambda raw: len({it for it, _, _ in raw.extensions}) < len(raw.extensions),
}


def notes_of(cert):
    """The names of the notes of a certificate, in their order."""
    raw = Raw(cert)
    return [name for name, is_so in NOTES.items() if is_so(raw)]
