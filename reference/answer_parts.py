"""Answers to questions about values of DER, parts, URIs, sets and extensions."""

import answer_words as show
import reference as ref
from answer_words import ADDRESSES, NUMBERS, line, refused

# ------------------------------------------------------ values of DER ---


def read(words, place, take, shown, asks=False):
    """One call of a cursor over a word's octets, and where it then stands.

    `shown` gives the fields of what was read; with `asks` it is also handed
    the octets of the question.
    """
    octets = words.octets(place)
    cursor = ref.Cursor(octets)
    try:
        value = take(cursor)
        if value is None and shown is content:
            return line('none', show.left(cursor))
        fields = shown(octets, value) if asks else shown(value)
        return line('ok', *fields, show.left(cursor))
    except ref.DecodeError as fault:
        return line(refused(fault), show.left(cursor))


def content(cursor):
    return [('content', show.hexed(cursor.rest())), ('span', show.span(cursor))]


def take_bits(cursor):
    unused, octets = ref.take_bits(cursor)
    end = cursor.place
    return unused, cursor.inside(end - len(octets), end)


def piece(octets):
    return [('piece', show.hexed(octets)), ('cursor', 'yes'), ('copy', 'same')]


def finish(words):
    cursor = ref.Cursor(words.octets(1))
    head = refused('Trailing') if not cursor.is_empty() else 'ok'
    return line(head, ('empty', show.yes(cursor.is_empty())), show.left(cursor))


def nothing(_value):
    return []


def identifier(words):
    octets = words.octets(1)
    if not ref.is_oid(octets):
        return 'refused BadValue'
    return line('ok', ('oid', show.hexed(octets)), ('copy', 'same'))


DER = {
    'value': lambda w: read(w, 2, lambda c: c.take_value(w.octet(1)), content),
    'optional-value': lambda w: read(
        w, 2, lambda c: c.take_opt_value(w.octet(1)), content),
    'sequence': lambda w: read(w, 1, ref.Cursor.take_sequence, content),
    'optional-sequence': lambda w: read(
        w, 1, ref.Cursor.take_opt_sequence, content),
    'octets': lambda w: read(w, 1, lambda c: c.take_value(4), content),
    'bits': lambda w: read(w, 1, take_bits, lambda it: [
        ('unused', it[0]), *content(it[1])]),
    'unsigned': lambda w: read(w, 1, ref.take_unsigned, content),
    'oid': lambda w: read(w, 1, ref.take_oid, lambda it: [
        ('oid', show.hexed(it))]),
    'u32': lambda w: read(w, 1, ref.take_u32, lambda it: [('number', it)]),
    'null': lambda w: read(w, 1, ref.take_null, nothing),
    'boolean': lambda w: read(w, 1, ref.take_bool_or_false, lambda it: [
        ('value', show.yes(it))]),
    'skip': lambda w: read(w, 1, ref.Cursor.skip_one, nothing),
    'skip-all': lambda w: read(w, 1, ref.Cursor.skip_all, nothing),
    'capture': lambda w: read(w, 1, ref.Cursor.capture_one, piece),
    'capture-rest': lambda w: read(w, 1, ref.Cursor.capture_rest, piece),
    'finish': finish,
    'identifier': identifier,
}


# ---------------------------------------------------------- written values ---

def write_value(words):
    if words.octet(2) % 32 == 31:
        return None
    tail = words.octets(4) if words.at(1) == 'parts' else b''
    return ref.enc(words.octet(2), words.octets(3), tail)


def write_bits(words):
    unused, octets = words.small(2), words.octets(3)
    if unused > 7 or (octets or unused) and (
            not octets or octets[-1] % (1 << unused)):
        return None
    return ref.put_bits(unused, octets)


def write_identifier(words):
    octets = words.octets(2)
    if not ref.is_oid(octets):
        return None
    if words.at(1) == 'oid':
        return ref.enc(0x06, octets)
    return ref.put_extension(octets, words.at(3) == 'critical', words.octets(4))


WRITERS = {
    'value': write_value, 'parts': write_value, 'bits': write_bits,
    'boolean': lambda w: ref.enc(
        0x01, b'\xff' if w.at(2) == 'yes' else b'\x00'),
    'unsigned': lambda w: ref.put_unsigned(int.from_bytes(w.octets(2), 'big')),
}


def write(words):
    written = WRITERS.get(words.at(1), write_identifier)(words)
    if written is None:
        return 'unfit'
    return line('ok', ('written', show.hexed(written)))


# ------------------------------------------------------------------- parts ---

def validity(asked, times):
    written = ref.enc(0x30, *map(ref.put_time, times))
    return [('not-before', show.time(times[0])),
            ('not-after', show.time(times[1])),
            ('written', show.again(asked, written))]


def key_identifier(asked, octets):
    return [('identifier', show.hexed(octets)),
            ('written', show.again(asked, ref.enc(0x04, octets))),
            ('written-80', show.hexed(ref.enc(0x80, octets)))]


def algorithm(asked, has_null):
    return [('written', show.again(asked, ref.put_algorithm(has_null))),
            ('is-default', show.yes(has_null)),
            ('is-without-parameter', show.yes(not has_null))]


def name(asked, octets):
    return [('name', show.hexed(octets)),
            ('written', show.again(asked, octets)), ('copy', 'same')]


def key(asked, value):
    return [('key', show.key(value)),
            ('key-identifier', show.hexed(value.identifier())),
            ('subject-name', show.hexed(value.subject_name())),
            ('written', show.again(asked, ref.put_key(value))),
            ('copy', 'same')]


def signed_fields(words, asked, signed):
    fields = [('data', show.hexed(signed.data)),
              ('algorithm', show.algorithm(signed.algorithm)),
              ('signature', show.hexed(signed.signature)),
              ('written', show.again(asked, signed.octets())),
              ('copy', 'same')]
    if words.at(2) != '-':
        fields.append(('verifies', verifies(words, signed)))
    return fields


def verifies(words, signed):
    try:
        public = ref.take_key(ref.Cursor(words.octets(2)))
    except ref.DecodeError as fault:
        return fault
    return show.yes(ref.stand_in(public, signed.algorithm, signed.data,
                                 signed.signature))


def made(field, shown, value):
    return 'none' if value is None else line('ok', (field, shown(value)))


def serial_of(words):
    number = show.hexadecimal(words.at(1))
    return line('ok', ('serial', show.serial(number)),
                ('serial-of-lower-half', show.serial(number % (1 << 64))))


def moment(words):
    numbers = [words.signed(1), *(words.number(n) for n in range(2, 7))]
    return made('time', show.time, ref.time_utc(*numbers))


PARTS = {
    'serial': lambda w: read(w, 1, ref.take_serial, lambda it: [
        ('serial', show.serial(it))]),
    'time': lambda w: read(w, 1, ref.take_time, lambda it: [
        ('time', show.time(it))]),
    'validity': lambda w: read(w, 1, ref.take_validity, validity, True),
    'key-identifier': lambda w: read(
        w, 1, ref.take_subject_key_identifier, key_identifier, True),
    'algorithm': lambda w: read(w, 1, ref.take_algorithm, algorithm, True),
    'name': lambda w: read(w, 1, ref.take_name, name, True),
    'key': lambda w: read(w, 1, ref.take_key, key, True),
    'signed': lambda w: read(
        w, 1, ref.take_signed_content,
        lambda asked, it: signed_fields(w, asked, it), True),
    'number': lambda w: made(
        'serial', show.serial, ref.serial_from_slice(w.octets(1))),
    'serial-of': serial_of,
    'moment': moment,
}


# -------------------------------------------------------------------- URIs ---

def rsync_fields(octets):
    fields = [('uri', show.text(octets))]
    parent = ref.rsync_parent(octets)
    fields.append(('parent', show.uri(parent)))
    if parent is not None:
        fields.append(('parent-is', show.yes(ref.parent_is(octets, parent))))
    return fields


def https_fields(octets):
    return [('uri', show.text(octets))]


def read_uri(words, reads, fields):
    octets = words.characters(1)
    first = refused('BadUri')
    if reads(octets):
        first = line('ok', *fields(octets), ('copy', 'same'))
    others = [('piece', 'same')]
    try:
        octets.decode()
        others.append(('text', 'same'))
    except UnicodeDecodeError:
        pass
    return line(first, *others)


def parent(words):
    octets = words.characters(1)
    if not ref.is_rsync(octets):
        return refused('BadUri')
    return made('uri', show.text, ref.rsync_parent(octets))


URIS = {
    'rsync': lambda w: read_uri(w, ref.is_rsync, rsync_fields),
    'https': lambda w: read_uri(w, ref.is_https, https_fields),
    'parent': parent,
}


# ------------------------------------------------------------ two values ---

def ordered(one, other):
    if one is None or other is None:
        return 'none'
    order = 'equal' if one == other else 'less' if one < other else 'greater'
    return line('ok', ('order', order), ('equal', show.yes(one == other)),
                ('less', show.yes(one < other)))


def time_or_none(octets):
    try:
        return ref.take_time(ref.Cursor(octets))
    except ref.DecodeError:
        return None


def two_uris(words):
    one, other = words.characters(2), words.characters(3)
    reads = ref.is_rsync if words.at(1) == 'rsync' else ref.is_https
    if not (reads(one) and reads(other)):
        return 'none'
    fields = [('equal', ref.uri_equal(one, other))]
    if words.at(1) == 'rsync':
        fields += [('identical', ref.rsync_identical(one, other)),
                   ('second-is-parent', ref.parent_is(one, other)),
                   ('first-is-parent', ref.parent_is(other, one))]
    return line('ok', *((field, show.yes(holds)) for field, holds in fields))


def compare(words):
    kind = words.at(1)
    if kind == 'serials':
        return ordered(*(ref.serial_from_slice(words.octets(n)) for n in (2, 3)))
    if kind == 'times':
        return ordered(*(time_or_none(words.octets(n)) for n in (2, 3)))
    return two_uris(words)


# -------------------------------------------------------------------- sets ---

def is_v4(ranges):
    return all(low % (1 << 96) == 0 and (high + 1) % (1 << 96) == 0
               for low, high in ranges)


def put_ip_extension(mode, v4, v6):
    """The extension with addresses, nothing where both kinds are missing."""
    if v4 == v6 == ref.MISSING:
        return b''
    return ref.put_extension(ref.OID_IP[mode], True, ref.put_ip_content(v4, v6))


def put_as_extension(mode, resources):
    if resources == ref.MISSING:
        return b''
    return ref.put_extension(ref.OID_AS[mode], True,
                             ref.put_as_content(resources))


def extension_of(kind, ranges, resources, mode):
    if kind == NUMBERS:
        return put_as_extension(mode, resources)
    v4 = ref.blocks(ranges) if is_v4(ranges) else ref.MISSING
    return put_ip_extension(mode, v4, resources)


def issued(kind, ranges, resources, mode):
    found = ref.issued(ranges, resources, mode)
    return 'Overclaimed' if found is None else show.shown_set(kind, found)


def under(kind, ranges, resources):
    """What an issuer's set leaves of resources, and how they are written."""
    fields = [('listed', show.listed(kind, resources))]
    for mode in (ref.REFUSE, ref.TRIM):
        fields.append((f'issued-{mode.lower()}',
                       issued(kind, ranges, resources, mode)))
    for mode in (ref.REFUSE, ref.TRIM):
        written = extension_of(kind, ranges, resources, mode)
        fields.append((f'written-{mode.lower()}', show.hexed(written)))
    return fields


def beside(kind, ranges, resources):
    """Two sets: either inside the other, and what they have in common."""
    if resources == ref.INHERIT:
        return [('other', 'Inherited')]
    other = () if resources == ref.MISSING else resources
    common = show.shown_set(kind, ref.intersection(ranges, other))
    return [('other', show.shown_set(kind, other)),
            ('within', show.yes(ref.is_encompassed(ranges, other))),
            ('contains-all', show.yes(ref.is_encompassed(other, ranges))),
            ('common', common), ('common-too', common)]


def sets(words):
    kind = ADDRESSES if words.at(1) == ADDRESSES else NUMBERS
    ranges = ref.union(show.blocks_of(kind, words.at(2)))
    shown = show.shown_set(kind, ranges)
    fields = [('set', shown), ('built', shown),
              ('is-empty', show.yes(not ranges))]
    if kind == ADDRESSES:
        fields.append(('is-v4', show.yes(is_v4(ranges))))
    fields.append(('contains', ','.join(
        show.yes(ref.contains(ranges, show.number_of(kind, point)))
        for point in words.at(4).split(','))))
    resources = show.resources_of(kind, words.at(3))
    return line('ok', *fields, *under(kind, ranges, resources),
                *beside(kind, ranges, resources))


def prefix(words):
    address, length = show.hexadecimal(words.at(1)), words.small(2)
    if length > 128:
        return 'unfit'
    spare = 128 - length
    low = address >> spare << spare
    ranges = ((low, low | (1 << spare) - 1),)
    return line('ok', ('set', show.shown_set(ADDRESSES, ranges)),
                ('is-v4', show.yes(is_v4(ranges))))


def mode_with(identifiers, octets):
    return next((mode for mode, known in identifiers.items()
                 if known == octets), 'none')


IDENTIFIERS = (('policy', ref.OID_POLICY), ('ip-resources', ref.OID_IP),
               ('as-resources', ref.OID_AS))


def overclaim(words):
    return line('ok', *((field, mode_with(known, words.octets(1)))
                        for field, known in IDENTIFIERS))


def mode(words):
    found = ref.TRIM if words.at(1) == 'Trim' else ref.REFUSE
    return line('ok', ('mode', found), *(
        (field, show.hexed(known[found])) for field, known in IDENTIFIERS))


def families(pair):
    v4, v6 = (ref.MISSING if it is None else it for it in pair)
    shown = ['absent' if it is None else show.listed(ADDRESSES, it)
             for it in pair]
    return [('v4-resources', shown[0]), ('v6-resources', shown[1]),
            ('written', show.hexed(put_ip_extension(ref.REFUSE, v4, v6)))]


def numbers(resources):
    return [('as-resources', show.listed(NUMBERS, resources)),
            ('written', show.hexed(put_as_extension(ref.TRIM, resources)))]


RESOURCES = {
    'sets': sets, 'prefix': prefix, 'overclaim': overclaim, 'mode': mode,
    'addresses': lambda w: read(w, 1, ref.take_families, families),
    'asns': lambda w: read(w, 1, ref.take_as_resources, numbers),
}


# -------------------------------------------------------------- extensions ---

def put_kind(kind, content_octets):
    """A whole extension of a kind, flagged as the kind asks."""
    identifiers, flag, _ = ref.KINDS[kind]
    return show.hexed(ref.put_extension(identifiers[0], flag is True,
                                        content_octets))


def basic_constraints(is_ca):
    octets = ref.enc(0x30, ref.enc(0x01, b'\xff') if is_ca else b'')
    return [('basic-ca', show.yes(is_ca)),
            ('written', put_kind('BasicConstraints', octets))]


def subject_key(octets):
    return [('subject-key-identifier', show.hexed(octets)),
            ('written', put_kind('SubjectKeyIdentifier', ref.enc(4, octets)))]


def authority_key(octets):
    return [('authority-key-identifier', show.hexed(octets)),
            ('written', put_kind('AuthorityKeyIdentifier',
                                 ref.put_key_id_content(octets)))]


def key_usage(usage):
    bits = ref.KEY_USAGE[usage]
    return [('key-usage', usage), ('written', put_kind('KeyUsage', bits)),
            ('written-bits', show.hexed(bits))]


def purposes(vector):
    return [('extended-key-usage', show.hexed(vector)),
            ('written', put_kind('ExtendedKeyUsage', ref.enc(0x30, vector))),
            ('copy', 'same')]


def crl_points(octets):
    return [('crl-uri', show.text(octets)),
            ('written', put_kind('CrlDistributionPoints',
                                 ref.put_crl_points_content(octets)))]


def authority_access(octets):
    return [('ca-issuer', show.text(octets)),
            ('written', put_kind('AuthorityInformationAccess',
                                 ref.put_authority_access_content(octets)))]


def subject_access(found):
    vectors = [ref.enc(0x30, ref.enc(0x06, method), ref.put_uri_name(found[field]))
            for field, method, _ in ref.SIA_METHODS if found[field] is not None]
    fields = [(field.replace('_', '-'), show.uri(found[field]))
              for field, _, _ in ref.SIA_METHODS]
    written = put_kind('SubjectInformationAccess', ref.enc(0x30, *vectors))
    return fields + [('written', written if vectors else '-')]


def policies(found):
    octets = ref.enc(0x30, ref.enc(0x30, ref.enc(0x06, ref.OID_POLICY[found])))
    return [('overclaim', found),
            ('written', put_kind('CertificatePolicies', octets))]


CONTENTS = {
    'basic-constraints': ('BasicConstraints', basic_constraints),
    'subject-key-identifier': ('SubjectKeyIdentifier', subject_key),
    'authority-key-identifier': ('AuthorityKeyIdentifier', authority_key),
    'key-usage': ('KeyUsage', key_usage),
    'extended-key-usage': ('ExtendedKeyUsage', purposes),
    'crl-distribution-points': ('CrlDistributionPoints', crl_points),
    'authority-information-access':
        ('AuthorityInformationAccess', authority_access),
    'subject-information-access':
        ('SubjectInformationAccess', subject_access),
    'certificate-policies': ('CertificatePolicies', policies),
}


def whole_extension(found):
    octets, critical, cursor = found
    return [('oid', show.hexed(octets)), ('critical', show.yes(critical)),
            *content(cursor)]


def extension(words):
    """The content of a kind, or else a whole extension."""
    if words.at(1) not in CONTENTS:
        return read(words, 1, ref.take_extension, whole_extension)
    kind, shown = CONTENTS[words.at(1)]
    answer = read(words, 2, ref.KINDS[kind][2], shown)
    if kind in ('ExtendedKeyUsage', 'SubjectInformationAccess'):
        head, _, place = answer.rpartition(' left=')
        read_too = show.yes(head.startswith('ok'))
        answer = f'{head} by-type={read_too} left={place}'
    return answer
