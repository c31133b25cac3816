"""Single faults for fuzz.py.

A path fault is a function of a `random.Random` and a path that spoils the
path and returns what it expects: a triple (index, stage, name), name None
where it is free; or NOTHING where the reference alone decides. It returns None
where the path offers no place for it.
"""

from dataclasses import replace

import reference as ref
import random_paths as sound

NOTHING = (None, None, None)
AUTHORITIES, ISSUED = (ref.TA, ref.CA), (ref.CA, ref.EE, ref.DETACHED)
LEAVES, ALL = (ref.EE, ref.DETACHED), (ref.TA, ref.CA, ref.EE, ref.DETACHED)


def pick(rng, path, kinds):
    places = [i for i, d in enumerate(path.drafts) if d.kind in kinds]
    return rng.choice(places) if places else None


# --------------------------------------------- faults of profile and path ---

def field_fault(stage, name, kinds, changes):
    """A fault by other fields; `changes` is a function of rng, path, index."""
    def spoil(rng, path):
        index = pick(rng, path, kinds)
        change = None if index is None else changes(rng, path, index)
        if change is None:
            return None
        path.drafts[index] = sound.encoded_anew(rng, path.drafts[index], path.depth,
                                                **change)
        return index, stage, name
    return spoil


def inspect_fault(name, kinds, **constant):
    return field_fault('inspect', name, kinds, lambda *_: constant)


def bad_name(rng, path):
    strict, depth = path.strict, path.depth
    text = ref.enc(0x13, b'AB')
    common = (ref.OID_COMMON_NAME, text)
    serial = (ref.OID_SERIAL_NUMBER, text)
    vectors = [[[common, common]], [[common], [common]], [[serial]], [],
            [[common, (ref.hex_octets('550406'), text)]],
            [[common], [serial], [serial]],
            [[(ref.OID_COMMON_NAME, ref.enc(0x33, text))]],
            [[(ref.OID_COMMON_NAME, ref.enc(0x16, b'AB'))]],
            [[common, (ref.OID_SERIAL_NUMBER, ref.enc(0x14, b'AB'))]],
            [[(ref.OID_COMMON_NAME, sound.tower(rng, depth))]]]
    if strict and sound.chance(rng, 0.5):
        vectors = [[[(ref.OID_COMMON_NAME, ref.enc(0x0C, b'AB'))]],
                 [[common], [(ref.OID_SERIAL_NUMBER, ref.enc(0x0C, b'A'))]]]
    return ref.put_name(rng.choice(vectors))


def not_a_child(rng, path, index):
    f = path.drafts[index].f
    base = f.ca_repository.removesuffix(b'/')
    scheme_end = base.index(b'/', 8)
    manifests = [base + b'/a/b', base, base + b'x/m.mft', base + b'/a//b',
                 base[:scheme_end] + b'.x' + base[scheme_end:] + b'/m.mft',
                 b'rsync://h/m', b'rsync://h/m/', base + b'//m.mft']
    manifests = [m for m in manifests
                 if ref.is_rsync(m) and not ref.parent_is(m, f.ca_repository)]
    return {'rpki_manifest': rng.choice(manifests)}


def flipped(rng, octets):
    place = rng.randrange(len(octets))
    return (octets[:place] + bytes([octets[place] ^ 1 << rng.randrange(8)]) +
            octets[place + 1:])


def moved(time, step):
    """One second later or earlier, None past the years."""
    limits = [(0, 9999), (1, 12), (1, 31), (0, 23), (0, 59), (0, 59)]
    time = list(time)
    for place in range(5, -1, -1):
        low, high = limits[place]
        if place == 2:
            high = ref.days_of_month(time[0], time[1])
        if low <= time[place] + step <= high:
            time[place] += step
            return ref.time_utc(*time)
        time[place] = low if step > 0 else high
    return None


def later(rng, path, _index):
    one = moved(path.now, 1)
    return {'not_before': rng.choice([one, (9999, 12, 31, 23, 59, 59)])}


def earlier(rng, path, _index):
    before = rng.choice([moved(path.now, -1), (2023, 12, 31, 23, 59, 59)])
    return {'not_after': before, 'not_before': (1950, 1, 1, 0, 0, 0)}


def overclaiming(kind):
    """Refuse, and a number that the issuer doesn't hold."""
    def changes(rng, path, index):
        above = path.sets[index - 1][kind]
        ends = [sound.RANDOM_BLOCK[kind](rng) for _ in range(4)]
        ends += [(low, high) for low, high in neighbours(kind, above)]
        outside = [b for b in ends if not ref.is_encompassed((b,), above)]
        if not outside:
            return None
        wanted = ref.union([*above, rng.choice(outside)])
        others = {k: ref.INHERIT for k in sound.KINDS}
        return others | {kind: wanted, 'overclaim': ref.REFUSE}
    return changes


def neighbours(kind, ranges):
    """Blocks one unit beyond the ends of the ranges."""
    unit = 1 << 96 if kind == 'v4' else 1
    top = ref.AS_MAX if kind == 'asn' else (1 << 128) - 1
    for low, high in ranges:
        if low > 0:
            yield low - unit, low - 1
        if high < top:
            yield high + 1, high + unit


def inherited(kind):
    later_kinds = sound.KINDS[sound.KINDS.index(kind) + 1:]

    def changes(rng, _path, _index):
        found = {kind: ref.INHERIT}
        return found | {k: ref.INHERIT for k in later_kinds
                        if sound.chance(rng, 0.5)}
    return changes


def algorithm_mismatch(rng, path):
    index = pick(rng, path, ALL)
    draft = path.drafts[index]
    draft.outer_null = not draft.outer_null
    return index, 'inspect', 'AlgorithmMismatch'


def other_signature(rng, path):
    index = pick(rng, path, ALL)
    draft = path.drafts[index]
    data, bits = draft.tbs_octets(), draft.signer.bits
    true = bits + data
    wrong = [flipped(rng, true), true[:-1], true + b'\0', b'', data + bits,
             draft.f.key.bits + data, ref.encode_tbs(draft.f), sound.noise(rng) + data]
    wrong = [w for w in wrong if w != true]
    draft.signature = rng.choice(wrong)
    return index, 'verify', 'BadSignature'


def random_id(rng, *_):
    return {'subject_key_identifier': rng.randbytes(20)}


def key_of_p256(_rng, path, index):
    return {'key': ref.Key(ref.P256, path.drafts[index].f.key.bits)}


def wrong_key_id(rng, path, index):
    draft = path.drafts[index]
    wrong = [draft.f.key.identifier(), rng.randbytes(20),
             flipped(rng, draft.signer.identifier())]
    wrong = [w for w in wrong if w != draft.signer.identifier()]
    return {'authority_key_identifier': rng.choice(wrong)}


def other_usage(_rng, path, index):
    usage = path.drafts[index].f.key_usage
    return {'key_usage': 'Ee' if usage == 'Ca' else 'Ca'}


def one_uri(field):
    return lambda rng, *_: {field: sound.random_uri(rng)}


def either_flag(rng, *_):
    return {'basic_ca': rng.choice([True, False])}


def purposes(rng, *_):
    vector = [ref.enc(0x06, i) for i in (ref.OID_ROUTER, ref.hex_octets('2A03'))]
    return {'extended_key_usage': b''.join(vector[:rng.randint(1, 2)])}


def anchor_other_id(rng, *_):
    return {'authority_key_identifier': rng.randbytes(20)}


PROFILE_FAULTS = {
    'AlgorithmMismatch': algorithm_mismatch,
    'Issuer': field_fault('inspect', 'Issuer', ALL, lambda rng, path, i:
                          {'issuer': bad_name(rng, path)}),
    'Subject': field_fault('inspect', 'Subject', ALL, lambda rng, path, i:
                           {'subject': bad_name(rng, path)}),
    'KeyAlgorithm': field_fault('inspect', 'KeyAlgorithm', ALL, key_of_p256),
    'SubjectKeyIdentifier': field_fault(
        'inspect', 'SubjectKeyIdentifier', ALL, random_id),
    'ExtendedKeyUsagePresent': field_fault(
        'inspect', 'ExtendedKeyUsagePresent', ALL, purposes),
    'CaFlagFalse': inspect_fault('CaFlagFalse', AUTHORITIES, basic_ca=False),
    'MissingBasicConstraints': inspect_fault(
        'MissingBasicConstraints', AUTHORITIES, basic_ca=None),
    'KeyUsage': field_fault('inspect', 'KeyUsage', ALL, other_usage),
    'MissingCaRepository': inspect_fault(
        'MissingCaRepository', AUTHORITIES, ca_repository=None),
    'MissingManifest': inspect_fault(
        'MissingManifest', AUTHORITIES, rpki_manifest=None),
    'ManifestNotChild': field_fault(
        'inspect', 'ManifestNotChild', AUTHORITIES, not_a_child),
    'SignedObjectPresent': field_fault(
        'inspect', 'SignedObjectPresent', AUTHORITIES,
        one_uri('signed_object')),
    'AuthorityKeyIdentifier': field_fault(
        'inspect', 'AuthorityKeyIdentifier', (ref.TA,), anchor_other_id),
    'CrlUriPresent': field_fault(
        'inspect', 'CrlUriPresent', (ref.TA,), one_uri('crl_uri')),
    'CaIssuerPresent': field_fault(
        'inspect', 'CaIssuerPresent', (ref.TA,), one_uri('ca_issuer')),
    'MissingCrlUri': inspect_fault('MissingCrlUri', ISSUED, crl_uri=None),
    'BasicConstraintsPresent': field_fault(
        'inspect', 'BasicConstraintsPresent', LEAVES, either_flag),
    'CaRepositoryPresent': field_fault(
        'inspect', 'CaRepositoryPresent', LEAVES, one_uri('ca_repository')),
    'ManifestPresent': field_fault(
        'inspect', 'ManifestPresent', LEAVES, one_uri('rpki_manifest')),
    'MissingSignedObject': inspect_fault(
        'MissingSignedObject', (ref.EE,), signed_object=None),
    'NotYetValid': field_fault('verify', 'NotYetValid', ALL, later),
    'Expired': field_fault('verify', 'Expired', ALL, earlier),
    'InheritedV4': field_fault(
        'verify', 'InheritedV4', (ref.TA,), inherited('v4')),
    'InheritedV6': field_fault(
        'verify', 'InheritedV6', (ref.TA,), inherited('v6')),
    'InheritedAs': field_fault(
        'verify', 'InheritedAs', (ref.TA,), inherited('asn')),
    'MissingKeyId': field_fault(
        'verify', 'MissingKeyId', ISSUED,
        lambda *_: {'authority_key_identifier': None}),
    'WrongKeyId': field_fault('verify', 'WrongKeyId', ISSUED, wrong_key_id),
    'MissingIssuerUri': field_fault(
        'verify', 'MissingIssuerUri', ISSUED, lambda *_: {'ca_issuer': None}),
    'BadSignature': other_signature,
    'OverclaimV4': field_fault(
        'verify', 'OverclaimV4', ISSUED, overclaiming('v4')),
    'OverclaimV6': field_fault(
        'verify', 'OverclaimV6', ISSUED, overclaiming('v6')),
    'OverclaimAs': field_fault(
        'verify', 'OverclaimAs', ISSUED, overclaiming('asn')),
}


# ------------------------------------------- faults of single extensions ---

def places_of(draft, kind):
    """Where extensions of a kind stand among a draft's pieces."""
    return [place for place, piece in enumerate(draft.pieces)
            if ref.kind_of(ref.take_extension(ref.Cursor(piece))[0]) == kind]


def parts_of(piece):
    identifier, critical, content = ref.take_extension(ref.Cursor(piece))
    return identifier, critical, content.rest()


def put_anywhere(rng, draft, piece):
    draft.pieces.insert(rng.randint(0, len(draft.pieces)), piece)


def ensure_kind(rng, draft, kind):
    """The place of an extension of a kind, put there if it was absent."""
    if not places_of(draft, kind):
        whole = replace(
            draft.f, basic_ca=True, extended_key_usage=ref.enc(0x06, b'\x2a'),
            authority_key_identifier=bytes(20), crl_uri=b'rsync://h/m/p',
            ca_issuer=b'rsync://h/m/p', signed_object=b'rsync://h/m/p',
            v4=ref.INHERIT, asn=ref.INHERIT)
        put_anywhere(rng, draft, next(
            ref.put_extension(*triple) for triple in ref.known_contents(whole)
            if ref.kind_of(triple[0]) == kind))
    return places_of(draft, kind)[0]


def drop_extension(rng, draft, _depth):
    drop = rng.choice([('SubjectKeyIdentifier',), ('KeyUsage',),
                       ('CertificatePolicies',),
                       ('IpResources', 'AsResources')])
    gone = [place for kind in drop for place in places_of(draft, kind)]
    draft.pieces = [piece for place, piece in enumerate(draft.pieces)
                    if place not in gone]


def duplicate(kind):
    def spoil(rng, draft, _depth):
        put_anywhere(rng, draft, draft.pieces[ensure_kind(rng, draft, kind)])
    return spoil


def other_mode(kind):
    """A resources extension under the other identifier, alone or besides."""
    def spoil(rng, draft, _depth):
        place = ensure_kind(rng, draft, kind)
        other = ref.TRIM if draft.f.overclaim == ref.REFUSE else ref.REFUSE
        identifiers = ref.OID_IP if kind == 'IpResources' else ref.OID_AS
        _, critical, content = parts_of(draft.pieces[place])
        piece = ref.put_extension(identifiers[other], critical, content)
        if sound.chance(rng, 0.5):
            draft.pieces[place] = piece
        else:
            put_anywhere(rng, draft, piece)
    return spoil


def unknown_critical(rng, draft, _depth):
    piece = ref.put_extension(rng.choice(sound.UNKNOWN_OIDS), True, sound.noise(rng))
    put_anywhere(rng, draft, piece)


def other_flag(kind):
    def spoil(rng, draft, _depth):
        place = ensure_kind(rng, draft, kind)
        identifier, critical, content = parts_of(draft.pieces[place])
        flag = ref.enc(0x01, b'\xff')
        if critical:
            flag = rng.choice([b'', ref.enc(0x01, b'\0')])
        draft.pieces[place] = ref.enc(0x30, ref.enc(0x06, identifier), flag,
                                      ref.enc(0x04, content))
    return spoil


def bad_content(kind):
    def spoil(rng, draft, depth):
        place = ensure_kind(rng, draft, kind)
        identifier, critical, _ = parts_of(draft.pieces[place])
        content = rng.choice(bad_contents(kind, depth))
        draft.pieces[place] = ref.put_extension(identifier, critical, content)
    return spoil


def two_uris(rng, draft, _depth):
    """Two readable URIs among the names of one extension."""
    kind = rng.choice(['CrlDistributionPoints', 'AuthorityInformationAccess'])
    place = ensure_kind(rng, draft, kind)
    texts = [sound.random_uri(rng), sound.random_uri(rng)]
    texts.insert(rng.randrange(3), b'x')
    vector = b''.join(ref.put_uri_name(text) for text in texts)
    if kind == 'CrlDistributionPoints':
        vector = ref.enc(0xA0, ref.enc(0xA0, vector))
    else:
        vector = ref.enc(0x06, ref.OID_CA_ISSUERS) + vector
    draft.pieces[place] = ref.put_extension(
        ref.OID[kind], False, ref.enc(0x30, ref.enc(0x30, vector)))


def bad_piece(rng, draft, _depth):
    """An extension whose outside is against the grammar."""
    place = rng.randrange(len(draft.pieces))
    identifier, _, content = parts_of(draft.pieces[place])
    name, body = ref.enc(0x06, identifier), ref.enc(0x04, content)
    yes = ref.enc(0x01, b'\xff')
    draft.pieces[place] = rng.choice([
        ref.enc(0x30, name), ref.enc(0x30, name, body, body), ref.enc(0x30, body),
        ref.enc(0x30, name, yes, yes, body), ref.enc(0x31, name, yes, body),
        ref.enc(0x30, name, ref.enc(0x01, b'\1'), body), b'\x05\0',
        ref.enc(0x30, name, ref.enc(0x01), body), ref.enc(0x30, name, body, b'\5\0'),
        ref.enc(0x30, name, ref.enc(0x01, b'\xff\xff'), body),
        ref.enc(0x30, ref.enc(0x06), yes, body), ref.enc(0x30),
        ref.enc(0x30, ref.enc(0x06, b'\x80\1'), body),
        ref.enc(0x30, ref.enc(0x06, identifier + b'\x81'), body),
        ref.enc(0x30, ref.enc(0x06, identifier + b'\x80\1'), body),
        ref.enc(0x30, name, ref.enc(0x24, body)),
        ref.enc(0x30, name, ref.enc(0x03, b'\0' + content))])


def h(*texts):
    return [ref.hex_octets(text) for text in texts]


def bad_uri_vectors():
    """Vectors of names of which none, two or a broken one reads."""
    uri, name = b'rsync://h/m/p', ref.put_uri_name
    return [b'', name(b'x'), name(uri) * 2, name(uri) + name(uri.upper()),
            name(uri) + ref.enc(0x82, uri), name(uri + b'\xc3'), b'\x86',
            name(b'\x80') + name(uri), ref.enc(0xA6, uri), name(uri) + b'\5\0',
            ref.enc(0x16, uri), *map(name, sound.NOT_RSYNC)]


def bad_points():
    inner = [ref.enc(0xA0, vector) for vector in bad_uri_vectors()]
    points = [ref.enc(0x30, ref.enc(0x30, ref.enc(0xA0, vector))) for vector in inner]
    good = ref.enc(0xA0, ref.enc(0xA0, ref.put_uri_name(b'rsync://h/m/p')))
    return points + [
        ref.enc(0x30), ref.enc(0x30, ref.enc(0x30)), ref.enc(0x31, ref.enc(0x30, good)),
        ref.enc(0x30, ref.enc(0x30, good), ref.enc(0x30, good)),
        ref.enc(0x30, ref.enc(0x30, good, ref.enc(0x81, b'\1\6'))),
        ref.enc(0x30, good), good]


def bad_access():
    method = ref.enc(0x06, ref.OID_CA_ISSUERS)
    good = ref.enc(0x30, method, ref.put_uri_name(b'rsync://h/m/p'))
    vectors = [ref.enc(0x30, method, vector) for vector in bad_uri_vectors()]
    other = ref.enc(0x30, ref.enc(0x06, ref.OID_NOTIFY),
                    ref.put_uri_name(b'rsync://h/m/p'))
    return [ref.enc(0x30, vector) for vector in vectors + [other, b'', good + good,
                                                  good + other, other + good]]


def bad_sia():
    repository, name = ref.enc(0x06, ref.OID_CA_REPOSITORY), ref.put_uri_name
    uri = name(b'rsync://h/m/p')
    vectors = [b'', ref.enc(0x30), ref.enc(0x30, repository), ref.enc(0x31, repository),
            ref.enc(0x30, repository, uri, uri), ref.enc(0x30, uri),
            ref.enc(0x30, repository, name(b'\x80')),
            ref.enc(0x30, repository, ref.enc(0x82, b'h')),
            ref.enc(0x30, ref.enc(0x06, b'\x2a'), b'\x1f\0'),
            ref.enc(0x30, ref.enc(0x06, b'\x2a'), b'\x30\1'),
            ref.enc(0x30, repository, uri) + b'\5\0',
            ref.enc(0x30, ref.enc(0x06, b'\xaa'), uri)]
    return [ref.enc(0x30, vector) for vector in vectors]


def bad_policies(depth):
    good = ref.enc(0x06, ref.OID_POLICY[ref.REFUSE])
    nested = b''
    for _ in range(depth + 1):
        nested = ref.enc(0x30, nested)
    vectors = [b'', ref.enc(0x30), ref.enc(0x30, good) * 2, good,
            ref.enc(0x30, ref.enc(0x06, sound.UNKNOWN_OIDS[0])),
            ref.enc(0x30, ref.enc(0x06, ref.OID_ROUTER)), ref.enc(0x30, good, nested),
            ref.enc(0x30, good, b'\x30\x02\x05'), ref.enc(0x30, good, b'\x1f\0'),
            ref.enc(0x30, good, b'\x30\x81\x00'), ref.enc(0x30, good, b'\x30\x80'),
            ref.enc(0x30, good, ref.enc(0x30, b'\xff\0'))]
    return [ref.enc(0x30, vector) for vector in vectors]


def bad_families():
    def family(name, choice):
        return ref.enc(0x30, ref.enc(0x04, name), choice)
    v4, v6, null = b'\0\1', b'\0\2', ref.enc(0x05)
    elements = h('03', '0300', '030108', '0302087F', '030201FF',
                 '0306000A00000000', '300603020001', '3008030200FF03020001',
                 '3003030100', '0500', '30090302000A0302000A00', '020100',
                 '23020100', '03060100000000')
    wide = ref.put_bits(0, bytes(17))
    return ([ref.enc(0x30), ref.enc(0x30, ref.enc(0x30)), family(v4, null),
             ref.enc(0x30, family(v4, null), family(v4, ref.enc(0x30))),
             ref.enc(0x30, family(v6, null), family(v6, null))] +
            [ref.enc(0x30, family(name, null)) for name in
             (b'', b'\0', b'\0\0', b'\0\3', b'\0\1\1', b'\1\0')] +
            [ref.enc(0x30, family(v4, choice)) for choice in
             (b'', b'\5\1\0', null + null, b'\x31\0')] +
            [ref.enc(0x30, family(v4, ref.enc(0x30, e))) for e in elements] +
            [ref.enc(0x30, family(v6, ref.enc(0x30, wide)))])


def bad_as():
    elements = h('0200', '020180', '02050100000000', '0202007F', '3003020101',
                 '3006020105020104', '3009020101020102020103', '0500',
                 '3006020101020180', '0A0101', '030100')
    vectors = [ref.enc(0xA0, ref.enc(0x30, e)) for e in elements]
    null = ref.enc(0xA0, ref.enc(0x05))
    return [ref.enc(0x30, vector) for vector in vectors + [
        b'', ref.enc(0xA1, ref.enc(0x05)), null + ref.enc(0xA1, ref.enc(0x05)),
        null + null, ref.enc(0xA0), ref.enc(0xA0, b'\5\0\5\0'),
        ref.enc(0xA0, b'\5\1\0'), ref.enc(0x05), ref.enc(0xA0, ref.enc(0x31))]] + [
            ref.enc(0xA0, ref.enc(0x05)), b'']


def bad_contents(kind, depth):
    id20 = bytes(range(20))
    tables = {
        'BasicConstraints': lambda: h(
            '', '0500', '30060101FF020100', '3003020100', '3003010101',
            '30040102FFFF', '3003010105', '30060101FF0101FF', '30020500',
            '3100', '3005020101020101', '30020100', '30050101FF0500'),
        'SubjectKeyIdentifier': lambda: [
            b'', id20, ref.enc(0x04, id20[:19]), ref.enc(0x04, id20 + b'\0'),
            ref.enc(0x24, ref.enc(0x04, id20)), ref.enc(0x80, id20), b'\x04\x00'],
        'AuthorityKeyIdentifier': lambda: [
            b'', ref.enc(0x30), ref.enc(0x80, id20), ref.enc(0x30, ref.enc(
                0x04, id20)), ref.enc(0x30, ref.enc(0x80, id20[:19])),
            ref.enc(0x30, ref.enc(0x80, id20 + b'\0')),
            ref.enc(0x30, ref.enc(0x80, id20), ref.enc(0x82, b'\1')),
            ref.enc(0x30, ref.enc(0xA0, id20)),
            ref.enc(0x30, ref.enc(0x80, id20) * 2)],
        'KeyUsage': lambda: h(
            '', '030201', '030100', '0302', '030205A0', '03020080',
            '030207FF', '03020006', '03020186', '0303078000', '0303010600',
            '0303070080', '04020106', '23020106', '03020206'),
        'ExtendedKeyUsage': lambda: [
            ref.enc(0x30), b'', ref.enc(0x06, b'\x2a'), ref.enc(0x30, ref.enc(0x06)),
            ref.enc(0x30, ref.enc(0x06, b'\x2a'), ref.enc(0x05))],
        'CrlDistributionPoints': bad_points,
        'AuthorityInformationAccess': bad_access,
        'SubjectInformationAccess': bad_sia,
        'CertificatePolicies': lambda: bad_policies(depth),
        'IpResources': bad_families,
        'AsResources': bad_as,
    }
    return tables[kind]()


# ------------------------------------------------------ faults of headers ---

OTHER_OID = ref.hex_octets('2A864886F70D010105')


def bad_header_values():
    """Place among the values of a TBS, and values that may not stand there."""
    common = ref.enc(0x30, ref.enc(0x06, ref.OID_COMMON_NAME), ref.enc(0x13, b'A'))
    time = ref.enc(0x17, b'190501000000Z')
    algorithm = ref.enc(0x06, ref.OID_SHA256_RSA)
    rsa = ref.enc(0x06, ref.OID_RSA)
    curve = ref.enc(0x06, ref.OID_EC)
    names = [ref.enc(0x30, x) for x in (
        ref.enc(0x31), common, ref.enc(0x31, ref.enc(0x30)), ref.enc(0x30, common),
        ref.enc(0x31, ref.enc(0x30, ref.enc(0x06, b'\x2a'))), b'\5\0',
        ref.enc(0x31, ref.enc(0x30, ref.enc(0x06, b'\x2a'), b'\5\0\5\0')),
        ref.enc(0x31, ref.enc(0x30, ref.enc(0x06, b'\x80'), b'\5\0')),
        ref.enc(0x31, common, b'\5\0'))] + [b'\x31\0']
    return {
        0: h('A003020101', 'A003020103', 'A0020200', 'A00402020002', 'A000',
             'A103020102', 'A006020102020102', '020102'),
        1: h('0200', '020180', '02020001', '0202FF80', '0A0101', '0500',
             '021501' + '00' * 20, '021600FF' + '00' * 20, '02810101'),
        2: [ref.enc(0x30, x) for x in (
            ref.enc(0x06, OTHER_OID), algorithm + b'\5\1\0', b'', b'\5\0',
            algorithm + b'\5\0\5\0', algorithm + b'\2\1\0')],
        3: names,
        4: [ref.enc(0x30, x) for x in bad_times(time)] + [time],
        5: names,
        6: [ref.enc(0x30, ref.enc(0x30, a), b) for a, b in (
            (rsa, b'\3\0'), (rsa, b'\3\1\1'), (rsa, b'\3\2\1\2'),
            (rsa + b'\5\1\0', b'\3\1\0'), (b'', b'\3\1\0'),
            (ref.enc(0x06, OTHER_OID) + b'\5\0', b'\3\1\0'), (curve, b'\3\1\0'),
            (curve + b'\5\0', b'\3\1\0'), (curve + rsa, b'\3\1\0'),
            (rsa + b'\5\0', b''), (rsa, b'\3\1\0\5\0'), (rsa, b'\4\1\0'),
            (curve + ref.enc(0x06, ref.OID_P256) + b'\5\0', b'\3\1\0'))],
    }


def bad_times(time):
    texts = [(0x17, t) for t in (
        b'190230000000Z', b'190001000000Z', b'191301000000Z', b'190100000000Z',
        b'190101240000Z', b'190101006000Z', b'190101000060Z', b'190101000000',
        b'1901010000Z', b'190101000000+0000', b'19010100000 Z', b'',
        b'190101000000z', b'-90101000000Z', b'20190101000000Z',
        b'1901010000000')]
    texts += [(0x18, t) for t in (
        b'20190229000000Z', b'21000229000000Z', b'20190101000000',
        b'20190101000000.0Z', b'201901010000Z', b'190101000000Z',
        b'+0190101000000Z', b'20190101 00000Z', b'20190101000060Z')]
    bad = [ref.enc(tag, text) for tag, text in texts] + [b'\5\0']
    return ([time + b for b in bad] + [b + time for b in bad] +
            [b'', time, time * 3])


def tbs_values(draft):
    """The values inside a draft's TBS."""
    inside = ref.Cursor(draft.tbs_octets()).take_sequence()
    values = []
    while not inside.is_empty():
        values.append(inside.capture_one())
    return values


def bad_header(rng, draft, _depth):
    values, table = tbs_values(draft), bad_header_values()
    place = rng.choice(list(table))
    values[place] = rng.choice(table[place])
    draft.data = ref.enc(0x30, *values)


def bad_frame(rng, draft, _depth):
    """Values of the TBS missing, doubled, in other order, or one more."""
    values = tbs_values(draft)
    place = rng.randrange(len(values))
    way = rng.randrange(4)
    if way == 0:
        del values[place]
    elif way == 1:
        values.append(rng.choice([values[place], b'\5\0', b'\x81\2\0\1']))
    elif way == 2:
        values.insert(7, rng.choice([b'\x81\2\0\1', b'\x82\2\0\1']))
    else:
        vector = values[7]
        inner = ref.Cursor(vector).take_value(0xA3)
        values[7] = rng.choice([
            ref.enc(0xA3, inner.rest(), b'\5\0'), ref.enc(0xA3), inner.rest(),
            ref.enc(0xA3, inner.rest(), inner.rest()), ref.enc(0xA0, inner.rest()),
            ref.enc(0xA3, ref.enc(0x31)), ref.enc(0xA3, ref.enc(0x30))])
    draft.data = ref.enc(0x30, *values)


def too_deep(rng, draft, depth):
    """A skipped value one level below the last that is allowed."""
    deep = sound.tower(rng, depth + 1)
    values = tbs_values(draft)
    way = rng.randrange(3)
    if way == 0:
        name = ref.put_name([[(ref.OID_COMMON_NAME, deep)]])
        values[rng.choice((3, 5))] = name
        draft.data = ref.enc(0x30, *values)
        return
    kind, content = rng.choice([
        ('CertificatePolicies', ref.enc(0x30, ref.enc(
            0x30, ref.enc(0x06, ref.OID_POLICY[draft.f.overclaim]), deep))),
        ('SubjectInformationAccess', ref.enc(0x30, ref.enc(
            0x30, ref.enc(0x06, sound.UNKNOWN_OIDS[0]), deep)))])
    gone = places_of(draft, kind)
    draft.pieces = [piece for place, piece in enumerate(draft.pieces)
                    if place not in gone]
    draft.pieces.append(ref.put_extension(
        ref.OID[kind], kind == 'CertificatePolicies', content))


FLAGGED = [kind for kind, (_, flag, _) in ref.KINDS.items() if flag is not None]
DRAFT_FAULTS = {
    'two URIs': two_uris,
    'too deep': too_deep,
    'drop extension': drop_extension,
    'unknown critical': unknown_critical,
    'bad extension': bad_piece,
    'bad header': bad_header,
    'bad frame': bad_frame,
    'other mode of IP': other_mode('IpResources'),
    'other mode of AS': other_mode('AsResources'),
    **{f'flag of {kind}': other_flag(kind) for kind in FLAGGED},
    **{f'content of {kind}': bad_content(kind) for kind in ref.KINDS},
    **{f'{kind} twice': duplicate(kind) for kind in ref.KINDS},
}


def draft_fault(spoil):
    """A decoder's fault of one member."""
    def fault(rng, path):
        index = pick(rng, path, ALL)
        spoil(rng, path.drafts[index], path.depth)
        return index, 'decode', None
    return fault


# -------------------------------------------------- trees of values, octets ---

class Node:
    """A value: identifier, and octets or nodes; `raw` overrides the whole."""

    def __init__(self, tag, content, raw=None):
        self.tag, self.content, self.raw = tag, content, raw

    def octets(self):
        if self.raw is not None:
            return self.raw
        if isinstance(self.content, bytes):
            return ref.enc(self.tag, self.content)
        return ref.enc(self.tag, *(node.octets() for node in self.content))


def forest(octets):
    """Nodes of a vector of values; an OCTET STRING of values is opened too."""
    cursor, nodes = ref.Cursor(octets), []
    while not cursor.is_empty():
        tag = cursor.peek()
        inside = cursor.take_value(tag).rest()
        nodes.append(Node(tag, opened(inside) if tag & 0x20 or tag == 0x04
                          else inside))
    return nodes


def opened(octets):
    try:
        return forest(octets) or octets
    except ref.DecodeError:
        return octets


def all_vectors(nodes):
    """Every list of nodes in a forest."""
    found = [nodes]
    for node in nodes:
        if isinstance(node.content, list):
            found += all_vectors(node.content)
    return found


TAGS = (0x01, 0x02, 0x03, 0x04, 0x05, 0x06, 0x0C, 0x13, 0x17, 0x18, 0x30, 0x31,
        0x80, 0x81, 0x82, 0x86, 0xA0, 0xA3, 0xA6, 0x1F, 0x3F, 0x00, 0xFF)


def odd_length(rng, node):
    """The value with a length that is wrong or not the shortest."""
    whole = node.octets()
    length, start = ref.Cursor(whole).length(1)
    content = whole[start:]
    lengths = [b'\x80', b'\x85\0\0\0\0' + bytes([length & 0xFF]), b'\xff',
               b'\x84' + length.to_bytes(4, 'big'),
               b'\x83' + (length % (1 << 24)).to_bytes(3, 'big'),
               b'\x82' + (length & 0xFFFF).to_bytes(2, 'big'),
               b'\x81' + bytes([length & 0xFF]), ref.length_octets(length + 1),
               ref.length_octets(max(length - 1, 0)), b'\x84\xff\xff\xff\xff',
               b'']
    return whole[:1] + rng.choice(lengths) + content


def changed_content(rng, node):
    octets = node.content if isinstance(node.content, bytes) else b''.join(
        n.octets() for n in node.content)
    ways = [lambda: b'', lambda: octets + b'\0', lambda: b'\0' + octets,
            lambda: octets[:-1], lambda: octets[1:], lambda: octets * 2,
            lambda: sound.noise(rng, 20), lambda: octets + b'\5\0',
            lambda: flipped(rng, octets) if octets else b'\0']
    return rng.choice(ways)()


def random_node(rng):
    return Node(rng.choice((0x30, 0x31, 0xA0, 0x05, 0x04, 0x02, 0x01)), b'')


def change_tree(rng, nodes):
    """One change of one place in a forest."""
    vectors = [vector for vector in all_vectors(nodes) if vector]
    vector = rng.choice(vectors)
    place = rng.randrange(len(vector))
    node = vector[place]

    def tag():
        new = rng.choice(TAGS)
        whole = node.octets()
        node.raw = bytes([new]) + whole[1:]

    def content():
        node.content = changed_content(rng, node)

    def wrap():
        vector[place] = Node(rng.choice((0x30, 0x31, 0xA0, 0x04)), [node])

    def swap():
        other = rng.randrange(len(vector))
        vector[place], vector[other] = vector[other], vector[place]

    def length():
        node.raw = odd_length(rng, node)
    rng.choice([tag, content, content, wrap, swap, length,
                lambda: vector.pop(place), lambda: vector.insert(place, node),
                lambda: vector.insert(place, random_node(rng)),
                lambda: vector.append(random_node(rng))])()


def change_octets(rng, octets):
    """A flipped bit, a cut, other octets, or a piece doubled or left out."""
    place = rng.randrange(len(octets) + 1)
    end = min(len(octets), place + rng.choice([1, 1, 2, 5, 40]))
    way = rng.randrange(7)
    if way <= 1 and octets:
        return flipped(rng, octets)
    if way == 2:
        return octets[:place]
    if way == 3:
        return octets[:place] + octets[end:]
    if way == 4:
        return octets[:end] + octets[place:]
    if way == 5:
        return octets[:place] + sound.noise(rng, 3) + octets[place:]
    return octets[:place] + bytes([rng.choice((0, 0x7F, 0x80, 0xFF))]) + \
        octets[place + 1:]


def tree_fault(rng, path):
    """One change in the tree of a TBS, signed anew."""
    draft = path.drafts[pick(rng, path, ALL)]
    nodes = forest(draft.tbs_octets())
    change_tree(rng, nodes)
    draft.data = b''.join(node.octets() for node in nodes)
    return NOTHING


def octet_fault(rng, path):
    """One change in the octets of a TBS, signed anew."""
    draft = path.drafts[pick(rng, path, ALL)]
    draft.data = change_octets(rng, draft.tbs_octets())
    return NOTHING


class Given:
    """A member whose octets stand already."""

    def __init__(self, kind, octets):
        self.kind, self.given = kind, octets

    def octets(self):
        return self.given


def outer_fault(rng, path):
    """One change of a whole certificate, its signature as it was."""
    index = pick(rng, path, ALL)
    draft = path.drafts[index]
    if sound.chance(rng, 0.5):
        draft.tail = b''
        nodes = forest(draft.octets())
        change_tree(rng, nodes)
        octets = b''.join(node.octets() for node in nodes)
    else:
        octets = change_octets(rng, draft.octets())
    path.drafts[index] = Given(draft.kind, octets)
    return NOTHING


def order_fault(rng, path):
    """Members dropped, doubled, swapped, or under another word."""
    drafts = path.drafts
    place, other = rng.randrange(len(drafts)), rng.randrange(len(drafts))
    way = rng.randrange(5)
    if way == 0 and len(drafts) > 1:
        del drafts[place]
    elif way == 1:
        drafts.insert(place, drafts[place])
    elif way == 2:
        drafts[place], drafts[other] = drafts[other], drafts[place]
    else:
        words = [ref.CA, ref.EE, ref.DETACHED, ref.TA]
        drafts[place] = Given(rng.choice(words), drafts[place].octets())
    if way < 3:
        for index, draft in enumerate(drafts):
            kind = ref.TA if index == 0 else draft.kind
            kind = ref.CA if index and kind == ref.TA else kind
            drafts[index] = Given(kind, draft.octets())
    return NOTHING


# ------------------------------------------------------------------ text ---

def replace_once(rng, text, old, new):
    places = [i for i in range(len(text)) if text.startswith(old, i)]
    if not places:
        return text
    place = rng.choice(places)
    return text[:place] + new + text[place + len(old):]


def drop_line(rng, text):
    lines = text.split(b'\n')
    del lines[rng.randrange(len(lines))]
    return b'\n'.join(lines)


def double_line(rng, text):
    lines = text.split(b'\n')
    place = rng.randrange(len(lines))
    return b'\n'.join(lines[:place + 1] + lines[place:])


def change_word(rng, text):
    lines = [line.split(b' ') for line in text.split(b'\n')]
    line = rng.choice(lines)
    line[rng.randrange(len(line))] = rng.choice([
        b'', b'-', b'0', b'00', b'0g', b'ca', b'ta', b'ee', b'detached', b'at',
        b'strict', b'lenient', b'STRICT', b'revoked', b'20240230000000',
        b'20240101000060', b'2024010100000', b'00000101000000', b'--',
        b'99991231235959', b'0x00', b'+0', b'%00', b'\xc3\xa9\xc3\xa9'])
    return b'\n'.join(b' '.join(line) for line in lines)


def odd_digits(rng, text):
    place = rng.randrange(len(text) + 1)
    return text[:place] + b'0' + text[place:]


def any_octet(rng, text):
    place = rng.randrange(len(text) + 1)
    return text[:place] + rng.randbytes(1) + text[place + rng.randrange(2):]


def cut_text(rng, text):
    return text[:rng.randrange(len(text) + 1)]


def insert(new):
    def fault(rng, text):
        place = rng.randrange(len(text) + 1)
        return text[:place] + new + text[place:]
    return fault


def long_word(rng, text):
    return text.rstrip(b'\n') + b'00' * rng.choice([1, 1000, 200000])


TEXT_FAULTS = {
    'carriage return': lambda rng, t: replace_once(rng, t, b'\n', b'\r\n'),
    'tab': lambda rng, t: replace_once(rng, t, b' ', b'\t'),
    'two spaces': lambda rng, t: replace_once(rng, t, b' ', b'  '),
    'no space': lambda rng, t: replace_once(rng, t, b' ', b''),
    'space before LF': lambda rng, t: replace_once(rng, t, b'\n', b' \n'),
    'space after LF': lambda rng, t: replace_once(rng, t, b'\n', b'\n '),
    'leading space': lambda rng, t: b' ' + t,
    'empty line': lambda rng, t: replace_once(rng, t, b'\n', b'\n\n'),
    'leading empty line': lambda rng, t: b'\n' + t,
    'more LF': lambda rng, t: t.rstrip(b'\n') + b'\n' * rng.randint(2, 3),
    'no last LF': lambda rng, t: t.rstrip(b'\n'),
    'joined lines': lambda rng, t: replace_once(rng, t, b'\n', b''),
    'odd digits': odd_digits,
    'upper case': lambda rng, t: t.upper(),
    'lower case': lambda rng, t: t.lower(),
    'NUL': insert(b'\0'),
    'any octet': any_octet,
    'cut': cut_text,
    'word': change_word,
    'line dropped': drop_line,
    'line doubled': double_line,
    'more text': lambda rng, t: t + rng.choice(
        [b'x', b'\0', b' ', b'-', b'\r']),
    'long word': long_word,
    'only LF': lambda rng, t: b'\n' * rng.randint(0, 2),
    'byte order mark': lambda rng, t: b'\xef\xbb\xbf' + t,
}
