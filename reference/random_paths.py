"""Random certificates, in the many encodings that the grammar allows.

Every function takes a `random.Random`; nothing here is a fault.
"""

from dataclasses import dataclass, field, replace
from typing import Optional

import reference as ref

FRONT_SHARE = 0.08              # how often octets follow a content


def chance(rng, share):
    return rng.random() < share


def noise(rng, most=6):
    return rng.randbytes(rng.randrange(most + 1))


# -------------------------------------------------------------- numbers ----

def random_v4_block(rng):
    """Mostly inside 10.0.0.0/8, so that blocks of one path meet."""
    if chance(rng, 0.05):
        low, high = rng.choice([(0, 0), (0, 2 ** 32 - 1),
                                (2 ** 32 - 1, 2 ** 32 - 1), (0, 2 ** 31)])
    else:
        length = rng.choice([8, 9, 10, 12, 15, 16, 24, 31, 32])
        size = 1 << 32 - length
        low = 0x0A000000 + rng.randrange(1 << length - 8) * size
        high = low + size - 1
        if chance(rng, 0.3):
            high = min(low + rng.randrange(1, 1 << 17), 2 ** 32 - 1)
    return low << 96, high << 96 | (1 << 96) - 1


def random_v6_block(rng):
    if chance(rng, 0.05):
        return rng.choice([(0, 2 ** 128 - 1), (0, 0),
                           (2 ** 128 - 1, 2 ** 128 - 1)])
    length = rng.choice([32, 33, 40, 47, 48, 64, 127, 128])
    size = 1 << 128 - length
    low = (0x20010DB8 << 96) + rng.randrange(1 << length - 32) * size
    if chance(rng, 0.3):
        return low, min(low + rng.randrange(1, 1 << 80), 2 ** 128 - 1)
    return low, low + size - 1


def random_as_block(rng):
    if chance(rng, 0.08):
        return rng.choice([(0, 0), (0, ref.AS_MAX), (ref.AS_MAX, ref.AS_MAX),
                           (127, 128), (255, 256), (32767, 32768)])
    low = rng.randrange(1, 120)
    return low, low + rng.choice([0, 0, 1, 5, 20])


RANDOM_BLOCK = {'v4': random_v4_block, 'v6': random_v6_block,
                'asn': random_as_block}


def random_set(rng, kind, most=5):
    return ref.union(RANDOM_BLOCK[kind](rng)
                     for _ in range(rng.randint(1, most)))


def part_of(rng, kind, ranges):
    """A set inside another, None where that is empty."""
    cut = ref.intersection(random_set(rng, kind), ranges)
    if not cut and ranges:
        cut = (rng.choice(ranges),)
    return cut or None


# ----------------------------------------------------- encoded resources ---

def split_block(rng, block, unit):
    """Blocks, perhaps overlapping, whose union is the block."""
    low, high = block
    count = (high - low + 1) // unit
    if count < 2 or not chance(rng, 0.4):
        return [block]
    cut = rng.randrange(1, count)
    back = rng.randrange(cut + 1) if chance(rng, 0.5) else cut
    return [(low, low + cut * unit - 1), (low + back * unit, high)]


def inner_block(rng, block, unit):
    """A block inside another, perhaps the same."""
    low, high = block
    count = (high - low + 1) // unit
    first = rng.randrange(min(count, 3))
    last = max(first, count - 1 - rng.randrange(3))
    return low + first * unit, low + (last + 1) * unit - 1


def encoded_blocks(rng, ranges, unit):
    parts = [p for block in ranges for p in split_block(rng, block, unit)]
    if chance(rng, 0.15):
        parts.append(inner_block(rng, rng.choice(parts), unit))
    if chance(rng, 0.5):
        rng.shuffle(parts)
    return parts


def address_bits_unstripped(value, fill, count, limit, rng):
    """The bits of an end, some of the spare ones kept."""
    count = rng.randint(count, limit)
    value = value if fill == 0 else value >> (128 - count) << (128 - count)
    return ref.put_address_bits(value, count)


def encoded_ip_block(rng, block, limit):
    """The one that is written, or a range whose ends keep spare bits."""
    if chance(rng, 0.6):
        return ref.put_ip_block(block)
    low, high = block
    low_count = ref.ADDRESS_BITS - ref.trailing_zeros(low)
    high_count = ref.ADDRESS_BITS - ref.trailing_zeros(
        high ^ (1 << ref.ADDRESS_BITS) - 1)
    return ref.enc(0x30, address_bits_unstripped(low, 0, low_count, limit, rng),
                   address_bits_unstripped(high, 1, high_count, limit, rng))


def encoded_as_block(rng, block):
    if block[0] == block[1] and chance(rng, 0.3):
        return ref.enc(0x30, ref.put_unsigned(block[0]), ref.put_unsigned(block[1]))
    return ref.put_as_block(block)


def encoded_choice(rng, resources, unit, put):
    if resources == ref.INHERIT:
        return ref.enc(0x05)
    if resources == ref.MISSING:
        return ref.enc(0x30)
    return ref.enc(0x30, *(put(b) for b in encoded_blocks(rng, resources, unit)))


def encoded_ip_content(rng, f, with_v4, with_v6):
    families = []
    if with_v4:
        families.append(ref.enc(0x30, ref.enc(0x04, b'\0\1'), encoded_choice(
            rng, f.v4, 1 << 96, lambda b: encoded_ip_block(rng, b, 32))))
    if with_v6:
        families.append(ref.enc(0x30, ref.enc(0x04, b'\0\2'), encoded_choice(
            rng, f.v6, 1, lambda b: encoded_ip_block(rng, b, 128))))
    if chance(rng, 0.2):
        families.reverse()
    return ref.enc(0x30, *families)


def encoded_as_content(rng, f):
    return ref.enc(0x30, ref.enc(0xA0, encoded_choice(
        rng, f.asn, 1, lambda b: encoded_as_block(rng, b))))


# ---------------------------------------------------- encoded extensions ---

UNKNOWN_OIDS = [ref.hex_octets(t) for t in (
    '551D63', '551D14', '551D11', '2B0601050507010F', '2A03', '00',
    '88371F', '2B0601050507011B', '0603')]
NOT_RSYNC = [b'', b'x', b'http://example.com/m/a', b'rsync://', b'rsync:///m/',
             b'rsync://example.com/', b'rsync://example.com/m/../p',
             b'rsync://example.com/m/.', b'rsync://example.com/m p',
             b'rsync://example.com//p', b'rsync://h/m/\x7f', b'rsyn://h/m/p',
             b'https://example.com/notify.xml']
NOT_HTTPS = [b'', b'https://', b'https:///x', b'http://h/', b'rsync://h/m/p',
             b'https://h/ ']
CASED = {b'rsync://': [b'rsync://', b'RSYNC://', b'rSync://'],
         b'https://': [b'https://', b'HTTPS://']}


def encoded_extension(rng, identifier, critical, content):
    """An explicit false flag now and then, and octets after the content."""
    if critical:
        flag = ref.enc(0x01, b'\xff')
    else:
        flag = ref.enc(0x01, b'\0') if chance(rng, 0.15) else b''
    tail = noise(rng) if chance(rng, FRONT_SHARE) else b''
    return ref.enc(0x30, ref.enc(0x06, identifier), flag,
                   ref.enc(0x04, content + tail))


def skippable(rng, levels):
    """A well-formed value, not deeper than `levels`."""
    if levels == 0 or chance(rng, 0.4):
        tag = rng.choice([0x02, 0x04, 0x05, 0x0C, 0x13, 0x80, 0x86, 0xC1])
        return ref.enc(tag, noise(rng, 200 if chance(rng, 0.05) else 5))
    tag = rng.choice([0x30, 0x31, 0xA0, 0x65, 0x24, 0xE3])
    return ref.enc(tag, *(skippable(rng, levels - 1)
                          for _ in range(rng.randrange(3))))


def tower(rng, levels):
    """Constructed values one inside the other, exactly so deep."""
    octets = b''
    for _ in range(levels):
        octets = ref.enc(rng.choice([0x30, 0x31, 0xA1]), octets)
    return octets


def qualifiers(rng, depth):
    if chance(rng, 0.7):
        return b''
    if chance(rng, 0.3):
        return tower(rng, rng.choice([1, depth - 1, depth]))
    return b''.join(skippable(rng, 4) for _ in range(rng.randint(1, 2)))


def names_around(rng, uri):
    """A readable URI among others that aren't."""
    texts = [t for t in rng.sample(NOT_RSYNC, rng.randrange(3))
             if chance(rng, 0.25)] + [uri]
    rng.shuffle(texts)
    return b''.join(ref.put_uri_name(text) for text in texts)


def encoded_sia(rng, f):
    """The kept URIs, each perhaps after ones that don't read."""
    vectors = []
    for name, method, _ in ref.SIA_METHODS:
        uri = getattr(f, name)
        bad = NOT_HTTPS if name == 'rpki_notify' else NOT_RSYNC
        texts = [rng.choice(bad)] if chance(rng, 0.1) else []
        if uri is not None:
            texts.append(uri)
            if chance(rng, 0.1):
                texts.append(rng.choice([uri, b'x', random_uri(rng)]))
        vectors.append([ref.enc(0x30, ref.enc(0x06, method), ref.put_uri_name(text))
                     for text in texts])
    if chance(rng, 0.15):
        vectors.append([ref.enc(0x30, ref.enc(0x06, rng.choice(UNKNOWN_OIDS)),
                             *(skippable(rng, 3)
                               for _ in range(rng.randrange(3))))])
    rng.shuffle(vectors)
    return ref.enc(0x30, *(description for vector in vectors for description in vector))


def encoded_basic(rng, f):
    if f.basic_ca:
        return ref.enc(0x30, ref.enc(0x01, b'\xff'))
    return ref.enc(0x30, ref.enc(0x01, b'\0') if chance(rng, 0.5) else b'')


def encoded_extensions(rng, f, depth):
    """Pieces of all kinds that f has, in the writer's order."""
    contents = {
        ref.OID['BasicConstraints']: lambda: encoded_basic(rng, f),
        ref.OID['CrlDistributionPoints']: lambda: ref.enc(0x30, ref.enc(0x30, ref.enc(
            0xA0, ref.enc(0xA0, names_around(rng, f.crl_uri))))),
        ref.OID['AuthorityInformationAccess']: lambda: ref.enc(0x30, ref.enc(
            0x30, ref.enc(0x06, ref.OID_CA_ISSUERS),
            names_around(rng, f.ca_issuer))),
        ref.OID['SubjectInformationAccess']: lambda: encoded_sia(rng, f),
        ref.OID['CertificatePolicies']: lambda: ref.enc(0x30, ref.enc(
            0x30, ref.enc(0x06, ref.OID_POLICY[f.overclaim]),
            qualifiers(rng, depth))),
    }
    resources = (ref.OID_IP[f.overclaim], ref.OID_AS[f.overclaim])
    pieces = [encoded_extension(rng, i, c, contents.get(i, lambda: content)())
              for i, c, content in ref.known_contents(f) if i not in resources]
    return pieces + encoded_resources(rng, f)


def encoded_resources(rng, f):
    """IP and AS pieces; at least one stands there."""
    with_v4 = f.v4 != ref.MISSING or chance(rng, 0.08)
    with_v6 = f.v6 != ref.MISSING or chance(rng, 0.08)
    with_as = f.asn != ref.MISSING or chance(rng, 0.08)
    pieces = []
    if with_v4 or with_v6:
        pieces.append(encoded_extension(
            rng, ref.OID_IP[f.overclaim], chance(rng, 0.9),
            encoded_ip_content(rng, f, with_v4, with_v6)))
    if with_as or not pieces:
        pieces.append(encoded_extension(
            rng, ref.OID_AS[f.overclaim], chance(rng, 0.9),
            encoded_as_content(rng, f)))
    return pieces


def unknown_extension(rng):
    return encoded_extension(rng, rng.choice(UNKNOWN_OIDS), False, noise(rng))


def arranged(rng, pieces):
    """Other orders and unknown extensions between, also twice."""
    pieces = list(pieces)
    if chance(rng, 0.3):
        for _ in range(rng.randint(1, 2)):
            extra = [unknown_extension(rng)] * rng.randint(1, 2)
            place = rng.randint(0, len(pieces))
            pieces[place:place] = extra
    if chance(rng, 0.5):
        rng.shuffle(pieces)
    return pieces


# ------------------------------------------------------- names and times ---

def random_name(rng, strict):
    """A name that passes inspection in this mode."""
    tags = [0x13] if strict else [0x13, 0x0C]

    def attribute(identifier):
        value = bytes(rng.choices(b'ABCDEF0123456789', k=rng.randrange(1, 9)))
        return identifier, ref.enc(rng.choice(tags), value)
    vector = [attribute(ref.OID_COMMON_NAME)]
    if chance(rng, 0.3):
        vector.append(attribute(ref.OID_SERIAL_NUMBER))
    rng.shuffle(vector)
    one_set = chance(rng, 0.5)
    return ref.put_name([vector] if one_set else [[part] for part in vector])


def random_time(rng, years):
    while True:
        time = ref.time_utc(rng.choice(years), rng.randint(1, 12),
                            rng.randint(1, 31), rng.randrange(24),
                            rng.randrange(60), rng.randrange(60))
        if time:
            return time


BEFORE_YEARS = [0, 1, 1600, 1899, 1949, 1950, 1970, 1999, 2000, 2019, 2023]
AFTER_YEARS = [2025, 2029, 2049, 2050, 2051, 2100, 9998, 9999]


def encoded_time(rng, time):
    """GeneralizedTime names every year, UTCTime those of 1950 to 2049."""
    if 1950 <= time[0] <= 2049 and chance(rng, 0.8):
        return ref.put_utc_time(time)
    return ref.put_generalized_time(time)


def encoded_validity(rng, f):
    return ref.enc(0x30, encoded_time(rng, f.not_before),
                   encoded_time(rng, f.not_after))


def encoded_key(rng, key):
    if key.format == ref.RSA and chance(rng, 0.2):
        return ref.enc(0x30, ref.enc(0x30, ref.enc(0x06, ref.OID_RSA)),
                       ref.put_bits(0, key.bits))
    return ref.put_key(key)


# ------------------------------------------------------------------ URIs ---

def letters(rng, count):
    return bytes(rng.choices(b'abcXYZ019-_.~%', k=count))


def segment(rng):
    while True:
        text = letters(rng, rng.randint(1, 6))
        if text not in (b'.', b'..'):
            return text


def random_uri(rng):
    host = rng.choice([b'example.com', b'EXAMPLE.com', b'h', b'h:873',
                       b'u@h', b'[::1]', b'..'])
    scheme = rng.choice(CASED[b'rsync://'])
    path = b'/'.join(segment(rng) for _ in range(rng.randint(1, 3)))
    if chance(rng, 0.03):
        path += b'/' + b'a' * rng.choice([93, 94, 220, 221, 65499])
    return scheme + host + b'/' + segment(rng) + b'/' + path


def random_https(rng):
    scheme = rng.choice(CASED[b'https://'])
    return scheme + rng.choice([b'h', b'h/', b'example.com/n.xml', b'h//..',
                                b'h?q=1'])


def other_case(rng, uri):
    """An equal URI: scheme and authority in another case."""
    if chance(rng, 0.7):
        return uri
    head, slash, tail = uri[8:].partition(b'/')
    return uri[:8].swapcase() + head.swapcase() + slash + tail


def repository_and_manifest(rng):
    """A manifest whose parent is identical to the repository."""
    base = random_uri(rng)
    slash = b'/' if chance(rng, 0.3) else b''
    manifest = base + b'/' + segment(rng) + (
        b'/' if chance(rng, 0.1) else b'')
    return base + slash, other_case(rng, manifest)


# ---------------------------------------------------------------- drafts ---

@dataclass
class Draft:
    """A certificate on its way: fields, and pieces that may be spoiled."""
    kind: str
    f: ref.TbsCert
    signer: ref.Key
    pieces: list
    validity: bytes
    key: bytes
    outer_null: bool
    tail: bytes = b''
    data: Optional[bytes] = None        # in place of the encoded TBS
    signature: Optional[bytes] = None   # in place of the stand-in's

    def tbs_octets(self):
        if self.data is not None:
            return self.data
        return ref.tbs_octets(self.f, self.pieces, self.validity, self.key)

    def octets(self):
        data = self.tbs_octets()
        signature = (self.signer.bits + data if self.signature is None
                     else self.signature)
        signed = ref.SignedData(data, self.outer_null, signature)
        return signed.octets() + self.tail


def draft_of(rng, kind, f, signer, depth):
    return Draft(
        kind, f, signer, arranged(rng, encoded_extensions(rng, f, depth)),
        encoded_validity(rng, f), encoded_key(rng, f.key), f.signature,
        noise(rng) if chance(rng, 0.1) else b'')


def encoded_anew(rng, draft, depth, **changes):
    """The draft with other fields, its pieces encoded anew."""
    fresh = draft_of(rng, draft.kind, replace(draft.f, **changes),
                     draft.signer, depth)
    fresh.outer_null = draft.outer_null
    return fresh


@dataclass
class Path:
    drafts: list
    sets: list = field(default_factory=list)    # resolved, one dict a member
    strict: bool = True
    now: tuple = (2024, 1, 1, 0, 0, 0)
    depth: int = ref.DEPTH


def random_key(rng):
    size = rng.choice([0, 1, 3, 20, 65, 127, 128, 270])
    return ref.Key(ref.RSA, rng.randbytes(size))


def random_serial(rng):
    return rng.choice([0, 1, 127, 128, 255, 256, 2 ** 159, 2 ** 160 - 1,
                       rng.getrandbits(64), rng.getrandbits(159)])


def common_fields(rng, path, key):
    now_edge = chance(rng, 0.05)
    before = path.now if now_edge else random_time(rng, BEFORE_YEARS)
    after = path.now if chance(rng, 0.05) else random_time(rng, AFTER_YEARS)
    return {'serial': random_serial(rng),
            'issuer': random_name(rng, path.strict),
            'subject': random_name(rng, path.strict),
            'not_before': before, 'not_after': after, 'key': key,
            'overclaim': rng.choice([ref.REFUSE, ref.TRIM]),
            'signature': chance(rng, 0.7)}


def authority_fields(rng):
    repository, manifest = repository_and_manifest(rng)
    return {'key_usage': 'Ca', 'basic_ca': True, 'ca_repository': repository,
            'rpki_manifest': manifest,
            'rpki_notify': random_https(rng) if chance(rng, 0.3) else None}


def issued_fields(rng, issuer_key):
    return {'authority_key_identifier': issuer_key.identifier(),
            'crl_uri': random_uri(rng), 'ca_issuer': random_uri(rng)}


def leaf_fields(rng, kind):
    fields = {'key_usage': 'Ee', 'rpki_notify': None}
    if kind == ref.EE or chance(rng, 0.3):
        fields['signed_object'] = random_uri(rng)
    if chance(rng, 0.1):
        fields['rpki_notify'] = random_https(rng)
    return fields


KINDS = ('v4', 'v6', 'asn')


def anchor_resources(rng):
    found = {kind: random_set(rng, kind, 8) if chance(rng, 0.8) else ref.MISSING
             for kind in KINDS}
    return found


def issued_resources(rng, above, mode):
    """Resources that pass under an issuer with these sets."""
    found = {}
    for kind in KINDS:
        draw = rng.random()
        wide = random_set(rng, kind)
        if draw < 0.35:
            found[kind] = ref.INHERIT
        elif draw < 0.5:
            found[kind] = ref.MISSING
        elif mode == ref.TRIM and draw < 0.75:
            found[kind] = wide
        else:
            found[kind] = part_of(rng, kind, above[kind]) or ref.MISSING
    return found


def resolved(f, above):
    if above is None:
        return {k: getattr(f, k) if ref.is_set(getattr(f, k)) else ()
                for k in KINDS}
    return {k: ref.issued(above[k], getattr(f, k), f.overclaim) for k in KINDS}


def random_member(rng, path, kind, above, issuer_key):
    key = random_key(rng)
    fields = common_fields(rng, path, key)
    if kind == ref.TA:
        fields |= authority_fields(rng) | anchor_resources(rng)
        if chance(rng, 0.3):
            fields['authority_key_identifier'] = key.identifier()
        issuer_key = key
    else:
        fields |= (authority_fields(rng) if kind == ref.CA
                   else leaf_fields(rng, kind))
        fields |= issued_fields(rng, issuer_key)
        fields |= issued_resources(rng, above, fields['overclaim'])
    return draft_of(rng, kind, ref.TbsCert(**fields), issuer_key, path.depth)


def random_path(rng, longest=8, depth=ref.DEPTH):
    """An accepted path of 1 to `longest` members."""
    path = Path([], strict=chance(rng, 0.6), depth=depth,
                now=random_time(rng, [2024]))
    length = rng.randint(1, longest)
    leaf = rng.choice([ref.EE, ref.DETACHED, ref.CA])
    kinds = [ref.TA] + [ref.CA] * (length - 2) + [leaf] * (length > 1)
    for kind in kinds:
        above = path.sets[-1] if path.sets else None
        issuer_key = path.drafts[-1].f.key if path.drafts else None
        path.drafts.append(random_member(rng, path, kind, above, issuer_key))
        path.sets.append(resolved(path.drafts[-1].f, above))
    return path


def hex_text(rng, octets):
    """A word HEX, digits of either case."""
    if not octets:
        return '-'
    style = rng.randrange(3)
    text = octets.hex()
    if style == 0:
        return text
    if style == 1:
        return text.upper()
    return ''.join(rng.choice((c, c.upper())) for c in text[:64]) + text[64:]


def program_input(rng, path):
    lines = ['at %04d%02d%02d%02d%02d%02d' % path.now,
             'strict' if path.strict else 'lenient']
    lines += [f'{d.kind} {hex_text(rng, d.octets())}' for d in path.drafts]
    end = '' if chance(rng, 0.2) else '\n'
    return ('\n'.join(lines) + end).encode('ascii')
