#!/usr/bin/env python3
"""Makes the certificates and revocation lists of this folder anew, with new keys.

    tests/files/make.py [FOLDER..]

With the names of folders it makes these alone: each has keys of its own.
It writes DER by itself, from X.690, RFC 5280, RFC 3779, RFC 6487, RFC 8209 and
RFC 8360; keys and signatures are made by the `openssl` command. The keys are
lost. tests/verdicts tells of each file what is odd in it, and what is wanted.
"""

import subprocess
import sys
import tempfile
from base64 import b64encode
from pathlib import Path

HERE = Path(__file__).resolve().parent
SITE = 'rsync://rpki.example.net/repo'
BEGIN, END = '240101000000Z', '440101000000Z'


# ---- DER

def der(tag, *parts):
    content = b''.join(parts)
    size = len(content)
    if size < 128:
        return bytes([tag, size]) + content
    octets = size.to_bytes((size.bit_length() + 7) // 8, 'big')
    return bytes([tag, 0x80 | len(octets)]) + octets + content


def seq(*parts):
    return der(0x30, *parts)


def octet_string(*parts):
    return der(4, *parts)


def number(n):
    return der(2, n.to_bytes(n.bit_length() // 8 + 1, 'big', signed=True))


def oid(text):
    arcs = [int(arc) for arc in text.split('.')]
    octets = []
    for arc in [40 * arcs[0] + arcs[1]] + arcs[2:]:
        digits = [arc & 127]
        while arc := arc >> 7:
            digits.append(128 | arc & 127)
        octets += reversed(digits)
    return der(6, bytes(octets))


def bits(octets, unused=0):
    return der(3, bytes([unused]), octets)


TRUE, FALSE = der(1, b'\xff'), der(1, b'\0')
NULL = der(5)
RSA_SHA256 = seq(oid('1.2.840.113549.1.1.11'), NULL)


# ---- keys

class Key:
    """A key of the `openssl` command, in a folder that goes away."""

    def __init__(self, room, name, *kind, form=()):
        self.file = room / f'{name}.key'
        run('genpkey', *kind, '-out', self.file)
        self.info = run('pkey', '-in', self.file, '-pubout', '-outform', 'DER', *form)
        self.identifier = sha1(self.bits())

    def bits(self):
        """The content of subjectPublicKey, behind its unused bits."""
        return after_algorithm(self.info)

    def name(self):
        return common_name(self.identifier.hex().upper())

    def sign(self, octets):
        return run('dgst', '-sha256', '-sign', self.file, given=octets)


def run(*words, given=None):
    command = ['openssl', *map(str, words)]
    return subprocess.run(command, input=given, check=True,
                          stdout=subprocess.PIPE, stderr=subprocess.DEVNULL).stdout


def sha1(octets):
    return run('dgst', '-sha1', '-binary', given=octets)


def inside(octets):
    """The content of the first value, and what follows it."""
    size, at = octets[1], 2
    if size & 128:
        at = 2 + (size & 127)
        size = int.from_bytes(octets[2:at], 'big')
    return octets[at:at + size], octets[at + size:]


def after_algorithm(info):
    whole, _ = inside(info)
    _, key = inside(whole)
    return inside(key)[0][1:]


# ---- parts of certificates

def common_name(text, tag=0x13):
    return seq(der(0x31, seq(oid('2.5.4.3'), der(tag, text.encode()))))


def moment(text):
    return der(0x17 if len(text) == 13 else 0x18, text.encode())


def extension(identifier, content, critical=False):
    return seq(oid(identifier), TRUE if critical else b'', octet_string(content))


def subject_key(key):
    return extension('2.5.29.14', octet_string(key.identifier))


def authority_key(key):
    return extension('2.5.29.35', seq(der(0x80, key.identifier)))


def basic_constraints(*content, critical=True):
    return extension('2.5.29.19', seq(*(content or [TRUE])), critical)


def key_usage(octet, unused, critical=True):
    return extension('2.5.29.15', bits(bytes([octet]), unused), critical)


def extended_key_usage(*purposes):
    return extension('2.5.29.37', seq(*map(oid, purposes)))


def policy(identifier='1.3.6.1.5.5.7.14.2', critical=True, qualifiers=()):
    more = [seq(*qualifiers)] if qualifiers else []
    return extension('2.5.29.32', seq(seq(oid(identifier), *more)), critical)


def uri(text):
    return der(0x86, text.encode())


def lists_at(*texts):
    return extension('2.5.29.31', seq(seq(der(0xa0, der(0xa0, *map(uri, texts))))))


def issuer_at(*texts):
    access = seq(oid('1.3.6.1.5.5.7.48.2'), *map(uri, texts))
    return extension('1.3.6.1.5.5.7.1.1', seq(access))


METHODS = {'timestamps': '3', 'repository': '5', 'manifest': '10', 'object': '11', 'notify': '13'}


def described(*rows):
    """Subject Information Access: a method and the name of its location in each row."""
    return extension('1.3.6.1.5.5.7.1.11', seq(*(
        seq(oid('1.3.6.1.5.5.7.48.' + METHODS[kind]), name) for kind, name in rows)))


def information(**places):
    return described(*((kind, uri(text)) for kind, text in places.items()))


def ca_information(name):
    return information(
        repository=f'{SITE}/{name}/', manifest=f'{SITE}/{name}/{name}.mft',
        notify='https://rpki.example.net/rrdp/notification.xml')


# ---- resources (RFC 3779): `10.0.0.0/12`, `10.0.0.0-10.2.255.255`, `2001:db8::/32`

def address(text):
    if ':' not in text:
        return bytes(int(part) for part in text.split('.'))
    head, _, tail = text.partition('::')
    head = [int(part, 16) for part in head.split(':') if part]
    tail = [int(part, 16) for part in tail.split(':') if part]
    words = head + [0] * (8 - len(head) - len(tail)) + tail
    return b''.join(word.to_bytes(2, 'big') for word in words)


def prefix(octets, length):
    count = (length + 7) // 8
    return bits(octets[:count], 8 * count - length)


def end_of(octets, host):
    """An end of a range, without the bits that are all `host` at its end."""
    n = int.from_bytes(octets, 'big')
    length = 8 * len(octets)
    while length and n >> (8 * len(octets) - length) & 1 == host:
        length -= 1
    unused = -length % 8
    if host:
        n &= ~((1 << 8 * len(octets) - length) - 1)
    return bits(n.to_bytes(len(octets), 'big')[:(length + 7) // 8], unused)


def ip_block(text):
    if '-' in text:
        low, high = map(address, text.split('-'))
        return seq(end_of(low, 0), end_of(high, 1))
    at, length = text.split('/')
    return prefix(address(at), int(length))


def addresses(v4=None, v6=None, critical=True, identifier='1.3.6.1.5.5.7.1.7'):
    """Sets of addresses: `inherit`, a list of texts, octets as they are, or none."""
    families = []
    for family, blocks in ((1, v4), (2, v6)):
        if blocks is None:
            continue
        choice = (NULL if blocks == 'inherit' else blocks if isinstance(blocks, bytes)
                  else seq(*map(ip_block, blocks)))
        families.append(seq(octet_string(family.to_bytes(2, 'big')), choice))
    return extension(identifier, seq(*families), critical)


def system(item):
    return number(item) if isinstance(item, int) else seq(*map(number, item))


def systems(items, critical=True, identifier='1.3.6.1.5.5.7.1.8'):
    choice = NULL if items == 'inherit' else seq(*map(system, items))
    return extension(identifier, seq(der(0xa0, choice)), critical)


# ---- certificates and lists

def signed(data, issuer, algorithm=RSA_SHA256, damage=0):
    signature = bytearray(issuer.sign(data))
    signature[100] ^= damage
    return seq(data, algorithm, bits(bytes(signature)))


def certificate(key, issuer, serial, extensions, *, subject=None, issuer_name=None,
                begin=BEGIN, end=END, version=2, serial_octets=None, damage=0):
    data = seq(
        der(0xa0, number(version)), serial_octets or number(serial), RSA_SHA256,
        issuer_name or issuer.name(), seq(moment(begin), moment(end)),
        subject or key.name(), key.info, der(0xa3, seq(*extensions)))
    return signed(data, issuer, damage=damage)


def revocation_list(issuer, count, revoked=(), begin=BEGIN, end=END, name=None):
    entries = [seq(number(serial), moment(at)) for serial, at in revoked]
    more = [authority_key(issuer), extension('2.5.29.20', number(count))]
    data = seq(number(1), RSA_SHA256, name or issuer.name(), moment(begin), moment(end),
               seq(*entries) if entries else b'', der(0xa0, seq(*more)))
    return signed(data, issuer)


# What a CA's certificate has, by name, so that one of them can be changed or left out.
def ca_extensions(name, key, above, above_name, v4, v6, asn):
    return {
        'ski': subject_key(key), 'aki': authority_key(above),
        'constraints': basic_constraints(), 'usage': key_usage(0x06, 1),
        'lists': lists_at(f'{SITE}/{above_name}/{above_name}.crl'),
        'issuer': issuer_at(f'{SITE}/{above_name}.cer'),
        'information': ca_information(name), 'policy': policy(),
        'ip': addresses(v4, v6), 'as': systems(asn)}


def leaf_extensions(key, above, above_name, place):
    return {
        'ski': subject_key(key), 'aki': authority_key(above),
        'usage': key_usage(0x80, 7),
        'lists': lists_at(f'{SITE}/{above_name}/{above_name}.crl'),
        'issuer': issuer_at(f'{SITE}/{above_name}.cer'),
        'information': information(object=place), 'policy': policy(),
        'ip': addresses('inherit', 'inherit'), 'as': systems('inherit')}


CA1 = dict(
    v4=['10.0.0.0/12', '10.32.0.0/16', '10.40.1.0/24', '62.12.0.0-62.12.6.255',
        '192.0.2.0/24', '193.0.0.0-193.0.23.255'],
    v6=['2001:67c:2e8::/48', '2001:db8::/32',
        '2a0c:9a40:1000::-2a0c:9a40:2fff:ffff:ffff:ffff:ffff:ffff'],
    asn=[3333, (64496, 64511), 196608, (210000, 210063)])
CA2 = dict(
    v4=['10.0.0.0/13', '10.40.1.0/24', '62.12.0.0-62.12.6.255', '193.0.0.0/20'],
    v6=['2001:67c:2e8::/48', '2001:db8:100::/40'],
    asn=[3333, (64496, 64499), 196608, (210000, 210007)])


def changed(extensions, **changes):
    """The extensions with some changed (None: left out) or, at the end, added."""
    return [it for it in {**extensions, **changes}.values() if it is not None]


def bad_files(ca1, ca2, full):
    """Certificates of ca2's key below ca1, each with one thing that it must not have."""
    def made(serial, *, more=None, **changes):
        return certificate(ca2, ca1, serial, changed(full, **changes), **(more or {}))
    yield 'bad_key_usage_extra', made(0x3f01, usage=key_usage(0x86, 1))
    yield 'bad_key_usage_not_critical', made(0x3f02, usage=key_usage(6, 1, False))
    yield 'bad_no_aki', made(0x3f03, aki=None)
    yield 'bad_no_crldp', made(0x3f04, lists=None)
    yield 'bad_no_policy', made(0x3f05, policy=None)
    yield 'bad_no_resources', made(0x3f06, ip=None, **{'as': None})
    yield 'bad_no_sia', made(0x3f07, information=None)
    yield 'bad_no_ski', made(0x3f08, ski=None)
    yield 'bad_overclaim_as', made(0x3f09, **{'as': systems([3333, 64512])})
    yield 'bad_overclaim_v4', made(0x3f0a, ip=addresses(['10.0.0.0/11'], CA2['v6']))
    yield 'bad_overclaim_v6', made(0x3f0b, ip=addresses(CA2['v4'], ['2001:db8::/31']))
    yield 'bad_path_length', made(
        0x3f0c, constraints=basic_constraints(TRUE, number(0)))
    yield 'bad_policy_not_critical', made(0x3f0d, policy=policy(critical=False))
    yield 'bad_resources_not_critical', made(
        0x3f0e, ip=addresses(CA2['v4'], CA2['v6'], critical=False))
    yield 'bad_signature', made(0x3f0f, more={'damage': 1})
    yield 'bad_trailing', made(0x3f10) + b'\0'
    yield 'bad_unknown_critical', made(
        0x3f11, other=extension('1.2.3.4', NULL, critical=True))


def odd_files(ca1, ca2, full):
    """Certificates of ca2's key below ca1, each with something odd."""
    def made(serial, *, more=None, **changes):
        return certificate(ca2, ca1, serial, changed(full, **changes), **(more or {}))
    yield 'odd_blocks_overlap', made(
        0x4f01, ip=addresses(['10.0.0.0/13', '10.4.1.0/24'], CA2['v6']))
    yield 'odd_blocks_unsorted', made(
        0x4f02, ip=addresses(['193.0.0.0/20', '10.0.0.0/13'], CA2['v6']))
    yield 'odd_blocks_unused_bits', made(
        0x4f03, ip=addresses(seq(bits(b'\x0a\x07', 3)), CA2['v6']))
    yield 'odd_boolean_01', made(0x4f04, constraints=basic_constraints(der(1, b'\1')))
    yield 'odd_inherit_all', made(
        0x4f05, ip=addresses('inherit', 'inherit'), **{'as': systems('inherit')})
    yield 'odd_inherit_v4', made(0x4f06, ip=addresses('inherit', CA2['v6']))
    yield 'odd_key_usage_bits', made(0x4f07, usage=key_usage(0x06, 0))
    yield 'odd_name_utf8', made(0x4f08, more={
        'subject': common_name(ca2.identifier.hex().upper(), 0x0c)})
    yield 'odd_only_as', made(0x4f09, ip=None)
    yield 'odd_serial_negative', made(0, more={'serial_octets': der(2, b'\xb0\x0a')})
    yield 'odd_time_second_60', made(0x4f0b, more={'end': '431231235960Z'})
    yield 'odd_uri_other_scheme', made(
        0x4f0c, issuer=issuer_at('rsinc://rpki.example.net/repo/ca1.cer'))
    yield 'odd_version_2', made(0x4f0d, more={'version': 1})


def router_certificate(router, issuer, issuer_name, serial, numbers):
    """A BGPsec router's certificate (RFC 8209 3.1)."""
    parts = leaf_extensions(router, issuer, issuer_name, '')
    purposes = extended_key_usage('1.3.6.1.5.5.7.3.30')
    return certificate(router, issuer, serial, changed(
        parts, information=None, ip=None, purposes=purposes, **{'as': systems(numbers)}),
        subject=common_name('ROUTER-0000FBF0'))


def good_files(ta, ca1, ca2, leaf, router):
    anchor = ca_extensions('ta', ta, ta, 'ta', ['0.0.0.0/0'], ['::/0'], [(0, 2**32 - 1)])
    yield 'ta', certificate(ta, ta, 1, changed(
        anchor, aki=None, lists=None, issuer=None))
    first = ca_extensions('ca1', ca1, ta, 'ta', **CA1)
    yield 'ca1', certificate(ca1, ta, 0x1f2e3d4c5b6a798801, changed(first))
    second = ca_extensions('ca2', ca2, ca1, 'ca1', **CA2)
    yield 'ca2', certificate(ca2, ca1, 0x1f2e3d4c5b6a798802, changed(second))
    for name, key, above, place, serial in (
            ('ee', ca2, 'ca2', 'ca2/ee.roa', 0x1f2e3d4c5b6a798803),
            ('roa1', ca1, 'ca1', 'ca1/roa1.roa', 0x61),
            ('mft_ta', ta, 'ta', 'ta/ta.mft', 0x62),
            ('mft_ca1', ca1, 'ca1', 'ca1/ca1.mft', 0x63),
            ('mft_ca2', ca2, 'ca2', 'ca2/ca2.mft', 0x64)):
        parts = leaf_extensions(leaf, key, above, f'{SITE}/{place}')
        yield name, certificate(leaf, key, serial, changed(parts))
    yield 'router', router_certificate(router, ca2, 'ca2', 0x1f2e3d4c5b6a798804, [64496])
    # RFC 8360: its policy, and the identifiers of resources that go with it
    yield 'trim', certificate(ca2, ca1, 0x4f10, changed(
        second, policy=policy('1.3.6.1.5.5.7.14.3'),
        ip=addresses(['10.0.0.0/11'], CA2['v6'], identifier='1.3.6.1.5.5.7.1.28'),
        **{'as': systems(CA2['asn'], identifier='1.3.6.1.5.5.7.1.29')}))


def later_files(ta, ca1, ca2, leaf, router):
    """Beside the forty: other moments, a signer that isn't the one named, or is no CA."""
    full = ca_extensions('ca1', ca1, ta, 'ta', **CA1)
    yield 'expired', certificate(ca1, ta, 0x5f01, changed(full), end='250101000000Z')
    yield 'not_yet', certificate(ca1, ta, 0x5f02, changed(full), begin='400101000000Z')
    full = ca_extensions('ca2', ca2, ca1, 'ca1', **CA2)
    yield 'wrong_signer', certificate(
        ca2, leaf, 0x5f03, changed(full), issuer_name=ca1.name())
    yield 'router_below_ee', router_certificate(router, leaf, 'ee', 0x5f04, [64496])


def lists(ta, ca1, ca2):
    yield 'ta', revocation_list(ta, 0x0c9a)
    yield 'ca1', revocation_list(ca1, 0x0c9a)
    yield 'ca2', revocation_list(ca2, 0x0c9a)
    yield 'ca1_revoking_ca2', revocation_list(
        ca1, 0x0c9b, [(0x1f2e3d4c5b6a798802, '231213120054Z')])
    yield 'ca2_revoking_router', revocation_list(
        ca2, 0x0c9b, [(0x1f2e3d4c5b6a798804, '231213120054Z')])
    yield 'ca1_stale', revocation_list(ca1, 0x0c99, end='250101000000Z')
    yield 'ca1_not_yet', revocation_list(ca1, 0x0c9c, begin='400101000000Z')
    yield 'ca1_seven', revocation_list(
        ca1, 0x0c9d, [(serial, '231213120054Z') for serial in range(0xa1, 0xa8)])
    by_other = bytearray(revocation_list(ca1, 0x0c9e))
    by_other[-1] ^= 1
    yield 'ca1_bad_signature', bytes(by_other)


def twins(ta, ca):
    """Apart from the others: lists of one issuer with one number, which RFC 5280 5.2.3 forbids, and
    a router's certificate with the key of a CA."""
    anchor = ca_extensions('ta', ta, ta, 'ta', ['0.0.0.0/0'], ['::/0'], [(0, 2**32 - 1)])
    yield 'ta.cer', certificate(ta, ta, 1, changed(anchor, aki=None, lists=None, issuer=None))
    full = ca_extensions('ca', ca, ta, 'ta', **CA1)
    yield 'ca.cer', certificate(ca, ta, 0x6f01, changed(full))
    yield 'router_rsa.cer', router_certificate(ca, ta, 'ta', 0x6f02, [64496])
    yield 'plain.crl', revocation_list(ta, 7)
    yield 'revoking.crl', revocation_list(ta, 7, [(0x6f01, '231213120054Z')])
    yield 'later.crl', revocation_list(ta, 7, begin='250101000000Z')
    yield 'stale.crl', revocation_list(ta, 7, begin='230101000000Z', end='250101000000Z')
    yield 'plain_stale.crl', revocation_list(ta, 7, end='250101000000Z')


def sharing(ta, ca, leaf):
    """Apart from the others: a CA and an end entity below it that name one URI, where each needs its
    own issuer's list, and a list with its two moments exchanged."""
    anchor = ca_extensions('ta', ta, ta, 'ta', ['0.0.0.0/0'], ['::/0'], [(0, 2**32 - 1)])
    yield 'ta.cer', certificate(ta, ta, 1, changed(anchor, aki=None, lists=None, issuer=None))
    one = lists_at(f'{SITE}/all.crl')
    full = ca_extensions('ca', ca, ta, 'ta', **CA1)
    yield 'ca.cer', certificate(ca, ta, 0x7f01, changed(full, lists=one))
    end_entity = leaf_extensions(leaf, ca, 'ca', f'{SITE}/ca/object.roa')
    yield 'ee.cer', certificate(leaf, ca, 0x7f02, changed(end_entity, lists=one))
    yield 'ta.crl', revocation_list(ta, 7)
    yield 'ca.crl', revocation_list(ca, 7)
    yield 'ca_revoking.crl', revocation_list(ca, 8, [(0x7f02, '231213120054Z')])
    yield 'ta_exchanged.crl', revocation_list(ta, 8, begin='250101000000Z', end=BEGIN)


def nobody(ta, ca):
    """Apart from the others: CRLs of a trust anchor, some of which name another issuer, though its
    key signed them and they name it (RFC 5280 6.3.3 (b) (1))."""
    anchor = ca_extensions('ta', ta, ta, 'ta', ['0.0.0.0/0'], ['::/0'], [(0, 2**32 - 1)])
    yield 'ta.cer', certificate(ta, ta, 1, changed(anchor, aki=None, lists=None, issuer=None))
    yield 'ca.cer', certificate(ca, ta, 0xbf01, changed(ca_extensions('ca', ca, ta, 'ta', **CA1)))
    other, revoked = common_name('nobody'), [(0xbf01, '231213120054Z')]
    yield 'plain.crl', revocation_list(ta, 7)
    yield 'revoking.crl', revocation_list(ta, 7, revoked)
    yield 'not_yet.crl', revocation_list(ta, 7, begin='400101000000Z')
    yield 'older.crl', revocation_list(ta, 6, name=other)
    yield 'newer.crl', revocation_list(ta, 8, name=other)
    yield 'newer_revoking.crl', revocation_list(ta, 8, revoked, name=other)
    yield 'newer_stale.crl', revocation_list(ta, 8, end='250101000000Z', name=other)
    for label, name in (('forged', None), ('newer_forged', other)):
        by_other = bytearray(revocation_list(ta, 8, name=name))
        by_other[-1] ^= 1
        yield f'{label}.crl', bytes(by_other)


def bare(ta, ca):
    """Apart from the others: trust anchors of one key that list nothing (RFC 8630 2.3), one that lists
    AS numbers alone, a CA that inherits below each of them, and their locator."""
    full = ca_extensions('ta', ta, ta, 'ta', ['0.0.0.0/0'], ['::/0'], [(0, 2**32 - 1)])
    rows = (('no_systems', {'ip': None, 'as': systems([])}),
            ('no_addresses', {'ip': addresses([], []), 'as': None}),
            ('inheriting', {'ip': addresses('inherit', 'inherit'), 'as': None}),
            ('systems', {'ip': None}))
    for place, (name, numbers) in enumerate(rows):
        yield f'ta_{name}.cer', certificate(
            ta, ta, 1 + place, changed(full, aki=None, lists=None, issuer=None, **numbers))
    yield 'ca.cer', certificate(ca, ta, 0xcf01, changed(
        ca_extensions('ca', ca, ta, 'ta', 'inherit', 'inherit', 'inherit')))
    yield 'ta.tal', locator(f'{SITE}/ta.cer', ta)


def noted(ca, key):
    """Apart from the others: certificates of one key below a CA, each with one thing that is taken
    although a standard forbids it. tests/notes tells which."""
    full = ca_extensions('ca', key, ca, 'ta', **CA2)
    leaf = leaf_extensions(key, ca, 'ca', f'{SITE}/ca/leaf.roa')

    def made(extensions=full, *, more=None, **changes):
        return certificate(key, ca, 0x7f01, changed(extensions, **changes), **(more or {}))
    v4, v6 = seq(*map(ip_block, CA2['v4'])), seq(*map(ip_block, CA2['v6']))
    families = [seq(octet_string(b'\0\1'), v4), seq(octet_string(b'\0\2'), v6)]
    yield 'nothing', made()
    yield 'nothing_leaf', made(leaf)
    yield 'serial_zero', made(more={'serial_octets': number(0)})
    yield 'serial_of_20_octets', made(more={'serial_octets': number(2**159 - 1)})
    yield 'serial_of_21_octets', made(more={'serial_octets': number(2**159)})
    yield 'issuer_utf8', made(more={'issuer_name': common_name('ca', 0x0c)})
    yield 'begin_generalized', made(more={'begin': f'20{BEGIN}'})
    yield 'end_generalized', made(more={'end': f'20{END}'})
    yield 'end_of_2050', made(more={'end': '20500101000000Z'})
    yield 'subject_utf8', made(more={'subject': common_name('sub', 0x0c)})
    yield 'router_utf8', made(
        leaf, information=None, ip=None, purposes=extended_key_usage('1.3.6.1.5.5.7.3.30'),
        more={'subject': common_name('ROUTER-0000FBF0', 0x0c)}, **{'as': systems([64496])})
    yield 'subject_with_a_control', made(more={'subject': common_name('su\x01b')})
    yield 'issuer_with_an_underscore', made(more={'issuer_name': common_name('c_a')})
    yield 'subject_with_each', made(more={'subject': common_name(
        "AZaz09 '()+,-./:=?")})
    yield 'leaf_with_notify', made(leaf, information=information(
        object=f'{SITE}/ca/leaf.roa', notify='https://rpki.example.net/notification.xml'))
    place, web = ('object', uri(f'{SITE}/ca/leaf.roa')), 'https://rpki.example.net'
    yield 'leaf_with_timestamps', made(leaf, information=described(
        place, ('timestamps', uri(f'{web}/time'))))
    yield 'leaf_with_two_objects', made(leaf, information=described(
        place, ('object', uri(f'{web}/leaf.roa'))))
    yield 'leaf_with_one_object_twice', made(leaf, information=described(place, place))
    places = [('repository', uri(f'{SITE}/sub/')), ('manifest', uri(f'{SITE}/sub/sub.mft'))]
    by_rsync = ('notify', uri(f'{SITE}/notification.xml'))
    yield 'notify_by_rsync', made(information=described(*places, by_rsync))
    yield 'notify_by_both', made(information=described(
        *places, by_rsync, ('notify', uri(f'{web}/notification.xml'))))
    practices = seq(oid('1.3.6.1.5.5.7.2.1'), der(0x16, f'{web}/cps.html'.encode()))
    notice = seq(oid('1.3.6.1.5.5.7.2.2'), seq(der(0x0c, b'notice')))
    yield 'policy_practices', made(policy=policy(qualifiers=[practices]))
    yield 'policy_practices_twice', made(policy=policy(qualifiers=[practices, practices]))
    yield 'policy_notice', made(policy=policy(qualifiers=[notice]))
    yield 'policy_practices_notice', made(policy=policy(qualifiers=[practices, notice]))
    yield 'addresses_not_critical', made(ip=addresses(CA2['v4'], CA2['v6'], critical=False))
    yield 'systems_not_critical', made(**{'as': systems(CA2['asn'], critical=False)})
    yield 'addresses_unsorted', made(ip=addresses(CA2['v4'][::-1], CA2['v6']))
    yield 'addresses_touching', made(ip=addresses(['10.0.0.0/9', '10.128.0.0/9'], CA2['v6']))
    yield 'addresses_twice', made(ip=addresses(['10.0.0.0/9', '10.0.0.0/9'], CA2['v6']))
    yield 'range_of_a_prefix', made(ip=addresses(['10.0.0.0-10.255.255.255'], CA2['v6']))
    yield 'end_with_zeros', made(ip=addresses(
        seq(seq(bits(address('10.0.0.0')), bits(address('10.0.2.255')))), CA2['v6']))
    yield 'families_swapped', made(ip=extension('1.3.6.1.5.5.7.1.7', seq(*families[::-1]), True))
    yield 'addresses_none', made(ip=addresses([], CA2['v6']))
    yield 'systems_unsorted', made(**{'as': systems([64496, 3333])})
    yield 'systems_touching', made(**{'as': systems([3333, 3334])})
    yield 'range_of_one_system', made(**{'as': systems([(3333, 3333)])})
    yield 'octets_behind_constraints', made(constraints=extension(
        '2.5.29.19', seq(TRUE) + b'\0', True))
    yield 'octets_behind_systems', made(**{'as': extension(
        '1.3.6.1.5.5.7.1.8', seq(der(0xa0, seq(number(3333)))) + NULL, True)})
    yield 'octets_in_an_unknown', made(other=extension('1.2.3.4', NULL + NULL))
    unknown = seq(oid('1.2.3.4'), octet_string(NULL))
    yield 'false_of_an_unknown', made(other=seq(oid('1.2.3.4'), FALSE, octet_string(NULL)))
    yield 'false_of_a_key', made(ski=seq(oid('2.5.29.14'), FALSE, octet_string(octet_string(key.identifier))))
    yield 'unknown_twice', made(other=unknown + extension('1.2.3.4', octet_string(b'more')))
    yield 'two_unknown', made(other=unknown + extension('1.2.3.5', NULL))
    yield 'unknown_apart', made(other=unknown + seq(oid('1.2.3.5'), FALSE, octet_string(NULL)) + unknown)
    yield 'several', made(
        ip=addresses(CA2['v4'][::-1], CA2['v6'], critical=False),
        **{'as': systems([64496, 3333], critical=False)}, more={'serial_octets': number(0)})
    yield 'trimming', made(
        policy=policy('1.3.6.1.5.5.7.14.3'),
        ip=addresses(CA2['v4'][::-1], CA2['v6'], False, '1.3.6.1.5.5.7.1.28'),
        **{'as': systems(CA2['asn'], identifier='1.3.6.1.5.5.7.1.29')})


def keyed(ta, router, compressed, *keys):
    """Apart from the others: a trust anchor with its list and its locator, and below it members whose
    keys the RPKI uses or not (RFC 7935 3, RFC 8608 3.1), each signed by the trust anchor's."""
    anchor = ca_extensions('ta', ta, ta, 'ta', ['0.0.0.0/0'], ['::/0'], [(0, 2**32 - 1)])
    yield 'ta.cer', certificate(ta, ta, 1, changed(anchor, aki=None, lists=None, issuer=None))
    for place, (name, key) in enumerate(zip(('2048', *SIZES), keys)):
        full = ca_extensions('ca', key, ta, 'ta', **CA1)
        yield f'ca_{name}', certificate(key, ta, 0x8f00 + place, changed(full))
        leaf = leaf_extensions(key, ta, 'ta', f'{SITE}/ta/object.roa')
        yield f'ee_{name}', certificate(key, ta, 0x8f10 + place, changed(leaf))
    yield 'router', router_certificate(router, ta, 'ta', 0x8f20, [64496, (65000, 65009)])
    yield 'router_compressed', router_certificate(compressed, ta, 'ta', 0x8f21, [64496])
    yield 'ta.crl', revocation_list(ta, 7)
    yield 'ta.tal', locator(f'{SITE}/ta.cer', ta)


def locator(place, key):
    """A trust anchor locator (RFC 8630 2.2)."""
    return f'# for tests\n{place}\n\n{b64encode(key.info).decode()}\n'.encode()


def named(ta, ca, below):
    """Apart from the others: a path whose names chain, and members in place of its first two whose
    names don't (RFC 6487 7.2), though they are good in all else; and locators of two of its keys."""
    anchor = changed(
        ca_extensions('ta', ta, ta, 'ta', ['0.0.0.0/0'], ['::/0'], [(0, 2**32 - 1)]),
        aki=None, lists=None, issuer=None)
    yield 'ta.cer', certificate(ta, ta, 1, anchor)
    yield 'ta_of_two_names.cer', certificate(ta, ta, 1, anchor, issuer_name=ca.name())
    full = changed(ca_extensions('ca', ca, ta, 'ta', **CA1))
    yield 'ca.cer', certificate(ca, ta, 0x9f01, full)
    digits = ta.identifier.hex()
    for name, names in (
            ('exchanged', {'issuer_name': ca.name(), 'subject': ta.name()}),
            ('cut', {'issuer_name': common_name(digits.upper()[:-1])}),
            ('other_case', {'issuer_name': common_name(digits)})):
        yield f'ca_{name}.cer', certificate(ca, ta, 0x9f01, full, **names)
    yield 'below.cer', certificate(below, ca, 0x9f02, changed(
        ca_extensions('below', below, ca, 'ca', **CA2)))
    yield 'ta.crl', revocation_list(ta, 7)
    yield 'ca.crl', revocation_list(ca, 7)
    for name, key in (('ta', ta), ('ca', ca)):
        yield f'{name}.tal', locator(f'{SITE}/{name}.cer', key)


def wide(ta):
    """Apart from the others: a trust anchor that lists 4,097 ranges of each kind."""
    places = [(2 * at >> 8, 2 * at & 255) for at in range(4097)]
    yield 'ta.cer', certificate(ta, ta, 1, changed(
        ca_extensions(
            'ta', ta, ta, 'ta', [f'10.{high}.{low}.0/24' for high, low in places],
            [f'2001:db8:{2 * at:x}::/48' for at in range(4097)],
            [65536 + 2 * at for at in range(4097)]),
        aki=None, lists=None, issuer=None))


def uris(ca, key):
    """Apart from the others: certificates below a CA with more than one URI of a kind, and with
    methods of access that the RPKI doesn't have."""
    full = ca_extensions('ca', key, ca, 'ta', **CA2)
    leaf = leaf_extensions(key, ca, 'ca', f'{SITE}/ca/leaf.roa')
    web = 'https://rpki.example.net'
    yield 'ca', certificate(key, ca, 0xaf01, changed(
        full,
        lists=lists_at(f'{web}/ta.crl', f'{SITE}/ta/ta.crl', 'ldap://rpki.example.net/ta'),
        information=described(
            ('repository', uri(f'{web}/ca/')), ('repository', uri(f'{SITE}/ca/')),
            ('timestamps', uri(f'{web}/time')), ('manifest', uri(f'{SITE}/ca/ca.mft')),
            ('manifest', uri(f'{SITE}/ca/other.mft')), ('repository', uri(f'{SITE}/other/')),
            ('timestamps', der(0x82, b'rpki.example.net')),
            ('notify', uri(f'{SITE}/notification.xml')), ('notify', uri(f'{web}/a.xml')),
            ('notify', uri(f'{web}/b.xml')))))
    yield 'leaf', certificate(key, ca, 0xaf02, changed(leaf, information=described(
        ('object', uri(f'{web}/leaf.roa')), ('object', uri(f'{SITE}/ca/leaf.roa')),
        ('object', uri(f'{SITE}/ca/leaf.roa')))))
    # several names in one description, which RFC 5280 4.2.2.1 hasn't
    yield 'issuers', certificate(key, ca, 0xaf03, changed(full, issuer=issuer_at(
        f'{web}/ta.cer', f'{SITE}/ta.cer', 'ldap://rpki.example.net/ta')))


# The folders, and the keys that the files of each take.
FOLDERS = {'twins': (twins, ('ta', 'ca')), 'nobody': (nobody, ('ta', 'ca')),
           'bare': (bare, ('ta', 'ca')),
           'sharing': (sharing, ('ta', 'ca', 'leaf')),
           'noted': (noted, ('ca', 'key')), 'wide': (wide, ('ta',)),
           'named': (named, ('ta', 'ca', 'below')), 'uris': (uris, ('ca', 'key')),
           'keyed': (keyed, ('ta', 'router', 'compressed', '2048', '1024', '3072', 'exponent_3'))}
RSA = ('-algorithm', 'RSA', '-pkeyopt', 'rsa_keygen_bits:2048')
CURVE = ('-algorithm', 'EC', '-pkeyopt', 'ec_paramgen_curve:P-256')
# Keys of other sizes, and on the curve, by their names; the others are RSA.
SIZES = {'1024': (*RSA[:3], 'rsa_keygen_bits:1024'), '3072': (*RSA[:3], 'rsa_keygen_bits:3072'),
         'exponent_3': (*RSA, '-pkeyopt', 'rsa_keygen_pubexp:3')}
KINDS = {**SIZES, 'router': CURVE, 'compressed': CURVE}
FORMS = {'compressed': ('-ec_conv_form', 'compressed')}


def make_folder(room, folder):
    """The files of a folder; a name without an ending is a certificate's."""
    files, names = FOLDERS[folder]
    (HERE / folder).mkdir(exist_ok=True)
    for name, octets in files(*(
            Key(room, name, *KINDS.get(name, RSA), form=FORMS.get(name, ())) for name in names)):
        (HERE / folder / (name if '.' in name else f'{name}.cer')).write_bytes(octets)


def make_top(room):
    """The files that stand in no folder."""
    ta, ca1, ca2, leaf = (Key(room, name, *RSA) for name in ('ta', 'ca1', 'ca2', 'leaf'))
    router = Key(room, 'router', *CURVE)
    second = ca_extensions('ca2', ca2, ca1, 'ca1', **CA2)
    certificates = [*good_files(ta, ca1, ca2, leaf, router), *bad_files(ca1, ca2, second),
                    *odd_files(ca1, ca2, second), *later_files(ta, ca1, ca2, leaf, router)]
    for name, octets in certificates:
        (HERE / f'{name}.cer').write_bytes(octets)
    for name, octets in lists(ta, ca1, ca2):
        (HERE / f'{name}.crl').write_bytes(octets)


def main(folders):
    with tempfile.TemporaryDirectory() as room:
        if not folders:
            make_top(Path(room))
        for folder in folders or FOLDERS:
            make_folder(Path(room), folder)


if __name__ == '__main__':
    sys.exit(main(sys.argv[1:]))
