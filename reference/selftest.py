#!/usr/bin/env python3
"""Checks the reference against cases that were worked by hand from the standards.

    python3 reference/selftest.py [--all]

Prints each check that fails (with --all each check), and `N passed, M failed`;
exits with 1 where one fails.
"""

import base64
import random
import sys
from dataclasses import replace
from pathlib import Path

import documents
import folders
import notes
import places
import random_folders
import random_paths as sound
import reference as ref
import vectors
import rsa
import sorts
import strangers
import walks
import worked

CHECKS = []


def checks(function):
    """Adds a function that yields a label, what was got and what is wanted."""
    CHECKS.append(function)
    return function


def h(text):
    """Octets of hexadecimal text with `"ASCII"` parts between quotes."""
    parts = text.split('"')
    return b''.join(part.encode() if i % 2 else bytes.fromhex(part)
                    for i, part in enumerate(parts))


def fault_of(call, *arguments, **options):
    """The refusal's name with its detail, `Ok` where there is none."""
    try:
        call(*arguments, **options)
    except (ref.Refusal, ref.PathError) as fault:
        return str(fault)
    return 'Ok'


def read(take, octets, *rest, depth=ref.DEPTH):
    return take(ref.Cursor(octets, depth=depth), *rest)


def fields(octets):
    return ref.decode_cert(octets).tbs


def cert_fault(octets, depth=ref.DEPTH):
    return fault_of(ref.decode_cert, octets, depth)


def inspected(kind, cert, strict=True):
    return fault_of(ref.inspect, kind, strict, cert)


def verified(kind, cert, issuer=None, now=worked.NOW):
    return fault_of(ref.verify, kind, cert, issuer, now)


def under(cert):
    """The ResourceCert of an anchor."""
    return ref.verify_ta(cert, worked.NOW)


def hexed(octets):
    return octets.hex(' ').upper()


@checks
def runs():
    for name, data, (lines, status) in worked.revoked_cases():
        wanted = worked.octets_of_lines(lines), status
        yield name, ref.program(data), wanted
        yield name + ' no last LF', ref.program(data.removesuffix(b'\n')), wanted
    for name, data, (lines, status) in worked.path_cases():
        wanted = worked.octets_of_lines(lines), status
        yield name, ref.program(data), wanted
    yield 'absent list same value', read(ref.take_revoked, h('3000')), b''
    yield 'absent list absent', read(ref.take_revoked, b''), b''
    yield 'absent list written', ref.put_revoked(b''), b''


LOCATORS = {        # of tests/locators, strictly and leniently
    '04-noempty': ('BadUri', 'BadUri'), '05-nouri': ('NoUri', 'NoUri'),
    '06-comment-behind': ('BadUri', 'BadUri'), '07-http': ('BadUri', 'BadUri'),
    '08-badbase64': ('BadKey', 'BadKey'), '09-trailing': ('BadKey', 'BadKey'),
    '11-empty': ('NoKey', 'NoKey'), '12-latin1': ('NoText', 'Ok'),
    '13-blank-first': ('NoUri', 'NoUri'), '14-cut': ('BadKey', 'BadKey'),
    '16-space-line': ('BadUri', 'BadUri'), '17-pad': ('BadKey', 'BadKey')}
# The key identifiers of the registries' trust anchors, as these have them, by
# the locators that Debian's rpki-trust-anchors has.
REGISTRIES = {'afrinic': 'eb680f38f5d6c71bb4b106b8bd06585012da31b6',
              'apnic': '0b9cca90dd0d7a8a37666b19217fe0d84037b7a2',
              'lacnic': 'fc8a9cb3ed184e17d30eea1e0fa7615ce4b1af47',
              'ripe': 'e8552b1fd6d1a4f7e404c6d8e5680d1ebc163fc3'}


@checks
def locators():
    folder = vectors.DATA.parent.parent.parent / 'tests/locators'
    for path in sorted(folder.glob('*.tal')):
        octets = path.read_bytes()
        wanted = LOCATORS.get(path.stem, ('Ok', 'Ok'))
        yield path.name, tuple(fault_of(ref.decode_locator, octets, strict)
                               for strict in (True, False)), wanted
    for name, identifier in REGISTRIES.items():
        path = Path(f'/etc/tals/{name}.tal')
        if path.exists():
            found = ref.decode_locator(path.read_bytes())
            yield path.name, found.key.identifier().hex(), identifier


@checks
def locators_by_chance():
    rng = random.Random(8630)
    for index in range(200):
        key = sound.random_key(rng)
        uris = [sound.random_uri(rng) for _ in range(rng.randint(1, 3))]
        digits = base64.encodebytes(sound.encoded_key(rng, key))
        octets = b'\n'.join([b'# %d' % index, *uris, b'', digits])
        crlf = octets.replace(b'\n', b'\r\n')
        yield (f'locator {index}', [ref.decode_locator(octets),
                                    ref.decode_locator(crlf)],
               [ref.Locator(uris, key)] * 2)


@checks
def lists():
    two, none = worked.L.octets(), worked.EMPTY_L.octets()
    yield 'list length', len(two), 416
    yield 'list begins', hexed(two[:7]), '30 82 01 9C 30 81 C0'
    yield 'list entries', len(ref.decode_crl(two).entries()), 2
    yield ('list contains',
           [ref.decode_crl(two).contains(s) for s in (12, 42, 13)],
           [True, True, False])
    yield 'list equal fields', ref.decode_crl(two), worked.L
    yield 'list empty length', len(none), 332
    yield 'list empty begins', hexed(none[:7]), '30 82 01 48 30 81 96'
    yield 'list empty iter', ref.decode_crl(none).entries(), []


@checks
def key_usage():
    def with_usage(content):
        return worked.replace_piece(2, ref.put_extension(
            ref.OID['KeyUsage'], True, h(content)))
    for content, wanted in (('03020106', 'Ca'), ('03020780', 'Ee')):
        yield f'key usage {content}', fields(with_usage(content)).key_usage, wanted
    for content in ('030205A0', '03020080', '030207FF'):
        yield f'key usage {content}', cert_fault(with_usage(content)), 'BadValue'


@checks
def basic_constraints():
    def written(value):
        return hexed(worked.pieces_of(worked.anchor(basic_ca=value))[0])
    yield ('basic constraints true', written(True),
           '30 0F 06 03 55 1D 13 01 01 FF 04 05 30 03 01 01 FF')
    yield ('basic constraints false', written(False),
           '30 0C 06 03 55 1D 13 01 01 FF 04 02 30 00')
    piece = ref.put_extension(ref.OID['BasicConstraints'], True,
                              h('30060101FF020100'))
    yield 'basic constraints path', cert_fault(worked.replace_piece(0, piece)), 'BadValue'


@checks
def times():
    def time(tag, text):
        return read(ref.take_time, ref.enc(tag, text))
    yield 'time 49', time(0x17, b'491231235959Z')[0], 2049
    yield 'time 50', time(0x17, b'500101000000Z')[0], 1950
    last = time(0x18, b'99991231235959Z')
    yield 'time 9999', last, (9999, 12, 31, 23, 59, 59)
    yield ('time last second',
           verified(ref.TA, worked.anchor(not_after=last), now=last), 'Ok')
    yield 'time leap', fault_of(time, 0x17, b'190630235960Z'), 'BadValue'
    yield 'time end', verified(ref.TA, worked.A, now=worked.END), 'Ok'
    yield ('time after', verified(ref.TA, worked.A, now=(2029, 5, 1, 0, 0, 1)),
           'Expired')
    yield ('time before', verified(ref.TA, worked.A, now=(2019, 4, 30, 23, 59, 59)),
           'NotYetValid')


@checks
def serials():
    yield ('serial greatest', read(ref.take_serial, h('021500') + b'\xff' * 20),
           2 ** 160 - 1)
    for octets in (h('021501') + bytes(20), h('0202000C'), h('020180'),
                   h('0200')):
        yield (f'serial {octets.hex()}', fault_of(read, ref.take_serial, octets),
               'BadValue')
    yield 'serial zero', read(ref.take_serial, h('020100')), 0


@checks
def lengths():
    a = worked.A.octets()
    yield 'length cut', cert_fault(a[:-1]), 'Truncated'
    longer = ref.decode_cert(a + b'\0')
    yield 'length longer', (len(longer.octets()), longer.octets()), (947, a)
    yield 'length length', cert_fault(h('30830003AF') + a[4:]), 'BadLength'


KEY_ID = 'A9993E364706816ABA3E25717850C26C9CD0D89D'
NAME_N = f'30 33 31 31 30 2F 06 03 55 04 03 13 28 "{KEY_ID}"'
ALGORITHM = '30 0D 06 09 2A 86 48 86 F7 0D 01 01 0B 05 00'
ANCHOR_TABLE = [            # written out by hand
    '30 82 03 AF',
    '30 82 01 C8',
    'A0 03 02 01 02 02 01 0C',
    ALGORITHM,
    NAME_N,
    '30 1E 17 0D "190501000000Z" 17 0D "290501000000Z"',
    NAME_N,
    '30 15 30 0D 06 09 2A 86 48 86 F7 0D 01 01 01 05 00 03 04 00 61 62 63',
    'A3 82 01 0C 30 82 01 08',
    '30 0F 06 03 55 1D 13 01 01 FF 04 05 30 03 01 01 FF',
    '30 1D 06 03 55 1D 0E 04 16 04 14 ' + KEY_ID,
    '30 0E 06 03 55 1D 0F 01 01 FF 04 04 03 02 01 06',
    '30 60 06 08 2B 06 01 05 05 07 01 0B 04 54 30 52'
    ' 30 23 06 08 2B 06 01 05 05 07 30 05 86 17 "rsync://example.com/m/p"'
    ' 30 2B 06 08 2B 06 01 05 05 07 30 0A 86 1F'
    ' "rsync://example.com/m/p/mft.mft"',
    '30 18 06 03 55 1D 20 01 01 FF 04 0E'
    ' 30 0C 30 0A 06 08 2B 06 01 05 05 07 0E 03',
    '30 27 06 08 2B 06 01 05 05 07 01 1C 01 01 FF 04 18 30 16'
    ' 30 09 04 02 00 01 30 03 03 01 00 30 09 04 02 00 02 30 03 03 01 00',
    '30 21 06 08 2B 06 01 05 05 07 01 1D 01 01 FF 04 12 30 10 A0 0E 30 0C'
    ' 30 0A 02 01 00 02 05 00 FF FF FF FF']


def table_octets():
    """The anchor from the table above, and its pieces."""
    pieces = [h(text) for text in ANCHOR_TABLE]
    tbs = b''.join(pieces[1:])
    signature = h('03 82 01 D0 00 61 62 63') + tbs
    return pieces[0] + tbs + h(ALGORITHM) + signature, pieces


@checks
def anchor():
    octets, pieces = table_octets()
    yield 'anchor A', hexed(worked.A.octets()), hexed(octets)
    yield 'anchor length', len(worked.A.octets()), 947
    yield ('anchor piece lengths', [len(p) for p in pieces],
           [4, 4, 8, 15, 53, 32, 53, 23, 8, 17, 31, 16, 98, 26, 41, 35])
    yield 'anchor TBS length', len(worked.A.signed.data), 460
    yield 'anchor reads back', ref.decode_cert(octets), worked.A


# Octets of the anchor of ANCHOR_TABLE and of a list of two, each with others in their place, and
# where reading stops then. Counted by hand: the anchor's values are 4 octets of the outer SEQUENCE,
# 4 of what is signed, and then as long as the table has them; the list's are counted below.
ANCHOR_PLACES = [
    (4, '31', 'the to-be-signed part', 4),
    (12, '01', 'the version', 8),                       # v2
    (15, '8C', 'the serial number', 13),                # -116
    (28, '0C', 'the signature algorithm', 16),          # sha384WithRSAEncryption
    (33, '30', 'the issuer', 31),
    (90, '31 33', 'the validity', 84),                  # a thirteenth month
    (116, '31', 'the subject', 116),
    (183, '02', 'the public key', 169),                 # md2WithRSAEncryption
    (192, 'A0', 'the extensions', 192),
    (196, '31', 'the extensions', 196),
    (202, '04', 'an extension', 200),
    (209, '00', 'Basic Constraints', 200),              # not critical
    (223, '63', 'the extensions', 192),                 # no Subject Key Identifier
    (254, '0E', 'Subject Key Identifier', 248),         # a second one
    (263, '86', 'Key Usage', 248),
    (368, '63', 'an unknown extension', 362),           # and critical
    (464, '31', 'the algorithm of the signature', 464),
    (483, '01', 'the signature', 479)]                  # its last octet is odd
LIST_PLACES = [
    (9, '00', 'the version', 7),                        # v1
    (21, '0A', 'the signature algorithm', 10),
    (25, '31', 'the issuer', 25),
    (78, '18', 'this update', 78),
    (107, '2B', 'next update', 93),                     # no Z
    (109, '7F', 'the revoked certificates', 108),       # past what is signed
    (130, '31', 'a revoked certificate', 130),
    (150, 'A3', 'the extensions', 150),
    (160, '0E', 'an unknown extension', 154),           # a Subject Key Identifier
    (193, '23', 'Authority Key Identifier', 187),       # a second one
    (199, '04', 'the algorithm of the signature', 199),
    (214, '04', 'the signature', 214)]


def with_octets(octets, place, text):
    new = h(text)
    return octets[:place] + new + octets[place + len(new):]


@checks
def stops():
    for name, octets, table in (('certificate', worked.A.octets(), ANCHOR_PLACES),
                                ('list', worked.L.octets(), LIST_PLACES)):
        yield f'{name} is read', places.place_of(octets), None
        yield f'{name} with more behind', places.place_of(octets + b'\0'), None
        yield f'{name} cut', places.place_of(octets[:-1]), ('the outer SEQUENCE', 0)
        for place, text, *wanted in table:
            yield (f'{name} with {text} at {place}',
                   places.place_of(with_octets(octets, place, text)), tuple(wanted))
    yield 'no octets', places.place_of(b''), ('the outer SEQUENCE', 0)


@checks
def stops_of_whole_values():
    """Where values of other lengths are left out, put in or exchanged."""
    a, null = worked.A.octets(), h('0500')
    version, number, others, extensions = a[8:13], a[13:16], a[16:192], a[192:464]

    def put(*values, behind=b''):
        return ref.enc(0x30, ref.enc(0x30, *values), a[464:], behind)
    yield 'whole', put(version, number, others, extensions), a
    head = version, number, others
    for label, octets, *wanted in (
            ('NULL behind the tag', put(*head, extensions, null),
             'what follows the extensions', 464),
            ('NULL inside the tag', put(*head, ref.enc(0xA3, extensions[4:], null)),
             'what follows the extensions', 464),
            ('no extensions', put(*head), 'the extensions', 191),
            ('no values', put(), 'the version', 6),
            ('NULL at the end', put(*head, extensions, behind=null), 'the signature', 479),
            ('version 1', put(number, others, extensions), 'the version', 8),
            ('version 1, number 1', put(h('020101'), others, extensions), 'the version', 8),
            ('two numbers', put(version, number, number, others, extensions),
             'the signature algorithm', 16)):
        yield label, places.place_of(octets), tuple(wanted)
    without = worked.crl(12, signature=False)
    mixed = worked.crl(12).signed._replace(algorithm=False)
    yield 'list without NULL', places.place_of(without.octets()), None
    yield ('list with NULL inside alone', places.place_of(mixed.octets()),
           ('the algorithm of the signature', 179))


@checks
def mixed_algorithms():
    without = worked.anchor(signature=False)
    mixed = ref.Cert(without.tbs, without.signed._replace(algorithm=True))
    yield 'mixed algorithms length', len(mixed.octets()), 943
    yield ('mixed algorithms inspect', inspected(ref.TA, ref.decode_cert(mixed.octets())),
           'AlgorithmMismatch')


@checks
def as_numbers():
    content = h('3017A0153013300602010602010A3006020101020105020103')
    yield 'AS numbers read', read(ref.take_as_resources, content), ((1, 10),)
    yield ('AS numbers written', hexed(ref.put_as_content(((1, 10),))),
           '30 0C A0 0A 30 08 30 06 02 01 01 02 01 0A')
    yield ('AS numbers prefix', read(ref.take_ip_element, h('030100'), 128),
           (0, 2 ** 128 - 1))


@checks
def routers():
    issuer = under(worked.AS_ANCHOR)

    def validated(cert):
        return fault_of(ref.validate, ref.ROUTER, cert, issuer, True, worked.NOW)
    yield 'router Trim', validated(worked.R), 'Ok'
    yield ('router Refuse', validated(worked.router(overclaim=ref.REFUSE)),
           'OverclaimAs')


UNKNOWN = h('551D63')


@checks
def rearranged():
    a = worked.A.octets()
    backward = [6, 5, 4, 3, 2, 1, 0]
    answer = ref.rearrange(a, backward, [(0, UNKNOWN, b'')] * 2)
    yield 'rearranged length', len(answer), 965
    yield 'rearranged begins', hexed(answer[:8]), '30 82 03 C1 30 82 01 DA'
    yield ('rearranged extras', [p.hex() for p in ref.cert_pieces(answer)[1][:2]],
           ['30070603551d630400'] * 2)
    yield 'rearranged fields', fields(answer), worked.A.tbs
    yield ('rearranged signature', verified(ref.TA, ref.decode_cert(answer)),
           'BadSignature')
    yield 'rearranged same', ref.rearrange(a, list(range(7)), []), a
    critical = worked.restated([h('300A0603551D630101FF0400')] * 2 +
                               worked.pieces_of(worked.A)[::-1])
    yield ('rearranged critical', cert_fault(critical),
           'UnexpectedCritical(551d63)')
    second = ref.put_extension(ref.OID_IP[ref.REFUSE], True,
                               ref.put_ip_content(worked.ALL_ADDRESSES, ref.MISSING))
    yield ('rearranged second IP', cert_fault(worked.restated(
        worked.pieces_of(worked.A) + [second])), 'Duplicate(IpResources)')
    yield ('rearranged order', fault_of(ref.rearrange, a, [0, 0, 1, 2, 3, 4, 5], []),
           'NotAnOrder')


@checks
def subject_information():
    sia = ref.take_subject_information_access
    content = h('300E300C06082B060105050730018600')
    yield 'subject information empty', fault_of(read, sia, h('3000')), 'BadValue'
    yield 'subject information unknown', set(read(sia, content).values()), {None}
    extension = ref.put_extension(ref.OID['SubjectInformationAccess'], False,
                                  content)
    octets = worked.restated(worked.pieces_of(worked.R) + [extension], worked.R.octets())
    yield 'subject information router', inspected(ref.ROUTER, ref.decode_cert(octets)), 'Ok'


@checks
def searches():
    lists = [(), (1,), tuple(range(1, 8)), (*range(1, 8), 7)]
    for serials, bound in zip(lists, (0, 1, 3, 4)):
        vector = worked.entry_row(*serials)
        answers = [(ref.contains_counted(vector, s, False)[0],
                    *ref.contains_counted(vector, s, True)) for s in range(10)]
        yield (f'search {len(serials)} answers', [b for _, b, _ in answers],
               [a for a, _, _ in answers])
        yield (f'search {len(serials)} count',
               max(c for _, _, c in answers) <= bound, True)


@checks
def uris():
    base = b'rsync://example.com/m/'
    for text, parent in ((base + b'p/mft.mft', base + b'p/'),
                         (base + b'p/', base), (base[:-1], None),
                         (base, None)):
        yield f'URI parent of {text}', ref.rsync_parent(text), parent
    upper, other = b'RSYNC://EXAMPLE.com/m/p', b'rsync://example.com/M/p'
    yield 'URI equal', ref.uri_equal(upper, base + b'p'), True
    yield 'URI unequal', ref.uri_equal(other, base + b'p'), False
    for text in (base + b'../p', b'rsync://example.com/', b'rsync:///m/p'):
        yield f'URI refused {text}', ref.is_rsync(text), False


def skipped(count):
    return fault_of(read, ref.Cursor.skip_one, worked.nested_sequences(count))


@checks
def skipped_values():
    yield ('skipped octets', hexed(worked.nested_sequences(16)[:4]), '30 1E 30 1C')
    yield 'skipped 16', skipped(16), 'Ok'
    yield 'skipped 32', skipped(32), 'Ok'
    yield 'skipped 33', skipped(33), 'TooDeep'
    cursor = ref.Cursor(worked.nested_sequences(33))
    yield 'skipped 33 fault', fault_of(cursor.skip_one), 'TooDeep'
    yield 'skipped 33 stands', (cursor.place, len(cursor.data)), (0, 66)


@checks
def absent_extensions():
    bare = worked.anchor(v4=ref.MISSING, v6=ref.MISSING, asn=ref.MISSING)
    yield 'absent none', cert_fault(bare.octets()), 'Missing(Resources)'
    pieces = worked.pieces_of(worked.A)
    yield ('absent no policies', cert_fault(worked.restated(
        pieces[:4] + pieces[5:])), 'WrongResources(IpResources)')


@checks
def stores():
    lower, upper = (b'rsync://example.com/m/x.crl',
                    b'rsync://EXAMPLE.com/m/x.crl')
    store = ref.CrlStore([(lower, worked.L), (upper, worked.EMPTY_L)])
    yield 'store lower', store.get(lower) is worked.L, True
    yield 'store upper', store.get(upper) is worked.L, True
    yield 'store other', store.get(b'rsync://example.com/m/y.crl'), None


@checks
def written_values():
    yield 'written serial', hexed(ref.put_unsigned(255)), '02 02 00 FF'
    yield ('written 2049', hexed(ref.put_time((2049, 12, 31, 23, 59, 59))),
           '17 0D 34 39 31 32 33 31 32 33 35 39 35 39 5A')
    yield ('written 2050', hexed(ref.put_time((2050, 1, 1, 0, 0, 0))),
           '18 0F 32 30 35 30 30 31 30 31 30 30 30 30 30 30 5A')
    yield 'written no such day', ref.time_utc(2023, 2, 29, 0, 0, 0), None


@checks
def resources():
    ones = (1 << 96) - 1

    def v4(low, high):
        return low << 96, high << 96 | ones

    def families(content):
        return fault_of(read, ref.take_families, h(content))
    yield ('resources prefix', read(ref.take_ip_element, h('0304010A0500'), 32),
           v4(0x0A050000, 0x0A0501FF))
    block = read(ref.take_ip_element, h('3008 0302010A 0302000A'), 32)
    yield 'resources range', block, v4(0x0A000000, 0x0AFFFFFF)
    yield 'resources range written', hexed(ref.put_ip_block(block)), '03 02 00 0A'
    yield ('resources three', hexed(ref.put_ip_block(v4(0x0A000000, 0x0A000002))),
           '30 0B 03 02 01 0A 03 05 00 0A 00 00 02')
    yield ('resources missing', read(ref.take_families, h('30083006040200013000')),
           (ref.MISSING, None))
    yield ('resources twice', families('3010300604020001050030060402000105 00'),
           'BadValue')
    yield 'resources none', families('3000'), 'BadValue'
    yield 'resources family 3', families('30083006040200033000'), 'BadValue'
    yield ('resources inherit', read(ref.take_as_resources, h('3004A0020500')),
           ref.INHERIT)
    yield ('resources backward', fault_of(read, ref.take_as_resources,
                                          h('300CA00A3008300602010A020101')),
           'BadValue')
    top = 2 ** 128 - 1
    yield 'resources merged', ref.union([(top, top), (0, top - 1)]), ((0, top),)
    ten = ((1, 10),)
    yield 'resources refuse', ref.issued(ten, ((5, 20),), ref.REFUSE), None
    yield 'resources trim', ref.issued(ten, ((5, 20),), ref.TRIM), ((5, 10),)
    for mode in (ref.REFUSE, ref.TRIM):
        yield f'resources missing {mode}', ref.issued(ten, ref.MISSING, mode), ()
        yield f'resources inherit {mode}', ref.issued(ten, ref.INHERIT, mode), ten


@checks
def keys():
    yield ('key K2', hexed(ref.put_key(worked.K2)),
           '30 13 30 0D 06 09 2A 86 48 86 F7 0D 01 01 01 05 00 03 02 00 61')
    yield ('key no NULL', read(ref.take_key, h(
        '3011300B06092A864886F70D01010103020061')), worked.K2)
    key = read(ref.take_key, h('3019301306072A8648CE3D020106082A8648CE3D0301'
                               '0703020061'))
    yield 'key P-256', key, ref.Key(ref.P256, b'a')
    yield 'key same identifier', key.identifier(), worked.K2.identifier()
    identifiers = ('A9993E364706816ABA3E25717850C26C9CD0D89D',
                   '86F7E437FAA5A7FCE15D1DDCB9EAEAEA377667B8',
                   'DA39A3EE5E6B4B0D3255BFEF95601890AFD80709')
    for key, wanted in zip((worked.K1, worked.K2, worked.K3), identifiers):
        yield f'key {wanted[:4]}', key.identifier().hex().upper(), wanted
    yield 'key N', hexed(worked.K1.subject_name()), hexed(h(NAME_N))
    for key, signature, wanted in (
            (worked.K2, '613000', True), (worked.K2, '6130', False),
            (worked.K3, '3000', True)):
        yield (f'key stand-in {signature}',
               ref.stand_in(key, True, h('3000'), h(signature)), wanted)
    for text, wanted in ((b'https://example.com', True), (b'HTTPS://h/', True),
                         (b'https:///x', False)):
        yield f'key {text}', ref.is_https(text), wanted


ISSUER_EXTENSION = ('303806082B06010505070101042C302A302806082B060105050730'
                    '02861C"rsync://example.com/m/ta.cer"')


@checks
def single_extensions():
    def with_one(octets):
        return worked.restated(worked.pieces_of(worked.A) + [octets])

    def access(*names):
        return ref.put_extension(
            ref.OID['AuthorityInformationAccess'], False,
            ref.enc(0x30, ref.enc(0x30, ref.enc(0x06, ref.OID_CA_ISSUERS), *names)))
    uri, other = ref.put_uri_name(worked.ISSUER_URI), h('860178')
    yield 'extension issuer octets', hexed(access(uri)), hexed(h(ISSUER_EXTENSION))
    yield ('extension issuer', fields(with_one(h(ISSUER_EXTENSION))).ca_issuer,
           worked.ISSUER_URI)
    crl = h('302E0603551D1F042730253023A021A01F861D'
            '"rsync://example.com/m/p/x.crl"')
    yield 'extension CRL', fields(with_one(crl)).crl_uri, worked.CRL_URI
    purpose = h('30130603551D25040C300A06082B0601050507031E')
    yield ('extension purpose', fields(with_one(purpose)).extended_key_usage,
           worked.ROUTER_PURPOSE)
    yield ('extension second name', fields(with_one(access(uri, other))).ca_issuer,
           worked.ISSUER_URI)
    yield 'extension name twice', cert_fault(with_one(access(uri, uri))), 'BadValue'
    yield from single_flags()


def sia_of(*texts):
    return ref.enc(0x30, *(ref.enc(0x30, ref.enc(0x06, ref.OID_CA_REPOSITORY),
                                   ref.put_uri_name(text)) for text in texts))


def single_flags():
    repository = b'rsync://example.com/m/p'
    piece = ref.put_extension(ref.OID['SubjectInformationAccess'], False,
                              sia_of(b'x', repository))
    yield ('extension second repository',
           fields(worked.replace_piece(3, piece)).ca_repository, repository)
    flagged = ref.enc(0x30, ref.enc(0x06, ref.OID['BasicConstraints']),
                      h('010100'), ref.enc(0x04, h('30030101FF')))
    yield ('extension not critical', cert_fault(worked.replace_piece(0, flagged)),
           'NotCritical(BasicConstraints)')
    critical = ref.put_extension(ref.OID['SubjectInformationAccess'], True,
                                 sia_of(repository))
    yield ('extension critical', cert_fault(worked.replace_piece(3, critical)),
           'Critical(SubjectInformationAccess)')
    longer = ref.put_extension(ref.OID['KeyUsage'], True, h('03020780FFFF'))
    yield 'extension with octets behind', fields(worked.replace_piece(2, longer)).key_usage, 'Ee'


@checks
def long_uris():
    table = {93: ('307F', '8673'), 94: ('308180', '8674'),
             220: ('3081FF', '8681F2'), 221: ('30820100', '8681F3'),
             65499: ('3082FFFF', '8682FFF1'),
             65500: ('3083010000', '8682FFF2')}
    for letters, (description, name) in table.items():
        uri = b'rsync://example.com/m/' + b'a' * letters
        cert = worked.anchor(ca_repository=uri, rpki_manifest=None)
        written = ref.enc(0x30, ref.enc(0x06, ref.OID_CA_REPOSITORY),
                          ref.put_uri_name(uri))
        inside = written[len(h(description)):]
        yield (f'URI of letters {letters}', (hexed(written[:len(h(description))]),
                                             hexed(inside[10:10 + len(h(name))])),
               (hexed(h(description)), hexed(h(name))))
        yield (f'URI of letters {letters} stands there', written in cert.octets(), True)
        yield f'URI of letters {letters} reads', fields(cert.octets()), cert.tbs


@checks
def anchor_profile():
    k1, k2 = worked.K1.identifier(), worked.K2.identifier()
    changes = [
        ('CaFlagFalse', {'basic_ca': False, 'key_usage': 'Ee'}),
        ('MissingBasicConstraints', {'basic_ca': None, 'key_usage': 'Ee'}),
        ('KeyUsage', {'key_usage': 'Ee'}),
        ('ManifestNotChild',
         {'rpki_manifest': b'rsync://example.com/m/q/mft.mft'}),
        ('AuthorityKeyIdentifier', {'authority_key_identifier': k2}),
        ('Ok', {'authority_key_identifier': k1}),
        ('ExtendedKeyUsagePresent', {'extended_key_usage': worked.ROUTER_PURPOSE}),
    ]
    for wanted, change in changes:
        cert = ref.decode_cert(worked.anchor(**change).octets())
        yield f'profile inspect_ta {wanted}', inspected(ref.TA, cert), wanted
    yield 'profile inspect_ca A', inspected(ref.CA, worked.A), 'MissingCrlUri'
    yield 'profile inspect_ee A', inspected(ref.EE, worked.A), 'MissingCrlUri'
    yield ('profile inspect_ee with CRL', inspected(
        ref.EE, worked.anchor(crl_uri=worked.CRL_URI)), 'BasicConstraintsPresent')
    utf8 = worked.anchor(issuer=worked.A.tbs.issuer.replace(h('1328'), h('0C28')))
    yield 'profile strict issuer', inspected(ref.TA, utf8), 'Issuer'
    yield 'profile lenient issuer', inspected(ref.TA, utf8, False), 'Ok'
    yield ('profile inherits', verified(ref.TA, worked.anchor(
        v6=ref.INHERIT, asn=ref.INHERIT)), 'InheritedV6')


@checks
def router_profile():
    changes = [
        ('Ok', {}),
        ('MissingExtendedKeyUsage', {'extended_key_usage': None}),
        ('InheritedAsResources', {'asn': ref.INHERIT}),
        ('IpResourcesPresent', {'v4': ref.INHERIT}),
        ('SubjectInformationPresent',
         {'rpki_notify': b'https://example.com/n'})]
    for wanted, change in changes:
        cert = ref.decode_cert(worked.router(**change).octets())
        yield f'profile inspect_router {wanted}', inspected(ref.ROUTER, cert), wanted
    yield 'profile detached R', inspected(ref.DETACHED, worked.R), 'KeyAlgorithm'


@checks
def issuing():
    issuer = under(worked.AS_ANCHOR)

    def issue(**change):
        f = worked.ca_fields(worked.K1, worked.K2, 7, **change)
        return ref.issue_ca(f, worked.K1, issuer, True, worked.NOW)
    yield 'profile issue_ca', issue(asn=worked.as_set(5, 20)).asn, ((5, 10),)
    yield ('profile issue_ca overclaims', fault_of(
        issue, asn=worked.as_set(5, 20), overclaim=ref.REFUSE), 'OverclaimAs')
    yield ('profile issue_ca without resources', fault_of(issue),
           'Missing(Resources)')


def list_with(*extra):
    """The worked list with more extensions, signed anew."""
    pieces = [ref.put_extension(*t) for t in ref.crl_triples(worked.L.tbs)]
    data = ref.encode_list(worked.L.tbs, pieces + list(extra))
    return ref.stand_in_sign(worked.K1, True, data).octets()


@checks
def list_extensions():
    number = ref.put_extension(ref.OID['CrlNumber'], False, h('02010C'))
    yield ('list invalid', fault_of(ref.decode_crl, list_with(
        h('30070603551D630400'))), 'InvalidExtension(551d63)')
    yield ('list number twice', fault_of(ref.decode_crl, list_with(number)),
           'Duplicate(CrlNumber)')
    pieces = [ref.put_extension(i, i == ref.OID['CrlNumber'], c)
              for i, _, c in ref.crl_triples(worked.L.tbs)]
    octets = ref.stand_in_sign(
        worked.K1, True, ref.encode_list(worked.L.tbs, pieces)).octets()
    yield 'list critical number', ref.decode_crl(octets).tbs, worked.L.tbs
    mixed = ref.stand_in_sign(worked.K1, True, ref.encode_list(
        replace(worked.L.tbs, signature=False))).octets()
    yield ('list inner NULL', fault_of(ref.decode_crl, mixed),
           'AlgorithmMismatch')
    yield ('list stale', [worked.L.tbs.is_stale(t) for t in
                          (worked.END, (2029, 5, 1, 0, 0, 1))], [False, True])
    second = worked.anchor(key=worked.K2, subject_key_identifier=worked.K2.identifier())
    for cert, wanted in ((worked.A, True), (second, False)):
        yield ('list issuer claim', worked.L.tbs.authority_key_identifier ==
               cert.tbs.subject_key_identifier, wanted)


@checks
def cursors():
    a = worked.A.octets()
    moved = ref.Cursor(b'\0\0\0' + a, 3)
    yield 'cursor from place 3', ref.take_cert(moved), worked.A
    cursor = ref.Cursor(a + b'\0')
    ref.take_cert(cursor)
    yield ('cursor cursor', (cursor.rest(), cursor.span()), (b'\0', (947, 948)))
    for octets in (a[:-1], worked.restated(worked.pieces_of(worked.A) * 2), b''):
        cursor = ref.Cursor(octets)
        fault = fault_of(ref.take_cert, cursor)
        yield f'cursor refused {fault} stands', cursor.place, 0


@checks
def counted_searches():
    vector = worked.entry_row(*range(1, 8), 7)
    for octets, serial, uncached, cached, bound in (
            (b'', 1, (False, 0), False, 0), (vector, 1, (True, 1), True, 4),
            (vector, 7, (True, 7), True, 4), (vector, 9, (False, 8), False, 4)):
        label = f'search {len(octets) // 20} entries, serial {serial}'
        yield label, ref.contains_counted(octets, serial, False), uncached
        hit, count = ref.contains_counted(octets, serial, True)
        yield label + ' cached', (hit, count <= bound), (cached, True)


@checks
def cut_octets():
    a, crl = worked.A.octets(), worked.L.octets()
    yield ('A cut', {cert_fault(a[:n]) for n in range(947)},
           {'Truncated'})
    yield ('list cut', {fault_of(ref.decode_crl, crl[:n])
                                for n in range(416)}, {'Truncated'})
    for place, piece in enumerate(worked.pieces_of(worked.A)):
        kind = ref.kind_of(ref.take_extension(ref.Cursor(piece))[0])
        yield (f'{kind} twice', cert_fault(worked.restated(
            worked.pieces_of(worked.A) + [piece])), f'Duplicate({kind})')


def deep(count):
    return worked.replace_piece(4, worked.policies_with(worked.nested_sequences(count)))


@checks
def deep_qualifiers():
    octets = deep(16)
    yield 'deep length', len(octets), 979
    yield ('deep begins', hexed(octets[:8]), '30 82 03 CF 30 82 01 E8')
    yield 'deep header', h('A382012C30820128') in octets, True
    yield ('deep policies', h(
        '30380603551D200101FF042E302C302A06082B06010505070E03') +
        worked.nested_sequences(16) in octets, True)
    for count in (16, 17, 32):
        yield f'{count} deep', fields(deep(count)), worked.A.tbs
    yield '33 deep', cert_fault(deep(33)), 'TooDeep'


@checks
def rearranged_refusals():
    a, order = worked.A.octets(), list(range(7))
    known, unknown = h('551D0F'), h('551D14')
    answer = ref.rearrange(a, order, [(7, unknown, b'')])
    yield 'rearrange', len(answer), 956
    yield ('rearrange begins', hexed(answer[:8]),
           '30 82 03 B8 30 82 01 D1')
    yield 'rearrange fields', fields(answer), worked.A.tbs
    extra = (UNKNOWN, h('A3023000'))
    first = ref.rearrange(a, order, [(7, *extra)])
    second = ref.rearrange(first, list(range(8)), [(8, *extra)])
    yield ('twice', (len(first), len(second)), (960, 973))
    yield 'twice fields', {fields(first), fields(second)}, {worked.A.tbs}
    for label, arguments, wanted in (
            ('at 8', (a, order, [(8, UNKNOWN, b'')]), 'NotAnOrder'),
            ('known', (a, order, [(7, known, b'')]), 'KnownExtra'),
            ('both', (a, [0, 0, 1, 2, 3, 4, 5], [(7, known, b'')]),
             'NotAnOrder'),
            ('no certificate', (h('3000'), [], []), 'NoCertificate')):
        yield f'{label}', fault_of(ref.rearrange, *arguments), wanted


def with_store(store, members, depth=ref.DEPTH):
    """The sets of AS numbers, or index and fault."""
    kinds = [ref.TA] + [ref.CA] * (len(members) - 1)
    octets = [c if isinstance(c, bytes) else c.octets() for c in members]
    try:
        return ref.validate_path(list(zip(kinds, octets)), True, worked.NOW,
                                 depth=depth, store=ref.CrlStore(store)).asn
    except ref.PathError as refused:
        return refused.index, refused.stage, refused.fault.name


@checks
def revocation():
    uri, other = worked.CRL_URI, b'rsync://example.com/m/p/y.crl'
    ta, ca = worked.AS_ANCHOR, worked.TRIMMED_CA
    refuse = worked.OVERCLAIMING_CA
    revoked = ref.into_cert(replace(ca.tbs, serial=42), worked.K1)
    second_key = worked.crl(12, 42, authority_key_identifier=worked.K2.identifier())
    stale = worked.crl(12, 42, next_update=(2023, 12, 31, 23, 59, 59))
    last_moment = worked.crl(12, 42, next_update=worked.NOW)

    def at(index, name, stage='revocation'):
        return index, stage, name
    yield 'revocation, not listed', with_store([(uri, worked.L)], [ta, ca]), ((5, 10),)
    yield ('revocation, host in another case', with_store(
        [(b'rsync://EXAMPLE.com/m/p/x.crl', worked.L)], [ta, ca]), ((5, 10),))
    for label, store, path, wanted in (
            ('empty', [], [ta, ca], at(1, 'NoCrl')),
            ('other', [(other, worked.L)], [ta, ca], at(1, 'NoCrl')),
            ('refuse', [], [ta, refuse], at(1, 'OverclaimAs', 'verify')),
            ('anchor', [], [ta], ((1, 10),)),
            ('revoked', [(uri, worked.L)], [ta, revoked], at(1, 'Revoked')),
            ('before next', [(uri, worked.L)], [ta, revoked, h('30')],
             at(1, 'Revoked')),
            ('key id', [(uri, second_key)], [ta, ca], at(1, 'WrongKeyId')),
            ('signed', [(uri, worked.crl(12, 42, signer=worked.K2))], [ta, ca],
             at(1, 'BadSignature')),
            ('stale', [(uri, stale)], [ta, revoked], at(1, 'Stale')),
            ('last', [(uri, last_moment)], [ta, ca], ((5, 10),)),
            ('first', [(uri, stale), (uri, worked.L)], [ta, ca], at(1, 'Stale'))):
        yield f'revocation {label}', with_store(store, path), wanted
    yield from revocation_below()


def revocation_below():
    ta, cas, uri = worked.AS_ANCHOR, worked.INHERITING_CAS, worked.CRL_URI
    yield ('revocation one list', with_store([(uri, worked.L)], [ta, *cas]),
           (2, 'revocation', 'WrongKeyId'))
    below = b'rsync://example.com/m/c/y.crl'
    second = ref.into_cert(replace(cas[1].tbs, crl_uri=below), worked.K2)
    store = [(uri, worked.L), (below, worked.crl(key=worked.K2))]
    yield ('revocation two lists', with_store(store, [ta, cas[0], second]),
           ((3, 3),))


@checks
def folders_of_files():
    """Which certificates of a folder are accepted below its trust anchor (RFC 6487 7.2)."""
    anchor = worked.anchor_of(asn=worked.as_set(1, 100)).octets()
    first = worked.first_ca(asn=worked.as_set(1, 50), overclaim=ref.REFUSE).octets()
    renewed = worked.first_ca(asn=worked.as_set(1, 10), overclaim=ref.REFUSE).octets()
    second = worked.second_ca(asn=worked.as_set(40, 50), overclaim=ref.REFUSE).octets()
    # a circle of keys: K2 signs K3's certificate, and K3 one of K2
    circle = ref.into_cert(worked.ca_fields(worked.K3, worked.K2, 11, asn=ref.INHERIT), worked.K3).octets()
    leaf = worked.end_entity(v4=ref.MISSING, v6=ref.MISSING).octets()
    router = worked.router().octets()
    lists = [worked.crl(99, key=key).octets() for key in (worked.K1, worked.K2, worked.K3)]
    revoking = worked.crl(8, key=worked.K2, crl_number=13).octets()
    older = worked.crl(8, key=worked.K2, crl_number=11).octets()
    foreign = worked.crl(99, key=worked.K2, signer=worked.K3).octets()
    due = worked.crl(99, key=worked.K2, next_update=(2023, 6, 1, 0, 0, 0)).octets()

    def accepted(*strings, depth=8):
        found = folders.accepted(strings, worked.K1, True, worked.NOW, depth=depth)
        return [(place, sorted(below)) for place, below in found.items()]

    yield 'in order', accepted(anchor, first, second, *lists), [(0, [1, 2])]
    yield 'in another order', accepted(*lists, second, first, b'0', anchor), [(6, [3, 4])]
    yield 'no trust anchor', accepted(first, second, *lists), []
    yield 'no lists', accepted(anchor, first, second), [(0, [])]
    yield 'a list is missing', accepted(anchor, first, second, *lists[:1]), [(0, [1])]
    yield 'a foreign list', accepted(anchor, first, second, lists[0], foreign), [(0, [1])]
    yield 'a later list revokes', accepted(anchor, first, second, *lists, revoking), [(0, [1])]
    yield 'an older list revokes', accepted(anchor, first, second, *lists, older), [(0, [1, 2])]
    yield 'a list that is due', accepted(anchor, first, second, lists[0], due), [(0, [1])]
    yield 'one beside it', accepted(anchor, first, second, lists[0], due, lists[1]), [(0, [1, 2])]
    yield 'one before it', accepted(anchor, first, second, *lists, due), [(0, [1, 2])]
    yield 'a renewal with less', accepted(anchor, renewed, second, *lists), [(0, [1])]
    yield 'a renewal beside', accepted(anchor, renewed, first, second, *lists), [(0, [1, 2, 3])]
    yield 'a circle', accepted(anchor, first, second, circle, *lists), [(0, [1, 2, 3])]
    yield 'too deep', accepted(anchor, first, second, circle, *lists, depth=2), [(0, [1, 2])]
    yield 'leaves', accepted(anchor, leaf, router, *lists), [(0, [1, 2])]

    def looked_at(*strings, depth, steps=300):
        folder = folders.Folder(strings)
        (_, root), = folder.anchors(worked.K1, True, worked.NOW)
        verdicts, ended = folder.looked_at(root, True, worked.NOW, depth, steps)
        return sorted(verdicts.items()), ended

    yield ('whole, looked at', looked_at(anchor, first, second, leaf, *lists, depth=2),
           ([(1, True), (2, True), (3, True)], 'whole'))
    yield ('nothing, looked at', looked_at(anchor, first, *lists, depth=0), ([], 'deep'))
    yield ('without lists, looked at', looked_at(anchor, first, second, depth=8),
           ([(1, False)], 'whole'))
    # the renewal and the first have the key of one that is below both
    yield ('beside, looked at', looked_at(anchor, renewed, first, second, *lists, depth=8),
           ([(1, True), (2, True), (3, True)], 'whole'))
    # nothing is looked at below the circle: its key stands above
    yield ('a circle, looked at', looked_at(anchor, first, second, circle, *lists, depth=4),
           ([(1, True), (2, True), (3, True)], 'whole'))
    # one step for each, and half of what is left for each of two
    for steps, wanted in ((0, ([], 'out')), (1, ([(1, True)], 'out')), (2, ([(1, True), (2, True)], 'whole'))):
        yield f'{steps} steps', looked_at(anchor, first, second, *lists, depth=8, steps=steps), wanted
    for steps, wanted in ((1, ([], 'out')), (3, ([(1, True), (2, True)], 'out')),
                          (4, ([(1, True), (2, True), (3, True)], 'whole'))):
        yield (f'{steps} steps beside',
               looked_at(anchor, renewed, first, second, *lists, depth=8, steps=steps), wanted)


FOLDERS = 60                    # random ones into which a stranger writes
SIGNERS = [random_folders.StandInSigner(bytes([97 + place])) for place in range(7)]


def walked(question, files, names):
    """A folder's walks, its trust anchor, and the valid paths of at most six below it."""
    found = walks.Walks(list(files.values()), ref.stand_in, names, True, random_folders.NOW)
    anchor = found.chosen(question.key)
    return found, anchor, found.all_paths(anchor, 6, 300)[0] if anchor else {}


def ends(paths):
    return {path[-1] for path in paths}


def told_free(found, told, keys):
    """What is told of paths none of whose issuers has a key of the stranger."""
    certs = {cert.signed.data: cert for _, cert in found.certs}
    return {path: (tuple(faults), result and (result.v4, result.v6, result.asn))
            for path, (faults, result) in told.items()
            if walks.is_free([certs[it] for it in path], keys)}


@checks
def strangers_by_chance():
    """A walk without bounds accepts what a valid path leads to, by valid paths; and what walks tell of
    paths without a stranger's keys is the same with the stranger's files, at each number of steps."""
    for number in range(FOLDERS):
        rng = random.Random(f'strangers {number}')
        question, names = strangers.Question(rng, SIGNERS), rng.choice([True, False])
        try:
            both = [walked(question, it, names) for it in (question.files, question.with_added())]
        except walks.TooMany:
            continue
        yield (f'strangers {number}, the trust anchor', *(it and it.key() for _, it, _ in both))
        if both[0][1] is None:
            continue
        for found, anchor, paths in both:
            told, _ = found.walk(anchor, 6, 10 ** 9)
            accepted = {path for path, (_, result) in told.items() if result is not None}
            yield f'strangers {number}, no valid path', accepted - set(paths), set()
            if all(len(path) < 7 for path in paths):
                yield f'strangers {number}, accepted', ends(accepted), ends(paths)
        for steps in (rng.randrange(1, 40), rng.randrange(1, 40), 6000):
            yield (f'strangers {number}, {steps} steps', *(
                told_free(found, found.walk(anchor, 6, steps)[0], question.keys)
                for found, anchor, _ in both))


FOLDERS = 60                    # random ones into which a stranger writes
SIGNERS = [random_folders.StandInSigner(bytes([97 + place])) for place in range(7)]


def walked(question, files, names):
    """A folder's walks, its trust anchor, and the valid paths of at most six below it."""
    found = walks.Walks(list(files.values()), ref.stand_in, names, True, random_folders.NOW)
    anchor = found.chosen(question.key)
    return found, anchor, found.all_paths(anchor, 6, 300)[0] if anchor else {}


def ends(paths):
    return {path[-1] for path in paths}


def told_free(found, told, keys):
    """What is told of paths none of whose issuers has a key of the stranger."""
    certs = {cert.signed.data: cert for _, cert in found.certs}
    return {path: (tuple(faults), result and (result.v4, result.v6, result.asn))
            for path, (faults, result) in told.items()
            if walks.is_free([certs[it] for it in path], keys)}


@checks
def strangers_by_chance():
    """A walk without bounds accepts what a valid path leads to, by valid paths; and what walks tell of
    paths without a stranger's keys is the same with the stranger's files, at each number of steps."""
    for number in range(FOLDERS):
        rng = random.Random(f'strangers {number}')
        question, names = strangers.Question(rng, SIGNERS), rng.choice([True, False])
        try:
            both = [walked(question, it, names) for it in (question.files, question.with_added())]
        except walks.TooMany:
            continue
        yield (f'strangers {number}, the trust anchor', *(it and it.key() for _, it, _ in both))
        if both[0][1] is None:
            continue
        for found, anchor, paths in both:
            told, _ = found.walk(anchor, 6, 10 ** 9)
            accepted = {path for path, (_, result) in told.items() if result is not None}
            yield f'strangers {number}, no valid path', accepted - set(paths), set()
            if all(len(path) < 7 for path in paths):
                yield f'strangers {number}, accepted', ends(accepted), ends(paths)
        for steps in (rng.randrange(1, 40), rng.randrange(1, 40), 6000):
            yield (f'strangers {number}, {steps} steps', *(
                told_free(found, found.walk(anchor, 6, steps)[0], question.keys)
                for found, anchor, _ in both))


@checks
def deeper_qualifiers():
    octets = deep(32)
    yield 'depth length', len(octets), 1011
    yield 'depth begins', hexed(octets[:8]), '30 82 03 EF 30 82 02 08'
    yield 'depth header', h('A382014C30820148') in octets, True
    yield ('depth policies', h(
        '30580603551D200101FF044E304C304A06082B06010505070E03') in octets,
        True)
    yield 'depth before', cert_fault(octets, 16), 'TooDeep'


@checks
def further_formats():
    entry = ref.put_entry(ref.Entry(12, worked.START))
    yield ('entry', hexed(entry), '30 12 02 01 0C 17 0D 31 39 30 35 30 '
           '31 30 30 30 30 30 30 5A')
    yield ('at most one kind accepts', [
        sum(inspected(kind, cert) == 'Ok' for kind in
            (ref.TA, ref.CA, ref.DETACHED, ref.ROUTER))
        for cert in (worked.A, worked.TRIMMED_CA, worked.E, worked.R)], [1, 1, 1, 1])
    yield ('year 0', ref.put_time(ref.time_utc(0, 2, 29, 0, 0, 0)),
           ref.enc(0x18, b'00000229000000Z'))
    too_long = b'revoked - 0C\n' + b' ' * (1 << 24)
    yield 'input of more than 2^24', ref.program(too_long), (b'', 3)
    for path in ([worked.AS_ANCHOR, worked.TRIMMED_CA],
                 [worked.AS_ANCHOR, *worked.INHERITING_CAS],
                 [worked.V4_ANCHOR, *worked.V4_CAS]):
        yield 'sets by members are sets by steps', sets_by_members(path), sets_by_steps(path)


def sets_by_steps(path):
    members = list(zip([ref.TA, ref.CA, ref.CA], (c.octets() for c in path)))
    result = ref.validate_path(members, True, worked.NOW)
    return [[ref.contains(getattr(result, kind), n) for n in SAMPLE]
            for kind in ('v4', 'v6', 'asn')]


def sets_by_members(path):
    return [[ref.holds(path, len(path) - 1, kind, n) for n in SAMPLE]
            for kind in ('v4', 'v6', 'asn')]


@checks
def laws_by_chance():
    """Laws over random paths: sets, blindness to order, what is written is read."""
    for number in range(40):
        rng = random.Random(f'laws {number}')
        path = sound.random_path(rng)
        certs = [ref.decode_cert(d.octets()) for d in path.drafts]
        result = ref.validate_path([(d.kind, d.octets()) for d in path.drafts],
                                   path.strict, path.now)
        for kind in sound.KINDS:
            ends = numbers_around(certs, kind)
            yield (f'chance {number} {kind}',
                   [ref.contains(getattr(result, kind), n) for n in ends],
                   [ref.holds(certs, len(certs) - 1, kind, n) for n in ends])
        octets, f = path.drafts[-1].octets(), path.drafts[-1].f
        yield f'chance {number} fields', certs[-1].tbs, f
        yield (f'chance {number} rearranged',
               fields(shuffled(rng, octets)), f)
        if any(getattr(f, kind) != ref.MISSING for kind in sound.KINDS):
            yield (f'chance {number} written is read',
                   fields(ref.into_cert(f, worked.K1).octets()), f)


def signed_by_openssl():
    """An anchor, an authority, an end entity and the anchor's list."""
    names = ('ta', 'ca', 'ee', 'ta-crl')
    return [(vectors.DATA / f'openssl-{name}.der').read_bytes()
            for name in names]


def bit_changed(octets, place):
    return octets[:place] + bytes([octets[place] ^ 1]) + octets[place + 1:]


@checks
def real_signatures():
    """Signatures that OpenSSL made, and one bit of each part changed."""
    *path, crl = signed_by_openssl()
    certs = [ref.decode_cert(octets) for octets in path]
    anchor, authority, _ = (cert.tbs.key for cert in certs)
    signed = [(anchor, certs[0].signed), (anchor, certs[1].signed),
              (authority, certs[2].signed),
              (anchor, ref.decode_crl(crl).signed)]
    for place, (key, it) in enumerate(signed):
        parts = key, True, it.data, it.signature
        yield f'signature {place}', rsa.verifier(*parts), True
        for label, changed in (
                ('of other octets', (*parts[:2], bit_changed(it.data, 9),
                                     it.signature)),
                ('changed', (*parts[:3], bit_changed(it.signature, 40))),
                ('an octet short', (*parts[:3], it.signature[1:])),
                ('an octet long', (*parts[:3], b'\0' + it.signature))):
            yield f'signature {place} {label}', rsa.verifier(*changed), False
    members = list(zip((ref.TA, ref.CA, ref.EE), path))
    yield 'path of real signatures', fault_of(
        ref.validate_path, members, True, worked.NOW, rsa.verifier), 'Ok'
    yield 'path by the stand-in', fault_of(
        ref.validate_path, members, True, worked.NOW), '0 verify BadSignature'


def numbers_around(certs, kind):
    """The ends of all blocks and their neighbours."""
    ranges = [block for c in certs for block in getattr(c.tbs, kind)
              if ref.is_set(getattr(c.tbs, kind))]
    return sorted({n for block in ranges for end in block
                   for n in (end - 1, end, end + 1) if n >= 0})


def shuffled(rng, octets):
    """The certificate rearranged, with unknown extensions between."""
    count = len(ref.cert_pieces(octets)[1])
    order = rng.sample(range(count), count)
    extras = [(rng.randint(0, count), UNKNOWN, b'x' * n) for n in range(3)]
    return ref.rearrange(octets, order, extras)


SAMPLE = [*range(0, 60), 0x0A000000 << 96, (0x0A000000 << 96) - 1,
          0x0B000000 << 96, (0x0B000000 << 96) - 1]


# ---- answers

TESTS = Path(__file__).resolve().parent.parent / 'tests'


@checks
def notes_of_files():
    """Those that tests/notes wants."""
    for line in (TESTS / 'notes').read_text().splitlines():
        if not line.startswith('#'):
            name, wanted = (it.strip() for it in line.split('|'))
            cert = ref.decode_cert((TESTS / 'files' / f'{name}.cer').read_bytes())
            yield f'notes of {name}', ' '.join(notes.notes_of(cert)) or '-', wanted


@checks
def sorts_of_files():
    number, sequence, octets = ref.enc(0x02, b'\1'), ref.enc(0x30), ref.enc(0x04, b'')
    kind = ref.enc(0x30, number, sequence, octets)
    for label, file, wanted in (
            ('nothing', b'', 'Empty'), ('RFC 5958 2', kind, 'PrivateKey'),
            ('RFC 5915 3', ref.enc(0x30, number, octets), 'CurvePrivateKey'),
            ('RFC 5280 4.1', ref.enc(0x30, sequence, ref.enc(0x03, b'\0')), 'PublicKey'),
            ('RFC 8630 2.2', b'# a comment\n\nrsync://h/m/x\n', 'Locator'),
            ('RFC 2986 4.2', ref.enc(0x30, ref.enc(0x30, number, sequence, sequence, ref.enc(0xA0))), 'Request'),
            ('RFC 5280 4.1, no version', ref.enc(0x30, ref.enc(0x30, number, *[sequence] * 5)), 'Version1'),
            ('cut', kind[:-1], None), ('text', b'rsynk://h/m/x\n', None)):
        yield f'sort of a file, {label}', sorts.sort_of(file), wanted


@checks
def lines_and_their_data():
    answer = documents.Answer()
    answer.head('accepted', documents.text(None, 'a: b\n'))
    answer.line('Blocks', documents.count(('blocks', 0, 'min'), 1), '-', documents.count(('blocks', 0, 'max'), 2))
    answer.further(documents.count(('blocks', 1), 7))
    answer.line('Name', documents.inner(('name',), 'a: \u03bb\\'), ', more')
    answer.array(('none',))
    answer.line('At', documents.time(('at',), (1970, 1, 2, 0, 0, 1)))
    yield 'an answer as text', answer.text(), (
        'accepted: a: b\\x0A\nBlocks:                   1-2\n                          7\n'
        'Name:                     a\\x3A \\xCE\\xBB\\x5C, more\nAt:                       1970-01-02T00:00:01Z\n')
    yield 'an answer as JSON', answer.json_line(), (
        '{"at":86401,"blocks":[{"max":2,"min":1},7],"name":"a: \\u03BB\\\\","none":[]}\n')
    for moment, seconds in (((1969, 12, 31, 23, 59, 59), -1), ((0, 1, 1, 0, 0, 0), -62167219200),
                            ((9999, 12, 31, 23, 59, 59), 253402300799)):
        yield f'seconds of {moment}', documents.seconds(moment), seconds


def main():
    passed = failed = 0
    for function in CHECKS:
        for label, got, wanted in function():
            good = got == wanted
            passed, failed = passed + good, failed + (not good)
            if not good or '--all' in sys.argv:
                print(f'{"ok  " if good else "FAIL"} {label}')
            if not good:
                print(f'     got    {got}\n     wanted {wanted}')
    print(f'{passed} passed, {failed} failed')
    return 1 if failed else 0


if __name__ == '__main__':
    sys.exit(main())
