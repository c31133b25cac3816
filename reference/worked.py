"""Named keys, certificates, lists and paths, and runs worked by hand."""

from dataclasses import replace

import reference as ref

K1, K2, K3 = (ref.Key(ref.RSA, bits) for bits in (b'abc', b'a', b''))
ROUTER_KEY = ref.Key(ref.P256, b'a')

NOW = (2024, 1, 1, 0, 0, 0)
START, END = (2019, 5, 1, 0, 0, 0), (2029, 5, 1, 0, 0, 0)
ALL_ADDRESSES = ((0, (1 << 128) - 1),)
ALL_AS = ((0, ref.AS_MAX),)
ISSUER_URI = b'rsync://example.com/m/ta.cer'
CRL_URI = b'rsync://example.com/m/p/x.crl'


def v4_block(low, high):
    """An IPv4 block from its ends as 32-bit numbers."""
    return low << 96, (high << 96) | (1 << 96) - 1


def as_set(low, high):
    return ((low, high),)


# ------------------------------------------------------------ the anchor ---

ANCHOR_FIELDS = ref.TbsCert(
    serial=12, issuer=K1.subject_name(), not_before=START, not_after=END,
    subject=K1.subject_name(), key=K1, key_usage='Ca', overclaim=ref.TRIM,
    basic_ca=True, ca_repository=b'rsync://example.com/m/p',
    rpki_manifest=b'rsync://example.com/m/p/mft.mft',
    v4=ALL_ADDRESSES, v6=ALL_ADDRESSES, asn=ALL_AS)


def anchor(**changes):
    """`A with ..`: the anchor made anew, signed with K1."""
    return ref.into_cert(replace(ANCHOR_FIELDS, **changes), K1)


def anchor_of(v4=ref.MISSING, v6=ref.MISSING, asn=ref.MISSING):
    """A with these resources and no others."""
    return anchor(v4=v4, v6=v6, asn=asn)


A = anchor()


def restated(pieces, octets=None):
    """A with other extension pieces, the signature value as it was."""
    head, _, tail = ref.cert_pieces(octets or A.octets())
    return ref.with_pieces(head, pieces, tail)


def pieces_of(cert):
    return ref.cert_pieces(cert.octets())[1]


def replace_piece(place, piece):
    """A with the extension at a place replaced."""
    pieces = pieces_of(A)
    return restated(pieces[:place] + [piece] + pieces[place + 1:])


def nested_sequences(count):
    octets = b''
    for _ in range(count):
        octets = ref.enc(0x30, octets)
    return octets


def policies_with(qualifier):
    """The Trim policies extension with something after the policy."""
    return ref.put_extension(ref.OID['CertificatePolicies'], True, ref.enc(
        0x30, ref.enc(0x30, ref.enc(0x06, ref.OID_POLICY[ref.TRIM]), qualifier)))


# -------------------------------------------------------- below the anchor ---

def issued_fields(issuer_key, key, serial, **changes):
    """What every certificate below an anchor has here."""
    return replace(ref.TbsCert(
        serial=serial, issuer=issuer_key.subject_name(), not_before=START,
        not_after=END, subject=key.subject_name(), key=key, key_usage='Ee',
        overclaim=ref.TRIM, authority_key_identifier=issuer_key.identifier(),
        crl_uri=CRL_URI, ca_issuer=ISSUER_URI), **changes)


def ca_fields(issuer_key, key, serial, **changes):
    return issued_fields(issuer_key, key, serial, **{
        'key_usage': 'Ca', 'basic_ca': True,
        'ca_repository': b'rsync://example.com/m/c',
        'rpki_manifest': b'rsync://example.com/m/c/c.mft', **changes})


def first_ca(**changes):
    return ref.into_cert(ca_fields(K1, K2, 7, **changes), K1)


def second_ca(**changes):
    return ref.into_cert(ca_fields(K2, K3, 8, **changes), K2)


E_FIELDS = issued_fields(K1, K2, 9, v4=ref.INHERIT, v6=ref.INHERIT, asn=ref.INHERIT)
ROUTER_PURPOSE = ref.enc(0x06, ref.OID_ROUTER)
R_FIELDS = issued_fields(K1, ROUTER_KEY, 10, asn=as_set(50, 50),
                         extended_key_usage=ROUTER_PURPOSE)


def end_entity(signer=K1, **changes):
    return ref.into_cert(replace(E_FIELDS, **changes), signer)


def router(**changes):
    return ref.into_cert(replace(R_FIELDS, **changes), K1)


E, R = end_entity(), router()

# ----------------------------------------------------------------- lists ---


def entry_row(*serials):
    return b''.join(ref.put_entry(ref.Entry(s, START)) for s in serials)


def crl_fields(*serials, key=K1, **changes):
    return replace(ref.TbsCertList(
        issuer=key.subject_name(), this_update=START, next_update=END,
        revoked=entry_row(*serials),
        authority_key_identifier=key.identifier(), crl_number=12), **changes)


def crl(*serials, key=K1, signer=None, **changes):
    return ref.into_crl(crl_fields(*serials, key=key, **changes), signer or key)


L, EMPTY_L = crl(12, 42), crl()

# ----------------------------------------------------- paths ---

AS_ANCHOR = anchor_of(asn=as_set(1, 10))
TRIMMED_CA = first_ca(asn=as_set(5, 20))
OVERCLAIMING_CA = first_ca(asn=as_set(5, 20), overclaim=ref.REFUSE)
OUTSIDE_CA = first_ca(asn=as_set(50, 50))
INHERITING_CAS = (first_ca(asn=ref.INHERIT),
                  second_ca(asn=as_set(3, 3), overclaim=ref.REFUSE))
V4_ANCHOR = anchor_of(v4=(v4_block(0x0A000000, 0x0AFFFFFF),),
                      asn=as_set(1, 10))
V4_CAS = (first_ca(v4=ref.INHERIT), second_ca(v4=ref.INHERIT, asn=ref.INHERIT))


def path_lines(*members, at='20240101000000', mode='strict'):
    """Program input: members are pairs of word and certificate or octets."""
    lines = [f'at {at}', mode]
    for word, member in members:
        octets = member if isinstance(member, bytes) else member.octets()
        lines.append(f'{word} {octets.hex().upper() or "-"}')
    return ('\n'.join(lines) + '\n').encode('ascii')


ALL_RANGES = [
    'v4 00000000-ffffffff',
    'v6 00000000000000000000000000000000-ffffffffffffffffffffffffffffffff',
    'as 0-4294967295']
NONE = ['v4 none', 'v6 none', 'as none']


def accepted(*ranges):
    return ['stand-in signatures', 'accepted', *ranges], 0


def refused(line):
    return ['stand-in signatures', f'refused {line}'], 1


def bad_input(line):
    return [f'bad input {line}'], 2


def says(line, status=0):
    return [line], status


def revoked(rest):
    return f'revoked {rest}\n'.encode('ascii')


def revoked_cases():
    """Runs about a list of revoked certificates."""
    one = '3014301202010C170D3139303530313030303030305A'
    return [
        ('listed', revoked(f'{one} 0C'), says('yes')),
        ('not-listed', revoked(f'{one} 2A'), says('no')),
        ('absent-list', revoked('- 0C'), says('no')),
        ('empty-list', revoked('3000 0C'), says('no')),
        ('trailing',
         revoked('3016301402010C170D3139303530313030303030305A3000 0C'),
         says('refused decode Trailing', 1)),
        ('no-input', b'', bad_input(1)),
        ('list-truncated',
         revoked('30143012020200FF170D3139303530313030303030305A FF'),
         says('refused decode Truncated', 1)),
        ('list-leading-zero',
         revoked('30153013020200FF170D3139303530313030303030305A 00FF'),
         says('yes')),
        ('list-both-absent', revoked('- -'), says('no')),
        ('list-two-spaces', revoked('3000  0C'), bad_input(1)),
        ('list-odd', revoked('300 0C'), bad_input(1)),
        ('list-no-serial', revoked('3000'), bad_input(1)),
        ('list-left-over', revoked('300000 0C'),
         says('refused decode Trailing', 1)),
        ('list-bad-tag', revoked('3005300304010C 0C'),
         says('refused decode BadTag', 1)),
    ]


def path_cases():
    """Runs over whole paths: name, input, (printed lines, status)."""
    ta, ca = ('ta', A), 'ca'
    slashed = anchor(ca_repository=b'rsync://example.com/m/p/')
    cut = path_lines(ta)
    return [
        ('anchor', path_lines(ta), accepted(*ALL_RANGES)),
        ('anchor-slash', path_lines(('ta', slashed)), accepted(*ALL_RANGES)),
        ('trimmed', path_lines(('ta', AS_ANCHOR), (ca, TRIMMED_CA)),
         accepted(*NONE[:2], 'as 5-10')),
        ('overclaiming',
         path_lines(('ta', AS_ANCHOR), (ca, OVERCLAIMING_CA)),
         refused('1 verify OverclaimAs')),
        ('outside',
         path_lines(('ta', AS_ANCHOR), (ca, OUTSIDE_CA)),
         accepted(*NONE)),
        ('inherited-as',
         path_lines(('ta', AS_ANCHOR), *((ca, c) for c in INHERITING_CAS)),
         accepted(*NONE[:2], 'as 3-3')),
        ('inherited-v4',
         path_lines(('ta', V4_ANCHOR), *((ca, c) for c in V4_CAS)),
         accepted('v4 0a000000-0affffff', *NONE[1:])),
        ('path-missing-signed-object', path_lines(ta, ('ee', E)),
         refused('1 inspect MissingSignedObject')),
        ('path-detached', path_lines(ta, ('detached', E)),
         accepted(*ALL_RANGES)),
        ('path-empty-ca', path_lines(ta, (ca, b'')),
         refused('1 decode Truncated')),
        ('path-bad-signature', path_lines(ta, ('detached', end_entity(K2))),
         refused('1 verify BadSignature')),
        ('path-missing-key-id', path_lines(
            ta, ('detached', end_entity(authority_key_identifier=None))),
         refused('1 verify MissingKeyId')),
        ('path-inherited-as', path_lines(('ta', anchor(asn=ref.INHERIT))),
         refused('0 verify InheritedAs')),
        ('path-no-anchor', path_lines(), bad_input(3)),
        ('path-after-leaf', path_lines(ta, ('detached', E), (ca, A)),
         bad_input(5)),
        ('path-no-such-day', cut.replace(b'20240101', b'20240230'),
         bad_input(1)),
        ('path-expired', path_lines(ta, at='20300101000000'),
         refused('0 verify Expired')),
    ]


def octets_of_lines(lines):
    return ''.join(line + '\n' for line in lines).encode('ascii')
