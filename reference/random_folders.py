"""Random folders of real certificates and revocation lists: renewals, loops of keys, lists that are
missing, foreign, stale or damaged, wrong issuers, routers and end entities.

Every function takes a `random.Random`. Signatures are RSA's (RFC 7935), by keys that the `openssl`
command makes, or the stand-in's.
"""

import base64
import subprocess
from dataclasses import replace
from typing import NamedTuple

import reference as ref
import rsa
from random_paths import chance
from worked import ALL_ADDRESSES, CRL_URI, ROUTER_PURPOSE

NOW = (2026, 6, 1, 0, 0, 0)
START, END = (2024, 1, 1, 0, 0, 0), (2044, 1, 1, 0, 0, 0)
PAST, FUTURE = (2025, 1, 1, 0, 0, 0), (2027, 1, 1, 0, 0, 0)
# of the issuers' certificates; a certificate has the one of its serial number
ISSUER_URIS = [b'rsync://example.com/m/%d.cer' % number for number in range(4)]
# an octet string that is a point of P-256, uncompressed: the generator (SEC 2, 2.4.2)
POINT = bytes.fromhex(
    '046B17D1F2E12C4247F8BCE6E563A440F277037D812DEB33A0F4A13945D898C296'
    '4FE342E2FE1A7F9B8EE7EB4A7C0F9E162BCE33576B315ECECBB6406837BF51F5')


class Numbers(NamedTuple):
    """The numbers of a private key (RFC 8017 A.1.2)."""
    n: int
    e: int
    d: int
    p: int
    q: int
    dp: int
    dq: int
    inverse: int


def new_numbers():
    pem = subprocess.run(['openssl', 'genrsa', '-traditional', '2048'], check=True,
                         capture_output=True, text=True).stdout
    octets = base64.b64decode(''.join(pem.splitlines()[1:-1]))
    sequence = ref.Cursor(octets).take_sequence()
    return Numbers(*[ref.take_integer(sequence) for _ in range(9)][1:])


class Signer:
    """A key, and how it signs."""

    def __init__(self):
        self.numbers = it = new_numbers()
        self.key = ref.Key(ref.RSA, ref.enc(0x30, ref.put_unsigned(it.n), ref.put_unsigned(it.e)))

    def sign(self, message):
        """By the two primes (RFC 8017 5.1.2)."""
        it = self.numbers
        block = int.from_bytes(rsa.encoded_message(message), 'big')
        low, high = pow(block, it.dq, it.q), pow(block, it.dp, it.p)
        number = low + it.q * ((high - low) * it.inverse % it.p)
        return number.to_bytes(256, 'big')

    def signed(self, message):
        return ref.SignedData(message, True, self.sign(message)).octets()


class StandInSigner:
    """A key of these bits, and what the stand-in signs by it."""

    def __init__(self, bits):
        self.key = ref.Key(ref.RSA, bits)

    def signed(self, message):
        return ref.stand_in_sign(self.key, True, message).octets()


def blocks(low, high):
    return ((low, high),)


class Node:
    """A certificate of a folder: whose key it has, and which one signed it."""

    def __init__(self, signer, issuer, asn, kind, octets):
        self.signer, self.issuer, self.asn = signer, issuer, asn
        self.kind, self.octets = kind, octets


def fields(key, issuer, serial, **changes):
    return replace(ref.TbsCert(
        serial=serial, issuer=issuer.subject_name(), not_before=START, not_after=END,
        subject=key.subject_name(), key=key, key_usage='Ca', overclaim=ref.REFUSE, basic_ca=True,
        authority_key_identifier=issuer.identifier(), crl_uri=CRL_URI,
        ca_issuer=ISSUER_URIS[serial % len(ISSUER_URIS)],
        ca_repository=b'rsync://example.com/m/c/',
        rpki_manifest=b'rsync://example.com/m/c/c.mft'), **changes)


def odd_period(rng):
    """A period that mostly holds the moment."""
    if chance(rng, 0.93):
        return {}
    return rng.choice([{'not_after': PAST}, {'not_before': FUTURE}])


class Maker:
    """A folder that grows."""

    def __init__(self, rng, pool):
        self.rng, self.pool = rng, pool
        self.nodes, self.files, self.serial = [], {}, 0
        self.keys = rng.sample(pool, rng.randrange(3, len(pool)))
        self.foreign = [it for it in pool if it not in self.keys] or pool

    def next_serial(self):
        self.serial += 1
        return self.serial

    def add(self, node, word):
        self.nodes.append(node)
        self.files[f'{word}{len(self.files)}.cer'] = node.octets

    def anchor(self):
        rng, signer = self.rng, self.keys[0]
        asn = blocks(rng.choice([1, 1, 50]), rng.choice([1000, 2000]))
        f = fields(signer.key, signer.key, self.next_serial(), crl_uri=None, ca_issuer=None,
                   v4=ALL_ADDRESSES, v6=ALL_ADDRESSES, asn=asn, **odd_period(rng))
        if chance(rng, 0.5):
            f = replace(f, authority_key_identifier=None)
        self.add(Node(signer, None, asn, 'ca', signer.signed(ref.encode_tbs(f))), 'anchor')

    def resources(self, above):
        """AS numbers, mostly some of those above; addresses are inherited."""
        rng = self.rng
        if chance(rng, 0.25):
            return ref.INHERIT
        low, high = (1, 1000) if above.asn == ref.INHERIT else above.asn[0]
        if chance(rng, 0.1):
            return blocks(low, high + 1)
        if high - low < 4:
            return blocks(low, high)
        cut = rng.randrange(low, high)
        return rng.choice([blocks(low, cut), blocks(cut, high), blocks(low, high)])

    def issued(self, above, key, **changes):
        """A certificate below another one, signed by its key, or, seldom, by a foreign one."""
        rng = self.rng
        signer = above.signer if chance(rng, 0.95) else rng.choice(self.foreign)
        f = fields(key, above.signer.key, self.next_serial(), v4=ref.INHERIT, v6=ref.INHERIT,
                   **odd_period(rng))
        f = replace(f, **changes)
        if chance(rng, 0.02):
            f = replace(f, authority_key_identifier=rng.choice(self.foreign).key.identifier())
        octets = signer.signed(ref.encode_tbs(f))
        if chance(rng, 0.02):
            octets = octets[:-1] + bytes([octets[-1] ^ 1])
        return octets

    def some_ca(self):
        """Mostly one that was made late, so that paths grow long."""
        cas = [it for it in self.nodes if it.kind == 'ca']
        return cas[max(self.rng.randrange(len(cas)) for _ in range(2))]

    def authority(self):
        """A CA: of a key of its own, or of one that stands elsewhere too (a renewal, or a loop)."""
        rng, above = self.rng, self.some_ca()
        signer, asn = rng.choice(self.keys[1:]), self.resources(above)
        octets = self.issued(above, signer.key, asn=asn)
        self.add(Node(signer, above, asn, 'ca', octets), 'ca')

    def renewal(self):
        """The certificate of a CA once more, with other resources and another number."""
        rng = self.rng
        below = [it for it in self.nodes if it.kind == 'ca' and it.issuer is not None]
        if not below:
            return self.authority()
        old = rng.choice(below)
        asn = self.resources(old.issuer)
        octets = self.issued(old.issuer, old.signer.key, asn=asn)
        self.add(Node(old.signer, old.issuer, asn, 'ca', octets), 'renewed')

    def leaf(self):
        rng, above = self.rng, self.some_ca()
        signer, asn = rng.choice(self.pool), self.resources(above)
        bare = {'key_usage': 'Ee', 'basic_ca': None, 'ca_repository': None, 'rpki_manifest': None,
                'asn': asn}
        kind = rng.choice(['object', 'detached', 'router'])
        key = signer.key
        if kind == 'object':
            bare['signed_object'] = b'rsync://example.com/m/c/x.roa'
        if kind == 'router':
            key = ref.Key(ref.P256, POINT)
            bare |= {'asn': asn if asn != ref.INHERIT else blocks(5, 5), 'v4': ref.MISSING,
                     'v6': ref.MISSING, 'extended_key_usage': ROUTER_PURPOSE}
        octets = self.issued(above, key, **bare)
        self.add(Node(signer, above, asn, kind, octets), kind)

    def list_of(self, signer, number, serials, **changes):
        rng = self.rng
        f = replace(ref.TbsCertList(
            issuer=signer.key.subject_name(), this_update=START, next_update=END,
            revoked=b''.join(ref.put_entry(ref.Entry(it, START)) for it in sorted(serials)),
            authority_key_identifier=signer.key.identifier(), crl_number=number), **changes)
        by = signer if chance(rng, 0.95) else rng.choice(self.foreign)
        octets = by.signed(ref.encode_list(f))
        self.files[f'list{len(self.files)}.crl'] = octets

    def lists(self):
        """Of most keys a list, of some several."""
        rng = self.rng
        for signer in self.keys:
            for _ in range(rng.choice([0, 1, 1, 1, 1, 1, 1, 1, 2, 3])):
                serials = {it for it in range(1, self.serial + 1) if chance(rng, 0.03)}
                change = rng.choice([{}] * 12 + [{'next_update': PAST}, {'this_update': FUTURE}])
                self.list_of(signer, rng.randrange(1, 4), serials, **change)

    def noise(self):
        """Files that are neither, and one twice."""
        rng = self.rng
        if chance(rng, 0.3):
            self.files['noise.cer'] = rng.choice(
                [b'', b'\x30', rng.randbytes(40), self.nodes[-1].octets[:-40]])
        if chance(rng, 0.2):
            name = rng.choice(list(self.files))
            self.files[f'again{len(self.files)}{name[-4:]}'] = self.files[name]


def locator_of(key):
    """A locator of a trust anchor with this key (RFC 8630)."""
    info = base64.b64encode(ref.put_key(key)).decode()
    return f'rsync://example.com/m/ta.cer\n\n{info}\n'.encode()


def random_folder(rng, pool):
    """A folder's files by their names, in a random order; and the locator of its trust anchor."""
    maker = Maker(rng, pool)
    for _ in range(rng.choice([1, 1, 1, 2])):
        maker.anchor()
    for _ in range(rng.choice([1, 3, 5, 8, 12, 20, 38])):
        rng.choice([maker.authority, maker.authority, maker.renewal, maker.leaf, maker.leaf])()
    maker.lists()
    maker.noise()
    names = list(maker.files)
    shuffled = rng.sample(names, len(names))
    files = {f'{place:02}-{name}': maker.files[name] for place, name in enumerate(shuffled)}
    key = maker.keys[0].key
    return files, locator_of(key), key
