"""Random folders into which a stranger writes: files that only its own keys signed, or nobody, and
copies of files that are there.

The folders are those of random_folders.py, in which names seldom don't chain.
"""

from dataclasses import replace

import random_folders
import reference as ref
from random_folders import END, FUTURE, PAST, START, Node, blocks
from random_paths import chance

# names that are no key's (RFC 6487 4.4)
NAMES = [ref.put_name([[(ref.OID_COMMON_NAME, ref.enc(0x13, it))]]) for it in (b'one', b'two')]


class NamedMaker(random_folders.Maker):
    """A folder, in which seven names of a hundred are others."""

    def name_of(self, signer):
        return self.rng.choice(NAMES) if chance(self.rng, 0.07) else signer.key.subject_name()

    def issued(self, above, key, **changes):
        if chance(self.rng, 0.07):
            changes.setdefault('issuer', self.rng.choice(NAMES))
        if chance(self.rng, 0.07):
            changes.setdefault('subject', self.rng.choice(NAMES))
        return super().issued(above, key, **changes)

    def renamed(self):
        """A CA's key under another name, certified by itself, with something below that name."""
        old, name = self.some_ca(), self.rng.choice(NAMES)
        octets = self.issued(old, old.signer.key, subject=name, asn=ref.INHERIT)
        new = Node(old.signer, old, ref.INHERIT, 'ca', octets)
        self.add(new, 'renamed')
        bare = {'key_usage': 'Ee', 'basic_ca': None, 'ca_repository': None, 'rpki_manifest': None,
                'asn': ref.INHERIT}
        key = self.rng.choice(self.pool).key
        self.add(Node(new.signer, new, ref.INHERIT, 'detached',
                      self.issued(new, key, issuer=name, **bare)), 'detached')
        if chance(self.rng, 0.7):
            self.list_of(old.signer, self.rng.randrange(1, 4), set(), issuer=name)


def drawn(rng, pool):
    """A folder that grew: its maker, which has the files."""
    maker = NamedMaker(rng, pool)
    for _ in range(rng.choice([1, 1, 1, 2])):
        maker.anchor()
    for _ in range(rng.choice([1, 3, 5, 8, 12])):
        rng.choice([maker.authority, maker.authority, maker.renewal, maker.leaf, maker.leaf])()
    if chance(rng, 0.15):
        maker.renamed()
    maker.lists()
    maker.noise()
    return maker


# ---- the stranger

class Stranger:
    """Who has some keys of CAs of the folder, and one that nobody certified."""

    def __init__(self, maker):
        self.maker, self.rng = maker, maker.rng
        own = [it for it in maker.keys[1:] if chance(self.rng, 0.4)]
        self.keys = own or [self.rng.choice(maker.keys[1:])]
        self.files = {}

    def add(self, word, octets, end='cer'):
        self.files[f'{word}{len(self.files)}.{end}'] = octets

    def signer(self):
        return self.rng.choice(self.keys)

    def fields(self, key, by, **changes):
        """Of any resources: the stranger says what it likes."""
        rng = self.rng
        asn = rng.choice([ref.INHERIT, blocks(1, 1000), blocks(1, 10), ref.MISSING])
        v4 = ref.INHERIT if asn == ref.MISSING else rng.choice([ref.INHERIT, ref.MISSING])
        f = random_folders.fields(key, by.key, self.maker.next_serial(), asn=asn, v4=v4)
        if chance(rng, 0.2):
            f = replace(f, overclaim=ref.TRIM)
        if chance(rng, 0.2):
            f = replace(f, **{rng.choice(['issuer', 'subject']): rng.choice(NAMES)})
        return replace(f, **changes)

    def authority(self):
        """Of any key: one above, one below, one beside, or its own."""
        by, of = self.signer(), self.rng.choice(self.maker.keys)
        self.add('ca', by.signed(ref.encode_tbs(self.fields(of.key, by))))

    def leaf(self):
        by, of = self.signer(), self.rng.choice(self.maker.pool)
        f = self.fields(of.key, by, key_usage='Ee', basic_ca=None, ca_repository=None,
                        rpki_manifest=None)
        self.add('leaf', by.signed(ref.encode_tbs(f)))

    def unsigned(self):
        """It names a key of another, which didn't sign it."""
        above, of = self.rng.choice(self.maker.keys), self.rng.choice(self.maker.keys)
        tbs = ref.encode_tbs(self.fields(of.key, above))
        self.add('unsigned', ref.SignedData(tbs, True, self.rng.randbytes(256)).octets())

    def anchor(self):
        """A trust anchor of the locator's key that is none."""
        rng, key = self.rng, self.maker.keys[0].key
        f = self.fields(key, self.maker.keys[0], crl_uri=None, ca_issuer=None, v4=((0, 1),),
                        asn=blocks(1, 5000), subject=key.subject_name(), issuer=key.subject_name(),
                        authority_key_identifier=None, not_after=END[:1] + (12, 31, 0, 0, 0))
        tbs = ref.encode_tbs(f)
        self.add('anchor', rng.choice([
            ref.SignedData(tbs, True, rng.randbytes(256)).octets(), self.signer().signed(tbs)]))

    def copies(self):
        """Of a certificate, one to three times: with octets behind it, with a broken signature, or
        with another algorithm outside of what is signed."""
        rng = self.rng
        octets = rng.choice(self.maker.nodes).octets
        signed = ref.decode_cert(octets).signed
        change = rng.choice([
            lambda: octets + rng.randbytes(rng.randrange(1, 9)),
            lambda: signed._replace(signature=rng.randbytes(256)).octets(),
            lambda: signed._replace(algorithm=not signed.algorithm).octets()])
        for _ in range(rng.randrange(1, 4)):
            self.add('copy', change())

    def list_of_others(self):
        """A list that names any key: its own, or one that it forged."""
        rng, by = self.rng, self.signer()
        named = rng.choice([*self.keys, *self.maker.keys])
        serials = sorted({rng.randrange(1, self.maker.serial + 1) for _ in range(rng.randrange(4))})
        tbs = ref.encode_list(ref.TbsCertList(
            issuer=named.key.subject_name(), this_update=rng.choice([START, START, FUTURE]),
            next_update=rng.choice([END, END, PAST]),
            revoked=b''.join(ref.put_entry(ref.Entry(it, START)) for it in serials),
            authority_key_identifier=named.key.identifier(), crl_number=rng.randrange(1, 6)))
        self.add('list', rng.choice([
            ref.SignedData(tbs, True, rng.randbytes(256)).octets(), by.signed(tbs)]), 'crl')

    def again(self):
        lists = [it for name, it in self.maker.files.items() if name.endswith('.crl')]
        if lists:
            behind = self.rng.choice([b'', b'\0', self.rng.choice(lists)])
            self.add('again', self.rng.choice(lists) + behind, 'crl')

    def certified(self):
        """A key of another, certified several times."""
        by, of = self.signer(), self.rng.choice(self.maker.keys)
        for _ in range(self.rng.randrange(2, 5)):
            self.add('ca', by.signed(ref.encode_tbs(self.fields(of.key, by))))

    def write(self):
        makers = ([self.authority] * 10 + [self.leaf] * 2 + [self.unsigned] * 2 + [self.anchor] * 2 +
                  [self.copies] * 3 + [self.list_of_others] * 3 + [self.again])
        for _ in range(self.rng.randrange(1, 8)):
            self.rng.choice(makers)()
        if chance(self.rng, 0.45):
            self.certified()


class Question:
    """A folder's files, those that a stranger adds, its keys, and the key of the trust anchor. The
    files have names by which the stranger's stand before, behind and among the others."""

    def __init__(self, rng, pool):
        maker = drawn(rng, pool)
        self.key = maker.keys[0].key
        self.locator = random_folders.locator_of(self.key)
        self.has_stranger = chance(rng, 0.5)
        added, self.keys = {}, []
        if self.has_stranger:
            stranger = Stranger(maker)
            stranger.write()
            added, self.keys = stranger.files, [it.key for it in stranger.keys]
        entries = [(name, octets, False) for name, octets in maker.files.items()]
        entries += [(f'x{name}', octets, True) for name, octets in added.items()]
        rng.shuffle(entries)
        self.files, self.added = {}, {}
        for place, (name, octets, is_added) in enumerate(entries):
            (self.added if is_added else self.files)[f'{place:02}-{name}'] = octets

    def with_added(self):
        return dict(sorted({**self.files, **self.added}.items()))

