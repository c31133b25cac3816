"""Folders of certificates and revocation lists, in no order: to which a valid path leads from the
trust anchor of a locator (RFC 6487 7.2, RFC 8630 3), by going over all paths.

A list is chosen for each certificate as docs/DECISIONS.md has it: of those that name the issuer's
key, that this key signed and that have begun, the one with the greatest number; of equal numbers
one that revokes the certificate, else the one of the later thisUpdate, else of the later
nextUpdate. Where none is such, all that name the key are asked, and one of them fails.
"""

from refusals import Refusal, RevocationError
from parts import P256, stand_in
from certificates import decode_cert
from lists import decode_crl
from profiles import CA, DETACHED, EE, ROUTER, TA, has_router_purpose, inspect
from verification import verify


def said_kind(f):
    """What a certificate says that it is."""
    if f.extended_key_usage is not None and has_router_purpose(f):
        return ROUTER
    if f.is_ca():
        return CA
    if f.key.format == P256 and f.signed_object is None:
        return ROUTER
    return DETACHED if f.signed_object is None else EE


def read(decode, octets):
    """What the octets begin with, or None."""
    try:
        return decode(octets)
    except Refusal:
        return None


def has_begun(tbs, now):
    return tbs.this_update <= now and tbs.this_update <= tbs.next_update


def rank(crl, serial):
    """What a list is chosen by for a serial number: the greatest is."""
    return crl.tbs.crl_number, crl.contains(serial), crl.tbs.this_update, crl.tbs.next_update


def is_signed(crl, issuer, verifier):
    signed = crl.signed
    return verifier(issuer.cert.tbs.key, signed.algorithm, signed.data, signed.signature)


def asked_lists(lists, cert, issuer, now, verifier):
    """The lists that are asked of a certificate below its issuer."""
    named = [it for it in lists
             if it.tbs.authority_key_identifier == cert.tbs.authority_key_identifier]
    eligible = [it for it in named if has_begun(it.tbs, now) and is_signed(it, issuer, verifier)]
    if not eligible:
        return named
    return [max(eligible, key=lambda it: rank(it, cert.tbs.serial))]


def check_lists(lists, cert, issuer, now, verifier):
    """Errs unless the lists find the certificate unrevoked."""
    asked = asked_lists(lists, cert, issuer, now, verifier)
    if not asked:
        raise RevocationError('NoCrl')
    checks = [('WrongKeyId', lambda crl: crl.tbs.authority_key_identifier ==
               issuer.cert.tbs.subject_key_identifier),
              ('BadSignature', lambda crl: is_signed(crl, issuer, verifier)),
              ('Stale', lambda crl: has_begun(crl.tbs, now) and not crl.tbs.is_stale(now)),
              ('Revoked', lambda crl: not crl.contains(cert.tbs.serial))]
    for name, holds in checks:
        if not all(map(holds, asked)):
            raise RevocationError(name)


class Folder:
    """Certificates by their places, and lists."""

    def __init__(self, strings, verifier=stand_in):
        self.certs = [(place, cert) for place, octets in enumerate(strings)
                      if (cert := read(decode_cert, octets)) is not None]
        self.lists = [it for octets in strings if (it := read(decode_crl, octets)) is not None]
        self.verifier = verifier

    def below(self, issuer):
        """The certificates that name this one's key as the one that signs them."""
        key = issuer.cert.tbs.subject_key_identifier
        return [it for it in self.certs if it[1].tbs.authority_key_identifier == key]

    def judged(self, cert, issuer, strict, now):
        """What a certificate holds below an issuer; errs where it isn't valid."""
        kind = said_kind(cert.tbs)
        inspect(kind, strict, cert)
        result = verify(kind, cert, issuer, now, self.verifier)
        check_lists(self.lists, cert, issuer, now, self.verifier)
        return kind, result

    def anchors(self, key, strict, now):
        """The trust anchors with the locator's key, each with its place."""
        for place, cert in self.certs:
            if cert.tbs.key == key:
                try:
                    inspect(TA, strict, cert)
                    yield place, verify(TA, cert, None, now, self.verifier)
                except Refusal:
                    pass

    def reached(self, anchor, strict, now, depth):
        """How many stand above each certificate at least to which a valid path of at most so many
        leads below the anchor, and whether a CA stands at the depth with some below it. No path goes
        on below a key that stands above.

        Paths with the same end, the same resources there and the same keys go on alike, so one of
        each is kept.
        """
        heights, seen, is_bounded = {}, set(), False
        row = [(anchor, frozenset([anchor.cert.tbs.key]))]
        for height in range(1, depth + 2):
            following = []
            for issuer, keys in row:
                for place, cert in self.below(issuer):
                    if height > depth:
                        is_bounded = True
                        continue
                    try:
                        kind, result = self.judged(cert, issuer, strict, now)
                    except Refusal:
                        continue
                    heights.setdefault(place, height)
                    if kind != CA or cert.tbs.key in keys:
                        continue
                    keys_below = keys | {cert.tbs.key}
                    state = place, (result.v4, result.v6, result.asn), keys_below
                    if state not in seen:
                        seen.add(state)
                        following.append((result, keys_below))
            row = following
        return heights, is_bounded

    def is_child(self, cert, issuer):
        """Whether the issuer's key signed the certificate, with one algorithm inside and outside."""
        tbs, signed = cert.tbs, cert.signed
        return tbs.signature == signed.algorithm and self.verifier(
            issuer.cert.tbs.key, signed.algorithm, signed.data, signed.signature)

    def looked_at(self, anchor, strict, now, depth, steps):
        """What a walk of this depth with so many steps looks at: the places of the certificates that
        stand below the end of a valid path, each with whether it is accepted below one; and how the
        walk ends: 'out' if a CA has more children than its share of the steps, else 'deep' if a CA at
        the depth has some, else 'whole'. No path goes on below a key that stands above.

        What names a CA's key and isn't its child is rejected. The children take a step each, and what is
        left of the share is divided among those that are accepted as CAs. Paths with the same end, the
        same resources there, the same keys and the same share are walked once.
        """
        verdicts, met = {}, set()
        row = {None: (anchor, frozenset([anchor.cert.tbs.key]), steps)}
        for height in range(depth + 1):
            following = {}
            for issuer, keys, share in row.values():
                children, cas = [], []
                for place, cert in self.below(issuer):
                    if self.is_child(cert, issuer):
                        children.append((place, cert))
                    else:
                        verdicts.setdefault(place, False)
                if children and (height == depth or len(children) > share):
                    met.add('deep' if height == depth else 'out')
                    continue
                for place, cert in children:
                    verdicts.setdefault(place, False)
                    try:
                        kind, result = self.judged(cert, issuer, strict, now)
                    except Refusal:
                        continue
                    verdicts[place] = True
                    if kind == CA:
                        cas.append((place, result))
                for place, result in cas:
                    key, next_share = result.cert.tbs.key, (share - len(children)) // len(cas)
                    if key not in keys:
                        state = place, result.v4, result.v6, result.asn, keys | {key}, next_share
                        following[state] = result, keys | {key}, next_share
            row = following
        return verdicts, next((it for it in ('out', 'deep') if it in met), 'whole')


def accepted(strings, key, strict, now, verifier=stand_in, depth=32):
    """The places of the certificates that are accepted below each trust anchor of the key: pairs of
    the anchor's place and those below it; and of all anchors' places."""
    folder = Folder(strings, verifier)
    anchors = list(folder.anchors(key, strict, now))
    below = {place: set(folder.reached(anchor, strict, now, depth)[0]) for place, anchor in anchors}
    return below
