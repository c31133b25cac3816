"""All valid paths through a folder from a trust anchor down, and the walk whose steps are shared out
among CAs.

A path is told by what is signed of its certificates: files of which the same is signed are one. Names
are asked of certificates and of lists alike, or of neither (RFC 6487 7.2, RFC 5280 6.3.3).
"""

import folders
import reference as ref
from refusals import Refusal
from profiles import CA, ROUTER
from verification import RESOURCE_KINDS

# which of these is told where no list can be asked is no promise (own)
NO_LIST = ('NoCrl', 'WrongKeyId', 'WrongIssuer', 'BadSignature', 'Stale')


class TooMany(Exception):
    """There are more paths than are gone over."""


class Path:
    """Certificates from the trust anchor down, each with its place, and what the last one holds, and
    the one above it."""

    def __init__(self, places, result, above=None):
        self.places, self.result, self.above = places, result, above and above.result
        self.certs = (*above.certs, result.cert) if above else (result.cert,)

    def key(self):
        return tuple(it.signed.data for it in self.certs)


class Walks(folders.Folder):
    """A folder, judged at a moment. Whether names are asked is one switch."""

    def __init__(self, strings, verifier, names, strict, now):
        super().__init__(strings, self.verified)
        self.ask, self.answers, self.verdicts = verifier, {}, {}
        self.names, self.strict, self.now = names, strict, now

    def verified(self, key, algorithm, data, signature):
        """Each signature is verified once for a key."""
        asked = key, data, signature
        if asked not in self.answers:
            self.answers[asked] = self.ask(key, algorithm, data, signature)
        return self.answers[asked]

    # ---- the trust anchor

    def chosen(self, key):
        """The trust anchor with a locator's key: of the valid ones the one with the latest notAfter,
        then with the latest notBefore, and then with the greatest octets that are signed (own)."""
        found = [(it.cert.tbs.not_after, it.cert.tbs.not_before, it.cert.signed.data, place, it)
                 for place, it in self.anchors(key, self.strict, self.now)
                 if not self.names or it.cert.tbs.issuer == it.cert.tbs.subject]
        if not found:
            return None
        *_, place, result = max(found, key=lambda it: it[:3])
        return Path((place,), result)

    # ---- below an issuer

    def entity(self, cert):
        return cert.tbs.key, cert.tbs.subject if self.names else b''

    def below(self, issuer):
        """The certificates that name this one's key as the one that signs them, and, where names are
        asked, this one as their issuer."""
        subject = issuer.cert.tbs.subject
        return [it for it in super().below(issuer)
                if not self.names or it[1].tbs.issuer == subject]

    def lists_for(self, issuer):
        subject = issuer.cert.tbs.subject
        return [it for it in self.lists if not self.names or it.tbs.issuer == subject]

    def faults(self, place, cert, issuer):
        """As what a certificate is judged below an issuer, what it holds, and the faults of which one
        is told of it."""
        state = place, issuer.cert.signed.data, issuer.v4, issuer.v6, issuer.asn
        if state not in self.verdicts:
            self.verdicts[state] = self.judged_below(cert, issuer)
        return self.verdicts[state]

    def judged_below(self, cert, issuer):
        kind, result, stage = folders.said_kind(cert.tbs), None, 'profile'
        lists = self.lists_for(issuer)
        try:
            ref.inspect(kind, self.strict, cert)
            stage = 'verification'
            kinds = RESOURCE_KINDS[2:] if kind == ROUTER else RESOURCE_KINDS
            result = ref.verify_issued(cert, issuer, self.now, self.verifier, kinds)
            stage = 'revocation'
            folders.check_lists(lists, cert, issuer, self.now, self.verifier)
        except Refusal as fault:
            is_asked = stage != 'revocation' or self.has_list(lists, cert, issuer)
            return kind, None, [(stage, it) for it in ([fault.name] if is_asked else NO_LIST)]
        return kind, result, []

    def has_list(self, lists, cert, issuer):
        """Whether a list can be asked of the certificate: one that its issuer signed, and that has
        begun."""
        return any(folders.has_begun(it.tbs, self.now) and folders.is_signed(it, issuer, self.verifier)
                   for it in folders.asked_lists(lists, cert, issuer, self.now, self.verifier))

    def children(self, issuer):
        """Those below the issuer that its key signed, each message once, with one algorithm inside and
        outside."""
        found = {}
        for place, cert in self.below(issuer):
            tbs, signed = cert.tbs, cert.signed
            if tbs.signature == signed.algorithm and self.verified(
                    issuer.cert.tbs.key, signed.algorithm, signed.data, signed.signature):
                found.setdefault(signed.data, (place, cert))
        return list(found.values())

    # ---- all paths

    def all_paths(self, anchor, depth, most):
        """The valid paths of at most so many certificates below the trust anchor, by their keys; and of
        each place what is wrong with it below the end of one: how many stand above, and the fault."""
        paths, wrong, row = {}, {}, [anchor]
        for height in range(1, depth + 1):
            following = []
            for path in row:
                for place, cert in self.below(path.result):
                    kind, result, faults = self.faults(place, cert, path.result)
                    for fault in faults:
                        wrong.setdefault(place, set()).add((height, *fault))
                    if result is None:
                        continue
                    found = Path((*path.places, place), result, path)
                    if len(paths) >= most:
                        raise TooMany
                    is_new = found.key() not in paths
                    paths.setdefault(found.key(), []).append(found)
                    if kind == CA and is_new:
                        following.append(found)
            row = following
        return paths, wrong

    def is_bounded(self, anchor, paths, depth):
        """Whether something stands below a CA at the depth; of all paths, and of those without a
        circle."""
        ends = [it[0] for it in paths.values() if len(it[0].certs) == depth + 1] if depth else [anchor]
        ends = [it for it in ends if depth == 0 or folders.said_kind(it.result.cert.tbs) == CA]
        ends = [it for it in ends if self.below(it.result)]
        return {bool(ends), any(not self.repeats(it.certs) for it in ends)}

    def repeats(self, certs):
        seen = [self.entity(it) for it in certs]
        return len(set(seen)) < len(seen)

    # ---- the walk

    def walk(self, anchor, depth, steps):
        """The walk of this depth with so many steps: what it tells, by the keys of paths (what is wrong,
        or nothing, and the path), and below which paths it met a bound. A CA below which more stand than
        its share isn't walked; what is left of the share is divided among the CAs accepted below it, also
        those that stand above it already, and nothing is handed on."""
        told, met, kept = {}, set(), {}

        def below(path, share):
            issuer = path.result
            known = self.entity(issuer.cert)
            if known not in kept:
                kept[known] = self.children(issuer)
            some = kept[known]
            if not some:
                return
            if len(path.certs) > depth or len(some) > share:
                met.add(path.key())
                return
            goes, cas = [], 0
            above = {self.entity(it) for it in path.certs}
            for place, cert in some:
                kind, result, faults = self.faults(place, cert, issuer)
                key = (*path.key(), cert.signed.data)
                told[key] = faults, result
                if result is None or kind != CA:
                    continue
                cas += 1
                if self.entity(cert) not in above:
                    goes.append(Path((*path.places, place), result, path))
            for following in goes:
                below(following, (share - len(some)) // cas)
        below(anchor, steps)
        return told, met


def is_free(certs, keys):
    """Whether no issuer of a path has one of the keys."""
    return all(it.tbs.key not in keys for it in certs[:-1])
