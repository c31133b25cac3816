"""Whole paths: every member in turn, from the anchor down, and their names (RFC 6487 7.2)."""

from refusals import PathError, Refusal
from der import DEPTH
from resources import INHERIT, contains, is_set
from parts import stand_in
from certificates import decode_cert
from profiles import inspect
from verification import verify


def validate_path(members, strict, now, verifier=stand_in, tal='',
                  depth=DEPTH, store=None):
    """The members are pairs of kind and octets, the anchor first.

    With a store this is `validate_path_with`.
    """
    above = None
    for index, (kind, octets) in enumerate(members):
        stage = 'decode'
        try:
            cert = decode_cert(octets, depth)
            stage = 'inspect'
            inspect(kind, strict, cert)
            stage = 'verify'
            result = verify(kind, cert, above, now, verifier, tal)
            stage = 'revocation'
            if store is not None and index > 0:
                store.check(cert.tbs.crl_uri, cert.tbs.serial, above, now,
                            verifier)
        except Refusal as fault:
            raise PathError(index, stage, fault) from None
        above = result
    return above


def holds(certs, i, field, number):
    """Whether member i holds a number, said by the members' own extensions.

    The anchor lists it, and each member below lists or inherits it; this is
    said apart from the sets that validation computes.
    """
    def lists(c):
        return (is_set(getattr(c.tbs, field)) and
                contains(getattr(c.tbs, field), number))
    return lists(certs[0]) and all(
        lists(c) or getattr(c.tbs, field) == INHERIT
        for c in certs[1:i + 1])


def first_unchained(strings, depth=DEPTH):
    """The place of the first member whose issuer isn't the subject above it.

    None where names chain. The anchor's issuer is its own subject. The octets
    of names are compared (RFC 5280 6.1 (a); 7.1 takes more names for one).
    """
    above = None
    for index, octets in enumerate(strings):
        try:
            tbs = decode_cert(octets, depth).tbs
        except Refusal as fault:
            raise PathError(index, 'decode', fault) from None
        if tbs.issuer != (tbs.subject if above is None else above):
            return index
        above = tbs.subject
    return None
