"""Verification of a certificate below its issuer (RFC 6487 7, RFC 8360)."""

from dataclasses import dataclass

from refusals import VerificationError
from der import DEPTH
from resources import INHERIT, MISSING, issued
from parts import stand_in
from certificates import Cert, decode_cert, into_cert
from profiles import CA, ROUTER, TA, inspect

RESOURCE_KINDS = (('v4', 'V4'), ('v6', 'V6'), ('asn', 'As'))


@dataclass(frozen=True)
class ResourceCert:
    cert: Cert
    v4: tuple
    v6: tuple
    asn: tuple
    tal: str = ''


def expect(condition, name):
    if not condition:
        raise VerificationError(name)


def verify_validity(cert, now):
    expect(cert.tbs.not_before <= now, 'NotYetValid')
    expect(now <= cert.tbs.not_after, 'Expired')


def verify_signature(cert, key, verifier):
    signed = cert.signed
    expect(verifier(key, signed.algorithm, signed.data, signed.signature),
           'BadSignature')


def verify_issuer_claim(cert, issuer):
    f = cert.tbs
    expect(f.authority_key_identifier is not None, 'MissingKeyId')
    expect(f.authority_key_identifier ==
           issuer.cert.tbs.subject_key_identifier, 'WrongKeyId')
    expect(f.ca_issuer is not None, 'MissingIssuerUri')


def verify_ta(cert, now, verifier=stand_in, tal=''):
    verify_validity(cert, now)
    for field, name in RESOURCE_KINDS:
        expect(getattr(cert.tbs, field) != INHERIT, 'Inherited' + name)
    verify_signature(cert, cert.tbs.key, verifier)
    sets = [() if getattr(cert.tbs, field) == MISSING
            else getattr(cert.tbs, field) for field, _ in RESOURCE_KINDS]
    return ResourceCert(cert, *sets, tal)


def verify_issued(cert, issuer, now, verifier=stand_in, kinds=RESOURCE_KINDS):
    """A CA, an EE or, with the AS numbers alone, a router (RFC 6487 7)."""
    verify_validity(cert, now)
    verify_issuer_claim(cert, issuer)
    verify_signature(cert, issuer.cert.tbs.key, verifier)
    sets = {'v4': (), 'v6': (), 'asn': ()}
    for field, name in kinds:
        sets[field] = issued(getattr(issuer, field), getattr(cert.tbs, field),
                             cert.tbs.overclaim)
        expect(sets[field] is not None, 'Overclaim' + name)
    return ResourceCert(cert, **sets, tal=issuer.tal)


def verify_router(cert, issuer, now, verifier=stand_in):
    verify_issued(cert, issuer, now, verifier, RESOURCE_KINDS[2:])


def verify(kind, cert, issuer, now, verifier=stand_in, tal=''):
    if kind == TA:
        return verify_ta(cert, now, verifier, tal)
    if kind == ROUTER:
        return verify_router(cert, issuer, now, verifier)
    return verify_issued(cert, issuer, now, verifier)


def validate(kind, cert, issuer, strict, now, verifier=stand_in, tal=''):
    inspect(kind, strict, cert)
    return verify(kind, cert, issuer, now, verifier, tal)


def issue_ca(f, key, issuer, strict, now, depth=DEPTH):
    """Issues an authority: makes, reads again and validates it."""
    cert = decode_cert(into_cert(f, key).octets(), depth)
    return validate(CA, cert, issuer, strict, now)
