"""Inspection: the profile of each kind of certificate (RFC 6487 4, RFC 8209 3)."""

from refusals import InspectionError
from resources import INHERIT, MISSING
from uris import parent_is
from parts import P256, RSA, inspect_router_name, inspect_rpki_name
from extensions import OID_ROUTER, SIA_METHODS, identifiers_of

TA, CA, EE, DETACHED, ROUTER = 'ta', 'ca', 'ee', 'detached', 'router'


def subject_fits(c, kind, strict):
    inspect = inspect_router_name if kind == ROUTER else inspect_rpki_name
    return inspect(c.tbs.subject, strict)


def manifest_is_child(f):
    return parent_is(f.rpki_manifest, f.ca_repository)


def has_router_purpose(f):
    return OID_ROUTER in identifiers_of(f.extended_key_usage)


# Each fault and its condition (true is good) over certificate, kind, strict.
CONDITIONS = {
    'AlgorithmMismatch': lambda c, k, s: c.tbs.signature == c.signed.algorithm,
    'Issuer': lambda c, k, s: inspect_rpki_name(c.tbs.issuer, s),
    'Subject': subject_fits,
    'KeyAlgorithm': lambda c, k, s:
        c.tbs.key.format == (P256 if k == ROUTER else RSA),
    'SubjectKeyIdentifier': lambda c, k, s:
        c.tbs.subject_key_identifier == c.tbs.key.identifier(),
    'ExtendedKeyUsagePresent': lambda c, k, s: c.tbs.extended_key_usage is None,
    'CaFlagFalse': lambda c, k, s: c.tbs.basic_ca is not False,
    'MissingBasicConstraints': lambda c, k, s: c.tbs.basic_ca is not None,
    'KeyUsage': lambda c, k, s:
        c.tbs.key_usage == ('Ca' if k in (TA, CA) else 'Ee'),
    'MissingCaRepository': lambda c, k, s: c.tbs.ca_repository is not None,
    'MissingManifest': lambda c, k, s: c.tbs.rpki_manifest is not None,
    'ManifestNotChild': lambda c, k, s: manifest_is_child(c.tbs),
    'SignedObjectPresent': lambda c, k, s: c.tbs.signed_object is None,
    'AuthorityKeyIdentifier': lambda c, k, s: c.tbs.is_self_signed(),
    'CrlUriPresent': lambda c, k, s: c.tbs.crl_uri is None,
    'CaIssuerPresent': lambda c, k, s: c.tbs.ca_issuer is None,
    'MissingCrlUri': lambda c, k, s: c.tbs.crl_uri is not None,
    'BasicConstraintsPresent': lambda c, k, s: c.tbs.basic_ca is None,
    'CaRepositoryPresent': lambda c, k, s: c.tbs.ca_repository is None,
    'ManifestPresent': lambda c, k, s: c.tbs.rpki_manifest is None,
    'MissingSignedObject': lambda c, k, s: c.tbs.signed_object is not None,
    'MissingExtendedKeyUsage': lambda c, k, s:
        c.tbs.extended_key_usage is not None,
    'MissingRouterPurpose': lambda c, k, s: has_router_purpose(c.tbs),
    'SubjectInformationPresent': lambda c, k, s: all(
        getattr(c.tbs, field) is None for field, _, _ in SIA_METHODS),
    'IpResourcesPresent': lambda c, k, s: not c.tbs.has_ip_resources(),
    'MissingAsResources': lambda c, k, s: c.tbs.asn != MISSING,
    'InheritedAsResources': lambda c, k, s: c.tbs.asn != INHERIT,
}

# The faults of each kind, in the order in which they are tested.
TESTS = {
    TA: [
        'AlgorithmMismatch', 'Issuer', 'Subject', 'KeyAlgorithm',
        'SubjectKeyIdentifier', 'ExtendedKeyUsagePresent', 'CaFlagFalse',
        'MissingBasicConstraints', 'KeyUsage', 'MissingCaRepository',
        'MissingManifest', 'ManifestNotChild', 'SignedObjectPresent',
        'AuthorityKeyIdentifier', 'CrlUriPresent', 'CaIssuerPresent'],
    CA: [
        'AlgorithmMismatch', 'Issuer', 'Subject', 'KeyAlgorithm',
        'SubjectKeyIdentifier', 'ExtendedKeyUsagePresent', 'CaFlagFalse',
        'MissingBasicConstraints', 'KeyUsage', 'MissingCaRepository',
        'MissingManifest', 'ManifestNotChild', 'SignedObjectPresent',
        'MissingCrlUri'],
    EE: [
        'AlgorithmMismatch', 'Issuer', 'Subject', 'KeyAlgorithm',
        'SubjectKeyIdentifier', 'ExtendedKeyUsagePresent', 'MissingCrlUri',
        'BasicConstraintsPresent', 'KeyUsage', 'CaRepositoryPresent',
        'ManifestPresent', 'MissingSignedObject'],
    DETACHED: [
        'AlgorithmMismatch', 'Issuer', 'Subject', 'KeyAlgorithm',
        'SubjectKeyIdentifier', 'ExtendedKeyUsagePresent', 'MissingCrlUri',
        'BasicConstraintsPresent', 'KeyUsage', 'CaRepositoryPresent',
        'ManifestPresent'],
    ROUTER: [
        'AlgorithmMismatch', 'Issuer', 'Subject', 'KeyAlgorithm',
        'BasicConstraintsPresent', 'SubjectKeyIdentifier', 'KeyUsage',
        'MissingExtendedKeyUsage', 'MissingRouterPurpose', 'MissingCrlUri',
        'SubjectInformationPresent', 'IpResourcesPresent',
        'MissingAsResources', 'InheritedAsResources'],
}


def first_fault(kind, strict, cert):
    """The name of the first condition that is false, None for none."""
    return next((name for name in TESTS[kind]
                 if not CONDITIONS[name](cert, kind, strict)), None)


def inspect(kind, strict, cert):
    fault = first_fault(kind, strict, cert)
    if fault is not None:
        raise InspectionError(fault)
