"""Reads and validates resource certificates and CRLs of the RPKI (RFC 6487), and issues them with a
key that is elsewhere.

Calls; help(rpki.validate) describes one:

    validate(members, last=, lists=)     validates a path; returns what its last certificate holds
    judge_folder(octets, locator=)       validates many certificates and CRLs, in any order
    Certificate(octets)                  reads a certificate, and doesn't validate it
    RevocationList(octets)               reads a CRL, and doesn't validate it
    prepare(kind, issuers=, key=, ..)    returns the to-be-signed part of a certificate
    complete(kind, prepared=, ..)        returns the certificate with its signature
    prepare_list(issuers=, ..)           returns the to-be-signed part of an issuer's next CRL
    complete_list(prepared=, ..)         returns the CRL with its signature

Exceptions. An example of str(fault) is "member 2: certificate revoked (Revoked)":

    Fault                the base of all below: number, name, sentence, member, revocation_list
    DecodeFault          the bytes don't start with a certificate or a CRL: octet, field, wanted,
                         found; or other bytes follow a CRL
    InspectionFault      the certificate doesn't meet the profile of its kind
    VerificationFault    it isn't valid at the time, or not issued by the certificate above it
    RevocationFault      the CRLs don't show that it isn't revoked
    NamesFault           its issuer isn't the subject of the certificate above it
    KeyFault             the RPKI doesn't use the last certificate's key
    LocatorFault         the file is no TAL, or the trust anchor has another key
    IssuingFault         no certificate or CRL can be issued with these values
    TypeError            an argument has another type: a str for bytes, 1 for a Kind ..
    ValueError           the call itself is wrong: no certificates, a time without a time zone ..
    MemoryError          memory ran out

`fault.code` is a member of FaultCode, which names every number: FaultCode.REVOCATION_REVOKED.

Kinds as which a certificate is validated (help(rpki.Kind) describes them):

    Kind.TRUST_ANCHOR    a trust anchor, which signs itself
    Kind.AUTHORITY       a CA
    Kind.END_ENTITY      signs one object, and has its URI: a ROA's, a manifest's
    Kind.DETACHED        signs one object, and needn't have its URI
    Kind.ROUTER          a BGPsec router

A path of certificates is validated as a whole. `validate` returns what its last certificate holds,
or raises why it is rejected:

    from pathlib import Path
    from rpki import Fault, Kind, validate

    members = [Path(name).read_bytes() for name in ("anchor.cer", "ca.cer", "object.cer")]
    lists = [Path(name).read_bytes() for name in ("anchor.crl", "ca.crl")]
    locator = Path("anchor.tal").read_bytes()
    try:
        held = validate(members, last=Kind.END_ENTITY, lists=lists, locator=locator)
    except Fault as fault:
        print(fault)
    else:
        for network in held.ipv4:
            print(network)

A single certificate or CRL is only read, and isn't validated:

    from rpki import Certificate, RevocationList

    cert = Certificate(Path("ca.cer").read_bytes())
    revoked = RevocationList(Path("anchor.crl").read_bytes())
    print(cert.serial_number, cert.not_after, cert.uris.get("manifest"), cert in revoked)

Files in any order are validated below the trust anchor of a TAL:

    from rpki import judge_folder

    names = ["object.cer", "ca.cer", "anchor.crl", "ca.crl", "anchor.cer"]
    files = [Path(name).read_bytes() for name in names]
    folder = judge_folder(files, locator=Path("anchor.tal").read_bytes())
    for name, line in zip(names, folder.lines):
        print(name, line.state.name, line.fault or "")

Bytes are DER. Verdicts are proved: the library below, librpki.so, accepts a path if and only if it
is valid by the standards' definitions. This package only moves values into it and out of it, and is
tested. The library is searched in the directory that the variable RPKI_LIBRARY names, or where the
system searches libraries. If it isn't found, ImportError names the places.
"""

from __future__ import annotations

import bisect
import enum
import io
import ipaddress
import os
from collections.abc import Callable, Iterable, Iterator, Mapping, Sequence
from dataclasses import dataclass
from datetime import datetime, timezone
from functools import cache, cached_property
from typing import BinaryIO, Generic, TypeVar, Union, cast

from . import _library as raw
from ._faults import FaultCode
from ._names import text_of

__version__ = "0.2.0"

__all__ = [
    "Addresses",
    "AsNumbers",
    "Certificate",
    "DecodeFault",
    "Entry",
    "Fault",
    "FaultCode",
    "Folder",
    "INHERIT",
    "Inherit",
    "InspectionFault",
    "IssuingFault",
    "KeyFault",
    "Kind",
    "LimitedCa",
    "Line",
    "LocatorFault",
    "NamesFault",
    "Resources",
    "RevocationFault",
    "RevocationList",
    "State",
    "VerificationFault",
    "complete",
    "complete_list",
    "judge_folder",
    "prepare",
    "prepare_list",
    "validate",
]


# ---- faults

# where reading stops: the octet, the name of the part there, what is wanted, and what is found
_Stop = tuple[int, str, str, str | None]


class Fault(Exception):
    """Why something is rejected.

    number: the number, of `enum rpki_fault` of rpki.h, which never gets another meaning.
    name: the name, such as `BadSignature`. Faults of two classes may have one name; the class or
        the number distinguishes them: 408 is a certificate's, and 502 a CRL's.
    sentence: what it means, such as `certificate revoked`.
    member: the path index of the wrong certificate; the trust anchor's is 0. None if the fault is a
        TAL's or a CRL's.
    revocation_list: the index, among the given CRLs, of one that can't be read; else None.
    argument: the argument of `prepare`, `complete`, `prepare_list` or `complete_list` that is wrong,
        such as `key`, `uris['crl']` or `not_after`; else None.
    octet: the offset at which reading a certificate or a CRL stops: the bytes before it were read,
        and from there on there is no value of the part that has to come next. None if the fault
        isn't a DecodeFault, or is one of bytes after a CRL.
    field: the name of that part, such as `the serial number`; else None.
    wanted: what is expected there, with the section that requires it, such as
        `a Name (RFC 5280 4.1.2.4)`; else None.
    found: what is wrong with what is found there, such as `a negative number`, if that is known;
        else None.

    str() of it has place, sentence and name: `member 2: certificate revoked (Revoked)`. Without a
    place it starts with the sentence; for a CRL that can't be read with `list 1: `, and for a wrong
    argument with its name: `key: no public key (NoKey)`.
    """

    number: int
    name: str
    sentence: str
    member: int | None
    revocation_list: int | None
    argument: str | None
    octet: int | None
    field: str | None
    wanted: str | None
    found: str | None

    def __init__(
        self,
        number: int,
        member: int | None = None,
        revocation_list: int | None = None,
        stop: _Stop | None = None,
        argument: str | None = None,
    ) -> None:
        self.number = number
        self.name = raw.fault_name(number)
        self.sentence = raw.fault_sentence(number)
        self.member = member
        self.revocation_list = revocation_list
        self.argument = argument
        self.octet, self.field, self.wanted, self.found = stop or (None, None, None, None)
        self._stop = stop
        places = [("member ", member), ("list ", revocation_list), ("", argument)]
        place = "".join(f"{what}{at}: " for what, at in places if at is not None)
        super().__init__(f"{place}{self.sentence} ({self.name})")

    @property
    def code(self) -> FaultCode:
        """The number, by its name in rpki.h. A fault of reading that is about a part has a number
        of its own for each part; this is the one without the part."""
        return FaultCode(_without_part(self.number))

    def __reduce__(self) -> tuple[type[Fault], tuple[object, ...]]:
        """Makes an equal fault, in another process too."""
        made = self.number, self.member, self.revocation_list, self._stop, self.argument
        return type(self), made


class DecodeFault(Fault):
    """The bytes don't start with a certificate or a CRL, or other bytes follow a CRL that was
    passed to `validate`."""


class InspectionFault(Fault):
    """The certificate doesn't meet the profile of its kind."""


class VerificationFault(Fault):
    """The certificate isn't valid at the time, or not issued by the one above it."""


class RevocationFault(Fault):
    """The CRLs don't show that the certificate isn't revoked (RFC 6487 7.2)."""


class NamesFault(Fault):
    """The issuer isn't the subject of the certificate above it (RFC 5280 6.1.3 (a) (4))."""


class KeyFault(Fault):
    """The RPKI doesn't use the last certificate's key (RFC 7935 3, RFC 8608 3.1)."""


class LocatorFault(Fault):
    """The file is no TAL, or the trust anchor has another key or lists no resources (RFC 8630)."""


class IssuingFault(Fault):
    """No certificate or CRL can be issued with this key, these fields or these bytes."""


def _without_part(number: int) -> int:
    """The number of a fault of reading, without that of the part that it speaks of."""
    return number - number % 20 if 120 <= number < 220 else number


# by the number, or by its hundreds
_FAULTS: dict[int, type[Fault]] = {
    1: DecodeFault,
    2: DecodeFault,
    3: InspectionFault,
    4: VerificationFault,
    5: RevocationFault,
    600: NamesFault,
    601: LocatorFault,
    602: LocatorFault,
    raw.BAD_KEY: KeyFault,
    7: LocatorFault,
    8: IssuingFault,
}


def _fault(
    number: int,
    member: int | None = None,
    revocation_list: int | None = None,
    stop: _Stop | None = None,
    argument: str | None = None,
) -> Fault:
    """The exception of a fault."""
    kind = _FAULTS.get(number, _FAULTS.get(number // 100, Fault))
    return kind(number, member, revocation_list, stop, argument)


def _stop(octets: bytes, is_list: bool) -> _Stop | None:
    """Where the reading of octets stops that are no certificate, or no list; None of a list with
    octets behind it, which can be read."""
    octet, field = raw.stop_text(octets, is_list, raw.PART_NAME)
    if not field:
        return None
    wanted, found = (
        raw.stop_text(octets, is_list, which)[1] for which in (raw.PART_WANTED, raw.PART_FOUND)
    )
    return octet, field, wanted, found or None


def _raise(
    fault: int,
    member: int | None = None,
    revocation_list: int | None = None,
    unread: tuple[bytes, bool] | None = None,
    argument: str | None = None,
) -> None:
    """Raises the exception of a fault, if there is one: of reading these octets, as a list or as a
    certificate; of an argument; or of another kind."""
    if fault == raw.OK:
        return
    if fault == raw.MEMORY:
        raise MemoryError
    if fault == raw.BAD_CALL:
        raise ValueError("lengths or numbers of the call don't fit")
    stop = _stop(*unread) if unread is not None and 100 <= fault < 300 else None
    raise _fault(fault, member, revocation_list, stop, argument)


def _raise_at(fault: int, index: int, members: Sequence[bytes], lists: Sequence[bytes]) -> None:
    """The same of a path of these members, or of one of these lists, which stand behind them."""
    behind = index - len(members)
    if fault // 100 == 7:
        _raise(fault)
    elif behind < 0:
        _raise(fault, index, None, (members[index], False))
    elif 100 <= fault < 300:
        _raise(fault, None, behind, (lists[behind], True) if behind < len(lists) else None)
    else:
        _raise(fault, index)


# ---- sets

Address = TypeVar("Address", ipaddress.IPv4Address, ipaddress.IPv6Address)
Network = Union[ipaddress.IPv4Network, ipaddress.IPv6Network]


@dataclass(frozen=True)
class Addresses(Generic[Address]):
    """A set of addresses of one family. Iterates over the fewest networks that make it up."""

    ranges: tuple[tuple[Address, Address], ...]
    """The first and the last address of each range. They ascend, and neither overlap nor touch."""

    def __iter__(self) -> Iterator[Network]:
        for first, last in self.ranges:
            yield from ipaddress.summarize_address_range(first, last)

    def __contains__(self, what: Address | Network | str) -> bool:
        """Returns whether an address, or all of a network, is in the set. A str is parsed as
        either: `"10.0.0.0/24" in held.ipv4`."""
        network = ipaddress.ip_network(what) if isinstance(what, str) else what
        if isinstance(network, _NETWORKS):
            first, last = network[0], network[-1]
        elif isinstance(network, _ADDRESSES):
            first = last = network
        else:
            raise TypeError(f"expected an address, a network or a text, not {type(what).__name__}")
        at = bisect.bisect_right(self._firsts, int(first)) - 1
        if at < 0 or first.version != self.ranges[at][0].version:
            return False
        return int(last) <= int(self.ranges[at][1])

    contains = __contains__

    @cached_property
    def _firsts(self) -> list[int]:
        return [int(first) for first, _ in self.ranges]

    @cached_property
    def networks(self) -> tuple[Network, ...]:
        """Returns the fewest networks that make it up, in ascending order."""
        return tuple(self)

    def __bool__(self) -> bool:
        return bool(self.ranges)

    def __str__(self) -> str:
        return ", ".join(map(str, self)) or "none"


_NETWORKS = (ipaddress.IPv4Network, ipaddress.IPv6Network)
_ADDRESSES = (ipaddress.IPv4Address, ipaddress.IPv6Address)


@dataclass(frozen=True)
class AsNumbers:
    """A set of AS numbers. Iterates over its ranges, which ascend, and neither overlap nor
    touch."""

    ranges: tuple[range, ...]

    def __iter__(self) -> Iterator[range]:
        return iter(self.ranges)

    def __contains__(self, number: int) -> bool:
        """Returns whether an AS number is in the set."""
        at = bisect.bisect_right(self._firsts, _number(number, "an AS number")) - 1
        return at >= 0 and number in self.ranges[at]

    contains = __contains__

    @cached_property
    def _firsts(self) -> list[int]:
        return [numbers[0] for numbers in self.ranges]

    def __bool__(self) -> bool:
        return bool(self.ranges)

    def __str__(self) -> str:
        texts = (f"AS{it[0]}" + (f"-AS{it[-1]}" if len(it) > 1 else "") for it in self.ranges)
        return ", ".join(texts) or "none"


@dataclass(frozen=True)
class Resources:
    """The resources that the last certificate of a valid path holds."""

    ipv4: Addresses[ipaddress.IPv4Address]
    ipv6: Addresses[ipaddress.IPv6Address]
    as_numbers: AsNumbers

    def allows(
        self, as_number: int | None = None, prefix: Network | str | None = None
    ) -> bool:
        """Returns whether both are held: the AS number, and all of the prefix. An argument that is
        None isn't checked, and one of them has to be given."""
        if as_number is None and prefix is None:
            raise TypeError("allows: expected an AS number, a prefix or both")
        is_allowed = as_number is None or as_number in self.as_numbers
        if prefix is None:
            return is_allowed
        network = ipaddress.ip_network(prefix) if isinstance(prefix, str) else prefix
        if not isinstance(network, _NETWORKS):
            given = type(prefix).__name__
            raise TypeError(f"prefix: expected a network or a text, not {given}")
        is_held = network in self.ipv4 if network.version == 4 else network in self.ipv6
        return is_allowed and is_held


def _ipv4(ranges: Sequence[raw.IpRange]) -> Addresses[ipaddress.IPv4Address]:
    of = ipaddress.IPv4Address
    return Addresses(tuple((of(bytes(it.min)[:4]), of(bytes(it.max)[:4])) for it in ranges))


def _ipv6(ranges: Sequence[raw.IpRange]) -> Addresses[ipaddress.IPv6Address]:
    of = ipaddress.IPv6Address
    return Addresses(tuple((of(bytes(it.min)), of(bytes(it.max))) for it in ranges))


def _as_numbers(ranges: Sequence[raw.AsRange]) -> AsNumbers:
    return AsNumbers(tuple(range(it.min, it.max + 1) for it in ranges))


# ---- certificates

Octets = Union[bytes, bytearray, memoryview, "os.PathLike[str]", "BinaryIO"]


def _bytes(octets: Octets, name: str = "octets") -> bytes:
    """The bytes of a bytes-like object as they are now, of the file that a Path names, or of a file
    object that is open in binary mode, from where it is to its end. Raises TypeError, which names
    the argument, for everything else: for a text too, since it may be a name or the content."""
    if isinstance(octets, bytes):
        return octets
    if isinstance(octets, os.PathLike):
        with open(octets, "rb") as file:
            return file.read()
    if isinstance(octets, io.TextIOBase):
        raise TypeError(f"{name}: the file is open in text mode; open it with mode 'rb'")
    if hasattr(octets, "read"):
        read = octets.read()
        if not isinstance(read, bytes):
            raise TypeError(f"{name}: the file is open in text mode; open it with mode 'rb'")
        return read
    remedy = "; Path(..) names a file" if isinstance(octets, str) else ""
    try:
        return bytes(memoryview(octets))
    except TypeError as error:
        given = type(octets).__name__
        raise TypeError(f"{name}: expected bytes or a Path, not {given}{remedy}") from error


def _kind(kind: Kind, name: str) -> int:
    """The number of a Kind. Raises TypeError for everything else: for 1 and True too."""
    if not isinstance(kind, Kind):
        raise TypeError(f"{name}: expected a Kind, not {type(kind).__name__}")
    return kind.value


def _number(number: int, name: str) -> int:
    """A number. Raises TypeError for everything else: for "1", 1.0 and True too."""
    if not isinstance(number, int) or isinstance(number, bool):
        raise TypeError(f"{name}: expected a number, not {type(number).__name__}")
    return number


def _flag(flag: bool, name: str) -> bool:
    """True or False. Raises TypeError for everything else: for "no" too."""
    if not isinstance(flag, bool):
        raise TypeError(f"{name}: expected True or False, not {type(flag).__name__}")
    return flag


class Kind(enum.Enum):
    """The kind as which a certificate is validated. As another kind than its own it is rejected,
    with an InspectionFault.

    TRUST_ANCHOR: a trust anchor, which signs itself.
    AUTHORITY: a CA, which signs certificates and CRLs.
    END_ENTITY: the certificate of a signed object that is published, such as a ROA or a manifest.
        It has to have the object's URI (`uris["signed_object"]`, RFC 6487 4.8.8.2).
    DETACHED: an end entity that needn't have that URI. All else is required as for END_ENTITY, so
        each of those is accepted too. Use it only if the object has no URI.
    ROUTER: a BGPsec router (RFC 8209).
    """

    TRUST_ANCHOR = 0
    AUTHORITY = 1
    END_ENTITY = 2
    DETACHED = 3
    ROUTER = 4


class Inherit(enum.Enum):
    """The mark that a certificate inherits the resources of its issuer."""

    INHERIT = "inherit"

    def __str__(self) -> str:
        return self.value


INHERIT = Inherit.INHERIT


def _moment(it: raw.Time) -> datetime:
    """A moment of UTC. Python has none of the year 0: of that this raises ValueError."""
    parts = (it.year, it.month, it.day, it.hour, it.minute, it.second)
    return datetime(*parts, tzinfo=timezone.utc)


def _time(moment: datetime, name: str = "at") -> raw.Time:
    if not isinstance(moment, datetime):
        given = type(moment).__name__
        raise TypeError(f"{name}: expected a datetime with a time zone, not {given}")
    # without an offset, astimezone() takes the moment as one of this machine's zone
    if moment.utcoffset() is None:
        raise ValueError(f"{name}: the time has no time zone; datetime.now(timezone.utc) has one")
    try:
        it = moment.astimezone(timezone.utc)
    except OverflowError as error:
        raise ValueError(f"{name}: the time is outside the years 1 to 9999 of UTC") from error
    return raw.Time(it.year, it.month, it.day, it.hour, it.minute, it.second)


class Certificate:
    """A resource certificate, read from the start of DER bytes; the rest is ignored.

    Raises DecodeFault if the bytes don't start with a certificate.

    Not checked: the profile, the signature and the validity; `validate` checks them.
    """

    def __init__(self, octets: Octets) -> None:
        self.octets = _bytes(octets)
        """The octets that were given."""
        try:
            self._read = raw.certificate(self.octets)
        except raw.Called as error:
            _raise(error.fault, unread=(self.octets, False))

    def __repr__(self) -> str:
        return f"<rpki.Certificate {self.serial_number:X}>"

    def __eq__(self, other: object) -> bool:
        return isinstance(other, Certificate) and self.octets == other.octets

    def __hash__(self) -> int:
        return hash(self.octets)

    @cached_property
    def serial_number(self) -> int:
        """The serial number."""
        return int.from_bytes(bytes(self._read.serial), "big")

    @cached_property
    def not_before(self) -> datetime:
        """The first second at which it is valid, in UTC."""
        return _moment(self._read.not_before)

    @cached_property
    def not_after(self) -> datetime:
        """The last second at which it is valid, in UTC."""
        return _moment(self._read.not_after)

    @cached_property
    def subject_key_identifier(self) -> bytes:
        """The identifier of its key."""
        return bytes(self._read.subject_key)

    @cached_property
    def authority_key_identifier(self) -> bytes | None:
        """The identifier of its issuer's key, or None."""
        return bytes(self._read.authority_key) if self._read.has_authority_key else None

    @property
    def is_authority(self) -> bool:
        """Whether Basic Constraints say that it is a CA."""
        return bool(self._read.is_authority)

    @property
    def signs_certificates(self) -> bool:
        """Whether its key usage is a CA's, and not an end entity's."""
        return not self._read.key_usage

    @property
    def trims_resources(self) -> bool:
        """Whether overclaimed resources are trimmed (RFC 8360), and not rejected."""
        return bool(self._read.overclaim)

    @cached_property
    def issuer(self) -> bytes:
        """The issuer's Name in DER."""
        return raw.certificate_name(self.octets, 0)

    @cached_property
    def issuer_text(self) -> str:
        """The issuer's name as text (RFC 4514), such as `CN=0A1B`."""
        return text_of(self.issuer)

    @cached_property
    def subject(self) -> bytes:
        """The subject's Name in DER."""
        return raw.certificate_name(self.octets, 1)

    @cached_property
    def subject_text(self) -> str:
        """The subject's name as text (RFC 4514)."""
        return text_of(self.subject)

    @cached_property
    def ipv4(self) -> Addresses[ipaddress.IPv4Address] | Inherit | None:
        """The IPv4 addresses that it lists, INHERIT, or None if it has none."""
        if self._read.v4 != raw.LISTED:
            return INHERIT if self._read.v4 == raw.INHERITED else None
        return _ipv4(raw.addresses(self.octets, 4))

    @cached_property
    def ipv6(self) -> Addresses[ipaddress.IPv6Address] | Inherit | None:
        """The IPv6 addresses that it lists, INHERIT, or None if it has none."""
        if self._read.v6 != raw.LISTED:
            return INHERIT if self._read.v6 == raw.INHERITED else None
        return _ipv6(raw.addresses(self.octets, 6))

    @cached_property
    def as_numbers(self) -> AsNumbers | Inherit | None:
        """The AS numbers that it lists, INHERIT, or None if it has none."""
        if self._read.asn != raw.LISTED:
            return INHERIT if self._read.asn == raw.INHERITED else None
        return _as_numbers(raw.as_numbers(self.octets))

    @property
    def uris(self) -> dict[str, str]:
        """The URIs that it has, by these names: ca_issuer (of its issuer's certificate), crl,
        repository, manifest, signed_object, notify. Each call returns a dict of its own."""
        return dict(self._uris)

    @cached_property
    def _uris(self) -> dict[str, str]:
        found = ((name, raw.certificate_uri(self.octets, at)) for at, name in enumerate(raw.URIS))
        return {name: uri.decode("ascii") for name, uri in found if uri}

    @cached_property
    def _key(self) -> tuple[bytes, bool]:
        return raw.certificate_key(self.octets)

    @property
    def public_key(self) -> bytes:
        """Its key: the SubjectPublicKeyInfo in DER."""
        return self._key[0]

    @property
    def has_usable_key(self) -> bool:
        """Whether the RPKI uses such a key: RSA of 2048 bits with the exponent 65537 (RFC 7935 3), or
        for routers an uncompressed point on the curve P-256 (RFC 8608 3.1)."""
        return self._key[1]

    def inspect(self, kind: Kind, strict: bool = True) -> None:
        """Checks that it meets the profile of a kind (RFC 6487 4). With `strict=False` names may
        have string types that RFC 6487 4.4 doesn't allow.

        Raises InspectionFault if it doesn't meet the profile."""
        _raise(raw.inspect(self.octets, _kind(kind, "kind"), _flag(strict, "strict")))

    def meets(self, kind: Kind, strict: bool = True) -> bool:
        """Returns whether it meets the profile of a kind."""
        try:
            self.inspect(kind, strict)
        except InspectionFault:
            return False
        return True


# ---- revocation lists


@dataclass(frozen=True)
class Entry:
    """A revoked certificate."""

    serial_number: int
    revoked_at: datetime


class RevocationList:
    """A CRL, read from the start of DER bytes; the rest is ignored. It has a length and iterates
    over its entries; `in` searches for a serial number, or a certificate's.

    Raises DecodeFault if the bytes don't start with a CRL.

    Not checked: the signature, and the times; `validate` checks them.
    """

    def __init__(self, octets: Octets) -> None:
        self.octets = _bytes(octets)
        """The octets that were given."""
        self._asked = 0
        try:
            self._read = raw.revocation_list(self.octets)
        except raw.Called as error:
            _raise(error.fault, unread=(self.octets, True))

    def __repr__(self) -> str:
        return f"<rpki.RevocationList {self.number:X}>"

    @cached_property
    def number(self) -> int:
        """The CRL number."""
        return int.from_bytes(bytes(self._read.number), "big")

    @cached_property
    def this_update(self) -> datetime:
        """The time at which it was issued, in UTC."""
        return _moment(self._read.this_update)

    @cached_property
    def next_update(self) -> datetime:
        """The time by which the next CRL is due, in UTC."""
        return _moment(self._read.next_update)

    @cached_property
    def authority_key_identifier(self) -> bytes:
        """The identifier of its issuer's key."""
        return bytes(self._read.authority_key)

    @cached_property
    def issuer(self) -> bytes:
        """The issuer's Name in DER."""
        return raw.list_issuer(self.octets)

    @cached_property
    def issuer_text(self) -> str:
        """The issuer's name as text (RFC 4514)."""
        return text_of(self.issuer)

    def __len__(self) -> int:
        return cast(int, self._read.entries)

    def __iter__(self) -> Iterator[Entry]:
        """Iterates over the entries, in the CRL's order."""
        for it in raw.entries(self.octets):
            yield Entry(int.from_bytes(bytes(it.serial), "big"), _moment(it.date))

    def __eq__(self, other: object) -> bool:
        return isinstance(other, RevocationList) and self.octets == other.octets

    def __hash__(self) -> int:
        return hash(self.octets)

    @cached_property
    def serial_numbers(self) -> frozenset[int]:
        """The serial numbers of its entries."""
        return raw.serial_numbers(self.octets, len(self))

    def expired(self, certificates: Iterable[Octets | Certificate]) -> list[Entry]:
        """Returns the entries that the issuer's next CRL may drop, because their certificates are
        among these and had expired before this CRL was issued (RFC 5280 3.3: an entry has to be on
        one CRL that was issued after the certificate expired).

        A certificate counts if its issuer's name and key identifier are those of the CRL's issuer.

        Not checked: that the issuer signed it. Pass only certificates that it issued.
        """
        ended = set()
        for it in certificates:
            cert = it if isinstance(it, Certificate) else Certificate(it)
            is_own = cert.issuer == self.issuer
            key = cert.authority_key_identifier
            if is_own and key == self.authority_key_identifier and cert.not_after < self.this_update:
                ended.add(cert.serial_number)
        return [entry for entry in self if entry.serial_number in ended]

    def __contains__(self, what: int | Certificate) -> bool:
        """Returns whether a serial number, or a certificate's, is on the CRL. From the third search
        on `serial_numbers` is used.

        Not checked: whose CRL it is."""
        number = _serial(what)
        self._asked += 1
        if self._asked > 2:
            return number in self.serial_numbers
        return self.revoked((number,))[0]

    def revoked(self, serials: Iterable[int | Certificate]) -> list[bool]:
        """Returns for each serial number, or certificate's, whether it is on the CRL, by one call
        of the library."""
        numbers = [_serial(it) for it in serials]
        fit = [0 <= it < 1 << 160 for it in numbers]
        asked = [it.to_bytes(20, "big") if is_fit else bytes(20) for it, is_fit in zip(numbers, fit)]
        answers = raw.are_revoked(self.octets, asked)
        return [answer and is_fit for answer, is_fit in zip(answers, fit)]


def _serial(what: int | Certificate) -> int:
    number = what.serial_number if isinstance(what, Certificate) else what
    if not isinstance(number, int) or isinstance(number, bool):
        raise TypeError(f"expected a serial number or a Certificate, not {type(what).__name__}")
    return number


# ---- paths


def _octets(what: Octets | Certificate | RevocationList, name: str) -> bytes:
    return what.octets if isinstance(what, (Certificate, RevocationList)) else _bytes(what, name)


# what has elements, and isn't a list of them
_SINGLE = (bytes, bytearray, memoryview, str, os.PathLike, io.IOBase, *_NETWORKS)

Element = TypeVar("Element")


def _each(many: Iterable[Element], name: str) -> Iterable[Element]:
    """An argument that has elements. Raises TypeError for everything else, and for what may be an
    element itself."""
    if isinstance(many, (*_SINGLE, Certificate, RevocationList)) or not isinstance(many, Iterable):
        remedy = "" if many is None else "; [..] makes one of it"
        raise TypeError(f"{name}: expected a list, not {type(many).__name__}{remedy}")
    return many


def _all_octets(many: Sequence[Octets | Certificate | RevocationList], name: str) -> list[bytes]:
    """The octets of each of an argument."""
    return [_octets(it, f"{name}[{at}]") for at, it in enumerate(_each(many, name))]


def _why_no_path(count: int, last: Kind) -> str:
    """Why so many members aren't a path that ends in one of the kind."""
    if count > 1:
        return "the last of several members is to be a trust anchor"
    if count == 1:
        return f"too few members: one of Kind.{last.name} stands below an issuer"
    return "too few members: there are none"


def validate(
    members: Sequence[Octets | Certificate],
    *,
    last: Kind,
    lists: Sequence[Octets | RevocationList] | None,
    locator: Octets | None,
    at: datetime | None = None,
    strict: bool = True,
    chain_names: bool = True,
    check_key: bool = True,
) -> Resources:
    """Validates a path of certificates, and returns what its last certificate holds (RFC 6487 7.2).

    `members` are the certificates in order, the trust anchor first; `last` is the kind of the last
    one. For a router's certificate the result is what the certificate above it holds. Signatures
    are checked (RFC 7935).

    `lists` are CRLs, in any order: no certificate below the trust anchor may be revoked by its
    issuer's newest CRL whose thisUpdate has come. No bytes may follow a CRL, since they may be
    another one. A CRL that names no key of the path is read up to its extensions, so the CRLs of a
    whole cache may be given. There is no default: with `lists=None` revocation isn't checked, and a
    revoked certificate is accepted.

    `locator` is the file of a TAL (RFC 8630), whose key the trust anchor has to have. There is no
    default: with `locator=None` any trust anchor is accepted.

    `at` is the validation time, by default now. It needs a time zone, as `datetime(2026, 6, 1,
    tzinfo=timezone.utc)` has one. `strict` requires the string types of RFC 6487 4.4 in names, and
    UTF-8 in the TAL. `chain_names` requires that each issuer is the subject of the certificate
    above it (RFC 6487 7.2), and that a CRL has its issuer's name (RFC 5280 6.3.3 (b) (1)): a CRL of
    another name isn't used, and the fault is `WrongIssuer` if there is no other. `check_key`
    requires that the RPKI uses the last certificate's key (RFC 7935 3, RFC 8608 3.1); the keys
    above it verify signatures, which only such keys do.

    Raises the Fault of the first wrong certificate, or of a TAL or a CRL that can't be read; names
    are checked after all of these, and the last key at the end.
    Raises ValueError if there are too few certificates, if the last of several is to be a trust
    anchor, and if `at` has no time zone; TypeError if an argument has another type.

    Not checked: manifests.
    """
    all_members = _all_octets(members, "members")
    now = _time(datetime.now(timezone.utc) if at is None else at)
    all_lists = None if lists is None else _all_octets(lists, "lists")
    key = None if locator is None else _bytes(locator, "locator")
    number, is_strict = _kind(last, "last"), _flag(strict, "strict")
    waived = not _flag(check_key, "check_key"), not _flag(chain_names, "chain_names")
    asked = raw.question(all_members, number, now, is_strict, all_lists, key, *waived)
    fault, index, held = raw.judge(asked)
    if fault == raw.BAD_CALL:
        raise ValueError(_why_no_path(len(all_members), last))
    _raise_at(fault, index, all_members, all_lists or ())
    return _resources(held)


# ---- folders


class State(enum.Enum):
    """The result for a string of a directory.

    Six states are of certificates without a verdict, and say why there is none. The certificate's
    issuer is the one among the strings whose key it names as its signer's. An issuer that is rejected
    with `BadKey` counts as accepted here."""

    NO_ISSUER = 0
    """A certificate that names no key as its signer's, or a key that no certificate among the strings
    has."""
    ANCHOR = 1
    """The trust anchor, which is valid, or a copy of it."""
    ACCEPTED = 2
    """The last certificate of a valid path."""
    REJECTED = 3
    """A certificate that is wrong below each valid path to its issuer."""
    LIST = 4
    """A CRL."""
    NEITHER = 5
    """Neither a certificate nor a CRL; also a CRL that other bytes follow."""
    NOT_ISSUED = 6
    """The issuer is an accepted CA below which the walk looked, and didn't issue the certificate: the
    CA has another name, or its key didn't sign the certificate."""
    ISSUER_NOT_CA = 7
    """The issuer is accepted, and isn't a CA."""
    NOT_LOOKED_AT = 8
    """The walk reached a limit at the issuer, on each path to it: `Folder.limited` has the limit."""
    BELOW_REJECTED = 9
    """The issuer is rejected: its line has the fault."""
    BELOW_UNSEEN = 10
    """There is no verdict on the issuer either, which may be the certificate itself; several such may
    form a circle."""


# the states of certificates without a verdict that have an issuer
_WITH_ISSUER = frozenset(it for it in State if it.value >= State.NOT_ISSUED.value)


@dataclass(frozen=True)
class Line:
    """The result for one string of a directory."""

    state: State
    step: int | None = None
    """How many certificates of the path are above it, if it is accepted or rejected."""
    issuer: int | None = None
    """The index of its issuer's string: if it is accepted, of the CA right above it. If there is no
    verdict on it, of the certificate whose key it names as its signer's; None if there is none. Of
    several with that key it is an accepted CA at which a limit was reached on each path to it, else an
    accepted CA below which the walk looked, else a rejected one, else an accepted one that isn't a CA,
    else one without a verdict; of equal ones the first."""
    fault: Fault | None = None
    """Why it is rejected."""
    kind: Kind | None = None
    """The kind as which it was validated, if it is accepted or rejected: the one that it says."""
    held: Resources | None = None
    """What it holds, if it is accepted; of a router's certificate what the one above it holds."""

    @property
    def is_valid(self) -> bool:
        """Whether it is a valid certificate."""
        return self.state in (State.ANCHOR, State.ACCEPTED)

    @property
    def is_unjudged(self) -> bool:
        """Whether it is a certificate without a verdict; `state` says why there is none."""
        return self.state is State.NO_ISSUER or self.state in _WITH_ISSUER


@dataclass(frozen=True)
class LimitedCa:
    """A CA, or the trust anchor, at which the walk over a directory reached a limit: on a path to it
    none of its children was validated."""

    ca: int
    """The index of its string."""
    at_depth: bool
    """Whether a path to it has `depth` certificates below the trust anchor, and it has a child."""
    out_of_steps: bool
    """Whether its share of the steps is less than its children, on a path to it."""
    steps_needed: int | None
    """The least `steps` with which the children are validated on such a path, with the same `depth`.
    None if it isn't `out_of_steps`, or if no 64 bits are enough."""


@dataclass(frozen=True)
class Folder:
    """The results for the strings of a directory."""

    lines: tuple[Line, ...]
    """A line for each, in their order."""
    anchor: int
    """The place of the trust anchor among them."""
    is_whole: bool
    """Whether all was looked at to which a valid path leads. Else a limit was reached, and what isn't
    accepted may yet be valid."""
    limited: tuple[LimitedCa, ...] = ()
    """The CAs at which a limit was reached, in the order of their strings; none if `is_whole`."""


def _resources(held: raw.Held) -> Resources:
    return Resources(_ipv4(held[0]), _ipv6(held[1]), _as_numbers(held[2]))


def _held_in(room: raw.Room) -> Callable[[raw.Line], Resources]:
    """Returns what returns the resources of a line: ranges that several lines have are made once."""
    ipv4 = cache(lambda at, count: _ipv4(room.v4[at : at + count]))
    ipv6 = cache(lambda at, count: _ipv6(room.v6[at : at + count]))
    as_numbers = cache(lambda at, count: _as_numbers(room.asn[at : at + count]))

    def held(line: raw.Line) -> Resources:
        v4, v6, asn = raw.held_parts(line)
        return Resources(ipv4(*v4), ipv6(*v6), as_numbers(*asn))

    return held


def _line(it: raw.Line, held: Callable[[raw.Line], Resources]) -> Line:
    state = State(it.what)
    if state is State.ACCEPTED:
        return Line(state, it.step, it.issuer, kind=Kind(it.kind), held=held(it))
    if state is State.REJECTED:
        return Line(state, it.step, None, _fault(it.fault), Kind(it.kind))
    return Line(state, issuer=it.issuer if state in _WITH_ISSUER else None)


def _limited(lines: Sequence[raw.Line]) -> Iterator[LimitedCa]:
    for place, it in enumerate(lines):
        if it.limits:
            depth, steps = it.limits & raw.LIMIT_DEPTH, it.limits & raw.LIMIT_STEPS
            yield LimitedCa(place, depth != 0, steps != 0, it.needed or None)


def judge_folder(
    octets: Sequence[Octets | Certificate | RevocationList],
    *,
    locator: Octets,
    at: datetime | None = None,
    strict: bool = True,
    chain_names: bool = True,
    check_key: bool = True,
    depth: int = 32,
    steps: int | None = None,
) -> Folder:
    """Validates all certificates of a directory below the trust anchor of a TAL, and returns a line
    for each string of `octets`.

    `octets` are certificates and CRLs in any order, and may be others. The trust anchor is a valid
    certificate that has the key of `locator`, the file of a TAL (RFC 8630); if several are valid, the
    one that is valid longest. Each certificate that an accepted CA signed is validated below it as the
    kind that it says. It may not be revoked by the CRLs among the octets, as for `validate`, which
    accepts what is accepted here. Copies of a certificate have one line, and take the steps of one.

    `at`, `strict` and `chain_names` are as for `validate`, and so is `check_key`, for each
    certificate. A path has at most `depth` certificates below the trust anchor. `steps` are those of
    the walk, by default 10,000,000: a certificate that a CA signed takes one for each path that leads
    to it, and they are divided evenly among the CAs below each CA. `is_whole` of the answer says
    whether that was enough, and `limited` at which CAs it wasn't.

    Raises LocatorFault if the file is no TAL or no certificate has its key. If no trust anchor is
    valid, raises the Fault of the first certificate with the key, with its index in `octets` as the
    `member`; ValueError if `depth` or `steps` is out of range; TypeError if an argument has another
    type.

    Not checked: manifests. A withheld file isn't detected: a caller who reads manifests leaves out the
    files that they don't list.
    """
    now = _time(datetime.now(timezone.utc) if at is None else at)
    for name, bound in (("depth", depth), ("steps", 1 if steps is None else steps)):
        if not 1 <= _number(bound, name) < 1 << 64:
            raise ValueError(f"{name}: expected a number from 1 to 2^64 - 1, not {bound}")
    is_strict = _flag(strict, "strict")
    tal = _bytes(locator, "locator")
    # of files that are read here only the joined octets stay
    strings = raw.strings_of(_all_octets(octets, "octets"))
    waived = not _flag(check_key, "check_key"), not _flag(chain_names, "chain_names")
    bounds = depth, steps or 0
    asked = raw.folder_question(strings, tal, now, is_strict, bounds, *waived)
    walk, lines, room = raw.judge_folder(asked)
    is_anchors = 100 <= walk.fault <= 600 or walk.fault == FaultCode.NO_RESOURCES
    place = walk.anchor if is_anchors else None
    _raise(walk.fault, place)
    held = _held_in(room)
    told = tuple(_line(it, held) for it in lines)
    return Folder(told, walk.anchor, walk.ended == raw.WHOLE, tuple(_limited(lines)))


# ---- issuing

AddressRange = Union[Network, str, tuple[Address, Address]]


def _ends(what: AddressRange[Address], name: str) -> tuple[int, bytes, bytes]:
    """The version, and the first and the last address, of a network or a range."""
    try:
        network = ipaddress.ip_network(what) if isinstance(what, str) else what
    except ValueError as error:
        raise ValueError(f"{name}: {error}") from error
    if isinstance(network, _NETWORKS):
        first, last = network[0], network[-1]
    elif isinstance(network, tuple) and [isinstance(it, _ADDRESSES) for it in network] == [True, True]:
        first, last = network
    else:
        given = type(network).__name__
        raise TypeError(f"{name}: expected networks, texts or pairs of addresses, not {given}")
    if first.version != last.version or int(last) < int(first):
        raise ValueError(f"{name}: expected a network, or a first address and a last one")
    return first.version, first.packed, last.packed


def _addresses(
    version: int, wanted: Iterable[AddressRange[Address]] | Inherit | None
) -> raw.Addresses:
    if wanted is None or isinstance(wanted, Inherit):
        return raw.addresses_wanted(raw.MISSING if wanted is None else raw.INHERITED, ())
    name = f"ipv{version}"
    ends = [_ends(it, name) for it in _each(wanted, name)]
    if not ends or any(it[0] != version for it in ends):
        raise ValueError(f"{name}: expected addresses of IPv{version}, or None for no addresses")
    return raw.addresses_wanted(raw.LISTED, [raw.ip_range(*it[1:]) for it in ends])


def _systems(wanted: Iterable[int | range] | Inherit | None) -> raw.AsNumbers:
    if wanted is None or isinstance(wanted, Inherit):
        return raw.as_numbers_wanted(raw.MISSING if wanted is None else raw.INHERITED, ())
    ranges = []
    for it in _each(wanted, "as_numbers"):
        if isinstance(it, int) and not isinstance(it, bool):
            it = range(it, it + 1)
        if not isinstance(it, range):
            given = type(it).__name__
            raise TypeError(f"as_numbers: expected numbers, or ranges of them, not {given}")
        ranges.append(it)
    if any(it.step != 1 or not it or not 0 <= it[0] <= it[-1] < 1 << 32 for it in ranges):
        raise ValueError("as_numbers: expected numbers below 2^32, or ranges of them with step 1")
    if not ranges:
        raise ValueError("as_numbers: expected AS numbers, or None for no AS numbers")
    return raw.as_numbers_wanted(raw.LISTED, [(it[0], it[-1]) for it in ranges])


@dataclass(frozen=True)
class _Issuer:
    """Who issues: what the four calls below have in common, each file read once."""

    members: list[bytes]
    lists: list[bytes] | None
    locator: bytes | None
    now: raw.Time
    strict: bool
    chain_names: bool

    @classmethod
    def of(
        cls,
        issuers: Sequence[Octets | Certificate],
        lists: Sequence[Octets | RevocationList] | None,
        locator: Octets | None,
        at: datetime | None,
        strict: bool,
        chain_names: bool,
    ) -> _Issuer:
        return cls(
            _all_octets(issuers, "issuers"),
            None if lists is None else _all_octets(lists, "lists"),
            None if locator is None else _bytes(locator, "locator"),
            _time(datetime.now(timezone.utc) if at is None else at),
            _flag(strict, "strict"),
            _flag(chain_names, "chain_names"),
        )

    def question(self, last: Kind) -> raw.Question:
        """The question about the issuer's path, which ends in the kind."""
        return raw.question(
            self.members,
            last.value,
            self.now,
            self.strict,
            self.lists,
            self.locator,
            any_names=not self.chain_names,
        )

    def raise_fault(self, told: raw.Issued, no_call: str, arguments: _Arguments) -> None:
        """Raises the exception of why nothing is issued, if there is one. Of a fault of what is issued
        these are the arguments."""
        if told.fault == raw.BAD_CALL:
            raise ValueError(no_call)
        if told.fault == raw.BAD_URI:
            raise ValueError(f"uris[{raw.URIS[told.index]!r}]: expected a URI")
        # a list that can't be read is behind the members, and so is what is issued
        is_issued = told.fault > raw.BAD_CALL and told.index == len(self.members)
        if is_issued and not (100 <= told.fault < 300 or told.fault // 100 == 7):
            _raise(told.fault, argument=arguments.of(told.fault))
        _raise_at(told.fault, told.index, self.members, self.lists or ())


def _kind_above(kind: Kind) -> Kind:
    """What the path above a certificate of the kind ends in: that of a trust anchor has no members,
    and nothing of it is asked."""
    return Kind.TRUST_ANCHOR if kind is Kind.TRUST_ANCHOR else Kind.AUTHORITY


@dataclass(frozen=True)
class _Arguments:
    """The argument that each fault of what is issued is about."""

    named: Mapping[int, str]
    other: str
    """That of all other faults."""

    def of(self, fault: int) -> str:
        return self.named.get(fault, self.other)


# of what is prepared
_PREPARED: dict[int, str] = {
    FaultCode.INSPECTION_KEY_ALGORITHM: "key",
    FaultCode.INSPECTION_MISSING_CA_REPOSITORY: "uris['repository']",
    FaultCode.INSPECTION_MISSING_MANIFEST: "uris['manifest']",
    FaultCode.INSPECTION_MANIFEST_NOT_CHILD: "uris['manifest']",
    FaultCode.INSPECTION_SIGNED_OBJECT_PRESENT: "uris['signed_object']",
    FaultCode.INSPECTION_CRL_URI_PRESENT: "uris['crl']",
    FaultCode.INSPECTION_CA_ISSUER_PRESENT: "uris['ca_issuer']",
    FaultCode.INSPECTION_MISSING_CRL_URI: "uris['crl']",
    FaultCode.INSPECTION_CA_REPOSITORY_PRESENT: "uris['repository']",
    FaultCode.INSPECTION_MANIFEST_PRESENT: "uris['manifest']",
    FaultCode.INSPECTION_MISSING_SIGNED_OBJECT: "uris['signed_object']",
    FaultCode.INSPECTION_SUBJECT_INFORMATION_PRESENT: "uris",
    FaultCode.INSPECTION_IP_RESOURCES_PRESENT: "ipv4 or ipv6",
    FaultCode.INSPECTION_MISSING_AS_RESOURCES: "as_numbers",
    FaultCode.INSPECTION_INHERITED_AS_RESOURCES: "as_numbers",
    FaultCode.VERIFICATION_NOT_YET_VALID: "not_before",
    FaultCode.VERIFICATION_EXPIRED: "not_after",
    FaultCode.VERIFICATION_INHERITED_V4: "ipv4",
    FaultCode.VERIFICATION_INHERITED_V6: "ipv6",
    FaultCode.VERIFICATION_INHERITED_AS: "as_numbers",
    FaultCode.VERIFICATION_MISSING_ISSUER_URI: "uris['ca_issuer']",
    FaultCode.VERIFICATION_OVERCLAIM_V4: "ipv4",
    FaultCode.VERIFICATION_OVERCLAIM_V6: "ipv6",
    FaultCode.VERIFICATION_OVERCLAIM_AS: "as_numbers",
    FaultCode.REVOCATION_STALE: "next_update",
    FaultCode.ISSUING_NO_KEY: "key",
    FaultCode.ISSUING_UNUSED_KEY: "key",
    FaultCode.ISSUING_NO_NAME: "as_numbers",
    FaultCode.ISSUING_UNWRITABLE: "ipv4, ipv6 or as_numbers",
    FaultCode.ISSUING_TOO_LONG: "ipv4, ipv6 or as_numbers",
    FaultCode.ISSUING_OTHER_LIST: "previous",
    FaultCode.ISSUING_NUMBER: "number",
    FaultCode.ISSUING_LONG_NUMBER: "number",
    FaultCode.ISSUING_UPDATE_ORDER: "next_update",
}

# of what is completed, which has the values already
_SIGNED: dict[int, str] = {
    FaultCode.VERIFICATION_BAD_SIGNATURE: "signature",
    FaultCode.REVOCATION_BAD_SIGNATURE: "signature",
}
_COMPLETED = _Arguments(_SIGNED, "prepared")


def _of_certificate(
    kind: Kind, issuer: _Issuer, key: bytes, not_before: datetime
) -> _Arguments:
    """The arguments of a certificate that is prepared. That no certificate has the fields has several
    reasons."""
    why = "ipv4, ipv6 or as_numbers"
    if not_before.astimezone(timezone.utc).year < 1950:
        why = "not_before"  # RFC 5280 4.1.2.5: a UTCTime begins in 1950
    elif kind is Kind.AUTHORITY and issuer.members and _has_key(issuer.members[-1], key):
        why = "key"
    named = dict(_PREPARED)
    named[FaultCode.ISSUING_UNWRITABLE] = why
    return _Arguments(named, "issuers")


def _has_key(octets: bytes, key: bytes) -> bool:
    """Whether octets are a certificate with this key."""
    try:
        return Certificate(octets).public_key == key
    except DecodeFault:
        return False


def _of_list(this_update: raw.Time, now: raw.Time) -> _Arguments:
    """The arguments of a CRL that is prepared. It is stale also if it is from the future."""
    named = dict(_PREPARED)
    named[FaultCode.ISSUING_TOO_LONG] = "revoked"
    if _parts(this_update) > _parts(now):
        named[FaultCode.REVOCATION_STALE] = "this_update"
    return _Arguments(named, "issuers")


def _parts(it: raw.Time) -> tuple[int, ...]:
    return it.year, it.month, it.day, it.hour, it.minute, it.second


_NO_CERTIFICATE = (
    "issuers: expected none for a trust anchor, and for any other kind the certificates down to a CA"
)


def _uri(uri: str, name: str) -> bytes:
    if not isinstance(uri, str):
        raise TypeError(f"uris[{name!r}]: expected a str, not {type(uri).__name__}")
    return uri.encode()


def prepare(
    kind: Kind,
    *,
    issuers: Sequence[Octets | Certificate],
    key: Octets,
    serial_number: int,
    not_before: datetime,
    not_after: datetime,
    ipv4: Iterable[AddressRange[ipaddress.IPv4Address]] | Inherit | None = None,
    ipv6: Iterable[AddressRange[ipaddress.IPv6Address]] | Inherit | None = None,
    as_numbers: Iterable[int | range] | Inherit | None = None,
    uris: Mapping[str, str] | None = None,
    trims_resources: bool = False,
    lists: Sequence[Octets | RevocationList] | None,
    locator: Octets | None,
    at: datetime | None = None,
    strict: bool = True,
    chain_names: bool = True,
) -> bytes:
    """Prepares a certificate for its signature, and returns the TBSCertificate, which the issuer's
    key has to sign (RSASSA-PKCS1-v1_5 with SHA-256, RFC 7935). The key may be elsewhere: in a file
    of OpenSSL's, or in hardware.

    `issuers` are the certificates of the issuer's path in order, the trust anchor first; for a trust
    anchor there are none. The path is validated as by `validate`, with `lists` and `locator`,
    unless they are None. `key` is the subject's SubjectPublicKeyInfo in DER.

    `ipv4` and `ipv6` are networks, or pairs of a first and a last address, and `as_numbers` are
    numbers or ranges, in any order; or INHERIT; or None, for no resources of the kind. The values
    of a Certificate can be passed. `uris` has the names of `Certificate.uris`. The names, key
    identifiers, key usage and policy are set as RFC 6487 4 requires.

    All is checked that a validator will check below the issuer, but the signature. Raises the Fault
    of what is wrong, with the path index (`member`) of an issuer, or with the `argument` that is wrong
    of the certificate itself; and ValueError if a value doesn't exist.
    """
    _kind(kind, "kind")
    issuer = _Issuer.of(issuers, lists, locator, at, strict, chain_names)
    named = dict(uris or {})
    texts = [_uri(named.pop(name, ""), name) for name in raw.URIS]
    if named:
        raise ValueError(f"uris: expected the names {', '.join(raw.URIS)}, not {min(named)!r}")
    if not 1 <= _number(serial_number, "serial_number") < 1 << 159:
        raise ValueError("serial_number: expected a number from 1 to 2^159 - 1")
    spki = _bytes(key, "key")
    asked = raw.wanted(
        issuer.question(_kind_above(kind)),
        kind.value,
        spki,
        (_addresses(4, ipv4), _addresses(6, ipv6), _systems(as_numbers)),
        texts,
        (_time(not_before, "not_before"), _time(not_after, "not_after")),
        serial_number.to_bytes(20, "big"),
        _flag(trims_resources, "trims_resources"),
    )
    told, octets = raw.prepare(asked)
    if told.fault != raw.OK:
        issuer.raise_fault(told, _NO_CERTIFICATE, _of_certificate(kind, issuer, spki, not_before))
    return octets


def complete(
    kind: Kind,
    *,
    issuers: Sequence[Octets | Certificate],
    prepared: Octets,
    signature: Octets,
    lists: Sequence[Octets | RevocationList] | None,
    locator: Octets | None,
    at: datetime | None = None,
    strict: bool = True,
    chain_names: bool = True,
) -> Certificate:
    """Completes a prepared certificate with its signature, and returns the certificate if and only
    if the issuer's key (a trust anchor's own key) signed what was prepared. The other arguments are
    as for `prepare`; all is checked again, at this time.

    Raises VerificationFault with the name BadSignature if the signature isn't valid, and else the
    Fault of what is wrong. Its `argument` is `signature` or `prepared`, unless an issuer is wrong.
    """
    _kind(kind, "kind")
    issuer = _Issuer.of(issuers, lists, locator, at, strict, chain_names)
    asked = raw.completion(
        issuer.question(_kind_above(kind)),
        kind.value,
        _bytes(prepared, "prepared"),
        _bytes(signature, "signature"),
    )
    told, octets = raw.complete(asked)
    issuer.raise_fault(told, _NO_CERTIFICATE, _COMPLETED)
    return Certificate(octets)


_NO_LIST = "issuers: expected the certificates down to a CA"


def _revoked(what: int | Certificate | Entry, since: datetime) -> tuple[raw.Time, bytes]:
    """Since when a certificate is revoked, and its serial number."""
    if isinstance(what, Entry):
        since, number = what.revoked_at, what.serial_number
    else:
        number = what.serial_number if isinstance(what, Certificate) else what
    return _time(since, "revoked"), _list_number(number, "revoked")


def _list_number(number: int, name: str) -> bytes:
    if not 0 <= _number(number, name) < 1 << 160:
        raise ValueError(f"{name}: expected a number from 0 to 2^160 - 1")
    return number.to_bytes(20, "big")


def prepare_list(
    *,
    issuers: Sequence[Octets | Certificate],
    next_update: datetime,
    this_update: datetime | None = None,
    revoked: Iterable[int | Certificate | Entry] = (),
    previous: Octets | RevocationList | None = None,
    expired: Iterable[Octets | Certificate] = (),
    number: int | None = None,
    lists: Sequence[Octets | RevocationList] | None,
    locator: Octets | None,
    at: datetime | None = None,
    strict: bool = True,
    chain_names: bool = True,
) -> bytes:
    """Prepares the issuer's next CRL, or its first one, for its signature, and returns the
    TBSCertList, which the issuer's key has to sign, as `prepare` does.

    `previous` is the issuer's previous CRL. Its entries stay, except for those that
    `RevocationList(previous).expired(expired)` returns: their certificates are among `expired`, and
    had expired before that CRL was issued. `revoked` are revoked now: certificates or serial
    numbers, from this update on, or an Entry with a time of its own. `number` is greater than that
    of the previous CRL; by default it is one more, and 1 for a first CRL. `this_update` is by
    default the time `at`. The other arguments are as for `prepare`.

    Raises the Fault of what is wrong: with the path index (`member`) of an issuer, and else
    IssuingFault or RevocationFault with the `argument`; and ValueError if a value doesn't exist.
    """
    now = datetime.now(timezone.utc) if at is None else at
    issuer = _Issuer.of(issuers, lists, locator, now, strict, chain_names)
    since = now if this_update is None else this_update
    if number is not None and _number(number, "number") < 1:
        raise ValueError("number: expected a number from 1 to 2^159 - 1")
    updates = _time(since, "this_update"), _time(next_update, "next_update")
    before = b"" if previous is None else _octets(previous, "previous")

    def prepared(before: bytes, entries: list[tuple[raw.Time, bytes]], number: int) -> bytes:
        asked = issuer.question(Kind.AUTHORITY)
        count = _list_number(number, "number")
        told, octets = raw.prepare_list(raw.wanted_list(asked, before, entries, updates, count))
        issuer.raise_fault(told, _NO_LIST, _of_list(updates[0], issuer.now))
        return octets

    entries = [_revoked(it, since) for it in _each(revoked, "revoked")]
    octets = prepared(before, entries, number or 0)
    if not before:
        return octets
    its = RevocationList(before)
    dropped = set(its.expired(_each(expired, "expired")))
    if not dropped:
        return octets
    # the list before was checked above: this one is made as a first list, of what stays of it
    kept = [_revoked(it, since) for it in its if it not in dropped]
    return prepared(b"", kept + entries, number or its.number + 1)


def complete_list(
    *,
    issuers: Sequence[Octets | Certificate],
    prepared: Octets,
    signature: Octets,
    lists: Sequence[Octets | RevocationList] | None,
    locator: Octets | None,
    at: datetime | None = None,
    strict: bool = True,
    chain_names: bool = True,
) -> RevocationList:
    """Completes a prepared CRL with its signature, and returns the CRL if and only if the issuer's
    key signed what was prepared. The other arguments are as for `prepare_list`; all is checked
    again, at this time.

    Raises RevocationFault with the name BadSignature if the signature isn't valid, and else the
    Fault of what is wrong. Its `argument` is `signature` or `prepared`, unless an issuer is wrong.
    """
    issuer = _Issuer.of(issuers, lists, locator, at, strict, chain_names)
    asked = raw.list_completion(
        issuer.question(Kind.AUTHORITY),
        _bytes(prepared, "prepared"),
        _bytes(signature, "signature"),
    )
    told, octets = raw.complete_list(asked)
    issuer.raise_fault(told, _NO_LIST, _COMPLETED)
    return RevocationList(octets)
