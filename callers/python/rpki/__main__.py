"""What the package does, from the shell: prints what certificates and revocation lists in DER hold,
by the members of `rpki show -j`, or the verdict on a path.

usage: python3 -m rpki FILE..
       python3 -m rpki path YYYY-MM-DD LAST MEMBER..
           validates a path, whose names have to chain: LAST is authority, ee, detached or router
       python3 -m rpki with LIST[,LIST].. YYYY-MM-DD LAST MEMBER..
           the same, with revocation lists
       python3 -m rpki locator LOCATOR YYYY-MM-DD LAST MEMBER..
           the same, with a trust anchor locator, whose key the anchor has to have

Ends with 0; with 1 where a file is neither, or the path is rejected; and with 2 where the words are
not as above, a file can't be read, or the answer can't be written.
"""

from __future__ import annotations

import base64
import hashlib
import json
import os
import re
import sys
from collections.abc import Sequence
from datetime import datetime, timezone
from typing import Any

from . import (
    INHERIT,
    Addresses,
    AsNumbers,
    Certificate,
    DecodeFault,
    Fault,
    Inherit,
    InspectionFault,
    Kind,
    RevocationList,
    validate,
)
from ._names import values

MOST = 64 << 20  # octets of a file
LAST = {
    "authority": Kind.AUTHORITY,
    "ee": Kind.END_ENTITY,
    "detached": Kind.DETACHED,
    "router": Kind.ROUTER,
}
KINDS = ("ta", "ca", "ee", "detached_ee", "router")
URIS = {
    "ca_issuer": "aia",
    "crl": "crl",
    "repository": "carepository",
    "manifest": "manifest",
    "signed_object": "signed_object",
    "notify": "notify_url",
}
ATTRIBUTES = {
    b"\x55\x04\x03": "CN",
    b"\x55\x04\x05": "serialNumber",
    b"\x55\x04\x06": "C",
    b"\x55\x04\x0a": "O",
    b"\x55\x04\x0b": "OU",
}
Item = dict[str, Any]


def name(der: bytes) -> str:
    """A name as `rpki show` prints it."""

    def attribute(content: bytes) -> str:
        (_, kind, _), (_, value, _) = values(content)
        return ATTRIBUTES.get(kind, "oid:" + kind.hex().upper()) + "=" + value.decode("latin-1")

    ((_, parts, _),) = values(der)
    return ", ".join(
        "+".join(attribute(one.content) for one in values(part)) for _, part, _ in values(parts)
    )


def seconds(moment: datetime) -> int:
    return int(moment.timestamp())


def serial(number: int) -> str:
    return number.to_bytes(max(1, (number.bit_length() + 7) // 8), "big").hex().upper()


def identifier(key: bytes) -> str:
    return key.hex(":").upper()


def systems(held: AsNumbers | Inherit | None) -> list[Item]:
    if isinstance(held, Inherit):
        return [{"as_inherit": str(INHERIT)}]
    return [
        {"asid": it[0]} if len(it) == 1 else {"asrange": {"min": it[0], "max": it[-1]}}
        for it in held or ()
    ]


def blocks(held: Addresses[Any] | Inherit | None, family: int) -> list[Item]:
    if isinstance(held, Inherit):
        return [{f"ip{family}_inherit": str(INHERIT)}]
    found: list[Item] = []
    for first, last in held.ranges if held else ():
        networks = list(Addresses(((first, last),)))
        if len(networks) == 1:
            found.append({"ip_prefix": str(networks[0])})
        else:
            found.append({"ip_range": {"min": str(first), "max": str(last)}})
    return found


def fault_of(it: Certificate, kind: Kind) -> str:
    try:
        it.inspect(kind)
    except InspectionFault as fault:
        return fault.name
    return "OK"


def certificate(octets: bytes) -> Item:
    it = Certificate(octets)
    profiles = {key: fault_of(it, kind) for key, kind in zip(KINDS, Kind)}
    out = {
        "type": "ca_cert" if it.is_authority else "ee_cert",
        "cert_serial": serial(it.serial_number),
        "cert_issuer": name(it.issuer),
        "cert_subject": name(it.subject),
        "valid_since": seconds(it.not_before),
        "valid_until": seconds(it.not_after),
        "ski": identifier(it.subject_key_identifier),
        "key_usage": "ca" if it.signs_certificates else "ee",
        "overclaim": "trim" if it.trims_resources else "reject",
        "subordinate_resources": systems(it.as_numbers) + blocks(it.ipv4, 4) + blocks(it.ipv6, 6),
        "profiles": profiles,
    }
    if it.authority_key_identifier:
        out["aki"] = identifier(it.authority_key_identifier)
    if profiles["router"] == "OK":
        out["type"] = "router_key"
    out.update({URIS[key]: uri for key, uri in it.uris.items()})
    return out


def revocation_list(octets: bytes) -> Item:
    it = RevocationList(octets)
    return {
        "type": "crl",
        "crl_issuer": name(it.issuer),
        "aki": identifier(it.authority_key_identifier),
        "crl_serial": serial(it.number),
        "valid_since": seconds(it.this_update),
        "valid_until": seconds(it.next_update),
        "revoked_certs": [
            {"serial": serial(one.serial_number), "date": seconds(one.revoked_at)} for one in it
        ],
    }


def show(file: str) -> Item:
    octets = contents(file)
    out: Item = {"file": file, "hash_id": base64.b64encode(hashlib.sha256(octets).digest()).decode()}
    try:
        return out | certificate(octets) | {"signature": "not checked"}
    except DecodeFault as fault:
        try:
            return out | revocation_list(octets) | {"signature": "not checked"}
        except DecodeFault:
            return out | {"fault": fault.name}


def path(
    day: str,
    last: str,
    files: Sequence[str],
    lists: Sequence[str] | None = None,
    locator: str | None = None,
) -> Item:
    if last not in LAST:
        raise ValueError(f"{last}: the last member is authority, ee, detached or router")
    at = moment(day)
    members = [contents(file) for file in files]
    given = None if lists is None else [contents(file) for file in lists]
    key = None if locator is None else contents(locator)
    try:
        held = validate(members, last=LAST[last], lists=given, locator=key, at=at)
    except Fault as fault:
        place = {"member": fault.member}
        if fault.revocation_list is not None:
            place = {"list": fault.revocation_list}
        why = place | {"fault": fault.name, "sentence": fault.sentence}
        return {"accepted": False, "rejected": why}
    holds = systems(held.as_numbers) + blocks(held.ipv4, 4) + blocks(held.ipv6, 6)
    return {"accepted": True, "holds": holds}


def moment(day: str) -> datetime:
    """The beginning of a day that is written YYYY-MM-DD."""
    if not re.fullmatch("[0-9]{4}-[0-9]{2}-[0-9]{2}", day):
        raise ValueError(f"{day}: the day isn't YYYY-MM-DD")
    try:
        return datetime.strptime(day, "%Y-%m-%d").replace(tzinfo=timezone.utc)
    except ValueError as error:
        raise ValueError(f"{day}: there is no such day") from error


def contents(file: str) -> bytes:
    """The octets of a file, which has some, and at most MOST."""
    with open(file, "rb") as it:
        octets = it.read(MOST + 1)
    if not octets:
        raise ValueError(f"{file}: the file is empty")
    if len(octets) > MOST:
        raise ValueError(f"{file}: the file has more than 64 MiB")
    return octets


def run(words: Sequence[str]) -> bool:
    """Prints what the words ask, and tells whether the path is accepted, or each file was read."""
    if words[0] == "path":
        day, last, *members = words[1:]
        verdict = path(day, last, members)
    elif words[0] == "with":
        lists, day, last, *members = words[1:]
        verdict = path(day, last, members, lists.split(","))
    elif words[0] == "locator":
        locator, day, last, *members = words[1:]
        verdict = path(day, last, members, locator=locator)
    else:
        all_read = True
        for file in words:
            shown = show(file)
            print(json.dumps(shown, indent=2, sort_keys=True))
            all_read = all_read and "fault" not in shown
        return all_read
    print(json.dumps(verdict))
    return bool(verdict["accepted"])


def main(words: Sequence[str]) -> int:
    """Does what the words ask, and gives the exit status."""
    if not words or len(words) < {"path": 4, "with": 5, "locator": 5}.get(words[0], 1):
        print(__doc__, file=sys.stderr)
        return 2
    try:
        is_good = run(words)
        flush()
        return 0 if is_good else 1
    except (Fault, OSError, ValueError) as error:
        print(f"rpki: {error}", file=sys.stderr)
        return 2


def flush() -> None:
    """Writes what is still held back. What can't be written isn't tried once more at the end."""
    try:
        print(end="", flush=True)
    except OSError:
        os.dup2(os.open(os.devnull, os.O_WRONLY), sys.stdout.fileno())
        raise


if __name__ == "__main__":
    sys.exit(main(sys.argv[1:]))
