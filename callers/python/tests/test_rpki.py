"""Tests the package over the files of examples/, whose contents examples/make.sh says, and of
tests/files.

    PYTHONPATH=callers/python RPKI_LIBRARY=FOLDER python3 -m unittest discover -s callers/python/tests
"""

import base64
import copy
import functools
import io
import ipaddress
import json
import os
import pickle
import random
import re
import shutil
import subprocess
import sys
import tempfile
import threading
import time
import unittest
from datetime import datetime, timedelta, timezone, tzinfo
from pathlib import Path
from typing import Any, cast
from unittest import mock

import rpki
from rpki import (
    INHERIT,
    AsNumbers,
    Certificate,
    Entry,
    FaultCode,
    Kind,
    LimitedCa,
    Line,
    RevocationList,
    State,
    judge_folder,
)
from rpki import _library as raw
from rpki.__main__ import certificate
from rpki._names import text_of

# most tests check neither the TAL's key nor, where they issue, CRLs
validate: Any = functools.partial(rpki.validate, locator=None)
unchecked: dict[str, Any] = {"lists": None, "locator": None}
prepare: Any = functools.partial(rpki.prepare, **unchecked)
complete: Any = functools.partial(rpki.complete, **unchecked)
prepare_list: Any = functools.partial(rpki.prepare_list, **unchecked)
complete_list: Any = functools.partial(rpki.complete_list, **unchecked)

TOP = Path(__file__).resolve().parents[3]
COMMAND = TOP / "crates" / "rpki_command" / "out" / "rpki_command"
BEGIN, END = datetime(2026, 1, 1, tzinfo=timezone.utc), datetime(2036, 1, 1, tzinfo=timezone.utc)
SITE = "rsync://rpki.example.net/repo"


def octets(name: str) -> bytes:
    return (TOP / "examples" / name).read_bytes()


def certificates(*names: str) -> list[bytes]:
    return [octets(f"{name}.cer") for name in names]


class Certificates(unittest.TestCase):
    def test_fields(self) -> None:
        it, anchor = Certificate(octets("first.cer")), Certificate(octets("anchor.cer"))
        self.assertEqual(it.serial_number, 2)
        self.assertEqual((it.not_before, it.not_after), (BEGIN, END))
        self.assertEqual(it.issuer, anchor.subject)
        self.assertEqual(it.authority_key_identifier, anchor.subject_key_identifier)
        self.assertTrue(it.is_authority and it.signs_certificates)
        self.assertFalse(it.trims_resources)
        self.assertEqual(
            it.uris,
            {
                "ca_issuer": f"{SITE}/anchor.cer",
                "crl": f"{SITE}/anchor/anchor.crl",
                "repository": f"{SITE}/first/",
                "manifest": f"{SITE}/first/first.mft",
                "notify": "https://rpki.example.net/notification.xml",
            },
        )

    def test_listed_resources(self) -> None:
        it = Certificate(octets("first.cer"))
        assert isinstance(it.ipv4, rpki.Addresses) and isinstance(it.ipv6, rpki.Addresses)
        networks = ["10.0.0.0/12", "10.32.0.0/13", "10.40.0.0/16"]
        self.assertEqual(list(it.ipv4), list(map(ipaddress.ip_network, networks)))
        self.assertEqual(str(it.ipv6), "2001:db8::/40")
        self.assertEqual(it.as_numbers, AsNumbers((range(64500, 64504), range(64510, 64511))))
        self.assertEqual(str(it.as_numbers), "AS64500-AS64503, AS64510")

    def test_membership(self) -> None:
        it = Certificate(octets("first.cer"))
        assert isinstance(it.ipv4, rpki.Addresses) and isinstance(it.as_numbers, AsNumbers)
        for inside in ("10.0.0.0", "10.15.255.255", "10.32.0.0", "10.40.255.255"):
            self.assertIn(ipaddress.ip_address(inside), it.ipv4)
        for outside in ("9.255.255.255", "10.16.0.0", "10.41.0.0", "::a00:0"):
            self.assertNotIn(ipaddress.ip_address(outside), it.ipv4)
        self.assertIn(ipaddress.ip_network("10.32.0.0/13"), it.ipv4)
        self.assertNotIn(ipaddress.ip_network("10.0.0.0/8"), it.ipv4)
        self.assertTrue(64503 in it.as_numbers and 64504 not in it.as_numbers)
        none: Any
        for none in (10, None, b"10.0.0.0", 10.0):
            with self.assertRaisesRegex(TypeError, "expected an address, a network or a text"):
                self.assertNotIn(none, it.ipv4)
        for none in ("64500", 64500.0, True, None):
            with self.assertRaisesRegex(TypeError, "an AS number: expected a number"):
                self.assertNotIn(none, it.as_numbers)

    def test_values(self) -> None:
        it, same = (Certificate(octets("first.cer")) for _ in range(2))
        self.assertEqual((it, hash(it), repr(it)), (same, hash(same), "<rpki.Certificate 2>"))
        self.assertNotEqual(it, Certificate(octets("anchor.cer")))
        self.assertEqual(repr(RevocationList(octets("revoked.crl"))), "<rpki.RevocationList 2>")
        self.assertEqual(str(INHERIT), "inherit")
        # what is changed of a dict changes no certificate
        it.uris.clear()
        self.assertEqual(it.uris, same.uris)
        self.assertIn("crl", it.uris)

    def test_shown(self) -> None:
        """As `rpki show -j` has the members of these (docs/rpki-json.5.md)."""
        shown = certificate(octets("second.cer"))
        inherits = ({"as_inherit": "inherit"}, {"ip4_inherit": "inherit"}, {"ip6_inherit": "inherit"})
        self.assertEqual(shown["subordinate_resources"], list(inherits))
        router = certificate((TOP / "tests" / "files" / "router.cer").read_bytes())
        self.assertEqual((router["type"], router["profiles"]["router"]), ("router_key", "OK"))

    @unittest.skipUnless(COMMAND.exists(), "the command isn't built")
    def test_shown_as_by_the_command(self) -> None:
        """What `python3 -m rpki` prints of a certificate and `rpki show -j` too is alike."""
        names = ["ta", "ca1", "ca2", "ee", "router", "trim", "odd_inherit_v4", "odd_only_as"]
        for name in names:
            file = TOP / "tests" / "files" / f"{name}.cer"
            done = subprocess.run([COMMAND, "show", "-j", file], check=True, capture_output=True)
            wanted, shown = json.loads(done.stdout), certificate(file.read_bytes())
            both = wanted.keys() & shown.keys()
            self.assertLessEqual(shown.keys() - both, {"profiles"})
            self.assertEqual({it: shown[it] for it in both}, {it: wanted[it] for it in both})

    def test_kind_by_basic_constraints(self) -> None:
        """Whether it is a CA is told by Basic Constraints, and not by the key usage."""
        given = octets("first.cer")
        fields = (("is_authority", "type", "ee_cert"), ("key_usage", "key_usage", "ee"))
        for field, member, value in fields:
            read = raw.certificate(given)
            setattr(read, field, 1 - getattr(read, field))
            with mock.patch.object(raw, "certificate", return_value=read):
                it, shown = Certificate(given), certificate(given)
            self.assertEqual(it.is_authority, field != "is_authority")
            self.assertEqual(it.signs_certificates, field != "key_usage")
            usual = {"type": "ca_cert", "key_usage": "ca"}
            self.assertEqual({it: shown[it] for it in usual}, usual | {member: value})

    def test_inherited_and_missing_resources(self) -> None:
        inherits, misses = Certificate(octets("second.cer")), Certificate(octets("object.cer"))
        self.assertEqual([inherits.ipv4, inherits.ipv6, inherits.as_numbers], [INHERIT] * 3)
        self.assertEqual([misses.ipv6, misses.as_numbers], [None, None])

    def test_profiles(self) -> None:
        it = Certificate(octets("object.cer"))
        self.assertTrue(it.meets(Kind.END_ENTITY))
        with self.assertRaises(rpki.InspectionFault) as caught:
            it.inspect(Kind.AUTHORITY)
        self.assertTrue(300 <= caught.exception.number < 400)

    def test_numbers_as_modes_and_kinds(self) -> None:
        it = Certificate((TOP / "tests" / "files" / "odd_name_utf8.cer").read_bytes())
        kind = next(kind for kind in Kind if it.meets(kind, strict=False))
        self.assertFalse(it.meets(kind, True))
        for strict in (1, 0, 256, 1 << 32, 1 << 64, "", "no", None):
            with self.assertRaisesRegex(TypeError, "^strict: expected True or False, not "):
                it.meets(kind, cast(Any, strict))
        for none in (kind.value, float(kind.value), True, 5, INHERIT, None, "AUTHORITY"):
            with self.assertRaisesRegex(TypeError, "^kind: expected a Kind, not "):
                it.meets(cast(Any, none), strict=False)

    def test_other_octets(self) -> None:
        for other in (b"", b"\x30\x00", octets("first.crl"), octets("first.cer")[:-1]):
            with self.assertRaises(rpki.DecodeFault):
                Certificate(other)
        self.assertEqual(Certificate(octets("first.cer") + b"more").serial_number, 2)

    def test_values_that_lend_octets(self) -> None:
        mutable = bytearray(octets("first.cer"))
        it = Certificate(mutable)
        words = memoryview(mutable + bytes(-len(mutable) % 4)).cast("I")
        self.assertEqual(Certificate(words).octets, words.tobytes())
        mutable.clear()
        self.assertEqual(it.octets, octets("first.cer"))
        for other in (5, True, None, "text", list(octets("first.cer"))):
            for read in (Certificate, RevocationList):
                with self.assertRaises(TypeError):
                    read(cast(Any, other))


def der(tag: int, *parts: bytes) -> bytes:
    content = b"".join(parts)
    if len(content) < 128:
        return bytes([tag, len(content)]) + content
    octets = len(content).to_bytes((len(content).bit_length() + 7) // 8, "big")
    return bytes([tag, 128 | len(octets)]) + octets + content


class Names(unittest.TestCase):
    def test_examples(self) -> None:
        for name in ("anchor.cer", "object.cer", "revoked.crl"):
            is_list, given = name.endswith("crl"), octets(name)
            it: Certificate | RevocationList
            it = RevocationList(given) if is_list else Certificate(given)
            command = ["crl" if is_list else "x509", "-inform", "DER", "-noout"]
            said = openssl(*command, "-issuer", "-nameopt", "RFC2253", given=it.octets).decode()
            self.assertEqual(f"issuer={it.issuer_text}", said.strip())
            if isinstance(it, Certificate):
                said = openssl(*command, "-subject", "-nameopt", "RFC2253", given=it.octets).decode()
                self.assertEqual(f"subject={it.subject_text}", said.strip())

    def test_strings(self) -> None:
        """The examples of RFC 4514 4, and what 2.4 there asks to be escaped."""
        identifiers = {
            "CN": der(6, b"\x55\x04\x03"),
            "OU": der(6, b"\x55\x04\x0b"),
            "UID": der(6, bytes.fromhex("0992268993f22c640101")),
            "DC": der(6, bytes.fromhex("0992268993f22c640119")),
            "1.3.6.1.4.1.1466.0": der(6, bytes.fromhex("2b060104018b3a00")),
        }

        def part(**attributes: bytes) -> bytes:
            pairs = (der(0x30, identifiers[name], value) for name, value in attributes.items())
            return der(0x31, *pairs)

        def text(value: str, tag: int = 0x0C) -> bytes:
            return der(tag, value.encode("latin-1" if tag == 0x14 else "utf-8"))

        net, example = part(DC=text("net", 0x16)), part(DC=text("example", 0x16))
        odd = der(0x31, der(0x30, identifiers["1.3.6.1.4.1.1466.0"], der(4, b"Hi")))
        wanted: list[tuple[str, list[bytes]]] = [
            ("UID=jsmith,DC=example,DC=net", [net, example, part(UID=text("jsmith"))]),
            (
                "OU=Sales+CN=J.  Smith,DC=example,DC=net",
                [net, example, part(OU=text("Sales"), CN=text("J.  Smith"))],
            ),
            (
                'CN=James \\"Jim\\" Smith\\, III,DC=example,DC=net',
                [net, example, part(CN=text('James "Jim" Smith, III'))],
            ),
            (
                "CN=Before\\0DAfter,DC=example,DC=net",
                [net, example, part(CN=text("Before\rAfter"))],
            ),
            ("1.3.6.1.4.1.1466.0=#04024869", [odd]),
            ("CN=Lu\u010di\u0107", [part(CN=text("Lu\u010di\u0107"))]),
            ("CN=\\ a \\ ", [part(CN=text(" a  "))]),
            ("CN=\\#1\\;\\<\\>\\\\", [part(CN=text("#1;<>\\"))]),
            ("CN=\u00e9", [part(CN=text("\u00e9", 0x14))]),
            ("CN=\\E2\\80\\AE\\00", [part(CN=text("\u202e\0"))]),
            ("CN=#0C01FF", [part(CN=der(0x0C, b"\xff"))]),
            ("", []),
        ]
        for name, parts in wanted:
            self.assertEqual(text_of(der(0x30, *parts)), name)


    def test_long_values(self) -> None:
        kind = der(6, b"\x55\x04\x03")
        for count in (0, 1, 127, 128, 255, 256, 300, 70_000):
            name = der(0x30, der(0x31, der(0x30, kind, der(0x0C, b"a" * count))))
            self.assertEqual(text_of(name), "CN=" + "a" * count)
        # a tag of several octets (X.690 8.1.2.4), and the identifier {2 100 3} (X.690 8.19.5)
        tagged = b"\x1f\x81\x01\x01J"
        for identifier, text in ((kind, "CN"), (der(6, b"\x81\x34\x03"), "2.100.3")):
            name = der(0x30, der(0x31, der(0x30, identifier, tagged)))
            self.assertEqual(text_of(name), f"{text}=#1F8101014A")


class Lists(unittest.TestCase):
    def test_fields(self) -> None:
        it, signer = RevocationList(octets("revoked.crl")), Certificate(octets("first.cer"))
        self.assertEqual((it.number, it.this_update, it.next_update), (2, BEGIN, END))
        self.assertEqual(it.issuer, signer.subject)
        self.assertEqual(it.authority_key_identifier, signer.subject_key_identifier)

    def test_entries(self) -> None:
        it = RevocationList(octets("revoked.crl"))
        self.assertEqual(list(it), [Entry(3, datetime(2026, 2, 1, tzinfo=timezone.utc))])
        self.assertEqual(len(it), 1)
        self.assertTrue(3 in it and Certificate(octets("second.cer")) in it)
        for other in (2, -3, 3 + (1 << 160)):
            self.assertNotIn(other, it)
        self.assertEqual(len(RevocationList(octets("first.crl"))), 0)
        for none in ("3", None, b"3"):
            with self.assertRaises(TypeError):
                self.assertNotIn(cast(Any, none), it)

    def test_many_questions(self) -> None:
        it = RevocationList(octets("revoked.crl"))
        asked: list[int | Certificate] = [3, 2, -3, 3 + (1 << 160), 3]
        asked.append(Certificate(octets("second.cer")))
        wanted = [True, False, False, False, True, True]
        self.assertEqual(it.revoked(asked), wanted)
        # the first two by the library, the others by the set of serial numbers
        self.assertEqual([number in it for number in asked], wanted)
        self.assertEqual(it.serial_numbers, {3})
        self.assertEqual(it.revoked([]), [])
        same = RevocationList(octets("revoked.crl"))
        self.assertEqual((it, hash(it)), (same, hash(same)))
        self.assertNotEqual(it, RevocationList(octets("first.crl")))

    def test_other_octets(self) -> None:
        with self.assertRaises(rpki.DecodeFault):
            RevocationList(octets("first.cer"))


class Library(unittest.TestCase):
    """What the library answers, by stand-ins of its calls, and libraries that are none."""

    def test_no_memory(self) -> None:
        def judged(_question: Any, _room: Any, out: Any) -> int:
            out._obj.fault = 1
            return 1

        calls: list[tuple[str, Any, Any]] = [
            ("rpki_certificate_read", lambda *_: 1, lambda: Certificate(octets("first.cer"))),
            ("rpki_list_read", lambda *_: 1, lambda: RevocationList(octets("first.crl"))),
            (
                "rpki_path_validate",
                judged,
                lambda: validate([octets("anchor.cer")], last=Kind.AUTHORITY, lists=None),
            ),
        ]
        for name, stand_in, ask in calls:
            with mock.patch.object(raw.lib, name, stand_in), self.assertRaises(MemoryError):
                ask()

        for call, name in (
            ("certificate_name", "issuer"),
            ("certificate_name", "issuer_text"),
            ("certificate_name", "subject"),
            ("certificate_name", "subject_text"),
            ("certificate_addresses", "ipv4"),
            ("certificate_addresses", "ipv6"),
            ("certificate_as_numbers", "as_numbers"),
            ("certificate_uri", "uris"),
            ("certificate_key", "public_key"),
            ("certificate_key", "has_usable_key"),
        ):
            it = Certificate(octets("first.cer"))
            with mock.patch.object(raw.lib, f"rpki_{call}", lambda *_: 1):
                with self.assertRaises(MemoryError):
                    getattr(it, name)
            # it isn't kept that there was none
            self.assertTrue(getattr(it, name))
        asks: list[tuple[str, Any]] = [
            ("list_issuer", lambda crl: crl.issuer),
            ("list_issuer", lambda crl: crl.issuer_text),
            ("list_entries", list),
            ("list_entries", lambda crl: crl.serial_numbers),
            ("list_ask", lambda crl: crl.revoked([3])),
            ("list_ask", lambda crl: 3 in crl),
        ]
        for call, ask in asks:
            crl = RevocationList(octets("revoked.crl"))
            with mock.patch.object(raw.lib, f"rpki_{call}", lambda *_: 1):
                with self.assertRaises(MemoryError):
                    ask(crl)
            self.assertTrue(ask(crl))

    def test_other_libraries(self) -> None:
        maps = Path("/proc/self/maps").read_text().split()
        libc = next(it for it in maps if Path(it).name.startswith("libc.so"))
        with tempfile.TemporaryDirectory() as folder:
            for target, said in ((None, "can't be loaded"), (libc, "isn't librpki")):
                if target:
                    Path(folder, "librpki.so").symlink_to(target)
                environment = {**os.environ, "RPKI_LIBRARY": folder}
                environment["PYTHONPATH"] = str(TOP / "callers" / "python")
                command = [sys.executable, "-c", "import rpki"]
                done = subprocess.run(command, env=environment, capture_output=True)
                self.assertIn("ImportError", done.stderr.decode())
                self.assertIn(said, done.stderr.decode())
        # one of an older or a newer interface
        for other in (raw.ABI - 1, raw.ABI + 1):
            with mock.patch.object(raw, "ABI", other):
                with self.assertRaisesRegex(ImportError, "isn't of the version of this package: "):
                    raw._load()


class Paths(unittest.TestCase):
    members = certificates("anchor", "first", "second", "object")
    lists = [octets(name) for name in ("first.crl", "second.crl", "object.crl")]
    noon = datetime(2026, 6, 1, 12, tzinfo=timezone.utc)

    def test_accepted(self) -> None:
        locator = octets("anchor.tal")
        held = validate(
            self.members, last=Kind.END_ENTITY, lists=self.lists, locator=locator, at=self.noon
        )
        self.assertEqual(list(held.ipv4), [ipaddress.ip_network("10.1.2.0/24")])
        self.assertFalse(held.ipv6 or held.as_numbers)

    def test_many_ranges(self) -> None:
        """More than are guessed at first: make.py says what tests/files/wide holds."""
        file = TOP / "tests" / "files" / "wide" / "ta.cer"
        held = validate([file], last=Kind.AUTHORITY, lists=None, at=self.noon)
        for ranges in (held.ipv4.ranges, held.ipv6.ranges, held.as_numbers.ranges):
            self.assertEqual(len(ranges), 4097)
        self.assertIn("10.32.0.0/24", held.ipv4)
        self.assertTrue(held.allows(65536, "2001:db8:2::/48"))
        self.assertFalse(held.allows(65537) or held.allows(None, "2001:db8:1::/48"))

    def test_room_of_each_kind(self) -> None:
        """Too little room for one kind alone is made good, too."""
        file = TOP / "tests" / "files" / "wide" / "ta.cer"
        real = raw.room_for
        whole = validate([file], last=Kind.AUTHORITY, lists=None, at=self.noon)
        for rooms in ((64, 5000, 5000), (5000, 64, 5000), (5000, 5000, 64)):
            made = [real(*rooms), real(5000, 5000, 5000)]
            with mock.patch.object(raw, "room_for", side_effect=made):
                held = validate([file], last=Kind.AUTHORITY, lists=None, at=self.noon)
            self.assertEqual(held, whole)

    def test_now_is_of_utc(self) -> None:
        """Without `at`, a machine's time zone changes nothing."""
        try:
            with mock.patch.dict(os.environ, {"TZ": "WEST+12"}):
                time.tzset()
                with mock.patch.object(raw, "question", side_effect=KeyError) as asked:
                    with self.assertRaises(KeyError):
                        validate(self.members, last=Kind.END_ENTITY, lists=None)
        finally:
            time.tzset()
        it = asked.call_args.args[2]
        parts = (it.year, it.month, it.day, it.hour, it.minute, it.second)
        now = datetime.now(timezone.utc)
        self.assertLess(now - datetime(*parts, tzinfo=timezone.utc), timedelta(hours=1))

    def test_calls(self) -> None:
        """A path is judged once; only if there are more ranges than are guessed at, once more."""
        wide = TOP / "tests" / "files" / "wide" / "ta.cer"
        few = (self.members, Kind.END_ENTITY, 1)
        for members, last, calls in (few, ([wide], Kind.AUTHORITY, 2)):
            real = raw.lib.rpki_path_validate
            with mock.patch.object(raw.lib, "rpki_path_validate", wraps=real) as asked:
                validate(cast(Any, members), last=last, lists=None, at=self.noon)
            self.assertEqual(asked.call_count, calls)

    def test_inherited(self) -> None:
        held = validate(self.members[:3], last=Kind.AUTHORITY, lists=None, at=self.noon)
        listed = Certificate(self.members[1])
        self.assertEqual((held.ipv4, held.ipv6), (listed.ipv4, listed.ipv6))
        self.assertEqual(held.as_numbers, listed.as_numbers)

    def test_last_key(self) -> None:
        """The keys of tests/files/keyed, of which make.py there says."""
        folder = TOP / "tests" / "files" / "keyed"
        day = datetime(2025, 6, 1, tzinfo=timezone.utc)
        for name, kind, is_used in (
            ("ca_2048", Kind.AUTHORITY, True),
            ("ca_1024", Kind.AUTHORITY, False),
            ("ee_2048", Kind.END_ENTITY, True),
            ("ee_1024", Kind.END_ENTITY, False),
            ("ee_3072", Kind.END_ENTITY, False),
            ("ee_exponent_3", Kind.END_ENTITY, False),
            ("router", Kind.ROUTER, True),
            ("router_compressed", Kind.ROUTER, False),
        ):
            file = folder / f"{name}.cer"
            members, asked = [folder / "ta.cer", file], {"lists": None, "at": day}
            if is_used:
                validate(members, last=kind, **asked)
            else:
                with self.assertRaises(rpki.KeyFault) as caught:
                    validate(members, last=kind, **asked)
                fault = caught.exception
                self.assertEqual((fault.code, fault.member), (FaultCode.BAD_KEY, 1))
            validate(members, last=kind, check_key=False, **asked)
            it = Certificate(file)
            self.assertEqual(it.has_usable_key, is_used)
            pem = openssl("x509", "-inform", "DER", "-pubkey", "-noout", given=it.octets)
            der = base64.b64decode(b"".join(pem.splitlines()[1:-1]))
            self.assertEqual(it.public_key, der)
        with self.assertRaisesRegex(TypeError, "^check_key: expected True or False"):
            validate(members, last=kind, check_key=cast(Any, 0), **asked)

    def test_list_names(self) -> None:
        """The lists of tests/files/nobody, of which make.py there says."""
        folder = TOP / "tests" / "files" / "nobody"
        members = [folder / "ta.cer", folder / "ca.cer"]
        asked: dict[str, Any] = {"last": Kind.AUTHORITY, "at": datetime(2025, 6, 1, tzinfo=timezone.utc)}
        for names, wanted, waived in (
            (["newer"], "WrongIssuer", None),
            (["newer_revoking"], "WrongIssuer", "Revoked"),
            (["newer_stale"], "WrongIssuer", "Stale"),
            (["newer_forged"], "NoCrl", "BadSignature"),
            (["newer", "plain"], None, None),
            (["newer", "revoking"], "Revoked", None),
            (["newer_revoking", "plain"], None, "Revoked"),
        ):
            for order in (names, names[::-1]):
                lists = [folder / f"{name}.crl" for name in order]
                for chain_names, name in ((True, wanted), (False, waived)):
                    how = {**asked, "lists": lists, "chain_names": chain_names}
                    if name is None:
                        validate(members, **how)
                    else:
                        self.rejects(name, rpki.RevocationFault, 1, members, **how)

    def test_read_members(self) -> None:
        members = [Certificate(it) for it in self.members]
        lists = [RevocationList(it) for it in self.lists]
        self.assertTrue(validate(members, last=Kind.DETACHED, lists=lists, at=self.noon).ipv4)

    def test_values_that_lend_octets(self) -> None:
        members = [bytearray(it) for it in self.members]
        lists = [memoryview(it) for it in self.lists]
        key = memoryview(octets("anchor.tal"))
        asked: dict[str, Any] = {"last": Kind.END_ENTITY, "at": self.noon}
        self.assertTrue(validate(members, lists=lists, locator=key, **asked).ipv4)
        for other in (5, None, "text", "", False):
            with self.assertRaises(TypeError):
                validate([cast(Any, other)], lists=None, **asked)
            with self.assertRaises(TypeError):
                validate(self.members, lists=[cast(Any, other)], **asked)
        for no_locator in (5, "text", "", False):
            with self.assertRaises(TypeError):
                validate(self.members, lists=None, locator=cast(Any, no_locator), **asked)

    def test_files_and_texts(self) -> None:
        asked: dict[str, Any] = {"last": Kind.END_ENTITY, "lists": None, "at": self.noon}
        names = [f"{name}.cer" for name in ("anchor", "first", "second", "object")]
        paths = [TOP / "examples" / name for name in names]
        self.assertTrue(validate(paths, **asked).ipv4)
        with open(paths[0], "rb") as anchor:
            self.assertTrue(validate([anchor, *paths[1:]], **asked).ipv4)
        with open(paths[0]) as opened, self.assertRaisesRegex(TypeError, r"^members\[0\]: the file is open"):
            validate([opened, *paths[1:]], **asked)
        self.assertEqual(Certificate(paths[1]).octets, self.members[1])
        with self.assertRaises(FileNotFoundError):
            Certificate(Path("none.cer"))
        for text in (io.StringIO("text"), mock.Mock(**{"read.return_value": "text"})):
            with self.assertRaisesRegex(TypeError, "^octets: the file is open in text mode"):
                Certificate(cast(Any, text))
        wrong: list[tuple[str, Any, dict[str, Any]]] = [
            (r"^members\[1\]: expected bytes or a Path, not str; ", [paths[0], "a.cer"], {}),
            (r"^members: expected a list, not str; ", "a.cer", {}),
            (r"^members: expected a list, not PosixPath; ", paths[0], {}),
            (r"^lists\[0\]: expected bytes or a Path, not str; ", paths, {"lists": ["a.crl"]}),
            (r"^lists: expected a list, not bytes; ", paths, {"lists": self.lists[0]}),
            (r"^locator: expected bytes or a Path, not int$", paths, {"locator": 5}),
            (r"^last: expected a Kind, not int$", paths, {"last": 2}),
            (r"^strict: expected True or False, not str$", paths, {"strict": "no"}),
            (r"^chain_names: expected True or False, not int$", paths, {"chain_names": 0}),
            (r"^at: expected a datetime with a time zone, not str$", paths, {"at": "2026-06-01"}),
        ]
        for text, members, changes in wrong:
            with self.assertRaisesRegex(TypeError, text):
                validate(members, **(asked | changes))

    def rejects(
        self,
        name: str,
        kind: type[rpki.Fault],
        member: int | None,
        members: Any,
        **asked: Any,
    ) -> None:
        given: dict[str, Any] = {"last": Kind.AUTHORITY, "lists": None, "at": self.noon, **asked}
        with self.assertRaises(kind) as caught:
            validate(members, **given)
        self.assertEqual((caught.exception.name, caught.exception.member), (name, member))
        place = "" if member is None else f"member {member}: "
        said = f"{place}{caught.exception.sentence} ({caught.exception.name})"
        self.assertEqual(str(caught.exception), said)

    def test_rejected(self) -> None:
        path = self.members[:3]
        tampered = [*path[:2], octets("tampered.cer")]
        self.rejects("BadSignature", rpki.VerificationFault, 2, tampered)
        self.rejects("Expired", rpki.VerificationFault, 0, path, at=END + timedelta(seconds=1))
        self.rejects("NotYetValid", rpki.VerificationFault, 0, path, at=BEGIN - timedelta(1))
        revoking = [self.lists[0], octets("revoked.crl")]
        self.rejects("Revoked", rpki.RevocationFault, 2, path, lists=revoking)
        self.rejects("NoCrl", rpki.RevocationFault, 1, path, lists=[])
        folder = TOP / "tests" / "files" / "named"
        named = [(folder / it).read_bytes() for it in ("ta.cer", "ca_other_case.cer")]
        self.rejects("OtherName", rpki.NamesFault, 1, named)
        asked: dict[str, Any] = {"last": Kind.AUTHORITY, "lists": None, "at": self.noon}
        self.assertTrue(validate(named, chain_names=False, **asked))

    def test_locators(self) -> None:
        path = self.members[1:3]
        self.rejects("OtherKey", rpki.LocatorFault, 0, path, locator=octets("anchor.tal"))
        self.rejects("NoUri", rpki.LocatorFault, None, self.members[:1], locator=b"\n")
        # a TAL without a byte is one, and not none
        with self.assertRaises(rpki.LocatorFault):
            validate(self.members[:1], last=Kind.AUTHORITY, lists=None, locator=b"", at=self.noon)
        latin = b"# \xe9\n" + octets("anchor.tal")
        asked: dict[str, Any] = {"last": Kind.AUTHORITY, "locator": latin, "at": self.noon}
        self.assertTrue(validate(self.members[:1], lists=None, strict=False, **asked))
        members = self.members[:1]
        self.rejects("NoText", rpki.LocatorFault, None, members, locator=latin, strict=True)

    def test_faults_go_between_processes(self) -> None:
        faults = [rpki.VerificationFault(408, 2), rpki.DecodeFault(102, None, 1), rpki.Fault(700)]
        faults.append(rpki.IssuingFault(800, argument="key"))
        for it in faults:
            self.assertEqual((it.octet, it.field, it.wanted, it.found), (None, None, None, None))
            for again in (pickle.loads(pickle.dumps(it)), copy.copy(it)):
                self.assertEqual((type(again), str(again)), (type(it), str(it)))
                self.assertEqual(vars(again), vars(it))

    def test_codes(self) -> None:
        self.assertEqual(rpki.VerificationFault(408).code, FaultCode.VERIFICATION_BAD_SIGNATURE)
        # a fault of reading has a number of its own for each part
        missing = [rpki.DecodeFault(number).code for number in (120, 132)]
        self.assertEqual(missing, [FaultCode.DECODE_MISSING] * 2)
        for number in range(120, 220):
            try:
                code = rpki.DecodeFault(number).code
            except raw.Called:
                continue  # no part has this number
            self.assertEqual(code.value, number - number % 20)
        for number in (601, 602, 700):
            self.assertIs(type(rpki._fault(number)), rpki.LocatorFault)
        for code in FaultCode:
            if code not in (FaultCode.MEMORY, FaultCode.BAD_CALL):
                self.assertEqual(rpki.Fault(code).code, code)

    def test_what_is_allowed(self) -> None:
        held = validate(self.members[:2], last=Kind.AUTHORITY, lists=None, at=self.noon)
        network = ipaddress.ip_network("10.0.0.0/12")
        yes: list[tuple[Any, ...]] = [(64500,), (None, "10.0.0.0/12"), (64500, network)]
        no: list[tuple[Any, ...]] = [(1,), (1, network), (64500, "10.0.0.0/11"), (None, "::/0")]
        for words in yes + no:
            self.assertEqual(held.allows(*words), words in yes)
        self.assertTrue(held.ipv4.contains(network) and held.as_numbers.contains(64500))
        for other in (("64500",), (64500.0,), (True,), (None, 10), (), (None, None)):
            with self.assertRaises(TypeError):
                held.allows(*cast("tuple[Any, ...]", other))

    def test_what_is_held(self) -> None:
        held = validate(self.members[:2], last=Kind.AUTHORITY, lists=None, at=self.noon)
        for prefix, number in (("10.0.0.0/12", None), (None, 64500), ("2001:db8::/48", 64510)):
            self.assertTrue(held.allows(number, prefix), (prefix, number))
        for prefix, number in (("10.0.0.0/8", 64500), ("10.0.0.0/12", 64499), ("::/0", None)):
            self.assertFalse(held.allows(number, prefix), (prefix, number))
        inside = ("10.15.255.255", ipaddress.ip_address("10.32.0.0"), "10.40.0.0/16")
        self.assertTrue(all(it in held.ipv4 for it in inside))
        outside = ("10.16.0.0", "9.255.255.255", "10.40.0.0/15", "2001:db8::")
        self.assertFalse(any(it in held.ipv4 for it in outside))
        self.assertEqual(held.ipv4.networks, tuple(held.ipv4))
        self.assertFalse(64509 in held.as_numbers or 0 in held.as_numbers)

    def test_lists_that_are_none(self) -> None:
        with self.assertRaises(rpki.DecodeFault) as caught:
            lists = [self.lists[0], self.members[0]]
            validate(self.members[:2], last=Kind.AUTHORITY, lists=lists, at=self.noon)
        self.assertEqual((caught.exception.member, caught.exception.revocation_list), (None, 1))
        self.assertEqual((caught.exception.octet, caught.exception.field), (8, "the version"))
        # two lists one behind the other, whichever revokes, and an octet behind one
        second, revoked = self.lists[1], octets("revoked.crl")
        for behind in (second + revoked, revoked + second, second + b"\0"):
            with self.assertRaises(rpki.DecodeFault) as caught:
                lists = [self.lists[0], behind]
                validate(self.members[:3], last=Kind.AUTHORITY, lists=lists, at=self.noon)
            it = caught.exception
            self.assertEqual((it.name, it.revocation_list, it.octet), ("Trailing", 1, None))

    def test_where_reading_stops(self) -> None:
        cert = octets("first.cer")
        # 30 82 .. 30 82 .. a0 03 02 01 02, and then the serial number: 02 01 02
        self.assertEqual(cert[13:16], b"\x02\x01\x02")
        damaged = cert[:15] + b"\x80" + cert[16:]
        read: list[tuple[type[Certificate] | type[RevocationList], bytes, int, str]] = [
            (Certificate, damaged, 13, "the serial number"),
            (Certificate, cert[:-1], 0, "the outer SEQUENCE"),
            (Certificate, b"", 0, "the outer SEQUENCE"),
            (RevocationList, cert, 8, "the version"),
        ]
        for kind, given, octet, field in read:
            with self.assertRaises(rpki.DecodeFault) as caught:
                kind(given)
            fault = caught.exception
            self.assertEqual((fault.octet, fault.field), (octet, field))
            again = pickle.loads(pickle.dumps(fault))
            self.assertEqual(vars(again), vars(fault))
        with self.assertRaises(rpki.DecodeFault) as caught:
            path = [self.members[0], damaged]
            validate(path, last=Kind.AUTHORITY, lists=None, at=self.noon)
        fault = caught.exception
        wanted = "an INTEGER that isn't negative, of at most 20 bytes (RFC 5280 4.1.2.2)"
        self.assertEqual((fault.member, fault.octet, fault.wanted), (1, 13, wanted))
        self.assertEqual(fault.found, "a negative number")

    def test_lists_are_asked_for(self) -> None:
        without: Any = rpki.validate
        for given in ({"lists": None}, {"locator": None}, {}):
            with self.assertRaises(TypeError):
                without(self.members, last=Kind.END_ENTITY, at=self.noon, **given)

    def test_wrong_calls(self) -> None:
        wrong: list[tuple[list[bytes], Kind, str]] = [
            ([], Kind.AUTHORITY, "too few members: there are none"),
            (self.members[:1], Kind.END_ENTITY, "too few members: one of Kind.END_ENTITY"),
            (self.members[:1], Kind.ROUTER, "too few members: one of Kind.ROUTER"),
            (self.members[:2], Kind.TRUST_ANCHOR, "the last of several members is to be a"),
        ]
        for members, last, text in wrong:
            with self.assertRaisesRegex(ValueError, text):
                validate(members, last=last, lists=None, at=self.noon)
        with self.assertRaises(ValueError):
            validate(self.members, last=Kind.END_ENTITY, lists=None, at=datetime(2026, 6, 1))
        with self.assertRaisesRegex(TypeError, "^at: expected a datetime with a time zone, not str"):
            validate(self.members, last=Kind.END_ENTITY, lists=None, at="2026-06-01")

    def test_moments_without_offset_or_year(self) -> None:
        class Zone(tzinfo):
            def utcoffset(self, _: datetime | None) -> None:
                return None

            dst = tzname = utcoffset

        west, east = timezone(timedelta(hours=-12)), timezone(timedelta(hours=12))
        none = [datetime(2026, 6, 1, tzinfo=Zone())]
        none += [datetime.max.replace(tzinfo=west), datetime.min.replace(tzinfo=east)]
        for at in none:
            with self.assertRaises(ValueError):
                validate(self.members, last=Kind.END_ENTITY, lists=None, at=at)

    def test_other_time_zones(self) -> None:
        west = timezone(timedelta(hours=-12))
        last_moment = END.astimezone(west)
        held = validate(self.members, last=Kind.END_ENTITY, lists=None, at=last_moment)
        self.assertTrue(held.ipv4)

    def test_threads(self) -> None:
        found: list[bool] = []

        def ask() -> None:
            for _ in range(10):
                held = validate(self.members, last=Kind.END_ENTITY, lists=self.lists, at=self.noon)
                found.append(bool(held.ipv4))

        threads = [threading.Thread(target=ask) for _ in range(4)]
        for thread in threads:
            thread.start()
        for thread in threads:
            thread.join()
        self.assertEqual(found, [True] * 40)


class Folders(unittest.TestCase):
    members = certificates("second", "anchor", "object", "tampered", "first")
    lists = [octets(name) for name in ("object.crl", "first.crl", "second.crl")]
    noon = datetime(2026, 6, 1, 12, tzinfo=timezone.utc)

    def judge(self, given: list[bytes], **asked: Any) -> rpki.Folder:
        options: dict[str, Any] = {"locator": octets("anchor.tal"), "at": self.noon, **asked}
        return judge_folder(given, **options)

    def test_any_order(self) -> None:
        second, anchor, leaf, tampered, first = self.members
        given = [*self.lists, second, anchor, leaf, b"no file", tampered, first]
        ca, ee = Kind.AUTHORITY, Kind.END_ENTITY
        for _ in given:
            given = [*given[1:], given[0]]
            place = given.index
            folder = self.judge(given)
            self.assertTrue(folder.is_whole)
            self.assertEqual(folder.anchor, place(anchor))
            line = dict(zip(given, folder.lines))
            self.assertEqual(line[anchor], Line(State.ANCHOR))
            path = [anchor]
            for at, (member, kind) in enumerate([(first, ca), (second, ca), (leaf, ee)], 1):
                above, path = place(path[-1]), [*path, member]
                held = validate(path, last=kind, lists=self.lists, at=self.noon)
                self.assertEqual(line[member], Line(State.ACCEPTED, at, above, kind=kind, held=held))
            self.assertEqual({line[it].state for it in self.lists}, {State.LIST})
            self.assertEqual(line[b"no file"], Line(State.NEITHER))
            wrong = line[tampered]
            assert wrong.fault is not None
            self.assertEqual((wrong.state, wrong.step, wrong.kind), (State.REJECTED, 2, ca))
            self.assertEqual((wrong.fault.name, wrong.fault.member), ("BadSignature", None))
            valid = [it for it in given if line[it].is_valid]
            self.assertCountEqual(valid, [anchor, first, second, leaf])

    def test_revoked(self) -> None:
        names = ("anchor", "first", "second", "object")
        given = [*certificates(*names), octets("first.crl"), octets("revoked.crl")]
        folder = self.judge(given)
        states = [it.state for it in folder.lines]
        accepted = [State.ANCHOR, State.ACCEPTED, State.REJECTED, State.BELOW_REJECTED]
        self.assertEqual(states, [*accepted, State.LIST, State.LIST])
        self.assertEqual(folder.lines[3], Line(State.BELOW_REJECTED, issuer=2))
        fault = folder.lines[2].fault
        assert isinstance(fault, rpki.RevocationFault)
        self.assertEqual(fault.name, "Revoked")
        self.assertTrue(folder.is_whole)

    def test_names(self) -> None:
        """The names of tests/files/named, of which make.py there says."""
        files = TOP / "tests" / "files" / "named"
        given = [files / it for it in ("ta.cer", "ta.crl", "ca.cer", "ca_other_case.cer")]
        asked: dict[str, Any] = {"locator": files / "ta.tal"}
        asked["at"] = datetime(2025, 6, 1, tzinfo=timezone.utc)
        lines = judge_folder(given, **asked).lines
        self.assertEqual([it.is_valid for it in lines], [True, False, True, False])
        self.assertEqual(lines[3], Line(State.NOT_ISSUED, issuer=0))
        lines = judge_folder(given, chain_names=False, **asked).lines
        self.assertEqual([it.is_valid for it in lines], [True, False, True, True])
        given[0] = files / "ta_of_two_names.cer"
        self.assertTrue(judge_folder(given, chain_names=False, **asked).lines[0].is_valid)
        with self.assertRaises(rpki.NamesFault) as caught:
            judge_folder(given, **asked)
        self.assertEqual((caught.exception.name, caught.exception.member), ("OtherName", 0))

    def test_states(self) -> None:
        """The states are those of enum rpki_fate of the header."""
        header = (TOP / "include" / "rpki.h").read_text()
        fates = re.findall(r"^ +RPKI_LINE_(\w+) = (\d+)", header, re.M)
        self.assertEqual({it.name: it.value for it in State}, {name: int(it) for name, it in fates})

    def test_unjudged(self) -> None:
        """The files of tests/added, of which reference/added.py says: why there is no verdict on the
        last one of these, and which of them is its issuer, also of two copies the first."""
        rows: list[tuple[str, dict[str, Any], State, str]] = [
            ("ta.cer ta.crl a.cer a.crl be.cer", {}, State.NO_ISSUER, ""),
            ("ta.cer ta.crl a.cer a.crl re.cer", {}, State.NOT_ISSUED, "a.cer"),
            ("ta.cer ta.crl a.cer a-own.cer a.crl re.cer", {}, State.NOT_ISSUED, "a.cer a-own.cer"),
            ("ta.cer ta.crl b.cer b.crl be.cer le.cer", {}, State.ISSUER_NOT_CA, "be.cer"),
            ("ta.cer ta.crl b.cer b.crl be.cer", {"depth": 1}, State.NOT_LOOKED_AT, "b.cer"),
            ("ta.cer ta.crl b.cer b.crl be.cer", {"steps": 2}, State.NOT_LOOKED_AT, "b.cer"),
            ("ta.cer b.cer b.crl be.cer", {}, State.BELOW_REJECTED, "b.cer"),
            ("ta.cer ta.crl b-c.cer c.crl ce.cer", {}, State.BELOW_UNSEEN, "b-c.cer"),
        ]
        asked: dict[str, Any] = {"at": datetime(2025, 6, 1, tzinfo=timezone.utc)}
        files = TOP / "tests" / "added"
        asked["locator"] = files / "ta.tal"
        for words, bounds, state, issuers in rows:
            names = words.split()
            copied = [*names[:-1], *issuers.split(), names[-1]]
            for order in (names, names[::-1], copied, copied[::-1]):
                folder = judge_folder([files / it for it in order], **asked, **bounds)
                line = folder.lines[order.index(names[-1])]
                issuer = min(map(order.index, issuers.split()), default=None)
                self.assertEqual(line, Line(state, issuer=issuer), order)
                self.assertTrue(line.is_unjudged and not line.is_valid)
                self.assertEqual(issuer in [it.ca for it in folder.limited], bool(bounds))
                self.assertFalse(folder.lines[folder.anchor].is_unjudged)

    def anchors(self, *names: str) -> list[bytes]:
        """Files of tests/anchors, of which reference/anchors.py says."""
        return [(TOP / "tests" / "anchors" / it).read_bytes() for it in names]

    def test_candidates(self) -> None:
        """What has the TAL's key hides no valid trust anchor, and no older one takes its place."""
        (tal,) = self.anchors("ta.tal")
        anchor, older, expired, unsigned = self.anchors("ta.cer", "older.cer", "expired.cer", "unsigned.cer")
        below = self.anchors("ca.cer", "ca2.cer", "ee.cer")
        rest = [*below, *self.anchors("ta.crl", "ca.crl", "ca2.crl")]
        asked: dict[str, Any] = {"locator": tal, "at": datetime(2025, 6, 1, tzinfo=timezone.utc)}
        for other in (older, expired, unsigned, anchor + b"behind"):
            for given in ([other, anchor, *rest], [anchor, other, *rest]):
                folder = judge_folder(given, **asked)
                line = dict(zip(given, folder.lines))
                self.assertTrue(given[folder.anchor].startswith(anchor))
                self.assertEqual(line[anchor], Line(State.ANCHOR))
                self.assertEqual(line[other].is_valid, other.startswith(anchor))
                self.assertEqual({line[it].state for it in below}, {State.ACCEPTED})
        # an older one is the trust anchor if it is the only valid one
        folder = judge_folder([unsigned, older, expired, *rest], **asked)
        self.assertEqual((folder.anchor, folder.lines[1]), (1, Line(State.ANCHOR)))
        # if none is valid, the first with the key is told
        for wrong, name in (([unsigned, expired], "BadSignature"), ([expired, unsigned], "Expired")):
            with self.assertRaises(rpki.Fault) as caught:
                judge_folder([*rest, *wrong], **asked)
            self.assertEqual((caught.exception.name, caught.exception.member), (name, len(rest)))

    def test_copies(self) -> None:
        """Copies of a certificate, also with bytes behind it, take no steps, and have its line."""
        (tal,) = self.anchors("ta.tal")
        anchor, ca, *below = self.anchors("ta.cer", "ca.cer", "ca2.cer", "ee.cer")
        lists = self.anchors("ta.crl", "ca.crl", "ca2.crl")
        copies = [ca + bytes(it) for it in range(200)]
        asked: dict[str, Any] = {"locator": tal, "at": datetime(2025, 6, 1, tzinfo=timezone.utc)}
        for given in ([*copies, anchor, *below, *lists], [anchor, *below, *lists, *copies]):
            # ta.cer, which names its own key, ca.cer, ca2.cer and ee.cer take a step each
            folder = judge_folder(given, steps=4, **asked)
            self.assertTrue(folder.is_whole)
            line = dict(zip(given, folder.lines))
            self.assertEqual({line[it].state for it in (*copies, *below)}, {State.ACCEPTED})
            self.assertEqual({(line[it].step, line[it].issuer) for it in copies}, {(1, folder.anchor)})
            self.assertFalse(judge_folder(given, steps=3, **asked).is_whole)

    def test_read_octets(self) -> None:
        members = [Certificate(it) for it in self.members]
        given: list[Certificate | RevocationList] = [*members, *map(RevocationList, self.lists)]
        folder = judge_folder(given, locator=bytearray(octets("anchor.tal")), at=self.noon)
        self.assertEqual(sum(it.is_valid for it in folder.lines), 4)

    def test_memory_of_files(self) -> None:
        """Of files that are read here one copy is held beside the library's."""
        program = (
            "import resource, sys\n"
            "from pathlib import Path\n"
            "import rpki\n"
            "peak = lambda: resource.getrusage(resource.RUSAGE_SELF).ru_maxrss >> 10\n"
            "begin, (tal, *files) = peak(), map(Path, sys.argv[1:])\n"
            "rpki.judge_folder(files, locator=tal)\n"
            "print(peak() - begin)\n"
        )
        with tempfile.TemporaryDirectory() as folder:
            files = [Path(folder, f"{number}") for number in range(24)]
            for file in files:
                file.write_bytes(bytes(1 << 20))
            words = [TOP / "examples" / "anchor.tal", TOP / "examples" / "anchor.cer", *files]
            command = [sys.executable, "-c", program, *map(str, words)]
            folders = os.pathsep.join([str(TOP / "callers" / "python"), *sys.path])
            environment = {**os.environ, "PYTHONPATH": folders}
            done = subprocess.run(command, env=environment, check=True, capture_output=True)
        self.assertLess(int(done.stdout), 60)

    def test_bounds(self) -> None:
        given = [*self.members, *self.lists]
        second, _, _, _, first = range(5)
        deep, short = LimitedCa(second, True, False, None), LimitedCa(first, False, True, 2)
        bounds: list[tuple[dict[str, int], int, tuple[LimitedCa, ...]]] = [
            ({"depth": 2}, 3, (deep,)),
            ({"steps": 1}, 2, (short,)),
            ({"steps": 100}, 4, ()),
        ]
        for asked, valid, limited in bounds:
            folder = self.judge(given, **asked)
            self.assertEqual(sum(it.is_valid for it in folder.lines), valid)
            self.assertEqual(folder.is_whole, valid == 4)
            self.assertEqual(folder.limited, limited)
        self.assertNotIn(first, [it.ca for it in self.judge(given, steps=2).limited])
        for none in ("depth", "steps"):
            for number in (0, -1, 1 << 64, (1 << 64) + 1):
                with self.assertRaisesRegex(ValueError, f"^{none}: "):
                    self.judge(given, **{none: number})
            for other in ("1", 1.0, True):
                with self.assertRaisesRegex(TypeError, f"^{none}: expected a number, not "):
                    self.judge(given, **cast("dict[str, Any]", {none: other}))

    def files(self, *names: str) -> tuple[list[bytes], dict[str, Any]]:
        """Files of tests/files, the trust anchor first, and how they are judged."""
        given = [(TOP / "tests" / "files" / it).read_bytes() for it in ("ta.cer", "ta.crl", *names)]
        key = base64.encodebytes(Certificate(given[0]).public_key)
        at = datetime(2025, 6, 1, tzinfo=timezone.utc)
        return given, {"locator": f"{SITE}/ta.cer\n\n".encode() + key, "at": at}

    def test_strictness(self) -> None:
        """tests/verdicts says what is odd in the last file: a name of UTF-8."""
        given, asked = self.files("ca1.cer", "ca1.crl", "odd_name_utf8.cer")
        for strict, is_valid in ((True, False), (False, True)):
            lines = judge_folder(given, strict=strict, **asked).lines
            self.assertTrue(lines[0].is_valid and lines[2].is_valid)
            self.assertEqual(lines[4].is_valid, is_valid)
        # strictness is the default
        fault = judge_folder(given, **asked).lines[4].fault
        assert fault is not None
        self.assertEqual((type(fault), fault.name), (rpki.InspectionFault, "Subject"))

    def test_what_each_holds(self) -> None:
        """A line has the ranges of its own certificate, also with too little room for one kind at
        first."""
        given, asked = self.files("ca1.cer", "ca1.crl", "ca2.cer", "ca2.crl", "ee.cer")
        whole = judge_folder(given, **asked)
        path: list[bytes] = []
        # each CA holds other addresses of both families, and other AS numbers
        for place in (0, 2, 4):
            path.append(given[place])
            held = validate(path, last=Kind.AUTHORITY, lists=None, at=asked["at"])
            self.assertTrue(held.ipv4 and held.ipv6 and held.as_numbers)
            self.assertEqual(whole.lines[place].held, held if place else None)
        self.assertEqual(whole.lines[6].held, held)
        real = raw.room_for
        for rooms in ((0, 999, 999), (999, 0, 999), (999, 999, 0)):
            with mock.patch.object(raw, "room_for", side_effect=[real(*rooms), real(999, 999, 999)]):
                self.assertEqual(judge_folder(given, **asked), whole)

    def test_anchors_without_resources(self) -> None:
        """The files of tests/files/bare, of which make.py there says: the anchor's place is told."""
        folder = TOP / "tests" / "files" / "bare"
        files = [folder / "ca.cer", folder / "ta_no_systems.cer"]
        at = datetime(2025, 6, 1, tzinfo=timezone.utc)
        with self.assertRaises(rpki.LocatorFault) as caught:
            judge_folder(files, locator=folder / "ta.tal", at=at)
        self.assertEqual((caught.exception.name, caught.exception.member), ("NoResources", 1))
        locator = (folder / "ta.tal").read_bytes()
        with self.assertRaises(rpki.LocatorFault) as caught:
            validate(files[1:], last=Kind.AUTHORITY, lists=None, locator=locator, at=at)
        self.assertEqual((caught.exception.name, caught.exception.member), ("NoResources", 0))

    def test_anchors(self) -> None:
        given = [*self.members, *self.lists]
        late = END + timedelta(seconds=1)
        wrong: list[tuple[str, type[rpki.Fault], int | None, list[bytes], dict[str, Any]]] = [
            ("OtherKey", rpki.LocatorFault, None, self.lists, {}),
            ("OtherKey", rpki.LocatorFault, None, [], {}),
            ("NoUri", rpki.LocatorFault, None, given, {"locator": b"\n"}),
            ("Expired", rpki.VerificationFault, 1, given, {"at": late}),
        ]
        for name, kind, place, strings, asked in wrong:
            with self.assertRaises(kind) as caught:
                self.judge(strings, **asked)
            self.assertEqual((caught.exception.name, caught.exception.member), (name, place))


def openssl(*words: str, given: bytes = b"") -> bytes:
    """What openssl writes, to which these octets are given."""
    return subprocess.run(["openssl", *words], input=given, check=True, capture_output=True).stdout


@functools.cache
def private(name: str) -> bytes:
    """A private key of RSA, or of P-256 for a router, in PEM."""
    if name == "router":
        return openssl("ecparam", "-name", "prime256v1", "-genkey", "-noout")
    return openssl("genrsa", "2048")


def public(name: str) -> bytes:
    return openssl("pkey", "-pubout", "-outform", "DER", given=private(name))


def sign(prepared: bytes, name: str) -> bytes:
    with tempfile.NamedTemporaryFile() as key:
        key.write(private(name))
        key.flush()
        return openssl("dgst", "-sha256", "-sign", key.name, given=prepared)


@unittest.skipUnless(shutil.which("openssl"), "openssl isn't there")
class Issuing(unittest.TestCase):
    at = datetime(2026, 6, 1, tzinfo=timezone.utc)
    places = {"repository": f"{SITE}/ca/", "manifest": f"{SITE}/ca/ca.mft"}
    above = {"ca_issuer": f"{SITE}/anchor.cer", "crl": f"{SITE}/anchor/anchor.crl"}

    def prepared(self, kind: Kind, key: str, issuers: list[bytes], **changes: Any) -> bytes:
        wanted: dict[str, Any] = {
            "serial_number": 5,
            "not_before": BEGIN,
            "not_after": END,
            "at": self.at,
        }
        words: bytes = prepare(kind, issuers=issuers, key=public(key), **(wanted | changes))
        return words

    def made(
        self, kind: Kind, key: str, signer: str, issuers: list[bytes], **changes: Any
    ) -> bytes:
        octets = self.prepared(kind, key, issuers, **changes)
        signature = sign(octets, signer)
        asked = {"prepared": octets, "signature": signature, "at": self.at}
        it: Certificate = complete(kind, issuers=issuers, **asked)
        return it.octets

    @functools.cached_property
    def anchor(self) -> bytes:
        return self.made(
            Kind.TRUST_ANCHOR,
            "anchor",
            "anchor",
            [],
            ipv4=[ipaddress.IPv4Network("10.0.0.0/8")],
            ipv6=[ipaddress.IPv6Network("2001:db8::/32")],
            as_numbers=[range(64496, 64512)],
            uris=self.places,
        )

    def ca(self, **changes: Any) -> dict[str, Any]:
        holds = [ipaddress.IPv4Network("10.1.0.0/16"), ipaddress.IPv4Network("10.0.0.0/16")]
        pair = (ipaddress.IPv6Address("2001:db8::"), ipaddress.IPv6Address("2001:db8::7"))
        wanted: dict[str, Any] = {"ipv4": holds, "ipv6": [pair], "as_numbers": [64497, 64496]}
        return wanted | {"uris": self.places | self.above} | changes

    def test_path(self) -> None:
        anchor = self.anchor
        below = self.made(Kind.AUTHORITY, "ca", "anchor", [anchor], **self.ca())
        it = Certificate(below)
        self.assertEqual(str(it.ipv4), "10.0.0.0/15")
        self.assertEqual(str(it.ipv6), "2001:db8::/125")
        self.assertEqual(str(it.as_numbers), "AS64496-AS64497")
        self.assertEqual((it.not_before, it.not_after, it.serial_number), (BEGIN, END, 5))
        self.assertEqual(it.uris, self.places | self.above)
        held = validate([anchor, below], last=Kind.AUTHORITY, lists=None, at=self.at)
        self.assertEqual(held.ipv4, it.ipv4)
        # what a certificate lists can be given as it is; the kinds below a CA
        names = {**self.above, "signed_object": f"{SITE}/ca/a.roa"}
        given = {"ipv4": it.ipv4, "ipv6": INHERIT}
        ee = self.made(Kind.END_ENTITY, "ee", "ca", [anchor, below], uris=names, **given)
        validate([anchor, below, ee], last=Kind.END_ENTITY, lists=None, at=self.at)
        any_object = self.made(Kind.DETACHED, "ee", "ca", [anchor, below], uris=self.above, **given)
        validate([anchor, below, any_object], last=Kind.DETACHED, lists=None, at=self.at)
        systems = {"as_numbers": [64497]}
        router = self.made(
            Kind.ROUTER, "router", "ca", [anchor, below], uris=self.above, **systems
        )
        validate([anchor, below, router], last=Kind.ROUTER, lists=None, at=self.at)
        # as openssl judges them
        with tempfile.TemporaryDirectory() as folder:
            pems = {"anchor": anchor, "ca": below, "ee": ee, "router": router}
            for name, der in pems.items():
                pem = openssl("x509", "-inform", "DER", given=der)
                Path(folder, name).write_bytes(pem)
            words = ["verify", "-attime", "1780272000", "-CAfile", f"{folder}/anchor"]
            openssl(*words, f"{folder}/ca")
            for name in ("ee", "router"):
                openssl(*words, "-untrusted", f"{folder}/ca", f"{folder}/{name}")

    def refuses(
        self, name: str, where: int | str, call: Any, *words: Any, **changes: Any
    ) -> rpki.Fault:
        """Where is the place of a member of the issuer's path, or the name of an argument."""
        with self.assertRaises(rpki.Fault) as caught:
            call(*words, **changes)
        it = caught.exception
        self.assertEqual((it.name, it.member if it.argument is None else it.argument), (name, where))
        return it

    def test_refused_before_a_signature_is_asked(self) -> None:
        anchor = self.anchor
        other = [ipaddress.IPv4Network("11.0.0.0/16")]
        outside = {"repository": f"{SITE}/ca/", "manifest": f"{SITE}/other/ca.mft"}
        wrong: list[tuple[str, str, dict[str, Any]]] = [
            ("OverclaimV4", "ipv4", {"ipv4": other}),
            ("OverclaimAs", "as_numbers", {"as_numbers": [64512]}),
            ("ManifestNotChild", "uris['manifest']", {"uris": outside | self.above}),
            (
                "MissingManifest",
                "uris['manifest']",
                {"uris": {**self.above, "repository": f"{SITE}/ca/"}},
            ),
            (
                "MissingCrlUri",
                "uris['crl']",
                {"uris": {**self.places, "ca_issuer": f"{SITE}/anchor.cer"}},
            ),
            ("NotYetValid", "not_before", {"not_before": self.at + timedelta(seconds=1)}),
            ("Expired", "not_after", {"not_after": self.at - timedelta(seconds=1)}),
            ("Unwritable", "not_before", {"not_before": datetime(1949, 12, 31, tzinfo=timezone.utc)}),
            (
                "Unwritable",
                "ipv4, ipv6 or as_numbers",
                {"ipv4": None, "ipv6": None, "as_numbers": None},
            ),
            # a UTCTime can have the year 1950
            (
                "Unwritable",
                "ipv4, ipv6 or as_numbers",
                {
                    "ipv4": None,
                    "ipv6": None,
                    "as_numbers": None,
                    "not_before": datetime(1950, 1, 1, tzinfo=timezone.utc),
                },
            ),
        ]
        for name, argument, changes in wrong:
            wanted = self.ca(**changes)
            fault = self.refuses(
                name, argument, self.prepared, Kind.AUTHORITY, "ca", [anchor], **wanted
            )
            self.assertEqual(str(fault), f"{argument}: {fault.sentence} ({name})")
        # a CA has another key than its issuer
        self.refuses("Unwritable", "key", self.prepared, Kind.AUTHORITY, "anchor", [anchor], **self.ca())
        router = {"uris": self.above, "as_numbers": [64496]}
        self.refuses("KeyAlgorithm", "key", self.prepared, Kind.ROUTER, "ca", [anchor], **router)
        wanted = self.ca(uris=self.places, ipv4=INHERIT)
        self.refuses("InheritedV4", "ipv4", self.prepared, Kind.TRUST_ANCHOR, "anchor", [], **wanted)
        # the issuer's path comes first
        late: dict[str, Any] = {"at": END + timedelta(days=1)}
        self.refuses("Expired", 0, self.prepared, Kind.AUTHORITY, "ca", [anchor], **self.ca(**late))
        trimmed = self.prepared(
            Kind.AUTHORITY, "ca", [anchor], **self.ca(ipv4=other, trims_resources=True)
        )
        self.assertTrue(trimmed)

    def test_values_that_are_none(self) -> None:
        anchor = self.anchor
        back = (ipaddress.IPv4Address("10.0.0.2"), ipaddress.IPv4Address("10.0.0.1"))
        wrong: list[dict[str, Any]] = [
            {"serial_number": 0},
            {"serial_number": 1 << 159},
            {"serial_number": -1},
            {"ipv4": []},
            {"ipv4": [back]},
            {"ipv4": ["10.0.0.1/8"]},
            {"ipv4": [ipaddress.ip_network("2001:db8::/64")]},
            {"as_numbers": [1 << 32]},
            {"as_numbers": [range(2, 2)]},
            {"as_numbers": [range(0, 10, 2)]},
            {"ipv4": [(back[1], ipaddress.ip_address("2001:db8::1"))]},
            {"as_numbers": []},
            {"uris": {"list": f"{SITE}/anchor/anchor.crl"}},
            {"not_after": datetime(2026, 1, 1)},
        ]
        for changes in wrong:
            (argument,) = changes
            with self.assertRaisesRegex(ValueError, f"^{argument}"):
                self.prepared(Kind.AUTHORITY, "ca", [anchor], **self.ca(**changes))
        # the name of the URI is told
        for name in ("crl", "notify", "ca_issuer"):
            changes = {"uris": {**self.places, **self.above, name: "http://rpki.example.net/"}}
            with self.assertRaisesRegex(ValueError, f"^uris\\['{name}'\\]: expected a URI"):
                self.prepared(Kind.AUTHORITY, "ca", [anchor], **self.ca(**changes))
        without: list[bytes] = []
        for issuers, kind in ((without, Kind.AUTHORITY), ([anchor], Kind.TRUST_ANCHOR)):
            with self.assertRaises(ValueError):
                self.prepared(kind, "ca", issuers, **self.ca())
        for key in (b"", b"0", public("ca")[:-1], public("ca") + b"0"):
            with self.assertRaises(rpki.IssuingFault) as caught:
                wanted = self.ca(serial_number=5, not_before=BEGIN, not_after=END, at=self.at)
                prepare(Kind.AUTHORITY, issuers=[anchor], key=key, **wanted)
            self.assertEqual((caught.exception.name, caught.exception.argument), ("NoKey", "key"))
        texts = self.ca(ipv4=["10.0.0.0/15"], ipv6=["2001:db8::/125"])
        same = self.prepared(Kind.AUTHORITY, "ca", [anchor], **self.ca())
        self.assertEqual(self.prepared(Kind.AUTHORITY, "ca", [anchor], **texts), same)
        mistyped: list[dict[str, Any]] = [
            {"not_after": "2036-01-01"},
            {"strict": 1},
            {"chain_names": None},
            {"ipv4": [10]},
            {"ipv6": [("2001:db8::", "2001:db8::1")]},
            {"as_numbers": ["64500"]},
            {"as_numbers": [True]},
            {"as_numbers": 64500},
            {"ipv4": "10.0.0.0/15"},
            {"ipv4": ipaddress.IPv4Network("10.0.0.0/15")},
            {"ipv6": 6},
            {"trims_resources": "no"},
            {"trims_resources": 2},
            {"serial_number": "5"},
            {"serial_number": True},
        ]
        for changes in mistyped:
            (argument,) = changes
            with self.assertRaisesRegex(TypeError, f"^{argument}: "):
                self.prepared(Kind.AUTHORITY, "ca", [anchor], **self.ca(**changes))
        with self.assertRaisesRegex(TypeError, "^uris\\['crl'\\]: expected a str, not bytes"):
            uris: dict[str, Any] = {**self.places, **self.above, "crl": b"rsync://"}
            self.prepared(Kind.AUTHORITY, "ca", [anchor], **self.ca(uris=uris))
        # none of the four has a default for what is checked of the issuer
        signed: dict[str, Any] = {"issuers": [anchor], "prepared": b"", "signature": b"", "at": self.at}
        asked: list[tuple[Any, tuple[Kind, ...], dict[str, Any]]] = [
            (rpki.prepare, (Kind.AUTHORITY,), {"issuers": [anchor], "key": public("ca"), **wanted}),
            (rpki.complete, (Kind.AUTHORITY,), signed),
            (rpki.prepare_list, (), {"issuers": [anchor], "next_update": END, "at": self.at}),
            (rpki.complete_list, (), signed),
        ]
        for call, kinds, words in asked:
            for missing, given in (("locator", {"lists": None}), ("lists", {"locator": None})):
                with self.assertRaisesRegex(TypeError, f"argument: '{missing}'"):
                    call(*kinds, **words, **given)

    def test_names_of_issuers(self) -> None:
        """Nothing is issued below a CA whose name doesn't chain, of which tests/files/make.py says."""
        folder = TOP / "tests" / "files" / "named"
        issuers: Any = [folder / "ta.cer", folder / "ca_other_case.cer"]
        at = datetime(2025, 6, 1, tzinfo=timezone.utc)
        uris = {**self.above, **self.places}
        asked: dict[str, Any] = {"at": at, "uris": uris, "ipv4": INHERIT}
        asked |= {"not_before": at, "not_after": at + timedelta(days=9)}
        updates: dict[str, Any] = {"at": at, "next_update": at + timedelta(days=9)}
        self.refuses("OtherName", 1, self.prepared, Kind.AUTHORITY, "ca", issuers, **asked)
        self.refuses("OtherName", 1, self.list_prepared, issuers, **updates)
        self.assertTrue(self.prepared(Kind.AUTHORITY, "ca", issuers, chain_names=False, **asked))
        self.assertTrue(self.list_prepared(issuers, chain_names=False, **updates))

    def test_strictness_of_issuers(self) -> None:
        """Below a name of UTF-8, of which tests/verdicts says, something is issued if it may be one."""
        folder = TOP / "tests" / "files"
        issuers: Any = [folder / it for it in ("ta.cer", "ca1.cer", "odd_name_utf8.cer")]
        at = datetime(2025, 6, 1, tzinfo=timezone.utc)
        asked: dict[str, Any] = {"at": at, "uris": self.above, "ipv4": INHERIT}
        asked |= {"not_before": at, "not_after": at + timedelta(days=9)}
        updates: dict[str, Any] = {"at": at, "next_update": at + timedelta(days=9)}
        self.refuses("Subject", 2, self.prepared, Kind.DETACHED, "ee", issuers, **asked)
        self.refuses("Subject", 2, self.list_prepared, issuers, **updates)
        self.assertTrue(self.prepared(Kind.DETACHED, "ee", issuers, strict=False, **asked))
        prepared = self.list_prepared(issuers, strict=False, **updates)
        # the issuer's path comes before the signature
        signed: dict[str, Any] = {"issuers": issuers, "prepared": prepared, "signature": b"", "at": at}
        self.refuses("Subject", 2, complete_list, **signed)
        self.refuses("BadSignature", "signature", complete_list, strict=False, **signed)

    def test_files_are_read_once(self) -> None:
        anchor = self.anchor
        wanted = self.ca(serial_number=5, not_before=BEGIN, not_after=END, at=self.at)
        of_bytes, of_files = (
            prepare(Kind.AUTHORITY, issuers=[given], key=public("ca"), **wanted)
            for given in (anchor, io.BytesIO(anchor))
        )
        self.assertEqual(of_files, of_bytes)

    def test_wrong_signatures(self) -> None:
        anchor = self.anchor
        prepared = self.prepared(Kind.AUTHORITY, "ca", [anchor], **self.ca())
        good = sign(prepared, "anchor")
        flipped = bytes([good[0] ^ 1]) + good[1:]
        others = [sign(prepared, "ca"), sign(prepared + b"0", "anchor"), good[:-1], flipped, b""]
        words: dict[str, Any] = {"issuers": [anchor], "prepared": prepared, "at": self.at}
        for signature in others:
            asked = {**words, "signature": signature}
            self.refuses("BadSignature", "signature", complete, Kind.AUTHORITY, **asked)
        complete(Kind.AUTHORITY, **words, signature=good)
        for name, octets_signed in (("NotToSign", prepared[:-1]), ("NotToSign", b"")):
            asked = {**words, "prepared": octets_signed, "signature": good}
            self.refuses(name, "prepared", complete, Kind.AUTHORITY, **asked)
        # what is completed has its values already
        asked = {**words, "signature": good}
        self.refuses("BasicConstraintsPresent", "prepared", complete, Kind.END_ENTITY, **asked)
        self.refuses("KeyAlgorithm", "prepared", complete, Kind.ROUTER, **asked)
        own: dict[str, Any] = {**asked, "issuers": []}
        self.refuses("OtherName", "prepared", complete, Kind.TRUST_ANCHOR, **own)
        ca = self.made(Kind.AUTHORITY, "ca", "anchor", [anchor], **self.ca())
        below: dict[str, Any] = {**asked, "issuers": [anchor, ca]}
        self.refuses("OtherName", "prepared", complete, Kind.AUTHORITY, **below)
        short = self.prepared(
            Kind.AUTHORITY, "ca", [anchor], **self.ca(not_after=self.at + timedelta(days=1))
        )
        late = {**words, "prepared": short, "at": self.at + timedelta(days=2)}
        late["signature"] = sign(short, "anchor")
        self.refuses("Expired", "prepared", complete, Kind.AUTHORITY, **late)

    def list_prepared(self, issuers: list[bytes], **changes: Any) -> bytes:
        wanted: dict[str, Any] = {"next_update": END, "at": self.at}
        words: bytes = prepare_list(issuers=issuers, **(wanted | changes))
        return words

    def listed(self, signer: str, issuers: list[bytes], **changes: Any) -> RevocationList:
        octets = self.list_prepared(issuers, **changes)
        signature = sign(octets, signer)
        asked = {"prepared": octets, "signature": signature, "at": self.at}
        it: RevocationList = complete_list(issuers=issuers, **asked)
        return it

    def test_lists(self) -> None:
        anchor = self.anchor
        below = self.made(Kind.AUTHORITY, "ca", "anchor", [anchor], **self.ca())
        path = [anchor, below]
        first = self.listed("anchor", [anchor])
        self.assertEqual((first.number, list(first)), (1, []))
        self.assertEqual((first.this_update, first.next_update), (self.at, END))
        self.assertEqual(first.issuer, Certificate(anchor).subject)
        validate(path, last=Kind.AUTHORITY, lists=[first], at=self.at)
        # each serial number comes in once, with the moment of the first that has it
        early = Entry(7, BEGIN)
        revoked = [Certificate(below), early, 9, 7, Entry(9, BEGIN)]
        second = self.listed("anchor", [anchor], previous=first, revoked=revoked)
        self.assertEqual(second.number, 2)
        entries = [Entry(5, self.at), early, Entry(9, self.at)]
        self.assertEqual(list(second), entries)
        with self.assertRaises(rpki.RevocationFault) as caught:
            validate(path, last=Kind.AUTHORITY, lists=[first, second], at=self.at)
        self.assertEqual((caught.exception.name, caught.exception.member), ("Revoked", 1))
        # numbers that no certificate has aren't searched for as others
        ends = self.listed("anchor", [anchor], revoked=[0, (1 << 159) + 1])
        asked_for = [0, (1 << 159) + 1, -1, 1 << 160]
        self.assertEqual(ends.revoked(asked_for), [True, True, False, False])
        # what was revoked stays, and a number may be chosen
        third = self.listed("anchor", [anchor], previous=second.octets, number=9, revoked=[5, 1])
        self.assertEqual((third.number, list(third)), (9, [*entries, Entry(1, self.at)]))
        # that of a CA, whose own issuer has to have it unrevoked
        asked: dict[str, Any] = {"lists": [first], "this_update": BEGIN, "number": 1 << 158}
        mine = self.listed("ca", path, **asked)
        self.assertEqual((mine.number, mine.this_update), (1 << 158, BEGIN))
        self.assertEqual(mine.issuer, Certificate(below).subject)
        self.refuses("Revoked", 1, self.list_prepared, path, lists=[second])
        # an entry is dropped once its certificate had expired before the list before was issued
        early_end, day = BEGIN + timedelta(days=90), BEGIN + timedelta(days=30)
        ended = {"serial_number": 9, "not_after": early_end, "at": day}
        words = self.prepared(Kind.AUTHORITY, "ca", [anchor], **self.ca(**ended))
        old = complete(
            Kind.AUTHORITY,
            issuers=[anchor],
            prepared=words,
            signature=sign(words, "anchor"),
            at=day,
        )
        self.assertEqual(third.expired([old, below]), [Entry(9, self.at)])
        self.assertEqual(third.expired([below]), [])
        # a certificate of another issuer's counts for none: by its name, or by its key
        for field, other in (("issuer", b""), ("authority_key_identifier", bytes(20))):
            foreign = Certificate(old.octets)
            foreign.__dict__[field] = other
            self.assertEqual(third.expired([foreign]), [])
        stays = [Entry(5, self.at), Entry(7, BEGIN), Entry(1, self.at)]
        fourth = self.listed("anchor", [anchor], previous=third, expired=[old, below], revoked=[8])
        self.assertEqual((fourth.number, list(fourth)), (10, [*stays, Entry(8, self.at)]))
        fifth = self.listed("anchor", [anchor], previous=fourth, expired=[old], number=20)
        self.assertEqual((fifth.number, list(fifth)), (20, list(fourth)))
        first_of_two = self.listed("anchor", [anchor], revoked=[9], this_update=early_end)
        self.assertEqual(first_of_two.expired([old]), [])
        with self.assertRaises(rpki.IssuingFault):
            self.list_prepared([anchor], previous=mine, expired=[old])
        # as openssl judges and reads them
        with tempfile.NamedTemporaryFile() as file:
            file.write(openssl("x509", "-inform", "DER", given=anchor))
            file.flush()
            for it in (first, second, third):
                openssl("crl", "-verify", "-CAfile", file.name, "-noout", given=it.octets)
                said = openssl("crl", "-crlnumber", "-noout", given=it.octets)
                self.assertEqual(int(said.partition(b"=")[2], 16), it.number)

    def test_ranges_that_many_hold(self) -> None:
        """The library writes the ranges of a CA once, however many certificates inherit them."""
        many = [ipaddress.IPv4Network((10 << 24 | at << 9, 24)) for at in range(40)]
        anchor = self.anchor
        path = [anchor, self.made(Kind.AUTHORITY, "ca", "anchor", [anchor], **self.ca(ipv4=many))]
        given = list(path)
        for number, ipv4 in enumerate([INHERIT, INHERIT, many[:3], INHERIT, INHERIT], 1):
            wanted: dict[str, Any] = {"uris": self.above, "serial_number": number, "ipv4": ipv4}
            given.append(self.made(Kind.DETACHED, "ee", "ca", path, **wanted))
        lists = [self.listed("anchor", [anchor]), self.listed("ca", path)]
        tal = b"rsync://rpki.example.net/repo/anchor.cer\n\n" + base64.b64encode(public("anchor"))
        strings = raw.strings_of([*given, *(it.octets for it in lists)])
        now = raw.Time(2026, 6, 1, 0, 0, 0, 0)
        asked = raw.folder_question(strings, tal, now, True, (32, 0), False, False)
        walk, lines, room = raw.judge_folder(asked)
        self.assertEqual((walk.fault, walk.v4), (0, 43))
        parts = [raw.held_parts(it)[0] for it in lines[1 : len(given)]]
        held = [room.v4[at : at + count] for at, count in parts]
        counts = [len(it) for it in held]
        self.assertEqual(counts, [40, 40, 40, 3, 40, 40])
        for ranges in held:
            for it, network in zip(ranges, many):
                ends = network.network_address.packed, network.broadcast_address.packed
                self.assertEqual((bytes(it.min)[:4], bytes(it.max)[:4]), ends)

    def test_lists_that_are_refused(self) -> None:
        anchor = self.anchor
        below = self.made(Kind.AUTHORITY, "ca", "anchor", [anchor], **self.ca())
        first = self.listed("anchor", [anchor], number=3)
        of_ca = self.listed("ca", [anchor, below])
        second = timedelta(seconds=1)
        damaged = first.octets[:-1] + bytes([first.octets[-1] ^ 1])
        wrong: list[tuple[str, str, dict[str, Any]]] = [
            ("OtherList", "previous", {"previous": of_ca}),
            ("OtherList", "previous", {"previous": b"no list"}),
            ("OtherList", "previous", {"previous": damaged}),
            ("Number", "number", {"previous": first, "number": 3}),
            ("LongNumber", "number", {"number": 1 << 159}),
            ("LongNumber", "number", {"previous": first, "number": (1 << 160) - 1}),
            ("UpdateOrder", "next_update", {"next_update": self.at - second}),
            ("Stale", "next_update", {"this_update": BEGIN, "next_update": self.at - second}),
            ("Stale", "this_update", {"this_update": self.at + second}),
        ]
        for name, argument, changes in wrong:
            self.refuses(name, argument, self.list_prepared, [anchor], **changes)
        self.refuses("Expired", 0, self.list_prepared, [anchor], at=END + second)
        no_calls: list[tuple[list[bytes], dict[str, Any]]] = [
            ([], {}),
            ([anchor], {"number": 0}),
            ([anchor], {"number": 1 << 160}),
            ([anchor], {"revoked": [-1]}),
            ([anchor], {"revoked": [1 << 160]}),
            ([anchor], {"next_update": datetime(2036, 1, 1)}),
        ]
        for issuers, changes in no_calls:
            with self.assertRaises(ValueError):
                self.list_prepared(issuers, **changes)
        prepared = self.list_prepared([anchor])
        good = sign(prepared, "anchor")
        words: dict[str, Any] = {"issuers": [anchor], "prepared": prepared, "at": self.at}
        flipped = bytes([good[0] ^ 1]) + good[1:]
        for signature in (sign(prepared, "ca"), sign(prepared + b"0", "anchor"), flipped, b""):
            asked = {**words, "signature": signature}
            self.refuses("BadSignature", "signature", complete_list, **asked)
        certificate = self.prepared(Kind.AUTHORITY, "ca", [anchor], **self.ca())
        others = [
            ("NotToSign", "prepared", prepared[:-1]),
            ("NotToSign", "prepared", certificate),
            ("OtherOctets", "prepared", prepared + b"0"),
            (
                "WrongKeyId",
                "prepared",
                prepared.replace(Certificate(anchor).subject_key_identifier, bytes(20)),
            ),
        ]
        for name, where, octets_signed in others:
            asked = {**words, "prepared": octets_signed, "signature": sign(octets_signed, "anchor")}
            self.refuses(name, where, complete_list, **asked)
        words["signature"] = good
        others_list = words | {"issuers": [anchor, below]}
        self.refuses("OtherName", "prepared", complete_list, **others_list)
        self.refuses("Expired", 0, complete_list, **(words | {"at": END + second}))
        short = self.list_prepared([anchor], next_update=self.at + second)
        late = words | {"prepared": short, "signature": sign(short, "anchor")}
        late["at"] = self.at + 2 * second
        self.refuses("Stale", "prepared", complete_list, **late)
        self.refuses("Stale", "prepared", complete_list, **(words | {"at": self.at - second}))

    def test_many_entries(self) -> None:
        """The set of serial numbers answers as the library does."""
        draw = random.Random(83)
        revoked = [draw.getrandbits(158) | 1 << 158 for _ in range(300)]
        revoked += draw.sample(range(1, 1000), 300)
        crl = self.listed("anchor", [self.anchor], revoked=revoked)
        asked = [it + step for it in revoked for step in (-1, 0, 1)] + [0, (1 << 160) - 1]
        told = crl.revoked(asked)
        self.assertEqual(sum(told[1 : 3 * len(revoked) : 3]), len(revoked))
        self.assertEqual(len(crl.serial_numbers), len(crl))
        self.assertEqual([it in crl for it in asked], told)
        self.assertEqual([it in crl.serial_numbers for it in asked], told)


if __name__ == "__main__":
    unittest.main()
