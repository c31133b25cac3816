"""The calls of librpki.so as rpki.h declares them, by ctypes. All that knows the library's
interface stands here."""

import ctypes
import os
from collections.abc import Sequence
from ctypes import c_size_t, c_uint8, c_uint16, c_uint32, c_uint64
from typing import Any, TypeVar

ABI = 5  # RPKI_ABI of rpki.h

OK, MEMORY, BAD_CALL = 0, 1, 2
BAD_KEY, BAD_URI = 603, 802
# enum rpki_state
MISSING, INHERITED, LISTED = 0, 1, 2
# enum rpki_ended
WHOLE = 1
LIMIT_DEPTH, LIMIT_STEPS = 1, 2
# enum rpki_part_text
PART_NAME, PART_WANTED, PART_FOUND = 0, 1, 2
# enum rpki_uri
URIS = ("ca_issuer", "crl", "repository", "manifest", "signed_object", "notify")


class Time(ctypes.Structure):
    """struct rpki_time"""

    _fields_ = [
        ("year", c_uint16),
        *((name, c_uint8) for name in ("month", "day", "hour", "minute", "second", "unused")),
    ]


class Certificate(ctypes.Structure):
    """struct rpki_certificate"""

    _fields_ = [
        *((name, Time) for name in ("not_before", "not_after")),
        *((name, c_uint8 * 20) for name in ("serial", "subject_key", "authority_key")),
        *((name, c_uint8) for name in ("has_authority_key", "is_authority", "key_usage")),
        *((name, c_uint8) for name in ("overclaim", "v4", "v6", "asn")),
    ]


class IpRange(ctypes.Structure):
    """struct rpki_ip_range"""

    _fields_ = [("min", c_uint8 * 16), ("max", c_uint8 * 16)]


class AsRange(ctypes.Structure):
    """struct rpki_as_range"""

    _fields_ = [("min", c_uint32), ("max", c_uint32)]


class List(ctypes.Structure):
    """struct rpki_list"""

    _fields_ = [
        *((name, Time) for name in ("this_update", "next_update")),
        ("entries", c_uint64),
        *((name, c_uint8 * 20) for name in ("number", "authority_key")),
    ]


class Entry(ctypes.Structure):
    """struct rpki_entry"""

    _fields_ = [("date", Time), ("serial", c_uint8 * 20)]


class Stop(ctypes.Structure):
    """struct rpki_stop"""

    _fields_ = [("fault", c_uint32), ("octet", c_uint64)]


class Strings(ctypes.Structure):
    """struct rpki_strings"""

    _fields_ = [
        ("octets", ctypes.POINTER(c_uint8)),
        ("length", c_size_t),
        ("lengths", ctypes.POINTER(c_size_t)),
        ("count", c_size_t),
    ]


class Question(ctypes.Structure):
    """struct rpki_question"""

    _fields_ = [
        ("size", c_size_t),
        *((name, Strings) for name in ("members", "lists")),
        ("locator", ctypes.POINTER(c_uint8)),
        ("locator_length", c_size_t),
        ("moment", Time),
        *((name, c_uint32) for name in ("last", "strict", "revocation", "anchor", "key", "names")),
    ]


class Room(ctypes.Structure):
    """struct rpki_room"""

    _fields_ = [
        ("v4", ctypes.POINTER(IpRange)),
        ("v4_room", c_size_t),
        ("v6", ctypes.POINTER(IpRange)),
        ("v6_room", c_size_t),
        ("asn", ctypes.POINTER(AsRange)),
        ("asn_room", c_size_t),
    ]


class Verdict(ctypes.Structure):
    """struct rpki_verdict"""

    _fields_ = [
        *((name, c_uint32) for name in ("fault", "index")),
        *((name, c_uint64) for name in ("v4", "v6", "asn")),
    ]


class FolderQuestion(ctypes.Structure):
    """struct rpki_folder_question"""

    _fields_ = [
        ("size", c_size_t),
        ("strings", Strings),
        ("locator", ctypes.POINTER(c_uint8)),
        ("locator_length", c_size_t),
        ("moment", Time),
        *((name, c_size_t) for name in ("depth", "steps")),
        *((name, c_uint32) for name in ("strict", "key", "names")),
    ]


class HeldPlaces(ctypes.Structure):
    """struct rpki_held"""

    _fields_ = [(name, c_uint64) for name in ("v4", "v6", "asn", "v4_at", "v6_at", "asn_at")]


class Line(ctypes.Structure):
    """struct rpki_line"""

    _fields_ = [
        *((name, c_uint32) for name in ("what", "fault")),
        *((name, c_uint64) for name in ("step", "issuer")),
        *((name, c_uint32) for name in ("kind", "limits")),
        ("held", HeldPlaces),
        ("needed", c_uint64),
    ]


class Walk(ctypes.Structure):
    """struct rpki_walk"""

    _fields_ = [
        *((name, c_uint32) for name in ("fault", "ended")),
        *((name, c_uint64) for name in ("anchor", "v4", "v6", "asn")),
    ]


class Addresses(ctypes.Structure):
    """struct rpki_addresses"""

    _fields_ = [("ranges", ctypes.POINTER(IpRange)), ("count", c_size_t), ("state", c_uint32)]


class AsNumbers(ctypes.Structure):
    """struct rpki_as_numbers"""

    _fields_ = [("ranges", ctypes.POINTER(AsRange)), ("count", c_size_t), ("state", c_uint32)]


class Octets(ctypes.Structure):
    """A pointer and a length, as they stand in a struct."""

    _fields_ = [("octets", ctypes.POINTER(c_uint8)), ("length", c_size_t)]


class Uris(ctypes.Structure):
    """struct rpki_uris"""

    _fields_ = [(name, Octets) for name in URIS]


class Wanted(ctypes.Structure):
    """struct rpki_wanted"""

    _fields_ = [
        ("size", c_size_t),
        ("issuer", Question),
        ("key", Octets),
        *((name, Addresses) for name in ("v4", "v6")),
        ("asn", AsNumbers),
        ("uris", Uris),
        *((name, Time) for name in ("not_before", "not_after")),
        ("serial", c_uint8 * 20),
        *((name, c_uint32) for name in ("kind", "overclaim")),
    ]


class Completion(ctypes.Structure):
    """struct rpki_completion"""

    _fields_ = [
        ("size", c_size_t),
        ("issuer", Question),
        *((name, Octets) for name in ("prepared", "signature")),
        ("kind", c_uint32),
    ]


class WantedList(ctypes.Structure):
    """struct rpki_wanted_list"""

    _fields_ = [
        ("size", c_size_t),
        ("issuer", Question),
        ("previous", Octets),
        ("revoked", ctypes.POINTER(Entry)),
        ("revoked_count", c_size_t),
        *((name, Time) for name in ("this_update", "next_update")),
        ("number", c_uint8 * 20),
    ]


class ListCompletion(ctypes.Structure):
    """struct rpki_list_completion"""

    _fields_ = [
        ("size", c_size_t),
        ("issuer", Question),
        *((name, Octets) for name in ("prepared", "signature")),
    ]


class Issued(ctypes.Structure):
    """struct rpki_issued"""

    _fields_ = [*((name, c_uint32) for name in ("fault", "index")), ("count", c_uint64)]


def _load() -> ctypes.CDLL:
    """The library: of the folder RPKI_LIBRARY, or the one that a wheel has beside this file, or where
    the system looks for libraries."""
    folder = os.environ.get("RPKI_LIBRARY")
    path = os.path.join(folder, "librpki.so") if folder else f"librpki.so.{ABI}"
    beside = os.path.join(os.path.dirname(os.path.abspath(__file__)), path)
    if not folder and os.path.isfile(beside):
        path = beside
    try:
        library = ctypes.CDLL(path)
    except OSError as error:
        raise ImportError(
            f"{path} can't be loaded ({error}): install the library (make install-lib), "
            "or name its folder in RPKI_LIBRARY"
        ) from error
    try:
        number = library.rpki_abi_version()
    except AttributeError as error:
        raise ImportError(f"{path} isn't librpki") from error
    if number != ABI:
        raise ImportError(f"{path} isn't of the version of this package: {number}, and not {ABI}")
    return library


lib = _load()

Element = TypeVar("Element", bound=ctypes.Structure)


class Called(Exception):
    """A call answered the number of a fault, and not that memory ran out."""

    def __init__(self, fault: int) -> None:
        super().__init__(fault)
        self.fault = fault


def octets_of(data: bytes) -> tuple[Any, c_size_t]:
    """A pointer to the bytes, which are not copied, and their length. The library only reads them;
    the pointer keeps them alive."""
    return ctypes.cast(ctypes.c_char_p(data), ctypes.POINTER(c_uint8)), c_size_t(len(data))


def strings_of(parts: Sequence[bytes]) -> Strings:
    """Octets that stand one behind the other, and their lengths."""
    lengths = (c_size_t * len(parts))(*map(len, parts))
    return Strings(*octets_of(b"".join(parts)), lengths, len(parts))


def question(
    members: Sequence[bytes],
    last: int,
    now: Time,
    strict: bool,
    lists: Sequence[bytes] | None = None,
    locator: bytes | None = None,
    any_key: bool = False,
    any_names: bool = False,
) -> Question:
    """A question about a path: lists and a locator are asked where they are given, and the last key
    and names unless any are accepted."""
    return Question(
        ctypes.sizeof(Question),
        strings_of(members),
        strings_of(lists or ()),
        *octets_of(locator or b""),
        now,
        last,
        strict != 0,
        lists is None,
        locator is None,
        any_key,
        any_names,
    )


def room_for(v4: int, v6: int, asn: int) -> Room:
    """Room for so many ranges."""
    return Room((IpRange * v4)(), v4, (IpRange * v6)(), v6, (AsRange * asn)(), asn)


def call(function: Any, *words: Any) -> None:
    fault = function(*words)
    if fault == MEMORY:
        raise MemoryError
    if fault != OK:
        raise Called(fault)


def all_of(element: type[Element], function: Any, *words: Any) -> list[Element]:
    """All elements that a call writes: a first call counts them."""
    count = c_uint64()
    call(function, *words, (element * 0)(), c_size_t(0), ctypes.byref(count))
    room = (element * count.value)()
    call(function, *words, room, c_size_t(count.value), ctypes.byref(count))
    return list(room)


def bytes_of(function: Any, *words: Any, behind: Sequence[Any] = ()) -> bytes:
    """All octets that a call writes, whose last arguments are these."""
    count = c_uint64()
    call(function, *words, (c_uint8 * 0)(), c_size_t(0), ctypes.byref(count), *behind)
    room = (c_uint8 * count.value)()
    call(function, *words, room, c_size_t(count.value), ctypes.byref(count), *behind)
    return bytes(room)


def fault_name(fault: int) -> str:
    return bytes_of(lib.rpki_fault_name, c_uint32(fault)).decode("ascii")


def fault_sentence(fault: int) -> str:
    return bytes_of(lib.rpki_fault_sentence, c_uint32(fault)).decode("ascii")


def certificate(octets: bytes) -> Certificate:
    out = Certificate()
    call(lib.rpki_certificate_read, *octets_of(octets), ctypes.byref(out))
    return out


def inspect(octets: bytes, kind: int, strict: bool) -> int:
    """The fault of the certificate as one of the kind, or OK."""
    numbers = c_uint32(kind), c_uint32(strict != 0)
    fault: int = lib.rpki_certificate_inspect(*octets_of(octets), *numbers)
    return fault


def addresses(octets: bytes, family: int) -> list[IpRange]:
    function = lib.rpki_certificate_addresses
    return all_of(IpRange, function, *octets_of(octets), c_uint32(family))


def as_numbers(octets: bytes) -> list[AsRange]:
    return all_of(AsRange, lib.rpki_certificate_as_numbers, *octets_of(octets))


def certificate_uri(octets: bytes, which: int) -> bytes:
    return bytes_of(lib.rpki_certificate_uri, *octets_of(octets), c_uint32(which))


def certificate_name(octets: bytes, which: int) -> bytes:
    return bytes_of(lib.rpki_certificate_name, *octets_of(octets), c_uint32(which))


def certificate_key(octets: bytes) -> tuple[bytes, bool]:
    """The SubjectPublicKeyInfo, and whether the RPKI uses such a key."""
    is_used = c_uint8()
    function = lib.rpki_certificate_key
    key = bytes_of(function, *octets_of(octets), behind=[ctypes.byref(is_used)])
    return key, bool(is_used.value)


def revocation_list(octets: bytes) -> List:
    out = List()
    call(lib.rpki_list_read, *octets_of(octets), ctypes.byref(out))
    return out


def entries(octets: bytes) -> list[Entry]:
    return all_of(Entry, lib.rpki_list_entries, *octets_of(octets))


def serial_numbers(octets: bytes, count: int) -> frozenset[int]:
    """The serial numbers of a list's entries, of which there are so many."""
    room, written = (Entry * count)(), ctypes.byref(c_uint64())
    call(lib.rpki_list_entries, *octets_of(octets), room, c_size_t(count), written)
    data, size, at = bytes(room), ctypes.sizeof(Entry), Entry.serial.offset
    places = range(at, len(data), size)
    return frozenset(int.from_bytes(data[place : place + 20], "big") for place in places)


def list_issuer(octets: bytes) -> bytes:
    return bytes_of(lib.rpki_list_issuer, *octets_of(octets))


def are_revoked(octets: bytes, serials: Sequence[bytes]) -> list[bool]:
    """Whether the list has each of these serial numbers of 20 octets."""
    answers, count = (c_uint8 * len(serials))(), c_size_t(len(serials))
    call(lib.rpki_list_ask, *octets_of(octets), *octets_of(b"".join(serials)), answers, count)
    return [bool(it) for it in answers]


def stop_text(octets: bytes, is_list: bool, which: int) -> tuple[int, str]:
    """At which octet the reading of octets stops that are no certificate, or no list, and a text of
    the part there."""
    stop = Stop()
    numbers = c_uint32(is_list), c_uint32(which)
    text = bytes_of(lib.rpki_stop_text, *octets_of(octets), *numbers, ctypes.byref(stop))
    return stop.octet, text.decode("ascii")


Held = tuple[list[IpRange], list[IpRange], list[AsRange]]


def judge(asked: Question) -> tuple[int, int, Held]:
    """The fault of a path, the place of the member that has it, and the ranges that are held. A
    second call has room for more than 64 ranges of a kind."""
    out, room = Verdict(), room_for(64, 64, 64)
    for _ in range(2):
        words = (asked, room, out)
        if lib.rpki_path_validate(*map(ctypes.byref, words)) != OK:
            return out.fault, out.index, ([], [], [])
        if out.v4 <= room.v4_room and out.v6 <= room.v6_room and out.asn <= room.asn_room:
            break
        room = room_for(out.v4, out.v6, out.asn)
    return OK, 0, (room.v4[: out.v4], room.v6[: out.v6], room.asn[: out.asn])


def folder_question(
    strings: Strings,
    locator: bytes,
    now: Time,
    strict: bool,
    bounds: tuple[int, int],
    any_key: bool,
    any_names: bool,
) -> FolderQuestion:
    """A question about a folder."""
    return FolderQuestion(
        ctypes.sizeof(FolderQuestion),
        strings,
        *octets_of(locator),
        now,
        *bounds,
        strict != 0,
        any_key,
        any_names,
    )


def judge_folder(asked: FolderQuestion) -> tuple[Walk, list[Line], Room]:
    """How the walk over a folder ended, a line for each string, and the ranges that are held; no line
    after a fault. A second call has room for more than some eight ranges of a kind a string."""
    count = asked.strings.count
    out, lines, room = Walk(), (Line * count)(), room_for(*[8 * count + 64] * 3)
    for _ in range(2):
        words = ctypes.byref(room), ctypes.byref(out)
        if lib.rpki_folder_judge(ctypes.byref(asked), lines, c_size_t(count), *words) != OK:
            return out, [], room
        if out.v4 <= room.v4_room and out.v6 <= room.v6_room and out.asn <= room.asn_room:
            break
        room = room_for(out.v4, out.v6, out.asn)
    return out, list(lines), room


Part = tuple[int, int]


def held_parts(line: Line) -> tuple[Part, Part, Part]:
    """Of the ranges of each kind: where those are that the certificate of a line holds, and how many."""
    it = line.held
    return (it.v4_at, it.v4), (it.v6_at, it.v6), (it.asn_at, it.asn)


def ip_range(first: bytes, last: bytes) -> IpRange:
    """Two addresses of one family. One of IPv4 stands in the first four octets."""
    ends = (octets.ljust(16, b"\0") for octets in (first, last))
    return IpRange(*((c_uint8 * 16).from_buffer_copy(end) for end in ends))


def addresses_wanted(state: int, ranges: Sequence[IpRange]) -> Addresses:
    return Addresses((IpRange * len(ranges))(*ranges), len(ranges), state)


def as_numbers_wanted(state: int, ranges: Sequence[tuple[int, int]]) -> AsNumbers:
    numbers = (AsRange(*ends) for ends in ranges)
    return AsNumbers((AsRange * len(ranges))(*numbers), len(ranges), state)


def wanted(
    issuer: Question,
    kind: int,
    key: bytes,
    resources: tuple[Addresses, Addresses, AsNumbers],
    uris: Sequence[bytes],
    validity: tuple[Time, Time],
    serial: bytes,
    trims: bool,
) -> Wanted:
    """What a certificate is to be. The URIs are those of URIS, and an empty one is left out."""
    return Wanted(
        ctypes.sizeof(Wanted),
        issuer,
        Octets(*octets_of(key)),
        *resources,
        Uris(*(Octets(*octets_of(uri)) for uri in uris)),
        *validity,
        (c_uint8 * 20).from_buffer_copy(serial),
        kind,
        trims,
    )


def completion(issuer: Question, kind: int, prepared: bytes, signature: bytes) -> Completion:
    """What was prepared, and its signature."""
    octets = (Octets(*octets_of(data)) for data in (prepared, signature))
    return Completion(ctypes.sizeof(Completion), issuer, *octets, kind)


def wanted_list(
    issuer: Question,
    previous: bytes,
    revoked: Sequence[tuple[Time, bytes]],
    updates: tuple[Time, Time],
    number: bytes,
) -> WantedList:
    """What a list is to be: what is revoked has a date, and a serial number of 20 octets."""
    entries = (Entry(date, (c_uint8 * 20).from_buffer_copy(serial)) for date, serial in revoked)
    return WantedList(
        ctypes.sizeof(WantedList),
        issuer,
        Octets(*octets_of(previous)),
        (Entry * len(revoked))(*entries),
        len(revoked),
        *updates,
        (c_uint8 * 20).from_buffer_copy(number),
    )


def list_completion(issuer: Question, prepared: bytes, signature: bytes) -> ListCompletion:
    """What was prepared of a list, and its signature."""
    octets = (Octets(*octets_of(data)) for data in (prepared, signature))
    return ListCompletion(ctypes.sizeof(ListCompletion), issuer, *octets)


def issued(function: Any, asked: ctypes.Structure) -> tuple[Issued, bytes]:
    """What is told of what is issued, and its octets. A second call has room for more than 4 KiB."""
    told, length = Issued(), 4096
    for _ in range(2):
        room = (c_uint8 * length)()
        words = ctypes.byref(asked), room, c_size_t(length), ctypes.byref(told)
        if function(*words) != OK:
            return told, b""
        if told.count <= length:
            break
        length = told.count
    return told, bytes(room[: told.count])


def prepare(asked: Wanted) -> tuple[Issued, bytes]:
    return issued(lib.rpki_prepare, asked)


def complete(asked: Completion) -> tuple[Issued, bytes]:
    return issued(lib.rpki_complete, asked)


def prepare_list(asked: WantedList) -> tuple[Issued, bytes]:
    return issued(lib.rpki_prepare_list, asked)


def complete_list(asked: ListCompletion) -> tuple[Issued, bytes]:
    return issued(lib.rpki_complete_list, asked)
