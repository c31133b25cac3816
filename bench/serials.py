"""What bench/serials.sh does in Python: makes the CRL, and asks it.

    bench/serials.py make FILE
    bench/serials.py ask FILE
"""
import sys
import time
from pathlib import Path

from rpki import RevocationList

ENTRIES, QUESTIONS = 100_000, 1_000_000
START = 1 << 130    # serial numbers of 17 octets, in the step 3


def der(tag, content):
    length = len(content)
    if length < 128:
        return bytes([tag, length]) + content
    octets = length.to_bytes((length.bit_length() + 7) // 8, "big")
    return bytes([tag, 128 | len(octets)]) + octets + content


def extension(identifier, content):
    return der(0x30, der(6, bytes.fromhex(identifier)) + der(4, content))


def made():
    """A CRL of random order, whose signature is none: reading checks no signature."""
    algorithm = der(0x30, bytes.fromhex("06092a864886f70d01010b0500"))
    name = der(0x30, der(0x31, der(0x30, der(6, b"\x55\x04\x03") + der(0x13, b"A"))))
    date, after = der(0x17, b"260101000000Z"), der(0x17, b"360101000000Z")
    places = [place * 7919 % ENTRIES for place in range(ENTRIES)]
    entries = [der(0x30, der(2, (START + 3 * it).to_bytes(17, "big")) + date) for it in places]
    key = extension("551d23", der(0x30, der(0x80, bytes(20))))
    own = der(0xA0, der(0x30, key + extension("551d14", der(2, b"\x01"))))
    head = der(2, b"\x01") + algorithm + name + date + after
    tbs = der(0x30, head + der(0x30, b"".join(entries)) + own)
    return der(0x30, tbs + algorithm + der(3, bytes(257)))


def timed(what, asked):
    begin = time.process_time()
    found = asked()
    took = time.process_time() - begin
    assert sum(found) == QUESTIONS // 2
    print(f"Python, {what}: {took:.3f} s")


def ask(octets):
    # each second one is on the list
    numbers = [START + 3 * (it % ENTRIES) + it % 2 for it in range(QUESTIONS)]
    crl = RevocationList(octets)
    assert len(crl) == ENTRIES
    timed("serial in crl", lambda: [it in crl for it in numbers])
    timed("crl.revoked(serials)", lambda: RevocationList(octets).revoked(numbers))


if sys.argv[1] == "make":
    Path(sys.argv[2]).write_bytes(made())
else:
    ask(Path(sys.argv[2]).read_bytes())
