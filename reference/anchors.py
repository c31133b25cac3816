#!/usr/bin/env python3
"""Makes the files of tests/anchors: several certificates of one trust anchor's key, and a CA below it.

    reference/anchors.py FOLDER

The keys are RSA's of 2048 bits, made anew in each run, so each run writes other files; those of
tests/anchors stay as they were made once. `ta.cer` is the trust anchor that is valid longest.
`older.cer` is one that ends before it, and `expired.cer` one that has ended. `unsigned.cer` has the
anchor's key and ends later, but another key signed it. `ca.cer` is a CA, `ca2.cer` one below it, and
`ee.cer` an end entity below that.
"""
import sys
from pathlib import Path

import reference as ref
from circles import authority, end_entity, revocation_list
from random_folders import Signer, blocks, fields, locator_of
from worked import ALL_ADDRESSES


def anchor(key, signer, serial, start, end):
    f = fields(key.key, key.key, serial, crl_uri=None, ca_issuer=None, v4=ALL_ADDRESSES,
               v6=ALL_ADDRESSES, asn=blocks(1, 100), not_before=(start, 1, 1, 0, 0, 0),
               not_after=(end, 1, 1, 0, 0, 0))
    return signer.signed(ref.encode_tbs(f))


def files():
    ta, ca, ca2, leaf, other = (Signer() for _ in range(5))
    return {
        'ta.tal': locator_of(ta.key),
        'ta.cer': anchor(ta, ta, 1, 2024, 2044),
        'older.cer': anchor(ta, ta, 2, 2024, 2034),
        'expired.cer': anchor(ta, ta, 3, 2020, 2022),
        'unsigned.cer': anchor(ta, other, 4, 2024, 2049),
        'ca.cer': authority(ca, ta, 5, 1, 50),
        'ca2.cer': authority(ca2, ca, 6, 1, 50),
        'ee.cer': end_entity(leaf, ca2, 7),
        'ta.crl': revocation_list(ta),
        'ca.crl': revocation_list(ca),
        'ca2.crl': revocation_list(ca2),
    }


def main():
    room = Path(sys.argv[1])
    room.mkdir(parents=True, exist_ok=True)
    for name, octets in files().items():
        (room / name).write_bytes(octets)


if __name__ == '__main__':
    main()
