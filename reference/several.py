#!/usr/bin/env python3
"""Makes the files of tests/several: a certificate to which several valid paths lead.

    reference/several.py FOLDER

The keys are RSA's of 2048 bits, made anew in each run, so each run writes other files; those of
tests/several stay as they were made once. `a` and `b` are CAs below the anchor `ta`; `a-b.cer`, and
`a-b2.cer` to `a-b9.cer`, are certificates of `b`'s key that `a` signed, which hold other AS numbers. `m.cer`
and `n.cer` are end entities below `b`'s key that inherit AS numbers: `m` names `ta`'s certificate of that key as its
issuer's, and `n` names `a`'s. The URIs are those of a cache that is laid out by URI, where `ta` publishes
at ta.example and `a` at a.example.
"""
import sys
from pathlib import Path

import reference as ref
from circles import authority, end_entity, revocation_list
from random_folders import Signer, blocks, fields, locator_of
from worked import ALL_ADDRESSES

TA = b'rsync://ta.example/m/'
A = b'rsync://a.example/m/'


def files():
    ta, a, b, leaf, other = (Signer() for _ in range(5))
    anchor = fields(ta.key, ta.key, 1, crl_uri=None, ca_issuer=None, v4=ALL_ADDRESSES,
                    v6=ALL_ADDRESSES, asn=blocks(1, 100))
    return {
        'ta.tal': locator_of(ta.key),
        'ta.cer': ta.signed(ref.encode_tbs(anchor)),
        'a.cer': authority(a, ta, 2, 1, 10, ca_issuer=TA + b'ta.cer'),
        'b.cer': authority(b, ta, 3, 11, 50, ca_issuer=TA + b'ta.cer'),
        'a-b.cer': authority(b, a, 4, 1, 5, ca_issuer=TA + b'a.cer'),
        **{f'a-b{number}.cer': authority(b, a, 3 + number, 1, 6, ca_issuer=TA + b'a.cer') for number in range(2, 10)},
        'm.cer': end_entity(leaf, b, 13, asn=ref.INHERIT, ca_issuer=TA + b'b.cer'),
        'n.cer': end_entity(other, b, 14, asn=ref.INHERIT, ca_issuer=A + b'a-b.cer'),
        'ta.crl': revocation_list(ta),
        'a.crl': revocation_list(a),
        'b.crl': revocation_list(b),
    }


def main():
    room = Path(sys.argv[1])
    room.mkdir(parents=True, exist_ok=True)
    for name, octets in files().items():
        (room / name).write_bytes(octets)


if __name__ == '__main__':
    main()
