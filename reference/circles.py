#!/usr/bin/env python3
"""Makes the files of tests/circles: two CAs below a trust anchor, and what one of them may add.

    reference/circles.py FOLDER

The keys are RSA's of 2048 bits, made anew in each run, so each run writes other files; those of
tests/circles stay as they were made once. `a` and `b` are CAs below the anchor `ta`, and `b` issued
`be`. The file `a-ta.cer` is a certificate of the anchor's key that `a` signed, `a-a.cer` is one of its
own key, and `a-b.cer` one of `b`'s, which holds other numbers; each is there twice. `foreign.cer` is one
that `b`'s key signed, whose issuer isn't `b`'s subject, and `foreign.crl` a list of such a name.
"""
import sys
from dataclasses import replace
from pathlib import Path

import reference as ref
from random_folders import Signer, blocks, fields, locator_of
from worked import ALL_ADDRESSES

START, END = (2024, 1, 1, 0, 0, 0), (2044, 1, 1, 0, 0, 0)


def authority(key, issuer, serial, low, high, **changes):
    f = fields(key.key, issuer.key, serial, v4=ref.INHERIT, v6=ref.INHERIT, asn=blocks(low, high),
               **changes)
    return issuer.signed(ref.encode_tbs(f))


def end_entity(key, signer, serial, **changes):
    f = fields(key.key, signer.key, serial, key_usage='Ee', basic_ca=None, ca_repository=None,
               rpki_manifest=None, signed_object=b'rsync://example.com/m/c/x.roa', v4=ref.INHERIT,
               v6=ref.MISSING, asn=ref.MISSING)
    return signer.signed(ref.encode_tbs(replace(f, **changes)))


def revocation_list(signer, **changes):
    f = ref.TbsCertList(**{
        'issuer': signer.key.subject_name(), 'this_update': START, 'next_update': END,
        'revoked': b'', 'authority_key_identifier': signer.key.identifier(), 'crl_number': 1,
        **changes})
    return signer.signed(ref.encode_list(f))


def files():
    ta, a, b, leaf = (Signer() for _ in range(4))
    anchor = fields(ta.key, ta.key, 1, crl_uri=None, ca_issuer=None, v4=ALL_ADDRESSES,
                    v6=ALL_ADDRESSES, asn=blocks(1, 100))
    return {
        'ta.tal': locator_of(ta.key),
        'ta.cer': ta.signed(ref.encode_tbs(anchor)),
        'a.cer': authority(a, ta, 2, 1, 10),
        'b.cer': authority(b, ta, 3, 11, 50),
        'be.cer': end_entity(leaf, b, 4),
        'a-ta.cer': authority(ta, a, 5, 1, 5),
        'a-ta2.cer': authority(ta, a, 6, 1, 6),
        'a-a.cer': authority(a, a, 7, 1, 5),
        'a-a2.cer': authority(a, a, 8, 1, 6),
        'a-b.cer': authority(b, a, 9, 1, 5),
        'a-b2.cer': authority(b, a, 10, 1, 6),
        'foreign.cer': end_entity(leaf, b, 11, issuer=a.key.subject_name()),
        'ta.crl': revocation_list(ta),
        'a.crl': revocation_list(a),
        'b.crl': revocation_list(b),
        'foreign.crl': revocation_list(b, issuer=a.key.subject_name()),
    }


def main():
    room = Path(sys.argv[1])
    room.mkdir(parents=True, exist_ok=True)
    for name, octets in files().items():
        (room / name).write_bytes(octets)


if __name__ == '__main__':
    main()
