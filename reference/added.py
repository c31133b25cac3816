#!/usr/bin/env python3
"""Makes the files of tests/added: three CAs, and what each of them, or anybody, may add to a folder.

    reference/added.py FOLDER

The keys are RSA's of 2048 bits, made anew in each run, so each run writes other files; those of
tests/added stay as they were made once. Below the anchor `ta` are the CAs `a` and `b`, and below `b` is the
end entity `be`. Besides:

- of the anchor's key: `expired.cer`, `future.cer` which isn't valid yet, `two_names.cer` which isn't
  self-named, and `forged.cer` which `a` signed; all but the first end after `ta.cer`
- of `a`'s own key, which `a` signed: the CA `a-own.cer` and the end entity `ae-own.cer`; and the CA
  `renamed.cer`, which has another name. `re.cer` is an end entity that `a`'s key signed under that name,
  `renamed.crl` a CRL of that name, and `stale.crl` one that has ended
- circles: `a-b.cer`, `b-a.cer`, `b-c.cer` and `c-a.cer` are each a CA that the first signed, with the key of
  the second, and inherit; `ae.cer` is an end entity below `a`, `ce.cer` one below `c`
- `b-a2.cer`, by which `b` certifies `a`'s key under another name; `m.cer` is an end entity below `a` that
  inherits AS numbers
- `a-b2.cer`, by which `a` certifies `b`'s key under another name
- `forged.crl` names `b` and its key, has a greater number than `b.crl`, and revokes `be.cer`: `a` signed it
- `unsigned.cer` names the anchor and its key, and `c` signed it
- `b-null.cer` has what is signed of `b.cer`, and its signature; its outer algorithm has no NULL
- `le.cer` names the key of the end entity `be`, which signed it
"""
import sys
from dataclasses import replace
from pathlib import Path

import reference as ref
from circles import END, START, authority, end_entity, revocation_list
from random_folders import Signer, blocks, fields, locator_of
from worked import ALL_ADDRESSES

NAME = ref.put_name([[(ref.OID_COMMON_NAME, ref.enc(0x13, b'another'))]])


def anchor(key, signer, serial, start, end, **changes):
    f = fields(key.key, key.key, serial, crl_uri=None, ca_issuer=None, v4=ALL_ADDRESSES, v6=ALL_ADDRESSES,
               asn=blocks(1, 100), not_before=(start, 1, 1, 0, 0, 0), not_after=(end, 1, 1, 0, 0, 0))
    return signer.signed(ref.encode_tbs(replace(f, **changes)))


def inheriting(key, issuer, serial):
    f = fields(key.key, issuer.key, serial, v4=ref.INHERIT, v6=ref.INHERIT, asn=ref.INHERIT)
    return issuer.signed(ref.encode_tbs(f))


def of_anchor(ta, a):
    return {
        'ta.tal': locator_of(ta.key),
        'ta.cer': anchor(ta, ta, 1, 2024, 2044),
        'expired.cer': anchor(ta, ta, 2, 2020, 2022),
        'future.cer': anchor(ta, ta, 3, 2030, 2049),
        'two_names.cer': anchor(ta, ta, 4, 2024, 2049, issuer=NAME),
        'forged.cer': anchor(ta, a, 5, 2024, 2049),
    }


def lists(ta, a, b, c):
    revoked = ref.put_entry(ref.Entry(12, START))
    return {
        'ta.crl': revocation_list(ta),
        'a.crl': revocation_list(a),
        'b.crl': revocation_list(b),
        'c.crl': revocation_list(c),
        'renamed.crl': revocation_list(a, issuer=NAME),
        'stale.crl': revocation_list(a, issuer=NAME, next_update=(2025, 1, 1, 0, 0, 0)),
        'forged.crl': a.signed(ref.encode_list(ref.TbsCertList(
            issuer=b.key.subject_name(), this_update=START, next_update=END, revoked=revoked,
            authority_key_identifier=b.key.identifier(), crl_number=9))),
    }


def files():
    ta, a, b, c, leaf = (Signer() for _ in range(5))
    own = authority(b, ta, 11, 11, 50)
    signed = ref.decode_cert(own).signed
    named = fields(c.key, ta.key, 28, v4=ref.INHERIT, v6=ref.INHERIT, asn=blocks(1, 10))
    return {
        **of_anchor(ta, a), **lists(ta, a, b, c),
        'a.cer': authority(a, ta, 10, 1, 10),
        'b.cer': own,
        'be.cer': end_entity(leaf, b, 12),
        'a-own.cer': authority(a, a, 13, 1, 5),
        'ae-own.cer': end_entity(a, a, 14),
        'renamed.cer': authority(a, a, 15, 1, 10, subject=NAME),
        're.cer': end_entity(leaf, a, 16, issuer=NAME),
        'a-b.cer': inheriting(b, a, 17),
        'b-a.cer': inheriting(a, b, 18),
        'b-c.cer': inheriting(c, b, 19),
        'c-a.cer': inheriting(a, c, 20),
        'ae.cer': end_entity(leaf, a, 21),
        'ce.cer': end_entity(leaf, c, 22),
        'b-a2.cer': authority(a, b, 23, 11, 15, subject=NAME),
        'm.cer': end_entity(leaf, a, 24, asn=ref.INHERIT),
        'a-b2.cer': authority(b, a, 25, 1, 5, subject=NAME),
        'le.cer': end_entity(c, leaf, 26),
        'unsigned.cer': c.signed(ref.encode_tbs(named)),
        'b-null.cer': signed._replace(algorithm=not signed.algorithm).octets(),
    }


def main():
    room = Path(sys.argv[1])
    room.mkdir(parents=True, exist_ok=True)
    for name, octets in files().items():
        (room / name).write_bytes(octets)


if __name__ == '__main__':
    main()
