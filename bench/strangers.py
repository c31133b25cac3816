#!/usr/bin/env python3
"""Makes a cache with a CA that works against another one, in six directories of the folder TO.

    python3 bench/strangers.py COUNT MANY TO

`honest` has a trust anchor with its TAL, two CAs `a` and `b` below it, and COUNT end entities below
`b`. `anchors` has MANY certificates by which `a` certifies the trust anchor's key, each time with
another name; `siblings` has MANY by which it certifies the key and the name of `b`. `names` has MANY by which
it certifies its own key, each time with another name; `crls` has a tenth of these, and as many CRLs that name
its key and that it didn't sign. `inherit` has a CA below `a` that holds 100,000 addresses, none beside
another, and 700 end entities below it that inherit them. `limits` has the CAs of 23 keys in a row below
`a`, each of which certifies the next one twice: the paths to them double with each, until a walk reaches
its limit of steps.
"""
import base64
import sys
from pathlib import Path

TOP = Path(__file__).resolve().parent.parent
sys.path.insert(0, str(TOP / 'reference'))

import random_folders as made
import reference as ref
from parts import OID_COMMON_NAME, put_name
from tree import Repository
from worked import ALL_ADDRESSES


def named_by(number):
    """The octets of a name with this number."""
    return put_name([[(OID_COMMON_NAME, ref.enc(0x13, b'%d' % number))]])


def forged(by, of):
    """A CRL of another name that names a key, which didn't sign it."""
    return by.signed(ref.encode_list(ref.TbsCertList(
        issuer=named_by(-1), this_update=made.START, next_update=made.END, revoked=b'',
        authority_key_identifier=of.key.identifier(), crl_number=1)))


def odd_addresses(count):
    """Every other IPv4 address, so many of them: as many blocks."""
    starts = [(2 * place + 1) << 96 for place in range(count)]
    return tuple((start, start + (1 << 96) - 1) for start in starts)


def main(count, many, to):
    folder = Path(to)
    names = 'honest', 'anchors', 'siblings', 'names', 'crls', 'inherit', 'limits'
    places = [Repository(folder / it) for it in names]
    honest, anchors, siblings, named, crls, inherit, limits = places
    for it in places:
        it.folder.mkdir(parents=True, exist_ok=True)
    anchor, a, b, wide, leaf = (made.Signer() for _ in range(5))
    inherited = {'v4': ref.INHERIT, 'v6': ref.INHERIT, 'asn': ref.INHERIT}
    honest.certificate('ta.cer', anchor.key, anchor, crl_uri=None, ca_issuer=None,
                       v4=ALL_ADDRESSES, v6=ALL_ADDRESSES, asn=((1, 1000),))
    honest.revocations('ta.crl', anchor)
    for name, signer in (('a', a), ('b', b)):
        honest.certificate(f'{name}.cer', signer.key, anchor, **inherited)
        honest.revocations(f'{name}.crl', signer)
    bare = {'key_usage': 'Ee', 'basic_ca': None, 'ca_repository': None, 'rpki_manifest': None,
            'signed_object': b'rsync://example.com/m/c/x.roa'}
    for place in range(int(count)):
        honest.certificate(f'ee{place}.cer', leaf.key, b, **inherited, **bare)
    for place in range(int(many)):
        anchors.certificate(f'{place}.cer', anchor.key, a, subject=named_by(place), **inherited)
        siblings.certificate(f'{place}.cer', b.key, a, **inherited)
        named.certificate(f'{place}.cer', a.key, a, subject=named_by(place), **inherited)
    for place in range(int(many) // 10):
        crls.certificate(f'{place}.cer', a.key, a, subject=named_by(place), **inherited)
        crls.write(f'{place}.crl', forged(b, a))
    inherit.certificate('wide.cer', wide.key, a, **inherited | {'v4': odd_addresses(100_000)})
    inherit.revocations('wide.crl', wide)
    for place in range(700):
        inherit.certificate(f'{place}.cer', leaf.key, wide, **inherited, **bare)
    above = a
    for place in range(23):
        below = made.Signer()
        for name in 'one', 'two':
            limits.certificate(f'{name}{place}.cer', below.key, above, **inherited)
        above = below
    info = base64.b64encode(ref.put_key(anchor.key)).decode()
    honest.write('ta.tal', f'rsync://example.com/m/ta.cer\n\n{info}\n'.encode())


if __name__ == '__main__':
    main(*sys.argv[1:])
