#!/usr/bin/env python3
"""Makes a repository in the folder TO: a trust anchor with its locator, CAs each with a list of one
revoked number, and end entities, COUNT certificates in all.

    python3 bench/tree.py wide|deep COUNT TO

`wide` has all CAs right below the trust anchor, one for each 200 certificates; `deep` has chains of
20 CAs, one CA for each 20 certificates. Keys are made by the `openssl` command, each CA's its own;
all end entities have one key.
"""
import base64
import sys
from concurrent.futures import ProcessPoolExecutor
from pathlib import Path

TOP = Path(__file__).resolve().parent.parent
sys.path.insert(0, str(TOP / 'reference'))

import random_folders as made
import reference as ref
from worked import ALL_ADDRESSES

SHAPES = {'wide': (200, 1), 'deep': (20, 20)}   # certificates for each CA, and CAs of a chain


class Repository:
    """Files in a folder, by the names of what they hold."""

    def __init__(self, folder):
        self.folder, self.serial = folder, 0

    def write(self, name, octets):
        (self.folder / name).write_bytes(octets)

    def certificate(self, name, key, issuer, **changes):
        self.serial += 1
        f = made.fields(key, issuer.key, self.serial, **changes)
        self.write(name, issuer.signed(ref.encode_tbs(f)))

    def revocations(self, name, signer):
        """A list that revokes a number that nobody has."""
        entry = ref.put_entry(ref.Entry(1 << 100, made.START))
        f = ref.TbsCertList(
            issuer=signer.key.subject_name(), this_update=made.START, next_update=made.END,
            revoked=entry, authority_key_identifier=signer.key.identifier(), crl_number=1)
        self.write(name, signer.signed(ref.encode_list(f)))


def new_signer(_):
    return made.Signer()


def fill(repository, shape, count):
    each, length = SHAPES[shape]
    with ProcessPoolExecutor() as pool:
        anchor, leaf, *signers = pool.map(new_signer, range(2 + max(1, count // each)))
    repository.certificate('anchor.cer', anchor.key, anchor, crl_uri=None, ca_issuer=None,
                           v4=ALL_ADDRESSES, v6=ALL_ADDRESSES, asn=((1, 1000),))
    repository.revocations('anchor.crl', anchor)
    inherited = {'v4': ref.INHERIT, 'v6': ref.INHERIT, 'asn': ref.INHERIT}
    for place, signer in enumerate(signers):
        above = signers[place - 1] if place % length else anchor
        repository.certificate(f'ca{place}.cer', signer.key, above, **inherited)
        repository.revocations(f'ca{place}.crl', signer)
    bare = {'key_usage': 'Ee', 'basic_ca': None, 'ca_repository': None, 'rpki_manifest': None,
            'signed_object': b'rsync://example.com/m/c/x.roa'}
    for place in range(count - 1 - len(signers)):
        issuer = signers[place % len(signers)]
        repository.certificate(f'ee{place}.cer', leaf.key, issuer, **inherited, **bare)
    info = base64.b64encode(ref.put_key(anchor.key)).decode()
    repository.write('anchor.tal', f'rsync://example.com/m/ta.cer\n\n{info}\n'.encode())


def main(shape, count, to):
    folder = Path(to)
    folder.mkdir(parents=True, exist_ok=True)
    fill(Repository(folder), shape, int(count))


if __name__ == '__main__':
    main(*sys.argv[1:])
