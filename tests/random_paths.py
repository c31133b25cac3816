#!/usr/bin/env python3
"""Asks the library for C about the certificates of random paths, and the reference about the same.

    RPKI_LIBRARY=FOLDER python3 tests/random_paths.py [COUNT]

FOLDER has librpki.so (`./rpki library FOLDER`). Each path is made by
reference/, from a seed of its own, as those of made-names.vectors are; about
half of them are damaged. Compares whether names chain, and where a
certificate's key, its signed part and its signature are. Prints each
difference and `N passed, M failed`; exits with 1 where anything differs.
"""
import ctypes
import os
import random
import sys

here = os.path.dirname(os.path.abspath(__file__))
sys.path[:0] = [os.path.join(here, '..', 'reference'),
                os.path.join(here, '..', 'callers', 'python')]

import answers
import questions
import reference as ref
from rpki import _library as raw
from der import Cursor
from parts import take_key

STAGES = {1: 'decode', 2: 'decode', 3: 'inspect', 4: 'verify'}


class Places(ctypes.Structure):
    """struct rpki_places"""
    _fields_ = [(f'{part}_{end}', ctypes.c_uint64)
                for part in ('key', 'message', 'signature')
                for end in ('at', 'length')]

    def part(self, octets, name):
        start = getattr(self, f'{name}_at')
        return octets[start:start + getattr(self, f'{name}_length')]


def places_of(octets):
    """What the library says that the key, the signed part and the signature are; None if they aren't
    those of a certificate."""
    places = Places()
    if raw.lib.rpki_certificate_places(*raw.octets_of(octets), ctypes.byref(places)):
        return None
    return (take_key(Cursor(places.part(octets, 'key'))), places.part(octets, 'message'),
            places.part(octets, 'signature'))


def wanted_places(octets):
    """The same, as the reference reads it."""
    try:
        cert = ref.decode_cert(octets)
    except ref.DecodeError:
        return None
    return cert.tbs.key, cert.signed.data, cert.signed.signature


def names_of(question):
    """What the library answers of names, in the words of a row."""
    members = [bytes.fromhex(it.split(':')[1]) for it in question.split(' ')[1:]]
    strings, place = raw.strings_of(members), ctypes.c_uint64()
    fault = raw.lib.rpki_path_names(ctypes.byref(strings), ctypes.byref(place))
    if fault == 0:
        return 'chain'
    if raw.fault_name(fault) == 'OtherName':
        return f'unchained {place.value}'
    return f'refused {place.value} {STAGES[fault // 100]}'


MAKERS = ((questions.names_question, names_of),)


def main(count):
    passed = failed = 0
    for index in range(count):
        rng = random.Random(f'header {index}')
        found = []
        for make, ask in MAKERS:
            _, question = make(rng)
            found.append((question, answers.answer(question), ask(question)))
        _, question = questions.path_question(rng)
        for pair in question.split(' ')[3:]:
            octets = bytes.fromhex(pair.split(':')[1])
            found.append((pair, wanted_places(octets), places_of(octets)))
        for asked, wanted, answer in found:
            if answer == wanted:
                passed += 1
            else:
                failed += 1
                print(f'{index}: {asked}\n  wanted   {wanted}\n  answered {answer}')
    print(f'{passed} passed, {failed} failed')
    return 1 if failed else 0


if __name__ == '__main__':
    sys.exit(main(int(sys.argv[1]) if len(sys.argv) > 1 else 1000))
