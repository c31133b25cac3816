#!/usr/bin/env python3
"""Looks whether what strangers choose can forge a line of an answer: file names, names of certificates, and
URIs, with every octet.

    python3 reference/compare_forged.py PROGRAM [--count N] [--seed WORD] [--only INDEX]

PROGRAM is the command, as the gate builds it or as `./rpki` compiles it. It is asked the same thing twice,
by plain words and by wild ones in their places, of at least N wild ones in all (10,000 if it isn't said):

    names     `validate` of files that are none, given as certificates, CRLs and TALs
    folders   `tree` over certificates, CRLs and others
    paths     `validate` of a path whose CRL is missing, with wild subjects and URIs
    shown     `show` of certificates with wild subjects and URIs

The answer with wild words has to be the one with plain words, line by line, in which each plain word is
exchanged by the wild one with its escapes: also of the separators, if more follows it in its line. Of
`show` each line has to begin alike. The JSON has to be the
same but for these words. Each octet of an answer is visible ASCII or ends a line. What stands on standard
error begins with `rpki: `. Names that aren't UTF-8 are among those of `tree`, where the other files have
their lines. Prints each difference, and at the end `N passed, M failed`.
"""

import argparse
import json
import os
import random
import re
import subprocess
import sys
import tempfile
from dataclasses import replace
from pathlib import Path

import documents
import make
import random_folders
import reference as ref
import sorts
from random_folders import END, START
from signers import Signer

AT = ['--at', '2026-06-01']
MOST_SECONDS = 3600
NAMED, FOUND = 400, 200     # files in a run of `validate`, and of `tree`
WORDS = [b'accepted: ', b'rejected: ', b'trust anchor', b'below ', b' > ', b': ', b', ', b' (', b')', b'\n', b'\r\n',
         b'\n                          ', b'Certificate:              ', b'Note:', b'\x1b[2K', b'\\x0A', b'\\', b'"',
         'Ω'.encode(), '\u2028'.encode(), '\u202e'.encode(), b'.cer', b'-']


# ---- wild words

def wild_octets(rng, most, octets=range(1, 256)):
    """Octets of any kind, among which words of answers stand."""
    found = b''
    for _ in range(rng.randrange(1, 7)):
        found += rng.choice(WORDS) if rng.random() < 0.5 else bytes(
            rng.choice(octets) for _ in range(rng.randrange(1, 5)))
    return found[:most]


def wild_name(rng, number, is_text=True):
    """A file's name, which begins with its number, so that no two are one."""
    while True:
        word = wild_octets(rng, 60).replace(b'/', b':')
        name = b'%s%d' % (word, number) if rng.random() < 0.5 else b'%d%s' % (number, word)
        if is_text:
            name = name.decode(errors='ignore').encode()
        if name.strip(b'.') and not name.startswith(b'-'):
            return name


def wild_uri(rng):
    """A URI of rsync: it has visible ASCII alone, but a path may have most of that."""
    letters = [it for it in range(0x21, 0x7F) if it not in b'/']
    while True:
        uri = b'rsync://h.example/m/' + wild_octets(rng, 60, letters).replace(b'/', b'_')
        if ref.is_rsync(uri) and not uri.endswith(b'/'):
            return uri


def name_of(octets):
    return ref.put_name([[(ref.OID_COMMON_NAME, ref.enc(0x13, octets))]])


# ---- asking

def asked(program, files, words, form):
    """The status, the answer and the errors of a run over files by their names, which are octets."""
    with tempfile.TemporaryDirectory() as room:
        for name, octets in files.items():
            Path(room, os.fsdecode(name)).write_bytes(octets)
        done = subprocess.run([program, words[0], '-o', form, *words[1:]], cwd=room, check=False,
                              stdin=subprocess.DEVNULL, capture_output=True, timeout=MOST_SECONDS)
    return done.returncode, done.stdout, done.stderr


def visible_wrongs(said, errors):
    if not all(it == 10 or 32 <= it < 127 for it in said + errors):
        yield 'an octet that isn\'t visible'
    for line in errors.splitlines():
        if not line.startswith(b'rpki: '):
            yield f'on standard error: {line!r}'


def forms_of(word, is_last):
    """As what a word may stand in a line: without separators, if more follows it there."""
    text = word.decode()
    inner = documents.escaped(text, documents.SEPARATORS)
    return {documents.escaped(text), inner} if is_last else {inner}


def line_wrongs(plain, wild, pairs):
    """Where an answer isn't the plain one with the wild words in place of the plain ones."""
    plain, wild = plain.decode().splitlines(), wild.decode().splitlines()
    if len(plain) != len(wild):
        yield f'{len(wild)} lines, and {len(plain)} of plain words'
    words = '|'.join(re.escape(it.decode()) for it in sorted(pairs, key=len, reverse=True))
    for left, right in zip(plain, wild):
        parts = [it for it in re.split(f'({words})', left) if it]
        pattern = ''
        for number, part in enumerate(parts, 1):
            forms = forms_of(pairs[part.encode()], number == len(parts)) if part.encode() in pairs else {part}
            pattern += f'({"|".join(map(re.escape, forms))})'
        if not re.fullmatch(pattern, right):
            yield f'{right!r}\n    in place of {left!r}'


def is_exchanged(plain, wild, pairs):
    """Whether the data are the plain ones with the wild words in place of the plain ones; a URI has its
    escapes there too."""
    if type(plain) is not type(wild):
        return False
    if isinstance(plain, dict):
        return plain.keys() == wild.keys() and all(is_exchanged(plain[it], wild[it], pairs) for it in plain)
    if isinstance(plain, list):
        return len(plain) == len(wild) and all(is_exchanged(*it, pairs) for it in zip(plain, wild))
    if isinstance(plain, str) and plain.encode() in pairs:
        word = pairs[plain.encode()].decode()
        return wild == (documents.escaped(word) if plain.startswith('rsync:') else word)
    return plain == wild


def labels(said):
    return [line.split(':')[0] if not line.startswith(' ') else '' for line in said.decode().splitlines()]


class Asker:
    def __init__(self, program):
        self.program = program

    def wrongs(self, plain, wild, words_of, pairs):
        """Both questions, whose files and words differ by the words alone."""
        for form in ('text', 'json'):
            answers = [asked(self.program, files, words_of(names), form) for files, names in (plain, wild)]
            (status, said, _), (status_then, said_then, errors_then) = answers
            yield from visible_wrongs(said_then, errors_then)
            if status != status_then:
                yield f'{form}: the status is {status_then}, and {status} of plain words: {errors_then!r}'
            elif form == 'text':
                yield from line_wrongs(said, said_then, pairs)
            elif not is_exchanged(json.loads(said), json.loads(said_then), pairs):
                yield 'the JSON is another'


# ---- what is asked

class Question:
    """Files by their plain names and by their wild ones."""

    def __init__(self, rng):
        self.rng, self.plain, self.wild, self.pairs = rng, {}, {}, {}

    def add(self, octets, is_text=True, wild_octets=None):
        """A file's plain and wild name."""
        number = len(self.plain)
        plain, wild = b'plain-%04d-name' % number, wild_name(self.rng, number, is_text)
        self.plain[plain] = octets
        self.wild[wild] = octets if wild_octets is None else wild_octets
        self.pairs[plain] = wild
        return plain


def authority(key, by, serial, **changes):
    return by.signed(ref.encode_tbs(replace(random_folders.fields(key, by.key, serial), **changes)))


def junk(rng):
    """A file that is neither a certificate nor a CRL nor a TAL."""
    while True:
        octets = rng.choice([rng.randbytes(rng.randrange(1, 20)), b'\x30\x00', b'\x30\x80', b'no file\n'])
        if sorts.sort_of(octets) is None:
            return octets


def names_wrongs(asker, rng, _signers):
    question = Question(rng)
    roles = [rng.choice(['', '--crl', '--tal']) for _ in range(NAMED)]
    added = [(role, question.add(junk(rng))) for role in [*roles, '--crl', '--tal', '']]

    def words_of(names):
        options = [it for role, name in added if role for it in (role, names(name))]
        return ['validate', *AT, *options, '--', *(names(name) for role, name in added if not role)]
    return len(added), asked_twice(asker, question, words_of)


def asked_twice(asker, question, words_of):
    """Each is named by `names`: plainly, or wildly."""
    plain, wild = (question.plain, lambda it: it), (question.wild, question.pairs.get)
    return list(asker.wrongs(plain, wild, words_of, question.pairs))


def signed_list(by, number, subject=None):
    return by.signed(ref.encode_list(ref.TbsCertList(
        issuer=subject or by.key.subject_name(), this_update=START, next_update=END, revoked=b'',
        authority_key_identifier=by.key.identifier(), crl_number=number)))


def anchor_of(by):
    return by.signed(ref.encode_tbs(random_folders.fields(
        by.key, by.key, 1, crl_uri=None, ca_issuer=None, authority_key_identifier=None,
        asn=random_folders.blocks(1, 5000))))


def folders_wrongs(asker, rng, signers):
    question, anchor = Question(rng), signers[0]
    files = [anchor_of(anchor), signed_list(anchor, 1)]
    for serial in range(2, FOUND):
        by, of = rng.choice(signers[:2]), rng.choice(signers)
        files.append(rng.choice([
            lambda: authority(of.key, by, serial, asn=ref.INHERIT),
            lambda: authority(of.key, by, serial, asn=random_folders.blocks(1, 9000)),
            lambda: signed_list(by, serial), *[lambda: junk(rng)] * 30,
            lambda: authority(of.key, by, serial, not_after=(2025, 1, 1, 0, 0, 0)) + rng.choice([b'', b'\0'])])())
    rng.shuffle(files)
    added = [question.add(it) for it in files]
    locator = question.add(random_folders.locator_of(anchor.key))

    def words_of(names):
        return ['tree', *AT, '--tal', names(locator), '--', *map(names, added)]
    found = asked_twice(asker, question, words_of)
    if rng.random() < 0.2:
        found += unreadable_wrongs(asker, rng, added, question, locator)
    return len(added) + 1, found


def unreadable_wrongs(asker, rng, added, question, locator):
    """Names that aren't UTF-8 too: these can't be opened, and the others have their lines."""
    files, names = dict(question.wild), []
    for number in range(5):
        name = wild_name(rng, 9000 + number, False) + b'\xff'
        files[name] = junk(rng)
        names.append(name)
    wild = [question.pairs[it] for it in added]
    mixed = wild + names
    rng.shuffle(mixed)
    tail = [it for it in mixed if it in wild]
    words = ['tree', *AT, '--tal', question.pairs[locator], '--']
    for form in ('text', 'json'):
        status, said, errors = asked(asker.program, files, [*words, *mixed], form)
        _, said_without, _ = asked(asker.program, question.wild, [*words, *tail], form)
        yield from visible_wrongs(said, errors)
        lines = errors.splitlines()
        if form == 'json':
            # beside the same answer JSON has the names, escaped as on standard error
            said, said_without = json.loads(said), json.loads(said_without)
            unread = [it.decode('ascii').removeprefix('rpki: ').rpartition(': a file')[0] for it in lines]
            if said.pop('unread') != unread or said_without.pop('unread', []) != []:
                yield f'json: names that aren\'t UTF-8 as unread: {errors!r}'
        if status != 3 or said != said_without or len(lines) != len(names):
            yield f'{form}: names that aren\'t UTF-8: status {status}: {errors!r}'


def paths_wrongs(asker, rng, signers):
    """The CRL of the second certificate's issuer is missing, so that its URI is told."""
    question, (anchor, middle, other) = Question(rng), signers[:3]
    above = question.add(anchor_of(anchor))
    pairs = []
    for subject, uri in ((b'plain_subject', b'rsync://plain.example/m/uri'),
                         (b'_' + wild_octets(rng, 40), wild_uri(rng))):
        pairs.append((authority(middle.key, anchor, 2, asn=ref.INHERIT, crl_uri=uri, subject=name_of(subject)), uri))
    below = question.add(pairs[0][0], wild_octets=pairs[1][0])
    crl = question.add(signed_list(other, 1))
    question.pairs[pairs[0][1]] = pairs[1][1]

    def words_of(names):
        return ['validate', *AT, '--trust-first', '--crl', names(crl), '--', names(above), names(below)]
    return 5, asked_twice(asker, question, words_of)


def shown_wrongs(asker, rng, signers):
    """Each line of `show` begins alike."""
    fields = {'subject': lambda wild: name_of(b'_' + (wild_octets(rng, 40) if wild else b'plain')),
              'issuer': lambda wild: name_of(b'_' + (wild_octets(rng, 40) if wild else b'plain')),
              **{it: lambda wild: wild_uri(rng) if wild else b'rsync://plain.example/m/uri'
                 for it in ('crl_uri', 'ca_issuer')}}
    plain, wild, found = {}, {}, []
    for number in range(6):
        for files, is_wild in ((plain, False), (wild, True)):
            octets = authority(signers[1].key, signers[0], number + 2, asn=ref.INHERIT,
                               **{name: make_it(is_wild) for name, make_it in fields.items()})
            files[wild_name(rng, number) if is_wild else b'plain-%d' % number] = octets
    status, said, _ = asked(asker.program, plain, ['show', *AT, '--', *plain], 'text')
    status_then, said_then, errors = asked(asker.program, wild, ['show', *AT, '--', *wild], 'text')
    found += visible_wrongs(said_then, errors)
    if (status, labels(said)) != (status_then, labels(said_then)):
        found.append(f'status {status_then}; {said_then.decode()!r}')
    return 5 * len(wild), found


KINDS = [('names', names_wrongs), ('folders', folders_wrongs), ('names', names_wrongs), ('folders', folders_wrongs),
         ('paths', paths_wrongs), ('shown', shown_wrongs)]


def new_signers():
    return [Signer() for _ in range(4)]


def main():
    parser = argparse.ArgumentParser(description=__doc__.splitlines()[0])
    parser.add_argument('program')
    parser.add_argument('--count', type=int, default=10000)
    parser.add_argument('--seed', default='1')
    parser.add_argument('--only', type=int)
    options = parser.parse_args()
    asker, signers = Asker(os.path.abspath(options.program)), new_signers()
    words, runs, failed, index = {}, 0, 0, options.only or 0
    while sum(words.values()) < options.count:
        kind, ask = KINDS[index % len(KINDS)]
        count, wrongs = ask(asker, random.Random(f'forged {options.seed} {index}'), signers)
        words[kind] = words.get(kind, 0) + count
        runs += 1
        if wrongs:
            failed += 1
            print(f'{kind} {index}:\n  ' + '\n  '.join(wrongs), flush=True)
        if options.only is not None:
            break
        index += 1
    print('wild words: ' + ', '.join(f'{kind} {count}' for kind, count in words.items()))
    return make.totals((runs - failed, failed))


if __name__ == '__main__':
    sys.exit(main())
