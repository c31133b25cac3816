#!/usr/bin/env python3
"""Compares what the command prints of a verdict, as text and as JSON, with what documents.py makes of the
one description in verdicts.py.

    python3 reference/compare_answers.py PROGRAM [--count N] [--seed WORD] [--only INDEX] [--save FOLDER]

PROGRAM is the command, as the gate builds it or as `./rpki` compiles it. It is asked about the files of
examples/ and tests/files/, with and without TALs, CRLs and names, and about N random paths (500 if it
isn't said) with real signatures, as those of tests/signed_paths.py: half of them have a fault. Their
issuers' CRLs are current, stale, of another name, of another key, missing or damaged; the files' names
have any characters. Each is asked as text and as json, and one of ten as jsonl. Each key in the JSON, also
in that of `show` and `tree`, has to be in the page rpki-json(5), in the table for its place, with its type.

Which of several errors of reading is told is no promise (README.md): of such a path the command's is
taken, if it is one of reading. Prints each difference, what was found how often, and at the end `N
passed, M failed`.
"""

import argparse
import base64
import collections
import itertools
import json
import os
import random
import subprocess
import sys
import tempfile
from pathlib import Path

import folders
import json_page
import make
import random_paths
import reference as ref
import texts
import verdicts
from verdicts import Fault, File, Question

TOP = Path(__file__).resolve().parent.parent
sys.path.insert(0, str(TOP / 'tests'))
import signed_paths                                         # noqa: E402
from signers import Signer                                  # noqa: E402

KEYS = 5
MOST_SECONDS = 3600


# ---- what is asked

def words_of(question):
    """The options of a question, and its files."""
    words = ['--at', '%04d-%02d-%02dT%02d:%02d:%02dZ' % question.now]
    for file in question.locators:
        words += ['--tal', file.name]
    for file in question.lists:
        words += ['--crl', file.name]
    words += [] if question.locators else ['--trust-first']
    words += [] if question.lists else ['--no-crl']
    words += [] if question.names else ['--no-names']
    words += [] if question.strict else ['--lenient']
    return [*words, '--', *(it.name for it in question.members)]


def asked(program, question, form):
    with tempfile.TemporaryDirectory() as room:
        for file in [*question.members, *question.lists, *question.locators]:
            Path(room, file.name).write_bytes(file.octets)
        done = subprocess.run([program, 'validate', '-o', form, *words_of(question)], cwd=room, check=False,
                              stdin=subprocess.DEVNULL, capture_output=True, timeout=MOST_SECONDS)
    return done.returncode, done.stdout.decode(errors='replace'), done.stderr.decode(errors='replace')


def as_told(found, told):
    """What is found, with the error of reading that is told, where one is found."""
    if not isinstance(found, Fault) or found.step != 'reading':
        return found
    fault = json.loads(told).get('rejected', {})
    if fault.get('step') != 'reading' or fault['fault'] == found.name:
        return found
    says, section = texts.faults().get(('reading', fault['fault']), (None, None))
    of_parts = [section] if section else texts.parts().values()
    if fault['why'] != says or fault['standard'] not in of_parts:
        return found
    return found._replace(name=fault['fault'], rule=texts.Rule(says, fault['standard']))


def wrongs_of(program, question, is_asked_thrice):
    """What is found, and how the command's answers differ from it."""
    found, wrongs = verdicts.find(question), []
    for form in ('json', 'text', 'jsonl') if is_asked_thrice else ('json', 'text'):
        status, said, errors = asked(program, question, form)
        if form == 'json' and said:
            found = as_told(found, said)
            wrongs += json_page.wrongs('validate', json.loads(said))
        answer = verdicts.answer_of(question, found)
        wanted = {'json': answer.json, 'jsonl': answer.json_line, 'text': answer.text}[form]()
        if said != wanted or errors or status != isinstance(found, Fault):
            wrongs.append(f'{form}: status {status} {errors}\n' + difference(wanted, said))
    return found, wrongs


def difference(wanted, said):
    """The lines that only one of the two has."""
    left, right = wanted.splitlines(), said.splitlines()
    return '\n'.join([f'    wanted  {it}' for it in left if it not in right] +
                     [f'    printed {it}' for it in right if it not in left]) or '    another order of lines'


# ---- fixed files

def file_of(place):
    return File(Path(place).name, (TOP / place).read_bytes())


def in_pem(file):
    """The file's octets in PEM (RFC 7468)."""
    label = b'X509 CRL' if file.name.endswith('.crl') else b'CERTIFICATE'
    return b'-----BEGIN %s-----\n%s-----END %s-----\n' % (label, base64.encodebytes(file.octets), label)


def examples():
    """Questions about the files of examples/, whose trust anchor has a TAL."""
    its = [file_of(f'examples/{it}.cer') for it in ('anchor', 'first', 'second', 'object')]
    lists = [file_of(f'examples/{it}.crl') for it in ('first', 'second', 'object')]
    revoked, locator = file_of('examples/revoked.crl'), file_of('examples/anchor.tal')
    other = locator._replace(name='other.tal', octets=locator.octets.replace(b'MII', b'MIJ', 1))
    paths = [its, its[:1], its[:2], its[:3], its[::-1], [its[0], file_of('examples/tampered.cer')],
             [its[0], its[2]], [lists[0], its[1]], [its[0], locator], [its[1]], [*its, its[1]]]
    turn = itertools.cycle([[], [locator], [locator], [other], [file_of('tests/locators/07-http.tal'), locator]])
    years = itertools.cycle([2026, 2026, 2026, 2025, 2026, 2026, 2040])
    for members in paths:
        for given in ([], lists, lists[:1], [*lists, revoked], [its[0]]):
            for names in (True, False):
                yield 'an example', Question(members, given, next(turn), names, True, (next(years), 6, 1, 0, 0, 0))


def judged_files():
    """The files that tests/verdicts has, below those above them."""
    for line in (TOP / 'tests' / 'verdicts').read_text().splitlines():
        if line.startswith('#'):
            continue
        name, above, *_ = (it.strip() for it in line.split('|'))
        members = [file_of(f'tests/files/{it}.cer') for it in [*above.split(), name]]
        for strict in (True, False):
            yield f'tests/files/{name}', Question(members, [], [], True, strict, (2026, 11, 25, 0, 0, 0))
    for path in sorted((TOP / 'tests' / 'files' / 'noted').glob('*.cer')):
        members = [file_of('tests/files/ta.cer'), File(path.name, path.read_bytes())]
        yield f'noted/{path.name}', Question(members, [], [], False, True, (2026, 11, 25, 0, 0, 0))


# ---- random paths

def random_name(rng, end):
    """A file's name of any characters but the slash, as files have."""
    letters = rng.choice(['abc', ':,>( \\', '\n\r\t\x1b\x7f', 'äλ—😀\u202e', 'abc:, >(\n\\x5C'])
    word = ''.join(rng.choice(letters) for _ in range(rng.randrange(1, 9)))
    return f'{rng.randrange(1000):03}{word}{end}'


def random_list(rng, issuer, serial, signer, other, now):
    """A CRL of an issuer, or one that is nearly its."""
    kind = rng.choice(['current'] * 9 + ['stale', 'future', 'revoking', 'another name', 'another key'])
    begin, end = (now[0] - 1, 1, 1, 0, 0, 0), (now[0] + 1, 1, 1, 0, 0, 0)
    if kind == 'stale':
        end = (now[0] - 1, 1, 2, 0, 0, 0)
    if kind == 'future':
        begin, end = end, (now[0] + 2, 1, 1, 0, 0, 0)
    serials = sorted({rng.randrange(1, 1 << 40) for _ in range(rng.randrange(3))} | (
        {serial} if kind == 'revoking' else set()))
    name = other.key.subject_name() if kind == 'another name' else issuer.tbs.subject
    tbs = ref.encode_list(ref.TbsCertList(
        issuer=name, this_update=begin, next_update=end,
        revoked=b''.join(ref.put_entry(ref.Entry(it, begin)) for it in serials),
        authority_key_identifier=issuer.tbs.subject_key_identifier, crl_number=rng.randrange(1, 4)))
    return (other if kind == 'another key' else signer).signed(tbs)


def random_lists(rng, members, signers, now):
    """CRLs of the issuers of a path, of which some are missing, doubled or damaged."""
    certs = [folders.read(ref.decode_cert, it.octets) for it in members]
    found = []
    for issuer, cert in zip(certs, certs[1:]):
        if issuer is None or cert is None or issuer.tbs.key.bits not in signers:
            continue
        for _ in range(rng.choice([0] + [1] * 9 + [2, 2])):
            octets = random_list(rng, issuer, cert.tbs.serial, signers[issuer.tbs.key.bits],
                                 rng.choice(list(signers.values())), now)
            if rng.random() < 0.03:
                octets = rng.choice([octets + b'\0', octets[:-1], b'\x30\0'])
            found.append(File(random_name(rng, '.crl'), octets))
    rng.shuffle(found)
    return found


def random_locators(rng, members, signers):
    cert = folders.read(ref.decode_cert, members[0].octets)
    found = []
    if rng.random() < 0.6 and cert is not None:
        found.append(cert.tbs.key)
    found += [rng.choice(list(signers.values())).key for _ in range(rng.choice([0, 0, 0, 1]))]
    rng.shuffle(found)
    return [File(random_name(rng, '.tal'), locator_of(rng, key)) for key in found]


def locator_of(rng, key):
    uris = ['rsync://a.example/m/ta.cer', 'https://a.example/ta.cer'][:rng.choice([1, 2])]
    if rng.random() < 0.03:
        uris = ['http://a.example/ta.cer']
    digits = base64.b64encode(ref.put_key(key)).decode()
    return '\n'.join(['# a comment', *uris, '', digits, '']).encode()


def new_signers():
    """Keys that sign, by the bits of the public ones."""
    return {it.bits: it for it in (Signer() for _ in range(KEYS))}


def random_question(rng, signers):
    """A path whose keys are those of the signers, with CRLs and TALs or without."""
    pool = [ref.Key(ref.RSA, bits) for bits in signers]
    kept, random_paths.random_key = random_paths.random_key, lambda rng: rng.choice(pool)
    try:
        path = signed_paths.labelled(rng, None, signers)
    finally:
        random_paths.random_key = kept
    members = [File(random_name(rng, '.cer'), it) for it in path.members]
    lists = random_lists(rng, members, signers, path.moment()) if rng.random() < 0.6 else []
    locators = random_locators(rng, members, signers) if rng.random() < 0.7 else []
    return Question(members, lists, locators, rng.random() < 0.8, True, path.moment())


def randoms(count, seed, only):
    signers = new_signers()
    for index in range(count) if only is None else [only]:
        yield f'path {index}', random_question(random.Random(f'answers {seed} {index}'), signers)


# ---- the page of the JSON

def other_answers(program):
    """What rpki-json(5) doesn't say of `show` and `tree`."""
    files = [str(it) for place in ('examples', 'tests/files', 'tests/locators')
             for it in sorted((TOP / place).rglob('*')) if it.is_file()]
    folders_of = [['--tal', TOP / 'examples/anchor.tal', TOP / 'examples'],
                  ['--tal', TOP / 'tests/circles/ta.tal', TOP / 'tests/circles'],
                  ['--tal', TOP / 'tests/circles/ta.tal', TOP / 'examples']]
    for command, words in [('show', files), *(('tree', it) for it in folders_of)]:
        done = subprocess.run([program, command, '-j', '--at', '2026-11-25', *words], check=False,
                              stdin=subprocess.DEVNULL, capture_output=True, timeout=MOST_SECONDS)
        yield command, sorted(set(json_page.wrongs(command, json.loads(done.stdout))))


# ---- the run

def save(folder, files):
    for file in files:
        place = Path(folder, file.name)
        place.parent.mkdir(parents=True, exist_ok=True)
        place.write_bytes(file.octets)


def main():
    parser = argparse.ArgumentParser(description=__doc__.splitlines()[0])
    parser.add_argument('program')
    parser.add_argument('--count', type=int, default=500)
    parser.add_argument('--seed', default='1')
    parser.add_argument('--only', type=int)
    parser.add_argument('--save')
    options = parser.parse_args()
    program, kinds, failed, total = os.path.abspath(options.program), collections.Counter(), 0, 0
    for label, wrongs in other_answers(program):
        total += 1
        if wrongs:
            failed += 1
            print(f'{label}:\n  ' + '\n  '.join(wrongs))
    fixed = [] if options.only is not None else [*examples(), *judged_files()]
    for label, question in [*fixed, *randoms(options.count, options.seed, options.only)]:
        total += 1
        found, wrongs = wrongs_of(program, question, total % 10 == 0)
        kinds[f'{found.step} {found.name}' if isinstance(found, Fault) else
              'accepted, a router' if found.router else 'accepted'] += 1
        if wrongs:
            failed += 1
            print(f'{label}:\n  ' + '\n  '.join(wrongs), flush=True)
            if options.save:
                save(Path(options.save, f'{total}'), [*question.members, *question.lists, *question.locators])
    for kind, times in kinds.most_common():
        print(f'{times:7} {kind}')
    return make.totals((total - failed, failed))


if __name__ == '__main__':
    sys.exit(main())
