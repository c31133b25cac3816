#!/usr/bin/env python3
"""Compares what the command prints of files in no order, as text and as JSON, with what documents.py makes of
the one description in trees.py.

    python3 reference/compare_trees.py PROGRAM [--count N] [--seed WORD] [--only INDEX] [--save FOLDER]

PROGRAM is the command, as the gate builds it or as `./rpki` compiles it. It is asked about examples/,
tests/circles/, tests/several/ and tests/added/, and about N random sets of files (200 if it isn't said) as those of
strangers.py: one or two trees of real certificates and CRLs, renewals and circles of keys, half of them with the
files of a stranger, and damaged, foreign and misnamed ones, some in PEM, with any file names; some have the names
that caIssuers URIs name. There are several TALs, of one key
too, of keys without a trust anchor, and files that are none. By chance the limits of depth and of steps are
small, names aren't asked, the files are named by their directory, and --lenient, `--only rejected`,
--strict-exit and -q are given. Compared are all three formats, to the byte, the status, and how many files
are skipped; and each key in the JSON has to be in the page rpki-json(5).

Prints each difference, what was said of files how often, and at the end `N passed, M failed`.
"""

import argparse
import collections
import itertools
import json
import os
import random
import re
import subprocess
import sys
import tempfile
from dataclasses import replace
from pathlib import Path
from typing import NamedTuple

import json_page
import make
import random_folders
import reference as ref
import strangers
import trees
import walks
from compare_answers import difference, file_of, in_pem, locator_of, random_name, save
from random_paths import chance
from signers import Signer
from trees import Question
from verdicts import Fault, File

TOP = Path(__file__).resolve().parent.parent
KEYS = 9
MOST_SECONDS = 3600
SKIPPED = r'rpki: skipped in directories: (\d+) files? whose names? ends? neither in \.cer nor in \.crl\n'


# ---- what is asked

def words_of(question):
    words = ['--at', '%04d-%02d-%02dT%02d:%02d:%02dZ' % question.now]
    for file in question.locators:
        words += ['--tal', file.name]
    words += ['--depth', str(question.depth), '--steps', str(question.steps)]
    words += [] if question.names else ['--no-names']
    words += [] if question.strict else ['--lenient']
    words += ['--strict-exit'] if question.strict_exit else []
    return [*words, *(['--only', 'rejected'] if question.only else [])]


class Asked(NamedTuple):
    """A question, the files that are skipped, whether all are named by the directory in which they are, and the
    names of those in PEM."""
    question: Question
    skipped: list = ()
    is_folder: bool = False
    in_pem: tuple = ()

    def write(self, room):
        for file in [*self.question.files, *self.skipped, *self.question.locators]:
            place = Path(room, file.name)
            place.parent.mkdir(parents=True, exist_ok=True)
            place.write_bytes(in_pem(file) if file.name in self.in_pem else file.octets)

    def names(self):
        return ['d'] if self.is_folder else [it.name for it in self.question.files]

    def error_wrongs(self, errors):
        """What is wrong of standard error, which has how many files were skipped alone."""
        said = re.fullmatch(SKIPPED, errors)
        if (int(said[1]) if said else 0) != len(self.skipped) or errors and not said:
            yield f'standard error, of {len(self.skipped)} files that are skipped: {errors}'


def answers(program, room, words, names):
    done = subprocess.run([program, 'tree', *words, '--', *names], cwd=room, check=False,
                          stdin=subprocess.DEVNULL, capture_output=True, timeout=MOST_SECONDS)
    return done.returncode, done.stdout.decode(errors='replace'), done.stderr.decode(errors='replace')


def wrongs_of(program, asked, rng):
    """What is found, and how the command's answers differ from it."""
    with tempfile.TemporaryDirectory() as room:
        asked.write(room)
        return wrongs_in(program, room, asked, rng)


def wrongs_in(program, room, asked, rng):
    question, names = asked.question, asked.names()
    _, told, _ = answers(program, room, ['-j', *words_of(question._replace(only=False))], names)
    told = json.loads(told or '{}')
    wrongs = json_page.wrongs('tree', told)
    found = trees.find(question, told)
    answer, status = trees.answer_of(question, found), trees.status_of(question, found)
    forms = [('json', ['-j'], answer.json()), ('text', [], answer.text()),
             ('jsonl', ['-o', 'jsonl'], trees.json_lines(answer)), ('nothing', ['-q'], '')]
    for form, words, wanted in [*forms[:2], *rng.sample(forms[2:], rng.choice([0, 0, 1]))]:
        ended, said, errors = answers(program, room, [*words, *words_of(question)], names)
        wrongs += asked.error_wrongs(errors)
        if said != wanted or ended != status:
            wrongs.append(f'{form}: status {ended}, and wanted {status}\n' + difference(wanted, said))
    return found, wrongs


# ---- fixed files

def fixed():
    """Questions about the files of examples/, tests/circles/, tests/several/ and tests/added/."""
    fixed_places = ('examples', ['anchor']), *((f'tests/{it}', ['ta']) for it in ('circles', 'several', 'added'))
    for place, tals in fixed_places:
        folder = TOP / place
        files = [File(it.name, it.read_bytes()) for it in sorted(folder.iterdir()) if it.is_file()]
        few = [it for it in files if it.name != 'revoked.crl']
        locators = [file_of(f'{place}/{it}.tal') for it in tals]
        other = file_of('tests/locators/02-comment.tal')
        turn = itertools.cycle(itertools.product(
            [(32, 10_000_000), (1, 3), (2, 10), (32, 20), (0, 5), (3, 1000), (32, 0)],
            [(True, 2026), (False, 2026), (True, 2040)]))
        for some in (files, few, files[:3], few[::-1], few[1:]):
            for its in (locators, locators, [other, *locators], [*locators, *locators], [other], [files[0]]):
                (depth, steps), (names, year) = next(turn)
                yield place, Asked(Question(some, its, names, True, (year, 11, 25, 0, 0, 0), depth, steps))


# ---- random files

def damaged(rng, octets):
    if not octets:
        return rng.randbytes(1)
    place = rng.randrange(len(octets))
    return rng.choice([
        octets[:place], octets + rng.randbytes(rng.randrange(1, 5)), b'',
        octets[:place] + bytes([octets[place] ^ 1 << rng.randrange(8)]) + octets[place + 1:]])


def oddities(rng, some):
    """Files that damage a cache, or look as if they did."""
    _, octets = rng.choice(some)
    yield rng.choice([
        lambda: ('.crl', damaged(rng, octets)), lambda: ('.cer', damaged(rng, octets)),
        lambda: ('.crl', octets), lambda: ('.cer', octets),
        lambda: (rng.choice(['.roa', '.mft', '.gbr', '.asa', '.tak', '.sig', '.spl']), rng.randbytes(9)),
        lambda: (rng.choice(['.txt', '', '.CER', '.roa2', '.crl ']), rng.choice([b'text\n', octets])),
        lambda: (rng.choice(['.tal', '.txt', '.cer']), b'# of another\nhttps://a.example/b.cer\n\nMII\n'),
        lambda: ('.cer', b'rsync:')])()


def odd_anchor(rng, maker):
    """Another certificate of a trust anchor's key: a later one, one of other names, without resources, or with
    inherited ones; or the first once more, with bytes behind it."""
    signer = maker.keys[0]
    f = random_folders.fields(signer.key, signer.key, maker.next_serial(), crl_uri=None, ca_issuer=None,
                              asn=random_folders.blocks(1, 1000), not_after=(2045, 1, 1, 0, 0, 0))
    change = rng.choice([{}, {'issuer': strangers.NAMES[0]}, {'asn': ref.MISSING, 'v4': ()}, {'asn': ref.INHERIT},
                         {'not_before': random_folders.FUTURE}, {'basic_ca': False}])
    return rng.choice([signer.signed(ref.encode_tbs(replace(f, **change))), maker.nodes[0].octets + b'\0'])


def random_files(rng, pool):
    """The ends of names and octets of files, and the keys of their trust anchors."""
    makers = [strangers.drawn(rng, pool) for _ in range(rng.choice([1, 1, 2]))]
    some = [(name[-4:], octets) for maker in makers for name, octets in maker.files.items()]
    if chance(rng, 0.5):
        stranger = strangers.Stranger(makers[0])
        stranger.write()
        some += [(name[-4:], octets) for name, octets in stranger.files.items()]
    for _ in range(rng.choice([0, 0, 1, 2])):
        some += oddities(rng, some)
    some += [('.cer', odd_anchor(rng, it)) for it in makers if chance(rng, 0.2)]
    rng.shuffle(some)
    return some, [maker.keys[0].key for maker in makers], makers[0]


def random_locators(rng, pool, keys, maker):
    """TALs of the trust anchors, seldom of other keys, of a CA's, or none; mostly each once."""
    keys = [it for it in keys if chance(rng, 0.9)] or keys[:1]
    if chance(rng, 0.2):
        keys.append(rng.choice([rng.choice(pool).key, rng.choice(maker.keys).key, keys[0]]))
    rng.shuffle(keys)
    some = [File(random_name(rng, '.tal'), locator_of(rng, it)) for it in keys]
    if chance(rng, 0.05):
        some[0] = some[0]._replace(octets=damaged(rng, some[0].octets))
    return some


def named_by_uri(rng, files, root):
    """Some of the files have the names below a directory that caIssuers URIs have behind `rsync://`."""
    uris = [root + it.decode()[len('rsync://'):] for it in random_folders.ISSUER_URIS]
    some = dict(zip(rng.sample(range(len(files)), min(len(files), len(uris))), uris))
    return [it._replace(name=some.get(place, it.name)) for place, it in enumerate(files)]


def random_question(rng, pool):
    """Random files, and what is asked of them."""
    some, keys, maker = random_files(rng, pool)
    is_folder = chance(rng, 0.33)
    root = 'd/' if is_folder else ''
    files = [File(root + random_name(rng, end), octets) for end, octets in some]
    if chance(rng, 0.5):
        files = named_by_uri(rng, files, root)
    files = list({it.name: it for it in files}.values())
    files += [rng.choice(files)] * chance(rng, 0.1 * (not is_folder))
    skipped = [it for it in files if is_folder and not it.name.endswith(('.cer', '.crl'))]
    if is_folder:
        files = sorted((it for it in files if it not in skipped), key=lambda it: it.name.encode())
    pem = [it.name for it in files if chance(rng, 0.1)] if chance(rng, 0.3) else []
    now = rng.choice([random_folders.NOW] * 12 + [(2024, 1, 1, 0, 0, 0), (2050, 1, 1, 0, 0, 0)])
    return Asked(Question(
        files, random_locators(rng, pool, keys, maker), chance(rng, 0.7), chance(rng, 0.8), now,
        rng.choice([32, 32, 6, rng.randrange(5)]), rng.choice([10_000_000, 6000, rng.randrange(60)]),
        chance(rng, 0.3), chance(rng, 0.3), root), skipped, is_folder, pem)


def new_signers():
    return [Signer() for _ in range(KEYS)]


def randoms(count, seed, only):
    pool = new_signers()
    for index in range(count) if only is None else [only]:
        yield f'files {index}', random_question(random.Random(f'trees {seed} {index}'), pool)


# ---- the run

def kinds_of(question, found):
    if isinstance(found, Fault):
        return [f'{found.step} {found.name}, of a TAL']
    words = [it.said.word if it.said.fault is None else f'rejected {it.said.fault.step} {it.said.fault.name}'
             for it in found.rows]
    words += [f'{len(found.parts)} trees', f'a walk that ended {trees.worst_end(found.parts)}']
    return words + [f'a status of {trees.status_of(question, found)}'] + ['--only rejected'] * question.only


def main():
    parser = argparse.ArgumentParser(description=__doc__.splitlines()[0])
    parser.add_argument('program')
    parser.add_argument('--count', type=int, default=200)
    parser.add_argument('--seed', default='1')
    parser.add_argument('--only', type=int)
    parser.add_argument('--save')
    options = parser.parse_args()
    program, kinds, failed, total = os.path.abspath(options.program), collections.Counter(), 0, 0
    its = [] if options.only is not None else fixed()
    for label, asked in [*its, *randoms(options.count, options.seed, options.only)]:
        total, question = total + 1, asked.question
        try:
            found, wrongs = wrongs_of(program, asked, random.Random(total))
        except walks.TooMany:
            kinds['too many paths'] += 1
            continue
        kinds.update(kinds_of(question, found))
        if wrongs:
            failed += 1
            print(f'{label}: {" ".join(words_of(question))}\n  ' + '\n  '.join(wrongs), flush=True)
            if options.save:
                save(Path(options.save, str(total)), [*question.files, *question.locators])
    for kind, times in kinds.most_common():
        print(f'{times:7} {kind}')
    return make.totals((total - failed, failed))


if __name__ == '__main__':
    sys.exit(main())
