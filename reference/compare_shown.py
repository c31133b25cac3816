#!/usr/bin/env python3
"""Compares what `show` prints of files, as text and as JSON, with what documents.py makes of the one description
in shown.py.

    python3 reference/compare_shown.py PROGRAM [--count N] [--seed WORD] [--only INDEX] [--save FOLDER]

PROGRAM is the command, as the gate builds it or as `./rpki` compiles it. It is asked about the files of
examples/, tests/files/ and tests/locators/, those of examples/ also in PEM; and about N files (2,000 if it
isn't said): of three one is a sound certificate, CRL or TAL, or the to-be-signed part of one, in one of the
many encodings that the grammar allows, and the others are damaged as those of compare_places.py, and TALs as
those of questions_locators.py. The files' names have any characters; the time is before, in and behind
periods. Several files are asked at once, as json and as text, and by chance with --all, --lenient, as jsonl,
and alone; all that is printed is compared, to the byte, and the status; and each key in the JSON has to be in
the page rpki-json(5).

Prints each difference, what the files were, and at the end `N passed, M failed`.
"""

import argparse
import collections
import datetime
import itertools
import json
import os
import random
import subprocess
import sys
import tempfile
from pathlib import Path

import compare_places
import documents as doc
import folders
import json_page
import make
import questions_locators
import reference as ref
import shown
from compare_answers import difference, in_pem, random_name, save
from random_paths import chance
from shown import Options
from verdicts import File

TOP = Path(__file__).resolve().parent.parent
TOGETHER = 25
MOST_SECONDS = 3600


# ---- what is asked

def asked(program, room, options, words, names):
    words = ['--at', '%04d-%02d-%02dT%02d:%02d:%02dZ' % options.now, *words]
    words += [] if options.strict else ['--lenient']
    words += ['--all'] if options.all else []
    done = subprocess.run([program, 'show', *words, '--', *names], cwd=room, check=False,
                          stdin=subprocess.DEVNULL, capture_output=True, timeout=MOST_SECONDS)
    return done.returncode, done.stdout.decode(errors='replace'), done.stderr.decode(errors='replace')


def written(answers, form):
    """What is printed of the answers on several files."""
    if form == 'text':
        return '\n'.join(it.text() for it in answers)
    if form == 'jsonl':
        return ''.join(it.json_line() for it in answers)
    return answers[0].json() if len(answers) == 1 else doc.json_text([it.data for it in answers])


def pieces(printed, form):
    """What is printed of each of the files."""
    if form == 'text':
        return [f'{it}\n'.replace('\n\n', '\n') for it in printed.split('\n\n')]
    data = [json.loads(it) for it in printed.splitlines()] if form == 'jsonl' else json.loads(printed)
    return [doc.json_text(it) for it in (data if isinstance(data, list) else [data])]


def compared(printed, answers, form):
    """How what is printed of several files differs, by their places."""
    wanted = written(answers, form)
    if printed == wanted:
        return
    try:
        some = pieces(printed, form)
    except json.JSONDecodeError:
        some = []
    if len(some) != len(answers):
        yield 0, f'{form}: {len(some)} answers on {len(answers)} files'
        return
    for place, (one, answer) in enumerate(zip(some, answers)):
        mine = answer.text() if form == 'text' else answer.json()
        if one != mine:
            yield place, f'{form}:\n' + difference(mine, one)
    if all(one == (it.text() if form == 'text' else it.json()) for one, it in zip(some, answers)):
        yield 0, f'{form}: what stands between the files'


def wrongs_of(program, some, options, rng):
    """What is told of some files, each with its octets and those of its object, and by their places how the
    command's answers differ."""
    with tempfile.TemporaryDirectory() as room:
        for _, name, whole, _ in some:
            Path(room, name).write_bytes(whole)
        return wrongs_in(program, room, [File(name, octets) for _, name, _, octets in some], options, rng)


def wrongs_in(program, room, files, options, rng):
    names = [it.name for it in files]
    _, told, _ = asked(program, room, options, ['-o', 'jsonl'], names)
    told = [json.loads(it) for it in told.splitlines()]
    wrongs = [json_page.wrongs('show', it) for it in told]
    status = 0 if all(shown.can_be_shown(it, options.strict) for it in files) else 1
    for form in ('json', 'text', *(['jsonl'] if chance(rng, 0.2) else [])):
        its = options if form == 'text' else options._replace(all=True)
        answers = [shown.answer_of(*it) for it in zip(files, itertools.repeat(its), told)]
        ended, printed, errors = asked(program, room, options, ['-o', form], names)
        for place, wrong in compared(printed, answers, form):
            wrongs[place].append(wrong)
        if errors or ended != status:
            wrongs[0].append(f'{form}: status {ended}, and wanted {status}: {errors}')
    return told, wrongs


def kind_of(told):
    """What a file is, or where reading stops in it."""
    return told.get('type') or told.get('kind') or f'at {told.get("field")}'


# ---- fixed files

def fixed():
    """The files, and some of them in PEM."""
    for place in ('examples', 'tests/files', 'tests/locators'):
        for path in sorted((TOP / place).rglob('*')):
            if path.is_file() and path.name not in ('README.md', 'make.sh', 'make.py', 'path.lines'):
                octets = path.read_bytes()
                yield f'{path.relative_to(TOP)}', path.name, octets, octets
                if place == 'examples' and path.suffix != '.tal':
                    whole = in_pem(File(path.name, octets))
                    yield f'{path.relative_to(TOP)} in PEM', f'{path.name}.pem', whole, octets


# ---- random files

def ends_of(octets):
    """The two ends of the period of a certificate or of a CRL."""
    cert, crl = (folders.read(it, octets) for it in (ref.decode_cert, ref.decode_crl))
    if cert:
        return [cert.tbs.not_before, cert.tbs.not_after]
    return [crl.tbs.this_update, crl.tbs.next_update] if crl else []


def random_time(rng, files):
    """Any time, or one that is just so far from the end of a period that its text changes there."""
    ends = [end for octets in files for end in ends_of(octets) if 1 < end[0] < 9999]
    if not ends or chance(rng, 0.5):
        year = rng.choice([2026, 2026, 1999, 2050, rng.randrange(1950, 2100)])
        return year, rng.randrange(1, 13), rng.randrange(1, 29), *(rng.randrange(it) for it in (24, 60, 60))
    far = rng.choice([0, 60, 3600, 2 * 86400, 30 * 86400]) + rng.randrange(-1, 2)
    its = datetime.datetime(*rng.choice(ends)) + datetime.timedelta(seconds=far * rng.choice([-1, 1]))
    return its.timetuple()[:6]


def random_options(rng, files):
    return Options(random_time(rng, files), chance(rng, 0.7), chance(rng, 0.4))


def random_file(rng, files):
    """How a file was made, and its octets."""
    kind = rng.randrange(12)
    if kind == 0:
        return 'a certificate', compare_places.random_certificate(rng)
    if kind == 1:
        return 'a CRL', compare_places.random_list(rng)
    if kind == 2:
        return 'a TAL', questions_locators.a_locator(rng, questions_locators.a_key(rng))
    if kind == 3:
        made = rng.choice([compare_places.random_certificate, compare_places.random_list])(rng)
        return 'a to-be-signed part', ref.Cursor(made).take_sequence().capture_one()
    return compare_places.damaged(rng, files)


def named_file(rng, files):
    """How a file was made, its name, its octets, and those of its object."""
    label, octets = random_file(rng, files)
    if chance(rng, 0.1):
        octets += rng.randbytes(rng.randrange(1, 300))
    return label, random_name(rng, ''), octets, octets


def sound_files():
    """The certificates and CRLs that are damaged, without what stands behind them."""
    return [ref.Cursor(it).capture_one() for it in compare_places.files_of('examples', 'tests/files')]


def randoms(count, seed, only):
    files = sound_files()
    for index in range(count) if only is None else [only]:
        label, *rest = named_file(random.Random(f'shown {seed} {index}'), files)
        yield f'{index}: {label}', *rest


def batches(files):
    some, names = [], set()
    for file in files:
        if file[1] in names or len(some) == TOGETHER:
            yield some
            some, names = [], set()
        some.append(file)
        names.add(file[1])
    yield some


def main():
    parser = argparse.ArgumentParser(description=__doc__.splitlines()[0])
    parser.add_argument('program')
    parser.add_argument('--count', type=int, default=2000)
    parser.add_argument('--seed', default='1')
    parser.add_argument('--only', type=int)
    parser.add_argument('--save')
    options = parser.parse_args()
    program, kinds, failed, total = os.path.abspath(options.program), collections.Counter(), 0, 0
    files = [] if options.only is not None else list(fixed())
    files += randoms(options.count, options.seed, options.only)
    for number, some in enumerate(batches(files)):
        rng = random.Random(f'{options.seed} {number}')
        its = random_options(rng, [octets for *_, octets in some])
        for (label, name, whole, _), told, wrongs in zip(some, *wrongs_of(program, some, its, rng)):
            total += 1
            kinds[kind_of(told)] += 1
            if wrongs:
                failed += 1
                print(f'{label}, {name!r}:\n  ' + '\n  '.join(wrongs), flush=True)
                if options.save:
                    save(Path(options.save, str(total)), [File(name, whole)])
    for kind, times in kinds.most_common():
        print(f'{times:7} {kind}')
    return make.totals((total - failed, failed))


if __name__ == '__main__':
    sys.exit(main())
