#!/usr/bin/env python3
"""Compares the lines that the library for C has of a directory's strings with what the reference finds of them
(trees.py), and with what the command says of the same files.

    python3 reference/compare_lines.py LIBRARY [--command PROGRAM] [--count N] [--seed WORD] [--only INDEX]
            [--save FOLDER]

LIBRARY is a folder that `callers/build` made, and is asked through the package for Python, which moves values.
PROGRAM is the command, as the gate builds it or as `./rpki` compiles it; without it only the reference is asked.
The files are those of examples/, tests/circles/, tests/several/, tests/added/ and tests/anchors/, in both orders and
within several limits, and N random sets (200 if it isn't said) as those of compare_trees.py, below one TAL. Some of
these files are left out, some are there more than once, with octets behind them or another signature, and some name
the key of another one as their signer's. By chance the limits are small, names aren't asked, and names are lenient.

Compared is, of each string, the word; of an accepted certificate its kind, how many stand above it, the one right
above it and what it holds, which are those of a valid path; of a rejected one the fault, which is one of those of a
longest path; of one without a verdict its issuer, which is the first of those that stand best. Then the limits at
each CA, with the steps that are needed, how far the walk went, and where the trust anchor stands; or the fault if
none is valid. The command has to say the same words, with the same issuers of those without a verdict.

Prints each difference, what was said how often, and at the end `N passed, M failed`.
"""

import argparse
import collections
import itertools
import json
import os
import random
import sys
import tempfile
from datetime import datetime, timezone
from pathlib import Path

import compare_trees
import folders
import make
import random_folders
import reference as ref
import trees
import walks
from compare_answers import file_of, locator_of, save
from held import ranges_held
from profiles import CA, DETACHED, EE, ROUTER
from random_paths import chance
from trees import Question
from verdicts import Fault, File

TOP = Path(__file__).resolve().parent.parent
# the words of trees.py by those of the library, where these are others
WORDS = {'anchor': 'trust_anchor', 'list': 'crl'}
KINDS = {CA: 'AUTHORITY', EE: 'END_ENTITY', DETACHED: 'DETACHED', ROUTER: 'ROUTER'}
STEPS = {3: 'profile', 4: 'verification', 5: 'revocation'}


# ---- what is asked

def named(strings):
    return [File(f'{place:03}.cer', octets) for place, octets in enumerate(strings)]


def fixed():
    """Questions about directories of files, in both orders."""
    places = [('examples', 'anchor.tal'),
              *((f'tests/{it}', 'ta.tal') for it in ('circles', 'several', 'added', 'anchors'))]
    bounds = [(32, 10_000_000), (1, 10_000_000), (2, 10_000_000), (3, 10_000_000), (32, 1), (32, 3), (32, 5), (32, 20),
              (2, 9), (3, 200)]
    for place, tal in places:
        some = [it.read_bytes() for it in sorted((TOP / place).iterdir()) if it.suffix in ('.cer', '.crl', '.sh')]
        few = [it for it in some if folders.read(ref.decode_crl, it) is None]
        turn = itertools.cycle([(True, 2026), (False, 2026), (True, 2026), (True, 2040)])
        for strings, (depth, steps) in itertools.product((some, some[::-1], few, some[1::2], some[::2]), bounds):
            names, year = next(turn)
            yield place, Question(named(strings), [file_of(f'{place}/{tal}')], names, True, (year, 11, 25, 0, 0, 0),
                                  depth, steps)


def renamed(rng, octets, certs):
    """A certificate that names the key of another one as its signer's, which didn't sign this."""
    cert = folders.read(ref.decode_cert, octets)
    own = cert and cert.tbs.authority_key_identifier
    return octets.replace(own, rng.choice(certs).tbs.subject_key_identifier, 1) if own else octets


def again(rng, octets):
    """A string once more, with octets behind it, or with another signature."""
    return rng.choice([octets, octets + b'\0', octets[:-1] + bytes([octets[-1] ^ 1]) if octets else b''])


def random_strings(rng, pool):
    """Strings, and the key of their trust anchor."""
    some, keys, _ = compare_trees.random_files(rng, pool)
    strings = [octets for _, octets in some if not chance(rng, 0.1)]
    certs = [it for it in (folders.read(ref.decode_cert, octets) for octets in strings) if it]
    for _ in range(rng.choice([0, 1, 2, 4]) if certs else 0):
        place = rng.randrange(len(strings))
        strings[place] = renamed(rng, strings[place], certs)
    for _ in range(rng.choice([0, 1, 3, 6]) if strings else 0):
        strings.insert(rng.randrange(len(strings) + 1), again(rng, rng.choice(strings)))
    return strings, keys[0]


def random_question(rng, pool):
    strings, key = random_strings(rng, pool)
    locator = File('ta.tal', locator_of(rng, key))
    now = rng.choice([random_folders.NOW] * 20 + [(2024, 1, 1, 0, 0, 0), (2050, 1, 1, 0, 0, 0)])
    return Question(named(strings), [locator], chance(rng, 0.7), chance(rng, 0.8), now,
                    rng.choice([32, 32, 6, 1, 2, 3]), rng.choice([10_000_000, 10_000_000, 6000, rng.randrange(1, 60)]))


def randoms(count, seed, only):
    pool = compare_trees.new_signers()
    for index in range(count) if only is None else [only]:
        yield f'strings {index}', random_question(random.Random(f'lines {seed} {index}'), pool)


# ---- what the library says

def package(library):
    """The package for Python, over this library."""
    os.environ['RPKI_LIBRARY'] = os.path.abspath(library)
    sys.path.insert(0, str(TOP / 'callers' / 'python'))
    import rpki
    return rpki


def judged(rpki, question, check_key):
    """The lines, or the fault. The keys are such as the RPKI uses."""
    try:
        return rpki.judge_folder(
            [it.octets for it in question.files], locator=question.locators[0].octets,
            at=datetime(*question.now, tzinfo=timezone.utc), strict=question.strict, chain_names=question.names,
            check_key=check_key, depth=question.depth, steps=question.steps)
    except rpki.Fault as fault:
        return fault


def word(line):
    name = line.state.name.lower()
    return WORDS.get(name, name)


def told_of(question, said):
    """What is said where no page says which of several is: the trust anchor, and the faults."""
    tal = {'tal': question.locators[0].name, 'trust_anchor': question.files[said.anchor].name}
    lines = [{'index': it.step, 'step': STEPS.get(it.fault.number // 100), 'fault': it.fault.name} if it.fault else {}
             for it in said.lines]
    return {'tals': [tal], 'files': lines}


def ranges_said(held):
    addresses = [tuple((int(low), int(high)) for low, high in it.ranges) for it in (held.ipv4, held.ipv6)]
    return (*addresses, tuple((it[0], it[-1]) for it in held.as_numbers.ranges))


# ---- how it differs from what is found

def accepted_wrongs(found, place, line):
    """What is said of an accepted certificate is that of a valid path to it."""
    valid = [(KINDS[it.kind], len(it.above), it.above[-1], ranges_held(it.accepted.holder))
             for it in found.parts[0].verdicts[place] if it.accepted]
    said = line.kind.name, line.step, line.issuer, ranges_said(line.held)
    if said not in valid:
        yield f'{place} is accepted as {said}, and wanted one of {valid}'


def line_wrongs(found, place, line):
    said, wanted = word(line), found.rows[place].said
    if said != wanted.word:
        yield f'{place} is {said}, issuer {line.issuer}, and wanted {wanted.word}, issuer {wanted.issuer}'
    elif said == 'accepted':
        yield from accepted_wrongs(found, place, line)
    elif said == 'rejected':
        fault, cert = (line.step, line.fault.name), dict(found.certs)[place]
        if fault != (wanted.fault.index, wanted.fault.name) or line.kind.name != KINDS[folders.said_kind(cert.tbs)]:
            yield f'{place} is rejected as {line.kind}, by {fault}, and wanted {wanted.fault}'
    elif line.issuer != wanted.issuer:
        yield f'the issuer of {place}, which is {said}, is {line.issuer}, and wanted {wanted.issuer}'


def limits_of(part):
    """Of each place at which a limit was reached on some path: which ones, and the least steps that are needed."""
    return {place: (any(it.word == 'depth' for it in some), any(it.word == 'steps' for it in some),
                    min((it.steps for it in some if it.steps is not None), default=None))
            for place, some in part.limits.items() if some}


def walk_wrongs(question, found, said):
    if isinstance(found, Fault) or not found.parts[0].anchors:
        yield f'there is a trust anchor at {said.anchor}, and wanted none'
        return
    part = found.parts[0]
    if said.anchor != part.anchors[0]:
        yield f'the trust anchor is at {said.anchor}, and wanted one of {part.anchors}'
    if len(said.lines) != len(question.files):
        yield f'there are {len(said.lines)} lines of {len(question.files)} strings'
    for place, line in enumerate(said.lines):
        yield from line_wrongs(found, place, line)
    limits = {it.ca: (it.at_depth, it.out_of_steps, it.steps_needed) for it in said.limited}
    if limits != limits_of(part):
        yield f'limits are {limits}, and wanted {limits_of(part)}'
    if said.is_whole != (part.ended == 'whole'):
        yield f'whole is {said.is_whole}, and the walk is {part.ended}'


def fault_wrongs(found, fault):
    """What is wrong of a fault: of the TAL, of no certificate with its key, or of the first that has it."""
    if isinstance(found, Fault):
        wanted = None, found.name
    elif found.parts[0].anchors:
        wanted = 'no fault'
    else:
        wrong = found.parts[0].wrong
        wanted = (min(wrong), wrong[min(wrong)].name) if wrong else (None, 'OtherKey')
    if (fault.member, fault.name) != wanted:
        yield f'the fault is {fault.member}, {fault.name}, and wanted {wanted}'


def command_wrongs(program, question, said):
    """How the command's words, and the issuers that it names, differ."""
    with tempfile.TemporaryDirectory() as room:
        for file in [*question.files, *question.locators]:
            Path(room, file.name).write_bytes(file.octets)
        words, names = compare_trees.words_of(question), [it.name for it in question.files]
        _, told, errors = compare_trees.answers(program, room, ['-j', *words], names)
    if not told:
        yield f'the command says nothing: {errors}'
        return
    for place, (line, file) in enumerate(zip(said.lines, json.loads(told)['files'])):
        issuer = names[line.issuer] if line.is_unjudged and line.issuer is not None else None
        if (word(line), issuer) != (file['verdict'], file.get('issuer')):
            yield f'{place} is {word(line)}, issuer {issuer}, and the command says {file}'


def wrongs_of(rpki, program, question, check_key):
    said = judged(rpki, question, check_key)
    if isinstance(said, rpki.Fault):
        found = trees.find(question, {})
        return said, list(fault_wrongs(found, said))
    found = trees.find(question, told_of(question, said))
    wrongs = list(walk_wrongs(question, found, said))
    return said, wrongs + (list(command_wrongs(program, question, said)) if program else [])


# ---- the run

def kinds_of(rpki, said):
    if isinstance(said, rpki.Fault):
        return [f'no trust anchor: {said.name}']
    return [*map(word, said.lines), f'a walk that was {"" if said.is_whole else "not "}whole']


def main():
    parser = argparse.ArgumentParser(description=__doc__.splitlines()[0])
    parser.add_argument('library')
    parser.add_argument('--command')
    parser.add_argument('--count', type=int, default=200)
    parser.add_argument('--seed', default='1')
    parser.add_argument('--only', type=int)
    parser.add_argument('--save')
    options = parser.parse_args()
    rpki, program = package(options.library), options.command and os.path.abspath(options.command)
    kinds, failed, total = collections.Counter(), 0, 0
    its = [] if options.only is not None else fixed()
    for label, question in itertools.chain(its, randoms(options.count, options.seed, options.only)):
        total += 1
        try:
            said, wrongs = wrongs_of(rpki, program, question, total % 2 == 0)
        except walks.TooMany:
            kinds['too many paths'] += 1
            continue
        kinds.update(kinds_of(rpki, said))
        if wrongs:
            failed += 1
            print(f'{label}: {" ".join(compare_trees.words_of(question))}\n  ' + '\n  '.join(wrongs), flush=True)
            if options.save:
                save(Path(options.save, str(total)), [*question.files, *question.locators])
    for kind, times in kinds.most_common():
        print(f'{times:7} {kind}')
    return make.totals((total - failed, failed))


if __name__ == '__main__':
    sys.exit(main())
