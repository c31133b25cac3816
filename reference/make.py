#!/usr/bin/env python3
"""Makes the files of made vectors again, to the same octets.

    python3 reference/make.py NAME > crates/rpki_vectors/data/made-NAME.vectors
    python3 reference/make.py --all         # writes all of them
    python3 reference/make.py --check       # makes all, and compares
    python3 reference/make.py --judge       # asks the reference all other vectors
    python3 reference/make.py --counts > crates/rpki_vectors/stdout

A file depends on its name, its seed, this folder, and on the other files of
vectors, whose questions it doesn't ask again. `--check` makes all files in memory
and compares them with those that stand; `--judge` asks the reference the
questions of all other files, whose answers are from elsewhere, and tells of
questions that are asked twice. Both print each difference, `N passed,
M failed`, and exit with 1 where anything differs. `--counts` prints how many
vectors each file of `crates/rpki_vectors/args` has, as the program does that passes.
"""

import collections
import functools
import random
import sys
from typing import Callable, NamedTuple

import answers
import questions as q
import questions_folders
import questions_locators
import questions_parts as p
import vectors


class Block(NamedTuple):
    """What a file is about, how many vectors it has, and what makes a question."""
    about: str
    count: int
    make: Callable
    seed: int = 1
    most: int = 6000            # characters of a question


BLOCKS = {
    'values': Block('values of DER, by one call of a cursor', 420, p.VALUES),
    'written': Block('values that are written', 90, p.write_question),
    'times': Block('serial numbers and times', 220, p.NUMBERS_AND_TIMES),
    'parts': Block('names, keys, algorithms, signed data', 100, p.PARTS),
    'uris': Block('URIs', 520, p.URIS),
    'locators': Block('trust anchor locators', 60,
                      questions_locators.locator_question, most=3000),
    'prefixes': Block('prefixes and modes', 70, p.PREFIXES),
    'addresses': Block('two sets of addresses', 110,
                       p.sets_question('addresses')),
    'asns': Block('two sets of AS numbers', 110, p.sets_question('asns')),
    'resources': Block('contents of the extensions with resources', 60,
                       p.resources_question),
    'extensions': Block('contents of other extensions, and whole extensions',
                        280, p.extension_question),
    'data': Block('what is signed of certificates', 60, q.data_question,
                  most=3000),
    'certificates': Block('certificates', 190, q.certificate_question,
                          most=4000),
    'making': Block('certificates that are made', 60, q.make_question,
                    most=3000),
    'list': Block('revocation lists', 220, q.list_question, most=5000),
    'inspect': Block('inspection as each kind', 300, q.inspect_question,
                     most=4000),
    'validate': Block('validation below issuers', 340, q.validate_question,
                      most=9000),
    'path': Block('whole paths', 240, q.path_question),
    'names': Block('names of paths', 120, q.names_question, most=9000),
    'runs': Block('inputs of the line program', 260, q.run_question),
    'rearranged': Block('certificates in another order, with extras', 300,
                        q.rearrange_question, most=4000),
    'revocation': Block('paths that ask revocation lists', 300,
                        q.revocation_question, most=9000),
    'folders': Block('walks through folders', 20,
                     questions_folders.folder_question, most=24000),
}


def verdict(answer):
    """What an answer is counted under, so that no sort takes all the vectors."""
    words = answer.split(' ')
    if words[0] != 'refused':
        return words[0]
    return ' '.join(w for w in words[:4] if not w.isdigit() and '=' not in w)


def random_vector(name, index):
    block = BLOCKS[name]
    rng = random.Random(f'{name} {block.seed} {index}')
    label, question = block.make(rng)
    return label, question


@functools.cache
def asked_elsewhere():
    """The questions of the files that are not made here."""
    made = [file_of(name) for name in BLOCKS]
    return {vectors.with_octets(vector.question)
            for path in vectors.DATA.glob('*.vectors') if path not in made
            for vector in vectors.read(path)}


def vectors_of(name):
    """The vectors of a file: questions in turn, none twice, of all verdicts."""
    block, made, seen = BLOCKS[name], [], set(asked_elsewhere())
    kinds, index = collections.Counter(), 0
    while len(made) < block.count:
        label, question = random_vector(name, index)
        index += 1
        if question in seen or len(question) > block.most:
            continue
        seen.add(question)
        answer = answers.answer(question)
        if kinds[verdict(answer)] >= most_of(name, verdict(answer)):
            continue
        kinds[verdict(answer)] += 1
        made.append(vectors.Vector(f'{name} {len(made) + 1}: {label}', question,
                             answer))
    return made


def most_of(name, kind):
    """How many vectors may have a verdict."""
    count = BLOCKS[name].count
    if name in ('inspect', 'written', 'prefixes', 'addresses', 'asns', 'runs',
                'making'):
        return count
    if name == 'names':
        return count // 2
    return count * 3 // 5 if kind == 'ok' else max(count // 4, 4)


def file_of(name):
    return vectors.DATA / f'made-{name}.vectors'


def text_of(name):
    block = BLOCKS[name]
    heading = (f'Made by reference/make.py {name} from the seed {block.seed}: '
               f'{block.about}.')
    return vectors.written(heading, vectors_of(name))


def check():
    """Compares each file of made vectors with what is made again."""
    failed = 0
    for name in BLOCKS:
        path = file_of(name)
        stands = path.read_text() if path.exists() else None
        if stands != text_of(name):
            failed += 1
            print(f'{path.name}: '
                  f'{"is absent" if stands is None else "is made otherwise"}')
    return len(BLOCKS) - failed, failed


def judge_vector(path, vector):
    """Whether a vector's answer is the reference's; None where it has no word."""
    answer = answers.answer(vectors.with_octets(vector.question))
    if answer is not None and answer != vector.answer:
        print(f'{path.name}: {vector.name}\n  stands     {vector.answer}\n'
              f'  reference  {answer}')
    return None if answer is None else answer == vector.answer


def judge():
    """Asks the reference each vector that it didn't make."""
    asked, verdicts = collections.Counter(), collections.Counter()
    made = [file_of(name) for name in BLOCKS]
    for path in sorted(vectors.DATA.glob('*.vectors')):
        for vector in vectors.read(path):
            asked[vectors.with_octets(vector.question)] += 1
            if path not in made:
                verdicts[judge_vector(path, vector)] += 1
    twice = [question for question, count in asked.items() if count > 1]
    for question in twice:
        print(f'asked twice: {question[:120]}')
    if verdicts[None]:
        print(f'{verdicts[None]} vectors have words that the reference has not')
    return verdicts[True], verdicts[False] + len(twice)


def counts():
    """What the program prints that passes all vectors."""
    names = (vectors.DATA.parent / 'args').read_text().split()
    found = {name: len(vectors.read(vectors.DATA / name)) for name in names}
    found['all'] = sum(found.values())
    return ''.join(f'{name}: {count} vectors, {count} passed\n'
                   for name, count in found.items())


def totals(counts):
    print('{} passed, {} failed'.format(*counts))
    return 1 if counts[1] else 0


def main(words):
    if words == ['--check']:
        return totals(check())
    if words == ['--judge']:
        return totals(judge())
    if words == ['--counts']:
        sys.stdout.write(counts())
        return 0
    if words == ['--all']:
        for name in BLOCKS:
            file_of(name).write_text(text_of(name))
        return 0
    if len(words) != 1 or words[0] not in BLOCKS:
        print(__doc__, 'Names:', ', '.join(BLOCKS), file=sys.stderr)
        return 2
    sys.stdout.write(text_of(words[0]))
    return 0


if __name__ == '__main__':
    sys.exit(main(sys.argv[1:]))
