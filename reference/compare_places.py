#!/usr/bin/env python3
"""Compares where the command says that reading stops with the reference, over damaged files.

    python3 reference/compare_places.py PROGRAM [--count N] [--seed N] [--cuts] [--save FOLDER]

PROGRAM is the command. The files are certificates and lists, those of examples/ and tests/files/ and
random ones, with N damages by chance: octets changed, dropped or put in, values with another tag,
length or content, dropped, exchanged or put in, what ends too early, and the faults of faults.py.
With --cuts they are also the files of examples/, cut at each octet, once as they stand and once with
the lengths mended of all values that are open there.

Of each file the field and the octet have to be those of places.py, what is found there that of
flaws.py, and a file that it reads has to be shown. Prints each difference, which fields were told how often, and `N passed, M failed`.
"""

import argparse
import collections
import json
import random
import subprocess
import sys
import tempfile
from pathlib import Path

import cases
import faults
import flaws
import make
import places
import questions
import random_paths as sound
import reference as ref

TOP = Path(__file__).resolve().parent.parent
TOGETHER = 500              # files in one run
MOST_SECONDS = 120
LOCATORS = (b'#', b'rsync:', b'http')       # what begins so is told as a locator


# ---------------------------------------------------------------- sound files ---

def files_of(*folders):
    return [path.read_bytes() for folder in folders
            for path in sorted((TOP / folder).iterdir()) if path.suffix in ('.cer', '.crl')]


def random_certificate(rng):
    draft = rng.choice(sound.random_path(rng, 3).drafts)
    draft.tail = b''
    return draft.octets()


def random_list(rng):
    f, _ = questions.list_fields(rng)
    data = ref.encode_list(f, questions.list_extensions(rng, f, 'sound'))
    return ref.stand_in_sign(sound.random_key(rng), f.signature, data).octets()


# -------------------------------------------------------------------- damages ---

def is_open(tag, content):
    """Whether values stand inside a value."""
    return tag & 0x20 or tag == 0x04 and faults.opened(content) != content


def cut(octets, place):
    """Octets up to a place, with the lengths mended of the values that are open there."""
    cursor, whole = ref.Cursor(octets), b''
    while not cursor.is_empty():
        begin = cursor.place
        tag, start, end = cursor.head()
        if place <= start:
            return whole + octets[begin:place]
        if place < end:
            content, rest = octets[start:end], place - start
            inner = cut(content, rest) if is_open(tag, content) else content[:rest]
            return whole + ref.enc(tag, inner)
        whole += cursor.capture_one()
    return whole


def in_tree(change):
    """Damage of the values, behind which the lengths around are right again."""
    def damage(rng, octets):
        nodes = faults.forest(octets)
        for _ in range(rng.choice([1, 1, 2])):
            if nodes:
                change(rng, nodes)
        return b''.join(node.octets() for node in nodes)
    return damage


def exchange(rng, nodes):
    """Two values of any places change places; of one inside the other nothing is left."""
    vectors = [vector for vector in faults.all_vectors(nodes) if vector]
    one, other = rng.choice(vectors), rng.choice(vectors)
    first, second = rng.randrange(len(one)), rng.randrange(len(other))
    if not (holds(one[first], other) or holds(other[second], one)):
        one[first], other[second] = other[second], one[first]


def holds(node, vector):
    return isinstance(node.content, list) and any(
        it is vector for it in faults.all_vectors(node.content))


def doubled_cut(rng, octets):
    return cut(octets, rng.randrange(len(octets)))


DAMAGES = {
    'octets': faults.change_octets,
    'values': in_tree(faults.change_tree),
    'exchanged': in_tree(exchange),
    'ends early': doubled_cut,
}


def spoiled_certificate(rng):
    """A certificate with a fault that its decoder tells."""
    name = rng.choice(list(faults.DRAFT_FAULTS))
    path, (index, *_) = cases.spoiled_path(
        rng, faults.draft_fault(faults.DRAFT_FAULTS[name]), 3)
    return name, path.drafts[index].octets()


def damaged(rng, files):
    """How a file was damaged, and its octets."""
    if sound.chance(rng, 0.2):
        return spoiled_certificate(rng)
    if sound.chance(rng, 0.1):
        return questions.random_list(rng)[:2]
    octets = rng.choice([lambda: rng.choice(files), lambda: random_certificate(rng),
                         lambda: random_list(rng)])()
    name = rng.choice(list(DAMAGES))
    return name, DAMAGES[name](rng, octets)


def all_cuts():
    for number, octets in enumerate(files_of('examples')):
        for place in range(len(octets)):
            yield f'file {number} cut at {place}', octets[:place]
            yield f'file {number} ended at {place}', cut(octets, place)


def by_chance(count, seed):
    files = [ref.Cursor(octets).capture_one() for octets in files_of('examples', 'tests/files')]
    for index in range(count):
        rng = random.Random(f'places {seed} {index}')
        name, octets = damaged(rng, files)
        while octets.startswith(LOCATORS):
            name, octets = damaged(rng, files)
        yield f'{index}: {name}', octets


# ----------------------------------------------------------------- comparison ---

def told_of(program, files):
    """What the command tells of each of some files: a place and what is found there, or None of what
    it shows."""
    with tempfile.TemporaryDirectory() as room:
        names = [f'{number:04}' for number in range(len(files))]
        for name, octets in zip(names, files):
            Path(room, name).write_bytes(octets)
        done = subprocess.run([program, 'show', '-o', 'jsonl', *names], cwd=room, check=False,
                              stdin=subprocess.DEVNULL, capture_output=True,
                              timeout=MOST_SECONDS)
    said = [json.loads(line) for line in done.stdout.splitlines()]
    if done.returncode > 1 or [it['file'] for it in said] != names:
        raise SystemExit(f'{program}: status {done.returncode}, {done.stderr.decode()}')
    return [(places.Place(it['field'], it['byte']), it.get('found')) if 'fault' in it else None
            for it in said]


def is_read(octets):
    """Whether the reference's readers of a certificate and of a list read one at the front."""
    for decode in (ref.decode_cert, ref.decode_crl):
        try:
            decode(octets)
            return True
        except ref.DecodeError:
            pass
    return False


class Run:
    def __init__(self, options):
        self.program, self.save = str(Path(options.program).resolve()), options.save
        self.fields, self.found = collections.Counter(), collections.Counter()
        self.passed, self.failed = 0, 0

    def compare(self, some):
        answers = told_of(self.program, [octets for _, octets in some])
        for (label, octets), answer in zip(some, answers):
            place = places.place_of(octets)
            wanted = place and (place, flaws.found_at(octets, place))
            self.fields[place.field if place else 'none: it is read'] += 1
            self.found[(wanted[1] or 'nothing is told') if wanted else 'it is read'] += 1
            if answer == wanted and is_read(octets) == (wanted is None):
                self.passed += 1
                continue
            self.failed += 1
            print(f'{label}:\n  wanted   {wanted}\n  answered {answer}')
            if self.save:
                Path(self.save, f'differs-{self.failed}').write_bytes(octets)

    def go(self, files):
        some = []
        for file in files:
            some.append(file)
            if len(some) == TOGETHER:
                self.compare(some)
                some = []
        if some:
            self.compare(some)


def main():
    parser = argparse.ArgumentParser(description='compares where reading stops')
    parser.add_argument('program')
    parser.add_argument('--count', type=int, default=2000)
    parser.add_argument('--seed', type=int, default=1)
    parser.add_argument('--cuts', action='store_true')
    parser.add_argument('--save')
    options = parser.parse_args()
    run = Run(options)
    if options.cuts:
        run.go(all_cuts())
    run.go(by_chance(options.count, options.seed))
    for counts in (run.fields, run.found):
        for told, times in counts.most_common():
            print(f'{times:7} {told}')
    return make.totals((run.passed, run.failed))


if __name__ == '__main__':
    sys.exit(main())
