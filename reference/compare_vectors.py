#!/usr/bin/env python3
"""Compares the built program of test vectors with the reference, over random questions.

    python3 reference/compare_vectors.py PROGRAM NAME [--count N] [--seed N]

NAME is that of a block of `make.py`; the questions are those of another seed than
its file has. Prints each question that the program answers otherwise, a histogram
of the wanted answers, and `N passed, M failed`.
"""

import argparse
import collections
import random
import re
import subprocess
import sys
import tempfile
from pathlib import Path

import answers
import make
import vectors

MOST_SECONDS = 600


def made(name, seed, count):
    """So many vectors of a block, each with the reference's answer."""
    found = []
    for index in range(count):
        rng = random.Random(f'{name} compared {seed} {index}')
        label, question = make.BLOCKS[name].make(rng)
        found.append(vectors.Vector(f'{name} {index}: {label}', question,
                                    answers.answer(question)))
    return found


def compare(program, name, seed, count):
    """What the program printed of the vectors, and how many it has passed."""
    asked = made(name, seed, count)
    for verdict, times in collections.Counter(
            make.verdict(vector.answer) for vector in asked).most_common():
        print(f'{times:7} {verdict}')
    with tempfile.TemporaryDirectory() as folder:
        path = Path(folder) / f'{name}.vectors'
        path.write_text(vectors.written(f'{name}, of the seed {seed}', asked))
        ran = subprocess.run([program, path.name], cwd=folder, check=False,
                             stdout=subprocess.PIPE, timeout=MOST_SECONDS)
    printed = ran.stdout.decode()
    counts = re.search(r'^all: (\d+) vectors, (\d+) passed$', printed, re.M)
    passed = int(counts[2]) if counts and int(counts[1]) == count else 0
    if passed < count:
        print(printed, end='')
    return passed, count - passed


def main():
    parser = argparse.ArgumentParser()
    parser.add_argument('program')
    parser.add_argument('name', choices=make.BLOCKS)
    parser.add_argument('--count', type=int, default=10000)
    parser.add_argument('--seed', type=int, default=1)
    words = parser.parse_args()
    program = str(Path(words.program).resolve())
    return make.totals(compare(program, words.name, words.seed, words.count))


if __name__ == '__main__':
    sys.exit(main())
