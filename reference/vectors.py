"""Files of vectors: a name, a question and an answer on three adjacent lines.

An empty line stands between vectors; a line that begins with `#` is a heading.
"""

import re
from pathlib import Path
from typing import NamedTuple

DATA = Path(__file__).resolve().parent.parent / 'crates/rpki_vectors/data'


class Vector(NamedTuple):
    name: str
    question: str
    answer: str


class Malformed(Exception):
    """What is wrong with a file of vectors, and in which line."""


def read(path):
    """The vectors of a file."""
    vectors, block = [], []
    lines = path.read_text().split('\n') + ['']
    for number, line in enumerate(lines, 1):
        if line and not line.startswith('#'):
            block.append(line)
            continue
        if len(block) == 3:
            vectors.append(Vector(*block))
        elif block:
            raise Malformed(f'{path.name}:{number}: a vector of {len(block)} lines')
        block = []
    return vectors


def with_octets(question):
    """The question with the octets of NAME.der for each `@NAME`, if it is there."""
    def octets(found):
        path = DATA / f'{found[1]}.der'
        return path.read_bytes().hex() if path.exists() else found[0]
    return re.sub('@([a-z0-9-]+)', octets, question)


def written(heading, vectors):
    """The text of a file."""
    blocks = [f'# {heading}\n'] + [
        f'{vector.name}\n{vector.question}\n{vector.answer}\n' for vector in vectors]
    return '\n'.join(blocks)
