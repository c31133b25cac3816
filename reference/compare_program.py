#!/usr/bin/env python3
"""Compares a built program with the reference, over random inputs.

    python3 reference/compare_program.py PROGRAM [--form revoked|paths] [--seed N]
            [--count N] [--jobs N] [--only INDEX] [--save FOLDER]

PROGRAM reads standard input; a name that ends in `.py` is run by this Python.
Output and status must be the reference's; the name after `decode` may be any
of a decoder's faults but `Memory`, since which of several a reader names is no
promise. Prints each difference, a histogram of the wanted answers and
`N passed, N failed`.
"""

import argparse
import collections
import concurrent.futures
import os
import re
import subprocess
import sys
from pathlib import Path

import faults
import reference as ref
from cases import PATHS, REVOKED, make_case

TIMEOUT = 60

# ------------------------------------------------------------ comparison ---

def generator_agrees(case, printed):
    """Whether the reference says what the maker of the case meant."""
    lines = printed.decode('ascii').splitlines()
    if case.expected == faults.NOTHING:
        return True
    if len(case.expected) == 1:
        return case.expected[0] in lines
    index, stage, name = case.expected
    words = lines[-1].split(' ')
    return (words[:3] == ['refused', str(index), stage] and
            name in (None, words[-1]))


DECODE_LINE = re.compile(rb'^(refused (?:\d+ )?decode )(\w+)$', re.MULTILINE)


def masked(printed):
    """Output with the free NAME after `decode` put away."""
    def mask(match):
        known = match[2].decode('ascii') in ref.DECODE_NAMES
        return match[1] + b'*' if known else match[0]
    return DECODE_LINE.sub(mask, printed)


def same(answer, wanted):
    return (masked(answer[0]), answer[1]) == (masked(wanted[0]), wanted[1])


def command_of(program):
    if program.endswith('.py'):
        return [sys.executable, program]
    return [program if os.sep in program else f'.{os.sep}{program}']


def run_program(program, data):
    try:
        done = subprocess.run(command_of(program), input=data, timeout=TIMEOUT,
                              stdout=subprocess.PIPE)
    except subprocess.TimeoutExpired:
        return b'', 'timeout'
    return done.stdout, done.returncode


def answer_kind(printed, status):
    """The histogram's label of an answer."""
    if status == ref.RUN_FAULT:
        return 'run fault (too long)'
    last = printed.decode('ascii').splitlines()
    if 'accepted' in last:
        return 'accepted'
    words = last[-1].split(' ')
    if words[0] == 'refused':
        return ' '.join(words[-2:])
    return 'bad input' if words[0] == 'bad' else words[0]


# -------------------------------------------------------------- shrinking ---

def smaller(data):
    """Inputs made from one by leaving out a line or the end of a word."""
    lines = data.split(b'\n')
    for place in range(3, len(lines)):
        yield b'\n'.join(lines[:place] + lines[place + 1:])
    for place, line in enumerate(lines):
        if len(line) > 64:
            half = (len(line) // 2 - line.rfind(b' ', 0, 20)) // 2 * 2
            cut = line[:line.rfind(b' ', 0, 20) + 1 + half]
            yield b'\n'.join(lines[:place] + [cut] + lines[place + 1:])


def shrink(data, differs, most=60):
    """A smaller input that still differs, found in few runs."""
    tries = 0
    again = True
    while again and tries < most:
        again = False
        for other in smaller(data):
            tries += 1
            if tries > most:
                break
            if differs(other):
                data, again = other, True
                break
    return data


def shown(octets, most=1200):
    text = repr(octets)
    return text if len(text) <= most else f'{text[:most]}.. ({len(octets)})'


# ------------------------------------------------------------------- main ---

def check_case(index, options):
    """Answer kind and a report, empty where all is well."""
    case = make_case(index, options.form, options.seed)

    def wanted_of(data):
        return ref.program(data)
    wanted = wanted_of(case.data)
    report = []
    if not generator_agrees(case, wanted[0]):
        report.append(f'case {index} ({case.label}): the maker of the case '
                      f'expects {case.expected}, the reference {wanted}')
    answer = run_program(options.program, case.data)
    if not same(answer, wanted):
        report.append(difference(case, wanted, options, wanted_of))
    return answer_kind(*wanted), case.label, '\n'.join(report)


def difference(case, wanted, options, wanted_of):
    def differs(data):
        return not same(run_program(options.program, data), wanted_of(data))
    small = shrink(case.data, differs)
    if options.save:
        save(Path(options.save), case, small, wanted_of(small))
    return '\n'.join([
        f'case {case.index} ({case.label}):',
        f'  expected {shown(wanted_of(small)[0])} {wanted_of(small)[1]}',
        '  got      {} {}'.format(*run_program(options.program, small)),
        f'  input    {shown(small)}'])


def save(folder, case, data, wanted):
    target = folder / f'case-{case.index}'
    target.mkdir(parents=True, exist_ok=True)
    (target / 'stdin').write_bytes(data)
    (target / 'stdout').write_bytes(wanted[0])
    (target / 'status').write_text(f'{wanted[1]}\n')


def reachable():
    """The answers that a run of the form `paths` can have."""
    inspections = sorted({name for kind in (ref.TA, ref.CA, ref.EE, ref.DETACHED)
                          for name in ref.TESTS[kind]})
    return ([f'inspect {name}' for name in inspections] +
            [f'verify {name}' for name in ref.VERIFICATION_NAMES])


def print_histogram(kinds, form, total):
    for kind, count in sorted(kinds.items(), key=lambda pair: (-pair[1], pair)):
        print(f'{count:7} {kind}')
    if form == PATHS:
        missing = [name for name in reachable() if name not in kinds]
        print('not met:', ', '.join(missing) or 'none')
        print(f'accepted: {100 * kinds["accepted"] / max(total, 1):.0f} %')


def arguments():
    parser = argparse.ArgumentParser(description='compares the line program')
    parser.add_argument('program')
    parser.add_argument('--form', choices=(REVOKED, PATHS), default=PATHS)
    parser.add_argument('--seed', type=int, default=1)
    parser.add_argument('--count', type=int, default=400)
    parser.add_argument('--jobs', type=int, default=os.cpu_count() or 1)
    parser.add_argument('--only', type=int)
    parser.add_argument('--save')
    return parser.parse_args()


def main():
    options = arguments()
    indexes = (range(options.count) if options.only is None
               else [options.only])
    kinds, failed = collections.Counter(), 0
    with concurrent.futures.ThreadPoolExecutor(options.jobs) as pool:
        for kind, _, report in pool.map(
                lambda index: check_case(index, options), indexes):
            kinds[kind] += 1
            failed += bool(report)
            if report:
                print(report)
    print_histogram(kinds, options.form, len(indexes))
    print(f'{len(indexes) - failed} passed, {failed} failed')
    return 1 if failed else 0


if __name__ == '__main__':
    sys.exit(main())
