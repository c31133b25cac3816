#!/usr/bin/env python3
"""Asks every caller of the library, and the command, about random paths with real signatures.

    [RPKI_LIBRARY=FOLDER] python3 tests/signed_paths.py [--count N] [--seed WORD] [--python]
        [--c PROGRAM] [--rust PROGRAM] [--command PROGRAM]

PROGRAM is callers/c/validate.c or callers/rust/examples/validate.rs, compiled, or the command.
--python asks the package, whose library FOLDER has (`./rpki library FOLDER`). Who isn't named isn't
asked. The paths are those of reference/random_paths.py, half of them with a fault: first one path for
each fault that reference/faults.py makes, then random ones, N in all (200 if it is left out). Their
keys are RSA keys of 2048 bits, and they are signed anew by these. A seed gives the same paths again.

What is wanted is what reference/ answers with its own verifier: the member that is wrong first and
the fault, or the numbers that are held; so each caller has to give the answer of all others. Of a
member that can't be read the fault's name is free. A fault's number has to be the header's, for each
caller that prints numbers. Prints each difference, which faults were met, and at the end `N passed, M
failed`; the status is 1 where anything differs.
"""
import argparse
import collections
import dataclasses
import ipaddress
import json
import os
import random
import re
import subprocess
import sys
import tempfile
from datetime import datetime, timezone
from pathlib import Path

TOP = Path(__file__).resolve().parent.parent
sys.path[:0] = [str(TOP / 'reference'), str(TOP / 'callers' / 'python')]

import cases
import faults
import random_paths
import reference as ref
import rsa
from held import ranges_held, ranges_of
from signers import Signer

KEYS = 5
LAST = {ref.TA: 'authority', ref.CA: 'authority', ref.EE: 'ee', ref.DETACHED: 'detached'}
FAMILIES = (ipaddress.IPv4Address, ipaddress.IPv6Address)


# ---- keys and signatures

def signed(rng, draft, signers):
    """The certificate, signed by the key that the draft names."""
    data = draft.tbs_octets()
    signer = signers.get(draft.signer.bits)
    signature = draft.signature
    if signer and signature is None:
        signature = signer.sign(data)
    elif signer and rng.random() < 0.5:     # the draft's is a wrong one: here one that is nearly right
        octets = bytearray(signer.sign(data))
        octets[rng.randrange(256)] ^= 1 << rng.randrange(8)
        signature = bytes(octets)
    elif signature is None:
        signature = draft.signer.bits + data
    return ref.SignedData(data, draft.outer_null, signature).octets() + draft.tail


# ---- paths

def chain_names(drafts):
    """Names each member's issuer as the member above it."""
    for place, draft in enumerate(drafts):
        if draft.data is None:
            above = drafts[max(place - 1, 0)].f.subject
            draft.f = dataclasses.replace(draft.f, issuer=above)


def drafted(rng, label):
    """A random path, with the fault of this label, or with one or none by chance."""
    share = rng.random()
    if label in faults.PROFILE_FAULTS or label is None and share < 0.35:
        label = label or rng.choice(list(faults.PROFILE_FAULTS))
        path, _ = cases.spoiled_path(rng, faults.PROFILE_FAULTS[label], 4)
    elif label in faults.DRAFT_FAULTS or label is None and share < 0.5:
        label = label or rng.choice(list(faults.DRAFT_FAULTS))
        path, _ = cases.spoiled_path(rng, faults.draft_fault(faults.DRAFT_FAULTS[label]), 4)
    else:
        label, path = 'none', random_paths.random_path(rng, 4)
    return label, path


def strict_path(rng, label):
    """Such a path, whose names are those of the strict mode, in which all are asked."""
    found = drafted(rng, label)
    while not found[1].strict:
        found = drafted(rng, label)
    return found


@dataclasses.dataclass
class Question:
    """Members with their kinds, and a day at whose beginning they are judged."""
    label: str
    kinds: list
    members: list
    day: tuple
    wanted: dict = dataclasses.field(default_factory=dict)

    def wanted_as(self, kinds):
        """What is wanted of its members as these kinds; worked out once."""
        found = self.wanted.get(tuple(kinds))
        if found is None:
            found = self.wanted[tuple(kinds)] = wanted_of(self, kinds)
        return found

    def moment(self):
        return (*self.day, 0, 0, 0)

    def text_of_day(self):
        return '%04d-%02d-%02d' % self.day


def question_of(rng, label, signers):
    label, path = strict_path(rng, label)
    if label != 'Issuer' and rng.random() < 0.85:
        chain_names(path.drafts)
    members = [signed(rng, draft, signers) for draft in path.drafts]
    return Question(label, [draft.kind for draft in path.drafts], members, path.now[:3])


# ---- what is wanted

@dataclasses.dataclass(frozen=True)
class Answer:
    """The member that is wrong first and its fault, '-' where it can't be read; or what is held."""
    member: int = None
    fault: str = None
    held: tuple = ()


def wanted_of(question, kinds):
    pairs = list(zip(kinds, question.members))
    try:
        result = ref.validate_path(pairs, True, question.moment(), rsa.verifier)
    except ref.PathError as error:
        return Answer(error.index, '-' if error.stage == 'decode' else str(error.fault))
    place = ref.first_unchained(question.members)
    if place is not None:
        return Answer(place, 'OtherName')
    return Answer(held=ranges_held(result))


def said_kind(octets):
    """What a certificate says that it is, which `rpki validate` goes by; None of a router's."""
    try:
        tbs = ref.decode_cert(octets, ref.DEPTH).tbs
    except ref.DecodeError:
        return ref.CA
    if tbs.extended_key_usage is not None and ref.OID_ROUTER in tbs.extended_key_usage:
        return None
    if tbs.basic_ca is True:
        return ref.CA
    if tbs.signed_object is not None:
        return ref.EE
    return None if tbs.key.format == ref.P256 else ref.DETACHED


def labelled(rng, label, signers):
    """A path with the fault of this label, which is drawn again where another is met before it."""
    question = question_of(rng, label, signers)
    while label in faults.PROFILE_FAULTS and question.wanted_as(question.kinds).fault != label:
        question = question_of(rng, label, signers)
    return question


# ---- who is asked

class Faults:
    """The header's numbers of faults, and which of them were met."""

    def __init__(self):
        text = (TOP / 'include' / 'rpki.h').read_text()
        self.names = {int(number): name
                      for name, number in re.findall(r'^ +(RPKI_\w+) = (\d+)', text, re.M)}
        self.met = collections.Counter()

    def checked(self, number, name):
        """The name, '-' of a fault of reading. Its number is the header's of this name, to which that
        of a field is added where it names one."""
        upper = re.sub(r'([a-z0-9])([A-Z])', r'\1_\2', name).upper()
        first = number - number % 20 if 120 <= number < 220 else number
        if not self.names.get(first, '').endswith('_' + upper):
            return f'{name} with the number {number}'
        self.met[number] += 1
        return '-' if number < 300 else name


def ran(*words):
    return subprocess.run([str(word) for word in words], stdin=subprocess.DEVNULL,
                          capture_output=True, text=True, timeout=60)


class Printer:
    """A caller that prints lines: that of C, or of Rust."""

    def __init__(self, program, known):
        self.program, self.known = Path(program).resolve(), known

    def answer(self, question, files):
        done = ran(self.program, question.text_of_day(), LAST[question.kinds[-1]], *files)
        found = re.match(r'refused: member (\d+), fault (\d+), (\w+): .+\n$', done.stdout)
        if found and done.returncode == 1:
            member, number, name = found.groups()
            return Answer(int(member), self.known.checked(int(number), name))
        head, *lines = done.stdout.splitlines() or ['']
        if head != 'accepted; held are' or done.returncode != 0:
            return f'status {done.returncode}: {done.stdout}{done.stderr}'
        held = ([], [], [])
        for low, high in (line.split('-') for line in lines):
            low, high = low.strip(), high.strip()
            if low.startswith('AS'):
                held[2].append((int(low[2:]), int(high[2:])))
            else:
                family = 1 if ':' in low else 0
                held[family].append(tuple(int(FAMILIES[family](end)) for end in (low, high)))
        return Answer(held=tuple(map(tuple, held)))


class Package:
    """The package for Python."""

    def __init__(self, known):
        import rpki
        self.rpki, self.known = rpki, known
        self.last = {ref.TA: rpki.Kind.AUTHORITY, ref.CA: rpki.Kind.AUTHORITY,
                     ref.EE: rpki.Kind.END_ENTITY, ref.DETACHED: rpki.Kind.DETACHED}

    def answer(self, question, _files):
        at = datetime(*question.moment(), tzinfo=timezone.utc)
        try:
            last = self.last[question.kinds[-1]]
            held = self.rpki.validate(question.members, last=last, lists=None, locator=None, at=at)
        except self.rpki.Fault as fault:
            return Answer(fault.member, self.known.checked(fault.number, fault.name))
        four, six = (tuple((int(low), int(high)) for low, high in it.ranges)
                     for it in (held.ipv4, held.ipv6))
        numbers = tuple((it[0], it[-1]) for it in held.as_numbers.ranges)
        return Answer(held=(four, six, numbers))


class Command:
    """`rpki validate`, which judges the last file as what its certificate says that it is."""

    def __init__(self, program, known):
        self.program, self.known = Path(program).resolve(), known

    def answer(self, question, files):
        done = ran(self.program, 'validate', '-o', 'json', '--trust-first', '--no-crl', '--at',
                   question.text_of_day(), *files)
        if done.returncode > 1:
            return f'status {done.returncode}: {done.stderr}'
        said = json.loads(done.stdout)
        if said['accepted'] != (done.returncode == 0):
            return f'status {done.returncode}: {done.stdout}'
        if not said['accepted']:
            fault = said['rejected']
            is_read = fault['step'] != 'reading'
            return Answer(fault['index'], fault['fault'] if is_read else '-')
        return Answer(held=ranges_of(said['holds']))


# ---- the run

def asked_of(arguments, known):
    """Who is asked, by name."""
    asked = {}
    if arguments.c:
        asked['C'] = Printer(arguments.c, known)
    if arguments.rust:
        asked['Rust'] = Printer(arguments.rust, known)
    if arguments.python:
        asked['Python'] = Package(known)
    if arguments.command:
        asked['command'] = Command(arguments.command, known)
    return asked


def differences(place, question, asked, files):
    """How many answers were as wanted, and how many not, each of which is printed."""
    passed = failed = 0
    wanted = question.wanted_as(question.kinds)
    for name, caller in asked.items():
        its = wanted
        if name == 'command' and len(question.members) > 1:
            last = said_kind(question.members[-1])
            if last is None:
                continue
            its = question.wanted_as([*question.kinds[:-1], last])
        answer = caller.answer(question, files)
        if answer == its:
            passed += 1
        else:
            failed += 1
            print(f'path {place} ({question.label}), {name}:\n  wanted   {its}\n  answered {answer}')
    return passed, failed


def main():
    parser = argparse.ArgumentParser(description=__doc__.splitlines()[0])
    parser.add_argument('--count', type=int, default=200)
    parser.add_argument('--seed', default='signed')
    parser.add_argument('--python', action='store_true')
    for name in ('--c', '--rust', '--command'):
        parser.add_argument(name)
    arguments = parser.parse_args()
    known = Faults()
    asked = asked_of(arguments, known)
    signers = {it.bits: it for it in (Signer() for _ in range(KEYS))}
    keys = [ref.Key(ref.RSA, bits) for bits in signers]
    random_paths.random_key = lambda rng: rng.choice(keys)
    labels = [*faults.PROFILE_FAULTS, *faults.DRAFT_FAULTS]
    passed = failed = 0
    wants = collections.Counter()
    with tempfile.TemporaryDirectory() as room:
        for place in range(arguments.count):
            rng = random.Random(f'{arguments.seed} {place}')
            question = labelled(rng, labels[place] if place < len(labels) else None, signers)
            files = []
            for at, octets in enumerate(question.members):
                files.append(os.path.join(room, f'{at}.cer'))
                Path(files[-1]).write_bytes(octets)
            if not all(question.members):   # no caller takes an empty file
                continue
            wants[question.wanted_as(question.kinds).fault] += 1
            for_one = differences(place, question, asked, files)
            passed, failed = passed + for_one[0], failed + for_one[1]
    print('wanted:', ', '.join(f'{name or "accepted"} {n}' for name, n in wants.most_common()))
    print(f'numbers of faults met: {len(known.met)}')
    for name in faults.PROFILE_FAULTS if arguments.count >= len(labels) else ():
        if not wants[name]:
            failed += 1
            print(f'no path is wanted to be rejected for {name}')
    print(f'{passed} passed, {failed} failed')
    return 1 if failed else 0


if __name__ == '__main__':
    sys.exit(main())
