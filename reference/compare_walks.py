#!/usr/bin/env python3
"""Compares what the command tells of folders into which a stranger writes with all valid paths.

    python3 reference/compare_walks.py PROGRAM [--shares] [--count N] [--seed N] [--only INDEX]
            [--jobs N] [--save FOLDER]

PROGRAM is the command, as the gate builds it or as `./rpki` compiles it. Each of N folders (200 if it
isn't said) is that of strangers.py, half of them with files of a stranger. `tree -o json` tells of
each folder without these files, and with them. Compared is, for both,

- that the trust anchors are the one that the rule chooses, and its copies;
- that each path that is told is valid, and accepts just what valid paths of that depth lead to;
- that each fault that is told is one of the certificate below the end of a valid path;
- that what isn't told to stand below an accepted issuer has none;
- how far the walk went;

and, of both together, that each file of the folder to which a path without the stranger's keys leads is
accepted, whatever the stranger added, and what such a path holds.

Names are asked of half of the folders, of certificates and of lists alike; the others are asked with
--no-names. With --shares it is taken that copies take no steps, and that what is left of a CA's steps is
divided among the CAs below it. Then three numbers of steps are asked too, beside the walk of walks.py:
the set of paths to each certificate, each verdict and what is held, and whether a bound was met. What is
told of paths without the stranger's keys mustn't depend on what the stranger added, as sets, by walks.py
and by what the command tells, which is up to eight paths to a certificate.
Without --shares a walk is asked that meets no bound but the depth; of one that does, only whether what
it tells is so.

A folder with more than MOST paths isn't asked. A folder that differs is made smaller, by leaving out
files while it differs, and kept in FOLDER. A folder depends on the seed and its index alone. Prints each
difference, what was told how often, and at the end `N passed, M failed`.
"""

import argparse
import collections
import concurrent.futures
import json
import os
import random
import subprocess
import sys
import tempfile
from pathlib import Path
from typing import NamedTuple

import folders
import make
import random_folders
import reference as ref
import rsa
import strangers
import walks
from held import ranges_held, ranges_of
from profiles import ROUTER
from signers import Signer

KEYS = 7
DEPTH, MOST = 6, 400
MANY_STEPS = 100000
MOST_SECONDS = 3600     # also on a machine with other work
AT = '%04d-%02d-%02dT%02d:%02d:%02dZ' % random_folders.NOW
STEPS = {'profile', 'verification', 'revocation'}
UNSEEN = {'below_rejected', 'below_unseen', 'not_looked_at', 'not_issued', 'issuer_not_ca', 'no_issuer'}


class Told:
    """What the command tells of a folder."""

    def __init__(self, status, said, errors):
        self.status, self.errors = status, errors
        self.answer = json.loads(said) if said else {}
        self.files = {it['file']: it for it in self.answer.get('files', [])}

    def accepted(self):
        return {name for name, it in self.files.items() if it['verdict'] == 'accepted'}


def tell(program, files, locator, names, depth, steps):
    with tempfile.TemporaryDirectory() as room:
        for name, octets in files.items():
            Path(room, name).write_bytes(octets)
        Path(room, 'ta.tal').write_bytes(locator)
        words = [] if names else ['--no-names']
        done = subprocess.run(
            [program, 'tree', '-o', 'json', '--at', AT, '--tal', 'ta.tal', '--depth', str(depth),
             '--steps', str(steps), *words, '--', *files], cwd=room, check=False,
            stdin=subprocess.DEVNULL, capture_output=True, timeout=MOST_SECONDS)
    return Told(done.returncode, done.stdout, done.stderr.decode(errors='replace'))


class Folder:
    """A folder as the reference has it: all its paths, and what stands at which place."""

    def __init__(self, question, files, names):
        self.names = list(files)
        self.walks = walks.Walks(list(files.values()), rsa.verifier, names, True,
                                 random_folders.NOW)
        self.anchor = self.walks.chosen(question.key)
        self.paths, self.wrong = {}, {}
        if self.anchor:
            self.paths, self.wrong = self.walks.all_paths(self.anchor, DEPTH, MOST)
        self.accepting = {}
        for found in self.paths.values():
            for it in found:
                self.accepting.setdefault(self.names[it.places[-1]], []).append(it)

    def certificate(self, name):
        place = self.names.index(name)
        return next((it for at, it in self.walks.certs if at == place), None)

    def copies(self, cert):
        """The names of the files that begin with this certificate, whatever follows it."""
        return {self.names[place] for place, it in self.walks.certs if it.signed == cert.signed}

    def path(self, names):
        """The path of these files' names, or None where it isn't valid."""
        certs = [self.certificate(it) for it in names]
        if None in certs:
            return None
        found = self.paths.get(tuple(it.signed.data for it in certs), [])
        places = self.names.index(names[-1])
        return next((it for it in found if it.places[-1] == places), None)

    def faults(self, name):
        return self.wrong.get(self.names.index(name), set())


# ---- one answer

def anchor_wrongs(folder, told):
    anchors = [name for name, it in told.files.items() if it['verdict'] == 'trust_anchor']
    if folder.anchor is None:
        if anchors or told.accepted():
            yield f'there is no valid trust anchor, and it tells {anchors}, {told.accepted()}'
        return
    wanted = folder.copies(folder.anchor.certs[0])
    if set(anchors) != wanted:
        yield f'the trust anchors are {anchors}, and wanted {sorted(wanted)}'


def held_wrongs(name, line, path):
    """What is wrong of what is told that a certificate holds below a path, where that is told."""
    wanted = ranges_held(path.result)
    if 'holds' in line and ranges_of(line['holds']) != wanted:
        yield f'{name} holds {line["holds"]}, and wanted {wanted}'
    if 'router' in line and ranges_of(line['router']['subordinate_resources']) != wanted:
        yield f'{name} has {line["router"]}, and wanted {wanted}'
    if 'issuer_holds' in line and ranges_of(line['issuer_holds']) != ranges_held(path.above):
        yield f'the CA above {name} holds {line["issuer_holds"]}, and wanted {ranges_held(path.above)}'


def line_wrongs(folder, name, line, ended):
    """What is wrong of the line of a file."""
    verdict, cert = line['verdict'], folder.certificate(name)
    if verdict == 'accepted':
        path = folder.path([*line['above'], name])
        if path is None:
            yield f'{name} is accepted below {line["above"]}, which is no valid path'
        else:
            yield from held_wrongs(name, line, path)
    elif verdict == 'rejected':
        fault = line['index'], line['step'], line['fault']
        if line['step'] in STEPS and fault not in folder.faults(name):
            yield f'{name} is rejected as {fault}, and wanted one of {sorted(folder.faults(name))}'
    elif verdict in ('crl', 'neither') and cert is not None:
        yield f'{name} is a certificate, and {verdict} is told'
    elif verdict not in ('crl', 'neither', 'trust_anchor') and cert is None:
        yield f'{name} is no certificate, and {verdict} is told'
    elif verdict in UNSEEN and folder.faults(name) and ended != 'out_of_steps':
        yield f'{name} is {verdict}, and wanted one of {sorted(folder.faults(name))}'


def answer_wrongs(folder, told):
    """What is wrong of a walk that met no bound but its depth."""
    if told.status > 1 or set(told.files) - set(folder.names):
        yield f'status {told.status}: {told.errors}'
        return
    yield from anchor_wrongs(folder, told)
    ended = told.answer.get('ended')
    if folder.anchor is None:
        return
    for name, line in told.files.items():
        yield from line_wrongs(folder, name, line, ended)
    accepted, wanted = told.accepted(), set(folder.accepting)
    anchors = {name for name, it in told.files.items() if it['verdict'] == 'trust_anchor'}
    if ended != 'out_of_steps' and accepted | anchors != wanted | anchors:
        yield f'accepted are {sorted(accepted)}, and wanted {sorted(wanted)}'
    bounded = folder.walks.is_bounded(folder.anchor, folder.paths, DEPTH)
    if ended != 'out_of_steps' and (ended == 'too_deep') not in bounded:
        yield f'the walk ended {ended}'


# ---- both answers

def stranger_wrongs(question, folder, grown, told, told_then):
    """What the stranger has changed of what its keys don't lead to."""
    keys = question.keys
    if (folder.anchor is None) != (grown.anchor is None):
        yield 'the stranger has given or taken the trust anchor'
        return
    if folder.anchor is None or told_then.answer.get('ended') == 'out_of_steps':
        return
    anchors = {name for name, it in told_then.files.items() if it['verdict'] == 'trust_anchor'}
    for name, paths in folder.accepting.items():
        free = [it for it in paths if walks.is_free(it.certs, keys)]
        if free and name not in told_then.accepted() | anchors:
            yield f'{name} was accepted by a path without the stranger, and is {told_then.files[name]}'
    for name in told_then.accepted() & set(folder.names) - anchors:
        line = told_then.files[name]
        path = grown.path([*line['above'], name])
        if path and walks.is_free(path.certs, keys) and name not in told.accepted():
            yield f'{name} is accepted by {line["above"]}, without the stranger, and was {told.files[name]}'


def free_told(told, walk, keys):
    """What a walk tells of paths without the keys."""
    certs = {it.signed.data: it for _, it in walk.certs}
    found = {}
    for path, (faults, result) in told.items():
        if walks.is_free([certs[it] for it in path], keys):
            found[path] = frozenset(faults), result and (result.v4, result.v6, result.asn)
    return found


def path_of(folder, line, above):
    """What is signed of each certificate of a path that a line tells."""
    return tuple(folder.certificate(it).signed.data for it in [*above, line['file']])


def paths_of(folder, line):
    """The paths that the line of an accepted certificate tells, the shown one first, and whether it holds on each
    what it holds on the shown one."""
    its = line.get('paths', [{'above': line['above'], 'same_resources': True}])
    return {path_of(folder, line, it['above']): it['same_resources'] for it in its}


class Held(NamedTuple):
    """What the last certificate of a path holds, and the one above it."""
    result: object
    above: object


def paths_wrongs(folder, name, line, some):
    """What is wrong of the paths of an accepted certificate, of which the walk has these."""
    paths = paths_of(folder, line)
    shown = path_of(folder, line, line['above'])
    if len(paths) + line.get('more_paths', 0) != len(some) or set(paths) - set(some):
        yield f'{name} is accepted by {len(paths)} paths, and wanted {len(some)}: {line}'
    elif shown not in paths:
        yield f'the path of {name} that is shown isn\'t told'
    else:
        yield from held_wrongs(name, line, some[shown])
        for path, is_same in paths.items():
            if is_same != (held_by(some[path]) == held_by(some[shown])):
                yield f'{name} holds others by one of its paths, or the same: {line}'


def held_by(held):
    """What the certificate holds, or the CA above a router's."""
    of = held.above if folders.said_kind(held.result.cert.tbs) == ROUTER else held.result
    return of.v4, of.v6, of.asn


def share_wrongs(folder, told, walk):
    """What is wrong of a walk that may meet a bound, beside the one of walks.py."""
    known, met = walk
    accepting = collections.defaultdict(dict)
    for path, (_, result) in known.items():
        if result is not None:
            above = known[path[:-1]][1] if len(path) > 2 else folder.anchor.result
            accepting[path[-1]][path] = Held(result, above)
    for name, line in told.files.items():
        cert = folder.certificate(name)
        if cert is None or line['verdict'] == 'trust_anchor':
            continue
        some = accepting[cert.signed.data]
        if line['verdict'] == 'accepted':
            yield from paths_wrongs(folder, name, line, some)
        elif some and cert.tbs.signature == cert.signed.algorithm and folder.walks.verified(
                *signed_by(folder, some, cert)):
            yield f'{name} is {line["verdict"]}, and a path accepts it'
    if (told.answer.get('ended') == 'whole') != (not met):
        yield f'the walk ended {told.answer.get("ended")}, and met a bound below {len(met)} paths'


def reported(folder, told, keys):
    """The paths without these keys to each accepted file, as the command tells them, and the files of which it
    counts more than it tells."""
    certs = {it.signed.data: it for _, it in folder.walks.certs}
    found = {name: {it for it in paths_of(folder, line) if walks.is_free([certs[part] for part in it], keys)}
             for name, line in told.files.items() if line['verdict'] == 'accepted'}
    return found, {name for name, line in told.files.items() if 'more_paths' in line}


def isolation_wrongs(question, folder, grown, told, told_then):
    """What a stranger has changed of what the command tells, at whatever number of steps."""
    found, more = reported(folder, told, question.keys)
    found_then, more_then = reported(grown, told_then, question.keys)
    for name in question.files:
        free, free_then = found.get(name, set()), found_then.get(name, set())
        if free and name not in found_then:
            yield f'{name} was accepted without the stranger'
        elif free_then and name not in found:
            yield f'{name} is accepted by a path without the stranger, and wasn\'t'
        elif free != free_then and name not in more | more_then:
            yield f'{name} has {len(free_then)} paths without the stranger, and had {len(free)}'


def signed_by(folder, accepting, cert):
    """The signature of a certificate, with the key above the last one of a path. A copy with another signature
    has the same path."""
    *_, above, _ = next(iter(accepting))
    certs = {it.signed.data: it for _, it in folder.walks.certs}
    signed = cert.signed
    return certs[above].tbs.key, signed.algorithm, signed.data, signed.signature


def bounded_wrongs(program, question, folder, grown, names, rng):
    """Walks of three numbers of steps, without the stranger's files and with them."""
    both = [(folder, question.files), (grown, question.with_added())]
    for steps, depth in ((rng.randrange(1, 40), DEPTH), (rng.randrange(1, 40), rng.randrange(4)),
                         (6000, DEPTH)):
        answers, wrongs = [], []
        for it, files in both if question.added else both[:1]:
            walk = it.walks.walk(it.anchor, depth, steps)
            told = tell(program, files, question.locator, names, depth, steps)
            wrongs += share_wrongs(it, told, walk)
            answers.append((free_told(walk[0], it.walks, question.keys), told))
        if question.added:
            wrongs += isolation_wrongs(question, folder, grown, *(told for _, told in answers))
            if answers[0][0] != answers[1][0]:
                wrongs.append('the walk of walks.py isn\'t as without the stranger')
        yield from (f'{steps} steps, {depth} deep: {it}' for it in wrongs)


# ---- a folder

def wrongs_of(question, options, rng, kinds):
    names = rng.choice([True, False])
    folder = Folder(question, question.files, names)
    grown = Folder(question, question.with_added(), names)
    answers = []
    for it, files in ((folder, question.files), (grown, question.with_added())):
        if it is grown and not question.added:
            answers.append(answers[0])
            continue
        told = tell(options.program, files, question.locator, names, DEPTH, MANY_STEPS)
        answers.append(told)
        yield from answer_wrongs(it, told)
        kinds.update(line['verdict'] if line['verdict'] != 'rejected' else
                     f'rejected {line["step"]} {line["fault"]}' for line in told.files.values())
        kinds.update([f'the walk ended {told.answer.get("ended", "before it began")}'])
    yield from stranger_wrongs(question, folder, grown, *answers)
    if options.shares and folder.anchor and grown.anchor:
        yield from bounded_wrongs(options.program, question, folder, grown, names, rng)


def shrunk(question, differs):
    """The question with as few files as still differ."""
    again = True
    while again:
        again = False
        for group in (question.added, question.files):
            for name in list(group):
                octets = group.pop(name)
                if differs():
                    again = True
                else:
                    group[name] = octets
        question.files = dict(sorted(question.files.items()))
    return question


def save(folder, question):
    for name, group in (('files', question.files), ('added', question.added)):
        (folder / name).mkdir(parents=True, exist_ok=True)
        for file, octets in group.items():
            (folder / name / file).write_bytes(octets)
    (folder / 'ta.tal').write_bytes(question.locator)


POOL = []


def check(index, options):
    """What is told how often, and a report, empty where all is well."""
    kinds = collections.Counter()
    rng = random.Random(f'strangers {options.seed} {index}')
    question = strangers.Question(rng, POOL)
    state = rng.getstate()

    def wrongs(counted):
        rng.setstate(state)
        return list(wrongs_of(question, options, rng, counted))

    try:
        report = wrongs(kinds)
    except walks.TooMany:
        return collections.Counter(['too many paths']), ''
    if question.added:
        kinds['folders with a stranger'] += 1
    if not report:
        return kinds, ''

    def differs():
        try:
            return bool(wrongs(collections.Counter()))
        except walks.TooMany:
            return False
    shrunk(question, differs)
    if options.save:
        save(Path(options.save, f'folder-{index}'), question)
    report = wrongs(collections.Counter())
    return kinds, '\n'.join([f'folder {index}, of {len(question.files)} files and '
                             f'{len(question.added)} of a stranger:', *(f'  {it}' for it in report)])


def begin():
    POOL.extend(Signer() for _ in range(KEYS))


def main():
    parser = argparse.ArgumentParser(description='compares what is told of folders')
    parser.add_argument('program')
    parser.add_argument('--shares', action='store_true')
    parser.add_argument('--count', type=int, default=200)
    parser.add_argument('--seed', type=int, default=1)
    parser.add_argument('--only', type=int)
    parser.add_argument('--jobs', type=int, default=os.cpu_count() or 1)
    parser.add_argument('--save')
    options = parser.parse_args()
    options.program = str(Path(options.program).resolve())
    indexes = range(options.count) if options.only is None else [options.only]
    kinds, failed = collections.Counter(), 0
    with concurrent.futures.ProcessPoolExecutor(options.jobs, initializer=begin) as pool:
        for some, report in pool.map(check, indexes, [options] * len(indexes)):
            kinds.update(some)
            failed += bool(report)
            if report:
                print(report, flush=True)
    for kind, times in kinds.most_common():
        print(f'{times:7} {kind}')
    return make.totals((len(indexes) - failed, failed))


if __name__ == '__main__':
    sys.exit(main())
