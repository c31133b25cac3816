#!/usr/bin/env python3
"""Has the built command prepare and complete certificates and lists, with keys that openssl has.

    tests/issuing.py [--program PATH] [--count N] [--lists N] [--seed N] [--random]

Runs the lines of docs/ISSUING.md as they are there, and examples/make.sh, whose files
have to be as those of examples/. Asks for certificates and lists that are refused, with the fault
that `validate` tells of such a certificate where one can be made. Has signatures refused that are
another key's, over other octets, cut, or of another form. Asks for N random certificates, 200 if it
isn't said: openssl and reference/ read the fields that were asked, they stand there in the one
encoding that the reference writes, and both `openssl verify` and `validate` accept. The same of
random lists, 100 if it isn't said, by which both reject what is revoked and nothing else. Where
rpki-client is there it reads what `show` prints of them. PATH is the command as the gate builds it.
With --random nothing else is asked. Prints each difference, and at the end `N passed, M failed`.
"""
import argparse
import ctypes
import dataclasses
import errno
import importlib.machinery
import importlib.util
import json
import os
import random
import re
import resource
import shutil
import signal
import struct
import subprocess
import sys
import tempfile
from pathlib import Path

TOP = Path(__file__).resolve().parent.parent
sys.path.insert(0, str(TOP / 'reference'))

import reference as ref
from openssl_print import (address_range, differences, known_certificate, known_list, number_range,
                           printed_certificate, printed_list)


def script(name):
    """A script of reference/ as a module."""
    sys.dont_write_bytecode = True
    loader = importlib.machinery.SourceFileLoader(name, str(TOP / 'reference' / name))
    module = importlib.util.module_from_spec(importlib.util.spec_from_loader(name, loader))
    loader.exec_module(module)
    return module


clients = script('clients')

SITE = 'rsync://rpki.example.net/repo'
ELSEWHERE = 'rsync://elsewhere.example.net/repo'
NOTIFICATION = 'https://rpki.example.net/notification.xml'
AT = '2026-06-01'

parser = argparse.ArgumentParser()
parser.add_argument('--program', default=TOP / 'crates/rpki_command/out/rpki_command', type=Path)
parser.add_argument('--count', default=200, type=int)
parser.add_argument('--lists', default=100, type=int)
parser.add_argument('--seed', default=1, type=int)
parser.add_argument('--random', action='store_true')
options = parser.parse_args()
program = options.program.resolve()
passed = failed = 0


def check(what, is_so, said=b''):
    global passed, failed
    if is_so:
        passed += 1
    else:
        failed += 1
        print(f'tests/issuing: {what}; it said: {said.decode(errors="replace").strip()[:300]}')


def openssl(*words):
    return subprocess.run(['openssl', *words], check=True, capture_output=True).stdout


def rpki(*words):
    return subprocess.run([program, *map(str, words)], stdin=subprocess.DEVNULL,
                          capture_output=True)


def limit_files():
    """Has a command fail to write more than 100 octets to a file, as on a full disk."""
    signal.signal(signal.SIGXFSZ, signal.SIG_IGN)
    resource.setrlimit(resource.RLIMIT_FSIZE, (100, 100))


# The number of the system call fchmod, by the processor.
FCHMOD = {'x86_64': 91, 'aarch64': 52}.get(os.uname().machine)


def refuse_modes():
    """Has fchmod fail for a command, as on a file system that keeps no modes (seccomp(2))."""
    # load the number; skip the next step unless it is that of fchmod; err; allow
    steps = [(0x20, 0, 0, 0), (0x15, 0, 1, FCHMOD), (0x06, 0, 0, 0x50000 | errno.EPERM),
             (0x06, 0, 0, 0x7fff0000)]
    code = ctypes.create_string_buffer(b''.join(struct.pack('HBBI', *step) for step in steps))
    filter_of = ctypes.create_string_buffer(struct.pack('HP', len(steps), ctypes.addressof(code)))
    prctl = ctypes.CDLL(None).prctl
    if prctl(38, 1, 0, 0, 0) or prctl(22, 2, ctypes.c_void_p(ctypes.addressof(filter_of)), 0, 0):
        raise OSError('no seccomp')


# ---- what is asked

# An option's value, several, or None where it is left out.
EVERY = {'serial': '05', 'from': '2026-01-01', 'until': '2036-01-01'}
BELOW = EVERY | {'issuer': ['anchor.cer'], 'issuer-uri': f'{SITE}/anchor.cer',
                 'crl-uri': f'{SITE}/anchor/anchor.crl'}
HOLDS = {'ipv4': '10.1.0.0/16', 'ipv6': '2001:db8:1::/48', 'as': '64496'}
PLACES = {'repository': f'{SITE}/ca/', 'manifest': f'{SITE}/ca/ca.mft'}
GREATEST = '7f' + 19 * 'ff'    # of the numbers of 20 octets
NOT_SIGNED = 'Signature:                none, this is the to-be-signed part (RFC 5280 4.1, 5.1)'
WANTED = {
    'anchor': EVERY | PLACES | {'key': 'anchor.pub', 'ipv4': '10.0.0.0/8',
                                'ipv6': '2001:db8::/32', 'as': '64496-64511'},
    'ca': BELOW | PLACES | HOLDS | {'key': 'ca.pub'},
    'ee': BELOW | HOLDS | {'key': 'ca.pub', 'object': f'{SITE}/anchor/a.roa'},
    'detached': BELOW | HOLDS | {'key': 'ca.pub'},
    'router': BELOW | {'key': 'router.pub', 'as': '64496'},
    'list': {'issuer': ['anchor.cer'], 'next-update': '2026-07-01'},
}


def words_of(wanted):
    for name, value in wanted.items():
        for one in value if isinstance(value, list) else [value]:
            if one is not None:
                yield from (f'--{name}', one)


def prepare(kind, **changes):
    wanted = WANTED[kind] | {'at': AT} | changes
    return rpki('prepare', kind, *words_of(wanted))


def sign(prepared, key):
    Path('signed.tbs').write_bytes(prepared)
    openssl('dgst', '-sha256', '-sign', f'{key}.key', '-out', 'signed.sig', 'signed.tbs')


def complete(issuers, *more, at=AT):
    return rpki('complete', *words_of({'issuer': issuers, 'at': at}), *more, 'signed.tbs',
                'signed.sig')


def make(name, kind, signer, **changes):
    """Prepares, signs by a key, and completes; and shows what was signed as what it became."""
    done = prepare(kind, **changes)
    check(f'{name} is prepared', done.returncode == 0 and not done.stderr, done.stderr)
    sign(done.stdout, signer)
    issuers = (WANTED[kind] | changes).get('issuer')
    done = complete(issuers, at=changes.get('at', AT))
    check(f'{name} is completed', done.returncode == 0 and not done.stderr, done.stderr)
    Path(name).write_bytes(done.stdout)
    compare_shown(name)
    return done.stdout


def shown(name, *words):
    done = rpki('show', *words, '--at', AT, name)
    check(f'{name} is shown', done.returncode == 0 and not done.stderr, done.stderr)
    return done.stdout.decode()


def compare_shown(name):
    """What `show` prints of signed.tbs is that of the object that it became, but for the signature and
    the hash."""
    lines, whole = (shown(it, '--all').splitlines() for it in ('signed.tbs', name))
    rest = [it for it in whole if not it.startswith(('File: ', 'Signature: ', 'SHA-256: '))]
    check(f'show prints what is signed of {name}',
          lines == [NOT_SIGNED, 'File:                     signed.tbs', *rest],
          '\n'.join(lines).encode())
    data, whole = (json.loads(shown(it, '-j')) for it in ('signed.tbs', name))
    del whole['hash_id']
    check(f'show -j prints what is signed of {name}', data == whole | {'file': 'signed.tbs', 'signature': 'none'},
          json.dumps(data).encode())


def is_refused(what, done, text):
    """One line, and nothing written."""
    said = done.stderr.decode()
    check(f'{what}: status 1 and {text!r}, and not {done.returncode}',
          done.returncode == 1 and not done.stdout and said.startswith(f'rpki {done.args[1]}: ')
          and said.count('\n') == 1 and text in said, done.stderr)


# what the values of options are, and which are expected
HEX = 'pairs of hexadecimal digits, a positive number of at most 20 bytes'
TIME, RSYNC = ('a time', 'YYYY-MM-DD[THH:MM:SSZ]'), ('an rsync URI', 'rsync://HOST/MODULE/PATH')
VALUES = {
    'serial': ('a serial number', HEX), 'number': ('a CRL number', HEX),
    'ipv4': ('IPv4 addresses',
             'prefixes as 10.0.0.0/8, ranges as 10.0.0.0-10.0.2.255, or inherit alone'),
    'ipv6': ('IPv6 addresses',
             'prefixes as 2001:db8::/32, ranges as 2001:db8::-2001:db8::1, or inherit alone'),
    'as': ('AS numbers', 'numbers as 64496, ranges as 64496-64511, or inherit alone'),
    'notify': ('an https URI', 'https://HOST/PATH'),
    **dict.fromkeys(['from', 'until', 'next-update', 'at'], TIME),
    **dict.fromkeys(['repository', 'manifest', 'object', 'issuer-uri', 'crl-uri'], RSYNC)}


def is_misused(what, done, wrong):
    """Status 2, what is wrong in one line, and where the usage is in another."""
    called = f'rpki {done.args[1]}'
    said = f"{called}: {wrong}\nTry '{called} --help'.\n".encode()
    check(f'{what}: status 2 and {wrong!r}, and not {done.returncode}',
          done.returncode == 2 and not done.stdout and done.stderr == said, done.stderr)


def is_wrong_value(what, done, option, given):
    """An option whose values it doesn't take is told with them, and with what it takes."""
    values = ' '.join(given if isinstance(given, list) else [given])
    kind, expected = VALUES[option]
    is_misused(what, done, f'--{option} {values}: not {kind}; expected {expected}')


def is_refused_so(what, done, changes, text):
    """A refusal; where the text is an option's name alone, that of its value."""
    if text.startswith('--') and text[2:] in VALUES:
        is_wrong_value(what, done, text[2:], changes[text[2:]])
    else:
        is_refused(what, done, text)


def told(path, at=AT):
    """The fault that `validate` tells of a path."""
    waived = [] if '--tal' in path else ['--trust-first']
    waived += [] if {'--crl', '--in'} & set(path) else ['--no-crl']
    done = rpki('validate', '-j', '--at', at, *waived, *path)
    return json.loads(done.stdout).get('rejected', {}).get('fault')


# ---- the round of docs/ISSUING.md

def lines_of_page():
    """Its indented lines."""
    lines = (TOP / 'docs' / 'ISSUING.md').read_text().split('\n')
    return ''.join(line[4:] + '\n' for line in lines if line.startswith('    '))


def run_page():
    os.symlink(program, 'rpki')
    done = subprocess.run(['sh', '-eu'], input=lines_of_page().encode(), capture_output=True)
    check('the round of ISSUING.md ends with success', done.returncode == 0, done.stderr)
    check('what is signed is shown', done.stdout.startswith(NOT_SIGNED.encode() + b'\nFile:                     ca.tbs\n'),
          done.stdout)
    check('its path is accepted', b'\naccepted: ' in done.stdout, done.stdout)
    check('its router is revoked', b'(Revoked, ' in done.stdout, done.stdout)


# ---- keys and issuers

def make_keys():
    for name in ['anchor', 'ca', 'other']:
        openssl('genrsa', '-out', f'{name}.key', '2048')
    openssl('genrsa', '-out', 'short.key', '1024')
    openssl('genrsa', '-out', 'long.key', '3072')
    openssl('ecparam', '-name', 'prime256v1', '-genkey', '-noout', '-out', 'router.key')
    openssl('ecparam', '-name', 'secp384r1', '-genkey', '-noout', '-out', 'curve.key')
    for name in ['anchor', 'ca', 'other', 'short', 'long', 'router', 'curve']:
        openssl('pkey', '-in', f'{name}.key', '-pubout', '-out', f'{name}.pub')
    openssl('pkey', '-in', 'ca.key', '-pubout', '-outform', 'DER', '-out', 'ca.der')


def make_issuers():
    make('anchor.cer', 'anchor', 'anchor')
    make('wide.cer', 'anchor', 'anchor', **{'ipv4': '0.0.0.0/0', 'ipv6': '::/0',
                                            'as': '0-4294967295'})
    make('less.cer', 'anchor', 'anchor', ipv4='10.1.0.0/17')
    make('alien.cer', 'anchor', 'other', key='other.pub')
    make('ca.cer', 'ca', 'anchor')
    make('deeper.cer', 'ca', 'ca', issuer=['anchor.cer', 'ca.cer'], key='other.pub')
    make('small.cer', 'ca', 'anchor', ipv4='10.1.0.0/17')
    make('inheriting.cer', 'ca', 'anchor', **{'ipv4': 'inherit', 'ipv6': 'inherit',
                                              'as': 'inherit'})
    make('old.cer', 'ca', 'anchor', until='2026-02-01', at='2026-01-15')
    make('object.cer', 'ee', 'anchor')
    octets = bytearray(Path('ca.cer').read_bytes())
    octets[-1] ^= 1
    Path('tampered.cer').write_bytes(octets)
    Path('empty').write_bytes(b'')


# ---- what is refused

ANCHOR = ['anchor.cer']
# of a certificate below the trust anchor: what `validate` tells of it, where another issuer with
# the same key, or another moment, lets it be made
MADE = [
    ('ca', {'ipv4': '11.0.0.0/16'}, 'OverclaimV4'),
    ('ca', {'ipv4': '10.255.0.0-11.0.0.0'}, 'OverclaimV4'),
    ('ca', {'ipv4': ['10.1.0.0/16', '192.0.2.0/24']}, 'OverclaimV4'),
    ('ca', {'ipv6': '2001:db9::/32'}, 'OverclaimV6'),
    ('ca', {'ipv6': '2001:db8::/31'}, 'OverclaimV6'),
    ('ca', {'as': '64495-64496'}, 'OverclaimAs'),
    ('ca', {'as': '4294967295'}, 'OverclaimAs'),
    ('ee', {'ipv4': '11.0.0.0/16'}, 'OverclaimV4'),
    ('ee', {'ipv6': '::/0'}, 'OverclaimV6'),
    ('ee', {'as': '64512'}, 'OverclaimAs'),
    ('detached', {'as': '64512'}, 'OverclaimAs'),
    ('router', {'as': '64512'}, 'OverclaimAs'),
    ('ca', {'from': '2026-06-02'}, 'NotYetValid'),
    ('ca', {'from': '2026-06-01T00:00:01Z'}, 'NotYetValid'),
    ('ca', {'until': '2026-05-31'}, 'Expired'),
    ('ca', {'until': '20260531235959'}, 'Expired'),
    ('ee', {'until': '2026-05-31'}, 'Expired'),
    ('router', {'until': '2026-05-31'}, 'Expired'),
    ('detached', {'ipv4': '10.1.0.0/16', 'ipv6': '2001:db9::/48'}, 'OverclaimV6'),
    ('detached', {'until': '2026-05-31'}, 'Expired'),
    ('detached', {'from': '2026-06-02'}, 'NotYetValid'),
    ('ee', {'from': '2026-06-02'}, 'NotYetValid'),
    ('router', {'from': '2026-06-02'}, 'NotYetValid'),
    ('router', {'as': ['64496', '65000-65001']}, 'OverclaimAs'),
]
# of what no other moment or issuer lets the command make: the fields by which the reference does,
# and what `validate` tells of that
WRITTEN = [
    ('anchor', {'ipv4': 'inherit'}, {'v4': ref.INHERIT}, 'InheritedV4'),
    ('anchor', {'ipv6': 'inherit'}, {'v6': ref.INHERIT}, 'InheritedV6'),
    ('anchor', {'as': 'inherit'}, {'asn': ref.INHERIT}, 'InheritedAs'),
    ('anchor', {'until': '2026-05-31'}, {'not_after': (2026, 5, 31, 0, 0, 0)}, 'Expired'),
    ('anchor', {'from': '2026-06-02'}, {'not_before': (2026, 6, 2, 0, 0, 0)}, 'NotYetValid'),
    ('anchor', {'manifest': f'{SITE}/other/ca.mft'},
     {'rpki_manifest': f'{SITE}/other/ca.mft'.encode()}, 'ManifestNotChild'),
    ('anchor', {'key': 'router.pub'}, {'key': 'router.pub'}, 'KeyAlgorithm'),
    ('ca', {'manifest': f'{SITE}/other/ca.mft'},
     {'rpki_manifest': f'{SITE}/other/ca.mft'.encode()}, 'ManifestNotChild'),
    ('ca', {'manifest': f'{ELSEWHERE}/ca/ca.mft'},
     {'rpki_manifest': f'{ELSEWHERE}/ca/ca.mft'.encode()}, 'ManifestNotChild'),
    ('ca', {'from': '2030-01-01', 'until': '2029-01-01'},
     {'not_before': (2030, 1, 1, 0, 0, 0), 'not_after': (2029, 1, 1, 0, 0, 0)}, 'NotYetValid'),
    ('ca', {'key': 'router.pub'}, {'key': 'router.pub'}, 'KeyAlgorithm'),
    ('ee', {'key': 'router.pub'}, {'key': 'router.pub'}, 'KeyAlgorithm'),
    ('router', {'key': 'ca.pub'}, {'key': 'ca.pub'}, 'KeyAlgorithm'),
    ('router', {'as': 'inherit'}, {'asn': ref.INHERIT}, 'InheritedAsResources'),
    ('ca', {'key': 'short.pub'}, {'key': 'short.pub'}, 'BadKey'),
    ('ca', {'key': 'long.pub'}, {'key': 'long.pub'}, 'BadKey'),
    ('ee', {'key': 'short.pub'}, {'key': 'short.pub'}, 'BadKey'),
]
# of others: the fault, or the option
REFUSED = [
    ('ca', {'ipv4': None, 'ipv6': None, 'as': None}, 'no certificate has these fields'),
    ('router', {'key': 'curve.pub'}, '--key curve.pub: not a public key; expected '),
    ('ca', {'key': 'ca.key'}, '--key ca.key: not a public key; expected '),
    ('ca', {'key': 'anchor.cer'}, '--key anchor.cer: not a public key; expected '),
    ('ca', {'key': 'empty'}, '--key empty: not a public key; expected '),
    ('ca', {'issuer': ['object.cer']}, '--issuer object.cer: rejected at profile, '),
    ('ca', {'issuer': ['anchor.cer', 'object.cer']},
     "--issuer anchor.cer object.cer: the last certificate is not a CA's; expected a CA's"),
    ('ca', {'issuer': ['anchor.cer', 'old.cer']}, '--issuer old.cer: rejected at verification, Expired: '),
    ('ca', {'issuer': ['alien.cer', 'ca.cer']}, '--issuer ca.cer: rejected at verification, WrongKeyId: '),
    ('ca', {'issuer': ['anchor.cer', 'tampered.cer']},
     '--issuer tampered.cer: rejected at verification, BadSignature: '),
    ('ca', {'issuer': ['ca.cer', 'anchor.cer']}, '--issuer ca.cer: rejected at profile, '),
    ('ca', {'issuer': ['anchor.cer', 'empty']}, '--issuer empty: rejected at reading, '),
    ('ca', {'issuer': ['ca.pub']}, '--issuer ca.pub: rejected at reading, '),
    ('ca', {'issuer': ['anchor.cer', 'small.cer'], 'key': 'other.pub'}, 'OverclaimV4: '),
    ('ca', {'key': 'anchor.pub'}, 'the CA has the key of a CA above it, '),
    ('ca', {'issuer': ['anchor.cer', 'ca.cer']}, 'the CA has the key of a CA above it, '),
    ('ca', {'issuer': ['anchor.cer', 'ca.cer'], 'key': 'anchor.pub'},
     'the CA has the key of a CA above it, '),
    ('ca', {'issuer': ['anchor.cer', 'ca.cer', 'deeper.cer'], 'key': 'anchor.pub'},
     'the CA has the key of a CA above it, '),
    ('ca', {'issuer': ['anchor.cer', 'ca.cer', 'deeper.cer']},
     'the CA has the key of a CA above it, '),
    ('ca', {'from': '1949-12-31T23:59:59Z'}, 'the validity starts before 1950, '),
    ('anchor', {'from': '1949-12-31'}, 'the validity starts before 1950, '),
    ('router', {'from': '0001-01-01'}, 'the validity starts before 1950, '),
    ('ca', {'serial': '00'}, '--serial'),
    ('ca', {'serial': '5'}, '--serial'),
    ('ca', {'serial': '80' + 19 * '00'}, '--serial'),
    ('ca', {'serial': 'zz'}, '--serial'),
    ('ca', {'from': 'yesterday'}, '--from'),
    ('ca', {'until': '2027-02-29'}, '--until'),
    ('ca', {'ipv4': '10.1.0.1/16'}, '--ipv4'),
    ('ca', {'ipv4': '2001:db8::/48'}, '--ipv4'),
    ('ca', {'ipv4': ['inherit', '10.1.0.0/16']}, '--ipv4'),
    ('ca', {'ipv6': '2001:db8::/129'}, '--ipv6'),
    ('ca', {'as': '4294967296'}, '--as'),
    ('ca', {'as': '64497-64496'}, '--as'),
    ('ca', {'repository': 'https://rpki.example.net/repo/ca/'}, '--repository'),
    ('ca', {'manifest': 'ca.mft'}, '--manifest'),
    ('ca', {'notify': f'{SITE}/notification.xml'}, '--notify'),
    ('ca', {'issuer-uri': ''}, '--issuer-uri'),
    ('ca', {'crl-uri': 'rsync:'}, '--crl-uri'),
    ('ee', {'object': '/a.roa'}, '--object'),
    ('ca', {'at': 'now'}, '--at'),
]


def key_in(file):
    """The public key in a file, as the reference has it."""
    octets = openssl('pkey', '-pubin', '-in', file, '-outform', 'DER')
    return ref.take_key(ref.Cursor(octets))


def write(kind, fields):
    """Writes made.cer: one of the kind, but with these fields, signed by the key of anchor.cer."""
    tbs = ref.decode_cert(make('made.cer', kind, 'anchor')).tbs
    if 'key' in fields:
        key = key_in(fields['key'])
        fields = {'key': key, 'subject_key_identifier': key.identifier()}
    octets = ref.encode_tbs(dataclasses.replace(tbs, **fields))
    sign(octets, 'anchor')
    signature = Path('signed.sig').read_bytes()
    Path('made.cer').write_bytes(ref.SignedData(octets, True, signature).octets())


def try_refused():
    for kind, changes, fault in MADE:
        what = f'prepare {kind} {changes}'
        is_refused(what, prepare(kind, **changes), f'{fault}: ')
        at = {'from': '2026-07-01', 'until': '2026-01-15'}.get(next(iter(changes)), AT)
        make('made.cer', kind, 'anchor', **changes, issuer=['wide.cer'], at=at)
        found = told(['anchor.cer', 'made.cer'])
        check(f'validate tells {fault} of {what}, and not {found}', found == fault)
    for kind, changes, fields, fault in WRITTEN:
        what = f'prepare {kind} {changes}'
        is_refused(what, prepare(kind, **changes), f'{fault}: ')
        write(kind, fields)
        found = told(['made.cer'] if kind == 'anchor' else ['anchor.cer', 'made.cer'])
        check(f'validate tells {fault} of {what}, and not {found}', found == fault)
    for kind, changes, text in REFUSED:
        is_refused_so(f'prepare {kind} {changes}', prepare(kind, **changes), changes, text)


# of what another program writes to be signed: the fields, and the fault
OTHERS_REFUSED = [
    ('ca', {'serial': 0}, 'the serial number is 0, '),
    ('anchor', {'serial': 0}, 'the serial number is 0, '),
    ('ca', {'not_before': (1949, 12, 31, 23, 59, 59)}, 'the validity starts before 1950, '),
    ('ca', {'key': 'anchor.pub'}, 'the CA has the key of a CA above it, '),
]


# what is no CA may have the key of a CA above it
KEYS_ABOVE = [('ee', 'ca.pub'), ('ee', 'anchor.pub'), ('detached', 'anchor.pub')]


def try_others():
    """What `complete` refuses of octets that `prepare` doesn't write."""
    for kind, fields, text in OTHERS_REFUSED:
        tbs = ref.decode_cert(make('made.cer', kind, 'anchor')).tbs
        changed = fields
        if 'key' in fields:
            key = key_in(fields['key'])
            changed = {'key': key, 'subject_key_identifier': key.identifier()}
        sign(ref.encode_tbs(dataclasses.replace(tbs, **changed)), 'anchor')
        is_refused(f'complete {kind} {fields}', complete(WANTED[kind].get('issuer')), text)
    above = ['anchor.cer', 'ca.cer']
    tbs = ref.decode_cert(make('made.cer', 'ca', 'ca', issuer=above, key='other.pub')).tbs
    for key in ['anchor.pub', 'ca.pub']:
        key_is = key_in(key)
        changed = {'key': key_is, 'subject_key_identifier': key_is.identifier()}
        sign(ref.encode_tbs(dataclasses.replace(tbs, **changed)), 'ca')
        is_refused(f'complete ca {key} below {above}', complete(above),
                   'the CA has the key of a CA above it, ')
    for kind, key in KEYS_ABOVE:
        make('made.cer', kind, 'ca', issuer=above, key=key)
        check(f'{kind} with {key}', told([*above, 'made.cer']) is None)


def try_signatures():
    """A CA's: signed by another key, over other octets, cut, longer, or of another form."""
    prepared = prepare('ca').stdout
    flipped = bytes([prepared[0]]) + prepared[1:-1] + bytes([prepared[-1] ^ 1])

    def refuses(what, text='BadSignature: ', issuers=ANCHOR, at=AT):
        is_refused(f'complete {what}', complete(issuers, at=at), text)

    def signed():
        sign(prepared, 'anchor')
        return Path('signed.sig').read_bytes()

    signature = signed()
    done = complete(ANCHOR)
    check('complete what is signed', done.returncode == 0, done.stderr)
    pem = complete(ANCHOR, '--pem')
    Path('made.cer').write_bytes(done.stdout)
    check('--pem', pem.stdout == openssl('x509', '-inform', 'DER', '-in', 'made.cer'), pem.stderr)
    sign(prepared, 'other')
    refuses('by another key')
    sign(flipped, 'anchor')
    Path('signed.tbs').write_bytes(prepared)
    refuses('over other octets')
    for what, octets in [('cut', signature[:-1]), ('longer', signature + b'\0'),
                         ('empty', b''), ('of zeros', bytes(256)),
                         ('of one bit changed', signature[:-1] + bytes([signature[-1] ^ 1]))]:
        Path('signed.sig').write_bytes(octets)
        refuses(f'a signature that is {what}')
    for digest in ['sha1', 'sha384', 'sha512']:
        openssl('dgst', f'-{digest}', '-sign', 'anchor.key', '-out', 'signed.sig', 'signed.tbs')
        refuses(f'a signature with {digest}')
    Path('digest').write_bytes(openssl('dgst', '-sha256', '-binary', 'signed.tbs'))
    Path('info').write_bytes(bytes.fromhex('302f300b0609608648016503040201' '0420')
                             + Path('digest').read_bytes())
    for what, file in [('without a DigestInfo', 'digest'), ('without its NULL', 'info')]:
        openssl('pkeyutl', '-sign', '-inkey', 'anchor.key', '-in', file, '-out', 'signed.sig')
        refuses(f'a signature {what}')
    openssl('dgst', '-sha256', '-sign', 'anchor.key', '-sigopt', 'rsa_padding_mode:pss', '-out',
            'signed.sig', 'signed.tbs')
    refuses('a signature of RSASSA-PSS')
    signed()
    refuses('below another issuer', 'OtherName: ', ['alien.cer'])
    refuses('below itself', 'OtherName: ', None)
    refuses('below one that holds less', 'OverclaimV4: ', ['less.cer'])
    refuses('when it has expired', 'Expired: ', at='2036-01-02')
    for what, octets in [('cut', prepared[:-1]), ('with an octet behind it', prepared + b'\0'),
                         ('a certificate', Path('ca.cer').read_bytes()), ('empty', b'')]:
        sign(octets, 'anchor')
        refuses(f'what is {what}', 'signed.tbs: not a TBSCertificate or TBSCertList; expected what ')


def try_words():
    ca = list(words_of(WANTED['ca']))
    kinds, option = 'ca, ee, detached, router, anchor or list', 'not an option of this command'
    files = 'wrong number of files; expected PREPARED and SIGNATURE for complete, none for prepare'
    for words, wrong in [
            (['prepare'], f'nothing to prepare; expected {kinds}'),
            (['prepare', 'cat'], f'cat: unknown kind; expected {kinds}'),
            (['prepare', 'c\nt'], f'c\\x0At: unknown kind; expected {kinds}'),
            (['prepare', 'ca', *ca, '--size', '5'], f'--size: {option}'),
            (['prepare', 'ca', *ca, 'ca.cer'], files),
            (['prepare', 'ca', *ca, '--serial', '06'],
             '--serial: given more than once; expected once'),
            (['prepare', 'ca', *ca, '--object', f'{SITE}/a.roa'], f'--object: {option}'),
            (['prepare', 'ca', *ca, '--pem'], f'--pem: {option}'),
            (['prepare', 'ca', *ca, '--at'], '--at: no value; expected YYYY-MM-DD[THH:MM:SSZ]'),
            (['prepare', 'list', '--issuer'], '--issuer: no value; expected FILE'),
            (['complete'], files), (['complete', 'signed.tbs'], files),
            (['complete', 'a', 'b', 'c'], files),
            (['complete', '--key', 'ca.pub', 'a', 'b'], f'--key: {option}')]:
        is_misused(' '.join(words[:3]), rpki(*words), wrong)
    for name in ['issuer', 'key', 'serial', 'from', 'until', 'repository', 'manifest',
                 'issuer-uri', 'crl-uri']:
        expected = VALUES[name][1] if name in VALUES else 'FILE'
        is_misused(f'no --{name}', rpki('prepare', 'ca', *words_of(WANTED['ca'] | {name: None})),
                   f'--{name}: missing; expected {expected}')
    for words in [['prepare', 'ca', *words_of(WANTED['ca'] | {'key': 'none.pub'})],
                  ['prepare', 'ca', *words_of(WANTED['ca'] | {'issuer': ['none.cer']})],
                  ['complete', 'none.tbs', 'none.sig']]:
        done = rpki(*words)
        check(f'a file that is missing: status 3, and not {done.returncode}', done.returncode == 3
              and not done.stdout and b'no such file or directory' in done.stderr, done.stderr)


# ---- random certificates

def random_blocks(it, network, bits, text):
    """Some blocks below a prefix: prefixes and ranges."""
    base, length = network
    found = []
    for _ in range(it.randrange(4)):
        size = it.randrange(bits - length + 1)
        first = base + (it.randrange(1 << bits - length) >> size << size)
        if it.randrange(3):
            found.append(f'{text(first)}/{bits - size}')
        else:
            last = it.randrange(first, base + (1 << bits - length))
            found.append(f'{text(first)}-{text(last)}')
    return found


def random_wanted(it, kind):
    from ipaddress import IPv4Address, IPv6Address
    v4 = random_blocks(it, (10 << 24, 8), 32, lambda n: str(IPv4Address(n)))
    v6 = random_blocks(it, (0x20010db8 << 96, 32), 128, lambda n: str(IPv6Address(n)))
    systems = []
    for _ in range(it.randrange(4)):
        first = it.randrange(64496, 64512)
        last = it.randrange(first, 64512)
        systems.append(str(first) if it.randrange(2) else f'{first}-{last}')
    if kind == 'router' or not (v4 or v6 or systems):
        systems = systems or ['64500']
    if kind not in ('anchor', 'router'):
        v4, v6, systems = (['inherit'] if it.randrange(6) == 0 else x for x in (v4, v6, systems))
    octets = it.randrange(1, 21)
    number = it.randrange(1, min(1 << 8 * octets, 1 << 159))
    places = f'{SITE}/{it.randrange(10 ** 6)}/'
    wanted = {'serial': number.to_bytes(octets, 'big').hex(),
              'from': f'{it.randrange(1990, 2027)}-0{it.randrange(1, 7)}-01',
              'until': f'{it.randrange(2027, 2070)}-1{it.randrange(3)}-2{it.randrange(9)}',
              'as': systems}
    if kind != 'router':
        wanted |= {'ipv4': v4, 'ipv6': v6}
    if kind in ('anchor', 'ca'):
        wanted |= {'repository': places, 'manifest': f'{places}{it.randrange(100)}.mft'}
        wanted |= {'notify': NOTIFICATION if it.randrange(2) else None}
    if kind == 'ee':
        wanted |= {'object': f'{places}{it.randrange(100)}.roa'}
    if kind in ('ca', 'ee', 'detached'):
        wanted |= {'key': 'other.pub'}
    if kind != 'anchor':
        wanted |= {'issuer': it.choice([ANCHOR, ['anchor.cer', 'inheriting.cer']]),
                   'issuer-uri': f'{places}issuer.cer', 'crl-uri': f'{places}issuer.crl'}
    return wanted


def wanted_fields(kind, wanted):
    """The fields that openssl is to print of it."""
    def uri(name):
        return wanted[name].encode() if wanted.get(name) else None

    def numbers(name, block):
        given = wanted.get(name) or []
        if given == ['inherit']:
            return ref.INHERIT
        return ref.blocks([block(text) for text in given]) if given else ref.MISSING

    def moment(name):
        return (*map(int, wanted[name].split('-')), 0, 0, 0)

    is_authority = kind in ('anchor', 'ca')
    return {'serial': int(wanted['serial'], 16), 'not_before': moment('from'),
            'not_after': moment('until'), 'ca_repository': uri('repository'),
            'rpki_manifest': uri('manifest'), 'signed_object': uri('object'),
            'rpki_notify': uri('notify'), 'crl_uri': uri('crl-uri'),
            'ca_issuer': uri('issuer-uri'), 'basic_ca': True if is_authority else None,
            'key_usage': 'Ca' if is_authority else 'Ee', 'overclaim': ref.REFUSE,
            'v4': numbers('ipv4', address_range), 'v6': numbers('ipv6', address_range),
            'asn': numbers('as', number_range)}


def try_random():
    for place in range(options.count):
        it = random.Random(f'{options.seed}-{place}')
        kind = it.choice(['anchor', 'ca', 'ee', 'detached', 'router'])
        wanted = random_wanted(it, kind)
        above = wanted.get('issuer') or []
        key = 'anchor' if len(above) < 2 else 'ca'
        octets = make('random.cer', kind, key, **wanted)
        what = f'random certificate {place}, {kind} {wanted}'
        found = printed_certificate(octets) or {}
        known = wanted_fields(kind, wanted)
        other = {name: (known[name], found[name]) for name in known
                 if name in found and known[name] != found[name]}
        check(f'{what}: (asked, read) {other}', found and not other)
        tbs = ref.decode_cert(octets).tbs
        other = differences(known_certificate(tbs), found)[1]
        check(f'{what}: (the reference, openssl) {other}', not other)
        check(f'{what} has another encoding', ref.encode_tbs(tbs) ==
              Path('signed.tbs').read_bytes())
        done = rpki('validate', '-q', '--trust-first', '--no-crl', '--at', AT, *above, 'random.cer')
        check(f'validate accepts {what}', done.returncode == 0, done.stderr)
        if kind in ('anchor', 'ca', 'router'):    # it reads no others by themselves
            compare_client(what, 'random.cer')
        for name in [*above, 'random.cer']:
            openssl('x509', '-inform', 'DER', '-in', name, '-out', f'{name}.pem')
        words = ['-untrusted', f'{above[1]}.pem'] if len(above) > 1 else []
        trusted = f'{(above or ["random.cer"])[0]}.pem'
        done = subprocess.run(['openssl', 'verify', '-attime', '1780272000', '-CAfile', trusted,
                               *words, 'random.cer.pem'], capture_output=True)
        check(f'openssl verify accepts {what}', done.returncode == 0, done.stderr)


# ---- revocation lists

def fields_of_list(octets):
    """Its number, its serial numbers with their moments, and its own two moments."""
    crl = ref.decode_crl(octets)
    return (crl.tbs.crl_number, [(e.serial, e.date[:3]) for e in crl.entries()],
            crl.tbs.this_update[:3], crl.tbs.next_update[:3])


def make_lists():
    """The first list of the trust anchor, the next ones, and one of a CA below it."""
    first = make('first.crl', 'list', 'anchor')
    today, stale = (2026, 6, 1), (2026, 7, 1)
    check('the first list is number 1 and empty', fields_of_list(first) == (1, [], today, stale))
    octets = make('next.crl', 'list', 'anchor', previous='first.crl', revoke=['ca.cer'],
                  serial=['0b', '0a'], at='2026-06-02')
    entries = [(5, (2026, 6, 2)), (0x0b, (2026, 6, 2)), (0x0a, (2026, 6, 2))]
    check('the next one has what is revoked by file and by number',
          fields_of_list(octets) == (2, entries, (2026, 6, 2), stale))
    octets = make('third.crl', 'list', 'anchor', previous='next.crl', serial=['0a', '0c'],
                  number='0100', at='2026-06-03', **{'next-update': '2026-06-03'})
    entries.append((0x0c, (2026, 6, 3)))
    check('the third one keeps all, revokes none twice, and has the number that is chosen',
          fields_of_list(octets) == (256, entries, (2026, 6, 3), (2026, 6, 3)))
    octets = make('late.crl', 'list', 'anchor', previous='first.crl', at='2026-08-01',
                  **{'next-update': '2026-09-01'})
    check('a stale list is followed', fields_of_list(octets)[0] == 2)
    Path('first.pem').write_bytes(openssl('crl', '-inform', 'DER', '-in', 'first.crl'))
    Path('ca.pem').write_bytes(openssl('x509', '-inform', 'DER', '-in', 'ca.cer'))
    octets = make('pem.crl', 'list', 'anchor', previous='first.pem', revoke=['ca.pem'])
    check('a list and a certificate in PEM are read', fields_of_list(octets)[:2]
          == (2, [(5, today)]))
    octets = make('after.crl', 'list', 'anchor', previous='next.crl', number='0003')
    check('a list of a later moment is followed, and zeros lead a number',
          fields_of_list(octets) == (3, entries[:3], today, stale))
    octets = make('last.crl', 'list', 'anchor', number=GREATEST, revoke=['old.cer'])
    check('the greatest number, and a certificate that has expired',
          fields_of_list(octets)[:2] == (int(GREATEST, 16), [(5, today)]))
    make('below.crl', 'list', 'ca', issuer=['anchor.cer', 'ca.cer'], serial=['05'])
    octets = bytearray(first)
    octets[-1] ^= 1
    Path('damaged.crl').write_bytes(octets)
    Path('cut.crl').write_bytes(Path('next.crl').read_bytes()[:300])
    # two lists in one file, and an octet behind one
    Path('behind.crl').write_bytes(Path('first.crl').read_bytes() + Path('next.crl').read_bytes())
    Path('zero.crl').write_bytes(Path('first.crl').read_bytes() + b'\0')


LISTS_REFUSED = [
    ({'crl': ['empty']}, '--crl empty: not a CRL, or bytes follow it; expected one CRL in each file'),
    ({'issuer': ['anchor.cer', 'ca.cer'], 'crl': ['first.crl', 'cut.crl'], 'at': '2026-06-02'},
     '--crl cut.crl: not a CRL, or bytes follow it; expected one CRL in each file'),
    ({'issuer': ['anchor.cer', 'ca.cer'], 'crl': ['ca.cer', 'first.crl']},
     '--crl ca.cer: not a CRL, or bytes follow it; expected one CRL in each file'),
    ({'issuer': ['anchor.cer', 'ca.cer'], 'crl': ['first.crl', 'behind.crl'], 'at': '2026-06-02'},
     '--crl behind.crl: not a CRL, or bytes follow it; expected one CRL in each file'),
    ({'issuer': ['anchor.cer', 'ca.cer'], 'crl': ['zero.crl']},
     '--crl zero.crl: not a CRL, or bytes follow it; expected one CRL in each file'),
    ({'previous': 'last.crl'}, 'the CRL number has more than 20 bytes'),
    ({'previous': 'last.crl', 'number': GREATEST}, "the CRL number isn't greater"),
    ({'next-update': '2026-06-30T23:59:60Z'}, '--next-update'),
    ({'at': '2026-06-01T00:00:60Z'}, '--at'),
    ({'at': '2025-12-31T23:59:59Z'}, '--issuer anchor.cer: rejected at verification, NotYetValid: '),
    ({'at': '2036-01-01T00:00:01Z', 'next-update': '2037-01-01'},
     '--issuer anchor.cer: rejected at verification, Expired: '),
    ({'issuer': ['anchor.cer', 'ca.cer'], 'crl': ['next.crl']},
     '--issuer ca.cer: rejected at revocation, Stale: '),
    ({'issuer': ['anchor.cer', 'ca.cer'], 'crl': ['first.crl', 'next.crl'], 'at': '2026-06-02'},
     '--issuer ca.cer: rejected at revocation, Revoked: '),
    ({'previous': 'next.crl', 'number': '02'}, "the CRL number isn't greater"),
    ({'previous': 'next.crl', 'number': '01'}, "the CRL number isn't greater"),
    ({'number': '80' + 19 * '00'}, '--number'),
    ({'number': '0'}, '--number'),
    ({'next-update': '2026-05-31'}, 'the next update is before this one'),
    ({'next-update': '2026-05-31T23:59:59Z'}, 'the next update is before this one'),
    ({'next-update': 'never'}, '--next-update'),
    ({'previous': 'below.crl'}, '--previous below.crl: not a CRL that the issuer signed; '),
    ({'previous': 'damaged.crl'}, '--previous damaged.crl: not a CRL that the issuer signed; '),
    ({'previous': 'ca.cer'}, '--previous ca.cer: not a CRL that the issuer signed; '),
    ({'previous': 'empty'}, '--previous empty: not a CRL that the issuer signed; '),
    ({'revoke': ['anchor.cer']}, '--revoke anchor.cer: not a certificate of the issuer; expected '),
    ({'revoke': ['ca.cer', 'lower.cer']}, '--revoke lower.cer: not a certificate of the issuer; expected '),
    ({'revoke': ['first.crl']}, '--revoke first.crl: not a certificate of the issuer; expected '),
    ({'revoke': ['empty']}, '--revoke empty: not a certificate of the issuer; expected '),
    ({'serial': ['5']}, '--serial'),
    ({'serial': ['05', '80' + 19 * '00']}, '--serial'),
    ({'issuer': ['anchor.cer', 'object.cer']},
     "--issuer anchor.cer object.cer: the last certificate is not a CA's; expected a CA's"),
    ({'issuer': ['anchor.cer', 'tampered.cer']}, '--issuer tampered.cer: rejected at verification, '),
    ({'issuer': ['anchor.cer', 'ca.cer'], 'crl': ['next.crl'], 'at': '2026-06-02'},
     '--issuer ca.cer: rejected at revocation, Revoked: '),
    ({'issuer': ['anchor.cer', 'ca.cer'], 'crl': ['below.crl']},
     '--issuer ca.cer: rejected at revocation, NoCrl: '),
]


def try_lists():
    make('lower.cer', 'ca', 'ca', issuer=['anchor.cer', 'ca.cer'], key='other.pub')
    for changes, text in LISTS_REFUSED:
        is_refused_so(f'prepare list {changes}', prepare('list', **changes), changes, text)
    make('by_list.crl', 'list', 'ca', issuer=['anchor.cer', 'ca.cer'], crl=['first.crl'])
    at = '2026-06-02'
    path = ['anchor.cer', 'ca.cer']
    for lists, fault in [(['first.crl'], None), (['next.crl'], 'Revoked'),
                         (['first.crl', 'next.crl'], 'Revoked'), (['below.crl'], 'NoCrl')]:
        found = told([*words_of({'crl': lists}), *path], at)
        check(f'validate with {lists} tells {fault}, and not {found}', found == fault)
    done = rpki('validate', '--trust-first', '--at', '2026-07-02', '--crl', 'first.crl', *path)
    check('a list goes stale', b'(Stale, ' in done.stdout, done.stdout)


# certificates that the issuer's list revokes, or that no list of the issuer is given for
REVOKED = [
    ('ca', {'serial': '0b', 'crl': ['next.crl']}, 'Revoked: '),
    ('ee', {'serial': '0a', 'crl': ['first.crl', 'next.crl']}, 'Revoked: '),
    ('router', {'serial': '05', 'crl': ['next.crl']}, 'Revoked: '),
    ('ca', {'serial': '0b', 'crl': ['below.crl']}, 'NoCrl: '),
    ('ee', {'issuer': ['anchor.cer', 'ca.cer'], 'serial': '05', 'crl': ['first.crl', 'below.crl'],
            'ipv4': '10.1.0.0/17'}, 'Revoked: '),
]
# what another program writes to be signed of a list: the fields, and the fault
OTHER_LISTS = [
    ({'this_update': (2026, 6, 1, 0, 0, 1)}, 'Stale: '),
    ({'this_update': (2026, 6, 3, 0, 0, 0), 'next_update': (2026, 6, 2, 0, 0, 0)}, 'Stale: '),
    ({'crl_number': 1 << 159}, 'the CRL number has more than 20 bytes'),
]


def try_accepted():
    """That what is completed is accepted by the same files, and nothing else is completed."""
    at = '2026-06-02'
    for kind, changes, text in REVOKED:
        is_refused(f'prepare {kind} {changes}', prepare(kind, at=at, **changes), text)
        lists = changes['crl']
        free = prepare(kind, at=at, **(changes | {'crl': None}))
        below = (WANTED[kind] | changes)['issuer']
        sign(free.stdout, 'anchor' if len(below) == 1 else 'ca')
        words = [*words_of({'crl': lists})]
        is_refused(f'complete {kind} {changes}', complete(below, *words, at=at), text)
        done = complete(below, at=at)
        Path('free.cer').write_bytes(done.stdout)
        found = told([*words, *below, 'free.cer'], at)
        check(f'validate tells {text} of {kind} {changes}, and not {found}', f'{found}: ' == text)
    for kind in ['ca', 'ee', 'detached', 'router']:
        made = prepare(kind, at=at, serial='0d', crl=['next.crl'])
        sign(made.stdout, 'anchor')
        done = complete(ANCHOR, '--crl', 'next.crl', at=at)
        Path('free.cer').write_bytes(done.stdout)
        found = told(['--crl', 'next.crl', *ANCHOR, 'free.cer'], at)
        check(f'{kind} that is completed with a list is accepted with it, and not {found}',
              done.returncode == 0 and found is None, done.stderr)
    late = prepare('list', at='2030-01-01', **{'next-update': '2035-01-01'})
    sign(late.stdout, 'anchor')
    is_refused('complete a list before its time', complete(ANCHOR), 'Stale: ')
    done = complete(ANCHOR, at='2030-01-01')
    check('complete a list at its time', done.returncode == 0, done.stderr)
    tbs = ref.decode_crl(Path('first.crl').read_bytes()).tbs
    for fields, text in OTHER_LISTS:
        sign(ref.encode_list(dataclasses.replace(tbs, **fields)), 'anchor')
        is_refused(f'complete a list with {fields}', complete(ANCHOR), text)


def try_list_signatures():
    """A list's: signed by another key, over other octets, cut, longer, or with another DigestInfo."""
    prepared = prepare('list', serial=['05', '06']).stdout
    other = prepare('list', serial=['05', '07']).stdout

    def refuses(what, text='BadSignature: ', issuers=ANCHOR, at=AT):
        is_refused(f'complete a list {what}', complete(issuers, at=at), text)

    def signed(octets=prepared, key='anchor'):
        sign(octets, key)
        return Path('signed.sig').read_bytes()

    signature = signed()
    done = complete(ANCHOR)
    Path('made.crl').write_bytes(done.stdout)
    check('complete a list that is signed', done.returncode == 0, done.stderr)
    pem = complete(ANCHOR, '--pem')
    check('--pem of a list', pem.stdout == openssl('crl', '-inform', 'DER', '-in', 'made.crl'),
          pem.stderr)
    signed(key='other')
    refuses('by another key')
    signed(other)
    Path('signed.tbs').write_bytes(prepared)
    refuses('over another list')
    for what, octets in [('cut', signature[:-1]), ('longer', signature + b'\0'), ('empty', b'')]:
        Path('signed.sig').write_bytes(octets)
        refuses(f'with a signature that is {what}')
    openssl('dgst', '-sha384', '-sign', 'anchor.key', '-out', 'signed.sig', 'signed.tbs')
    refuses('with sha384')
    signed()
    refuses('below another issuer', 'OtherName: ', ['alien.cer'])
    refuses('below none', "--issuer: missing; expected the path of the CRL's issuer", None)
    refuses('when it is stale', 'Stale: ', at='2026-07-02')
    is_refused('complete with a list that is none', complete(ANCHOR, '--crl', 'cut.crl'),
               '--crl cut.crl: not a CRL, or bytes follow it; expected one CRL in each file')
    is_refused('complete with two lists in one file', complete(ANCHOR, '--crl', 'behind.crl'),
               '--crl behind.crl: not a CRL, or bytes follow it; expected one CRL in each file')
    for what, octets in [('cut', prepared[:-1]), ('with an octet behind it', prepared + b'\0'),
                         ('a whole list', Path('made.crl').read_bytes())]:
        signed(octets)
        refuses(f'that is {what}', 'signed.tbs: not a TBSCertificate or TBSCertList; expected what ')


# ---- files that are written

def try_out():
    octets = prepare('ca').stdout
    wanted = {'out': 'made.tbs'}
    Path('made.tbs').unlink(missing_ok=True)

    def is_written(what, done, held):
        check(f'{what}: {done.returncode}, nothing printed, and the file',
              done.returncode == 0 and not done.stdout and not done.stderr
              and Path('made.tbs').read_bytes() == held, done.stderr)

    def fails(what, done, text):
        check(f'{what}: status 3 and {text!r}, and not {done.returncode}', done.returncode == 3
              and not done.stdout and text in done.stderr.decode(), done.stderr)

    done = prepare('ca', out='-')
    check('--out -: the octets on standard output, and no file', done.returncode == 0
          and done.stdout == octets and not Path('-').exists(), done.stderr)
    is_written('--out', prepare('ca', **wanted), octets)
    Path('made.tbs').write_bytes(b'before')
    fails('--out of a file that is there', prepare('ca', **wanted),
          'rpki: made.tbs: exists already (--force replaces it)')
    check('it stays as it was', Path('made.tbs').read_bytes() == b'before')
    is_refused('a request that is refused', rpki('prepare', 'ca', *words_of(
        WANTED['ca'] | {'ipv4': '11.0.0.0/8', 'at': AT} | wanted), '--force'), 'OverclaimV4: ')
    check('the file stays where a request is refused', Path('made.tbs').read_bytes() == b'before')
    is_written('--force', rpki('prepare', 'ca', *words_of(WANTED['ca'] | {'at': AT} | wanted),
                               '--force'), octets)
    is_refused('a request that is refused', prepare('ca', ipv4='11.0.0.0/8', out='none.tbs'),
               'OverclaimV4: ')
    check('and makes no file', not Path('none.tbs').exists())
    os.symlink('nowhere', 'link')
    fails('a link to nowhere', prepare('ca', out='link'), 'rpki: link: exists already')
    check('and makes no file', not Path('nowhere').exists())
    fails('no name', prepare('ca', out=''), 'no such file or directory')
    fails('a folder that is missing', prepare('ca', out='none/made.tbs'),
          'rpki: none/made.tbs: no such file or directory')
    fails('a long name', prepare('ca', out='none/' + 'n' * 200),
          'rpki: none/' + 'n' * 200 + ': no such file or directory\n')
    fails('a folder', rpki('prepare', 'ca', *words_of(WANTED['ca'] | {'at': AT, 'out': '.'}),
                           '--force'), 'rpki: .: is a directory')
    done = subprocess.run([program, 'prepare', 'ca', *words_of(
        WANTED['ca'] | {'at': AT, 'out': 'cut.tbs'})], stdin=subprocess.DEVNULL,
        capture_output=True, preexec_fn=limit_files)
    fails('a file that may have 100 octets', done, 'rpki: cut.tbs: ')
    check('no part of it is left', not Path('cut.tbs').exists())
    if Path('/dev/full').exists():
        fails('a full disk', rpki('prepare', 'ca', *words_of(
            WANTED['ca'] | {'at': AT, 'out': '/dev/full'}), '--force'), 'rpki: /dev/full: ')
    try_force(octets, is_written, fails)
    sign(octets, 'anchor')
    done = complete(ANCHOR, '--pem', '--out', 'made.pem')
    check('complete --pem --out', done.returncode == 0 and not done.stdout
          and openssl('x509', '-in', 'made.pem', '-noout', '-serial') == b'serial=05\n',
          done.stderr)
    done = rpki('complete', '--out', 'a', '--out', 'b', 'signed.tbs', 'signed.sig')
    check('--out twice: status 2', done.returncode == 2 and b'--out: given more than once' in done.stderr,
          done.stderr)


def try_shut(fails, stays):
    """What may not be written is neither made nor replaced: asked as nobody, if root asks."""
    how = {'user': 65534, 'group': 65534, 'extra_groups': []} if os.geteuid() == 0 else {}

    def force(out):
        words = words_of(WANTED['ca'] | {'at': AT, 'out': out})
        return subprocess.run([program, 'prepare', 'ca', *words, '--force'], check=False,
                              stdin=subprocess.DEVNULL, capture_output=True, **how)
    try:
        can_run = force('-').returncode == 0
    except OSError:
        can_run = False
    if not can_run:
        print('left out: what may not be written: nobody may not run the program')
        return
    for folder, mode, of_file in (('shut', 0o500, 0o600), ('open', 0o700, 0o400)):
        place = Path(folder, 'made.tbs')
        place.parent.mkdir()
        place.write_bytes(b'before')
        place.chmod(of_file)
        place.parent.chmod(mode)
        if how:
            os.chown(place, 65534, 65534)
            os.chown(place.parent, 65534, 65534)
        fails(f'{place} may not be written', force(str(place)), f'rpki: {place}: permission denied')
        stays(f'{place} may not be written', file=place)
        place.parent.chmod(0o700)


def try_two_disks(force):
    """Files of two file systems are two, also by one number."""
    disks = [Path('disk1'), Path('disk2')]
    try:
        for disk in disks:
            disk.mkdir()
            subprocess.run(['mount', '-t', 'tmpfs', '-o', 'size=64k', 'tmpfs', disk], check=True)
        files = [disks[0] / 'anchor.cer', disks[1] / 'made.tbs']
        shutil.copy('anchor.cer', files[0])
        files[1].write_bytes(b'before')
        are_alike = files[0].stat().st_ino == files[1].stat().st_ino
        done = force(str(files[1]), issuer=str(files[0]))
        check(f'an output with the number of an input on another disk: {done.returncode}',
              are_alike and done.returncode == 0 and files[1].read_bytes() != b'before',
              done.stderr)
    finally:
        for disk in disks:
            subprocess.run(['umount', disk], check=False)


def try_force(octets, is_written, fails):
    """A file that is there is replaced as a whole or stays, and one that is read is never replaced."""
    def force(out, **changes):
        return rpki('prepare', 'ca', *words_of(WANTED['ca'] | {'at': AT, 'out': out} | changes),
                    '--force')

    def stays(what, held=b'before', file='made.tbs'):
        check(f'{what}: the old file stays', Path(file).read_bytes() == held)
        check(f'{what}: nothing is left beside it', not list(Path(file).parent.glob('.rpki-*')))

    def force_under(limit):
        return subprocess.run([program, 'prepare', 'ca', *words_of(
            WANTED['ca'] | {'at': AT, 'out': 'made.tbs'}), '--force'], stdin=subprocess.DEVNULL,
            capture_output=True, preexec_fn=limit)

    old = Path('made.tbs')
    old.write_bytes(b'before')
    fails('--force, and files may have 100 octets', force_under(limit_files), 'rpki: made.tbs: ')
    stays('--force, and files may have 100 octets')
    if FCHMOD:
        done = force_under(refuse_modes)
        fails('--force without modes', done, 'rpki: made.tbs: permission denied')
        stays('--force without modes')
    else:
        print('left out: the number of fchmod is unknown here')
    Path('disk').mkdir()
    mounted = subprocess.run(['mount', '-t', 'tmpfs', '-o', 'size=4k', 'tmpfs', 'disk'],
                             capture_output=True).returncode == 0
    if mounted:
        try:
            Path('disk/made.tbs').write_bytes(b'before')
            fails('--force on a full disk', force('disk/made.tbs'), 'rpki: disk/made.tbs: ')
            stays('--force on a full disk', file='disk/made.tbs')
            fails('--out on a full disk', prepare('ca', out='disk/new.tbs'), 'rpki: disk/new.tbs: ')
            check('no part of it is left', os.listdir('disk') == ['made.tbs'])
        finally:
            subprocess.run(['umount', 'disk'], check=True)
        try_two_disks(force)
    else:
        print('left out: no file system may be mounted')
    # a link stays, and the mode of the file behind it; the file's other names keep the old octets
    old.chmod(0o600)
    os.symlink('made.tbs', 'to')
    os.link('made.tbs', 'other')
    is_written('--force through a link', force('to'), octets)
    check('the link, the mode and the other name stay', os.readlink('to') == 'made.tbs'
          and old.stat().st_mode & 0o777 == 0o600 and Path('other').read_bytes() == b'before')
    # a link that leads nowhere stays, and the file to which it leads is made
    os.symlink('later', 'early')
    done = force('early')
    check('--force through a link to nowhere', done.returncode == 0 and not done.stderr
          and os.path.islink('early') and os.readlink('early') == 'later'
          and Path('later').exists() and Path('later').read_bytes() == octets, done.stderr)
    # what a run left that a signal ended is in nobody's way
    Path('.rpki-0').write_bytes(b'left')
    is_written('--force beside a .rpki-0', force('made.tbs'), octets)
    old.unlink()
    is_written('--out beside a .rpki-0', prepare('ca', out='made.tbs'), octets)
    check('which stays', Path('.rpki-0').read_bytes() == b'left' and not Path('.rpki-1').exists())
    Path('.rpki-0').unlink()
    # no name beside it
    Path('taken').mkdir()
    for number in range(1000):
        Path(f'taken/.rpki-{number}').touch()
    Path('taken/made.tbs').write_bytes(b'before')
    fails('no name beside it', force('taken/made.tbs'), 'too many files .rpki-N')
    check('no name beside it: the old file stays', Path('taken/made.tbs').read_bytes() == b'before')
    try_shut(fails, stays)
    # an output that is an input, by its name, by other names of it, by links
    held = Path('anchor.cer').read_bytes()
    os.symlink('anchor.cer', 'same.cer')
    os.link('anchor.cer', 'twin.cer')
    for out in ['anchor.cer', './anchor.cer', os.path.abspath('anchor.cer'), 'same.cer', 'twin.cer']:
        for done in [force(out), prepare('ca', out=out)]:
            fails(f'--out {out} of an issuer', done, f'rpki: {out}: is read too')
        stays(f'--out {out} of an issuer', held, 'anchor.cer')
    key = Path('ca.pub').read_bytes()
    fails('--out of the key', force('ca.pub'), 'rpki: ca.pub: is read too; expected another file for --out')
    stays('--out of the key', key, 'ca.pub')
    sign(octets, 'anchor')
    for out in ['signed.tbs', './signed.sig']:
        before = Path(out).read_bytes()
        fails(f'complete --out {out}', complete(ANCHOR, '--force', '--out', out),
              f'rpki: {out}: is read too')
        stays(f'complete --out {out}', before, out)


def try_help():
    for words in [['prepare', '--help'], ['prepare', '-h'], ['prepare', 'ca', '--help'],
                  ['prepare', 'list', '-h'], ['complete', '--help'],
                  ['prepare', 'ca', '--issuer', 'none.cer', '--help'],
                  ['complete', '--wat', '-h', '--', 'x']]:
        done = rpki(*words)
        check(f'{" ".join(words)}: status 0 and the usage', done.returncode == 0
              and done.stdout == rpki('help', words[0]).stdout and not done.stderr
              and done.stdout.startswith(f'usage: rpki {words[0]} '.encode()), done.stderr)
    done = rpki('complete', '--', '--help', '-h')
    check('behind -- each word is a file', done.returncode == 3 and not done.stdout
          and b'rpki: --help: no such file' in done.stderr, done.stderr)


def try_long_files():
    with open('long', 'wb') as file:
        file.truncate(67_108_865)
    for words in [{'key': 'long'}, {'issuer': ['long']}]:
        done = prepare('ca', **words)
        check(f'a file that is too long: status 3, and not {done.returncode}',
              done.returncode == 3 and not done.stdout
              and done.stderr == b'rpki: long: more than 67108864 bytes\n', done.stderr)
    Path('long').unlink()


# ---- rpki-client

has_client = False


def compare_client(what, file):
    """What it reads of a certificate or a list, beside what `show` prints."""
    if not has_client:
        return
    done = clients.run('rpki-client', '-n', '-j', '-f', file)
    found = json.loads(done.stdout or '{}')
    counts = clients.Counts()
    mine = json.loads(rpki('show', '-j', file).stdout)
    clients.compare_client(counts, what, mine, found, 'failed')
    check(f'rpki-client reads {what}', 'type' in found and not counts.failed,
          done.stderr.encode())


# ---- random lists

def revocable():
    """Certificates below each of two issuers, by the issuer's key."""
    found = {'anchor': ['ca.cer', 'object.cer', 'inheriting.cer'], 'ca': []}
    for place in range(3):
        name = f'lower{place}.cer'
        make(name, 'ee', 'ca', issuer=['anchor.cer', 'inheriting.cer'], key='other.pub',
             serial=f'{place + 32}', ipv4='inherit', ipv6='inherit', **{'as': 'inherit'})
        found['ca'].append(name)
    return found


def random_serial(it):
    return it.randrange(1, min(1 << 8 * it.randrange(1, 21), 1 << 159))


def as_hex(number):
    return number.to_bytes((number.bit_length() + 7) // 8 or 1, 'big').hex()


def random_list(it, previous, own):
    """What is asked of a list, and the number and the serial numbers that it is to have."""
    before, entries = (previous or (0, []))[:2]
    numbers = [random_serial(it) for _ in range(it.choice([0, 1, 2, 5, 50]))]
    numbers += [serial for serial, _ in entries if it.randrange(4) == 0]
    files = it.sample(own, it.randrange(len(own) + 1)) if it.randrange(2) else []
    changes = {'serial': [as_hex(n) for n in numbers], 'revoke': files}
    number = before + 1
    if it.randrange(3) == 0:
        number = it.randrange(before + 1, 1 << 159) if it.randrange(2) else before + 7
        changes['number'] = as_hex(number)
    by_files = [ref.decode_cert(Path(name).read_bytes()).tbs.serial for name in files]
    wanted = list(entries)
    for serial in by_files + numbers:
        if serial not in [known for known, _ in wanted]:
            wanted.append((serial, (2026, 6, 1)))
    return changes, number, wanted


def compare_list(what, octets, number, wanted):
    """The fields as the reference and openssl read them, and its one encoding."""
    crl = ref.decode_crl(octets)
    found = fields_of_list(octets)[:2]
    check(f'{what} has number {number} and what is revoked, and not {found}',
          found == (number, wanted))
    printed = printed_list(octets)
    other = printed and differences(known_list(crl), printed)[1]
    check(f'{what}: (the reference, openssl) {other}', printed is not None and not other)
    check(f'{what} has another encoding',
          ref.encode_list(crl.tbs) == Path('signed.tbs').read_bytes())


def revoked_by_openssl(file, above, crl):
    """What `openssl verify` says of a certificate by a list of its issuer: whether it is revoked."""
    for name in [*above, file]:
        openssl('x509', '-inform', 'DER', '-in', name, '-out', f'{name}.pem')
    openssl('crl', '-inform', 'DER', '-in', crl, '-out', f'{crl}.pem')
    between = ['-untrusted', f'{above[1]}.pem'] if len(above) > 1 else []
    done = subprocess.run(['openssl', 'verify', '-crl_check', '-attime', '1780272000', '-CAfile',
                           f'{above[0]}.pem', *between, '-CRLfile', f'{crl}.pem', f'{file}.pem'],
                          capture_output=True)
    said = (done.stdout + done.stderr).decode()
    if done.returncode == 0:
        return False
    return True if 'certificate revoked' in said else said


def try_random_lists():
    pool = revocable()
    held = {'anchor': None, 'ca': None}
    for place in range(options.lists):
        it = random.Random(f'{options.seed}-list-{place}')
        key = it.choice(['anchor', 'ca'])
        above = ANCHOR if key == 'anchor' else ['anchor.cer', 'inheriting.cer']
        if it.randrange(8) == 0:
            held[key] = None
        changes, number, wanted = random_list(it, held[key], pool[key])
        if held[key]:
            changes['previous'] = f'{key}.crl'
        what = f'random list {place} of {key}: {changes}'
        octets = make('random.crl', 'list', key, issuer=above, **changes)
        compare_list(what, octets, number, wanted)
        compare_client(what, 'random.crl')
        os.replace('random.crl', f'{key}.crl')
        held[key] = (number, wanted)
        if number >= (1 << 159) - 10:
            held[key] = None
        for file in pool[key]:
            serial = ref.decode_cert(Path(file).read_bytes()).tbs.serial
            is_revoked = serial in [known for known, _ in wanted]
            lists = ['anchor.crl', 'ca.crl'] if key == 'ca' else ['anchor.crl']
            if key == 'ca':
                make_empty_anchor_list()
                lists = ['empty.crl', 'ca.crl']
            found = told([*words_of({'crl': lists}), *above, file])
            check(f'validate by {what} tells {found} of {file}',
                  found == ('Revoked' if is_revoked else None))
            found = revoked_by_openssl(file, above, f'{key}.crl')
            check(f'openssl verify by {what} says {found} of {file}', found == is_revoked)


def make_empty_anchor_list():
    if not Path('empty.crl').exists():
        make('empty.crl', 'list', 'anchor')


# ---- the examples

# What `show` prints of a file that doesn't follow from its keys, and of each revoked entry.
OF_NO_KEY = ('type', 'version', 'cert_serial', 'crl_serial', 'aia', 'crl', 'manifest', 'carepository',
             'notify_url', 'signed_object', 'valid_since', 'valid_until', 'subordinate_resources',
             'revoked_certs', 'key_usage', 'overclaim', 'profiles', 'signature_algorithm')


def try_examples():
    """examples/make.sh makes files as those of examples/."""
    os.mkdir('examples')
    done = subprocess.run([TOP / 'examples/make.sh', 'examples'], capture_output=True,
                          env=os.environ | {'RPKI': str(program)})
    check('examples/make.sh', done.returncode == 0 and not done.stderr, done.stderr)
    theirs = {it.name for it in (TOP / 'examples').iterdir()}
    ours = {it.name for it in Path('examples').iterdir()}
    check(f'it makes {ours}', ours == theirs - {'README.md', 'make.sh'})
    for name in sorted(ours - {'anchor.tal'}):
        mine = json.loads(rpki('show', '-j', f'examples/{name}').stdout)
        known = json.loads(rpki('show', '-j', TOP / 'examples' / name).stdout)
        other = {key: (known.get(key), mine.get(key)) for key in OF_NO_KEY
                 if known.get(key) != mine.get(key)}
        if name == 'revoked.crl':    # which is a month younger here, since a list revokes now
            other.pop('valid_since', None)
        check(f'{name} is another than the example: {other}', not other)
    os.chdir('examples')
    path = ['anchor.cer', 'first.cer', 'second.cer', 'object.cer']
    lists = ['--crl', 'first.crl', '--crl', 'second.crl', '--crl', 'object.crl']
    for words, fault in [(['--tal', 'anchor.tal', *lists, *path], None),
                         ([*lists[:2], '--crl', 'revoked.crl', *path[:3]], 'Revoked'),
                         ([*path[:2], 'tampered.cer'], 'BadSignature')]:
        found = told(words)
        check(f'validate {words} tells {fault}, and not {found}', found == fault)
    os.chdir('..')


with tempfile.TemporaryDirectory() as room:
    os.chdir(room)
    os.chmod(room, 0o755)    # rpki-client gives up root's rights
    if not os.access(program, os.X_OK):
        print(f"tests/issuing: left out: no program at {program}; 'rt ci' builds it")
        failed += 1
    else:
        if not options.random:
            os.mkdir('round')
            os.chdir('round')
            run_page()
            os.chdir(room)
        make_keys()
        make_issuers()
        if not options.random:
            try_refused()
            try_others()
            try_signatures()
            try_words()
            make_lists()
            try_lists()
            try_accepted()
            try_list_signatures()
            try_out()
            try_help()
            try_long_files()
            try_examples()
        has_client = clients.is_client_there()
        try_random()
        try_random_lists()
    os.chdir(TOP)
print(f'{passed} passed, {failed} failed')
sys.exit(failed > 0)
