#!/usr/bin/env python3
"""Makes certificates and a list with the `openssl` command, as RFC 6487 asks.

    python3 reference/openssl_objects.py FOLDER

Makes a trust anchor, an authority, an end entity and a revocation list with
keys of 2,048 bits and the extensions of RFC 3779, and variants that real
authorities might make. FOLDER/NAME.der has each object. Prints what the
reference says of each, and of the whole path under the true signatures. The
keys are new in each run, so the octets differ.
"""

import shutil
import subprocess
import sys
from pathlib import Path

import reference as ref
import rsa

NOW = (2024, 1, 1, 0, 0, 0)
BASE = 'rsync://rpki.example.net/repo'

CONFIG = '''
[req]
distinguished_name = subject
prompt = no
string_mask = {mask}
[subject]
CN = {name}
[ca]
default_ca = authority
[authority]
dir = .
database = {files}.index
new_certs_dir = .
serial = {files}.serial
crlnumber = {files}.crlnumber
default_md = sha256
policy = any
unique_subject = no
email_in_dn = no
[any]
commonName = supplied
[crl_ext]
authorityKeyIdentifier = keyid:always
[extensions]
{extensions}
[sia]
{sia}
[policy]
policyIdentifier = 1.3.6.1.5.5.7.14.2
{cps}
[ip]
{ip}
[as]
{as}
[point]
fullname = {point}
'''
AUTHORITY = '''basicConstraints = critical,CA:TRUE
subjectKeyIdentifier = hash
keyUsage = critical,keyCertSign,cRLSign
'''
LEAF = '''subjectKeyIdentifier = hash
keyUsage = critical,digitalSignature
'''
ISSUED = '''authorityKeyIdentifier = {key_id}
crlDistributionPoints = {crl}
authorityInfoAccess = {aia}
'''
RESOURCES = '''subjectInfoAccess = @sia
certificatePolicies = critical,@policy
sbgp-ipAddrBlock = critical,@ip
sbgp-autonomousSysNum = critical,@as
'''
CPS = 'CPS.1 = "https://rpki.example.net/cps.html"'
AUTHORITY_SIA = f'''caRepository;URI.0 = {BASE}/ca/
1.3.6.1.5.5.7.48.10;URI.1 = {BASE}/ca/ca.mft
1.3.6.1.5.5.7.48.13;URI.2 = https://rrdp.example.net/notify.xml'''
LEAF_SIA = f'1.3.6.1.5.5.7.48.11;URI.0 = {BASE}/ca/route.roa'
DEFAULTS = {'mask': 'nombstr', 'cps': CPS, 'key_id': 'keyid:always',
            'crl': 'point', 'point': f'URI:{BASE}/ta.crl',
            'aia': f'caIssuers;URI:{BASE}/ta.cer'}
WIDE = {'ip': 'IPv4.0 = 0.0.0.0/0\nIPv6.0 = ::/0', 'as': 'AS.0 = 0-4294967295'}
PART = {'ip': 'IPv4.0 = 10.0.0.0/8\nIPv4.1 = 192.0.2.0-192.0.2.130\n'
              'IPv6.0 = 2001:db8::/32',
        'as': 'AS.0 = 64496-64511\nAS.1 = 4200000000'}
LEFT = {'ip': 'IPv4 = inherit\nIPv6 = inherit', 'as': 'AS = inherit'}


class Bench:
    """A folder in which `openssl` runs."""

    def __init__(self, folder):
        self.folder = Path(folder)
        self.folder.mkdir(parents=True, exist_ok=True)
        self.serial = 0x10

    def run(self, *words):
        done = subprocess.run(['openssl', *words], cwd=self.folder,
                              capture_output=True, text=True)
        if done.returncode:
            raise SystemExit(f'openssl {" ".join(words)}\n{done.stderr}')

    def write(self, name, text):
        (self.folder / name).write_text(text)

    def config(self, name, extensions, sia, resources, **options):
        settings = DEFAULTS | resources | options
        settings['extensions'] = extensions.format(**settings)
        self.write(f'{name}.cnf', CONFIG.format(
            name=name, files=name, sia=sia, **settings))
        self.write(f'{name}.index', '')
        self.serial += 1
        self.write(f'{name}.serial', f'{self.serial:02X}\n')
        self.write(f'{name}.crlnumber', '0C\n')

    def key(self, name):
        self.run('genrsa', '-out', f'{name}.key', '2048')

    def certificate(self, name, issuer, extensions, sia, resources, **options):
        """A certificate of a name, the issuer's own name for an anchor."""
        self.config(name, extensions, sia, resources, **options)
        if not (self.folder / f'{name}.key').exists():
            self.key(name)
        self.run('req', '-new', '-config', f'{name}.cnf', '-key',
                 f'{name}.key', '-out', f'{name}.csr')
        own = ['-selfsign'] if issuer == name else [
            '-cert', f'{issuer}.pem']
        self.run('ca', '-batch', '-notext', '-config', f'{name}.cnf',
                 '-extensions', 'extensions', *own, '-keyfile',
                 f'{issuer}.key', '-startdate', '20190501000000Z',
                 '-enddate', '20290501000000Z', '-in', f'{name}.csr',
                 '-out', f'{name}.pem')
        self.run('x509', '-in', f'{name}.pem', '-outform', 'DER', '-out',
                 f'{name}.der')
        return (self.folder / f'{name}.der').read_bytes()

    def crl(self, name, issuer, reason=''):
        """A CRL of two entries, made with the issuer's configuration."""
        vectors = [f'R\t290501000000Z\t200101000000Z{reason}\t{n:02X}\tunknown'
                f'\t/CN=gone{n}\n' for n in (1, 2)]
        self.write(f'{issuer}.index', ''.join(vectors))
        self.write(f'{issuer}.crlnumber', '0C\n')
        self.run('ca', '-gencrl', '-config', f'{issuer}.cnf', '-crlexts',
                 'crl_ext', '-cert', f'{issuer}.pem', '-keyfile',
                 f'{issuer}.key', '-crl_lastupdate', '20190501000000Z',
                 '-crl_nextupdate', '20290501000000Z', '-out', f'{name}.pem')
        self.run('crl', '-in', f'{name}.pem', '-outform', 'DER', '-out',
                 f'{name}.der')
        return (self.folder / f'{name}.der').read_bytes()


# ------------------------------------------------------------ what is said ---

def outcome(call, *arguments, **options):
    try:
        call(*arguments, **options)
    except (ref.Refusal, ref.PathError) as fault:
        return f'refused: {fault}'
    return 'Ok'


def report(name, kind, octets):
    """Decoding and inspection in both modes."""
    said = outcome(ref.decode_cert, octets)
    print(f'{name}: {len(octets)} octets, decode {said}')
    if said == 'Ok':
        cert = ref.decode_cert(octets)
        for mode in (True, False):
            word = 'strict' if mode else 'lenient'
            said = outcome(ref.inspect, kind, mode, cert)
            print(f'  inspect {kind} {word}: {said}')


def report_crl(name, octets, issuer):
    said = outcome(ref.decode_crl, octets)
    print(f'{name}: {len(octets)} octets, decode {said}')
    if said == 'Ok':
        crl = ref.decode_crl(octets)
        signed = rsa.verifier(issuer.key, crl.signed.algorithm,
                              crl.signed.data, crl.signed.signature)
        print(f'  entries {[e.serial for e in crl.entries()]}, number '
              f'{crl.tbs.crl_number}, signature {signed}')


# ------------------------------------------------------------------- main ---

def make_path(bench):
    """Anchor, CA and EE by the profile."""
    ta = bench.certificate('ta', 'ta', AUTHORITY + RESOURCES, AUTHORITY_SIA,
                           WIDE)
    ca = bench.certificate('ca', 'ta', AUTHORITY + ISSUED + RESOURCES,
                           AUTHORITY_SIA, PART)
    ee = bench.certificate('ee', 'ca', LEAF + ISSUED + RESOURCES, LEAF_SIA,
                           LEFT)
    return [(ref.TA, ta), (ref.CA, ca), (ref.EE, ee)]


VARIANTS = {
    'utf8-name': {'mask': 'utf8only'},
    'no-cps': {'cps': ''},
    'two-issuer-uris': {'aia': f'caIssuers;URI:{BASE}/ta.cer,'
                               'caIssuers;URI:https://example.net/ta.cer'},
    'crl-two-names': {'point': f'URI:{BASE}/ta.crl,'
                               'URI:https://example.net/ta.crl'},
    'crl-two-rsync-names': {'point': f'URI:{BASE}/ta.crl,'
                                     'URI:rsync://example.org/m/ta.crl'},
    'crl-two-points': {'crl': f'URI:{BASE}/ta.crl,'
                              'URI:https://example.net/ta.crl'},
    'key-id-with-issuer': {'key_id': 'keyid:always,issuer:always'},
}


def make_variant(bench, name, options):
    """A CA under the anchor with one thing made otherwise."""
    extensions = AUTHORITY + ISSUED + RESOURCES
    return bench.certificate(f'ca-{name}', 'ta', extensions, AUTHORITY_SIA,
                             PART, **options)


def main(folder):
    if shutil.which('openssl') is None:
        raise SystemExit('no openssl here')
    bench = Bench(folder)
    members = make_path(bench)
    for kind, octets in members:
        report(f'{kind}.der', kind, octets)
    print('path with true RSA signatures:', outcome(
        ref.validate_path, members, True, NOW, rsa.verifier))
    issuer = ref.decode_cert(members[0][1]).tbs
    report_crl('ta-crl.der', bench.crl('ta-crl', 'ta'), issuer)
    report_crl('ta-crl-reasons.der', bench.crl(
        'ta-crl-reasons', 'ta', ',keyCompromise'), issuer)
    for name, options in VARIANTS.items():
        octets = make_variant(bench, name, options)
        report(f'ca-{name}.der', ref.CA, octets)


if __name__ == '__main__':
    main(*sys.argv[1:])
