"""Vectors of whole paths with real signatures.

    python3 reference/real_paths.py [SEED]

Makes an anchor, two authorities and an end entity by the profile of RFC 6487, with keys from the
seed, signed by the `openssl` command, and writes them and `real-paths.vectors` into
`crates/rpki_vectors/data`. Each member with one bit changed is refused. The answers are worked by hand
from RFC 6487 4.8.2, 4.8.3 and 7.2: what is decoded is inspected, and then verified; the key
identifier that a certificate names for its own key is inspected, and a signature is verified last
but for the resources. OpenSSL has to accept the path, and none with a changed member.
"""

import tempfile

from signatures import DATA, SEED, Key, OpenSsl, flipped

MOMENT = '20240101000000'
BASE = 'rsync://rpki.example.net/repository'

CONFIG = '''
[req]
distinguished_name = subject
prompt = no
string_mask = nombstr
[subject]
CN = {name}
[ca]
default_ca = authority
[authority]
database = index
new_certs_dir = .
serial = serial
default_md = sha256
policy = any
unique_subject = no
email_in_dn = no
[any]
commonName = supplied
[extensions]
{extensions}
subjectInfoAccess = @access
certificatePolicies = critical,1.3.6.1.5.5.7.14.2
sbgp-ipAddrBlock = critical,@addresses
sbgp-autonomousSysNum = critical,@numbers
[access]
{access}
[addresses]
{addresses}
[numbers]
{numbers}
'''

AUTHORITY = '''basicConstraints = critical,CA:TRUE
subjectKeyIdentifier = hash
keyUsage = critical,keyCertSign,cRLSign'''
END_ENTITY = '''subjectKeyIdentifier = hash
keyUsage = critical,digitalSignature'''
ISSUED = '''
authorityKeyIdentifier = keyid:always
crlDistributionPoints = URI:{base}/{issuer}/{issuer}.crl
authorityInfoAccess = caIssuers;URI:{base}/{issuer}.cer'''
REPOSITORY = '''caRepository;URI.0 = {base}/{name}/
1.3.6.1.5.5.7.48.10;URI.1 = {base}/{name}/{name}.mft'''
OBJECT = '1.3.6.1.5.5.7.48.11;URI.0 = {base}/{issuer}/{name}.roa'

ALL = ('IPv4.0 = 0.0.0.0/0\nIPv6.0 = ::/0', 'AS.0 = 0-4294967295')
SOME = ('IPv4.0 = 10.0.0.0/8\nIPv6.0 = 2001:db8::/32', 'AS.0 = 64496-64511')
INHERITED = ('IPv4 = inherit\nIPv6 = inherit', 'AS = inherit')
FEW = ('IPv4.0 = 10.64.0.0/10\nIPv6.0 = 2001:db8:8000::/33', 'AS.0 = 64500-64511')

# what the end entity holds, which has what the second authority inherits from the first
HELD = ('ok v4=a400000000000000000000000000000-a7fffffffffffffffffffffffffffff'
        ' v6=20010db8800000000000000000000000-20010db8ffffffffffffffffffffffff as=64500-64511')


def member(openssl, name, issuer, serial, extensions, access, resources, key):
    """A certificate of a name, the issuer's own for the anchor."""
    own = name == issuer
    extensions += '' if own else ISSUED
    settings = {'name': name, 'issuer': issuer, 'base': BASE}
    openssl.write('config', CONFIG.format(
        name=name, extensions=extensions.format(**settings), access=access.format(**settings),
        addresses=resources[0], numbers=resources[1]).encode())
    openssl.write('index', b'')
    openssl.write('serial', f'{serial:02X}\n'.encode())
    openssl.write('private', key.private())
    openssl.must('rsa', '-inform', 'DER', '-in', 'private', '-out', f'{name}.key')
    openssl.must('req', '-new', '-config', 'config', '-key', f'{name}.key', '-out', 'request')
    by = ['-selfsign'] if own else ['-cert', f'{issuer}.pem']
    openssl.must('ca', '-batch', '-notext', '-config', 'config', '-extensions', 'extensions', *by,
                 '-keyfile', f'{issuer}.key', '-startdate', '20190501000000Z',
                 '-enddate', '20290501000000Z', '-in', 'request', '-out', f'{name}.pem')
    openssl.must('x509', '-in', f'{name}.pem', '-outform', 'DER', '-out', f'{name}.der')
    return (openssl.folder / f'{name}.der').read_bytes()


def accepts(openssl, members):
    """Whether OpenSSL verifies the path, its signatures by the keys of the members above."""
    names = []
    for place, octets in enumerate(members):
        openssl.write('member', octets)
        names.append(f'member{place}.pem')
        if openssl.run('x509', '-inform', 'DER', '-in', 'member', '-out', names[-1]).returncode:
            return False
    between = b''.join((openssl.folder / name).read_bytes() for name in names[1:-1])
    openssl.write('between', between)
    return openssl.run('verify', '-no_check_time', '-ignore_critical', '-check_ss_sig', '-trusted', names[0],
                       '-untrusted', 'between', names[-1]).returncode == 0


def question(words, mode='strict'):
    kinds = ['ta'] + ['ca'] * (len(words) - 2) + ['ee']
    return f'real-path {MOMENT} {mode} ' + ' '.join(f'{k}:{w}' for k, w in zip(kinds, words))


def changes(octets, key):
    """A name, the octets with one bit changed, and how they are refused."""
    serial = octets.index(b'\x02\x01\x02\x02\x01') + 5
    bits = octets.index(key.bits) + 100
    return (('serial number', flipped(octets, serial, 0), 'verify BadSignature'),
            ('validity', flipped(octets, octets.index(b'190501000000Z') + 11, 0), 'verify BadSignature'),
            ('key', flipped(octets, bits, 0), 'inspect SubjectKeyIdentifier'),
            ('signature', flipped(octets, len(octets) - 1, 0), 'verify BadSignature'),
            ('signature\'s first octet', flipped(octets, len(octets) - 256, 0), 'verify BadSignature'))


def main():
    names = ('real-anchor', 'real-authority', 'real-subordinate', 'real-end-entity')
    with tempfile.TemporaryDirectory() as folder:
        openssl = OpenSsl(folder)
        keys = [Key(2048) for _ in range(5)]
        members = [
            member(openssl, 'anchor', 'anchor', 0x11, AUTHORITY, REPOSITORY, ALL, keys[0]),
            member(openssl, 'authority', 'anchor', 0x12, AUTHORITY, REPOSITORY, SOME, keys[1]),
            member(openssl, 'subordinate', 'authority', 0x13, AUTHORITY, REPOSITORY, INHERITED, keys[2]),
            member(openssl, 'end', 'subordinate', 0x14, END_ENTITY, OBJECT, FEW, keys[3])]
        small = member(openssl, 'authority', 'anchor', 0x12, AUTHORITY, REPOSITORY, SOME, Key(1024))
        below = member(openssl, 'end', 'authority', 0x14, END_ENTITY, OBJECT, FEW, keys[3])
        for name, octets in zip(names, members):
            (DATA / f'{name}.der').write_bytes(octets)
        if not accepts(openssl, members):
            raise SystemExit('OpenSSL refuses a signature of the path')
        if not accepts(openssl, [members[0], small, below]):
            raise SystemExit('OpenSSL refuses a signature by a key of 1024 bits')
        words = [f'@{name}' for name in names]
        lines = [f'# Made by reference/real_paths.py from the seed {SEED}; OpenSSL accepts and refuses the same paths, but for the last.', '',
                 '# Paths that OpenSSL signed by RSA keys are accepted, under RsaVerifier.', '',
                 'real path', question(words), HELD, '',
                 'real path, leniently', question(words, 'lenient'), HELD, '',
                 '# One bit changed in a member, and it is refused there.', '']
        for place, (name, octets, key) in enumerate(zip(names, members, keys)):
            for what, changed, fault in changes(octets, key):
                path = members[:place] + [changed] + members[place + 1:]
                if accepts(openssl, path):
                    raise SystemExit(f'OpenSSL accepts {name} with another {what}')
                asked = words[:place] + [changed.hex()] + words[place + 1:]
                lines += [f'{name} with another {what}', question(asked), f'refused {place} {fault}', '']
        lines += ['# A member that another key signed, or whose issuer has a key of another size.', '',
                  'end entity below the wrong authority', question([words[0], words[1], words[3]]),
                  'refused 2 verify WrongKeyId', '',
                  'end entity signed by a key of 1024 bits, which RFC 7935 3 forbids',
                  question([words[0], small.hex(), below.hex()]), 'refused 2 verify BadSignature', '']
        (DATA / 'real-paths.vectors').write_text('\n'.join(lines))


if __name__ == '__main__':
    main()
