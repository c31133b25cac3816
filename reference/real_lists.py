"""Vectors of whole paths with real signatures, whose members are looked for on real lists.

    python3 reference/real_lists.py [SEED]

Takes the path that `real_paths.py` made from the seed, makes a revocation list of each issuer by
the profile of RFC 6487 5 with the `openssl` command, and writes them and `real-revocation.vectors`
into `crates/rpki_vectors/data`. Each list with one bit changed, signed by another key or of another
key is refused. The answers are worked by hand from RFC 6487 7.2 and RFC 5280 6.3.3: the list under
the URI that a member names is its issuer's by the key that it names, is signed by it, is not stale
and doesn't have the member's serial number, asked in this order once the member is verified.
OpenSSL has to accept the path with the lists, and none that is refused.
"""

import calendar
import tempfile
import time

from real_paths import BASE, HELD, MOMENT
from signatures import DATA, SEED, Key, OpenSsl, encoded, flipped, value

LATER = '20280601000000'
ISSUERS = ('anchor', 'authority', 'subordinate')
MEMBERS = ('real-anchor', 'real-authority', 'real-subordinate', 'real-end-entity')
# serial numbers on the three lists; RFC 5280 5.1.2.6: an empty list of entries is absent
REVOKED = ((0x21, 0x22), (0x31,), ())

CONFIG = '''
[ca]
default_ca = authority
[authority]
database = index
crlnumber = number
default_md = sha256
crl_extensions = extensions
[extensions]
authorityKeyIdentifier = keyid:always
'''
REQUEST = '''
[req]
distinguished_name = subject
prompt = no
string_mask = nombstr
[subject]
CN = {name}
[extensions]
basicConstraints = critical,CA:TRUE
subjectKeyIdentifier = hash
'''


def entry(serial):
    """A line of OpenSSL's index: a certificate that is revoked."""
    return f'R\t290501000000Z\t230101000000Z\t{serial:02X}\tunknown\t/CN=revoked\n'


def made_list(openssl, issuer, key, serials):
    """A list of the issuer whose certificate is `ISSUER.pem`, signed by the key."""
    openssl.write('config', CONFIG.encode())
    openssl.write('index', ''.join(map(entry, serials)).encode())
    openssl.write('number', b'07\n')
    openssl.write('private', key.private())
    openssl.must('rsa', '-inform', 'DER', '-in', 'private', '-out', 'key.pem')
    openssl.must('ca', '-gencrl', '-config', 'config', '-cert', f'{issuer}.pem', '-keyfile', 'key.pem',
                 '-crl_lastupdate', '20230501000000Z', '-crl_nextupdate', '20280501000000Z', '-out', 'list.pem')
    openssl.must('crl', '-in', 'list.pem', '-outform', 'DER', '-out', 'list')
    return (openssl.folder / 'list').read_bytes()


def other_authority(openssl, name, key):
    """A certificate of the name with another key, as `other.pem`."""
    openssl.write('request', REQUEST.format(name=name).encode())
    openssl.write('private', key.private())
    openssl.must('rsa', '-inform', 'DER', '-in', 'private', '-out', 'key.pem')
    openssl.must('req', '-x509', '-new', '-config', 'request', '-extensions', 'extensions', '-key', 'key.pem',
                 '-out', 'other.pem')


def signed_by(openssl, key, octets):
    """The list with a signature of another key; what is signed stays."""
    content = value(octets, 0x30)[0]
    return octets[:-256] + openssl.sign(key, encoded(0x30, value(content, 0x30)[0]))


def accepts(openssl, lists, moment):
    """Whether OpenSSL verifies the path at a moment, each member looked for on one of the lists."""
    seconds = str(calendar.timegm(time.strptime(moment, '%Y%m%d%H%M%S')))
    text = b''
    for octets in lists:
        openssl.write('list', octets)
        done = openssl.run('crl', '-inform', 'DER', '-in', 'list')
        if done.returncode:
            return False
        text += done.stdout
    openssl.write('lists', text)
    return openssl.run('verify', '-attime', seconds, '-ignore_critical', '-check_ss_sig', '-crl_check_all',
                       '-CRLfile', 'lists', '-trusted', 'anchor.pem', '-untrusted', 'between',
                       'end.pem').returncode == 0


def uri(issuer):
    return f'{BASE}/{issuer}/{issuer}.crl'.encode().hex()


def question(words, mode='strict', moment=MOMENT, uris=ISSUERS):
    store = ';'.join(f'{uri(issuer)}:{word}' for issuer, word in zip(uris, words)) or '-'
    members = ' '.join(f'{kind}:@{name}' for kind, name in zip(('ta', 'ca', 'ca', 'ee'), MEMBERS))
    return f'real-revocation {moment} {mode} {store} {members}'


def changes(octets):
    """A name, the list with one bit changed, and how it is refused."""
    def at(part):
        return octets.index(part) + len(part) - 1
    key_identifier = octets.index(bytes.fromhex('0603551d23')) + 13
    last = len(octets) - 1
    return (('issuer', flipped(octets, octets.index(b'\x06\x03\x55\x04\x03') + 7, 0), 'BadSignature'),
            ('moment of this update', flipped(octets, at(b'230501000000'), 0), 'BadSignature'),
            ('moment of the next update', flipped(octets, at(b'280501000000'), 0), 'BadSignature'),
            ('number', flipped(octets, at(b'\x55\x1d\x14\x04\x03\x02\x01\x07'), 0), 'BadSignature'),
            ('key identifier', flipped(octets, key_identifier, 0), 'WrongKeyId'),
            ('signature', flipped(octets, last, 0), 'BadSignature'),
            ('signature\'s first octet', flipped(octets, last - 255, 0), 'BadSignature'))


class Vectors:
    """What is written of `real-revocation.vectors`; OpenSSL has to say the same of each vector."""

    def __init__(self, openssl, lists, words):
        self.openssl, self.lists, self.words, self.lines = openssl, lists, words, []

    def heading(self, sentence):
        self.lines += [f'# {sentence}', '']

    def vector(self, name, lists, wanted, mode='strict', moment=MOMENT, uris=ISSUERS):
        """A vector whose lists are named where they are the path's own."""
        if accepts(self.openssl, lists, moment) != (wanted == HELD):
            raise SystemExit(f'OpenSSL says otherwise: {name}')
        known = dict(zip(self.lists, self.words))
        asked = question([known.get(octets) or octets.hex() for octets in lists], mode, moment, uris)
        self.lines += [name, asked, f'{wanted} cached=same', '']

    def changed(self, name, place, octets, fault, moment=MOMENT):
        """A vector where one list is another, of which the member below its issuer is asked."""
        lists = self.lists[:place] + [octets] + self.lists[place + 1:]
        self.vector(name, lists, f'refused {place + 1} revocation {fault}', moment=moment)


def of_changes(vectors, keys):
    vectors.heading('One bit changed in a list, and the member below its issuer is refused.')
    for place, (issuer, octets) in enumerate(zip(ISSUERS, vectors.lists)):
        for what, changed, fault in changes(octets):
            vectors.changed(f'list of the {issuer} with another {what}', place, changed, fault)
    vectors.heading('A list that another key signed is refused, and one that names that key.')
    for place, (issuer, octets) in enumerate(zip(ISSUERS, vectors.lists)):
        vectors.changed(f'list of the {issuer} signed by another key', place,
                     signed_by(vectors.openssl, keys[4], octets), 'BadSignature')
        other_authority(vectors.openssl, issuer, keys[4])
        other = made_list(vectors.openssl, 'other', keys[4], REVOKED[place])
        vectors.changed(f'list of another {issuer} with another key', place, other, 'WrongKeyId')


def of_entries(vectors, keys):
    vectors.heading('A list that has the serial number of the member, is stale or absent.')
    for place, issuer in enumerate(ISSUERS):
        serials = (*REVOKED[place], 0x12 + place)
        revoking = made_list(vectors.openssl, issuer, keys[place], serials)
        vectors.changed(f'list of the {issuer} that revokes', place, revoking, 'Revoked')
    vectors.vector('behind the moments of the next updates', vectors.lists, 'refused 1 revocation Stale', moment=LATER)
    for place, issuer in enumerate(ISSUERS):
        uris = ISSUERS[:place] + ISSUERS[place + 1:]
        vectors.vector(f'no list of the {issuer}', vectors.lists[:place] + vectors.lists[place + 1:],
                 f'refused {place + 1} revocation NoCrl', uris=uris)


def main():
    with tempfile.TemporaryDirectory() as folder:
        openssl = OpenSsl(folder)
        keys = [Key(2048) for _ in range(5)]
        for name, member, key in zip((*ISSUERS, 'end'), MEMBERS, keys):
            octets = (DATA / f'{member}.der').read_bytes()
            if encoded(3, b'\0' + key.bits) not in octets:
                raise SystemExit(f'{member}.der is not of the seed {SEED}')
            openssl.write('member', octets)
            openssl.must('x509', '-inform', 'DER', '-in', 'member', '-out', f'{name}.pem')
        openssl.write('between', b''.join((openssl.folder / f'{name}.pem').read_bytes() for name in ISSUERS[1:]))
        lists = [made_list(openssl, issuer, key, serials)
                 for issuer, key, serials in zip(ISSUERS, keys, REVOKED)]
        words = [f'@real-{issuer}-list' for issuer in ISSUERS]
        for word, octets in zip(words, lists):
            (DATA / f'{word[1:]}.der').write_bytes(octets)
        vectors = Vectors(openssl, lists, words)
        vectors.lines += [f'# Made by reference/real_lists.py from the seed {SEED}; OpenSSL accepts and refuses the same.', '']
        vectors.heading('A path and lists that OpenSSL signed by RSA keys are accepted, under RsaVerifier.')
        vectors.vector('real path with its lists', lists, HELD)
        vectors.vector('real path with its lists, leniently', lists, HELD, mode='lenient')
        of_changes(vectors, keys)
        of_entries(vectors, keys)
        (DATA / 'real-revocation.vectors').write_text('\n'.join(vectors.lines))


if __name__ == '__main__':
    main()
