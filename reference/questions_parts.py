"""Random questions about values of DER, parts, URIs, sets and extensions.

Each maker takes a `random.Random` and gives a label and a question; about half
of the questions are about octets that are refused.
"""

import faults
import random_paths as sound
import reference as ref
from answer_words import hexed

chance = sound.chance
EXTENSION_KINDS = {
    'basic-constraints': 'BasicConstraints',
    'subject-key-identifier': 'SubjectKeyIdentifier',
    'authority-key-identifier': 'AuthorityKeyIdentifier',
    'key-usage': 'KeyUsage',
    'extended-key-usage': 'ExtendedKeyUsage',
    'crl-distribution-points': 'CrlDistributionPoints',
    'authority-information-access': 'AuthorityInformationAccess',
    'subject-information-access': 'SubjectInformationAccess',
    'certificate-policies': 'CertificatePolicies',
}


def damaged(rng, octets):
    """Octets with one change, in their tree of values or anywhere."""
    if chance(rng, 0.5) and octets:
        try:
            nodes = faults.forest(octets)
        except ref.DecodeError:
            return faults.change_octets(rng, octets)
        faults.change_tree(rng, nodes)
        return b''.join(node.octets() for node in nodes)
    return faults.change_octets(rng, octets)


def some_octets(rng, octets):
    """Octets as they are, with others behind, or damaged; and which it is."""
    draw = rng.random()
    if draw < 0.35:
        return 'sound', octets
    if draw < 0.5:
        return 'octets behind', octets + rng.randbytes(rng.randint(1, 4))
    return 'damaged', damaged(rng, octets)


def about(word):
    """A question of one word about octets that `make` gives."""
    def maker(make):
        def question(rng):
            label, octets = some_octets(rng, make(rng))
            return f'{word}, {label}', f'{word} {hexed(octets)}'
        return question
    return maker


def one_of(table):
    """A maker that takes one of several."""
    return lambda rng: rng.choice(table)(rng)


# ------------------------------------------------------ values of DER ---

def random_oid(rng):
    """The content of an OBJECT IDENTIFIER."""
    parts = [rng.choice([rng.randrange(128), rng.randrange(1 << 14),
                         rng.getrandbits(40)]) for _ in range(rng.randint(1, 6))]
    octets = b''
    for part in parts:
        digits = [part & 127]
        while part := part >> 7:
            digits.append(part & 127 | 128)
        octets += bytes(reversed(digits))
    return octets


def random_bits(rng):
    octets = sound.noise(rng)
    unused = rng.randrange(8) if octets else 0
    if octets:
        octets = octets[:-1] + bytes([octets[-1] >> unused << unused])
    return unused, octets


def a_value(rng):
    return sound.skippable(rng, rng.randint(0, 3))


def values_of(tag):
    return lambda rng: ref.enc(tag, *(a_value(rng)
                                      for _ in range(rng.randrange(4))))


def deep_value(rng):
    """A value at, just above or far above the last level that is skipped."""
    return sound.tower(rng, ref.DEPTH + rng.randint(-2, 2))


def skipped_value(rng):
    return a_value(rng) if chance(rng, 0.5) else deep_value(rng)


def random_u32(rng):
    return ref.put_unsigned(rng.choice([
        0, 127, 128, 255, 256, (1 << 32) - 1, 1 << 32, rng.getrandbits(32),
        rng.getrandbits(16), rng.getrandbits(34)]))


def random_flag(rng):
    return ref.enc(0x01, rng.choice([b'\0', b'\xff', b'\1', b'']))


def random_tag(rng):
    return rng.choice([0x02, 0x04, 0x05, 0x30, 0x31, 0x80, 0x86, 0xA0, 0xA3])


def tagged(word):
    """A question that names the identifier octet, mostly the right one."""
    def question(rng):
        tag = random_tag(rng)
        label, octets = some_octets(rng, ref.enc(tag, sound.noise(rng, 12)))
        asked = tag if chance(rng, 0.7) else rng.choice([0x3F, random_tag(rng)])
        return f'{word}, {label}', f'{word} {asked:02x} {hexed(octets)}'
    return question


def identifier_question(rng):
    octets = random_oid(rng)
    if chance(rng, 0.5):
        octets = faults.change_octets(rng, octets)
    return 'identifier', f'identifier {hexed(octets)}'


VALUES = one_of([
    tagged('value'), tagged('optional-value'),
    about('sequence')(values_of(0x30)),
    about('optional-sequence')(lambda rng: values_of(
        rng.choice([0x30, 0x30, 0x31]))(rng)),
    about('octets')(lambda rng: ref.enc(0x04, sound.noise(rng))),
    about('bits')(lambda rng: ref.put_bits(*random_bits(rng))),
    about('oid')(lambda rng: ref.enc(0x06, random_oid(rng))),
    about('u32')(random_u32),
    about('null')(lambda rng: ref.enc(0x05) + sound.noise(rng)),
    about('boolean')(lambda rng: random_flag(rng) + sound.noise(rng)),
    about('skip')(skipped_value),
    about('skip-all')(lambda rng: skipped_value(rng) + a_value(rng)),
    about('capture')(a_value), about('capture-rest')(a_value),
    about('finish')(lambda rng: sound.noise(rng)), identifier_question])


# ---------------------------------------------------------- written values ---

def write_words(rng):
    octets = sound.noise(rng, 200 if chance(rng, 0.1) else 8)
    tag = rng.choice([random_tag(rng), random_tag(rng), 0x1F, 0xBF])
    unused, bits = random_bits(rng)
    oid = random_oid(rng)
    if chance(rng, 0.2):
        oid, bits = sound.noise(rng), sound.noise(rng)
    return rng.choice([
        f'value {tag:02x} {hexed(octets)}',
        f'parts {tag:02x} {hexed(octets)} {hexed(sound.noise(rng, 130))}',
        f'unsigned {hexed(octets[:24])}', f'bits {unused} {hexed(bits)}',
        f'oid {hexed(oid)}', f'extension {hexed(oid)} '
        f'{rng.choice(["critical", "plain"])} {hexed(octets)}'])


def write_question(rng):
    words = write_words(rng)
    return f'write {words.split(" ")[0]}', f'write {words}'


# ------------------------------------------------------ serials and times ---

def odd_serial(rng):
    return sound.random_serial(rng) + rng.choice([0, 0, 0, 1 << 160])


def big_endian(rng):
    """The octets of a number, perhaps with zeros before them."""
    number = odd_serial(rng)
    octets = number.to_bytes((number.bit_length() + 7) // 8, 'big')
    return bytes(rng.choice([0, 0, 1, 3, 20])) + octets


def a_time(rng):
    if chance(rng, 0.25):
        return rng.choice([t for t in faults.bad_times(b'') if t])
    year = rng.choice([0, 1899, 1949, 1950, 1999, 2049, 2050, 9999])
    return sound.encoded_time(rng, sound.random_time(rng, [year]))


def moment_question(rng):
    numbers = [rng.choice([0, 1900, 2000, 2023, 2024, 9999, 10000, -1]),
               rng.randint(0, 13), rng.choice([0, 1, 28, 29, 30, 31, 32]),
               rng.choice([0, 23, 24]), rng.choice([0, 59, 60]),
               rng.choice([0, 59, 60])]
    if chance(rng, 0.6):
        numbers[1:] = [rng.randint(1, 12), rng.randint(1, 31),
                       rng.randrange(24), rng.randrange(60), rng.randrange(60)]
    return 'moment', 'moment ' + ' '.join(map(str, numbers))


def two_serials(rng):
    one = big_endian(rng)
    other = rng.choice([big_endian(rng), bytes(2) + one, one[1:]])
    return 'compare serials', f'compare serials {hexed(one)} {hexed(other)}'


def two_times(rng):
    one = a_time(rng)
    other = one if chance(rng, 0.2) else a_time(rng)
    return 'compare times', f'compare times {hexed(one)} {hexed(other)}'


def serial_of_question(rng):
    number = rng.getrandbits(rng.choice([1, 7, 8, 16, 63, 64, 65, 127, 128]))
    return 'serial-of', f'serial-of {number:x}'


NUMBERS_AND_TIMES = one_of([
    about('serial')(lambda rng: ref.put_unsigned(odd_serial(rng))),
    lambda rng: ('number', f'number {hexed(big_endian(rng))}'),
    serial_of_question, two_serials, about('time')(a_time),
    about('validity')(lambda rng: ref.enc(0x30, a_time(rng), a_time(rng))),
    moment_question, two_times])


# ------------------------------------------------------------------- parts ---

def a_name(rng):
    path = sound.Path([], strict=chance(rng, 0.5))
    if chance(rng, 0.4):
        return faults.bad_name(rng, path)
    return sound.random_name(rng, path.strict)


def small_key(rng):
    bits = rng.randbytes(rng.choice([0, 1, 3, 20, 65, 127, 128]))
    return ref.Key(rng.choice([ref.RSA, ref.P256]), bits)


def signed_question(rng):
    key, message = small_key(rng), a_value(rng)
    signed = ref.stand_in_sign(key, chance(rng, 0.5), message)
    content = ref.Cursor(signed.octets()).take_sequence().rest()
    label, octets = some_octets(rng, content)
    public = ref.put_key(key if chance(rng, 0.6) else small_key(rng))
    public = rng.choice([public, public, damaged(rng, public)])
    word = f' {hexed(public)}' if chance(rng, 0.7) else ''
    return f'signed, {label}', f'signed {hexed(octets)}{word}'


PARTS = one_of([
    about('name')(a_name),
    about('key')(lambda rng: sound.encoded_key(rng, small_key(rng))),
    about('algorithm')(lambda rng: ref.put_algorithm(chance(rng, 0.5))),
    about('key-identifier')(lambda rng: ref.enc(0x04, rng.randbytes(
        rng.choice([19, 20, 20, 20, 21])))), signed_question])


# -------------------------------------------------------------------- URIs ---

def uri_text(octets):
    """A word TEXT of octets."""
    plain = octets and all(0x21 <= octet <= 0x7E for octet in octets)
    if plain and not octets.startswith(b'octets:'):
        return octets.decode()
    return f'octets:{octets.hex()}'


def changed_uri(rng, octets):
    return rng.choice([
        octets + rng.choice([b'/', b'/.', b'/..', b'/../p', b'/.x', b'//', b' ',
                             b'\x7f', b'\xc3\xa9', b'\0', b'?q', b'#f']),
        octets[:rng.randrange(len(octets) + 1)],
        faults.change_octets(rng, octets), octets.upper(),
        octets.replace(b'//', b'/', 1), octets.replace(b'/', b'//'),
        octets[:8] + b'/' + octets[8:]])


def a_uri(rng, scheme):
    octets = (sound.random_uri(rng) if scheme == 'rsync'
              else sound.random_https(rng))
    if len(octets) > 300:
        octets = octets[:60]
    draw = rng.random()
    if draw < 0.1:
        return rng.choice(sound.NOT_RSYNC if scheme == 'rsync'
                          else sound.NOT_HTTPS)
    return octets if draw < 0.5 else changed_uri(rng, octets)


def uri_question(scheme, word=None):
    def question(rng):
        octets = a_uri(rng, scheme)
        asked = word or scheme
        return asked, f'{asked} {uri_text(octets)}'
    return question


def two_uris(scheme):
    def question(rng):
        one = a_uri(rng, scheme)
        head, slash, tail = one[8:].partition(b'/')
        other = rng.choice([
            one, one + b'/', one.rpartition(b'/')[0], changed_uri(rng, one),
            one[:8].upper() + head.swapcase() + slash + tail, one.swapcase(),
            one.rpartition(b'/')[0] + b'/', a_uri(rng, scheme)])
        return (f'compare {scheme}',
                f'compare {scheme} {uri_text(one)} {uri_text(other)}')
    return question


URIS = one_of([uri_question('rsync'), uri_question('rsync'),
               uri_question('https'), uri_question('rsync', 'parent'),
               two_uris('rsync'), two_uris('rsync'), two_uris('https')])


# -------------------------------------------------------------------- sets ---

def prefix_question(rng):
    length = rng.choice([0, 1, 8, 31, 32, 33, 64, 127, 128, 129,
                         rng.randint(0, 128)])
    low = rng.choice([sound.random_v4_block, sound.random_v6_block])(rng)[0]
    address = rng.choice([low, rng.getrandbits(128), rng.getrandbits(40)])
    return 'prefix', f'prefix {address:x} {length}'


def overclaim_question(rng):
    known = [*ref.OID_IP.values(), *ref.OID_AS.values(),
             *ref.OID_POLICY.values()]
    octets = rng.choice(known)
    if chance(rng, 0.8):
        octets = faults.change_octets(rng, octets)
    return 'overclaim', f'overclaim {hexed(octets)}'


PREFIXES = one_of([prefix_question, prefix_question, overclaim_question])


def random_blocks(rng, kind):
    """Blocks in any order, which may overlap and touch, some ends exchanged."""
    field = 'asn' if kind == 'asns' else rng.choice(['v4', 'v6'])
    ranges = sound.random_set(rng, field, 6)
    unit = 1 << 96 if field == 'v4' else 1
    parts = sound.encoded_blocks(rng, ranges, unit)
    return [block[::-1] if chance(rng, 0.1) else block for block in parts]


def blocks_word(kind, blocks):
    form = '{:x}-{:x}' if kind == 'addresses' else '{}-{}'
    return ','.join(form.format(*block) for block in blocks) or '-'


def points_word(rng, kind, blocks):
    """Ends of blocks and what stands beside them."""
    ends = [end + step for block in blocks for end in block
            for step in (-1, 0, 1)]
    top = (1 << 128) - 1 if kind == 'addresses' else ref.AS_MAX
    points = [p for p in ends if 0 <= p <= top] or [0]
    chosen = rng.sample(points, min(len(points), 10))
    return ','.join(f'{p:x}' if kind == 'addresses' else str(p)
                    for p in chosen)


def sets_question(kind):
    def question(rng):
        one = random_blocks(rng, kind) if chance(rng, 0.95) else []
        other = random_blocks(rng, kind)
        if chance(rng, 0.4) and one:
            other = [sound.inner_block(rng, tuple(sorted(rng.choice(one))), 1)]
        word = blocks_word(kind, other)
        if chance(rng, 0.1):
            word = rng.choice(['inherit', '-'])
        return (f'sets of {kind}', f'sets {kind} {blocks_word(kind, one)} '
                f'{word} {points_word(rng, kind, one + other)}')
    return question


# ---------------------------------------------------------------- contents ---

def draft(rng):
    path = sound.random_path(rng)
    return rng.choice(path.drafts)


def content_of(rng, kind):
    """The content of an extension of a kind, good or from the table of bad ones."""
    if chance(rng, 0.35):
        return rng.choice(faults.bad_contents(kind, ref.DEPTH))
    it = draft(rng)
    place = faults.ensure_kind(rng, it, kind)
    return faults.parts_of(it.pieces[place])[2]


def resources_question(rng):
    word, kind = rng.choice([('addresses', 'IpResources'),
                             ('asns', 'AsResources')])
    octets = content_of(rng, kind)
    if chance(rng, 0.3):
        octets = damaged(rng, octets)
    return f'content of {kind}', f'{word} {hexed(octets)}'


def extension_question(rng):
    if chance(rng, 0.25):
        it = draft(rng)
        if chance(rng, 0.4):
            faults.bad_piece(rng, it, ref.DEPTH)
        label, octets = some_octets(rng, rng.choice(it.pieces))
        return f'extension, {label}', f'extension {hexed(octets)}'
    word, kind = rng.choice(list(EXTENSION_KINDS.items()))
    octets = content_of(rng, kind)
    if chance(rng, 0.2):
        octets = damaged(rng, octets)
    return f'content of {kind}', f'extension {word} {hexed(octets)}'
