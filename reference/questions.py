"""Random questions about certificates, paths, lists and the line program's input.

Each maker takes a `random.Random` and gives a label and a question.
"""

from dataclasses import replace

import cases
import faults
import random_names
import random_paths as sound
import reference as ref
import worked
from answer_words import hexed, listed

chance = sound.chance


def moment(time):
    return '%04d%02d%02d%02d%02d%02d' % time


def mode(strict):
    return 'strict' if strict else 'lenient'


# ------------------------------------------------------------ certificates ---

def spoiled_draft(rng):
    """A certificate on its way, about half of them with a fault."""
    path = sound.random_path(rng)
    it = rng.choice(path.drafts)
    if chance(rng, 0.5):
        return 'sound', it
    name = rng.choice(list(faults.DRAFT_FAULTS))
    faults.DRAFT_FAULTS[name](rng, it, ref.DEPTH)
    return name, it


def certificate_question(rng):
    label, it = spoiled_draft(rng)
    octets = it.octets()
    if chance(rng, 0.2):
        label, octets = 'damaged', faults.change_octets(rng, octets)
    return label, f'certificate {hexed(octets)}'


def data_question(rng):
    label, it = spoiled_draft(rng)
    octets = it.tbs_octets()
    if chance(rng, 0.1):
        label, octets = 'octets behind', octets + sound.noise(rng)
    return label, f'data {hexed(octets)}'


URI_FIELDS = ('crl_uri', 'ca_issuer', 'ca_repository', 'rpki_manifest',
              'signed_object', 'rpki_notify')


def given_resources(kind, resources):
    if resources == ref.INHERIT:
        return 'inherit'
    return '-' if resources == ref.MISSING else listed(kind, resources)


def set_words(rng, f):
    """The words NAME=VALUE of the fields that are set one by one."""
    words = [f'{field.replace("_", "-")}={getattr(f, field).decode()}'
             for field in URI_FIELDS if getattr(f, field) is not None]
    if f.authority_key_identifier is not None:
        words.append('authority-key-identifier='
                     f'{f.authority_key_identifier.hex()}')
    if f.basic_ca is not None:
        words.append(f'basic-ca={"yes" if f.basic_ca else "no"}')
    for field, kind, name in (('v4', 'addresses', 'v4-resources'),
                              ('v6', 'addresses', 'v6-resources'),
                              ('asn', 'asns', 'as-resources')):
        words.append(f'{name}={given_resources(kind, getattr(f, field))}')
    if chance(rng, 0.2):
        vector = [ref.enc(0x06, o) for o in rng.sample(
            [ref.OID_ROUTER, *sound.UNKNOWN_OIDS], rng.randint(1, 3))]
        words.append(rng.choice(['extended-key-usage=router', 'extended-key-'
                                 f'usage={ref.enc(0x30, *vector).hex()}']))
    return words


def make_question(rng):
    it = draft_with_short_uris(rng)
    f, signer = it.f, ref.Key(ref.RSA, rng.randbytes(rng.choice([0, 3, 128])))
    size = (f.serial.bit_length() + 7) // 8
    words = [f'serial-number={hexed(f.serial.to_bytes(size, "big"))}',
             f'issuer={f.issuer.hex()}', f'not-before={moment(f.not_before)}',
             f'not-after={moment(f.not_after)}',
             f'key={ref.put_key(f.key).hex()}', f'key-usage={f.key_usage}',
             f'overclaim={f.overclaim}', f'signer={ref.put_key(signer).hex()}',
             *set_words(rng, f)]
    if chance(rng, 0.5):
        words.append(f'subject={f.subject.hex()}')
    if ref.INHERIT not in (f.v4, f.v6, f.asn):
        words.append(f'set-by={rng.choice(["setter", "iterator", "builder"])}')
    return it.kind, f'make {" ".join(words)}'


def draft_with_short_uris(rng):
    while True:
        it = rng.choice(sound.random_path(rng).drafts)
        if len(it.octets()) < 1400:
            return it


# ------------------------------------------------- inspected and validated ---

def spoiled_members(rng):
    """A path's drafts with a fault of the profile, of the path, or none."""
    path = sound.random_path(rng)
    if chance(rng, 0.25):
        return 'sound', path
    name = rng.choice(list(faults.PROFILE_FAULTS))
    if faults.PROFILE_FAULTS[name](rng, path) is None:
        return 'sound', path
    return name, path


ROUTER_CHANGES = (
    {}, {'extended_key_usage': None}, {'asn': ref.INHERIT},
    {'asn': ref.MISSING, 'v6': ref.INHERIT}, {'v4': ref.INHERIT},
    {'rpki_notify': b'https://example.com/n'}, {'key_usage': 'Ca'},
    {'crl_uri': None}, {'basic_ca': True}, {'basic_ca': False},
    {'authority_key_identifier': None}, {'ca_issuer': None},
    {'overclaim': ref.REFUSE}, {'not_after': (2023, 1, 1, 0, 0, 0)},
    {'extended_key_usage': ref.enc(0x06, b'\x2a\x03')},
    {'key': worked.K2}, {'signature': False},
    {'subject_key_identifier': bytes(20)})


def changed_router(rng):
    """A router below the worked anchor, one or two things otherwise."""
    changes = rng.choice(ROUTER_CHANGES)
    if chance(rng, 0.5):
        changes = changes | rng.choice(ROUTER_CHANGES)
    serial = sound.random_serial(rng)
    strict = chance(rng, 0.5)
    return worked.router(serial=serial, subject=sound.random_name(rng, strict),
                         issuer=sound.random_name(rng, True), **changes)


def inspect_question(rng):
    if chance(rng, 0.15):
        return 'router', f'inspect {changed_router(rng).octets().hex()}'
    label, path = spoiled_members(rng)
    return label, f'inspect {rng.choice(path.drafts).octets().hex()}'


OTHER_ANCHOR = ref.into_cert(replace(
    worked.ANCHOR_FIELDS, key=worked.K2,
    subject_key_identifier=worked.K2.identifier()), worked.K2)
ROUTER_ANCHORS = (worked.A, worked.A, worked.AS_ANCHOR, OTHER_ANCHOR,
                  worked.anchor_of(asn=worked.as_set(50, 60)))


def router_question(rng):
    """A router below an anchor that is accepted."""
    now = rng.choice([worked.NOW, worked.START, worked.END])
    return 'router', (f'validate router {mode(chance(rng, 0.5))} {moment(now)} '
                      f'{changed_router(rng).octets().hex()} '
                      f'{rng.choice(ROUTER_ANCHORS).octets().hex()}')


def validate_question(rng):
    """The member with the fault, or the last, below those above it."""
    if chance(rng, 0.1):
        return router_question(rng)
    label, path = spoiled_members(rng)
    members = [(d.kind, d.octets()) for d in path.drafts]
    place = len(members) - 1
    try:
        ref.validate_path(members, path.strict, path.now)
    except ref.PathError as fault:
        place = fault.index
    kind, octets = members[place]
    above = ''.join(f' {o.hex()}' for _, o in members[:place])
    return label, (f'validate {kind} {mode(path.strict)} {moment(path.now)} '
                   f'{octets.hex()}{above}')


# ---------------------------------------------- paths and the line program ---

def path_question(rng):
    case = rng.random()
    path = sound.random_path(rng, 4)
    label = 'sound'
    if case < 0.5:
        label = rng.choice(list(faults.PROFILE_FAULTS))
        path, _ = cases.spoiled_path(rng, faults.PROFILE_FAULTS[label], 4)
    elif case < 0.65:
        label = rng.choice(list(faults.DRAFT_FAULTS))
        path, _ = cases.spoiled_path(
            rng, faults.draft_fault(faults.DRAFT_FAULTS[label]), 4)
    members = [f'{d.kind}:{d.octets().hex()}' for d in path.drafts]
    return label, (f'path {mode(path.strict)} {moment(path.now)} '
                   + ' '.join(members))


def names_question(rng):
    """A path of names, now and then with a member that is none."""
    label, path = random_names.random_names(rng, 5)
    if chance(rng, 0.15):
        label = rng.choice(list(faults.DRAFT_FAULTS))
        it = rng.choice(path.drafts)
        faults.DRAFT_FAULTS[label](rng, it, path.depth)
    members = [f'{d.kind}:{d.octets().hex()}' for d in path.drafts]
    if len(members) > 1 and chance(rng, 0.2):
        members[-1] = f'router:{path.drafts[-1].octets().hex()}'
    return label, 'names ' + ' '.join(members)


def run_question(rng):
    """An input of the line program, the name of a decoder's fault free."""
    form = rng.choice([cases.PATHS, cases.PATHS, cases.PATHS, cases.REVOKED])
    case = cases.make_case(rng.randrange(1 << 20), form,
                           rng.randrange(1 << 20), 4)
    text = case.data
    plain = all(32 <= octet < 127 or octet == 10 for octet in text)
    if not plain or b'|' in text or len(text) > 6000:
        return run_question(rng)
    printed = ref.program(text)[0]
    word = 'run-unnamed' if b' decode ' in printed else 'run'
    return case.label, f'{word} {text.decode()}'.replace('\n', '|')


# ------------------------------------------------------- revocation lists ---

def list_fields(rng):
    vector, serials, _ = cases.random_list(rng)
    entries = ref.Cursor(vector).take_sequence().rest() if vector else b''
    return ref.TbsCertList(
        issuer=sound.random_name(rng, True),
        this_update=sound.random_time(rng, [1949, 2019, 2050]),
        next_update=sound.random_time(rng, [2029, 2051]), revoked=entries,
        authority_key_identifier=rng.randbytes(20),
        crl_number=sound.random_serial(rng),
        signature=chance(rng, 0.7)), serials


def list_extensions(rng, f, fault):
    pieces = [ref.put_extension(i, chance(rng, 0.3), c)
              for i, _, c in ref.crl_triples(f)]
    if fault == 'unknown extension':
        pieces.append(ref.put_extension(ref.hex_octets('551D63'),
                                        chance(rng, 0.5), b''))
    if fault == 'extension twice':
        pieces.append(rng.choice(pieces))
    if fault == 'no extension':
        pieces.pop(rng.randrange(2))
    rng.shuffle(pieces)
    return pieces


LIST_FAULTS = ('unknown extension', 'extension twice', 'no extension',
               'version', 'algorithms', 'cut', 'octets behind', 'damaged',
               *['sound'] * 8)


def random_list(rng):
    """What is wrong, the octets, and the serial numbers that are listed."""
    fault = rng.choice(LIST_FAULTS)
    f, serials = list_fields(rng)
    data = ref.encode_list(f, list_extensions(rng, f, fault))
    if fault == 'version':
        data = data.replace(b'\2\1\1', b'\2\1' + rng.choice([b'\0', b'\2']), 1)
    null = f.signature != (fault == 'algorithms')
    octets = ref.stand_in_sign(sound.random_key(rng), null, data).octets()
    if fault == 'cut':
        octets = octets[:rng.randrange(len(octets))]
    if fault == 'octets behind':
        octets += rng.randbytes(3)
    if fault == 'damaged':
        octets = faults.change_octets(rng, octets)
    return fault, octets, serials


def list_question(rng):
    fault, octets, serials = random_list(rng)
    asked = sorted({*serials[:4], 0, 12, (1 << 160) - 1,
                    sound.random_serial(rng)})
    words = [hexed(n.to_bytes((n.bit_length() + 7) // 8, 'big'))
             for n in asked]
    return fault, f'list {hexed(octets)} {",".join(words)}'


# -------------------------------------------------------------- rearranged ---

UNKNOWN = [ref.hex_octets(text) for text in (
    '551D63', '551D14', '2B0601', '2A', '551D12', '2B06010505070103',
    '883701')]
KNOWN = [ref.OID[kind] for kind in ('BasicConstraints', 'KeyUsage',
                                    'CertificatePolicies')]


def random_order(rng, count):
    """Mostly an order of so many places."""
    order, shape = list(range(count)), rng.random()
    if shape < 0.6:
        rng.shuffle(order)
    elif shape < 0.7:
        order.reverse()
    elif shape < 0.78 and count:
        order[rng.randrange(count)] = rng.randrange(count)
    elif shape < 0.82:
        order.append(rng.randrange(count + 1))
    elif shape < 0.86:
        order.pop()
    return order


def random_extras(rng, count):
    extras = []
    for _ in range(rng.choice([0, 0, 1, 1, 2, 3, 5])):
        at = rng.randrange(count + 1)
        at += count + 1 if chance(rng, 0.07) else 0
        octets = rng.choice(UNKNOWN if chance(rng, 0.93) else KNOWN)
        content = rng.randbytes(rng.choice([0, 0, 1, 5, 110, 130, 260]))
        extras.append(f'{at}:{octets.hex()}:{hexed(content)}')
        if chance(rng, 0.3):
            extras.append(rng.choice(extras))
    return extras


def rearrange_question(rng):
    it = draft_with_short_uris(rng)
    octets, label = it.octets(), 'sound'
    if chance(rng, 0.08):
        octets, label = faults.change_octets(rng, octets), 'damaged'
    order = random_order(rng, len(it.pieces))
    extras = random_extras(rng, len(it.pieces))
    return label, (f'rearrange {hexed(octets)} '
                   f'{",".join(map(str, order)) or "-"} '
                   f'{",".join(extras) or "-"}')


# -------------------------------------------------------------- revocation ---

SPOILS = (None, None, 'NoCrl', 'WrongKeyId', 'BadSignature', 'Stale',
          'Revoked', 'Revoked', 'two faults')
TWO = ('WrongKeyId', 'BadSignature', 'Stale', 'Revoked')


def random_entries(rng, serial, is_revoked):
    """Entries beside a serial number, perhaps with its own."""
    near = sorted({serial - 1, serial + 1, serial ^ 1, 0, 1} - {serial})
    serials = [n for n in near if 0 <= n < 1 << 160 and chance(rng, 0.5)]
    serials += [sound.random_serial(rng) for _ in range(rng.choice([0, 1, 4]))]
    serials = [n for n in serials if n != serial] + [serial] * is_revoked
    rng.shuffle(serials)
    return b''.join(ref.put_entry(ref.Entry(n, sound.random_time(
        rng, [1950, 2019, 2049, 2050]))) for n in serials)


def list_for(rng, issuer, now, serial, spoils):
    """A list of an issuer's for a serial number; `spoils` is what is wrong."""
    key = issuer.f.key
    signer = sound.random_key(rng) if 'BadSignature' in spoils else key
    identifier = (rng.randbytes(20) if 'WrongKeyId' in spoils
                  else key.identifier())
    until = rng.choice([now, sound.random_time(rng, [2029, 2051])])
    if 'Stale' in spoils:
        until = rng.choice([worked.START, sound.random_time(rng, [2019])])
    f = ref.TbsCertList(
        issuer=sound.random_name(rng, True),
        this_update=sound.random_time(rng, [2019]), next_update=until,
        revoked=random_entries(rng, serial, 'Revoked' in spoils),
        authority_key_identifier=identifier,
        crl_number=rng.randrange(1 << 20), signature=chance(rng, 0.7))
    return ref.into_crl(f, signer)


def pairs_for(rng, issuer, member, now, spoil):
    """The lists under a member's URI, in the order in which they are pushed."""
    uri, serial = member.f.crl_uri, member.f.serial
    if spoil == 'NoCrl':
        other = list_for(rng, issuer, now, serial, ())
        return [(uri + b'x', other)] if chance(rng, 0.5) else []
    spoils = rng.sample(TWO, 2) if spoil == 'two faults' else [spoil]
    found = list_for(rng, issuer, now, serial, spoils)
    written = sound.other_case(rng, uri) if chance(rng, 0.2) else uri
    pairs = [(written, found)]
    if chance(rng, 0.2):
        later = rng.choice([(), ('Revoked',), ('Stale',)])
        pairs.append((uri, list_for(rng, issuer, now, serial, later)))
    return pairs


def path_for_lists(rng):
    """A path of several members, now and then with a fault of its own."""
    while True:
        path = sound.random_path(rng, 4)
        size = sum(len(it.octets()) for it in path.drafts)
        if size < 3200 and (len(path.drafts) > 1 or chance(rng, 0.05)):
            break
    if chance(rng, 0.15) and len(path.drafts) > 1:
        faults.PROFILE_FAULTS[rng.choice(list(faults.PROFILE_FAULTS))](
            rng, path)
    return path


def share_a_uri(rng, drafts):
    """Lets some members name the list of another."""
    one = rng.choice(drafts[1:])
    for it in drafts[2:]:
        if chance(rng, 0.5):
            it.f = replace(it.f, crl_uri=one.f.crl_uri)
            it.pieces = sound.arranged(rng, sound.encoded_extensions(
                rng, it.f, ref.DEPTH))


def random_store(rng, path):
    """What is wrong, and pairs of URI and list for a path."""
    drafts, spoiled = path.drafts, rng.choice(SPOILS)
    place = rng.randrange(1, len(drafts)) if len(drafts) > 1 else 0
    pairs = []
    for index in range(1, len(drafts)):
        if drafts[index].f.crl_uri is not None:
            pairs += pairs_for(rng, drafts[index - 1], drafts[index], path.now,
                               spoiled if index == place else None)
    if chance(rng, 0.15):
        rng.shuffle(pairs)
    return spoiled or 'sound', pairs


def revocation_question(rng):
    path = path_for_lists(rng)
    if chance(rng, 0.25) and len(path.drafts) > 2 and all(
            it.f.crl_uri is not None for it in path.drafts[1:]):
        share_a_uri(rng, path.drafts)
    label, pairs = random_store(rng, path)
    members = [(it.kind, it.octets()) for it in path.drafts]
    if chance(rng, 0.1) and members[-1][0] in (ref.TA, ref.CA):
        members.append((ref.CA, b'\x30'))
    store = ';'.join(f'{uri.hex()}:{crl.octets().hex()}' for uri, crl in pairs)
    shown = ' '.join(f'{kind}:{hexed(octets)}' for kind, octets in members)
    return label, (f'revocation {moment(path.now)} {mode(path.strict)} '
                   f'{store or "-"} {shown}')
