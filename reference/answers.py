"""What the reference answers to each question of the vectors, in their words."""

import answer_words as show
import folders
import keys
import reference as ref
import rsa
from answer_parts import (
    DER, PARTS, RESOURCES, URIS, compare, extension, write)
from answer_words import ADDRESSES, NUMBERS, Words, line, refused

# ------------------------------------------------------------ certificates ---

NO = {True: 'yes', False: 'no', None: 'none'}


def head_fields(f):
    return [('serial-number', show.serial(f.serial)),
            ('signature', show.algorithm(f.signature)),
            ('issuer', show.hexed(f.issuer)),
            ('not-before', show.time(f.not_before)),
            ('not-after', show.time(f.not_after)),
            ('subject', show.hexed(f.subject)), ('key', show.key(f.key))]


def use_fields(f):
    return [('basic-ca', NO[f.basic_ca]),
            ('subject-key-identifier', show.hexed(f.subject_key_identifier)),
            ('authority-key-identifier',
             show.identifier(f.authority_key_identifier)),
            ('key-usage', f.key_usage),
            ('extended-key-usage', show.identifier(f.extended_key_usage))]


def uri_fields(f):
    names = ('crl_uri', 'ca_issuer', 'ca_repository', 'rpki_manifest',
             'signed_object', 'rpki_notify')
    return [(name.replace('_', '-'), show.uri(getattr(f, name)))
            for name in names]


def resource_fields(f):
    return [('overclaim', f.overclaim),
            ('v4-resources', show.listed(ADDRESSES, f.v4)),
            ('v6-resources', show.listed(ADDRESSES, f.v6)),
            ('as-resources', show.listed(NUMBERS, f.asn)),
            ('is-ca', show.yes(f.is_ca())),
            ('is-self-signed', show.yes(f.is_self_signed())),
            ('has-ip-resources', show.yes(f.has_ip_resources()))]


def fields(f):
    """All fields of a TBSCertificate."""
    return head_fields(f) + use_fields(f) + uri_fields(f) + resource_fields(f)


def written_fields(asked, cert):
    """A certificate as it is written, and its parts by their places in it."""
    octets, signed = cert.octets(), cert.signed
    start = octets.find(signed.data)
    end = len(octets)
    return [('written', show.again(asked, octets)), ('captured', 'same'),
            ('data', f'{start}-{start + len(signed.data)}'),
            ('signature-algorithm', show.algorithm(signed.algorithm)),
            ('signature-value', f'{end - len(signed.signature)}-{end}'),
            ('data-written', show.same(signed.data, ref.encode_tbs(cert.tbs)))]


def certificate_line(asked, cert):
    good = ref.stand_in(cert.tbs.key, cert.signed.algorithm, cert.signed.data,
                        cert.signed.signature)
    return line('ok', *fields(cert.tbs),
                ('verifies-by-its-own-key', show.yes(good)),
                *written_fields(asked, cert), ('copy', 'same'))


def attempt(take, cursor, shown):
    """What a reader answers, and the cursor behind it."""
    try:
        return shown(take(cursor))
    except ref.DecodeError as fault:
        return refused(fault)


def four_ways(octets, take, take_content, shown):
    """The other three ways to read what `decode` reads."""
    first = attempt(take, ref.Cursor(octets), shown)
    cursor = ref.Cursor(octets)
    found = [('take', show.compared(first, attempt(take, cursor, shown))),
             show.left(cursor)]
    cursor = ref.Cursor(octets)
    optional = 'none' if cursor.peek() != 0x30 else attempt(take, cursor, shown)
    found += [('take-optional', show.compared(first, optional)),
              show.left(cursor)]
    try:
        content = ref.Cursor(octets).take_sequence()
    except ref.DecodeError as fault:
        return first, found + [('content', fault)]
    inside = attempt(take_content, content, shown)
    return first, found + [('content', show.compared(first, inside)),
                           show.left(content)]


def certificate(words):
    octets = words.octets(1)
    first, others = four_ways(octets, ref.take_cert, ref.take_cert_content,
                              lambda cert: certificate_line(octets, cert))
    return line(first, *others)


def data(words):
    octets = words.octets(1)
    cursor = ref.Cursor(octets)
    answer = attempt(ref.take_tbs_cert, cursor, lambda f: line(
        'ok', *fields(f), ('written', show.again(octets, ref.encode_tbs(f))),
        ('copy', 'same')))
    return line(answer, show.left(cursor))


# ------------------------------------------------------ made certificates ---

def uri_named(words, name, reads):
    word = words.named(name)
    octets = None if word == 'none' else show.characters_of(word)
    return octets if octets is not None and reads(octets) else None


def octets_named(words, name):
    return show.octets_of(words.named(name))


def key_named(words, name):
    return ref.take_key(ref.Cursor(octets_named(words, name)))


def name_named(words, name):
    return ref.take_name(ref.Cursor(octets_named(words, name)))


def begun(words):
    """The fields that every certificate has."""
    serial = ref.serial_from_slice(octets_named(words, 'serial-number'))
    ref.require(serial is not None)
    before = show.moment_of(words.named('not-before'))
    after = show.moment_of(words.named('not-after'))
    ref.require(before is not None and after is not None)
    has_subject = words.named('subject') != 'none'
    subject = name_named(words, 'subject') if has_subject else None
    issuer = name_named(words, 'issuer')
    key = key_named(words, 'key')
    return {'serial': serial, 'not_before': before, 'not_after': after,
            'issuer': issuer, 'key': key,
            'subject': subject if has_subject else key.subject_name(),
            'key_usage': 'Ca' if words.named('key-usage') == 'Ca' else 'Ee',
            'overclaim': 'Trim' if words.named('overclaim') == 'Trim'
            else 'Refuse'}


def purposes(words):
    word = words.named('extended-key-usage')
    if word == 'none':
        return None
    if word == 'router':
        return ref.enc(0x06, ref.OID_ROUTER)
    try:
        return ref.take_extended_key_usage(ref.Cursor(show.octets_of(word)))
    except ref.DecodeError:
        return None


def authority_key(words):
    word = words.named('authority-key-identifier')
    octets = None if word == 'none' else show.octets_of(word)
    return octets if octets is None or len(octets) == 20 else bytes(20)


def set_fields(words):
    """The fields that are set one by one."""
    basic = words.named('basic-ca')
    found = {name: uri_named(words, name.replace('_', '-'), ref.is_rsync)
             for name in ('crl_uri', 'ca_issuer', 'ca_repository',
                          'rpki_manifest', 'signed_object')}
    return found | {
        'rpki_notify': uri_named(words, 'rpki-notify', ref.is_https),
        'basic_ca': None if basic == 'none' else basic == 'yes',
        'authority_key_identifier': authority_key(words),
        'extended_key_usage': purposes(words),
        'v4': show.resources_of(ADDRESSES, words.named('v4-resources')),
        'v6': show.resources_of(ADDRESSES, words.named('v6-resources')),
        'asn': show.resources_of(NUMBERS, words.named('as-resources'))}


def make(words):
    try:
        signer = key_named(words, 'signer')
        f = ref.TbsCert(**begun(words), **set_fields(words))
    except ref.DecodeError as fault:
        return refused(fault)
    return line('ok', *fields(f),
                *written_fields(b'', ref.into_cert(f, signer)))


# ----------------------------------------------------------------- judging ---

KINDS = (ref.TA, ref.CA, ref.EE, ref.DETACHED, ref.ROUTER)


def kind_of(word):
    return word if word in KINDS else ref.ROUTER


def inspected(cert, kind):
    """The first fault, strictly and leniently."""
    return ','.join(ref.first_fault(kind, strict, cert) or 'Ok'
                    for strict in (True, False))


def inspect(words):
    of_all = words.at(2) == '-'
    try:
        cert = ref.decode_cert(words.octets(1 if of_all else 2))
    except ref.DecodeError as fault:
        return refused(fault)
    if not of_all:
        return inspected(cert, kind_of(words.at(1)))
    return line('ok', *((kind, inspected(cert, kind)) for kind in KINDS))


def verify(words):
    now = show.moment_of(words.at(3))
    if now is None:
        return 'unfit'
    try:
        cert = ref.decode_cert(words.octets(4))
        if words.at(1) == ref.TA:
            ref.verify_ta(cert, now)
        else:
            ref.verify_validity(cert, now)
    except ref.Refusal as fault:
        return refused(fault)
    return 'ok'


def judged(kind, octets, issuer, strict, now):
    """What validation says of a certificate below an issuer."""
    try:
        cert = ref.decode_cert(octets)
        result = ref.validate(kind, cert, issuer, strict, now)
    except ref.DecodeError as fault:
        return 'unfit' if kind == ref.TA else refused(fault)
    except ref.InspectionError as fault:
        return refused(f'inspect {fault}')
    except ref.VerificationError as fault:
        return refused(f'verify {fault}')
    return 'ok' if result is None else show.held(result)


def validate(words):
    now, strict = show.moment_of(words.at(3)), words.at(2) == 'strict'
    if now is None:
        return 'unfit'
    issuer, kind = None, kind_of(words.at(1))
    if kind != ref.TA:
        above = [words.octets(n) for n in range(5, len(words.words))]
        kinds = [ref.TA] + [ref.CA] * (len(above) - 1)
        try:
            issuer = ref.validate_path(list(zip(kinds, above)), strict, now)
        except ref.PathError:
            return 'unfit'
    return judged(kind, words.octets(4), issuer, strict, now)


# --------------------------------------------------------- paths and runs ---

def members_of(words, first):
    """Pairs of kind and octets of words `KIND:HEX`."""
    pairs = [word.split(':', 1) for word in words.words[first:]]
    return [(pair[0], show.octets_of(pair[-1])) for pair in pairs]


def path_line(members, strict, now, verifier=ref.stand_in, store=None):
    try:
        return show.held(ref.validate_path(members, strict, now, verifier,
                                           store=store))
    except ref.PathError as e:
        return refused_of(e)


def refused_of(e):
    """What was wrong with a member of a path."""
    inside = '' if e.stage == 'decode' else f' {e.fault}'
    return refused(f'{e.index} {e.stage}{inside}')


def path(words):
    now, members = show.moment_of(words.at(2)), members_of(words, 3)
    if now is None or not members or members[0][0] != ref.TA:
        return 'unfit'
    return path_line(members, words.at(1) == 'strict', now)


def names(words):
    """Whether the names of a path chain, whatever its members are."""
    members = members_of(words, 1)
    last = members[-1][0] if members else None
    stands_alone = last in (ref.TA, ref.CA)
    if not members or len(members) == 1 and not stands_alone or (
            len(members) > 1 and last == ref.TA):
        return 'unfit'
    try:
        place = ref.first_unchained([octets for _, octets in members])
    except ref.PathError as e:
        return refused(f'{e.index} {e.stage}')
    return 'chain' if place is None else f'unchained {place}'


def real_path(words):
    """A path with real signatures; the moment stands before the mode."""
    now, members = show.moment_of(words.at(1)), members_of(words, 3)
    if now is None or not members or members[0][0] != ref.TA:
        return 'unfit'
    return path_line(members, words.at(2) == 'strict', now, rsa.verifier)


STATUS = {ref.DONE: 'Done', ref.REFUSED: 'Refused', ref.BAD_INPUT: 'BadInput'}


def run(words):
    octets = show.characters_of(words.rest()).replace(b'|', b'\n')
    printed, status = ref.program(octets)
    shown = show.text(printed.replace(b'\n', b'|'))
    return line('ok', ('status', STATUS[status]), ('printed', shown))


def run_unnamed(words):
    answer = run(words)
    before, found, _ = answer.partition('decode ')
    return f'{before}decode *|' if found else answer


# ------------------------------------------------------------------- lists ---

def list_line(asked, crl):
    f = crl.tbs
    entries = ','.join(f'{show.serial(e.serial)}@{show.time(e.date)}'
                       for e in crl.entries())
    return line('ok', ('signature', show.algorithm(f.signature)),
                ('issuer', show.hexed(f.issuer)),
                ('this-update', show.time(f.this_update)),
                ('next-update', show.time(f.next_update)),
                ('authority-key-identifier',
                 show.hexed(f.authority_key_identifier)),
                ('crl-number', show.serial(f.crl_number)),
                ('entries', entries or '-'),
                ('written', show.again(asked, crl.octets())),
                ('captured', 'same'), ('copy', 'same'))


def asked_serial(crl, word):
    number = ref.serial_from_slice(show.octets_of(word))
    if number is None:
        return 'unfit'
    hit, count = ref.contains_counted(crl.tbs.revoked, number, False)
    return f'{show.yes(hit)}:{count}'


def revocation_list(words):
    octets = words.octets(1)
    try:
        crl = ref.decode_crl(octets)
    except ref.DecodeError as fault:
        return line(refused(fault), ('take', 'refused'),
                    show.left(ref.Cursor(octets)))
    first, others = four_ways(octets, ref.take_crl, ref.take_crl_content,
                              lambda crl: list_line(octets, crl))
    answers = ','.join(asked_serial(crl, word)
                       for word in words.at(2).split(','))
    return line(first, ('asked', answers), ('cached', 'same'), *others)


def stale(words):
    try:
        crl = ref.decode_crl(words.octets(1))
    except ref.DecodeError as fault:
        return refused(fault)
    moments = map(show.moment_of, words.at(2).split(','))
    return line('ok', *(('stale', show.yes(crl.tbs.is_stale(now))) for now in moments))


def store(words):
    """The list under a URI; a table of serial numbers walks over no list of three entries or more."""
    store, tables, caches = ref.CrlStore(), [], False
    for pair in words.at(1).split(';'):
        if pair == 'cache':
            caches = True
        else:
            [(uri, crl)] = pairs_of(pair)
            store.push(uri, crl)
            tables.append((crl, caches))
    crl = store.get(words.octets(2))
    if crl is None:
        return 'none'
    asked = [ref.contains_counted(crl.tbs.revoked, int(word, 16), False)
             for word in words.at(3).split(',')]
    has_table = next(cached for pushed, cached in tables if pushed is crl)
    walked = not has_table and asked[-1][1] == len(list(crl.entries()))
    return line('ok', ('crl-number', show.serial(crl.tbs.crl_number)),
                *(('has', show.yes(hit)) for hit, _ in asked),
                ('walked', show.yes(walked)))


def fault_of(take, octets):
    try:
        take(octets)
    except ref.DecodeError as fault:
        return fault.name
    return 'ok'


def cut(words):
    """What each beginning answers; lengths that answer alike stand together."""
    is_certificate = words.at(1) == 'certificate'
    octets = words.octets(2 if words.at(2) != '-' else 1)
    take = ref.decode_cert if is_certificate else ref.decode_crl
    found, start = [], 0
    names = [fault_of(take, octets[:n]) for n in range(len(octets))]
    for place, name in enumerate(names):
        if place + 1 == len(names) or names[place + 1] != name:
            found.append(f'{name}:{start}-{place}')
            start = place + 1
    return ' '.join(found)


# -------------------------------------------------------------- rearranged ---

def extra_of(word):
    at, octets, content = word.split(':')
    return int(at), show.octets_of(octets), show.octets_of(content)


def rearrange(words):
    order, extras = words.at(2), words.at(3)
    order = [] if order == '-' else [int(n) for n in order.split(',')]
    extras = [] if extras == '-' else [extra_of(e) for e in extras.split(',')]
    try:
        return f'ok {show.hexed(ref.rearrange(words.octets(1), order, extras))}'
    except ref.RearrangeError as fault:
        return refused(fault)


# -------------------------------------------------------------- revocation ---

def pairs_of(word):
    """The pairs `URI:LIST` of a store, both in hexadecimal."""
    pairs = [] if word == '-' else [pair.split(':') for pair in word.split(';')]
    return [(show.octets_of(uri), ref.decode_crl(show.octets_of(octets)))
            for uri, octets in pairs]


def revocation(words, verifier=ref.stand_in):
    now, members = show.moment_of(words.at(1)), members_of(words, 4)
    if now is None or not members or members[0][0] != ref.TA:
        return 'unfit'
    store = ref.CrlStore(pairs_of(words.at(3)))
    answer = path_line(members, words.at(2) == 'strict', now, verifier,
                       store=store)
    return line(answer, ('cached', 'same'))


def key_form(words):
    is_router, bits = words.at(1) == 'router', words.octets(2)
    return line('ok', *keys.form(is_router, bits),
                ('used', show.yes(keys.is_used(is_router, bits))),
                ('point', show.yes(keys.is_point(bits))))


# ---------------------------------------------------------------- locators ---

def uri_of_locator(octets):
    scheme = 'rsync' if ref.is_rsync(octets) else 'https'
    return scheme, show.uri(octets)


def locator(words):
    octets, asked = words.octets(2), words.octets(3)
    try:
        found = ref.decode_locator(octets, words.at(1) == 'strict')
    except ref.LocatorError as fault:
        return refused(fault)
    key = ref.take_key(ref.Cursor(asked)) if asked else None
    return line('ok', *map(uri_of_locator, found.uris),
                ('key', show.key(found.key)),
                ('has-key', NO[None if key is None else key == found.key]))


def base64_of_line(words):
    digits = words.characters(1).translate(None, ref.WHITE_SPACE)
    octets = ref.decode_base64(digits)
    return 'none' if octets is None else f'ok {show.hexed(octets)}'


# ----------------------------------------------------------------- folders ---

def folder(words, verifier=ref.stand_in):
    """The walk down from a locator's trust anchor, by going over all paths."""
    now, kind_and_digits = show.moment_of(words.at(2)), words.at(6).partition(':')
    strict, depth, most = words.at(1) == 'strict', int(words.at(3)), int(words.at(4))
    key = ref.decode_locator(words.octets(5), True).key
    strings = [show.octets_of(word) for word in words.words[7:]]
    octets = show.octets_of(kind_and_digits[2])
    try:
        tbs = ref.decode_cert(octets).tbs
        if tbs.key != key:
            return refused('locator OtherKey')
        if {tbs.v4, tbs.v6, tbs.asn} <= {'missing', 'inherit'}:
            return refused('locator NoResources')
    except ref.DecodeError:
        pass
    try:
        anchor = ref.validate_path([(ref.TA, octets)], strict, now, verifier)
    except ref.PathError as e:
        return refused_of(e)
    found = folders.Folder(strings, verifier)
    verdicts, ended = found.looked_at(anchor, strict, now, depth, most)
    if ended == 'out':
        return ended
    return ' '.join([ended, *(NO[verdicts[place]] if place in verdicts else '-'
                              for place, _ in found.certs)])


WORDS = {
    'certificate': certificate, 'data': data, 'make': make,
    'inspect': inspect, 'verify': verify, 'validate': validate,
    'extension': extension, 'compare': compare, 'write': write,
    'list': revocation_list, 'shared': lambda words: 'same', 'cut': cut,
    'stale': stale, 'store': store,
    'path': path, 'names': names, 'run': run, 'run-unnamed': run_unnamed,
    'rearrange': rearrange, 'revocation': revocation, 'real-path': real_path,
    'real-revocation': lambda w: revocation(w, rsa.verifier),
    'rsa': lambda w: show.yes(rsa.verify(*map(w.octets, (1, 2, 3)))),
    'rsa-key': lambda w: show.yes(rsa.is_rpki_key(w.octets(1))),
    'key-form': key_form, 'locator': locator, 'folder': folder,
    'real-folder': lambda w: folder(w, rsa.verifier),
    'base64': base64_of_line,
    **PARTS, **URIS, **RESOURCES, **DER,
}


def answer(question):
    """The answer to a question, None where the reference has no such word."""
    words = Words(question)
    known = WORDS.get(words.at(0))
    return None if known is None else known(words)
