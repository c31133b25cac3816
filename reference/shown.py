"""What `rpki show` says of a file: one description, of which documents.py makes the text and the JSON.

The octets are those of the object, in DER. Which of several errors of reading is told is no promise
(README.md): the command's is taken, if it is true of the place where reading stops, and else the plain one.
"""

import base64
import hashlib
import ipaddress
from typing import NamedTuple, Optional

import documents as doc
import flaws
import folders
import further
import keys
import notes
import places
import reference as ref
import sorts
import texts
import verdicts
from der import Cursor
from parts import P256, RSA, take_algorithm
from profiles import CA, DETACHED, EE, ROUTER, TA, first_fault
from refusals import LocatorError, Refusal

FEW = 5
# the OBJECT IDENTIFIER of sha256WithRSAEncryption (RFC 4055 5)
ALGORITHM = bytes.fromhex('06092A864886F70D01010B')
TYPES = {TA: 'ca_cert', CA: 'ca_cert', EE: 'ee_cert', DETACHED: 'ee_cert', ROUTER: 'router_key'}
USAGES = {'Ca': ('keyCertSign, cRLSign', 'ca'), 'Ee': ('digitalSignature', 'ee')}
OVERCLAIMS = {ref.REFUSE: ('rejected (RFC 6484 policy)', 'reject'), ref.TRIM: ('trimmed (RFC 8360 policy)', 'trim')}
PLACES = (('Authority info access', 'aia', 'ca_issuer'), ('CRL distribution point', 'crl', 'crl_uri'),
          ('Repository', 'carepository', 'ca_repository'), ('Manifest', 'manifest', 'rpki_manifest'),
          ('Signed object', 'signed_object', 'signed_object'), ('Notify URL', 'notify_url', 'rpki_notify'))
PROFILES = (('Trust anchor profile', 'ta', TA), ('CA profile', 'ca', CA), ('EE profile', 'ee', EE),
            ('Detached EE profile', 'detached_ee', DETACHED), ('Router profile', 'router', ROUTER))
FURTHER = {'unknown_extension': 'Unknown extension', 'practice_statement': 'Practice statement',
           'further_crl': 'Further CRL', 'further_aia': 'Further authority info',
           'further_carepository': 'Further repository', 'further_manifest': 'Further manifest',
           'further_signed_object': 'Further signed object', 'further_notify_url': 'Further notify URL',
           'unknown_access_method': 'Unknown access method', 'method_uri': 'URI of that method'}
RSA_FORMS = {'even-modulus': ('an even modulus', 'even modulus'), 'no-rsa-key': ('no RSAPublicKey', 'no RSAPublicKey')}
RSA_ASKED = 'RFC 7935 3 requires 2048 bits, exponent 65537'
POINT_ASKED = 'RFC 8608 3.1 and an own rule require an uncompressed point of the curve'
TAL_ASKED = 'every path is rejected: RFC 7935 3 requires RSA, 2048 bits, exponent 65537'


class Options(NamedTuple):
    now: tuple
    strict: bool = True
    all: bool = False


class Unread(NamedTuple):
    """What is found of octets that begin with neither: their sort, the text of the error, the place, what is
    expected and what is found there, and the rule."""
    sort: Optional[str]
    error: str
    place: places.Place
    expected: str
    found: Optional[str]
    rule: texts.Rule


# ---- octets that are read as nothing

def is_told_as_list(octets, sort):
    """Whether octets look like a CRL, and aren't of a sort that looks so too."""
    try:
        first = Cursor(octets).take_sequence().take_sequence().peek()
    except Refusal:
        return False
    return first == places.INTEGER and sort not in ('Version1', 'Request')


def extension_at(octets, place):
    try:
        return ref.take_extension(Cursor(octets[place.octet:]))
    except Refusal:
        return None


def kind_called(part):
    return places.NAMES.get(part)


def is_lacking(octets, place, part, is_list):
    """Whether there is no extension of a kind where extensions stand."""
    of, found = places.OfList if is_list else places.OfCertificate, set()
    row = Cursor(octets[place.octet:]).take_value(of.tag).take_sequence()
    while not row.is_empty():
        found.add(of.kind_of(ref.take_extension(row)[0]))
    return not found & ({'IpResources', 'AsResources'} if part == 'Resources' else {part})


def is_true(octets, place, reading, is_list):
    """Whether an error that names something says what is so at the place."""
    name, part = reading
    extension = extension_at(octets, place)
    if name == 'AlgorithmMismatch':
        return place.field == 'the algorithm of the signature' and is_list
    if name in ('UnexpectedCritical', 'InvalidExtension'):
        return place.field == places.NAMES[None] and extension and extension[0].hex() == part and (
            is_list or extension[1])
    if name == 'Missing':
        return place.field == 'the extensions' and is_lacking(octets, place, part, is_list)
    if name == 'WrongResources':
        return place.field == 'the extensions' and not is_list
    if name in ('Critical', 'NotCritical'):
        return place.field == kind_called(part) and not is_list and extension[1] == (name == 'Critical')
    return name != 'Duplicate' or place.field == kind_called(part)


def reading_of(error):
    """The error of a text, which may end with an identifier."""
    text, _, identifier = error.rpartition(' ')
    if text in ('unexpected critical extension', 'invalid extension'):
        return texts.reading_texts()[text]._replace(of=identifier)
    return texts.reading_texts().get(error)


def rule_of(octets, reading, is_list):
    """What an error of reading means, and the section of the standard."""
    says, section = texts.fault('reading', reading.name)
    if is_list:
        return {'Missing': texts.Rule('an extension that must be there is missing', 'RFC 6487 5'),
                'Duplicate': texts.Rule('an extension appears twice', 'RFC 5280 4.2'),
                'InvalidExtension': texts.Rule(
                    'a CRL has no extensions but Authority Key Identifier and CRL Number', 'RFC 6487 5')}.get(
                    reading.name, texts.Rule('it doesn\'t begin with a CRL of the profile', 'RFC 6487 5, own rules'))
    if reading.name == 'WrongResources' and not verdicts.has_policies(octets):
        return texts.Rule('Certificate Policies are missing', 'RFC 6487 4.8.9')
    if reading.name == 'Duplicate' and reading.of in ('IpResources', 'AsResources'):
        return texts.Rule('IP or AS resources appear twice, or under both identifiers', 'RFC 5280 4.2, own rule')
    return texts.Rule(says, section or texts.parts()[reading.of])


def expected_at(octets, place, is_list):
    """What is expected where reading stops."""
    some = texts.expected()[place.field]
    if len(some) == 1:
        return next(iter(some.values()))
    if place.field == 'the algorithm of the signature':
        return some['OtherAlgorithm' if is_list and folders.read(
            lambda it: take_algorithm(Cursor(it)) in (True, False), octets[place.octet:]) else 'SignatureAlgorithm']
    return some[('Version', 'ListVersion')[is_list] if 'Version' in some else ('Unknown', 'NoList')[is_list]]


def unread(octets, told):
    """What is found of octets that begin with neither a certificate nor a CRL, if this is told of them."""
    sort = sorts.sort_of(octets)
    is_list = is_told_as_list(octets, sort)
    place = places.place_of(octets, is_list)
    reading = reading_of(told.get('fault', ''))
    error = told['fault'] if reading and is_true(octets, place, reading, is_list) else 'bad value'
    rule = texts.sorts()[sort].rule if sort else rule_of(octets, reading_of(error), is_list)
    found = flaws.found_at(octets, place, is_list)
    return Unread(sort, error, place, expected_at(octets, place, is_list), found, rule)


# ---- periods

def passed(seconds):
    """So many seconds: in whole days from 48 hours on."""
    if seconds >= 48 * 3600:
        return f'{seconds // 86400} days'
    if seconds >= 3600:
        return f'{seconds // 3600} h {seconds % 3600 // 60} min'
    return f'{seconds // 60} min' if seconds >= 60 else f'{seconds} s'


def state(ends, ended, begin, end, now):
    """The last second of a period is still in it."""
    left = doc.seconds(end) - doc.seconds(now)
    if left < 0:
        return f'{ended} {passed(-left)} ago'
    if now < begin:
        return f'not valid before {doc.time(None, begin).said}'
    return f'{ends} in {passed(left)}'


def say_end(answer, label, words, period, now):
    answer.line(label, doc.time(('valid_until',), period[1]), ' (', doc.text(None, state(*words, *period, now)), ')')


# ---- keys

def key_text(form, numbers):
    if form == 'rsa-key':
        exponent = numbers['exponent']
        return f'RSA, {numbers["bits"]} bits, ' + (
            'an exponent of 2^64 or more' if exponent == 'none' else f'exponent {exponent}')
    if form in RSA_FORMS:
        return f'RSA, {RSA_FORMS[form][0]}'
    return f'ECDSA P-256, {verdicts.SAID_FORMS[form]}'


def say_key(answer, key, is_used, asked):
    """A key, and what is required instead if it isn't used."""
    numbers = dict(keys.form(key.format == P256, key.bits))
    form, its = numbers['form'], ('key',)
    said = key_text(form, numbers) + ('' if is_used else f' ({asked})')
    answer.line('Key', doc.text(None, said))
    is_rsa = key.format == RSA
    word = verdicts.FORMS.get(form) or ('RSAPublicKey' if form == 'rsa-key' else RSA_FORMS[form][1])
    answer.keep(doc.word((*its, 'algorithm'), '', 'RSA' if is_rsa else 'ECDSA P-256'),
                doc.word((*its, 'form'), '', word), doc.flag((*its, 'usable'), is_used))
    if form == 'rsa-key':
        answer.keep(doc.count((*its, 'bits'), numbers['bits']))
        if numbers['exponent'] != 'none':
            answer.keep(doc.count((*its, 'exponent'), numbers['exponent']))


# ---- certificates

def say_fields(answer, cert, options):
    f, kind = cert.tbs, verdicts.kind_of(cert, options.strict)
    answer.line('Kind', doc.word(('kind',), *verdicts.KINDS[kind]))
    answer.keep(doc.word(('type',), '', TYPES[kind]))
    answer.line('Version', doc.count(('version',), 3))
    answer.line('Serial number', doc.text(('cert_serial',), verdicts.serial_text(f.serial)))
    answer.line('Signature algorithm', doc.text(('signature_algorithm',), 'sha256WithRSAEncryption'))
    for label, key, name in (('Issuer', 'cert_issuer', f.issuer), ('Subject', 'cert_subject', f.subject)):
        answer.line(label, doc.word((key,), *[further.name_text(name)] * 2))
    answer.line('Valid from', doc.time(('valid_since',), f.not_before))
    say_end(answer, 'Valid until', ('expires', 'expired'), (f.not_before, f.not_after), options.now)


def say_own_key(answer, f):
    is_point = f.key.format == P256
    say_key(answer, f.key, keys.is_used(is_point, f.key.bits), f'not usable: {POINT_ASKED if is_point else RSA_ASKED}')
    if is_point:
        answer.line('Point', doc.identifier(('key', 'point'), f.key.bits))
    answer.line('Subject key identifier', doc.identifier(('ski',), f.subject_key_identifier))
    if f.authority_key_identifier is not None:
        answer.line('Authority key identifier', doc.identifier(('aki',), f.authority_key_identifier))
    answer.line('Key usage', doc.word(('key_usage',), *USAGES[f.key_usage]))


def shifted(resources):
    """IPv4 addresses stand in the upper 32 of 128 bits."""
    return tuple((low >> 96, high >> 96) for low, high in resources) if ref.is_set(resources) else resources


def say_resources(answer, f):
    answer.line('Overclaimed resources', doc.word(('overclaim',), *OVERCLAIMS[f.overclaim]))
    its = ('subordinate_resources',)
    answer.array(its)
    for label, key, resources, values in (
            ('AS resources', 'as_inherit', f.asn, verdicts.numbers),
            ('IPv4 resources', 'ip4_inherit', shifted(f.v4), verdicts.addresses(ipaddress.IPv4Address)),
            ('IPv6 resources', 'ip6_inherit', f.v6, verdicts.addresses(ipaddress.IPv6Address))):
        verdicts.say_listed(answer, label, key, its, resources, values)


def say_profiles(answer, cert, options):
    kind = verdicts.kind_of(cert, options.strict)
    some = [('Profile', ('profile',), kind)]
    some += [(label, ('profiles', key), it) for label, key, it in PROFILES] if options.all else []
    for label, place, it in some:
        fault = first_fault(it, options.strict, cert)
        answer.line(label, *(['not met: ', doc.text(place, fault)] if fault else [doc.word(place, 'met', 'OK')]))


def say_remarks(answer, cert):
    for name in ('further', 'notes'):
        answer.array((name,))
    for number, (key, octets) in enumerate(further.facts_of(cert)):
        is_name = key in ('unknown_extension', 'unknown_access_method')
        place = ('further', number, key)
        answer.line(FURTHER[key], doc.text(place, further.identifier_text(octets)) if is_name else
                    doc.visible(place, octets))
    for number, name in enumerate(notes.notes_of(cert)):
        its, (says, section) = ('notes', number), texts.notes()[name]
        answer.keep(doc.word((*its, 'note'), '', name))
        answer.line('Note', doc.text((*its, 'why'), says), ' (', doc.text((*its, 'standard'), section), ')')


def say_signature(answer):
    answer.line('Signature', doc.word(('signature',), 'not checked (rpki validate checks those of a path)',
                                      'not checked'))


def say_no_signature(answer):
    answer.line('Signature', doc.word(('signature',), 'none, this is the to-be-signed part (RFC 5280 4.1, 5.1)',
                                      'none'))


def say_certificate(answer, cert, options):
    say_fields(answer, cert, options)
    say_own_key(answer, cert.tbs)
    for label, key, field in PLACES:
        uri = getattr(cert.tbs, field)
        if uri is not None:
            answer.line(label, doc.visible((key,), uri))
    say_resources(answer, cert.tbs)
    say_profiles(answer, cert, options)
    say_remarks(answer, cert)


# ---- CRLs, TALs and others

def say_list(answer, crl, options):
    f, entries = crl.tbs, crl.entries()
    answer.line('Kind', doc.word(('type',), 'CRL', 'crl'))
    answer.line('Issuer', doc.word(('crl_issuer',), *[further.name_text(f.issuer)] * 2))
    answer.line('Authority key identifier', doc.identifier(('aki',), f.authority_key_identifier))
    answer.line('CRL number', doc.text(('crl_serial',), verdicts.serial_text(f.crl_number)))
    answer.line('This update', doc.time(('valid_since',), f.this_update))
    say_end(answer, 'Next update', ('goes stale', 'went stale'), (f.this_update, f.next_update), options.now)
    answer.line('Revoked', doc.count(None, len(entries)))
    answer.array(('revoked_certs',))
    is_cut = len(entries) > FEW and not options.all
    for number, it in enumerate(entries[:FEW] if is_cut else entries):
        its = ('revoked_certs', number)
        answer.further(doc.text((*its, 'serial'), verdicts.serial_text(it.serial)), '  ',
                       doc.time((*its, 'date'), it.date))
    if is_cut:
        answer.further('..')


def say_locator(answer, name, locator):
    answer.line('Kind', doc.word(('type',), 'TAL', 'tal'))
    answer.keep(doc.text(('name',), name))
    for number, uri in enumerate(locator.uris):
        answer.line('URI', doc.visible(('trust_anchor_locations', number), uri))
    say_key(answer, locator.key, locator.key.format == RSA and keys.is_used(False, locator.key.bits), TAL_ASKED)
    if locator.key.format == P256:
        answer.keep(doc.identifier(('key', 'point'), locator.key.bits))
    answer.line('Subject key identifier', doc.identifier(('ski',), locator.key.identifier()))


def say_rule(answer, rule):
    answer.line('Why', doc.text(('why',), rule.says))
    answer.line('Standard', doc.text(('standard',), rule.section))


def say_no_locator(answer, error):
    answer.line('Kind', doc.text(('kind',), 'looks like a TAL'))
    answer.line('Error', doc.text(('fault',), error.name))
    say_rule(answer, texts.fault('tal', error.name))


def say_unread(answer, found, options):
    if found.sort:
        said = texts.sorts()[found.sort]
        answer.line('Kind', doc.text(('kind',), said.name))
        answer.line('To do', doc.text(('advice',), said.advice))
    if options.all or not found.sort:
        answer.line('Error', doc.text(('fault',), found.error))
        answer.line('Where', doc.text(('field',), found.place.field), ', at byte ',
                    doc.count(('byte',), found.place.octet))
        answer.line('Expected', doc.text(('expected',), found.expected))
        if found.found:
            answer.line('Found', doc.text(('found',), found.found))
    say_rule(answer, found.rule)


# ---- a file

DECODERS = (ref.decode_cert, say_certificate), (ref.decode_crl, say_list)


def to_be_signed(octets):
    """What a TBSCertificate or a TBSCertList is with a signature of no bytes (RFC 5280 4.1, 5.1), and how it is
    said; or nothing of other octets."""
    for parameters in (b'\x05\x00', b''):
        whole = ref.enc(0x30, octets, ref.enc(0x30, ALGORITHM, parameters), ref.enc(0x03, b'\x00'))
        for decode, say in DECODERS:
            found = folders.read(decode, whole)
            if found is not None:
                return found, say
    return None


def say_object(answer, file, options, told):
    """What a file is, and what is said of it."""
    for decode, say in DECODERS:
        found = folders.read(decode, file.octets)
        if found is not None:
            say(answer, found, options)
            say_signature(answer)
            left = verdicts.behind(file.octets)
            if left:
                answer.line('Bytes after its end', doc.count(('bytes_after_end',), left), ', not read')
            return
    try:
        say_locator(answer, file.name, ref.decode_locator(file.octets, options.strict))
    except LocatorError as error:
        if sorts.is_meant_as_locator(file.octets):
            say_no_locator(answer, error)
        else:
            say_unread(answer, unread(file.octets, told), options)


def is_signed(file):
    return any(folders.read(decode, file.octets) is not None for decode, _ in DECODERS)


def answer_of(file, options, told):
    """What is said of a file, whose octets are those of its object, if this is told of it in the JSON."""
    answer, digest = doc.Answer(), hashlib.sha256(file.octets).digest()
    unsigned = None if is_signed(file) else to_be_signed(file.octets)
    if unsigned is not None:
        found, say = unsigned
        say_no_signature(answer)
        answer.line('File', doc.text(('file',), file.name))
        say(answer, found, options)
        return answer
    answer.line('File', doc.text(('file',), file.name))
    answer.line('SHA-256', digest.hex())
    answer.keep(doc.word(('hash_id',), '', base64.b64encode(digest).decode()))
    say_object(answer, file, options, told)
    return answer


def can_be_shown(file, strict):
    """Whether a file is a certificate or a CRL, also one that is to be signed, or a TAL."""
    decoders = (ref.decode_cert, ref.decode_crl, to_be_signed, lambda it: ref.decode_locator(it, strict))
    return any(folders.read(it, file.octets) is not None for it in decoders)
