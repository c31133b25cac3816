"""What `rpki validate` finds of a path of files, and what it says of that: one description, of which
documents.py makes the text and the JSON.

The files are in DER. What is found is worked out with the rest of the reference; the sentences are those
of texts.py.
"""

import ipaddress
from typing import NamedTuple, Optional

import documents as doc
import folders
import keys
import notes
import reference as ref
import rsa
import sorts
import texts
from parts import P256, RSA
from profiles import CA, DETACHED, EE, ROUTER, TA, first_fault
from refusals import Refusal, RevocationError

KINDS = {TA: ('trust anchor', 'ta'), CA: ('CA', 'ca'), EE: ('EE', 'ee'),
         DETACHED: ('detached EE', 'detached_ee'), ROUTER: ('BGPsec router', 'router')}
SIGNATURES = 'checked (RSASSA-PKCS1-v1_5 with SHA-256, RFC 7935)'
NOT_A_LIST = texts.Rule("a file given as a CRL isn't one", 'RFC 6487 5, own rules')
SELF_NAMED = texts.Rule('the trust anchor\'s issuer isn\'t its subject', 'RFC 8630 2.3')


class File(NamedTuple):
    name: str
    octets: bytes


class Question(NamedTuple):
    members: list
    lists: list = ()
    locators: list = ()
    names: bool = True
    strict: bool = True
    now: tuple = (2026, 1, 1, 0, 0, 0)


class Fault(NamedTuple):
    """In which step a path is wrong, how, and at which certificate, if it is at one."""
    step: str
    name: str
    rule: texts.Rule
    index: Optional[int] = None


class Accepted(NamedTuple):
    """What the last certificate holds, or the CA above a router's certificate."""
    holder: object
    router: object = None


# ---- what is found

def certificate(file):
    return folders.read(ref.decode_cert, file.octets)


def behind(octets):
    """How many bytes follow the value that they begin with."""
    cursor = ref.Cursor(octets)
    cursor.take_value(0x30)
    return len(cursor.rest())


def is_list(file):
    crl = folders.read(ref.decode_crl, file.octets)
    return crl is not None and not behind(file.octets)


def locator_fault(question):
    """What is wrong of the first file that is given as a TAL and is none."""
    for file in question.locators:
        try:
            ref.decode_locator(file.octets, question.strict)
        except ref.LocatorError as error:
            return Fault('tal', error.name, texts.fault('tal', error.name))
    return None


def located(question, cert):
    """The first TAL that has the key of the trust anchor, with its file."""
    for file in question.locators:
        locator = ref.decode_locator(file.octets, question.strict)
        if locator.key == cert.tbs.key:
            return file, locator
    return None


def lists_for(question, issuer):
    """The CRLs that may be asked below an issuer, and those of another name that its key signed."""
    read = [ref.decode_crl(it.octets) for it in question.lists]
    if not question.names:
        return read, []
    subject = issuer.cert.tbs.subject
    other = [it for it in read if it.tbs.issuer != subject and folders.is_signed(it, issuer, rsa.verifier)]
    return [it for it in read if it.tbs.issuer == subject], other


def check_revocation(question, cert, issuer):
    lists, other = lists_for(question, issuer)
    try:
        folders.check_lists(lists, cert, issuer, question.now, rsa.verifier)
    except RevocationError as error:
        key = cert.tbs.authority_key_identifier
        if error.name == 'NoCrl' and any(it.tbs.authority_key_identifier == key for it in other):
            raise RevocationError('WrongIssuer') from None
        raise


def kinds_of(question):
    """As what each file is judged."""
    last = certificate(question.members[-1])
    kinds = [TA] + [CA] * (len(question.members) - 1)
    if len(kinds) > 1 and last is not None:
        kinds[-1] = folders.said_kind(last.tbs)
    return kinds


def reading_rule(error, octets):
    """The rule of an error of reading, by what is wrong and of which part."""
    says, section = texts.fault('reading', error.name)
    if error.name == 'WrongResources' and not has_policies(octets):
        return texts.Rule('Certificate Policies are missing', 'RFC 6487 4.8.9')
    if error.name == 'Duplicate' and error.detail in ('IpResources', 'AsResources'):
        return texts.Rule('IP or AS resources appear twice, or under both identifiers', 'RFC 5280 4.2, own rule')
    return texts.Rule(says, section or texts.parts()[error.detail])


def has_policies(octets):
    """Whether Certificate Policies are among the extensions."""
    try:
        fields = ref.Cursor(octets).take_sequence().take_sequence()
        for tag in (0xA0, 0x02, *[0x30] * 5):
            fields.take_value(tag)
        elements, found = fields.take_value(0xA3).take_sequence(), False
        while not elements.is_empty():
            found |= ref.take_extension(elements)[0] == ref.OID['CertificatePolicies']
        return found
    except Refusal:
        return False


def profile_rule(name, cert):
    if name == 'KeyAlgorithm' and cert.tbs.extended_key_usage is not None:
        return texts.Rule('it has Extended Key Usage, as only a router\'s certificate, but no key on the '
                          'curve P-256', 'RFC 6487 4.8.5')
    return texts.fault('profile', name)


def rule_of(step, name, cert):
    """The rule of a fault of a certificate that is read."""
    return profile_rule(name, cert) if step == 'profile' else texts.fault(step, name)


def judged(question):
    """What the last certificate holds, or the fault of the first certificate that is wrong."""
    above = None
    for index, (kind, file) in enumerate(zip(kinds_of(question), question.members)):
        step = 'reading'
        try:
            cert = ref.decode_cert(file.octets)
            step = 'profile'
            ref.inspect(kind, question.strict, cert)
            step = 'verification'
            result = ref.verify(kind, cert, above, question.now, rsa.verifier)
            step = 'revocation'
            if index and question.lists:
                check_revocation(question, cert, above)
        except Refusal as error:
            rule = reading_rule(error, file.octets) if step == 'reading' else rule_of(step, error.name, cert)
            return Fault(step, error.name, rule, index)
        if kind == ROUTER:
            return Accepted(above, cert)
        above = result
    return Accepted(above)


def anchor_fault(question):
    """What is wrong of the trust anchor beside the TALs."""
    cert = certificate(question.members[0])
    if not question.locators or cert is None:
        return None
    if located(question, cert) is None:
        return Fault('tal', 'OtherKey', texts.fault('locator', 'OtherKey'), 0)
    if not any(ref.is_set(it) and it for it in (cert.tbs.v4, cert.tbs.v6, cert.tbs.asn)):
        return Fault('tal', 'NoResources', texts.fault('locator', 'NoResources'), 0)
    return None


def name_fault(question):
    index = ref.first_unchained([it.octets for it in question.members])
    if index is None:
        return None
    rule = texts.fault('names', 'OtherName') if index else SELF_NAMED
    return Fault('names', 'OtherName', rule, index)


def key_fault(question, result):
    key = (result.router or result.holder.cert).tbs.key
    if keys.is_used(key.format == P256, key.bits):
        return None
    rule = texts.Rule('its key isn\'t RSA of 2048 bits with the exponent 65537', 'RFC 7935 3') \
        if key.format == RSA else texts.Rule('its key isn\'t an uncompressed point on the curve P-256', 'RFC 8608 3.1, own rule')
    return Fault('key', 'BadKey', rule, len(question.members) - 1)


def find(question):
    """What is found of a path."""
    fault = locator_fault(question)
    if fault is None and not all(map(is_list, question.lists)):
        fault = Fault('crls', 'NotACrl', NOT_A_LIST)
    fault = fault or anchor_fault(question)
    if fault:
        return fault
    result = judged(question)
    if isinstance(result, Fault):
        return result
    return (name_fault(question) if question.names else None) or key_fault(question, result) or result


# ---- what is said

def kind_of(cert, strict):
    """What a certificate is: a trust anchor, if it meets the profile of one, or what it says."""
    return TA if first_fault(TA, strict, cert) is None else folders.said_kind(cert.tbs)


def serial_text(number):
    return number.to_bytes(max(1, (number.bit_length() + 7) // 8), 'big').hex().upper()


def say_resources(answer, label, place, blocks, block_values):
    """A line for each block, the first with the label; of none a word."""
    if not blocks:
        answer.line(label, 'none')
    for number, block in enumerate(blocks):
        say = answer.further if number else lambda *pieces: answer.line(label, *pieces)
        length = len(answer.data_at(place))
        say(*block_values((*place, length), *block))


def numbers(place, low, high):
    if low == high:
        return [doc.count((*place, 'asid'), low)]
    its = (*place, 'asrange')
    return [doc.count((*its, 'min'), low), '-', doc.count((*its, 'max'), high)]


def addresses(kind):
    def values(place, low, high):
        low, high = kind(low), kind(high)
        networks = list(ipaddress.summarize_address_range(low, high))
        if len(networks) == 1:
            return [doc.text((*place, 'ip_prefix'), f'{address_text(low)}/{networks[0].prefixlen}')]
        its = (*place, 'ip_range')
        return [doc.text((*its, 'min'), address_text(low)), '-', doc.text((*its, 'max'), address_text(high))]
    return values


def address_text(address):
    """RFC 5952, with the last four bytes of an address of section 5 in decimal."""
    if address.version == 6 and address.ipv4_mapped:
        return f'::ffff:{address.ipv4_mapped}'
    return str(address)


def say_held(answer, place, labels, holder):
    answer.array(place)
    say_resources(answer, labels[0], place, holder.asn, numbers)
    say_resources(answer, labels[1], place, [(low >> 96, high >> 96) for low, high in holder.v4],
                  addresses(ipaddress.IPv4Address))
    say_resources(answer, labels[2], place, holder.v6, addresses(ipaddress.IPv6Address))


def say_listed(answer, label, name, place, resources, block_values):
    """What a certificate lists of one kind."""
    if resources == ref.INHERIT:
        answer.line(label, 'inherited')
        answer.keep(doc.word((*place, len(answer.data_at(place)), name), '', 'inherit'))
    elif resources != ref.MISSING:
        say_resources(answer, label, place, resources, block_values)


FORMS = {'point': 'uncompressed point', 'off-curve': 'point off the curve',
         'compressed-point': 'compressed point', 'no-point': 'no point'}
SAID_FORMS = {'point': 'an uncompressed point of the curve', 'off-curve': 'a point off the curve',
              'compressed-point': 'a compressed point', 'no-point': 'no point'}


def say_router(answer, router, cert):
    """A router's resources and its key, which is on the curve P-256."""
    f = cert.tbs
    listed = (*router, 'subordinate_resources')
    answer.array(listed)
    say_listed(answer, 'Router AS numbers', 'as_inherit', listed, f.asn, numbers)
    form = dict(keys.form(True, f.key.bits))['form']
    its = (*router, 'key')
    answer.line('Router key', f'ECDSA P-256, {SAID_FORMS[form]}')
    answer.keep(doc.word((*its, 'algorithm'), '', 'ECDSA P-256'), doc.word((*its, 'form'), '', FORMS[form]),
                doc.flag((*its, 'usable'), True), doc.word((*its, 'point'), '', doc.colons(f.key.bits)))
    answer.line('Router key identifier', doc.identifier((*router, 'ski'), f.subject_key_identifier))


def say_held_by(answer, its, found):
    """What the last certificate holds; of a router's what it lists, and what the CA above it holds."""
    if found.router:
        say_router(answer, (*its, 'router'), found.router)
        say_held(answer, (*its, 'issuer_holds'), ("Issuer's AS", "Issuer's IPv4", "Issuer's IPv6"), found.holder)
    else:
        say_held(answer, (*its, 'holds'), ('AS resources', 'IPv4 resources', 'IPv6 resources'), found.holder)


def say_accepted(answer, question, found):
    if question.locators:
        file, locator = located(question, certificate(question.members[0]))
        word = 'URI' if len(locator.uris) == 1 else 'URIs'
        answer.line('TAL', doc.count(('tal_uris',), len(locator.uris)), f' {word}, key ',
                    doc.identifier(('tal_key',), locator.key.identifier()), ', ', doc.text(('tal',), file.name))
    say_held_by(answer, (), found)
    answer.line('Signatures', doc.word(('signatures',), SIGNATURES, 'checked'))
    if question.lists:
        checked = doc.word(('revocation',), 'checked, no certificate is revoked by the CRLs given', 'checked')
    else:
        checked = doc.word(('revocation',), 'not checked, no CRL was given', 'not checked')
    answer.line('Revocation', checked)
    if not question.locators:
        answer.line('Not checked', 'the trust anchor\'s key, no TAL was given')
    if not question.names:
        answer.line('Not checked', 'name chaining (RFC 5280 6.1.3)')
    answer.line('Not checked', 'manifests')


def say_cause(answer, question, fault):
    """What is needed to act on some faults."""
    cert = certificate(question.members[fault.index])
    if cert is None:
        return
    f, its = cert.tbs, ('rejected',)

    def say_key(label, name, octets):
        if octets is not None:
            answer.line(label, doc.identifier((*its, name), octets))

    def say_end(label, name, moment):
        answer.line(label, doc.time((*its, name), moment), ', validation time ',
                    doc.time((*its, 'validation_time'), question.now))
    cause = fault.step, fault.name
    if cause == ('revocation', 'NoCrl'):
        if f.crl_uri is not None:
            answer.line('CRL needed', doc.visible((*its, 'crl_needed'), f.crl_uri))
        say_key('Issuer\'s key', 'aki', f.authority_key_identifier)
    elif cause == ('verification', 'WrongKeyId'):
        above = certificate(question.members[fault.index - 1]).tbs
        say_key('Issuer\'s key', 'aki', f.authority_key_identifier)
        say_key('Key above', 'ski_above', above.subject_key_identifier)
    elif cause == ('verification', 'NotYetValid'):
        say_end('Valid from', 'valid_since', f.not_before)
    elif cause == ('verification', 'Expired'):
        say_end('Valid until', 'valid_until', f.not_after)


def say_advice(answer, question, fault):
    """What a file is that is neither a certificate nor a CRL; and that the files are turned round."""
    octets, its = question.members[fault.index].octets, ('rejected',)
    is_either = any(folders.read(it, octets) is not None for it in (ref.decode_cert, ref.decode_crl))
    sort = None if is_either else sorts.sort_of(octets)
    if sort:
        said = texts.sorts()[sort]
        answer.line('Kind', doc.text((*its, 'kind'), said.name))
        answer.line('To do', doc.text((*its, 'advice'), said.advice))

    def is_anchor(file):
        cert = certificate(file)
        return cert is not None and first_fault(TA, question.strict, cert) is None
    if is_anchor(question.members[-1]) and not is_anchor(question.members[0]):
        answer.line('Order', doc.text(
            (*its, 'order'), 'expected the files from the trust anchor down, but the last one is a trust anchor'))


def say_rejected(answer, question, fault):
    its, (says, section) = ('rejected',), fault.rule
    is_at = fault.index is not None
    file = [doc.inner(None, question.members[fault.index].name), ': '] if is_at else []
    answer.head('rejected', *file, f'{says} ({fault.name}, {section})')
    answer.keep(doc.flag(('accepted',), False))
    step = doc.text((*its, 'step'), fault.step)
    answer.line('Step', step, *([' (path index ', doc.count((*its, 'index'), fault.index), ')'] if is_at else []))
    answer.keep(*(doc.word((*its, key), '', data) for key, data in (
        ('fault', fault.name), ('why', says), ('standard', section))))
    if is_at:
        answer.keep(doc.text((*its, 'file'), question.members[fault.index].name))
        say_cause(answer, question, fault)
        say_advice(answer, question, fault)


def say_unjudged(answer, fault):
    """What is wrong of a file that is given as a TAL or as a CRL, so that nothing is judged."""
    its, (says, section) = ('rejected',), fault.rule
    answer.head('rejected', f'{says} ({fault.name}, {section})')
    answer.keep(doc.flag(('accepted',), False))
    answer.line('Step', doc.text((*its, 'step'), fault.step))
    answer.keep(*(doc.word((*its, key), '', data) for key, data in (
        ('fault', fault.name), ('why', says), ('standard', section))))


def say_certificates(answer, question):
    for index, file in enumerate(question.members):
        its, cert = ('certificates', index), certificate(file)
        known = [doc.word((*its, 'kind'), *KINDS[kind_of(cert, question.strict)]), ', serial ',
                 doc.text((*its, 'serial'), serial_text(cert.tbs.serial))] if cert else ['not a certificate']
        answer.line('Certificate', doc.count((*its, 'index'), index), ', ', *known, ', ',
                    doc.text((*its, 'file'), file.name))


def say_notes(answer, question):
    answer.array(('notes',))
    for file in question.members:
        cert = certificate(file)
        its = ('notes', len(answer.data['notes']))
        for number, name in enumerate(notes.notes_of(cert) if cert else []):
            if number == 0:
                answer.keep(doc.text((*its, 'file'), file.name))
            rule, place = texts.notes()[name], (*its, 'notes', number)
            answer.keep(doc.word((*place, 'note'), '', name))
            answer.line('Note', doc.text((*place, 'why'), rule.says), ' (', doc.text((*place, 'standard'), rule.section),
                        '): ', doc.text(None, file.name))


def say_files(answer, question):
    say_certificates(answer, question)
    say_notes(answer, question)
    answer.array(('bytes_after_end',))
    both = [(it, ref.decode_cert, ', not read: ') for it in question.members]
    both += [(it, ref.decode_crl, ', so it is not a CRL (if it has two, give each in a file of its own): ')
             for it in question.lists]
    for file, decode, means in both:
        if folders.read(decode, file.octets) is not None and (left := behind(file.octets)):
            its = ('bytes_after_end', len(answer.data['bytes_after_end']))
            answer.line('Bytes after its end', doc.count((*its, 'bytes'), left), means, doc.text((*its, 'file'), file.name))
    answer.array(('not_crls',))
    for file in question.lists:
        if not is_list(file):
            answer.line('Not a CRL', doc.text(('not_crls', len(answer.data['not_crls'])), file.name))
    say_no_locators(answer, question)


def say_no_locators(answer, question):
    answer.array(('not_tals',))
    for file in question.locators:
        if folders.read(lambda it: ref.decode_locator(it, question.strict), file.octets) is None:
            answer.line('Not a TAL', doc.text(('not_tals', len(answer.data['not_tals'])), file.name))


def answer_of(question, found):
    """What is said of a path of which this was found."""
    answer = doc.Answer()
    if isinstance(found, Fault):
        say_rejected(answer, question, found)
    else:
        answer.head('accepted', doc.text(None, question.members[-1].name))
        answer.keep(doc.flag(('accepted',), True))
    say_files(answer, question)
    answer.line('Validation time', doc.time(('validation_time',), question.now))
    answer.keep(*(doc.text(('path', index), file.name) for index, file in enumerate(question.members)))
    answer.keep(doc.flag(('tal_checked',), bool(question.locators)), doc.flag(('names_checked',), question.names),
                doc.flag(('revocation_checked',), bool(question.lists)), doc.flag(('manifests_checked',), False))
    if not isinstance(found, Fault):
        say_accepted(answer, question, found)
    return answer
