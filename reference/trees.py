"""What `rpki tree` finds of files in no order, and what it says of that: one description, of which
documents.py makes the text and the JSON.

Where no page says which of several it tells (equal trust anchors, errors of the longest wrong paths, certificates
with the key of an issuer that are judged alike, which eight of more valid paths are kept), that is taken which
the command told, if it is one of them, and else the first.
"""

import collections
from typing import NamedTuple, Optional

import documents as doc
import folders
import reference as ref
import rsa
import sorts
import texts
import verdicts
import walks
from profiles import CA, ROUTER, TA
from refusals import Refusal
from verdicts import Fault, File

MOST = 4000                 # verdicts of a walk
KEPT = 8                    # valid paths to a certificate
APART = ('.crl', '.roa', '.mft', '.gbr', '.asa', '.tak', '.sig', '.spl')
ENDS = ('out_of_steps', 'too_deep', 'whole')
# the word of a file in the JSON, and in a line
WORDS = {'trust_anchor': 'trust anchor', 'accepted': 'accepted', 'rejected': 'rejected',
         'below_rejected': 'below a rejected CA', 'below_unseen': 'below an unjudged CA',
         'not_looked_at': 'not looked at', 'not_issued': 'not issued by a CA here',
         'issuer_not_ca': 'issuer isn\'t a CA', 'no_issuer': 'no issuer here', 'crl': 'CRL',
         'neither': 'neither certificate nor CRL'}
# and of the line that counts such files
COUNTS = {**{key: it[0].upper() + it[1:] for key, it in WORDS.items()},
          'trust_anchor': 'Trust anchors', 'crl': 'CRLs', 'neither': 'Other files'}
UNACCEPTED = ('rejected', 'below_rejected', 'below_unseen', 'not_looked_at', 'not_issued', 'issuer_not_ca',
              'no_issuer')


class Question(NamedTuple):
    files: list
    locators: list
    names: bool = True
    strict: bool = True
    now: tuple = (2026, 1, 1, 0, 0, 0)
    depth: int = 32
    steps: int = 10_000_000
    only: bool = False
    strict_exit: bool = False
    root: str = ''              # with what names begin below the directory that is named


class Verdict(NamedTuple):
    """On a certificate below a valid path of these places: as what it is judged, and what it holds or the
    faults of which one is told; and whether the key above signed it."""
    above: tuple
    kind: str
    accepted: Optional[verdicts.Accepted]
    faults: list
    is_child: bool


class Limit(NamedTuple):
    """A limit that was reached at a CA, by its word in the JSON; and how many steps of the walk are needed."""
    word: str
    steps: Optional[int] = None


class Part(NamedTuple):
    """What is found of a TAL: the places of the trust anchor and its copies, that which is told first, with
    the verdicts on places, the limits that the walk reached at them, one for each path, and how far it went; or,
    of none, what is wrong at the places with its key."""
    locator: File
    anchors: list
    verdicts: dict
    limits: dict
    ended: str
    wrong: dict


class Said(NamedTuple):
    """What is said of a file: the word, and what the word needs; of an accepted certificate the verdicts on the
    paths that are kept, the shown one first, and how many more accept it."""
    word: str
    verdicts: tuple = ()
    more: int = 0
    fault: Optional[Fault] = None
    issuer: Optional[int] = None
    limit: Optional[Limit] = None


class Row(NamedTuple):
    file: File
    left: int
    said: Said
    limit: Optional[Limit] = None


class Found(NamedTuple):
    """What is found; of each place among the files the first one with the same certificate, and of each file's
    name the first one that has it."""
    parts: list
    certs: list
    rows: list
    firsts: dict
    named: dict


# ---- trust anchors

def lists_some(tbs):
    return any(ref.is_set(it) and it for it in (tbs.v4, tbs.v6, tbs.asn))


def wrong_anchor(question, cert):
    """What is wrong of a certificate with a TAL's key as its trust anchor, or nothing."""
    if not lists_some(cert.tbs):
        return Fault('tal', 'NoResources', texts.fault('locator', 'NoResources'), 0)
    step = 'profile'
    try:
        ref.inspect(TA, question.strict, cert)
        step = 'verification'
        ref.verify(TA, cert, None, question.now, rsa.verifier)
    except Refusal as error:
        return Fault(step, error.name, verdicts.rule_of(step, error.name, cert), 0)
    if question.names and cert.tbs.issuer != cert.tbs.subject:
        return Fault('names', 'OtherName', verdicts.SELF_NAMED, 0)
    return None


def greatest(certs):
    """The places of the greatest of trust anchors: those with the latest notAfter, of these those with the
    latest notBefore, and of these those of which the greatest octets are signed."""
    def order(cert):
        return cert.tbs.not_after, cert.tbs.not_before, cert.signed.data
    most = max(map(order, certs.values()))
    return [place for place, it in certs.items() if order(it) == most]


# ---- the walk

def copies(its):
    """Of each place the first one with the same certificate, whatever follows it."""
    firsts = {}
    return {place: firsts.setdefault(cert.signed, place) for place, cert in its.certs}


def walk(its, anchor, question):
    """The verdicts on places, the limits reached at them, and how far the walk went: like that of walks.py, but
    of each place, and with what names a CA's key and isn't its child. Of copies the first is judged, and the
    verdict is that on all.

    With `base` + `factor` * n steps the CAs of a path have a share of n."""
    told, ends, firsts = collections.defaultdict(list), {'whole'}, copies(its)
    limits = collections.defaultdict(list)

    def tell(path, place, cert, is_child):
        kind, result, faults = its.faults(place, cert, path.result)
        held = result and (verdicts.Accepted(path.result, cert) if kind == ROUTER else verdicts.Accepted(result))
        told[place].append(Verdict(path.places, kind, held, faults, is_child))
        if sum(map(len, told.values())) > MOST:
            raise walks.TooMany
        return walks.Path((*path.places, place), result, path) if result and kind == CA else None

    def reach(path, end, limit):
        ends.add(end)
        limits[firsts[path.places[-1]]].append(limit)

    def below(path, share, base, factor):
        named = [(place, cert, its.is_child(cert, path.result)) for place, cert in its.below(path.result)
                 if firsts[place] == place]
        for place, cert, is_child in named:
            if not is_child:
                tell(path, place, cert, False)
        count = sum(is_child for _, _, is_child in named)
        if count and len(path.certs) > question.depth:
            reach(path, 'too_deep', Limit('depth'))
        elif count > share:
            need = base + factor * count
            reach(path, 'out_of_steps', Limit('steps', need if need < 1 << 64 else None))
        elif count:
            judged = [tell(path, place, cert, True) for place, cert, is_child in named if is_child]
            go_on(path, [it for it in judged if it], share - count, base + factor * count, factor)

    def go_on(path, cas, left, base, factor):
        above = {its.entity(it) for it in path.certs}
        for ca in cas:
            if its.entity(ca.certs[-1]) not in above:
                below(ca, left // len(cas), base, factor * len(cas))

    below(anchor, question.steps, 0, 1)
    return ({place: told[it] for place, it in firsts.items()}, {place: limits[it] for place, it in firsts.items()},
            next(it for it in ENDS if it in ends))


def firsts_of_keys(question):
    """Of each key the first TAL."""
    found = {}
    for file in question.locators:
        found.setdefault(ref.decode_locator(file.octets, question.strict).key, file)
    return found


def part_of(its, question, file, key, told):
    """What is found of a TAL, if this is told of it."""
    wrong, valid = {}, {}
    for place, cert in its.certs:
        if cert.tbs.key == key:
            fault = wrong_anchor(question, cert)
            if fault:
                wrong[place] = fault
            else:
                valid[place] = cert
    if not valid:
        return Part(file, [], {}, {}, 'whole', wrong)
    places = greatest(valid)
    places.sort(key=lambda it: question.files[it].name != told.get('trust_anchor'))
    anchor = walks.Path((places[0],), ref.verify(TA, valid[places[0]], None, question.now, rsa.verifier))
    return Part(file, places, *walk(its, anchor, question), {})


# ---- what the parts say together

def rank(part, place):
    """How much a part tells of a certificate: the least number tells most."""
    if not part.anchors:
        return 5
    if place in part.anchors:
        return 0
    some = part.verdicts.get(place)
    if not some:
        return 4 if part.ended == 'whole' else 3
    return 1 if any(it.accepted for it in some) else 2


def worst_end(parts):
    return next((it for it in ENDS if it in {part.ended for part in parts}), 'whole')


def best_rank(parts, place):
    return min((rank(it, place) for it in parts), default=5)


def wrong_at(parts, place):
    return next((it.wrong[place] for it in parts if place in it.wrong), None)


def is_looked_at(part, place):
    """Whether the walk looked below a CA: it reached a limit there at fewer paths than lead to it."""
    paths = sum(bool(it.accepted) and it.kind == CA for it in part.verdicts.get(place, []))
    return len(part.limits.get(place, [])) < paths + (place in part.anchors)


def limit_at(parts, place):
    """Of the limits that were reached at a CA the one that asks for least: the fewest steps, and else the depth."""
    limits = [it for part in parts for it in part.limits.get(place, [])]
    steps = [it for it in limits if it.steps is not None]
    return min(steps, default=min(limits, default=None))


def standing(parts, place):
    """How a certificate stands as an issuer: a CA at which a walk reached a limit on each path, one below which
    it looked, one that is rejected, one that is accepted and no CA, or neither."""
    if best_rank(parts, place) <= 1:
        if any(is_looked_at(it, place) for it in parts):
            return 1
        return 0 if limit_at(parts, place) else 3
    return 2 if best_rank(parts, place) == 2 or wrong_at(parts, place) else 4


def unseen(found, cert, told):
    """Why there is no verdict on a certificate: how that stands whose key it names."""
    key = cert.tbs.authority_key_identifier
    named = [place for place, it in found.certs if it.tbs.subject_key_identifier == key]
    if not named:
        return Said('no_issuer')
    best = min(standing(found.parts, it) for it in named)
    issuers = [it for it in named if standing(found.parts, it) == best]
    issuer = next((it for it in issuers if found.rows[it].file.name == told.get('issuer')), issuers[0])
    words = 'not_looked_at', 'not_issued', 'below_rejected', 'issuer_not_ca', 'below_unseen'
    return Said(words[best], issuer=issuer, limit=limit_at(found.parts, issuer) if best == 0 else None)


def names_at(found, places):
    return [found.rows[it].file.name for it in places]


def count_named(found, place, above):
    """How many certificates from the bottom up have the URI of the file of the one above, or of a copy of it."""
    certs = dict(found.certs)
    for count, issuer in enumerate(reversed(above)):
        named = found.named.get(certs[place].tbs.ca_issuer)
        if named is None or found.firsts[named] != found.firsts[issuer]:
            return count
        place = issuer
    return len(above)


def rank_of_path(found, place, above):
    """The path whose rank is least is shown."""
    return (-count_named(found, place, above), len(above), [found.rows[it].file.octets for it in above[1:]])


def kept(found, place, valid, told):
    """Those of the valid paths that are kept: all, or as many as can be, whose files' names are told. The named
    one is kept in any case."""
    if len(valid) <= KEPT:
        return valid
    names = [it.get('above') for it in told.get('paths', [])]
    some = [it for it in valid if names_at(found, it.above) in names]
    whole = [it for it in valid if count_named(found, place, it.above) == len(it.above)]
    if len(some) == KEPT and all(it in some for it in whole):
        return some
    return (whole + [it for it in valid if it not in whole])[:KEPT]


def accepted(found, some, place, told):
    """By the valid paths, in the order of their ranks."""
    valid = [it for it in some if it.accepted]
    its = sorted(kept(found, place, valid, told), key=lambda it: rank_of_path(found, place, it.above))
    return Said('accepted', tuple(its), len(valid) - len(its))


def rejected(some, cert, told):
    """By an error of the longest path. What isn't signed by the key that it names is told at any path."""
    longest = max(len(it.above) for it in some)
    faults = [(len(it.above), *fault) for it in some for fault in it.faults
              if len(it.above) == longest or not it.is_child]
    faults.sort(key=lambda it: -it[0])
    said = told.get('index'), told.get('step'), told.get('fault')
    index, step, name = said if said in faults else faults[0]
    return Said('rejected', fault=Fault(step, name, verdicts.rule_of(step, name, cert), index))


def said_of(found, place, cert, told):
    """What is said of a certificate, if this is told of it."""
    most = best_rank(found.parts, place)
    part = next((it for it in found.parts if rank(it, place) == most), None)
    if most == 0:
        return Said('trust_anchor')
    if most == 1:
        return accepted(found, part.verdicts[place], place, told)
    if most == 2:
        return rejected(part.verdicts[place], cert, told)
    wrong = wrong_at(found.parts, place)
    return Said('rejected', fault=wrong) if wrong else unseen(found, cert, told)


def row_of(file, cert):
    """A file, how many octets stand behind what it begins with, and what is said if it is no certificate."""
    begins = cert is not None or folders.read(ref.decode_crl, file.octets) is not None
    left = verdicts.behind(file.octets) if begins else 0
    return Row(file, left, Said('crl' if begins and not left else 'neither'))


def find(question, told):
    """What is found of the files, if this JSON is told of them all."""
    fault = verdicts.locator_fault(question)
    if fault:
        return fault
    its = walks.Walks([it.octets for it in question.files], rsa.verifier, question.names, question.strict,
                      question.now)
    its.lists = [ref.decode_crl(it.octets) for it in question.files if verdicts.is_list(it)]
    lines = told.get('files', [])
    lines += [{}] * (len(question.files) - len(lines))
    tals = {it['tal']: it for it in told.get('tals', [])}
    parts = [part_of(its, question, file, key, tals.get(file.name, {}))
             for key, file in firsts_of_keys(question).items()]
    certs = dict(its.certs)
    rows = [row_of(file, certs.get(place)) for place, file in enumerate(question.files)]
    named = {}
    for place, _ in its.certs:
        named.setdefault(b'rsync://' + question.files[place].name.removeprefix(question.root).encode(), place)
    found = Found(parts, its.certs, rows, copies(its), named)
    for place, cert in its.certs:
        rows[place] = rows[place]._replace(said=said_of(found, place, cert, lines[place]),
                                           limit=limit_at(parts, place))
    return found


def is_neither(file):
    return folders.read(ref.decode_cert, file.octets) is None and not verdicts.is_list(file)


def damage(question):
    """How many files have the name of a CRL and are none, and how many are others of which nothing is known."""
    others = [it for it in question.files if is_neither(it)]
    return (sum(it.name.endswith('.crl') for it in others),
            sum(not it.name.endswith(APART) and not sorts.is_meant_as_locator(it.octets) for it in others))


def without_crl(found):
    """The keys of the CAs of which no CRL can be asked: what is rejected since then names them."""
    faults = {place: it.said.fault for place, it in enumerate(found.rows) if it.said.fault}
    return {cert.tbs.authority_key_identifier for place, cert in found.certs
            if place in faults and faults[place].step == 'revocation' and faults[place].name != 'Revoked'}


def are_anchors(found):
    return all(it.said.word in ('trust_anchor', 'crl', 'neither') for it in found.rows)


def status_of(question, found):
    """0 if each certificate is the trust anchor or accepted, no limit was reached, and, if that is asked, no
    file is damaged and there is more than trust anchors."""
    if isinstance(found, Fault):
        return 1
    is_good = bool(found.parts) and all(it.anchors for it in found.parts)
    is_good &= worst_end(found.parts) == 'whole' and not any(it.said.word in UNACCEPTED for it in found.rows)
    if question.strict_exit:
        is_good &= damage(question) == (0, 0) and not are_anchors(found)
    return 0 if is_good else 1


# ---- what is said

def say_tals(answer, found):
    answer.array(('tals',))
    for number, part in enumerate(found.parts):
        its = 'tals', number
        name = doc.inner((*its, 'tal'), part.locator.name)
        if part.anchors:
            answer.head('TAL', name, ', trust anchor ',
                        doc.text((*its, 'trust_anchor'), found.rows[part.anchors[0]].file.name))
            answer.keep(doc.word((*its, 'ended'), '', part.ended))
        else:
            answer.head('TAL', name, ': no valid trust anchor (', doc.text((*its, 'fault'), 'NoAnchor'), ', ',
                        doc.text((*its, 'standard'), 'RFC 8630 3'), ')')


def say_accepted(answer, its, found, row):
    """With the files above it from the trust anchor down; for a program also what it holds, and all paths, if
    there are several."""
    shown, *others = row.said.verdicts
    answer.head(WORDS['accepted'], doc.inner((*its, 'file'), row.file.name), ', ',
                doc.word((*its, 'judged_as'), *verdicts.KINDS[shown.kind]), ', below ', *arrows(found, shown))
    keep_above(answer, its, found, shown)
    answer.aside(lambda: verdicts.say_held_by(answer, its, shown.accepted))
    if others:
        keep_above(answer, (*its, 'paths', 0), found, shown)
        answer.keep(doc.flag((*its, 'paths', 0, 'same_resources'), True))
    for number, it in enumerate(others, 1):
        path, is_same = (*its, 'paths', number), holds(it) == holds(shown)
        keep_above(answer, path, found, it)
        answer.keep(doc.flag((*path, 'same_resources'), is_same))
        answer.further('also below ', *arrows(found, it), *([] if is_same else [': other resources']))
    if row.said.more:
        answer.further('and ', doc.count((*its, 'more_paths'), row.said.more), ' more')


def arrows(found, verdict):
    return [piece for number, it in enumerate(names_at(found, verdict.above))
            for piece in (*([' > '] if number else []), doc.inner(None, it))]


def keep_above(answer, its, found, verdict):
    answer.keep(*(doc.text((*its, 'above', number), it) for number, it in enumerate(names_at(found, verdict.above))))


def holds(verdict):
    """What the certificate holds by a path, or the CA above a router's."""
    holder = verdict.accepted.holder
    return holder.v4, holder.v6, holder.asn


def say_rejected(answer, its, row):
    fault = row.said.fault
    answer.head(WORDS['rejected'], doc.inner((*its, 'file'), row.file.name), ': ',
                doc.text((*its, 'why'), fault.rule.says), ' (', doc.text((*its, 'fault'), fault.name), ', ',
                doc.text((*its, 'standard'), fault.rule.section), ')')
    answer.keep(doc.count((*its, 'index'), fault.index), doc.text((*its, 'step'), fault.step))


def limit_pieces(its, limit):
    """That a limit was reached below a CA, and what is needed to go on there."""
    said = doc.word((*its, 'limit'), f'limit of {limit.word} reached below it, ', limit.word)
    if limit.word == 'depth':
        return [said, 'a greater --depth is needed']
    if limit.steps is None:
        return [said, 'more than any --steps is needed']
    return [said, '--steps ', doc.count((*its, 'steps_needed'), limit.steps), ' is needed']


def say_row(answer, found, row):
    its, word = ('files', len(answer.data['files'])), row.said.word
    if word == 'accepted':
        say_accepted(answer, its, found, row)
    elif word == 'rejected':
        say_rejected(answer, its, row)
    elif row.said.issuer is None:
        last = doc.inner if word == 'no_issuer' else doc.text
        answer.head(WORDS[word], last((*its, 'file'), row.file.name))
    else:
        behind = limit_pieces(its, row.said.limit) if row.said.limit else []
        if word == 'below_rejected':
            behind = [doc.text((*its, 'issuer_fault'), found.rows[row.said.issuer].said.fault.name)]
        last = doc.inner if behind else doc.text
        answer.head(WORDS[word], doc.inner((*its, 'file'), row.file.name), ', issuer ',
                    last((*its, 'issuer'), found.rows[row.said.issuer].file.name),
                    *([': ', *behind] if behind else []))
    answer.keep(doc.word((*its, 'verdict'), '', word))
    if row.limit:
        answer.further(*limit_pieces(its, row.limit))
    if row.left:
        answer.further(doc.count((*its, 'bytes_after_end'), row.left),
                       f' byte{"" if row.left == 1 else "s"} after its end')


def say_counts(answer, found):
    words = collections.Counter(it.said.word for it in found.rows)
    answer.line('Certificates', doc.count(('counts', 'certificates'), len(found.certs)))
    for word, label in COUNTS.items():
        answer.line(label, doc.count(('counts', word), words[word]))
    answer.array(('errors',))
    errors = collections.Counter(it.said.fault.name for it in found.rows if it.said.fault)
    for number, (name, times) in enumerate(errors.items()):
        answer.line('Error', doc.text(('errors', number, 'fault'), name), ': ',
                    doc.count(('errors', number, 'count'), times))


def say_damage(answer, question, found):
    lists, others = damage(question)
    answer.line('Malformed CRLs', doc.count(('malformed_crls',), lists))
    answer.line('CAs without current CRL', doc.count(('cas_without_current_crl',), len(without_crl(found))))
    answer.line('Unknown files', doc.count(('unknown_files',), others))
    answer.line('Trust anchors only', doc.flag(('only_trust_anchors',), are_anchors(found)))


def say_end(answer, question, found):
    ended = worst_end(found.parts)
    said = {'whole': 'every certificate below the trust anchors',
            'too_deep': f'at most {question.depth} certificates down, more are below (--depth sets the limit)',
            'out_of_steps': f'not all, the limit of {question.steps} steps was reached (--steps sets the limit)'}
    answer.line('Searched', doc.word(('ended',), said[ended], ended))
    answer.line('Not checked', 'manifests, a withheld file isn\'t missed')
    if not question.names:
        answer.line('Not checked', 'name chaining (RFC 5280 6.1.3)')
    answer.line('Not checked', 'whether the RPKI uses the last keys')
    answer.keep(doc.flag(('names_checked',), question.names), doc.flag(('manifests_checked',), False),
                doc.flag(('last_keys_checked',), False))


def answer_of(question, found):
    """What is said of files of which this was found."""
    answer = doc.Answer()
    if isinstance(found, Fault):
        verdicts.say_unjudged(answer, found)
        verdicts.say_no_locators(answer, question)
        answer.line('Validation time', doc.time(('validation_time',), question.now))
        return answer
    say_tals(answer, found)
    answer.array(('files',))
    for row in found.rows:
        if row.said.word in UNACCEPTED or not question.only:
            say_row(answer, found, row)
    answer.line('Validation time', doc.time(('validation_time',), question.now))
    say_counts(answer, found)
    answer.array(('unread',))
    say_damage(answer, question, found)
    say_end(answer, question, found)
    return answer


def json_lines(answer):
    """A line for each file, and then one for the rest."""
    rest = {key: it for key, it in answer.data.items() if key != 'files'}
    return ''.join(map(doc.json_line, [*answer.data.get('files', []), rest]))
