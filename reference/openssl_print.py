"""What the `openssl` command prints of certificates and lists, as fields.

The printed fields and those that the reference read are dictionaries of the
same names. What the command doesn't print is left out: the resources of RFC
8360, and an extension that it can't parse.
"""

import ipaddress
import re
import subprocess

import reference as ref

MONTHS = ('Jan', 'Feb', 'Mar', 'Apr', 'May', 'Jun', 'Jul', 'Aug', 'Sep', 'Oct',
          'Nov', 'Dec')
OPTIONS = ('-inform', 'DER', '-noout', '-text', '-nameopt', 'oneline,-esc_msb')
UNKNOWN = ('-certopt', 'ext_error')     # no bare octets of what it can't print


def openssl(command, octets, *more):
    """The lines that a command prints, None where it refuses."""
    done = subprocess.run(['openssl', command, *OPTIONS, *more], input=octets,
                          capture_output=True)
    if done.returncode:
        return None
    return done.stdout.decode('utf-8', 'replace').split('\n')


def behind(lines, label):
    """What stands behind a label, on its line or the next; None if absent."""
    for place, line in enumerate(lines):
        if line.strip().startswith(label):
            rest = line.strip()[len(label):].strip()
            return rest or lines[place + 1].strip()
    return None


def moment(text):
    """A moment such as `May  1 00:00:00 2019 GMT`."""
    found = re.match(r'(\w{3}) +(\d+) (\d+):(\d+):(\d+) (-?\d+) GMT', text)
    if found is None:
        return text
    month, day, hour, minute, second, year = found.groups()
    return (int(year), MONTHS.index(month) + 1, int(day), int(hour),
            int(minute), int(second))


def serial(text):
    """A number such as `18 (0x12)` or `01:23:45`."""
    if '(' in text:
        return int(text.split(' ')[0])
    return int(text.replace(':', ''), 16)


def hexed(text):
    return bytes.fromhex(text.removeprefix('keyid:').replace(':', ''))


def extensions(lines, heading):
    """The lines of each extension, by the name that stands above them."""
    places = [i for i, line in enumerate(lines) if line.strip() == heading]
    found, name = {}, None
    if not places:
        return found
    depth = len(lines[places[0]]) - len(lines[places[0]].lstrip())
    for line in lines[places[0] + 1:]:
        indent = len(line) - len(line.lstrip())
        if line.strip() and indent <= depth:
            break
        if indent == depth + 4 and ':' in line:
            name = line.strip().split(':')[0]
            found[name] = []
        elif line.strip():
            found[name].append(line.strip())
    return found


def uris(lines):
    return [line.split('URI:')[1].encode() for line in lines if 'URI:' in line]


METHODS = {'CA Repository': 'ca_repository', 'RPKI Manifest': 'rpki_manifest',
           'Signed Object': 'signed_object', 'RPKI Notify': 'rpki_notify',
           '1.3.6.1.5.5.7.48.10': 'rpki_manifest',
           '1.3.6.1.5.5.7.48.11': 'signed_object',
           '1.3.6.1.5.5.7.48.13': 'rpki_notify'}
USAGES = {'Certificate Sign, CRL Sign': 'Ca', 'Digital Signature': 'Ee'}
POLICIES = {'ipAddr-asNumber': ref.REFUSE, 'ipAddr-asNumberv2': ref.TRIM,
            '1.3.6.1.5.5.7.14.2': ref.REFUSE, '1.3.6.1.5.5.7.14.3': ref.TRIM}


def address_range(text):
    """A prefix or a range, as a block of 128 bits."""
    if '-' in text:
        low, high = (ipaddress.ip_address(end) for end in text.split('-'))
    else:
        network = ipaddress.ip_network(text, strict=False)
        low, high = network[0], network[-1]
    shift = 96 if low.version == 4 else 0
    return int(low) << shift, int(high) << shift | (1 << shift) - 1


def number_range(text):
    low, _, high = text.partition('-')
    return int(low), int(high or low)


LABELS = ('IPv4', 'IPv6', 'Autonomous System', 'Routing Domain')


def listed(lines, label, block):
    """The resources below a label, MISSING where it is absent."""
    for place, line in enumerate(lines):
        if line.startswith(label):
            vectors = [line[len(label):].strip()]
            for vector in lines[place + 1:]:
                if vector.startswith(LABELS):
                    break
                vectors.append(vector)
            vectors = [vector for vector in vectors if vector]
            if vectors == ['inherit']:
                return ref.INHERIT
            return ref.blocks([block(vector) for vector in vectors])
    return ref.MISSING


def resources(found):
    """The resources of RFC 3779; those of RFC 8360 are not printed."""
    fields = {}
    if 'sbgp-ipAddrBlockv2' not in found:
        lines = found.get('sbgp-ipAddrBlock', [])
        fields['v4'] = listed(lines, 'IPv4:', address_range)
        fields['v6'] = listed(lines, 'IPv6:', address_range)
    if 'sbgp-autonomousSysNumv2' not in found:
        lines = found.get('sbgp-autonomousSysNum', [])
        fields['asn'] = listed(lines, 'Autonomous System Numbers:',
                               number_range)
    return fields


def key_identifiers(found):
    def key_id(name):
        return hexed(found[name][0]) if name in found else None
    return {'subject_key_identifier': key_id('X509v3 Subject Key Identifier'),
            'authority_key_identifier':
                key_id('X509v3 Authority Key Identifier')}


def uses(found):
    basic = found.get('X509v3 Basic Constraints')
    usage = found.get('X509v3 Key Usage', [''])[0]
    policy = found.get('X509v3 Certificate Policies', [''])[0]
    policy = policy.rpartition(': ')[2]
    return {'basic_ca': None if basic is None else basic[0] == 'CA:TRUE',
            'key_usage': USAGES.get(usage, usage),
            'overclaim': POLICIES.get(policy, policy)}


def first_of(found, scheme):
    """The one URI of a scheme, None where there is none."""
    return next((u for u in found if u.lower().startswith(scheme)), None)


def places(found):
    fields = dict.fromkeys(METHODS.values())
    for line in found.get('Subject Information Access', []):
        method = METHODS.get(line.split(' - ')[0])
        if method is not None and fields[method] is None:
            fields[method] = uris([line])[0]
    points = uris(found.get('X509v3 CRL Distribution Points', []))
    issuers = uris(found.get('Authority Information Access', []))
    return fields | {'crl_uri': first_of(points, b'rsync:'),
                     'ca_issuer': first_of(issuers, b'rsync:')}


UNPRINTED = ('<Parse Error>', '<Not Supported>')


def printed_certificate(octets):
    """The fields that the command prints, None where it refuses."""
    lines = openssl('x509', octets, *UNKNOWN)
    if lines is None:
        return None
    found = extensions(lines, 'X509v3 extensions:')
    fields = {'serial': serial(behind(lines, 'Serial Number:')),
              'issuer': behind(lines, 'Issuer:'),
              'subject': behind(lines, 'Subject:'),
              'not_before': moment(behind(lines, 'Not Before:')),
              'not_after': moment(behind(lines, 'Not After :')),
              **key_identifiers(found), **uses(found), **places(found),
              **resources(found)}
    return {name: it for name, it in fields.items() if it not in UNPRINTED}


def printed_list(octets):
    lines = openssl('crl', octets)
    if lines is None:
        return None
    found = extensions(lines, 'CRL extensions:')
    entries, number = [], None
    for line in map(str.strip, lines):
        if line.startswith('Serial Number:'):
            number = int(line.split(': ')[1], 16)
        if line.startswith('Revocation Date:'):
            entries.append((number, moment(line.split(': ', 1)[1])))
    numbers = found.get('X509v3 CRL Number', ['-1'])[0]
    return {'issuer': behind(lines, 'Issuer:'),
            'this_update': moment(behind(lines, 'Last Update:')),
            'next_update': moment(behind(lines, 'Next Update:')),
            'authority_key_identifier':
                key_identifiers(found)['authority_key_identifier'],
            'crl_number': int(numbers, 0), 'entries': entries}


# ------------------------------------------------- what the reference has ---

NAMES = {ref.OID_COMMON_NAME: 'CN', ref.OID_SERIAL_NUMBER: 'serialNumber'}


def name_text(name):
    """A name as the command shows it, None where it has other attributes."""
    sets, vectors = ref.Cursor(name).take_sequence(), []
    while not sets.is_empty():
        vector, parts = sets.take_value(0x31), []
        while not vector.is_empty():
            attribute = vector.take_sequence()
            label = NAMES.get(ref.take_oid(attribute))
            if label is None or attribute.peek() not in (0x13, 0x0C):
                return None
            text = attribute.take_value(attribute.peek()).rest().decode()
            parts.append(f'{label} = {text}')
        vectors.append(' + '.join(parts))
    return ', '.join(vectors)


def known_certificate(f):
    fields = {name: getattr(f, name) for name in (
        'serial', 'not_before', 'not_after', 'subject_key_identifier',
        'authority_key_identifier', 'basic_ca', 'key_usage', 'overclaim',
        'crl_uri', 'ca_issuer', 'ca_repository', 'rpki_manifest',
        'signed_object', 'rpki_notify', 'v4', 'v6', 'asn')}
    names = {'issuer': name_text(f.issuer), 'subject': name_text(f.subject)}
    return fields | {k: v for k, v in names.items() if v is not None}


def known_list(crl):
    f = crl.tbs
    fields = {'this_update': f.this_update, 'next_update': f.next_update,
              'authority_key_identifier': f.authority_key_identifier,
              'crl_number': f.crl_number,
              'entries': [(e.serial, e.date) for e in crl.entries()]}
    issuer = name_text(f.issuer)
    return fields if issuer is None else fields | {'issuer': issuer}


def differences(known, found):
    """How many fields both have, and those that differ."""
    common = [name for name in known if name in found]
    return len(common), [(name, known[name], found[name]) for name in common
                         if known[name] != found[name]]
