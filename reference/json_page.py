"""The page rpki-json(5), docs/rpki-json.5: which keys it has for each object of an answer, with their types."""

import functools
import re
from pathlib import Path

PAGE = Path(__file__).resolve().parent.parent / 'docs' / 'rpki-json.5'
TYPES = {'string': str, 'number': int, 'boolean': bool, 'object': dict, 'array': list}


@functools.cache
def tables():
    """The types of the keys of each table, by the title of its section."""
    found, title = {}, None
    for line in PAGE.read_text().splitlines():
        if line.startswith(('.Sh ', '.Ss ')):
            title = line[4:]
        row = re.match(r'\\fI(\w+)\\fR\t(\w+)\t', line)
        if row:
            found.setdefault(title, {})[row[1]] = row[2]
    return found


def unknown(data, *titles):
    """What is wrong of an object whose keys should be in the tables with these titles."""
    types = {key: kind for title in titles for key, kind in tables()[title].items()}
    for key, value in data.items():
        kind = types.get(key)
        if kind is None:
            yield f'rpki-json(5) has no {key} for {titles}'
        elif type(value) is not TYPES[kind]:
            yield f'rpki-json(5) says that {key} is a {kind}, and it is {value!r}'


def of_resources(items):
    for item in items:
        yield from unknown(item, 'Resources')


def of_key(data):
    yield from unknown(data, 'A key')


def of_accepted(data):
    yield from of_resources(data.get('holds', []))
    yield from of_resources(data.get('issuer_holds', []))
    if 'router' in data:
        yield from of_resources(data['router']['subordinate_resources'])
        yield from of_key(data['router']['key'])


def of_validate(data):
    its = dict(data)
    rejected = its.pop('rejected', None)
    yield from unknown(its, 'Every path', 'An accepted path' if data['accepted'] else 'Every path')
    if rejected is not None:
        yield from unknown(rejected, 'A rejected path')
    yield from of_accepted(data)


def of_show(data):
    """An object for a file, or an array of these."""
    for it in data if isinstance(data, list) else [data]:
        kind = {'crl': 'A CRL', 'tal': 'A TAL', None: 'Any other file'}.get(it.get('type'), 'A certificate')
        yield from unknown(it, 'Every file', kind)
        yield from of_resources(it.get('subordinate_resources', []))
        yield from of_key(it.get('key', {}))
        for fact in it.get('further', []):
            yield from unknown({re.sub('^further_.*', 'further_aia', key): value for key, value in fact.items()},
                               'What is there besides')


def of_tree(data):
    if 'rejected' in data:
        yield from unknown(data, 'If a file is no TAL')
        return
    yield from unknown(data, 'Every tree')
    for it in data['tals']:
        yield from unknown(it, 'A TAL of a tree')
    for it in data['errors']:
        yield from unknown(it, 'An error of a tree')
    counts = tables()['The counts of a tree']
    if not all(type(it) is int for it in data['counts'].values()) or not counts.keys() <= data['counts'].keys():
        yield f'rpki-json(5) has other counts than {data["counts"]}'
    for it in data['files']:
        yield from unknown(it, 'A file of a tree', 'A rejected path', 'An accepted path')
        yield from of_accepted(it)
        for path in it.get('paths', []):
            yield from unknown(path, 'A path of a tree')


def wrongs(command, data):
    """What rpki-json(5) doesn't say of an answer."""
    return list({'show': of_show, 'validate': of_validate, 'tree': of_tree}[command](data))
