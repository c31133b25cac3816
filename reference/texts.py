"""The sentences of faults, sorts of files and notes, and the sections that they name, out of the tables
in the definitions: what a person reads of them is written there once."""

import functools
import re
from pathlib import Path
from typing import NamedTuple, Optional

CRATES = Path(__file__).resolve().parent.parent / 'crates'
STRING = r'"([^"]*)"'
STEPS = {'reading': 'reading', 'profile': 'inspection', 'verification': 'verification',
         'revocation': 'revocation', 'names': 'path', 'locator': 'path', 'tal': 'locator'}


class Rule(NamedTuple):
    says: str
    section: str


class Sort(NamedTuple):
    name: str
    advice: str
    rule: Rule


class Reading(NamedTuple):
    """A fault of reading as it is named in a text: its name, and the part or the identifier of which it is."""
    name: str
    of: Optional[str] = None


def table(place):
    return (CRATES / place).read_text()


@functools.cache
def faults():
    """The rule of each fault, by its table and its name."""
    found = {}
    for kind, entries in re.findall(r'^(\w+)_faults =\n(.*?)\[\]$', table('rpki_files/specs/FaultTable.antt'),
                                    re.M | re.S):
        for name, tail in re.findall(r'fault \d+ ' + STRING + r'((?:\s+"[^"]*")+)', entries):
            *_, says, section = re.findall(STRING, tail)
            found[kind, name] = Rule(says, section)
    return found


@functools.cache
def parts():
    """The section of each part of a certificate."""
    entries = table('rpki_files/specs/FaultTable.antt').split('part_table =')[1].split('[]')[0]
    return dict(re.findall(r'\bsection_part ' + STRING + r'\s+' + STRING, entries))


@functools.cache
def reading_texts():
    """The faults of reading by their texts, but for those that name an identifier, which follows theirs."""
    entries = table('rpki_files/specs/FaultTable.antt').split('reading_faults =\n')[1].split('[]')[0]
    texts = [(name, text, None) for name, text in re.findall(r'^    fault \d+ ' + STRING + ' ' + STRING, entries, re.M)]
    texts += [(name, f'{before}{part}{behind}', part) for part in parts() for name, before, behind in
              re.findall(r'part_fault \d+ ' + ' '.join([STRING] * 3), entries)]
    return {text: Reading(name, part) for name, text, part in texts}


@functools.cache
def expected():
    """What is expected of each part at which reading may stop: of some there are two texts, by the name of the
    part in the definition."""
    fields, kinds = (table(f'rpki_files/specs/{it}.antt') for it in ('PartTexts', 'KnownKinds'))
    found = {}
    for part, name, wanted in re.findall(r'^(?:field_text field|part_description part)\.(\w+) =\s+part_words ' +
                                         STRING + r'\s+' + STRING, fields, re.M):
        found.setdefault(name, {})[part] = wanted
    names = dict(re.findall(r'^kind_name known\.(\w+) = codes ' + STRING, kinds, re.M))
    for kind, wanted in re.findall(r'^kind_wanted known\.(\w+) =\s+codes ' + STRING, kinds, re.M):
        found.setdefault(names[kind], {})[kind] = wanted
    return found


@functools.cache
def sorts():
    found = re.findall(r'^sort_description sort\.(\w+) =\n\s+described ' + r'\s+'.join([STRING] * 4),
                       table('rpki_files/specs/SortTexts.antt'), re.M)
    return {name: Sort(called, advice, Rule(says, section)) for name, called, says, section, advice in found}


@functools.cache
def notes():
    """The rule of each note."""
    lines = table('rpki_text/specs/NoteTexts.antt')

    def each(kind):
        return dict(re.findall(rf'^note_{kind} note\.(\w+) =\s+codes ' + STRING, lines, re.M))
    says, sections = each('text'), each('section')
    return {name: Rule(says[name], sections[name]) for name in says}


def fault(step, name):
    return faults()[STEPS[step], name]
