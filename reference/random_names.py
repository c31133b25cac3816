"""Random paths whose names chain, and what breaks their names.

A change of a name is a function of a `random.Random` and a name's octets that
gives other octets; one of a path gives the drafts anew, or None where the path
offers no place for it.
"""

import random_paths as sound
import reference as ref

chance = sound.chance


def parts_of(name):
    """The sets of a name: pairs of identifier and written value."""
    sets, found = ref.Cursor(name).take_sequence(), []
    while not sets.is_empty():
        vector, part = sets.take_value(0x31), []
        while not vector.is_empty():
            attribute = vector.take_sequence()
            part.append((ref.take_oid(attribute), attribute.rest()))
        found.append(part)
    return found


def with_value(rng, name, change):
    """The name with one value's identifier octet and characters changed."""
    parts = parts_of(name)
    part = rng.choice(parts)
    place = rng.randrange(len(part))
    identifier, value = part[place]
    tag, start, end = ref.Cursor(value).head()
    tag, characters = change(tag, value[start:end])
    part[place] = identifier, ref.enc(tag, characters)
    return ref.put_name(parts)


def with_case(rng, name):
    return with_value(rng, name, lambda tag, text: (tag, text.swapcase()))


def with_space(rng, name):
    at = rng.choice([0, None])
    return with_value(rng, name, lambda tag, text: (
        tag, b' ' + text if at == 0 else text + b' '))


def with_other_type(rng, name):
    return with_value(rng, name, lambda tag, text: (
        {0x13: 0x0C}.get(tag, 0x13), text))


def with_cut(rng, name):
    return with_value(rng, name, lambda tag, text: (tag, text[:-1]))


def with_other_order(_rng, name):
    return ref.put_name([part[::-1] for part in parts_of(name)[::-1]])


def with_part_less(_rng, name):
    return ref.put_name(parts_of(name)[:-1])


def with_part_more(_rng, name):
    value = ref.enc(0x13, b'1')
    return ref.put_name(parts_of(name) + [[(ref.OID_SERIAL_NUMBER, value)]])


CHANGES = {
    'a name in another case': with_case, 'a space more': with_space,
    'another type of string': with_other_type, 'a cut name': with_cut,
    'a part less': with_part_less, 'a part more': with_part_more,
    'another order': with_other_order,
}


# ---- paths

def renamed(rng, path, index, **names):
    path.drafts[index] = sound.encoded_anew(rng, path.drafts[index], path.depth,
                                            **names)


def chained(rng, longest=4):
    """A path whose names chain."""
    path = sound.random_path(rng, longest)
    above = path.drafts[0].f.subject
    for index, draft in enumerate(path.drafts):
        renamed(rng, path, index, issuer=above)
        above = draft.f.subject
    return path


def any_place(rng, path):
    """A member's place, mostly below the anchor."""
    return max(rng.randrange(len(path.drafts)) for _ in range(3))


def change_name(change):
    def spoil(rng, path):
        index = any_place(rng, path)
        field = rng.choice(['issuer', 'subject'])
        name = getattr(path.drafts[index].f, field)
        renamed(rng, path, index, **{field: change(rng, name)})
        return path
    return spoil


def exchange_own(rng, path):
    """A member's issuer and its subject."""
    index = any_place(rng, path)
    f = path.drafts[index].f
    renamed(rng, path, index, issuer=f.subject, subject=f.issuer)
    return path


def exchange_two(rng, path):
    """A name of two members."""
    if len(path.drafts) < 2:
        return None
    one, other = rng.sample(range(len(path.drafts)), 2)
    field = rng.choice(['issuer', 'subject'])
    names = [getattr(path.drafts[i].f, field) for i in (one, other)]
    renamed(rng, path, one, **{field: names[1]})
    renamed(rng, path, other, **{field: names[0]})
    return path


def name_self(rng, path):
    """A member's issuer is its own subject."""
    index = any_place(rng, path)
    renamed(rng, path, index, issuer=path.drafts[index].f.subject)
    return path


def name_anchor(rng, path):
    """A member's issuer is the anchor, wherever it stands."""
    index = any_place(rng, path)
    renamed(rng, path, index, issuer=path.drafts[0].f.subject)
    return path


def leave_out(rng, path):
    if len(path.drafts) < 3:
        return None
    del path.drafts[rng.randrange(1, len(path.drafts) - 1)]
    return path


SPOILED = {
    **{label: change_name(change) for label, change in CHANGES.items()},
    'a member\'s names exchanged': exchange_own,
    'names of two exchanged': exchange_two, 'named as itself': name_self,
    'named below the anchor': name_anchor, 'a member left out': leave_out,
}


def random_names(rng, longest=4):
    """A label and a path; the names of about a third chain."""
    path = chained(rng, longest)
    if chance(rng, 0.25):
        return 'names that chain', path
    label = rng.choice(list(SPOILED))
    spoiled = SPOILED[label](rng, path)
    return random_names(rng, longest) if spoiled is None else (label, spoiled)
