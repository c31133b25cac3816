"""Random inputs of the line program: sound ones, and ones with a single fault.

Each case depends on its form, a seed and its own index alone.
"""

import random
from typing import NamedTuple

import faults
import random_paths as sound
import reference as ref

REVOKED, PATHS = 'revoked', 'paths'


class Case(NamedTuple):
    index: int
    label: str              # how the input was made
    data: bytes
    expected: object        # triple of faults.py, ACCEPTED or NOTHING


ACCEPTED = ('accepted',)

# ----------------------------------------------------- whole paths ---

def spoiled_path(rng, fault, longest=8):
    """A path that offers the fault its place, and what it expects."""
    while True:
        path = sound.random_path(rng, longest)
        expected = fault(rng, path)
        if expected is not None:
            return path, expected


def round_robin(table, index):
    """Each entry of a table in turn, in steps of 7 so that kinds mix."""
    names = list(table)
    assert len(names) % 7
    name = names[index * 7 % len(names)]
    return name, table[name]


def path_case(rng, index, longest):
    """Of twenty cases eight are sound, seven by the tables, five wild."""
    turn, place = index // 20, index % 20
    if place < 8:
        path = sound.random_path(rng, longest)
        return 'valid', sound.program_input(rng, path), ACCEPTED
    if place < 12:
        name, fault = round_robin(faults.PROFILE_FAULTS, turn * 4 + place - 8)
    elif place < 15:
        name, spoil = round_robin(faults.DRAFT_FAULTS, turn * 3 + place - 12)
        fault = faults.draft_fault(spoil)
    elif place < 19:
        name, fault = rng.choice([
            ('tree', faults.tree_fault), ('tree', faults.tree_fault),
            ('octets', faults.octet_fault), ('outer', faults.outer_fault),
            ('order', faults.order_fault)])
    else:
        return text_case(rng, turn, sound.program_input(
            rng, sound.random_path(rng, longest)))
    path, expected = spoiled_path(rng, fault, longest)
    return name, sound.program_input(rng, path), expected


def text_case(rng, turn, text):
    if turn % 50 == 7:
        return 'text: too long', text + b'0' * (1 << 24), faults.NOTHING
    name, fault = round_robin(faults.TEXT_FAULTS, turn)
    return f'text: {name}', fault(rng, text), faults.NOTHING


# ------------------------------------- lists of revoked certificates ---

def random_entry(rng):
    year = rng.choice([0, 1949, 1950, 2019, 2049, 2050, 9999])
    time = sound.random_time(rng, [year])
    serial = rng.choice([rng.randrange(20), sound.random_serial(rng)])
    encoded = sound.encoded_time(rng, time)
    return serial, ref.enc(0x30, ref.put_unsigned(serial), encoded)


def random_list(rng):
    """Octets of a list, its serials, and the number asked for."""
    entries = [random_entry(rng) for _ in range(rng.choice(
        [0, 1, 2, 3, 7, 8, 40]))]
    vector = b''.join(octets for _, octets in entries)
    octets = ref.enc(0x30, vector) if vector or sound.chance(rng, 0.5) else b''
    serials = [serial for serial, _ in entries]
    if serials and sound.chance(rng, 0.6):
        return octets, serials, rng.choice(serials)
    return octets, serials, rng.choice([rng.randrange(20),
                                        sound.random_serial(rng)])


def serial_word(rng, serial):
    """Big-endian, perhaps with leading zeros; zero may be `-`."""
    octets = serial.to_bytes((serial.bit_length() + 7) // 8, 'big')
    if sound.chance(rng, 0.2):
        octets = bytes(rng.choice([1, 2, 20, 200])) + octets
    return sound.hex_text(rng, octets)


def revoked_line(rng, octets, word):
    line = f'revoked {sound.hex_text(rng, octets)} {word}'.encode('ascii')
    return line if sound.chance(rng, 0.2) else line + b'\n'


def bad_entry_lists():
    time = ref.enc(0x17, b'190501000000Z')
    serial, entry = b'\2\1\x0c', ref.enc(0x30, b'\2\1\x0c', time)
    table = faults.bad_header_values()
    vectors = [ref.enc(0x30, bad, time) for bad in table[1]]
    vectors += [ref.enc(0x30, serial, bad) for bad in faults.bad_times(b'') if bad]
    vectors += [ref.enc(0x30), ref.enc(0x30, serial), ref.enc(0x31, serial, time),
             ref.enc(0x30, serial, time, ref.enc(0x30)), serial + time]
    lists = [ref.enc(0x30, entry, vector) for vector in vectors]
    return lists + [entry + b'\0', b'\x31\0', b'\5\0', entry, b'\x30\0\x30\0',
                    b'\x30', b'\x30\x80\0\0', b'\x30\x81\0', b'\x1f\0',
                    ref.enc(0x30, entry) + entry]


LIST_FAULTS = {
    'tree': lambda rng, octets: changed_tree(rng, octets),
    'octets': lambda rng, octets: faults.change_octets(rng, octets),
    'listed': lambda rng, octets: rng.choice(bad_entry_lists()),
    'octets after': lambda rng, octets: octets + b'\x30\0',
}


def changed_tree(rng, octets):
    nodes = faults.forest(octets) or [faults.random_node(rng)]
    faults.change_tree(rng, nodes)
    return b''.join(node.octets() for node in nodes)


def longest_input():
    """Exactly as many octets as a run may read."""
    head = b'revoked - '
    return head + b'0C'.rjust(ref.INPUT_LIMIT - len(head), b'0')


def revoked_case(rng, index):
    """Every ten cases: five sound, three damaged lists, two damaged lines."""
    octets, serials, serial = random_list(rng)
    turn, place = index // 10, index % 10
    word = serial_word(rng, serial)
    if place < 5:
        answer = ('yes',) if serial in serials else ('no',)
        return 'valid', revoked_line(rng, octets, word), answer
    if place < 8:
        name, fault = round_robin(LIST_FAULTS, turn * 3 + place - 5)
        return name, revoked_line(rng, fault(rng, octets), word), faults.NOTHING
    if place == 8 and turn % 5 == 0:
        line = revoked_line(rng, octets, '01' + '00' * 20)
        return 'serial too large', line, ('bad input 1',)
    if place == 8 and turn % 50 == 8:
        return 'longest input', longest_input(), ('no',)
    return text_case(rng, turn, revoked_line(rng, octets, word))


def make_case(index, form, seed, longest=8):
    rng = random.Random(f'{form} {seed} {index}')
    made = (revoked_case(rng, index) if form == REVOKED
            else path_case(rng, index, longest))
    return Case(index, *made)
