"""What is held, as the command's JSON has it: ranges of IPv4 and IPv6 addresses and of AS numbers."""

import ipaddress


def ends_of(item):
    """The word of an item of `holds`, and its two ends as numbers."""
    (word, value), = item.items()
    if word == 'asid':
        return 2, (value, value)
    if word == 'asrange':
        return 2, (value['min'], value['max'])
    if word == 'ip_prefix':
        network = ipaddress.ip_network(value)
        return network.version // 6, (int(network[0]), int(network[-1]))
    low, high = (ipaddress.ip_address(value[end]) for end in ('min', 'max'))
    return low.version // 6, (int(low), int(high))


def ranges_of(holds):
    """The ranges of the three kinds, in their order."""
    found = ([], [], [])
    for item in holds:
        kind, ends = ends_of(item)
        found[kind].append(ends)
    return tuple(map(tuple, found))


def ranges_held(result):
    """The same of what the reference answers."""
    four = tuple((low >> 96, high >> 96) for low, high in result.v4)
    return four, tuple(map(tuple, result.v6)), tuple(map(tuple, result.asn))
