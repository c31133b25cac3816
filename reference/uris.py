"""rsync and https URIs (RFC 3986, RFC 5781)."""


def uri_parts(text, scheme):
    """The authority and what follows it, None where there is no authority."""
    if any(not 0x21 <= octet <= 0x7E for octet in text):
        return None
    if text[:len(scheme)].lower() != scheme:
        return None
    authority, slash, tail = text[len(scheme):].partition(b'/')
    return (authority, slash + tail) if authority else None


def rsync_parts(text):
    """Authority, module, and the path or None where it is absent (RFC 5781)."""
    parts = uri_parts(text, b'rsync://')
    if parts is None:
        return None
    module, slash, path = parts[1][1:].partition(b'/')
    if not module or any(s in (b'.', b'..') for s in path.split(b'/')):
        return None
    return parts[0], module, path if slash else None


def is_rsync(text):
    return rsync_parts(text) is not None


def is_https(text):
    return uri_parts(text, b'https://') is not None


def uri_equal(one, other):
    """Whether two URIs of one scheme are equal: authority without case."""
    scheme = b'rsync://' if is_rsync(one) else b'https://'
    first, second = uri_parts(one, scheme), uri_parts(other, scheme)
    return (first[0].lower(), first[1]) == (second[0].lower(), second[1])


def rsync_parent(text):
    path = rsync_parts(text)[2]
    if not path:
        return None
    before = text[:len(text) - len(path)]
    path = path.removesuffix(b'/')
    return before + path[:path.rfind(b'/') + 1]


def rsync_identical(one, other):
    return uri_equal(one.removesuffix(b'/'), other.removesuffix(b'/'))


def parent_is(text, other):
    parent = rsync_parent(text)
    return parent is not None and rsync_identical(parent, other)
