"""The messages of a log, written as bytes (document 01, "Pages of the log"). The other tools here build their pages from these."""


def le(n, width):
    return n.to_bytes(width, 'little')


def s(text):
    return le(len(text), 2) + text


def message(kind, path, payload):
    return kind + le(4 + len(payload), 2) + le(path, 4) + payload


def create(path, name, cvers=0, parent=0, perm=420, uid=b'a', gid=b'a'):
    return message(b'c', parent, le(perm, 4) + le(path, 4) + le(100, 4) + le(cvers, 4) + s(name) + s(uid) + s(gid))


def remove(path, muid=b'a', spare=b''):
    return message(b'r', path, le(300, 4) + s(muid) + spare)


def truncate(path, cvers, muid=b'a'):
    return message(b't', path, le(400, 4) + le(cvers, 4) + s(muid))


def write(path, offset, count, address, cvers=0, data=b''):
    return message(b'w', path, le(offset, 4) + le(count, 2) + le(200, 4) + le(cvers, 4) + s(b'') + le(address, 4) + data)


def wstat(path, name, perm=0xffffffff, uid=b'', gid=b'', mtime=0xffffffff, muid=b''):
    return message(b'W', path, s(name) + le(perm, 4) + s(uid) + s(gid) + le(mtime, 4) + s(muid))


def embedded(at, data, path, offset=0, cvers=0):
    """A write of bytes that stand in the log, the message at address `at`: its data begins 27 bytes on."""
    return write(path, offset, len(data), 0x80000000 | (at + 27), cvers, data)


def pages_of(messages, size):
    """The messages on pages, each ended by `e` where there is room."""
    pages, page = [], b''
    for m in messages:
        if size < len(page) + len(m):
            pages.append(page)
            page = b''
        page += m
    pages.append(page)
    return [p + b'e' if len(p) < size else p for p in pages]
