#!/usr/bin/env python3
"""room-model.py < dump
room-model.py --all < dumps, each ended by a line Z (the answer to each is ended so too)

What the program `room` should write of a dump, worked out in plain Python from document 01 alone: nothing here calls or copies the
proved code, so that the two can be compared. crates/room/stdout is what this prints of crates/room/stdin."""
import re
import sys

FREE, BOOT, LOG, DATA = 0xff, 0x01, 0x06, 0x18
ONES = 0xffffffff


class Refused(Exception):
    """A refusal: its number and place."""


def u(part):
    return int.from_bytes(part, 'little')


# ---- a dump

def number(digits, line):
    n = int(digits)
    if n >= 1 << 64:
        raise Refused(15, line)
    return n


def fields(lines, i, form):
    """The fields of line i, counted from 0, which has to have the form."""
    m = re.fullmatch(form, lines[i]) if i < len(lines) else None
    if not m:
        raise Refused(15, i + 1)
    return m.groups()


class Image:
    def __init__(self, text):
        lines = text.split(b'\n')
        if lines[-1] == b'':
            lines.pop()
        num, tab = rb'([0-9]{1,20})', rb'\t'
        self.size, self.pages, self.blocks = (
            number(f, 1) for f in fields(lines, 0, b'G' + tab + num + tab + num + tab + num))
        if self.size not in (256, 512, 1024, 2048) or self.pages not in (4, 8, 16, 32) or not 1 <= self.blocks <= 1024:
            raise Refused(1, 0)
        self.block_size = self.size * self.pages
        if self.blocks * self.block_size > 32768:
            raise Refused(15, 1)
        self.labels = []
        for i in range(1, self.blocks + 1):
            tag, path = fields(lines, i, b'B' + tab + rb'([0-9a-fA-F]{2})' + tab + num)
            self.labels.append((int(tag, 16), number(path, i + 1)))
        self.contents = bytearray(b'\xff' * (self.blocks * self.block_size))
        last = -1
        for i in range(self.blocks + 1, len(lines)):
            block, page, hexes = fields(lines, i, b'P' + tab + num + tab + num + tab + rb'((?:[0-9a-fA-F]{2})+)')
            block, page, given = number(block, i + 1), number(page, i + 1), bytes.fromhex(hexes.decode())
            place = block * self.pages + page
            if block >= self.blocks or page >= self.pages or len(given) > self.size or place <= last:
                raise Refused(15, i + 1)
            last = place
            self.contents[place * self.size:place * self.size + len(given)] = given

    def block(self, b):
        return self.contents[b * self.block_size:(b + 1) * self.block_size]

    def page(self, b, p):
        return self.block(b)[p * self.size:(p + 1) * self.size]

    def erase(self, b):
        self.contents[b * self.block_size:(b + 1) * self.block_size] = b'\xff' * self.block_size
        self.labels[b] = (FREE, (1 << 34) - 1)


# ---- labels

def judge_labels(labels):
    for b, (tag, _) in enumerate(labels):
        if tag not in (FREE, BOOT, LOG, DATA):
            raise Refused(2, b)
    for b, (tag, path) in enumerate(labels):
        if tag != FREE and (path >= 1 << 34 or (path >> (4 if tag == LOG else 2)) > 4095):
            raise Refused(3, b)


def resolve(labels):
    """The block that stands for each (tag, r), and the older copies."""
    groups = {}
    for b, (tag, path) in enumerate(labels):
        if tag != FREE:
            groups.setdefault((tag, path >> 2), []).append(b)
    stands, older, bad = {}, [], []
    for key, copies in groups.items():
        if len(copies) == 1:
            stands[key] = copies[0]
            continue
        newer = [b for b in copies if any(labels[b][1] % 4 == (labels[a][1] + 1) % 4 for a in copies)]
        if len(copies) > 2 or len(newer) != 1:
            bad += copies
            continue
        stands[key] = newer[0]
        older += [b for b in copies if b != newer[0]]
    if bad:
        raise Refused(4, min(bad))
    return stands, older


def in_a_row(numbers, first):
    return sorted(numbers) == list(range(first, first + len(numbers)))


def plan_log(logs):
    """logs: generation to number to block. The swept log, the active log, and the swept block that is dropped, if one is."""
    if not logs:
        return {}, {}, []
    if len(logs) == 1:
        active, = logs.values()
        if not in_a_row(active, 0):
            raise Refused(6, 0)
        return {}, active, []
    newer = [g for g in logs if (g - 1) % 4 in logs]
    if len(logs) > 2 or len(newer) != 1:
        raise Refused(6, 0)
    swept, active = dict(logs[newer[0]]), logs[(newer[0] - 1) % 4]
    start, last = min(active), max(swept)
    if not in_a_row(swept, 0) or not in_a_row(active, start) or start < last:
        raise Refused(6, 0)
    return swept, active, [swept.pop(last)] if start == last else []


# ---- messages

class Malformed(Exception):
    pass


class Cursor:
    def __init__(self, part):
        self.part, self.at = part, 0

    def take(self, n):
        if self.at + n > len(self.part):
            raise Malformed
        self.at += n
        return bytes(self.part[self.at - n:self.at])

    def n(self, width):
        return u(self.take(width))

    def s(self):
        return self.take(self.n(2))


def bad_name(name):
    return len(name) > 255 or b'/' in name or b'\0' in name or name in (b'.', b'..')


def write_of(image, c, path, address):
    """The fields of a `w`, the address of whose first payload byte is told."""
    offset, count, mtime, cvers, muid, flash = c.n(4), c.n(2), c.n(4), c.n(4), c.s(), c.n(4)
    if count == 0 or offset + count > ONES:
        raise Malformed
    low = flash & 0x7fffffff
    if flash >> 31:
        if count > 128 or low != address + c.at:
            raise Malformed
        c.take(count)
    elif low // image.block_size > 4095 or low % image.block_size + count > image.block_size:
        raise Malformed
    return 'w', path, offset, count, mtime, cvers, muid, flash


def decode(image, kind, path, payload, address):
    c = Cursor(payload)
    if kind == b'c':
        m = ('c', path, c.n(4), c.n(4), c.n(4), c.n(4), c.s(), c.s(), c.s())
        if m[6] == b'' or bad_name(m[6]):
            raise Malformed
    elif kind == b'r':
        m = ('r', path, c.n(4), c.s())
    elif kind == b't':
        m = ('t', path, c.n(4), c.n(4), c.s())
    elif kind == b'w':
        m = write_of(image, c, path, address)
    elif kind == b'W':
        m = ('W', path, c.s(), c.n(4), c.s(), c.s(), c.n(4), c.s())
        if bad_name(m[2]):
            raise Malformed
    else:
        raise Malformed
    if c.at != len(payload):
        raise Malformed
    return m


def messages_of(image, page, address):
    """Each message of a page, with its address."""
    at = 0
    while at < len(page) and page[at] != ord('e'):
        head = Cursor(page[at:])
        try:
            kind, size, path = head.take(1), head.n(2), head.n(4)
            if size < 4:
                raise Malformed
            message = decode(image, kind, path, head.take(size - 4), address + at + 7)
        except Malformed:
            raise Refused(8, address + at)
        yield message, address + at
        at += 3 + size


def log_of(image, logs):
    """The messages of the replayed blocks, in replay order; PAGE where a page may not be as it is."""
    for log in logs:
        for n in sorted(log):
            blank = False
            for p in range(image.pages):
                page, address = image.page(log[n], p), (n * image.pages + p) * image.size
                if all(b == 0xff for b in page):
                    blank = True
                    if n != max(log):
                        raise Refused(7, address)
                elif blank or page[0] == 0xff:
                    raise Refused(7, address)
                else:
                    yield from messages_of(image, page, address)


# ---- replay

class Tree:
    def __init__(self):
        self.files = {0: dict(parent=0, perm=0x800001ed, length=0, cvers=0, mtime=0, extents=[])}

    def is_dir(self, path):
        return self.files[path]['perm'] >> 31 == 1

    def create(self, parent, perm, path, mtime, cvers, name, uid, gid):
        if parent in self.files and self.is_dir(parent) and path not in self.files:
            self.files[path] = dict(parent=parent, perm=perm, length=0, cvers=cvers, mtime=mtime, extents=[])

    def remove(self, path, mtime, muid):
        if path in self.files and path != 0 and not any(f['parent'] == path for p, f in self.files.items() if p != path):
            gone = self.files.pop(path)
            self.files[gone['parent']]['mtime'] = mtime

    def truncate(self, path, mtime, cvers, muid):
        if path in self.files and not self.is_dir(path):
            self.files[path].update(mtime=mtime, cvers=cvers, length=0, extents=[])

    def write(self, path, offset, count, mtime, cvers, muid, flash):
        if path not in self.files or self.is_dir(path) or self.files[path]['cvers'] != cvers:
            return
        f, end, kept = self.files[path], offset + count, [(offset, count, flash)]
        for o, n, a in f['extents']:
            if o < offset:
                kept.append((o, min(o + n, offset) - o, a))
            if o + n > end:
                cut = max(end - o, 0)
                kept.append((o + cut, n - cut, a + cut))
        f.update(mtime=mtime, extents=sorted(kept), length=max(f['length'], end))

    def wstat(self, path, name, perm, uid, gid, mtime, muid):
        if path not in self.files:
            return
        f = self.files[path]
        if (perm != ONES and (perm ^ f['perm']) >> 31) or (path == 0 and name):
            return
        f.update(perm=f['perm'] if perm == ONES else perm, mtime=f['mtime'] if mtime == ONES else mtime)

    def apply(self, m):
        {'c': self.create, 'r': self.remove, 't': self.truncate, 'w': self.write, 'W': self.wstat}[m[0]](*m[1:])

    def extents(self):
        return [e for f in self.files.values() for e in f['extents']]


# ---- the mount

class Mount:
    def __init__(self, image):
        judge_labels(image.labels)
        stands, older = resolve(image.labels)
        if not in_a_row([r for tag, r in stands if tag == BOOT], 0):
            raise Refused(5, 0)
        logs = {}
        for (tag, r), b in stands.items():
            if tag == LOG:
                logs.setdefault(r % 4, {})[r // 4] = b
        swept, active, dropped = plan_log(logs)
        self.image, self.tree, self.log = image, Tree(), {**swept, **active}
        for message, address in log_of(image, (swept, active)):
            self.tree.apply(message)
            if len(self.tree.files) > 256 or len(self.tree.extents()) > 1024:
                raise Refused(9, address)
        self.data = {r: b for (tag, r), b in stands.items() if tag == DATA}
        self.used = set()
        for path in sorted(self.tree.files):
            for _, count, a in self.tree.files[path]['extents']:
                if a >> 31 == 0:
                    if a // image.block_size not in self.data:
                        raise Refused(10, path)
                    self.used |= {(x // image.block_size, x % image.block_size // image.size) for x in range(a, a + count)}
        idle = [b for n, b in self.data.items() if not any((n, p) in self.used for p in range(image.pages))]
        self.erase = sorted(set(older + dropped + idle))

    def byte(self, a):
        b = (self.log if a >> 31 else self.data)[(a & 0x7fffffff) // self.image.block_size]
        return self.image.block(b)[(a & 0x7fffffff) % self.image.block_size]

    def read(self, path, offset, room):
        f = self.tree.files[path]
        got = bytearray(max(min(room, f['length'] - offset), 0))
        for o, n, a in f['extents']:
            for i in range(max(o, offset), min(o + n, offset + len(got))):
                got[i - offset] = self.byte(a + i - o)
        return bytes(got)


# ---- making room

def reclaim_lines(mount, n):
    image, old = mount.image, mount.data[n]
    free = [b for b, (tag, _) in enumerate(image.labels) if tag == FREE]
    if len(free) < 2:
        return ['X\t13\t%d' % len(free)]
    target = free[0]
    steps = [] if all(b == 0xff for b in image.block(target)) else ['S\te\t%d' % target]
    steps += ['S\tw\t%d\t%d\t%d' % (old, target, p) for p in range(image.pages) if (n, p) in mount.used]
    steps += ['S\tl\t%d\t%02x\t%d' % (target, DATA, 4 * n + (image.labels[old][1] + 1) % 4)]
    return steps + ['S\te\t%d' % old]


def data_lines(mount, path):
    length = mount.tree.files[path]['length']
    offsets = [0] + ([length - 32] if length > 32 else [])
    return ['D\t%d\t%d\t%s' % (path, x, mount.read(path, x, 32).hex()) for x in offsets]


def room(text):
    try:
        image = Image(text)
        mount = Mount(image)
    except Refused as r:
        return ['X\t%d\t%d' % r.args]
    lines = ['U\t%d\t%d' % pair for pair in sorted(mount.used)]
    lines += ['K\t%d' % b for b in mount.erase]
    lines += ['S\te\t%d' % b for b in mount.erase]
    for b in mount.erase:
        image.erase(b)
    settled = Mount(image)
    assert not settled.erase
    for n in sorted(settled.data):
        lines += ['R\t%d' % n] + reclaim_lines(settled, n)
    for path in sorted(settled.tree.files):
        if not settled.tree.is_dir(path):
            lines += data_lines(settled, path)
    return lines


def main():
    text = sys.stdin.buffer.read()
    if sys.argv[1:] != ['--all']:
        print(''.join(line + '\n' for line in room(text)), end='')
        return
    for dump in re.split(rb'(?m)^Z\n', text)[:-1]:
        print(''.join(line + '\n' for line in room(dump)) + 'Z')


main()
