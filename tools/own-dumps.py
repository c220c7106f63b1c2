#!/usr/bin/env python3
"""own-dumps.py > dumps
own-dumps.py --room > examples/room.dump
own-dumps.py --cuts > crates/cuts/stdin

Rows of document 01 as dumps, each ended by a line Z: the limits (256 records, 128 embedded bytes, 1024 extents), the rows on replay,
and the longest text that is a dump. They stand at the end of crates/vectors/stdin, after the outside dumps; their listings, at the
end of crates/vectors/stdout, are those that a plain reader in C printed. --room: the dump of the program `room`, with something of
each kind that making room meets. --cuts: the images of the program `cuts`, each ended by a line Z."""
import sys

from messages import create, embedded, pages_of, remove, truncate, write


def image(size, pages, blocks, given):
    """blocks: (tag, path) of each physical block; given: the bytes of pages, by physical block and page."""
    lines = ['G\t%d\t%d\t%d' % (size, pages, len(blocks))]
    lines += ['B\t%s\t%d' % b for b in blocks]
    lines += ['P\t%d\t%d\t%s' % (b, p, given[b, p].hex()) for b, p in sorted(given)]
    return '\n'.join(lines) + '\n'


def dump(size, pages, blocks, log):
    """The log's pages go to block 0."""
    assert len(log) <= pages
    return image(size, pages, blocks, {(0, i): p for i, p in enumerate(log)})


def of_messages(size, pages, messages, others=()):
    return dump(size, pages, [('06', 0)] + list(others), pages_of(messages, size))


def data(number):
    return ('18', 4 * number)


def records(n, more=()):
    """A log that makes n records, the root among them."""
    return of_messages(2048, 8, [create(p, b'f%d' % p) for p in range(1, n)] + list(more))


def extents(more=()):
    """1024 extents: two runs of data block 1, and 511 single bytes laid into the first, which each split one. 513 writes."""
    a = 16384
    writes = [write(7, 0, 4000, a), write(7, 5000, 100, a + 5000)]
    writes += [write(7, 2 * i + 1, 1, a + 8000 + i) for i in range(511)]
    return of_messages(2048, 8, [create(7, b'win')] + writes + list(more), [data(1)])


def versions():
    """Create cvers 0, truncate to 2: a write with 0 is ignored, with 2 applied."""
    return of_messages(512, 4, [create(7, b'win'), truncate(7, 2), write(7, 0, 10, 2048, 0), write(7, 4, 6, 2048, 2)], [data(1)])


def pages_pqs(elsewhere, blocks):
    """512 bytes on page p, then [128,384) on q, then [384,512) on s, and perhaps [0,128) elsewhere; one data block for each."""
    p, q, r, t = (2048 * n for n in (5, 6, 7, 8))
    writes = [write(7, 0, 512, p), write(7, 128, 256, q), write(7, 384, 128, r)]
    if elsewhere:
        writes.append(write(7, 0, 128, t))
    return of_messages(512, 4, [create(7, b'win')] + writes, [data(n) for n in blocks])


def longest(more=''):
    """32 free blocks, 128 pages of 256 bytes all given, each number with twenty digits: 72,193 bytes."""
    lines = ['G\t%020d\t%020d\t%020d' % (256, 4, 32)]
    lines += ['B\tff\t%020d' % 0] * 32
    lines += ['P\t%020d\t%020d\t%s' % (b, p, '5a' * 256) for b in range(32) for p in range(4)]
    text = '\n'.join(lines) + '\n'
    assert len(text) == 72193
    return text + more


def single(count):
    """A write of count bytes that stand in the log."""
    first = create(7, b'win')
    return of_messages(256, 4, [first, embedded(len(first), bytes(i & 255 for i in range(count)), 7)])


def all_dumps():
    return [
        records(256),
        records(257),
        # a create that fails its test is ignored, never FULL; a record removed makes room
        records(256, [create(5, b'twice')]),
        records(256, [remove(9), create(999, b'last')]),
        records(256, [remove(9), create(999, b'last'), create(1000, b'over')]),
        single(128),
        single(129),
        extents(),
        # one more, apart from the others
        extents([write(7, 6000, 10, 16384)]),
        # one more that splits
        extents([write(7, 3000, 1, 16384)]),
        # one that takes another's place
        extents([write(7, 5000, 100, 16384)]),
        versions(),
        pages_pqs(False, (5, 6, 7, 8)),
        pages_pqs(True, (5, 6, 7, 8)),
        # p's block is gone: it is needed until [0,128) stands elsewhere
        pages_pqs(False, (6, 7, 8)),
        pages_pqs(True, (6, 7, 8)),
        longest(),
        longest('P\t31\t3\tff\n'),
        longest('P\t' + '0' * 20000 + '\n'),
        # 32,768 content bytes, and a page more a block
        dump(2048, 8, [('ff', 0), ('ff', 0)], []),
        dump(2048, 8, [('ff', 0), ('ff', 0), ('ff', 0)], []),
        '',
    ]


# ---- making room: 256-byte pages, four a block

FREE = ('ff', 17179869183)
FREE_TOO = ('ff', 5)  # a free block's path is not looked at


def log_block(number, generation):
    return ('06', 16 * number + 4 * generation)


def at(number, page=0, offset=0):
    return (number * 4 + page) * 256 + offset


def marked(number, page):
    """The first 42 bytes of a data page: its number, the page and a count, fourteen times."""
    return b''.join(bytes([number, page, i]) for i in range(14))


def held(page_at, before, path, offset, text, cvers=0):
    """A write of text that stands in the log, after the messages `before` of the page at an address."""
    return before + embedded(page_at + len(before), text, path, offset, cvers)


def rich():
    """Two copies of data 5, a dropped swept block, an unused data block, a dirty free block, and dead pages of data 2, 5 and 7."""
    blocks = [log_block(0, 1), FREE, ('18', 23), ('18', 20), log_block(1, 0), log_block(1, 1), data(2), FREE_TOO, log_block(2, 0), data(9),
              ('01', 0), data(7)]
    given = {(1, 0): b'Z' * 8, (2, 0): b'old copy', (5, 0): b'swept away', (9, 1): marked(9, 1)}
    given.update({(b, p): marked(n, p) for b, n in ((3, 5), (6, 2), (11, 7)) for p in range(4)})
    folder = create(1, b'set', perm=0x800001ed)
    # the swept log: a folder and its files
    given[0, 0] = folder + create(7, b'win', parent=1) + create(8, b'spectrum', parent=1) + create(9, b'note') + b'e'
    given[0, 1] = create(10, b'gone') + create(11, b'hole') + create(12, b'empty') + create(13, b'twice') + b'e'
    # the active log: win stands on data 5, data 2 and data 5; page 1 of data 5 and page 1 of data 2 die
    given[4, 0] = write(7, 0, 42, at(5, 0)) + write(7, 42, 42, at(5, 1)) + write(7, 84, 42, at(5, 3)) + write(7, 42, 42, at(2, 1)) + b'e'
    given[4, 1] = write(7, 40, 44, at(2, 0)) + write(8, 0, 40, at(7, 1)) + write(10, 0, 30, at(9, 1)) + remove(10) + b'e'
    given[4, 2] = held(at(1, 2), b'', 9, 0, b'twenty bytes of text') + b'e'
    given[4, 3] = held(at(1, 3), write(9, 4, 3, at(2, 3, 3)), 11, 600, b'after a hole') + b'e'
    given[8, 0] = held(at(2), write(13, 0, 20, at(7, 3)) + truncate(13, 2) + write(13, 0, 9, at(7, 2)), 13, 0, b'second', 2) + b'e'
    return image(256, 4, blocks, given)


def clean():
    """A blank target, and two data blocks: one all of whose pages are used, by one run and by many, and one with a single used page."""
    blocks = [FREE, data(1), log_block(0, 0), data(3), FREE]
    given = {(b, p): marked(n, p) for b, n in ((1, 1), (3, 3)) for p in range(4)}
    given[2, 0] = create(4, b'run') + write(4, 0, 1024, at(1)) + write(4, 250, 20, at(3, 2)) + create(5, b'bit') + write(5, 3, 1, at(1, 3, 9)) + b'e'
    return image(256, 4, blocks, given)


def crowded():
    """One free block and an older copy: a settle makes the room that a reclaim needs."""
    blocks = [('18', 4), ('18', 5), log_block(0, 2), FREE]
    given = {(0, 0): marked(9, 9), (1, 0): marked(1, 0), (1, 2): marked(1, 2), (3, 3): b'dirty'}
    given[2, 0] = create(6, b'a') + write(6, 0, 600, at(1)) + write(6, 100, 300, at(1, 2)) + b'e'
    return image(256, 4, blocks, given)


def main():
    if sys.argv[1:] == ['--room']:
        print(rich(), end='')
        return
    for d in [rich(), clean(), crowded()] if sys.argv[1:] == ['--cuts'] else all_dumps():
        print(d + 'Z')


main()
