#!/usr/bin/env python3
"""message-rows.py > crates/message_rows/stdin
message-rows.py --answers > crates/message_rows/stdout

The message rows of document 01 as pages of 512 bytes, four a block, the page at address 0. The answers are worked out by hand from
the document, never by running a decoder: each stands beside its row.

Where the fields stand in a message at position 0 (n, u, v, m: the lengths of its strings, in their order):
  c  perm 7, newpath 11, mtime 15, cvers 19, name 25, uid 27 + n, gid 29 + n + u, end 29 + n + u + v
  r  mtime 7, muid 13, end 13 + m
  t  mtime 7, cvers 11, muid 17, end 17 + m
  w  offset 7, count 11, mtime 13, cvers 17, muid 23, flashaddr 23 + m, data 27 + m
  W  name 9, perm 9 + n, uid 15 + n, gid 17 + n + u, mtime 17 + n + u + v, muid 23 + n + u + v, end 23 + n + u + v + m"""
import sys

import messages
from messages import create, le, message, remove, s, truncate, write

EMBEDDED = 0x8000001b  # bit 31, and 27: where the data of a write at 0 with an empty muid begins
E = b'e'


def c(name, uid=b'', gid=b''):
    return create(7, name, uid=uid, gid=gid)


def r(muid=b'', spare=b''):
    return remove(7, muid, spare)


def t(muid=b''):
    return truncate(7, 2, muid)


def w(count, flashaddr, held=b'', offset=0):
    return write(7, offset, count, flashaddr, 0, held)


def wstat(name, perm=0xffffffff, uid=b'', gid=b'', mtime=0xffffffff, muid=b''):
    return messages.wstat(7, name, perm, uid, gid, mtime, muid)


WORKED = bytes.fromhex(
    '631f0000000000a4010000070000006400000000000000030077696e010061010061'
    '77210007000000000000000800c8000000000000000100613e000080010203040506070865')

# what a row is about, its bytes (the rest is 0xff), its answer with blanks for tabs and `;` for a newline
ROWS = [
    ('a blank page', b'', 'blank'),
    ('the worked page', WORKED, 'c 0 420 7 100 0 25+3 30+1 33+1 34; w 7 0 8 200 0 57+1 2147483710 70; end'),

    # every type, and where its strings stand
    ('a remove', r(b'me') + E, 'r 7 300 13+2 15; end'),
    ('a truncation', t(b'you') + E, 't 7 400 2 17+3 20; end'),
    ('a wstat', wstat(b'new', 0x80000000, b'ab', b'c', 5, b'd') + E, 'W 7 9+3 2147483648 18+2 22+1 5 29+1 30; end'),
    ('three in a row', r() + t() + r(b'x') + E, 'r 7 300 13+0 13; t 7 400 2 30+0 30; r 7 300 43+1 44; end'),

    # names
    ('a create name of 255 bytes', c(b'n' * 255) + E, 'c 0 420 7 100 0 25+255 282+0 284+0 284; end'),
    ('a create name of 256 bytes', c(b'n' * 256) + E, 'malformed 0'),
    ('a wstat name of 255 bytes', wstat(b'n' * 255) + E, 'W 7 9+255 4294967295 270+0 272+0 4294967295 278+0 278; end'),
    ('a wstat name of 256 bytes', wstat(b'n' * 256) + E, 'malformed 0'),
    ('a uid of 256 bytes is no file name', c(b'a', b'u' * 256) + E, 'c 0 420 7 100 0 25+1 28+256 286+0 286; end'),
    ('name `.`', c(b'.') + E, 'malformed 0'),
    ('name `..`', c(b'..') + E, 'malformed 0'),
    ('name `...`', c(b'...') + E, 'c 0 420 7 100 0 25+3 30+0 32+0 32; end'),
    ('name `.a`', c(b'.a') + E, 'c 0 420 7 100 0 25+2 29+0 31+0 31; end'),
    ('name `a/b`', c(b'a/b') + E, 'malformed 0'),
    ('a name with a zero byte', c(b'a\0b') + E, 'malformed 0'),
    ('an empty create name', c(b'') + E, 'malformed 0'),
    ('an empty wstat name', wstat(b'') + E, 'W 7 9+0 4294967295 15+0 17+0 4294967295 23+0 23; end'),
    ('wstat name `..`', wstat(b'..') + E, 'malformed 0'),
    ('a uid may hold `/`', c(b'a', b'/') + E, 'c 0 420 7 100 0 25+1 28+1 31+0 31; end'),

    # a write's numbers
    ('count 0', w(0, EMBEDDED) + E, 'malformed 0'),
    ('offset + count = 4294967295', w(8, EMBEDDED, b'12345678', 4294967287) + E, 'w 7 4294967287 8 200 0 23+0 2147483675 35; end'),
    ('offset + count = 4294967296', w(8, EMBEDDED, b'12345678', 4294967288) + E, 'malformed 0'),

    # data in the message
    ('embedded 128', w(128, EMBEDDED, b'd' * 128) + E, 'w 7 0 128 200 0 23+0 2147483675 155; end'),
    ('embedded 129', w(129, EMBEDDED, b'd' * 129) + E, 'malformed 0'),
    ('embedded, address one too high', w(8, EMBEDDED + 1, b'12345678') + E, 'malformed 0'),
    ('embedded, address one too low', w(8, EMBEDDED - 1, b'12345678') + E, 'malformed 0'),
    ('embedded, a byte too few', w(8, EMBEDDED, b'1234567') + E, 'malformed 0'),
    ('embedded, a byte too many', w(8, EMBEDDED, b'123456789') + E, 'malformed 0'),

    # data in a data block of 2048 bytes: block 1 is [2048, 4096), block 4095 begins at 8386560
    ('a run to the end of its block', w(100, 3996) + E, 'w 7 0 100 200 0 23+0 3996 27; end'),
    ('a run past the end of its block', w(101, 3996) + E, 'malformed 0'),
    ('a whole block', w(2048, 2048) + E, 'w 7 0 2048 200 0 23+0 2048 27; end'),
    ('a block and a byte', w(2049, 2048) + E, 'malformed 0'),
    ('number 4095', w(2048, 8386560) + E, 'w 7 0 2048 200 0 23+0 8386560 27; end'),
    ('number 4096', w(1, 8388608) + E, 'malformed 0'),
    ('data after a run', w(1, 2048, b'd') + E, 'malformed 0'),

    # sizes and types
    ('size 3', b'r' + le(3, 2) + le(7, 4) + E, 'malformed 0'),
    ('size 4, no payload', message(b'r', 7, b'') + E, 'malformed 0'),
    ('a spare byte', r(b'me', b'!') + E, 'malformed 0'),
    ('a string past its message', message(b'r', 7, le(300, 4) + le(3, 2) + b'me') + E, 'malformed 0'),
    ('a message to the end of the page', r(b'm' * 499), 'r 7 300 13+499 512; end'),
    ('size past the page', r(b'm' * 500)[:512], 'malformed 0'),
    ('another type', message(b's', 7, le(300, 4) + s(b'me')) + E, 'malformed 0'),
    ('the second is malformed', r() + r(b'', b'!') + E, 'r 7 300 13+0 13; malformed 13'),
    ('0xff where a message should begin', r(), 'r 7 300 13+0 13; malformed 13'),
    ('6 bytes left', r(b'm' * 493) + b'r' + le(4, 2) + b'\7\0\0', 'r 7 300 13+493 506; malformed 506'),
    ('a byte left', r(b'm' * 498) + b'r', 'r 7 300 13+498 511; malformed 511'),
    ('`e` in the last byte', r(b'm' * 498) + E, 'r 7 300 13+498 511; end'),

    # the rest of the page
    ('`e` and junk', E + b'r\3\0junk', 'end'),
    ('a message, `e` and junk', r() + E + b'c\0\0', 'r 7 300 13+0 13; end'),
    ('0xff first, not blank', b'\xff' * 511 + b'\0', 'malformed 0'),
]


def main():
    for about, page, answer in ROWS:
        assert len(page) <= 512, about
        if '--answers' in sys.argv:
            print(answer.replace('; ', '\n').replace(' ', '\t'))
        else:
            print(page.ljust(512, b'\xff').hex())


main()
