#!/usr/bin/env python3
"""vector-rows.py DUMPS LISTINGS [COUNT-PER-ANSWER] > crates/sample/proofs/Vectors.antt

Turns outside dumps and their listings (each ended by a line Z) into rows that the checker computes: of each answer that a mount can
give (accepted, or refused by a number), the smallest dumps. A dump that is refused as text (15) is not for the definitions."""
import sys


def parts(path):
    out, cur = [], []
    for line in open(path):
        line = line.rstrip('\n')
        if line == 'Z':
            out.append(cur)
            cur = []
        else:
            cur.append(line.split('\t'))
    return out


def numbers(xs):
    return ' ∷ '.join([str(x) for x in xs] + ['[]'])


def name_bytes(s):
    out, i = [], 0
    while i < len(s):
        if s[i] == '%':
            out.append(int(s[i + 1:i + 3], 16))
            i += 3
        else:
            out.append(ord(s[i]))
            i += 1
    return out


def shown(listing):
    """Each line as numbers: its letter first, a name as its bytes, no insertion point as no number."""
    rows = []
    for f in listing:
        if f[0] == 'T':
            rows.append([ord('T')] + [int(x) for x in f[1:] if x != '-'])
        elif f[0] == 'F':
            name = [] if f[1] == '0' and f[7] == '/' else name_bytes(f[7])
            rows.append([ord('F')] + [int(x) for x in f[1:7]] + name)
        elif f[0] == 'E':
            rows.append([ord('E'), int(f[1]), int(f[2]), ord(f[3]), int(f[4])])
        else:
            rows.append([ord('X'), int(f[1]), int(f[2])])
    return rows


def row(k, dump, listing):
    g = dump[0]
    tags = [int(f[1], 16) for f in dump if f[0] == 'B']
    paths = [int(f[2]) for f in dump if f[0] == 'B']
    pages = [f for f in dump if f[0] == 'P']
    if listing[0][:2] == ['X', '1']:
        tags, paths, pages = [], [], []
    out = ['dump%d : Dump' % k, 'dump%d = record {' % k]
    out.append('  geometry = record { size = %s; pages = %s; blocks = %s };' % (g[1], g[2], g[3]))
    out.append('  tags = %s;' % numbers(tags))
    out.append('  paths = %s;' % numbers(paths))
    given = ' ∷ '.join(['line %s %s %d 0x%s' % (f[1], f[2], len(f[3]) // 2, f[3].lower()) for f in pages] + ['[]'])
    out.append('  pages = %s;' % given)
    out.append('}')
    out.append('')
    out.append('row%d : lines dump%d ≡ %s' % (k, k, ' ∷ '.join(['(%s)' % numbers(r) for r in shown(listing)] + ['[]'])))
    out.append('unfolding lines dump%d' % k)
    out.append('row%d = refl' % k)
    return '\n'.join(out) + '\n'


HEAD = """-- Outside dumps and what their listings show, by computation. Written by tools/vector-rows.py; dump k is the k-th of the vectors.
use mathlib.Core.Path.{◌≡◌, refl}
use mathlib.Core.List.{[], ◌∷◌}
use Rattle.meaning.proofs.Shown.{Dump, line, lines}
"""


def main():
    dumps, listings = parts(sys.argv[1]), parts(sys.argv[2])
    many = int(sys.argv[3]) if len(sys.argv) > 3 else 3
    by = {}
    for i, (d, l) in enumerate(zip(dumps, listings)):
        answer = int(l[0][1]) if l[0][0] == 'X' else 0
        if answer != 15:
            size = sum(len(x[3]) for x in d if x[0] == 'P') if answer != 1 else 0
            by.setdefault(answer, []).append((size, i))
    chosen = sorted(i for rows in by.values() for _, i in sorted(rows)[:many])
    print(HEAD)
    for i in chosen:
        print(row(i + 1, dumps[i], listings[i]))


main()
