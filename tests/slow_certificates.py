#!/usr/bin/env python3
"""Writes certificates that are made to be slow to check, each with its image.

    slow_certificates.py FOLDER

writes NAME.hex and NAME.cert into the folder for each of these, all of them accepted but `small`:

    points      as many points as whole rings allow: 288 rings of 1819
    small       524,288 points in the fewest bytes
    successors  the same rings, each point with 16 successors of which the last is right, and the others differ in the last cell
    cells       the same rings, each point with a range on every register, pair and one of 16 cells
    instances   16 million instances of one-clock points on 525 lines whose kinds take turns
    events      525 kinds of line of 1818 events each
    counts      36 rings of 256 counts at one clock, told apart by the last cell: a successor's right count is searched
    together    16 rings of 16 counts, each point with 16 successors, 16 cells and facts on all registers
    even        36 rings of 256 counts at one clock and 16 successors, of which 15 differ in the last register alone: the one fact
                by count, of the last cell, is the same at every second count
"""
import os
import sys

from outcomes import usage

RING = 1819


def hex_text(words):
    data = b''.join(w.to_bytes(2, 'little') for w in words)
    out = []
    for at in range(0, len(data), 16):
        record = bytes([len(data[at:at + 16]), at >> 8, at & 255, 0]) + data[at:at + 16]
        out.append(':' + (record + bytes([-sum(record) & 255])).hex().upper())
    return '\n'.join(out + [':00000001FF', ''])


def ring_image(filler):
    """Sync falls at clock 1 of a line and rises at clock 137; between stand instructions of one clock."""
    words = [0xE000, 0xE011, 0xB905] + [filler] * 135 + [0xB915] + [filler] * 1681 + [0xC8E5]
    return hex_text(words)


def head(out, kinds, lines, points, cells, filled):
    print('uzcert 2\nsize %d %d 0 %d %d\nirq 4\nstack 4350 4351 0 0' % (kinds, lines, points, cells), file=out)
    for c in range(cells):
        print('cell %d main 0 255' % (256 + c), file=out)
    events = {1: 'sync 0', 137: 'sync 1'}
    if filled:
        events = {**{c: 'pixel' for c in range(1, 1819)}, **events}
    for _ in range(kinds):
        print('kind %d 1820' % len(events), file=out)
        for clock in sorted(events):
            print(clock, events[clock], file=out)
    print('fall 1', file=out)
    if kinds == 1:
        print('run %d 0' % lines, file=out)
    else:
        for line in range(lines):
            print('run 1 %d' % (line % kinds), file=out)


def write_rings(folder, name, copies, *, lines=1, kinds=1, filled=False, cells=0, counts=1, last=None, facts='', options=1):
    """Rings beside each other. Point k of ring j leads to point k + 1 of the rings up to j, at most `options` of them. `facts` are
    known at every point, `{ring}` in them is j, and `last` says what is known of the last cell in a ring, beginning with 0."""
    with open(os.path.join(folder, name + '.hex'), 'w') as out:
        out.write(ring_image(0xB808 if filled else 0))
    facts = facts or ' r16=0 r17=1'
    with open(os.path.join(folder, name + '.cert'), 'w') as out:
        head(out, kinds, lines, copies * RING, cells, filled)
        known = ''.join(' ' + f for f in facts.format(ring=0).split() if f[0] not in 'xyz')
        print('entry alone 0 2 0 0' + known + (' m%d=0' % (cells - 1) if last else ''), file=out)
        for k in range(RING):
            for j in range(copies):
                cell = ' m%d=%s' % (cells - 1, last(j)) if last else ''
                after = (k + 1) % RING * copies
                leads = ''.join(' >%d' % (after + i) for i in range(max(0, j - options + 1), j + 1))
                print('point alone %d 0 %d 0 %d %d 0 0%s%s%s' % (k + 2, lines - 1, counts - 1, k, facts.format(ring=j), cell, leads), file=out)
        print('end', file=out)


def all_facts(cells):
    """A range on each register but those of the ring, each pair and so many cells: anything but the greatest value."""
    registers = ''.join(' r%d=%s' % (r, {16: '0', 17: '1'}.get(r, '0..254')) for r in range(32))
    return registers + ''.join(' %s=0..65534' % p for p in 'xyz') + ''.join(' m%d=0..254' % c for c in range(cells))


def write_small(folder, name):
    """Points of no instruction: the text is read, and the first point refused."""
    with open(os.path.join(folder, name + '.hex'), 'w') as out:
        out.write(':00000001FF\n')
    with open(os.path.join(folder, name + '.cert'), 'w') as out:
        print('uzcert 2\nsize 1 1 0 524288 0\nirq 4\nstack 256 257 0 0\nkind 1 1820\n1 sync 0\nfall 1\nrun 1 0', file=out)
        out.write('entry alone 0 0 0 0\n' + 'point alone 0 0 0 0 0 0 0 0\n' * 524288 + 'end\n')


def main():
    if len(sys.argv) != 2:
        usage(__doc__)
    folder = sys.argv[1]
    write_rings(folder, 'points', 288)
    write_small(folder, 'small')
    write_rings(folder, 'successors', 288, cells=16, last=lambda j: j % 256, options=16)
    write_rings(folder, 'cells', 288, cells=16, facts=all_facts(16))
    write_rings(folder, 'instances', 17, lines=525, kinds=2)
    write_rings(folder, 'events', 1, lines=525, kinds=525, filled=True)
    write_rings(folder, 'counts', 36, cells=16, counts=256, last=lambda j: 'c*1+0')
    write_rings(folder, 'together', 16, cells=16, counts=16, last=lambda j: 'c*1+%d' % (16 * j), facts=all_facts(15), options=16)
    write_rings(folder, 'even', 36, cells=16, counts=256, last=lambda j: 'c*128+0',
                facts=all_facts(15).replace('r31=0..254', 'r31={ring}'), options=16)


if __name__ == '__main__':
    main()
