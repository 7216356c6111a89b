#!/usr/bin/env python3
"""Prints an assembler source with hints whose search has about as many instances as are asked for.

    long_source.py INSTANCES >long.asm
    uzebox certify long.asm 4 long.hex long.cert

It is the ring of examples/ring.asm on as many lines as are needed, with `rjmp .` of two clocks in place of pairs of `nop`, so that each
line has the same number of instances, 912 to 1,819. How many there are in all stands in the first line. Up to 524,287 the source is
certified; with more the search is refused as full.
"""
import sys

from outcomes import usage

MOST_LINES = 525
CLOCKS = (135, 1681)  # between the two edges of sync, and after them
MOST = 3 + sum(CLOCKS)


def filler(clocks, pairs):
    return ['  rjmp .'] * pairs + ['  nop'] * (clocks - 2 * pairs)


def source(wanted):
    lines = min(max(-(-wanted // MOST), 1), MOST_LINES)
    pairs = min(max(MOST - round(wanted / lines), 0), sum(c // 2 for c in CLOCKS))
    first = min(pairs, CLOCKS[0] // 2)
    return [
        '; %d instances: %d on each of %d lines' % (lines * (MOST - pairs), MOST - pairs, lines),
        '.lines %d, 1' % lines,
        '.stack 4350, 4351, 0, 0',
        '.start alone, loop',
        '  ldi r16,0',
        '  ldi r17,1',
        '.fact r16, 0, 0',
        '.fact r17, 1, 1',
        'loop: out PORTB,r16',
        *filler(CLOCKS[0], first),
        '  out PORTB,r17',
        *filler(CLOCKS[1], pairs - first),
        '  rjmp loop',
    ]


def main():
    if len(sys.argv) != 2 or not sys.argv[1].isdigit():
        usage(__doc__)
    print('\n'.join(source(int(sys.argv[1]))))


if __name__ == '__main__':
    main()
