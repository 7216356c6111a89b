#!/usr/bin/env python3
"""What crates/timing_cases is to print: reads its script on standard input, and works each schedule out by itself.

python3 tests/timing_answers.py <crates/timing_cases/stdin | cmp - crates/timing_cases/stdout

Durations are exact fractions of the clock of NTSC, 315 / 11 MHz; the ranges are those of SMPTE 170M-2004.
"""
import sys
from collections import Counter
from fractions import Fraction
from itertools import groupby

CLOCK = Fraction(11000, 315)  # nanoseconds
RANGES = {'equalizing': (2200, 2400), 'horizontal': (4600, 4800), 'broad': (26978, 27178)}
SERRATION = (4600, 4800)


def nearest(number):
    return int(number + Fraction(1, 2))


def pulse_kind(clocks):
    lasts = clocks * CLOCK
    if lasts < 1000 or lasts > 31778:
        return 'other'
    return 'equalizing' if lasts < 3500 else 'horizontal' if lasts < 10000 else 'broad'


def judged(clocks, span):
    if span is None:
        return ' out'
    is_in = span[0] <= clocks * CLOCK <= span[1]
    return f' range {span[0]} to {span[1]} ' + ('ok' if is_in else 'out')


def places(marks):
    words, start = '', None
    for at, mark in enumerate(marks + [False]):
        if mark and start is None:
            start = at
        if not mark and start is not None:
            words += f' {start}' if start == at - 1 else f' {start}-{at - 1}'
            start = None
    return words


def counted(name, clocks):
    ends = f' first {clocks[0]} last {clocks[-1]}' if clocks else ''
    return f'{name} {len(clocks)}{ends}'


def low_of(events):
    """The clocks of the first fall and of the rise behind it."""
    falls = [at for at, word in events if word == 'sync 0']
    if not falls:
        return None
    rises = [at for at, word in events if word == 'sync 1' and at > falls[0]]
    return (falls[0], rises[0]) if rises else None


def block(kind, clocks, events, order):
    out = [f'kind {kind} clocks {clocks} lines' + places([k == kind for k in order])]
    pulse = low_of(events)
    if pulse is None:
        out.append('sync none out')
    else:
        fall, rise = pulse
        low, name = rise - fall, pulse_kind(rise - fall)
        out.append(f'sync falls {fall} rises {rise} low {low} clocks {nearest(low * CLOCK)} ns {name}'
                   + judged(low, RANGES.get(name)))
        if name == 'broad':
            high = clocks - low
            out.append(f'serration {high} clocks {nearest(high * CLOCK)} ns' + judged(high, SERRATION))
    pixels = [at for at, word in events if word == 'pixel']
    apart = [b - a for a, b in zip(pixels, pixels[1:])]
    out.append(counted('pixels', pixels))
    out += [f'distance {d} times {n}' for d, n in sorted(Counter(apart).items())]
    out += [f'odd pixel {pixels[i + 1]}' for i, d in enumerate(apart) if d != apart[0]][:1]
    out.append(counted('sounds', [at for at, word in events if word == 'sound']))
    leaves = [at for at, word in events if word == 'leave']
    out += [f'return {at} main {clocks - at} to {clocks - at + 3}' for at in leaves] or ['return none']
    return out


def is_field(names, lengths):
    """Whether some turn of the frame begins with the pulses of a field."""
    wanted = ['equalizing'] * 6 + ['broad'] * 6 + ['equalizing'] * 6 + ['horizontal'] * (len(names) - 18)
    spans = [910] * 18 + [1820] * (len(names) - 18)
    return any(names[i:] + names[:i] == wanted and lengths[i:] + lengths[:i] == spans for i in range(len(names)))


def schedule(text):
    kinds, order = [], []
    for line in text:
        words = line.split()
        if words[0] == 'kind':
            kinds.append((int(words[2]), []))
        elif words[0].isdigit():
            kinds[-1][1].append((int(words[0]), ' '.join(words[1:])))
        elif words[0] == 'run':
            order += [int(words[2])] * int(words[1])
    return kinds, order


def told(text):
    kinds, order = schedule(text)
    out = []
    for kind, (clocks, events) in enumerate(kinds):
        if kind in order:
            out += block(kind, clocks, events, order)
    lengths = [kinds[kind][0] for kind in order]
    pulses = [low_of(kinds[kind][1]) for kind in order]
    names = [pulse_kind(pulse[1] - pulse[0]) if pulse else 'other' for pulse in pulses]
    frame = sum(lengths)
    rate = nearest(Fraction(315000000, 11) / frame * 100)
    out.append(f'frame lines {len(order)} clocks {frame} range 476840 to 478660 Hz {rate // 100}.{rate % 100:02} '
               + ('ok' if 476840 <= frame <= 478660 else 'out'))
    runs = ''.join(f' {len(list(run))} {name}' for name, run in groupby(names))
    out.append('pulses' + runs + (' ok' if is_field(names, lengths) else ' out'))
    for clocks in (910, 1820):
        if clocks in lengths:
            out.append(f'falls each {clocks} clocks lines' + places([n == clocks for n in lengths]))
    findings = sum(line.endswith(' out') for line in out)
    out.append(f'ntsc out {findings}' if findings else 'ntsc ok')
    return out


def main():
    text = []
    for line in sys.stdin.read().splitlines():
        if line.startswith('|'):
            text.append(line[1:])
        elif line == 'text':
            text = []
        elif line == 'tell':
            print('\n'.join(told(text)))
        else:
            print(line)


main()
