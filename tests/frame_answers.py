#!/usr/bin/env python3
"""What crates/frame_cases is to print: reads its script on standard input, and works each row out from other commands.

python3 tests/frame_answers.py UZEBOX <crates/frame_cases/stdin | cmp - crates/frame_cases/stdout
python3 tests/frame_answers.py UZEBOX kernels: the HEX texts that the script has, one after another

The records are those that `play` writes over a pad file with the pairs that the script's latches find; their clocks are
those of the edges that `trace` lists. The kernels are two of the examples: one is changed to latch the pads once a
frame, 16 lines and some clocks after the frame's begin, and to show them in its rows; and this one again, so that it
stops there.
"""
import subprocess
import sys
import tempfile
from pathlib import Path

EXAMPLES = Path(__file__).resolve().parent.parent / 'examples'
UZEBOX = sys.argv[1]
ROOM = tempfile.TemporaryDirectory()
LAST, LINE, HELD = 4_000_000, 1820, 65536
CHANGES = [
    ('.equ pad = ', '.equ pads = '),
    ('loop: sbi PORTA,2\n', 'loop: lds r19,line\n  cpi r19,20\n  brne loop\n  sbi PORTA,2\n'),
    ('  ror r20\n', '  ror r20\n  lsr r19\n  ror r23\n  ror r22\n'),
    ('  sts pad,r20\n  sts pad+1,r21\n  rjmp loop\n',
     '  add r20,r21\n  add r20,r22\n  sub r20,r23\n  sts pads,r20\n  nop\n'
     'same: lds r19,line\n  cpi r19,20\n  breq same\n  rjmp loop\n'),
    ('row: mov r29,r30 ', 'row: lds r29,pads\n  add r29,r30\n  nop\n;'),
    ('  ldi r31,75\n', '  ldi r31,74\n'),
]


def at(name):
    return str(Path(ROOM.name) / name)


def uzebox(*words, status=0):
    done = subprocess.run([UZEBOX, *words], capture_output=True, text=True)
    assert done.returncode == status, (words, done)
    return done.stdout


def shown_pads():
    source = (EXAMPLES / 'console.asm').read_text()
    for old, new in CHANGES:
        assert source.count(old) == 1, old
        source = source.replace(old, new)
    return source


def kernels():
    """The HEX text of each kernel by its name, and the kernel that has its certificate and makes the same edges."""
    for name, source in [('pads', shown_pads()), ('stops', shown_pads().replace('  nop\nsame', '  spm\nsame'))]:
        Path(at(name + '.asm')).write_text(source)
    uzebox('expand', str(EXAMPLES / 'vertical-sync.asm'), at('sync.asm'))
    for name in ('pads', 'stops', 'sync'):
        uzebox('asm', at(name + '.asm'), at(name + '.hex'))
    texts = {name: Path(at(name + '.hex')).read_text().replace('\r', '') for name in ('pads', 'sync', 'stops')}
    return texts, {'pads': 'pads', 'stops': 'pads', 'sync': 'sync'}


def records_of(data):
    while data:
        size = 461 if data[0] == 0x52 else 5
        yield data[:size]
        data = data[size:]


def events_of(edges, records):
    """Each record with its clock, a row's at a fall, a frame's end at the rise that begins one; and those rises."""
    events, begins, fall, low, after_broad = [], [], None, None, False
    for clock, level in edges:
        if level == '0':
            if begins:
                events.append((clock, next(records)))
                assert events[-1][1][0] == 0x52
            after_broad, fall, low = (low or 0) >= 300, clock, None
        elif fall is not None:
            low = clock - fall
            if low < 300 and after_broad:
                if begins:
                    events.append((clock, next(records)))
                    assert events[-1][1][0] == 0x46
                begins.append(clock)
    return events, begins


def sum_of(data):
    total = 0
    for byte in data:
        total = (total * 31 + byte) % 2**32
    return total


class Run:
    """A kernel's run: where it is, and the events to come. Its clock is exact but after a quiet call."""

    def __init__(self, name, owner, pairs):
        Path(at('pads.txt')).write_text(''.join(f'{one:04X} {two:04X}\n' for one, two in pairs))
        uzebox('certify', at(owner + '.asm'), '4', at('own.hex'), at('own.cert'))
        uzebox('play', at('own.hex'), at('own.cert'), at('pads.txt'), str(LAST), at('frames'))
        self.stops = name == 'stops'
        listed = uzebox('trace', at(name + '.hex'), at('pads.txt'), '4', str(LAST), status=6 if self.stops else 0)
        edges = [(int(row.split()[0]), row.split()[2]) for row in listed.splitlines() if row.split()[1] == 'sync']
        self.events, begins = events_of(edges, records_of(Path(at('frames')).read_bytes()))
        self.latches = [begin + 16 * LINE + 100 for begin in begins if name != 'sync']
        self.clock, self.is_exact, self.left, self.pair = 0, True, 0, None
        self.latched = []

    def hold(self, pair):
        self.pair, self.left = pair, HELD

    def go(self, clock):
        passed = [latch for latch in self.latches if latch < clock]
        self.latches = self.latches[len(passed):]
        self.latched += [self.pair for _ in passed]
        self.left -= len(passed)
        self.clock = clock

    def next(self, until):
        """The next record before a clock, or how the call ended."""
        if self.events and self.events[0][0] < until:
            clock, record = self.events.pop(0)
            self.go(clock)
            self.is_exact = True
            return record
        assert not self.events or self.events[0][0] > until + 8
        assert self.events or self.stops
        if self.events:
            self.go(until)
            self.is_exact = False
            return 'quiet'
        self.go(min([until] + [latch + 1 for latch in self.latches[:1]]))
        return 'stopped'

    def frame(self, pair, clocks):
        self.hold(pair)
        until, data, rows = self.clock + clocks, b'', 0
        while True:
            record = self.next(until)
            if isinstance(record, str):
                return f'{record} rows {rows} sum {sum_of(data)} left {self.left}'
            data += record
            if record[0] == 0x46:
                return f'over rows {rows} sum {sum_of(data)} left {self.left}'
            rows += 1

    def advance(self, clocks):
        record = self.next(self.clock + clocks)
        if isinstance(record, str):
            return record
        return f'{"row" if record[0] == 0x52 else "end"} sum {sum_of(record)}'


def answers(rows, run):
    """What the rows of one run print."""
    for row in rows:
        word, *numbers = row.split(' ')
        yield row
        if word == 'frame':
            one, two, clocks = map(int, numbers)
            yield run.frame((one, two), clocks)
        elif word == 'hold':
            run.hold(tuple(map(int, numbers)))
        elif word == 'advance':
            yield run.advance(int(numbers[0]))
        elif word == 'reset':
            yield 'no image'
        elif word == 'clock':
            assert run.is_exact
            yield str(run.clock)


def settled(name, owner, rows):
    """The answers over the pairs that the latches find: which these are is known once the rows are gone through."""
    run = Run(name, owner, [])
    list(answers(rows, run))
    pairs = run.latched
    run = Run(name, owner, pairs)
    out = list(answers(rows, run))
    assert run.latched == pairs
    return out


def main():
    texts, owners = kernels()
    if sys.argv[2:] == ['kernels']:
        print(''.join(texts.values()), end='')
        return
    text, part, out = '', None, []
    parts = [(None, [])]
    for row in sys.stdin.read().splitlines():
        if row.startswith(':'):
            text += row + '\n'
        elif row == 'reset' and text:
            name = next(name for name in texts if texts[name] == text)
            parts.append((name, []))
            text = ''
        else:
            parts[-1][1].append(row)
    for head, rows in parts:
        if head:
            out += ['reset'] + settled(head, owners[head], rows)
        else:
            out += rows
    print('\n'.join(out))


main()
