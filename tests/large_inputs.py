#!/usr/bin/env python3
"""Runs the program on inputs of size, each for a few seconds at most, and on too little memory.

    large_inputs.py [PROGRAM [NAME ..]]

PROGRAM is the program, else the variable UZEBOX, else `uzebox` at the top of the repository. With names only these tests run;
they are the functions below that begin with `test_`, without it. Want of memory is the one answer that no contract ties to a
cause: so these show that memory doesn't lack above some size, and that `no memory` is printed where it does. What is to come is
reckoned here by other ways than the program's, or by another of its commands.
"""
import os
import re
import subprocess
import sys
import tempfile
import wave

from benchmarks import older
from outcomes import EXAMPLES, HERE, Outcomes, binary, program, run, usage
from slow_certificates import hex_text, write_small

NO_MEMORY = (8, b'no memory\n')
CLOCKS = 20000000


class Bench:
    """A folder of files, and commands that run in it."""

    def __init__(self, path, folder, outcomes):
        self.path, self.folder, self.outcomes, self.name = path, folder, outcomes, ''

    def at(self, name):
        return os.path.join(self.folder, name)

    def put(self, name, text):
        with open(self.at(name), 'w') as file:
            file.write(text)

    def get(self, name):
        """A file's bytes; none where it isn't there."""
        if not os.path.exists(self.at(name)):
            return b''
        with open(self.at(name), 'rb') as file:
            return file.read()

    def run(self, command, **others):
        return run([self.path, *command.split()], self.folder, **others)

    def gives(self, command, status, text, **others):
        self.equal(command, (status, text.encode()), self.run(command, **others))

    def equal(self, what, wanted, got):
        return self.outcomes.equal('%s: %s' % (self.name, what), wanted, got)


def example(name):
    with open(os.path.join(EXAMPLES, name)) as file:
        return file.read()


def test_report_of_525_rests(bench):
    """The handler of `pulse.asm` returns once a line, and main has 1786 to 1789 clocks then."""
    bench.put('rests.asm', example('pulse.asm').replace('.lines 1,', '.lines 525,'))
    bench.gives('certify rests.asm 4 rests.hex rests.cert', 0, 'accepted lines 525 clocks 955500\n')
    bench.equal('rests of the certificate', 525, bench.get('rests.cert').count(b'\nrest '))
    lines = ''.join('line %d least 1786 most 1789\n' % line for line in range(525))
    bench.gives('report rests.hex rests.cert', 0, lines + 'frame least %d most %d\n' % (525 * 1786, 525 * 1789))


def test_trace_of_20_million_clocks(bench):
    """Sync of the ring rises 139 clocks after reset and falls 1684 later, and so on each 1820 clocks."""
    bench.put('ring.hex', example('ring.hex'))
    lines, clock, level = [], 139, 1
    while clock <= CLOCKS:
        lines.append('%d sync %d\n' % (clock, level))
        clock, level = clock + (1684 if level else 136), 1 - level
    bench.gives('trace ring.hex no-pads.txt 4 %d' % CLOCKS, 0, ''.join(lines) + 'end %d\n' % CLOCKS)


def rows_of(data):
    """The rows of each frame of a file that `play` wrote, by the lengths of its records."""
    frames, rows, at = [], 0, 0
    while at < len(data):
        if data[at] == 0x46:
            frames.append(rows)
            rows, at = 0, at + 5
        else:
            rows, at = rows + 1, at + 461
    return frames, rows


def sound_of(path):
    """Channels, bytes of a sample, rate and samples of a WAVE file, or why it can't be read."""
    try:
        with wave.open(path) as sound:
            return [sound.getnchannels(), sound.getsampwidth(), sound.getframerate(), sound.getnframes()]
    except (OSError, EOFError, wave.Error) as why:
        return str(why)


def test_play_and_wave_of_20_million_clocks(bench):
    """`play` and `wave` count what `trace` shows: its edges, and a sample for each fall of sync that ends a line."""
    bench.put('console.asm', example('console.asm'))
    bench.gives('certify console.asm 4 console.hex console.cert', 0, 'accepted lines 262 clocks 476840\n')
    status, text = bench.run('trace console.hex no-pads.txt 4 %d' % CLOCKS)
    edges = {name: len(re.findall(rb'^\d+ %s' % name, text, re.M)) for name in (b'sync', b'pixel', b'sound', b'sync 0')}
    bench.equal('end of the trace', (0, b'end %d\n' % CLOCKS), (status, text[text.rfind(b'end'):]))
    status, text = bench.run('play console.hex console.cert no-pads.txt %d frames' % CLOCKS)
    said = re.fullmatch(rb'entered clock 1328 line 261\nframes (\d+) rows (\d+) sync (\d+) pixels (\d+) sounds (\d+)\n', text)
    frames, rows, *counts = map(int, said.groups()) if said else [0] * 5
    bench.equal('edges that play counts', (0, [edges[b'sync'], edges[b'pixel'], edges[b'sound']]), (status, counts))
    found, left = rows_of(bench.get('frames'))
    bench.equal('frames that play writes', (frames, rows), (len(found), sum(found) + left))
    bench.equal('frames in so many clocks', CLOCKS // 476840, frames)
    bench.gives('wave console.hex no-pads.txt 4 %d console.wav' % CLOCKS, 0, 'samples %d\n' % (edges[b'sync 0'] - 1))
    bench.equal('the sound file', [1, 1, 15734, edges[b'sync 0'] - 1], sound_of(bench.at('console.wav')))


def test_wave_of_millions_of_samples(bench):
    """Sync falls at clock 4 and each eight clocks after it: each fall but the first ends a line, which has a sample."""
    bench.put('fast.asm', '  sbi PORTB,0\nloop: cbi PORTB,0\n  sbi PORTB,0\n  rjmp .\n  rjmp loop\n')
    bench.gives('asm fast.asm fast.hex', 0, 'assembled bytes 10\n')
    for clocks in (8 * 1100000, CLOCKS):
        samples = (clocks - 4) // 8
        bench.gives('wave fast.hex no-pads.txt 4 %d fast.wav' % clocks, 0, 'samples %d\n' % samples)
        bench.equal('bytes of the sound file', 44 + samples + samples % 2, len(bench.get('fast.wav')))


def test_wave_of_the_most_clocks(bench):
    """The ring for 1,000,000,000 clocks, the most that CLOCKS allows: sync falls at 1823 and each 1820 clocks after it."""
    bench.put('ring.hex', example('ring.hex'))
    bench.gives('wave ring.hex no-pads.txt 4 1000000000 long.wav', 0, 'samples %d\n' % ((1000000000 - 1823) // 1820))


def halves_source():
    """A program that is alone in 42 lines, of which every second one has 910 clocks: 40 hints with 16 cells, and 1,100 facts at one
    instruction, each of which says the same."""
    hints = ['.lines 42, 1', '.stack 4300, 4351, 0, 0', '.start alone, loop']
    hints += ['.half %d, %d' % (line, line) for line in range(0, 42, 2)]
    hints += ['.cell %d, main, 0, 255' % (256 + k) for k in range(16)]
    lines = hints + ['  ldi r16,0', '  ldi r17,1'] + ['.fact r16, 0, 0', '.fact r17, 1, 1'] * 550 + ['loop:']
    for line in range(42):
        clocks = 910 if line % 2 == 0 else 1820
        rest = clocks - 11 - (3 if line == 41 else 0)  # JMP takes three
        lines += ['  out PORTB,r16'] + ['  nop'] * 9 + ['  out PORTB,r17'] + ['  rjmp .'] * (rest // 2) + ['  nop'] * (rest % 2)
    return '\n'.join(lines + ['  jmp loop', ''])


def test_certify_by_40_hints_and_1100_facts(bench):
    bench.put('hints.asm', halves_source())
    bench.gives('certify hints.asm 4 hints.hex hints.cert', 0, 'accepted lines 42 clocks %d\n' % (21 * 910 + 21 * 1820))
    bench.gives('check hints.hex hints.cert', 0, 'accepted lines 42 clocks %d\n' % (21 * 910 + 21 * 1820))


def test_certify_half_lines_with_response_5(bench):
    """The kernel with a half line, made for an interrupt of five clocks: all that it shows comes a clock later."""
    source = example('half-pulse.asm').replace('subi r30,10', 'subi r30,11').replace('.lines 2, 23', '.lines 2, 24')
    bench.put('five.asm', source)
    bench.gives('certify five.asm 5 five.hex five.cert', 0, 'accepted lines 2 clocks 2730\n')
    bench.gives('check five.hex five.cert', 0, 'accepted lines 2 clocks 2730\n')
    bench.equal('the first lines of the certificate', [b'irq 5', b'fall 24'],
                [line for line in bench.get('five.cert').split(b'\n') if line[:4] in (b'irq ', b'fall')])


def whole_image():
    """The words of the ring, and after them words of no meaning up to the flash's end."""
    ring = [0xE000, 0xE011, 0xB905] + [0] * 135 + [0xB915] + [0] * 1681 + [0xC8E5]
    return ring + [k * 40503 % 65536 for k in range(len(ring), 32768)]


def test_image_of_65536_bytes(bench):
    words = whole_image()
    bench.put('whole.asm', ''.join('.dw %d\n' % word for word in words))
    bench.gives('asm whole.asm whole.hex', 0, 'assembled bytes 65536\n')
    bench.equal('the HEX file', hex_text(words).encode(), bench.get('whole.hex'))
    status, text = bench.run('dis whole.hex')
    listed = re.findall(rb'^([0-9A-F]{4}): ([0-9A-F]{4}) ([0-9A-F]{4}|    ) .', text, re.M)
    found = [word for line in listed for word in line[1:] if word.strip()]
    bench.equal('the words of the listing', (0, [b'%04X' % word for word in words]), (status, found))
    bench.gives('trace whole.hex no-pads.txt 4 2000', 0, '139 sync 1\n1823 sync 0\n1959 sync 1\nend 2000\n')
    bench.put('ring.cert', example('ring.cert'))
    bench.gives('check whole.hex ring.cert', 0, 'accepted lines 1 clocks 1820\n')
    bench.gives('report whole.hex ring.cert', 0, 'frame least 0 most 0\n')


def test_flat_text_of_1000000_bytes(bench):
    line = '  nop ; %s' % ('x' * 41)
    bench.put('flat.asm', '.rept 20000\n%s\n.endr\n' % line)
    bench.gives('expand flat.asm made.asm', 0, 'expanded lines 20000\n')
    bench.equal('the flat text', ((line + '\n') * 20000).encode(), bench.get('made.asm'))
    bench.gives('build flat.asm flat.hex', 0, 'assembled bytes 40000\n')
    bench.equal('the HEX file', hex_text([0] * 20000).encode(), bench.get('flat.hex'))


def test_certificate_of_524288_points(bench):
    """The certificate is read (its first point is refused), and what `migrate` writes of its older text is the same text."""
    write_small(bench.folder, 'small')
    text = bench.get('small.cert')
    bench.put('older.cert', older(text.decode()))
    bench.gives('check small.hex small.cert', 4, 'refused point 0 pc 0x0000 line 0 count 0 Opcode\n')
    bench.gives('migrate older.cert newer.cert', 0, 'migrated points 524288\n')
    bench.equal('the migrated certificate', text, bench.get('newer.cert'))


def test_search_of_the_most_instances(bench):
    """Up to 524,287 instances a source is certified, and joined; with more the search is full."""
    for asked in (524287, 530000):
        source = subprocess.run([sys.executable, os.path.join(HERE, 'long_source.py'), str(asked)], capture_output=True, text=True)
        bench.put('%d.asm' % asked, source.stdout)
    found = re.match(r'; (\d+) instances: \d+ on each of (\d+)', source.stdout)
    bench.gives('certify 524287.asm 4 a.hex a.cert', 0, 'accepted lines 289 clocks %d\n' % (289 * 1820))
    bench.equal('more than the most', True, bool(found) and int(found[1]) > 524288)
    bench.gives('certify 530000.asm 4 b.hex b.cert', 4, 'refused full 524288\n')


def growing_macro():
    """Macros of which each calls the next one with its argument four times: the last one's line has above 16,777,216 bytes."""
    lines = []
    for depth in range(12):
        lines += ['.macro m%d' % depth, '  m%d @0@0@0@0' % (depth + 1), '.endm']
    return '\n'.join(lines + ['.macro m12', '  nop ; @0', '.endm', '  m0 x', ''])


def test_no_memory(bench):
    """Where memory lacks, `no memory` is all that is printed, with its line's end, and nothing is written."""
    write_small(bench.folder, 'small')
    bench.put('older.cert', older(bench.get('small.cert').decode()))
    bench.put('lines.asm', '\n' * 1048576)
    bench.put('wait.asm', subprocess.run([sys.executable, os.path.join(HERE, 'long_source.py'), '400000'],
                                         capture_output=True, text=True).stdout)
    rows = [
        (24, 'check small.hex small.cert', None),
        (24, 'report small.hex small.cert', None),
        (24, 'play small.hex small.cert no-pads.txt 100 made', 'made'),
        (24, 'migrate older.cert made', 'made'),
        (24, 'certify wait.asm 4 wait.hex made', 'made'),
        (12, 'asm lines.asm made', 'made'),
    ]
    for room, command, made in rows:
        bench.gives(command, *(8, 'no memory\n'), room=room << 20)
        if made:
            bench.equal('file of ' + command, False, os.path.exists(bench.at(made)))
    bench.put('growing.asm', growing_macro())
    for command in ('expand', 'build'):
        bench.gives(command + ' growing.asm made', 8, 'no memory\n')


TESTS = {name[5:]: value for name, value in list(globals().items()) if name.startswith('test_')}


def main():
    words = sys.argv[1:]
    if not set(words[1:]) <= set(TESTS):
        usage(__doc__)
    path = binary(program(words[:1], __doc__))
    outcomes = Outcomes()
    for name in words[1:] or TESTS:
        with tempfile.TemporaryDirectory() as folder:
            bench = Bench(path, folder, outcomes)
            bench.name = name.replace('_', ' ')
            bench.put('no-pads.txt', '')
            TESTS[name](bench)
    outcomes.end()


if __name__ == '__main__':
    main()
