#!/usr/bin/env python3
"""Measures the commands, and prints the tables of BENCHMARKS.md.

    benchmarks.py UZEBOX EXAMPLES [RUNS [WORD ...]]

UZEBOX is the built program, EXAMPLES the folder `examples/`. Each command is run so many times (7, where nothing is said) in a folder
that goes at the end, those that take over five seconds once; of the runs the least processor time counts, user's and system's
together, and of memory the most that the process held, where that is more than this script holds. With words only the rows are run
whose command has one of them.

    benchmarks.py UZEBOX EXAMPLES instructions

counts instructions of x86-64 instead (`valgrind --tool=callgrind`), which no other work on the machine changes.

    benchmarks.py UZEBOX EXAMPLES live

plays 100 frames by the library for C (that of the variable UZEBOX_C, else the one in release/), traces as many clocks, and prints what
a frame takes of both: the least time of 15 runs, made in turn, and the instructions of ten frames after the first.
"""
import os
import re
import shutil
import subprocess
import sys
import tempfile

from outcomes import usage

HERE = os.path.dirname(os.path.abspath(__file__))
EMBED = os.path.join(HERE, '..', 'embed')
LIBRARY = os.environ.get('UZEBOX_C') or os.path.join(HERE, '..', 'release', 'x86_64-linux', 'libuzebox_c.a')
LONG = 5.0  # seconds
LEAST = 16  # MB: more than a process has of this one when it begins


def turns(top):
    """A main loop of 32 * (256 - top) turns in place of one of none."""
    with open('pulse.asm') as source:
        loop = 'loop: ldi r24,0\n ldi r25,%d\nturn: adiw r24,1\n nop\n nop\n nop\n brne turn\n rjmp loop' % top
        return source.read().replace('loop: rjmp loop', loop)


def names():
    """Each name by the one before it, up to the most bytes of a source."""
    lines, size, count = ['a0: .equ n0 = 1'], 16, 1
    while True:
        line = '.equ n%d = n%d + 1 & 255' % (count, count - 1)
        size += len(line) + 1
        if size > 1048560:
            return '\n'.join(lines) + '\n'
        lines.append(line)
        count += 1


def facts(lines):
    """A ring of 50 lines with a loop of 255 turns in each, and these lines before the loop's first instruction."""
    return '\n'.join(
        ['.lines 50, 1', '.stack 4350, 4351, 0, 0', '.start alone, loop', ' ldi r16,0', ' ldi r17,1', ' ldi r26,1', ' ldi r27,0',
         '.fact r16, 0, 0', '.fact r17, 1, 1', '.fact r26, 1, 1', '.fact r27, 0, 0', '.fact r24, 0, 255', 'loop: out PORTB,r16']
        + [' nop'] * 135 + [' out PORTB,r17', ' ldi r24,255'] + lines + ['wait: dec r24', ' brne wait'] + [' nop'] * 916
        + [' rjmp loop', ''])


def made(tool, *words):
    return subprocess.run([sys.executable, os.path.join(HERE, tool), *words], check=True, capture_output=True, text=True).stdout


def older(text):
    """A certificate in version 1 of its text."""
    return re.sub(r'^(kind \d+) 1820$', r'\1', text.replace('uzcert 2', 'uzcert 1', 1), flags=re.M)


def put(name, text):
    with open(name, 'w') as out:
        out.write(text)


def write_inputs(uzebox):
    """All files of the rows, in the current folder."""
    def run(words):
        subprocess.run([uzebox, *words.split()], check=True, stdout=subprocess.DEVNULL)

    put('pads.txt', '0001 0000\n')
    put('names.asm', names())
    put('labels.asm', ''.join('a%d: ldi r16,lo8(a%d) ;\n' % (k, (k + 7919) % 31000) for k in range(31000)))
    put('lines.asm', '\n' * 1048576)
    put('turns.asm', turns(0xE0))
    put('many-turns.asm', turns(0x80))
    for lines in '12':
        put('alone-%s.asm' % lines, made('alone_source.py', lines))
    for thousands in (125, 250, 500):
        put('long-%d.asm' % thousands, made('long_source.py', str(1000 * thousands)))
    put('no-facts.asm', facts([]))
    put('equal-facts.asm', facts(['.fact r16,0,0'] * 70000))
    put('single-facts.asm', facts(['.fact r24,%d,%d' % (k % 255, k % 255) for k in range(58000)]))
    put('repeated.asm', '.rept 65535\n nop\n.endr\n')
    put('blocks.asm', '.if 1\n.endif\n' * 50000)
    put('passed-over.asm', '.rept 65535\n.if 0\n%s.endif\n.endr\n' % ('\n' * 100000))
    put('calls.asm', '.macro m\n.if 0\n%s.endif\n.endm\n%s' % (' nop ;@0\n' * 50000, ' m 0\n' * 40000))
    put('step.txt', 'step 66000000\n')
    put('back.txt', 'step 66000000\nback 5\nback 4000\nback 1000000\n')
    put('end.hex', ':00000001FF\n')
    with open('full.cert', 'wb') as full:
        full.truncate(1 << 30)
    subprocess.run([sys.executable, os.path.join(HERE, 'slow_certificates.py'), '.'], check=True)
    with open('points.cert') as points:
        put('points-1.cert', older(points.read()))
    run('build tiles.asm tiles.hex')
    run('expand tiles.asm tiles-flat.asm')
    run('expand vertical-sync.asm vertical-sync-flat.asm')
    run('asm labels.asm labels.hex')
    run('certify console.asm 4 console.hex console.cert')
    run('certify tiles-flat.asm 4 tiles.hex tiles.cert')


COMMANDS = [
    'check ring.hex ring.cert',
    'check console.hex console.cert',
    'check tiles.hex tiles.cert',
    'report console.hex console.cert',
    'certify console.asm 4 a.hex a.cert',
    'certify tiles-flat.asm 4 a.hex a.cert',
    'certify vertical-sync-flat.asm 4 a.hex a.cert',
    'trace console.hex no-pads.txt 4 100000000',
    'wave console.hex no-pads.txt 4 100000000 a.wav',
    'play console.hex console.cert no-pads.txt 100000000 frames',
    'debug console.hex no-pads.txt 4 step.txt',
    'debug console.hex no-pads.txt 4 back.txt',
    'asm names.asm a.hex',
    'asm labels.asm a.hex',
    'asm lines.asm a.hex',
    'dis labels.hex',
    'migrate points-1.cert a.cert',
    'expand repeated.asm a.asm',
    'expand blocks.asm a.asm',
    'expand passed-over.asm a.asm',
    'expand calls.asm a.asm',
    'certify long-125.asm 4 a.hex a.cert',
    'certify long-250.asm 4 a.hex a.cert',
    'certify long-500.asm 4 a.hex a.cert',
    'certify turns.asm 4 a.hex a.cert',
    'certify many-turns.asm 4 a.hex a.cert',
    'certify alone-1.asm 4 a.hex a.cert',
    'certify alone-2.asm 4 a.hex a.cert',
    'certify no-facts.asm 4 a.hex a.cert',
    'certify equal-facts.asm 4 a.hex a.cert',
    'certify single-facts.asm 4 a.hex a.cert',
    'check points.hex points.cert',
    'check small.hex small.cert',
    'check successors.hex successors.cert',
    'check cells.hex cells.cert',
    'check instances.hex instances.cert',
    'check events.hex events.cert',
    'check together.hex together.cert',
    'check counts.hex counts.cert',
    'check even.hex even.cert',
    'check end.hex full.cert',
]

COUNTED = [
    'check console.hex console.cert',
    'certify console.asm 4 a.hex a.cert',
    'trace console.hex no-pads.txt 4 1',
    'trace console.hex no-pads.txt 4 3000000',
    'wave console.hex no-pads.txt 4 3000000 a.wav',
    'play console.hex console.cert no-pads.txt 3000000 frames',
]


KERNELS = ['console', 'tiles', 'vertical-sync']
FRAMES = 100

HOST = r'''
#include "uzebox.h"
#include <stdio.h>
#include <stdlib.h>
int main(int count, char **words) {
    static uint8_t hex[1 << 20], records[1 << 18];
    static uzebox_state state;
    FILE *file = count == 3 ? fopen(words[1], "rb") : NULL;
    size_t length = file ? fread(hex, 1, sizeof hex, file) : 0;
    uzebox_answer answer = uzebox_reset(hex, length, 4, &state);
    for (int k = 0; k < atoi(words[2]) && answer.status == UZEBOX_FRAME; k++)
        answer = uzebox_frame(hex, length, &state, 0, 0, 1000000, records, sizeof records);
    printf("%llu\n", (unsigned long long)state.clock);
    return (int)answer.status;
}
'''


def measured(words, printed='out.txt'):
    """Processor time in seconds and memory in MB of one run, and its last line."""
    with open(printed, 'w') as out:
        process = subprocess.Popen(words, stdout=out, stdin=subprocess.DEVNULL)
        _, status, used = os.wait4(process.pid, 0)
        process.returncode = os.waitstatus_to_exitcode(status)
    if printed != 'out.txt':
        return used.ru_utime + used.ru_stime, used.ru_maxrss / 1000, ''
    with open('out.txt', 'rb') as out:
        out.seek(max(0, os.path.getsize('out.txt') - 200))
        lines = out.read().decode().splitlines()
    return used.ru_utime + used.ru_stime, used.ru_maxrss / 1000, lines[-1] if lines else ''


def row(uzebox, command, runs):
    words = [uzebox, *command.split()]
    time, memory, line = measured(words)
    for _ in range(1, runs if time < LONG else 1):
        again = measured(words)
        time, memory = min(time, again[0]), max(memory, again[1])
    shown = '%.0f ms' % (1000 * time) if time < 1 else '%.1f s' % time
    held = '%.0f MB' % memory if memory > LEAST else ''
    print('| `%s` | %s | %s | `%s` |' % (command, shown, held, line), flush=True)


def instructions_of(words):
    """In millions."""
    ran = subprocess.run(['valgrind', '--tool=callgrind', '--callgrind-out-file=/dev/null', *words], stdout=subprocess.DEVNULL,
                         stderr=subprocess.PIPE, text=True)
    return int(re.search(r'Collected : (\d+)', ran.stderr)[1]) / 1e6


def counted(uzebox, command):
    print('| `%s` | %.1f million |' % (command, instructions_of([uzebox, *command.split()])), flush=True)


def live(uzebox, kernel):
    """A frame of live play beside `trace` over as many clocks."""
    def commands(frames):
        play = ['./host', kernel + '.hex', str(frames)]
        return play, [uzebox, 'trace', kernel + '.hex', 'no-pads.txt', '4', measured(play)[2]]

    times = [[measured(words, os.devnull)[0] for words in commands(FRAMES)] for _ in range(15)]
    mine, other = (1000 * min(one) / FRAMES for one in zip(*times))
    first, later = ([instructions_of(words) for words in commands(frames)] for frames in (1, 11))
    some, others = ((b - a) / 10 for a, b in zip(first, later))
    print('| `%s.hex` | %.1f ms | %.1f ms | %.2f | %.1f million | %.1f million | %.2f |'
          % (kernel, mine, other, mine / other, some, others, some / others), flush=True)


def main():
    if len(sys.argv) < 3:
        usage(__doc__)
    uzebox, examples, rest = os.path.abspath(sys.argv[1]), os.path.abspath(sys.argv[2]), sys.argv[3:]
    if rest == ['inputs']:
        return write_inputs(uzebox)
    with tempfile.TemporaryDirectory() as folder:
        shutil.copytree(examples, folder, dirs_exist_ok=True)
        os.chdir(folder)
        if rest == ['live']:
            put('host.c', HOST)
            subprocess.run(['cc', '-O2', '-I', EMBED, '-o', 'host', 'host.c', os.path.abspath(LIBRARY)], check=True)
            print('| Kernel | A frame | of `trace` | Ratio | A frame | of `trace` | Ratio |\n|---|---|---|---|---|---|---|')
            for kernel in KERNELS:
                subprocess.run([uzebox, 'build', kernel + '.asm', kernel + '.hex'], check=True, stdout=subprocess.DEVNULL)
                live(uzebox, kernel)
            os.chdir(HERE)
            return
        # in a process of its own, so that this one stays small
        subprocess.run([sys.executable, os.path.join(HERE, 'benchmarks.py'), uzebox, examples, 'inputs'], check=True)
        if rest == ['instructions']:
            print('| Command | Instructions |\n|---|---|')
            for command in COUNTED:
                counted(uzebox, command)
        else:
            runs = int(rest[0]) if rest else 7
            print('| Command | Time | Memory | Last line |\n|---|---|---|---|')
            for command in COMMANDS:
                if not rest[1:] or any(word in command.split() for word in rest[1:]):
                    row(uzebox, command, runs)
        os.chdir(HERE)


if __name__ == '__main__':
    main()
