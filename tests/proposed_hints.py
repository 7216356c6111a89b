#!/usr/bin/env python3
"""Has `hints` propose hints for each kernel of the examples, and looks whether `find` accepts them as they are.

    proposed_hints.py [PROGRAM]

PROGRAM is the program, else the variable UZEBOX, else `uzebox` at the top of the repository. Of each kernel: what
`hints` prints after 4,000,000 clocks, whether `find` finds a certificate by what it wrote, whether `check` accepts
that, and whether a run enters it. The two kernels with a main in C are compiled first, where avr-gcc is installed.
The same with drawn pads of four kernels, and of a kernel for an interrupt response of 5. Then, of runs that are too
short, the distances of the last falls beside those of `trace`, and what `hints` answers to programs that show no
frame, no loop of main or no fall, or that stop, and that it writes no file then.
"""
import os
import random
import shutil
import subprocess
import sys
import tempfile

from outcomes import EXAMPLES, Outcomes, binary, program

CLOCKS = '4000000'

# each source, and what is printed of its hints and of its certificate
KERNELS = [
    ('ring', 'hints 1 lines 2 facts 0 cells', 'accepted lines 1 clocks 1820'),
    ('loop-ring', 'hints 1 lines 2 facts 0 cells', 'accepted lines 1 clocks 1820'),
    ('pulse', 'hints 1 lines 0 facts 0 cells', 'accepted lines 1 clocks 1820'),
    ('button', 'hints 1 lines 0 facts 0 cells', 'accepted lines 1 clocks 1820'),
    ('half-pulse', 'hints 2 lines 0 facts 1 cells', 'accepted lines 2 clocks 2730'),
    ('console', 'hints 262 lines 2 facts 1 cells', 'accepted lines 262 clocks 476840'),
    ('vertical-sync', 'hints 271 lines 0 facts 2 cells', 'accepted lines 271 clocks 476840'),
    ('tiles', 'hints 271 lines 0 facts 2 cells', 'accepted lines 271 clocks 476840'),
]

# those of them that are run with drawn pads too
PRESSED = ['button', 'console', 'vertical-sync', 'tiles']

# pulse for a response of 5: its handler samples one clock later
FIVE = "sed 's/subi r30,10/subi r30,11/; s/lines 1, 23/lines 1, 24/' pulse.asm >five.asm"

# mains in C: how their HEX files are made
GAME = [
    'avr-gcc -mmcu=atmega644 -Os -o game.elf game.c game-handler.S -Wl,--section-start=.screen=0x800200,--section-start=.cells=0x800300',
    'avr-objcopy -O ihex -j .text -j .data game.elf game.hex',
]
TILES = [
    "printf '.include %s\\n' tiles-memory.asm tiles-macros.asm tiles-handler.asm tiles-data.asm >handler.asm",
    '"$UZEBOX" build handler.asm handler.hex',
    'avr-gcc -mmcu=atmega644 -Os -Wl,--section-start=.data=0x800800,--defsym=__vector_13=0x2000 -o main.elf tiles-main.c',
    'avr-objcopy -O ihex -j .text -j .data main.elf main.hex',
    '(grep -v ^:00000001 main.hex; cat handler.hex) >tiles-main.hex',
]

# programs for which there are no hints: their source, the clocks of the run, the last line that is printed
NONE = [
    ('an image of one SPM', '.dw 0x95E8\n', CLOCKS, 'no hints Stopped'),
    ('no interrupt and no sync', 'loop: rjmp loop\n', CLOCKS, 'no hints Loop'),
    ('a run that is too short', None, '1000', 'no hints Frame'),
]


def said(path, folder, *words):
    ran = subprocess.run([path, *words], cwd=folder, capture_output=True, text=True, timeout=120)
    return ran.returncode, ran.stdout.split('\n')[:-1]


def try_kernel(outcomes, path, folder, name, wanted, accepted, pads='no-pads.txt', irq='4'):
    for file in ('found.hints', 'found.cert'):
        if os.path.exists(os.path.join(folder, file)):
            os.remove(os.path.join(folder, file))
    proposed = said(path, folder, 'hints', name + '.hex', pads, irq, CLOCKS, 'found.hints')
    outcomes.tell(proposed[0] == 0 and (wanted is None or proposed[1] == [wanted]), '%s: hints says %s' % (name, proposed))
    found = said(path, folder, 'find', name + '.hex', 'found.hints', irq, 'found.cert')
    outcomes.tell(found == (0, [accepted]), '%s: find says %s' % (name, found))
    checked = said(path, folder, 'check', name + '.hex', 'found.cert')
    outcomes.tell(checked == (0, [accepted]), '%s: check says %s' % (name, checked))
    played = said(path, folder, 'play', name + '.hex', 'found.cert', pads, CLOCKS, 'frames')
    outcomes.tell(played[0] == 0 and played[1][0].startswith('entered '), '%s: play says %s' % (name, played))


def try_none(outcomes, path, folder, what, source, clocks, last):
    name = 'pulse'
    if source is not None:
        name = 'none'
        with open(os.path.join(folder, 'none.asm'), 'w') as out:
            out.write(source)
        said(path, folder, 'asm', 'none.asm', 'none.hex')
    status, lines = said(path, folder, 'hints', name + '.hex', 'no-pads.txt', '4', clocks, 'no.hints')
    outcomes.tell(status == 4 and lines[-1:] == [last], '%s: hints says %s, status %d' % (what, lines, status))
    outcomes.tell(not os.path.exists(os.path.join(folder, 'no.hints')), '%s: a file is written' % what)


def try_falls(outcomes, path, folder, clocks):
    traced = said(path, folder, 'trace', 'vertical-sync.hex', 'no-pads.txt', '4', clocks)[1]
    falls = [int(line.split(' ')[0]) for line in traced if line.endswith(' sync 0')][-5:]
    wanted = 'falls ' + ' '.join(str(b - a) for a, b in zip(falls, falls[1:]))
    lines = said(path, folder, 'hints', 'vertical-sync.hex', 'no-pads.txt', '4', clocks, 'no.hints')[1]
    outcomes.tell(wanted in lines, '%s clocks: hints says %s, and not %s' % (clocks, lines, wanted))


def make(path, folder, commands):
    subprocess.run('\n'.join(commands), shell=True, cwd=folder, env=dict(os.environ, UZEBOX=path), check=True, stdout=subprocess.DEVNULL)


def main():
    path = binary(program(sys.argv[1:], __doc__))
    outcomes = Outcomes()
    with tempfile.TemporaryDirectory() as top:
        folder = os.path.join(top, 'kernels')
        shutil.copytree(EXAMPLES, folder)
        for name, wanted, accepted in KERNELS:
            said(path, folder, 'build', name + '.asm', name + '.hex')
            try_kernel(outcomes, path, folder, name, wanted, accepted)
        drawn = random.Random(5)
        with open(os.path.join(folder, 'drawn.txt'), 'w') as out:
            out.writelines('%04X %04X\n' % (drawn.getrandbits(12), drawn.getrandbits(12)) for _ in range(60000))
        for name, wanted, accepted in KERNELS:
            if name in PRESSED:
                try_kernel(outcomes, path, folder, name, None, accepted, 'drawn.txt')
        make(path, folder, [FIVE, '"$UZEBOX" build five.asm five.hex'])
        try_kernel(outcomes, path, folder, 'five', 'hints 1 lines 0 facts 0 cells', 'accepted lines 1 clocks 1820', irq='5')
        if shutil.which('avr-gcc') and shutil.which('avr-objcopy'):
            make(path, folder, GAME)
            try_kernel(outcomes, path, folder, 'game', None, 'accepted lines 262 clocks 476840')
            make(path, folder, TILES)
            try_kernel(outcomes, path, folder, 'tiles-main', None, 'accepted lines 271 clocks 476840')
        else:
            outcomes.skip('avr-gcc is not installed', 8)
        for clocks in ('21000', '23000', '100000'):
            try_falls(outcomes, path, folder, clocks)
        for row in NONE:
            try_none(outcomes, path, folder, *row)
    outcomes.end()


if __name__ == '__main__':
    main()
