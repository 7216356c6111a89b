#!/usr/bin/env python3
"""Compiles the mains in C of tests/mains, each with examples/game-handler.S, and has `hints`, `find`, `check` and `play` say
what they say of them.

    mains.py [PROGRAM]

PROGRAM is the program, else the variable UZEBOX, else `uzebox` at the top of the repository. A main that `find` accepts by
the hints of a run as they are is accepted by `check` too, and the run enters its claim. Of another one `why` tells the
refusal that the table has, and a way to it. Without avr-gcc all is skipped.
"""
import os
import shutil
import subprocess
import sys
import tempfile

from outcomes import EXAMPLES, Outcomes, binary, program

MAINS = os.path.join(os.path.dirname(os.path.abspath(__file__)), 'mains')
CLOCKS = '4000000'
ACCEPTED = 'accepted lines 262 clocks 476840'

# each main, and the version of its certificate's text, or how its refusal begins
TABLE = [
    ('fixed', 2),
    ('linked', 2),
    ('local-array', 2),
    ('print', 2),
    ('prng-fill', 2),
    ('ring', 2),
    ('rle', 2),
    ('snake', 2),
    ('struct-loop', 2),
    ('switch-state', 2),
    ('breakout', 3),
    ('level-entities', 3),
    ('memset-rt', 3),
    ('sin-table', 3),
    ('switch-big', 3),
    ('map2d', 'refused stuck'),
    ('print-u16', 'refused full'),
    ('struct-index', 'refused stuck'),
    ('tetris', 'refused stuck'),
    ('vram-tiles16', 'refused stuck'),
]


def said(path, folder, *words):
    ran = subprocess.run([path, *words], cwd=folder, capture_output=True, text=True, timeout=300)
    return ran.returncode, ran.stdout.split('\n')[:-1]


def compiled(folder, name):
    sources = [os.path.join(MAINS, name + '.c'), os.path.join(EXAMPLES, 'game-handler.S')]
    subprocess.run(
        ['avr-gcc', '-mmcu=atmega644', '-Os', '-I', MAINS, '-o', name + '.elf', *sources,
         '-Wl,-Tdata=0x800300,--section-start=.screen=0x800200,--section-start=.cells=0x801060'],
        cwd=folder, check=True)
    subprocess.run(
        ['avr-objcopy', '-O', 'ihex', '-j', '.text', '-j', '.data', name + '.elf', name + '.hex'], cwd=folder, check=True)


def try_accepted(outcomes, path, folder, name, version):
    found = said(path, folder, 'find', name + '.hex', 'run.hints', '4', name + '.cert')
    outcomes.tell(found == (0, [ACCEPTED]), '%s: find says %s' % (name, found))
    with open(os.path.join(folder, name + '.cert')) as text:
        first = text.readline()
    outcomes.tell(first == 'uzcert %d\n' % version, '%s: the text begins %s' % (name, first))
    checked = said(path, folder, 'check', name + '.hex', name + '.cert')
    outcomes.tell(checked == (0, [ACCEPTED]), '%s: check says %s' % (name, checked))
    played = said(path, folder, 'play', name + '.hex', name + '.cert', 'no-pads.txt', CLOCKS, 'frames')
    outcomes.tell(played[0] == 0 and played[1][0].startswith('entered '), '%s: play says %s' % (name, played))


def try_refused(outcomes, path, folder, name, refusal):
    found = said(path, folder, 'find', name + '.hex', 'run.hints', '4', name + '.cert')
    outcomes.tell(found[0] != 0 and found[1][0].startswith(refusal), '%s: find says %s' % (name, found))
    outcomes.tell(not os.path.exists(os.path.join(folder, name + '.cert')), '%s: find wrote a certificate' % name)
    told = said(path, folder, 'why', name + '.hex', 'run.hints', '4')
    outcomes.tell(told[0] == 4 and told[1][:1] == found[1] and len(told[1]) > 1, '%s: why says %s' % (name, told[1][:3]))


def try_main(outcomes, path, folder, name, wanted):
    compiled(folder, name)
    proposed = said(path, folder, 'hints', name + '.hex', 'no-pads.txt', '4', CLOCKS, 'run.hints')
    outcomes.tell(proposed[0] == 0, '%s: hints says %s' % (name, proposed))
    if isinstance(wanted, int):
        try_accepted(outcomes, path, folder, name, wanted)
    else:
        try_refused(outcomes, path, folder, name, wanted)


def main():
    path = binary(program(sys.argv[1:], __doc__))
    outcomes = Outcomes()
    if not (shutil.which('avr-gcc') and shutil.which('avr-objcopy')):
        outcomes.skip('avr-gcc is not installed', len(TABLE))
        outcomes.end()
    with tempfile.TemporaryDirectory() as folder:
        shutil.copy(os.path.join(EXAMPLES, 'no-pads.txt'), folder)
        for name, wanted in TABLE:
            try_main(outcomes, path, folder, name, wanted)
    outcomes.end()


if __name__ == '__main__':
    main()
