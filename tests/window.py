#!/usr/bin/env python3
"""Builds the window embed/window.c, has it play without a screen, and compares with the program.

    window.py [PROGRAM]

PROGRAM is the program, else the variable UZEBOX, else `uzebox` at the top of the repository. Of 120 frames of each game: all rows and
sounds are those of `play` over the pads that the window recorded. A certificate is checked first. Skipped where a C compiler, SDL2 or
the library, that of UZEBOX_LIBRARY or of one's own build or of release/, isn't there.
"""
import os
import shutil
import subprocess
import sys
import tempfile

from outcomes import EXAMPLES, TOP, Outcomes, program

LIBRARIES = [os.path.join(TOP, *it) for it in (('crates', 'uzebox_c', 'out', 'libuzebox_c.a'), ('release', 'x86_64-linux', 'libuzebox_c.a'))]
EMBED = os.path.join(TOP, 'embed')
FRAMES = 120


def said(words, folder, program=''):
    no_screen = dict(os.environ, SDL_VIDEODRIVER='dummy', SDL_AUDIODRIVER='dummy', UZEBOX=program)
    ran = subprocess.run(words, cwd=folder, stdin=subprocess.DEVNULL, capture_output=True, text=True, timeout=120, env=no_screen)
    return ran.returncode, ran.stdout + ran.stderr


def bytes_of(folder, name):
    try:
        with open(os.path.join(folder, name), 'rb') as file:
            return file.read()
    except OSError:
        return b''


def memory_of_toolchain():
    """The toolchain's functions for memory, for a library without them, where the toolchain is installed."""
    if not shutil.which('rt'):
        return []
    page = subprocess.run(['rt', 'doc'], capture_output=True, text=True).stdout.strip()
    archive = os.path.join(os.path.dirname(page), 'c', 'liblibc_c.a')
    return [archive] if os.path.exists(archive) else []


def built(outcomes, folder):
    """The window, or None where something that it needs is lacking."""
    compiler = shutil.which(os.environ.get('CC', 'cc'))
    library = next(filter(os.path.exists, filter(None, [os.environ.get('UZEBOX_LIBRARY'), *LIBRARIES])), None)
    if not compiler:
        return outcomes.skip('no C compiler is installed')
    if not library:
        return outcomes.skip('the library is not built')
    with open(os.path.join(folder, 'sdl.c'), 'w') as out:
        out.write('#include <SDL2/SDL.h>\nint main(int count, char **words) { return words[count] != NULL; }\n')
    if said([compiler, 'sdl.c', '-lSDL2', '-o', 'sdl'], folder)[0]:
        return outcomes.skip('SDL2 is not installed')
    window = os.path.join(folder, 'window')
    words = [compiler, '-O2', '-Wall', '-Wextra', '-Werror', '-o', window, os.path.join(EMBED, 'window.c')]
    status, text = said([*words, os.path.abspath(library), *memory_of_toolchain(), '-lSDL2'], folder)
    return window if outcomes.tell(status == 0, 'the window is not built: ' + text) else None


def try_game(outcomes, path, folder, window, name):
    words = [window, name + '.hex', name + '.cert', '-n', str(FRAMES), '-o', 'shown', '-r', 'pads']
    status, text = said(words, folder, path)
    lines = text.split('\n')
    outcomes.tell(status == 0 and lines[0] == name + '.hex, certified', '%s: the window says %s, status %s' % (name, text, status))
    shown, pads = bytes_of(folder, 'shown'), bytes_of(folder, 'pads')
    outcomes.tell(lines[1:] == ['pads: %d latches, %s clocks' % (len(pads) // 10, lines[1].split(' ')[-2]), ''], '%s: %s' % (name, text))
    said([path, 'play', name + '.hex', name + '.cert', 'pads', str((FRAMES + 3) * 478660), 'played'], folder)
    played = bytes_of(folder, 'played')
    outcomes.tell(len(shown) > FRAMES * 262 * 461 and played.startswith(shown), name + ': the rows are others')


def main():
    path, outcomes = program(sys.argv[1:], __doc__), Outcomes()
    with tempfile.TemporaryDirectory() as folder:
        for name in os.listdir(EXAMPLES):
            os.symlink(os.path.join(EXAMPLES, name), os.path.join(folder, name))
        window = built(outcomes, folder)
        if window:
            for name in ('tiles', 'console'):
                said([path, 'build', name + '.asm', name + '.hex'], folder)
            said([path, 'find', 'console.hex', 'console.asm', '4', 'console.cert'], folder)
            for name in ('tiles', 'console'):
                try_game(outcomes, path, folder, window, name)
            refused = said([path, 'check', 'ring-short.hex', 'ring.cert'], folder)[1]
            told = said([window, 'ring-short.hex', 'ring.cert', '-n', '1'], folder, path)[1]
            outcomes.tell(told.startswith('ring-short.hex, ' + refused), 'a refused certificate: %s' % told)
    outcomes.end()


if __name__ == '__main__':
    main()
