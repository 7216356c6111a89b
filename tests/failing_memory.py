#!/usr/bin/env python3
"""Runs commands again and again, and lets one request for memory fail in each run: the first, the second, and so on.

    failing_memory.py [PROGRAM [COUNT]]

PROGRAM is the built program, else the variable UZEBOX, else the one that `uzebox` at the top of the repository runs. For each
command, and each request that its run makes, one run in which that request fails; of a command with more than COUNT requests
(160, where nothing is said) the first and the last quarter of COUNT, and as many between. It looks whether the status is that of
want of memory, whether what is printed is a part of what the command prints otherwise, with the whole line `no memory` after it,
and whether each file that it writes is absent or a part of the whole one; or whether all is as otherwise. Where points can't be
joined for want of memory, `certify` and `find` may write another certificate: then `check` has to accept it. Where the words of the command
line can't be had, the answer is that of no words: the usage line. Each of these runs is a test; a line for
each command says how many had which status. Needs a C compiler (`cc`): where there is none, all is skipped.
"""
import os
import shutil
import subprocess
import sys
import tempfile

from outcomes import EXAMPLES, SECONDS, Outcomes, binary, program, usage

USAGE, NO_MEMORY = 1, 8

SHIM = r'''
#define _GNU_SOURCE
#include <dlfcn.h>
#include <stdlib.h>
#include <stdio.h>
static long count = -1, at;
static int fails(void) {
    if (count < 0) { const char *n = getenv("FAIL_AT"); at = n ? atol(n) : 0; count = 0; }
    return ++count == at;
}
void *malloc(size_t n) {
    static void *(*real)(size_t);
    if (!real) real = (void *(*)(size_t))dlsym(RTLD_NEXT, "malloc");
    return fails() ? NULL : real(n);
}
void *realloc(void *p, size_t n) {
    static void *(*real)(void *, size_t);
    if (!real) real = (void *(*)(void *, size_t))dlsym(RTLD_NEXT, "realloc");
    return fails() ? NULL : real(p, n);
}
__attribute__((destructor)) static void told(void) {
    const char *to = getenv("FAIL_COUNT");
    if (to) { FILE *f = fopen(to, "w"); if (f) { fprintf(f, "%ld", count); fclose(f); } }
}
'''

PREPARED = ['asm ring.asm ring.hex', 'asm pulse.asm pulse.hex']
COMMANDS = [
    'asm pulse.asm made.hex',
    'dis pulse.hex',
    'trace pulse.hex no-pads.txt 4 4000',
    'expand examples/console-macros.asm made.asm',
    'build examples/console-macros.asm made.hex',
    'check pulse.hex pulse.cert',
    'check ring.hex ring.cert',
    'report pulse.hex pulse.cert',
    'migrate loop-ring-1.cert made.cert',
    'wave pulse.hex no-pads.txt 4 4000 made.wav',
    'hints pulse.hex no-pads.txt 4 20000 made.hints',
    'certify pulse.asm 4 made.hex made.cert',
    'find pulse.hex pulse.asm 4 made.cert',
    'timing pulse.hex pulse.cert',
    'play pulse.hex pulse.cert no-pads.txt 4000 made.frames',
    'debug pulse.hex no-pads.txt 4 script.txt',
    'demo 0',
    'help',
    'nothing',
]


def run(path, shim, folder, words, fail_at):
    count = os.path.join(folder, 'count')
    env = dict(os.environ, LD_PRELOAD=shim, FAIL_AT=str(fail_at), FAIL_COUNT=count)
    made = [w for w in words if w.startswith('made.')]
    for name in made:
        if os.path.exists(os.path.join(folder, name)):
            os.remove(os.path.join(folder, name))
    ran = subprocess.run([path, *words], cwd=folder, env=env, capture_output=True, timeout=SECONDS)
    files = {}
    for name in made:
        file = os.path.join(folder, name)
        files[name] = open(file, 'rb').read() if os.path.exists(file) else None
    requests = int(open(count).read()) if os.path.exists(count) else 0
    return ran.returncode, ran.stdout, files, requests


def is_part_with_line(out, whole, line):
    """A part of the whole, and then the line."""
    return out.endswith(line) and whole.startswith(out[:-len(line)])


def is_other_pair(path, folder, words, out, whole, made, files):
    """Whether `certify` or `find` printed all, and wrote another certificate, which `check` accepts alike, of the same image."""
    image = {'certify': 3, 'find': 1}.get(words[0])
    if image is None or out != whole or made[words[4]] is None:
        return False
    if words[image] in made and made[words[image]] != files[words[image]]:
        return False
    ran = subprocess.run([path, 'check', words[image], words[4]], cwd=folder, capture_output=True)
    return ran.returncode == 0 and ran.stdout == whole


def chosen(requests, count):
    """The numbers of the requests that fail in turn."""
    if requests <= count:
        return list(range(1, requests + 1))
    part = count // 4
    middle = [part + k * (requests - 2 * part) // part for k in range(1, part + 1)]
    return sorted(set(range(1, part + 1)) | set(middle) | set(range(requests - part + 1, requests + 1)))


def prepare(path, folder):
    """The files of the commands, and the library that lets a request fail."""
    shutil.copytree(EXAMPLES, os.path.join(folder, 'examples'))
    shutil.copytree(EXAMPLES, folder, dirs_exist_ok=True)
    with open(os.path.join(folder, 'script.txt'), 'w') as out:
        out.write('step 50\nsave 0\nbreak 60\nrun 100\nback 5\nload 0\nshow\nmem 96 16\nclear 60\n')
    source, shim = os.path.join(folder, 'shim.c'), os.path.join(folder, 'shim.so')
    with open(source, 'w') as out:
        out.write(SHIM)
    subprocess.run(['cc', '-O2', '-shared', '-fPIC', '-o', shim, source, '-ldl'], check=True)
    for line in PREPARED:
        run(path, shim, folder, line.split(), 0)
    return shim


def try_command(outcomes, path, shim, folder, line, count):
    """Lets the requests of a command fail in turn."""
    words = line.split()
    status, whole, files, requests = run(path, shim, folder, words, 0)
    no_words = run(path, shim, folder, [], 0)[1]
    statuses, has_words = {}, False
    numbers = chosen(requests, count)
    for at in numbers:
        got, out, made, _ = run(path, shim, folder, words, at)
        statuses[got] = statuses.get(got, 0) + 1
        parts = all(v is None or (files[n] or b'').startswith(v) for n, v in made.items())
        told = is_part_with_line(out, whole, b'no memory\n')
        has_words = has_words or told  # requests are for the words until a run says what it lacks
        fine = got == NO_MEMORY and told and parts or (got, out, made) == (status, whole, files)
        fine = fine or (not has_words and (got, out) == (USAGE, no_words))
        fine = fine or (got == status and is_other_pair(path, folder, words, out, whole, made, files))
        outcomes.tell(fine, '%s, request %d: status %s, %s' % (line, at, got, out[-80:]))
    outcomes.tell(NO_MEMORY in statuses or words == ['nothing'], '%s: no request that fails gives status 8' % line)
    said = ', '.join('status %d: %d' % s for s in sorted(statuses.items()))
    print('%s: status %d; %d of %d requests failed in turn: %s' % (line, status, len(numbers), requests, said), flush=True)


def main():
    words = sys.argv[1:]
    if len(words) > 2 or not all(word.isdigit() and int(word) >= 4 for word in words[1:]):
        usage(__doc__)
    path, count = binary(program(words[:1], __doc__)), int(words[1]) if words[1:] else 160
    outcomes = Outcomes()
    if not shutil.which('cc'):
        outcomes.skip('cc is not installed', len(COMMANDS))
        outcomes.end()
    with tempfile.TemporaryDirectory() as folder:
        shim = prepare(path, folder)
        for line in COMMANDS:
            try_command(outcomes, path, shim, folder, line, count)
    outcomes.end()


if __name__ == '__main__':
    main()
