#!/usr/bin/env python3
"""Plays and runs commands by the library for C, and compares with the program.

    embedding.py [PROGRAM]

The library is that of the variable UZEBOX_C, else the one in release/. Where it isn't built, or cc or rustc lacks, what
needs it is skipped. The examples of embed/ print what they say; 600 frames with changing buttons, or as many as a pad file has pairs for,
are those that `play` writes, and their sound that which `wave` writes, over the pads as they were recorded. Commands over files in memory
have the status, print the text and change the files that the program does over real ones. 10,000 states, texts and rooms drawn by
chance, and 4,000 rows of words and files, do no harm, under the address sanitizer where cc has it.
"""
import ctypes
import os
import random
import shutil
import subprocess
import sys
import tempfile

from outcomes import EXAMPLES, TOP, Outcomes, program, run

EMBED = os.path.join(TOP, 'embed')
LIBRARY = os.environ.get('UZEBOX_C') or os.path.join(TOP, 'release', 'x86_64-linux', 'libuzebox_c.a')
HEAP = []  # what the library's heap is, where the archive doesn't hold it: a file of the toolchain
KERNELS = ['console', 'tiles', 'vertical-sync']
FRAMES, MOST, CLOCKS, STATE = 600, 65536, 1_000_000, 5456
OVER, SHORT = 0, 4

HOSTILE = r'''
#include "uzebox.h"
#include <stdio.h>
#include <stdlib.h>
#include <string.h>
static uint64_t x = 88172645463325252ull;
static uint64_t draw(void) { x ^= x << 13; x ^= x >> 7; x ^= x << 17; return x; }
int main(int count, char **words) {
    static uint8_t text[1 << 20];
    FILE *file = count > 1 ? fopen(words[1], "rb") : NULL;
    if (!file) return 2;
    size_t length = fread(text, 1, sizeof text, file);
    uzebox_state start, kept;
    if (uzebox_reset(text, length, 4, &start).status) return 2;
    for (int k = 0; k < 10000; k++) {
        uzebox_state *state = malloc(sizeof *state);
        uint8_t *bytes = (uint8_t *)state;
        *state = start;
        size_t some = k % 3 ? sizeof *state : draw() % 200;
        for (size_t j = 0; j < some; j++)
            bytes[k % 3 ? j : draw() % sizeof *state] = k % 3 == 2 && draw() & 7 ? 0 : draw();
        if (k & 4) state->clock = draw() % 1000000;
        kept = *state;
        size_t room = draw() % 4 ? draw() % 2000 : draw() % 200000, size = k % 50 ? length : draw() % (length + 1);
        uint8_t *records = malloc(room + 1), *copy = malloc(size + 1);
        memcpy(copy, text, size);
        memset(records, 77, room + 1);
        uzebox_answer answer = uzebox_frame(copy, size, state, draw(), draw(), draw() % 20000, records, room);
        if (answer.status > 5 || records[room] != 77) return 3;
        if (answer.status >= 3 && memcmp(state, &kept, sizeof kept)) return 4;
        if (answer.status == 4 ? answer.length <= room : answer.length > room) return 5;
        free(state), free(records), free(copy);
    }
    puts("good");
}
'''

# each row is run after the rows before it, in a folder that has the examples
COMMANDS = [
    'help', 'help check', 'version', 'nothing', 'check ring.hex', 'check ring.hex ring.hex', 'dis none.hex', 'check ring.hex ring.cert',
    'check pulse.asm ring.cert', 'build tiles.asm tiles.hex', 'build tiles.asm tiles.hex', 'check tiles.hex tiles.cert', 'check tiles.hex ring.cert',
    'dis tiles.hex', 'timing tiles.hex tiles.cert', 'report tiles.hex tiles.cert', 'play tiles.hex tiles.cert no-pads 1000000 frames',
    'wave tiles.hex no-pads 4 1000000 sound', 'trace tiles.hex no-pads 4 20000', 'asm pulse.asm pulse.hex', 'certify pulse.asm 4 pulse.hex pulse.cert',
    'find pulse.hex pulse.asm 4 found.cert', 'hints pulse.hex no-pads 4 4000000 pulse.hints', 'find pulse.hex pulse.hints 4 hinted.cert',
    'why pulse.hex pulse.hints 4', 'certify button-late.asm 4 late.hex late.cert', 'why late.hex button-late.asm 4', 'expand tiles.asm flat.asm',
    'build tiles.asm tiles-data.asm', 'demo 7',
]

HOSTILE_RUN = r'''
#include "uzebox.h"
#include <stdio.h>
#include <stdlib.h>
#include <string.h>
static uint64_t x = 88172645463325252ull;
static uint64_t draw(void) { x ^= x << 13; x ^= x >> 7; x ^= x << 17; return x; }
static size_t put(uint8_t *texts, size_t at, const void *text, uint64_t length) {
    memcpy(texts + at, &length, 8);
    memcpy(texts + at + 8, text, length);
    return at + 8 + length;
}
int main(int count, char **names) {
    static uint8_t words[1 << 10], files[1 << 20], text[1 << 18];
    size_t words_length = put(words, 0, "check", 5), files_length = 0;
    for (int k = 1; k < count; k++) {
        FILE *file = fopen(names[k], "rb");
        if (!file) return 2;
        size_t length = fread(text, 1, sizeof text, file);
        fclose(file);
        words_length = put(words, words_length, names[k], strlen(names[k]));
        files_length = put(files, files_length, names[k], strlen(names[k]));
        files_length = put(files, files_length, text, length);
    }
    int ran = 0, malformed = 0;
    for (int k = 0; k < 4000; k++) {
        size_t w = k % 4 == 1 ? draw() % words_length : words_length, f = k % 4 == 2 ? draw() % files_length : files_length;
        size_t room = draw() % 3 ? 4096 : draw() % 100;
        uint8_t *some = malloc(w), *more = malloc(f), *answer = malloc(room + 1), *kept = malloc(room + 1);
        memcpy(some, words, w);
        memcpy(more, files, f);
        for (int j = 0; k % 4 > 2 && j < 1 + (int)(draw() % 3); j++) {
            some[draw() % w] ^= draw() % 3 ? 0 : draw();
            more[draw() % 2 ? draw() % f : draw() % 40 % f] ^= draw();
        }
        memset(answer, 77, room + 1);
        memset(kept, 77, room + 1);
        uzebox_ran end = uzebox_run(some, w, more, f, answer, room);
        if (end.status > 8 && (end.status < 256 || end.status > 257)) return 3;
        if (end.status == 5 || answer[room] != 77) return 4;
        if (end.status >= 256 && memcmp(answer, kept, room)) return 5;
        if (end.status == 256 ? end.length <= room : end.length > room) return 6;
        if (end.status < 256 && (end.length < 8 || end.length != 8 + (size_t)answer[0] + 256 * answer[1])) return 7; /* check writes no file */
        if (k % 4 == 0 && room > 100 && end.status != 0) return 8;
        ran += end.status < 256;
        malformed += end.status == 257;
        free(some), free(more), free(answer), free(kept);
    }
    puts(ran > 500 && malformed > 500 ? "good" : "few");
}
'''


class Answer(ctypes.Structure):
    _fields_ = [('status', ctypes.c_uint32), ('latches', ctypes.c_uint32), ('length', ctypes.c_uint64)]


class Player:
    """A console that is played by the library."""

    def __init__(self, library, text):
        self.library, self.text = library, text
        library.uzebox_reset.restype = library.uzebox_frame.restype = Answer
        library.uzebox_reset.argtypes = [ctypes.c_char_p, ctypes.c_size_t, ctypes.c_uint32, ctypes.c_char_p]
        library.uzebox_frame.argtypes = [ctypes.c_char_p, ctypes.c_size_t, ctypes.c_char_p, ctypes.c_uint16, ctypes.c_uint16,
                                         ctypes.c_uint32, ctypes.c_char_p, ctypes.c_size_t]
        self.state = ctypes.create_string_buffer(STATE)
        self.records = ctypes.create_string_buffer(1 << 18)
        self.status = library.uzebox_reset(text, len(text), 4, self.state).status

    def frame(self, one, two, room=1 << 18):
        answer = self.library.uzebox_frame(self.text, len(self.text), self.state, one, two, CLOCKS, self.records, room)
        return answer, self.records[:answer.length] if answer.status < 3 else b''


def find_heap():
    """The functions of the heap over malloc: whether they are found."""
    try:
        names = subprocess.run(['nm', LIBRARY], capture_output=True, text=True).stdout
        if ' U rattle_alloc' in names and ' T rattle_alloc' not in names:
            page = subprocess.run(['rt', 'doc'], capture_output=True, text=True).stdout.strip()
            HEAP.append(os.path.join(os.path.dirname(page), 'c', 'liblibc_c.a'))
    except OSError:
        return False
    return all(os.path.exists(file) for file in HEAP)


def kernel(path, name, folder):
    """The HEX text of an example, with its certificate beside it."""
    run([path, 'expand', name + '.asm', os.path.join(folder, name + '.asm')], EXAMPLES)
    run([path, 'certify', name + '.asm', '4', name + '.hex', name + '.cert'], folder)
    with open(os.path.join(folder, name + '.hex'), 'rb') as file:
        return file.read()


def sounds_of(records):
    """The sound of each row of records."""
    at, sounds = 0, bytearray()
    while at < len(records):
        if records[at] == 0x52:
            sounds.append(records[at + 460])
            at += 461
        else:
            at += 5
    return bytes(sounds)


def played(outcomes, path, library, name, folder):
    text = kernel(path, name, folder)
    player, pick = Player(library, text), random.Random(name)
    pairs, records, pair = [], b'', (0, 0)
    for number in range(FRAMES):
        if number % 7 == 0:
            pair = pick.randrange(4096), pick.randrange(4096)
        if number % 50 == 9:  # too little room first: nothing changes
            before = player.state.raw
            answer, _ = player.frame(*pair, room=pick.randrange(1000))
            outcomes.tell(answer.status == SHORT and player.state.raw == before, '%s: short room' % name)
        answer, more = player.frame(*pair)
        if answer.status != OVER:
            return outcomes.tell(False, '%s: frame %d ends by %d' % (name, number, answer.status))
        if len(pairs) + answer.latches > MOST:
            break
        pairs += [pair] * answer.latches
        records += more
        clock = int.from_bytes(player.state[:8], 'little')
    with open(os.path.join(folder, 'pads'), 'w') as file:
        file.write(''.join('%04X %04X\n' % one for one in pairs))
    status, _ = run([path, 'play', name + '.hex', name + '.cert', 'pads', str(clock), 'frames'], folder)
    with open(os.path.join(folder, 'frames'), 'rb') as file:
        written = file.read()
    outcomes.tell(status == 0 and written[:len(records)] == records and len(written) - len(records) < 1000, '%s: rows' % name)
    status, _ = run([path, 'wave', name + '.hex', 'pads', '4', str(clock), 'sound'], folder)
    with open(os.path.join(folder, 'sound'), 'rb') as file:
        heard = file.read()[44:]
    sounds = sounds_of(records)
    outcomes.tell(status == 0 and sounds in heard and len(heard) - len(sounds) < 600, '%s: sound' % name)


class Ran(ctypes.Structure):
    _fields_ = [('status', ctypes.c_uint32), ('unused', ctypes.c_uint32), ('length', ctypes.c_uint64)]


def packed(texts):
    return b''.join(len(text).to_bytes(8, 'little') + text for text in texts)


def unpacked(texts):
    while texts:
        end = 8 + int.from_bytes(texts[:8], 'little')
        yield texts[8:end]
        texts = texts[end:]


def called(library, words, files, room):
    """What uzebox_run answers, and the bytes of its room."""
    library.uzebox_run.restype = Ran
    library.uzebox_run.argtypes = [ctypes.c_char_p, ctypes.c_size_t] * 3
    answer = ctypes.create_string_buffer(b'*' * room, room)
    ran = library.uzebox_run(words, len(words), files, len(files), answer, room)
    return ran, answer.raw


def contents(folder):
    files = {}
    for name in os.listdir(folder):
        with open(os.path.join(folder, name), 'rb') as file:
            files[name] = file.read()
    return files


def commands(outcomes, path, library):
    """Each command over files in memory, and by the program over real ones."""
    with tempfile.TemporaryDirectory() as folder:
        for name in os.listdir(EXAMPLES):
            if os.path.isfile(os.path.join(EXAMPLES, name)):
                shutil.copy(os.path.join(EXAMPLES, name), folder)
        open(os.path.join(folder, 'no-pads'), 'w').close()
        for row in COMMANDS:
            words, files = row.split(), contents(folder)
            status, text = run([path, *words], folder)
            if row == 'version':  # the script ./uzebox adds a line, the sum of its sources
                text = b''.join(text.splitlines(True)[:2])
            after = contents(folder)
            made = {name: after[name] for name in after if files.get(name) != after[name]}
            if row == 'build tiles.asm tiles-data.asm':  # real files refuse to be written over where they are read; in memory none does
                outcomes.equal(row + ', real files', (5, {}), (status, made))
                status, text, made = 0, b'assembled bytes 1362\n', {'tiles-data.asm': files['tiles.hex']}
            request = [packed(word.encode() for word in words), packed(text for name in files for text in (name.encode(), files[name]))]
            short, room = called(library, *request, 5)
            outcomes.tell(short.status == 256 and room == b'*' * 5, row + ': a short room')
            outcomes.tell(called(library, *request, short.length - 1)[0].status == 256, row + ': a room that lacks one byte')
            ran, room = called(library, *request, short.length)
            printed, *rest = unpacked(room[:ran.length])
            outcomes.equal(row, (status, text, sorted(made.items())),
                           (ran.status, printed, sorted(zip((name.decode() for name in rest[::2]), rest[1::2]))))


def malformed(outcomes, library):
    """Words and files that aren't in their form, which are refused, and the bytes stay."""
    words, files = packed([b'dis', b'x']), packed([b'x', b':00000001FF\n'])
    good, _ = called(library, words, files, 100)
    outcomes.equal('dis of no bytes', (0, 8), (good.status, good.length))
    first = called(library, words, files + packed([b'x', b'no HEX']), 100)[0].status
    outcomes.equal('two files of one name', 0, first)
    rows = [(words[:-1], files), (words, files[:-1]), (words, files + b'\0'), (words, packed([b'x'])), (words + packed([b'\xff']), files),
            (b'\xff' * 8, files), (words, b'\xff' * 16), (words + b'\0' * 7, files)]
    for k, (some, more) in enumerate(rows):
        ran, room = called(library, some, more, 100)
        outcomes.equal('malformed row %d' % k, (257, 0, b'*' * 100), (ran.status, ran.length, room))


def compiled(words, folder):
    """Whether a compiler did it."""
    return subprocess.run(words, cwd=folder, stdout=subprocess.DEVNULL, stderr=subprocess.DEVNULL).returncode == 0


def examples(outcomes, path, folder):
    kernel(path, 'console', folder)
    made = compiled(['cc', '-Wall', '-Wextra', '-Werror', '-I', EMBED, '-o', 'example', os.path.join(EMBED, 'example.c'), LIBRARY] + HEAP, folder)
    if outcomes.tell(made, 'example.c is compiled'):
        status, text = run(['./example', 'console.hex'], folder)
        outcomes.tell(status == 0 and text.count(b'\n') == 61, 'example.c')
    status, text = run([sys.executable, os.path.join(EMBED, 'example.py'), './libuzebox_c.so', 'console.hex'], folder)
    outcomes.tell(status == 0 and text.count(b'\n') == 60, 'example.py')
    ring = [os.path.join(EXAMPLES, 'ring.' + end) for end in ('hex', 'cert')]
    wanted = run([path, 'check', *ring], folder)
    made = compiled(['cc', '-Wall', '-Wextra', '-Werror', '-I', EMBED, '-o', 'run-c', os.path.join(EMBED, 'run.c'), LIBRARY] + HEAP, folder)
    if outcomes.tell(made, 'run.c is compiled'):
        outcomes.equal('run.c', wanted, run(['./run-c', *ring], folder))
        outcomes.equal('run.c, no HEX', run([path, 'check', ring[1], ring[0]], folder), run(['./run-c', ring[1], ring[0]], folder))
    script = [sys.executable, os.path.join(EMBED, 'run.py'), './libuzebox_c.so']
    outcomes.equal('run.py', wanted, run([*script, 'check', *ring], folder))
    status, text = run([path, 'certify', os.path.join(EXAMPLES, 'pulse.asm'), '4', 'one.hex', 'one.cert'], folder)
    outcomes.equal('run.py certifies', (status, text), run([*script, 'certify', os.path.join(EXAMPLES, 'pulse.asm'), '4', 'two.hex', 'two.cert'], folder))
    files = contents(folder)
    outcomes.tell(all(files['one.' + end] == files['two.' + end] for end in ('hex', 'cert')), 'run.py writes the HEX file and the certificate')
    if not shutil.which('rustc'):
        return outcomes.skip('rustc lacks')
    shutil.copy(LIBRARY, folder)
    made = compiled(['rustc', '-L', folder] + ['-Clink-arg=' + file for file in HEAP] + [ os.path.join(EMBED, 'example.rs'), '-o', 'example-rs'], folder)
    if outcomes.tell(made, 'example.rs is compiled'):
        status, text = run(['./example-rs', 'console.hex'], folder)
        outcomes.tell(status == 0 and text.count(b'\n') == 61, 'example.rs')
    made = compiled(['rustc', '-L', folder] + ['-Clink-arg=' + file for file in HEAP] + [os.path.join(EMBED, 'run.rs'), '-o', 'run-rs'], folder)
    if outcomes.tell(made, 'run.rs is compiled'):
        outcomes.equal('run.rs', wanted, run(['./run-rs', *ring], folder))


def hostile(outcomes, path, folder, name, text, *files):
    """A program that hands over what is drawn by chance, under the address sanitizer where cc has it."""
    with open(os.path.join(folder, name + '.c'), 'w') as file:
        file.write(text)
    words = ['cc', '-O1', '-I', EMBED, '-o', name, name + '.c', LIBRARY] + HEAP
    if compiled(words + ['-fsanitize=address'], folder) or outcomes.tell(compiled(words, folder), name + ': compiled'):
        kernel(path, 'console', folder)
        outcomes.equal(name, (0, b'good\n'), run(['./' + name, *files], folder))


def main():
    path, outcomes = program(sys.argv[1:], __doc__), Outcomes()
    if not os.path.exists(LIBRARY) or not shutil.which('cc') or not find_heap():
        outcomes.skip('the library for C is not built, or cc or its heap lacks', 12)
        outcomes.end()
    with tempfile.TemporaryDirectory() as folder:
        shared = ['cc', '-shared', '-o', 'libuzebox_c.so', '-Wl,--whole-archive', LIBRARY, '-Wl,--no-whole-archive'] + HEAP
        if outcomes.tell(compiled(shared, folder), 'a shared object of the library'):
            library = ctypes.CDLL(os.path.join(folder, 'libuzebox_c.so'))
            for name in KERNELS:
                played(outcomes, path, library, name, folder)
            commands(outcomes, path, library)
            malformed(outcomes, library)
            examples(outcomes, path, folder)
        hostile(outcomes, path, folder, 'hostile-states', HOSTILE, 'console.hex')
        for end in ('hex', 'cert'):
            shutil.copy(os.path.join(EXAMPLES, 'ring.' + end), folder)
        hostile(outcomes, path, folder, 'hostile-rows', HOSTILE_RUN, 'ring.hex', 'ring.cert')
    outcomes.end()


if __name__ == '__main__':
    main()
