"""Runs a command of uzebox over the files that its words name, and writes those that it made, as the program does.

cc -shared -o libuzebox_c.so -Wl,--whole-archive libuzebox_c.a -Wl,--no-whole-archive
python3 run.py ./libuzebox_c.so certify pulse.asm 4 pulse.hex pulse.cert
"""
import ctypes
import os
import sys

SHORT = 256  # the answer needs more room

class Ran(ctypes.Structure):
    _fields_ = [('status', ctypes.c_uint32), ('unused', ctypes.c_uint32), ('length', ctypes.c_uint64)]


def packed(texts):
    return b''.join(len(text).to_bytes(8, 'little') + text for text in texts)


def unpacked(texts):
    while texts:
        end = 8 + int.from_bytes(texts[:8], 'little')
        yield texts[8:end]
        texts = texts[end:]


library, words = ctypes.CDLL(sys.argv[1]), sys.argv[2:]
library.uzebox_run.restype = Ran
library.uzebox_run.argtypes = [ctypes.c_char_p, ctypes.c_size_t] * 3
given = [text for name in words if os.path.exists(name) for text in (name.encode(), open(name, 'rb').read())]
words, given, ran, room = packed(map(str.encode, words)), packed(given), Ran(SHORT), 1 << 16
while ran.status == SHORT:
    answer = ctypes.create_string_buffer(room)
    ran = library.uzebox_run(words, len(words), given, len(given), answer, room)
    room = ran.length
printed, *made = list(unpacked(answer[:ran.length])) or [b'not run\n']
sys.stdout.buffer.write(printed)
for name, text in zip(made[::2], made[1::2]):
    open(name, 'wb').write(text)
sys.exit(min(ran.status, 70))
