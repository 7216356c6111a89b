"""Plays 60 frames with Start held in the 30th, and prints how many rows each had.

cc -shared -o libuzebox_c.so -Wl,--whole-archive libuzebox_c.a -Wl,--no-whole-archive
python3 example.py ./libuzebox_c.so kernel.hex
"""
import ctypes
import sys

library = ctypes.CDLL(sys.argv[1])
hex_text = open(sys.argv[2], 'rb').read()
state = ctypes.create_string_buffer(5456)  # uzebox_state
records = ctypes.create_string_buffer(1 << 18)
START = 1 << 3


class Answer(ctypes.Structure):
    _fields_ = [('status', ctypes.c_uint32), ('latches', ctypes.c_uint32), ('length', ctypes.c_uint64)]


BYTES, SIZE, WORD, NUMBER = ctypes.c_char_p, ctypes.c_size_t, ctypes.c_uint16, ctypes.c_uint32
library.uzebox_reset.restype = library.uzebox_frame.restype = Answer
library.uzebox_reset.argtypes = [BYTES, SIZE, NUMBER, BYTES]
library.uzebox_frame.argtypes = [BYTES, SIZE, BYTES, WORD, WORD, NUMBER, BYTES, SIZE]

answer = library.uzebox_reset(hex_text, len(hex_text), 4, state)
for frame in range(1, 61):
    if answer.status:
        sys.exit(f'frame {frame}: status {answer.status}')
    pressed = START if frame == 30 else 0
    answer = library.uzebox_frame(hex_text, len(hex_text), state, pressed, 0, 1_000_000, records, len(records))
    print(frame, answer.length // 461, 'rows', answer.latches, 'latches')
