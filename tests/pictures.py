#!/usr/bin/env python3
"""Looks at what tools/frames and tools/schedule make: each point of pictures of drawn frames, and the plots of the pages.

    pictures.py

Needs no program and no toolchain.
"""
import os
import random
import struct
import subprocess
import sys
import tempfile
import zlib

from outcomes import Outcomes, usage

TOP = os.path.join(os.path.dirname(os.path.realpath(__file__)), '..')
FRAMES, SCHEDULE = os.path.join(TOP, 'tools', 'frames'), os.path.join(TOP, 'tools', 'schedule')


def drawn_frames(sizes):
    """Frames of so many rows of drawn samples, and the file that play would write of them."""
    frames, text = [], bytearray()
    for number, size in enumerate(sizes, 1):
        rows = [bytes(random.randrange(256) for _ in range(455)) for _ in range(size)]
        for at, row in enumerate(rows):
            text += b'\x52' + struct.pack('<HH', at, 455) + row + bytes([at % 256])
        text += b'\x46' + struct.pack('<HH', number, size)
        frames.append(rows)
    return frames, bytes(text)


def chunks_of(data):
    at, found = 8, []
    while at < len(data):
        length, kind = struct.unpack('>I4s', data[at:at + 8])
        body = data[at + 8:at + 8 + length]
        assert zlib.crc32(kind + body) == struct.unpack('>I', data[at + 8 + length:at + 12 + length])[0]
        found.append((kind, body))
        at += 12 + length
    return found


def points_of(width, height, packed):
    """The rows of a picture whose rows are filtered by none or by the row above."""
    raw, rows, above = zlib.decompress(packed), [], bytes(width)
    for y in range(height):
        kind, line = raw[y * (width + 1)], raw[y * (width + 1) + 1:(y + 1) * (width + 1)]
        above = line if kind == 0 else bytes((a + b) % 256 for a, b in zip(line, above))
        rows.append(above)
    return rows


def wanted_points(rows, whole):
    """By the sample in which the middle of a point lies: 377 samples are 645 points wide, a row is two points high."""
    first, count = (0, 455) if whole else (67, 377)
    if not whole:
        top = 14 + max(0, len(rows) - 262) // 3
        rows = rows[top:top + 242]
        rows = rows + [bytes(455)] * (242 - len(rows))
    width = round(count * 645 / 377)
    columns = [first + (2 * x + 1) * 377 // (2 * 645) for x in range(width)]
    lines = [bytes(row[c] for c in columns) for row in rows]
    return [line for line in lines for _ in range(2)]


def ran(*words):
    return subprocess.run(words, capture_output=True, text=True)


def try_frames(outcomes, folder):
    name = os.path.join(folder, 'frames')
    frames, text = drawn_frames([262, 271, 100])
    with open(name, 'wb') as file:
        file.write(text)
    colours = b''.join(bytes([s % 8 * 255 // 7, s // 8 % 8 * 255 // 7, s // 64 * 255 // 3]) for s in range(256))
    for whole in (False, True):
        made = ran(FRAMES, name, os.path.join(folder, 'a.png'), '--all', *['--whole'] * whole)
        outcomes.tell(made.returncode == 0, 'frames --all: %s' % made.stderr)
        for number, rows in enumerate(frames, 1):
            chunks = dict(chunks_of(open(os.path.join(folder, 'a%d.png' % number), 'rb').read()))
            width, height = struct.unpack('>II', chunks[b'IHDR'][:8])
            wanted = wanted_points(rows, whole)
            outcomes.tell(whole or (width, height) == (645, 484), 'frame %d is %d by %d' % (number, width, height))
            outcomes.tell(chunks[b'PLTE'] == colours, 'the colours of frame %d' % number)
            outcomes.tell(points_of(width, height, chunks[b'IDAT']) == wanted, 'the points of frame %d' % number)
    ran(FRAMES, name, os.path.join(folder, 'b.png'))
    outcomes.tell(open(os.path.join(folder, 'b.png'), 'rb').read() == ran_bytes(name, folder, '3'), 'the last frame is the one that is shown')
    ran(FRAMES, name, os.path.join(folder, 'c.apng'))
    kinds = [kind for kind, _ in chunks_of(open(os.path.join(folder, 'c.apng'), 'rb').read())]
    outcomes.tell(kinds.count(b'fcTL') == 3 and kinds.count(b'fdAT') == 2, 'an animated PNG of three frames')
    with open(name, 'ab') as file:
        file.write(b'\x52')
    outcomes.tell(ran(FRAMES, name, os.path.join(folder, 'd.png')).returncode == 1, 'a file that is cut short')
    outcomes.tell(ran(FRAMES, name, os.path.join(folder, 'd.txt')).returncode == 2, 'another kind of file')
    outcomes.tell(ran(FRAMES, os.path.join(folder, 'none'), os.path.join(folder, 'd.png')).returncode == 1, 'a file that is not there')


def ran_bytes(name, folder, number):
    out = os.path.join(folder, 'one.png')
    ran(FRAMES, name, out, '--frame', number)
    return open(out, 'rb').read()


def try_schedule(outcomes, folder):
    cert = os.path.join(TOP, 'examples', 'tiles.cert')
    plot = ran(SCHEDULE, cert).stdout
    outcomes.tell(plot == open(os.path.join(TOP, 'docs', 'tiles.svg')).read(), 'the plot of TILES.md')
    outcomes.tell('241 pixels, 6 clocks apart: 330 to 1770' in plot and ', out<' not in plot, 'pixels and pulses of the tile kernel')
    late = os.path.join(folder, 'late.cert')
    with open(late, 'w') as out:
        out.write(open(cert).read().replace('\n163 sync 1\n', '\n240 sync 1\n'))
    plot = ran(SCHEDULE, late).stdout
    outcomes.tell('212 clocks, 7.40 us low: horizontal (4.60 to 4.80 us), out' in plot, 'a pulse that is too long')
    outcomes.tell(ran(SCHEDULE, os.path.join(TOP, 'examples', 'ring.hex')).returncode == 1, 'no certificate')
    outcomes.tell(ran(SCHEDULE).returncode == 2, 'no words')


def main():
    if len(sys.argv) > 1:
        usage(__doc__)
    random.seed(644)
    outcomes = Outcomes()
    with tempfile.TemporaryDirectory() as folder:
        try_frames(outcomes, folder)
        try_schedule(outcomes, folder)
    outcomes.end()


if __name__ == '__main__':
    main()
