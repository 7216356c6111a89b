#!/usr/bin/env python3
"""What uzebox answers to small files that are cut or changed, worked out without it.

    hostile_answers.py [print]

reads the script `stdin` of the program crates/command_cases, works out the answers of its directives `cut` and `change`, and
compares them with the lines of its `stdout`: how many runs there were of each answer, and a sum over all answers in order. With
the word `print` it prints them. command_rows.py compares the same lines with what the program answers. The readers below are
written from docs/FORMATS.md, SOURCE.md, CERTIFICATES.md and MESSAGES.md, each as plainly as its text allows. Of the commands they
know what the script's cases need: an assembler of LDI, RJMP and JMP, a machine that stands at `rjmp .-2`, and the check of an
image without instructions."""
import os
import sys

from outcomes import TOP, Outcomes, usage

KEPT = [0, 10, 13, ord('7'), 255]


class Bad(Exception):
    """The line of the first fault, and why it is one."""

    def __init__(self, line, why):
        self.line, self.why = line, why


def numeral(word):
    return word != b'' and all(48 <= c <= 57 for c in word) and (word == b'0' or word[0] != 48)


def text_lines(text):
    """The lines of a text, each without its LF or CRLF."""
    lines = text.split(b'\n')
    ended = [l[:-1] if l.endswith(b'\r') else l for l in lines[:-1]]
    return ended + [lines[-1]]


# Intel HEX

def read_hex(text):
    base, image = 0, {}
    for number, line in enumerate(text_lines(text), 1):
        line = line.rstrip(b' \t')
        if line == b'':
            continue
        if line[:1] != b':':
            raise Bad(number, 'NoColon')
        digits = line[1:]
        if any(c not in b'0123456789abcdefABCDEF' for c in digits):
            raise Bad(number, 'BadDigit')
        if len(digits) < 10 or len(digits) != 2 * (int(digits[:2], 16) + 5):
            raise Bad(number, 'Short')
        record = bytes.fromhex(digits.decode())
        count, address, kind, data = record[0], record[1] * 256 + record[2], record[3], record[4:-1]
        if sum(record) % 256 != 0:
            raise Bad(number, 'Sum')
        if kind > 5:
            raise Bad(number, 'Kind')
        if kind in (1, 2, 3, 4, 5) and count != {1: 0, 2: 2, 3: 4, 4: 2, 5: 4}[kind]:
            raise Bad(number, 'Length')
        if kind == 0:
            places = [base + address + i for i in range(count)]
            if any(p >= 65536 for p in places):
                raise Bad(number, 'Range')
            for p, b in zip(places, data):
                if image.setdefault(p, b) != b:
                    raise Bad(number, 'Conflict')
        elif kind == 1:
            return image
        elif kind in (2, 4):
            base = int.from_bytes(data, 'big') * (16 if kind == 2 else 65536)
    raise Bad(text.count(b'\n') + 1, 'NoEnd')


# pads

def read_pads(text):
    pairs = 0
    for number, line in enumerate(text_lines(text), 1):
        if line.strip(b' \t') == b'':
            continue
        if len(line) != 9 or line[4:5] != b' ' or any(c not in b'0123456789abcdefABCDEF' for c in line[:4] + line[5:]):
            raise Bad(number, 'Digits')
        pairs += 1
        if pairs == 65537:
            raise Bad(number, 'Count')


# scripts

def in_range(word, low, high):
    return numeral(word) and low <= int(word) <= high


def read_script(text):
    shapes = {b'step': [(1, 10 ** 8)], b'run': [(1, 10 ** 8)], b'back': [(1, 10 ** 8)], b'break': [(0, 32767)],
              b'clear': [(0, 32767)], b'save': [(0, 9)], b'load': [(0, 9)], b'show': [], b'mem': [(0, 65535), (1, 16)]}
    commands = []
    for number, line in enumerate(text_lines(text), 1):
        words = [w for w in line.replace(b'\t', b' ').split(b' ') if w]
        if not words:
            continue
        if words[0] not in shapes or len(words) - 1 != len(shapes[words[0]]):
            raise Bad(number, 'Word')
        if not all(in_range(w, *r) for w, r in zip(words[1:], shapes[words[0]])):
            raise Bad(number, 'Number')
        if len(commands) == 65536:
            raise Bad(number, 'Count')
        commands.append([words[0].decode()] + [int(w) for w in words[1:]])
    return commands


def session(commands):
    """Over `rjmp .-2` at 0: the pc is 0 at each turn, and a turn takes two clocks. Memory and registers are 0."""
    turn, stops, slots, out = 0, set(), {}, ''

    def at():
        return 'at %d clock %d pc 0x0000' % (turn, 2 * turn)
    for word, *n in commands:
        said = 'ok'
        if word in ('step', 'run'):
            if turn + n[0] > 10 ** 8:
                said = 'refused Limit'
            else:
                turn += 1 if word == 'run' and 0 in stops else n[0]
                said = at()
        elif word == 'back':
            if n[0] > turn:
                said = 'refused Far'
            else:
                turn -= n[0]
                said = at()
        elif word == 'break':
            if n[0] not in stops and len(stops) == 64:
                said = 'refused Breaks'
            stops.add(n[0])
        elif word == 'clear':
            if n[0] in stops:
                stops.remove(n[0])
            else:
                said = 'refused Unset'
        elif word == 'save':
            slots[n[0]] = turn
        elif word == 'load':
            if n[0] in slots:
                turn = slots[n[0]]
                said = at()
            else:
                said = 'refused Unset'
        elif word == 'show':
            said = at() + ' sreg 0x00 sp 0x10FF\n' + ' '.join(['00'] * 32)
        elif word == 'mem':
            said = ' '.join(['00'] * n[1])
        out += said + '\n'
    return out


# certificates

class Line:
    """The words of a line, taken from left to right."""

    def __init__(self, line, number, ended):
        self.words = line.split(b' ') if line else []
        self.number, self.ended, self.at = number, ended, 0

    def bad(self, why):
        raise Bad(self.number, why)

    def take(self):
        if self.at == len(self.words):
            self.bad('Word' if self.ended else 'NoEnd')
        self.at += 1
        return self.words[self.at - 1]

    def fixed(self, word):
        if self.take() != word:
            self.bad('Word')

    def choice(self, *words):
        word = self.take()
        if word not in words:
            self.bad('Word')
        return word.decode()

    def number_in(self, low, high, beyond='Limit'):
        word = self.take()
        if not numeral(word):
            self.bad('Number')
        if not low <= int(word) <= high:
            self.bad(beyond)
        return int(word)

    def finish(self):
        if self.at < len(self.words):
            self.bad('Word')
        if not self.ended:
            self.bad('NoEnd')


def all_digits(word):
    return word != b'' and all(48 <= c <= 57 for c in word)


def numbers(line, words, lows, high):
    """Numbers in an item: a byte that is no digit is Word, a wrong spelling Number, a wrong value Limit."""
    if not all(all_digits(w) for w in words):
        line.bad('Word')
    if not all(numeral(w) for w in words):
        line.bad('Number')
    if not all(low <= int(w) <= high for w, low in zip(words, lows)):
        line.bad('Limit')
    return [int(w) for w in words]


def fact(line, word, top, sloped, old, low=0, high=None):
    """A fact of a byte or a pair: ('any',), ('range', lo, hi), ('l' or 'c', A, B), ('old', R) or ('flags',)."""
    high = top if high is None else high
    if word == b'*':
        if low > 0 or high < top:
            line.bad('Limit')
        return ('any',)
    if word[:1] in (b'l', b'c'):
        if word[1:2] != b'*' or not sloped or b'+' not in word:
            line.bad('Word')
        a, b = numbers(line, word[2:].split(b'+', 1), (1, 0), top)
        return (word[:1].decode(), a, b)
    if word[:1] == b'o':
        if not old:
            line.bad('Word')
        return ('flags',) if word == b'of' else ('old', numbers(line, [word[1:]], (0,), 31)[0])
    if b'.' in word:
        lo, hi = word.split(b'.', 1)
        if hi[:1] != b'.':
            line.bad('Word')
        lo, hi = numbers(line, [lo, hi[1:]], (low, low), high)
        return ('range', lo, hi)
    lo = numbers(line, [word], (low,), high)[0]
    return ('range', lo, lo)


def spelled(line, f, word, top):
    if f[0] == 'range' and b'.' in word and (f[1] >= f[2] or f[1:] == (0, top)):
        line.bad('Order')


FLAGS = 'cznvsht'

# how many values the numbers of what the flags tell have
TOLD = {b'tst': (32,), b'cp': (32, 32), b'cpi': (32, 256), b'cpw': (31, 32, 32), b'cpiw': (31, 256, 32),
        b'sub': (32, 256, 256, 256), b'subw': (31, 65536, 65536, 65536)}


def told_by_flags(line, word):
    """What the flags tell: a name and its numbers, of which each is read before the one behind it."""
    name, colon, rest = word.partition(b':')
    if not colon or name not in TOLD:
        line.bad('Word')
    limits, values = TOLD[name], []
    for at, limit in enumerate(limits):
        last = at == len(limits) - 1
        if not last and b',' not in rest:
            line.bad('Word')
        part, rest = (rest, b'') if last else rest.split(b',', 1)
        values += numbers(line, [part], (0,), limit - 1)
    if len(values) == 4 and values[2] > values[3]:
        line.bad('Order')
    return (name.decode(), *values)


def items(line, kind, entry, cert):
    handler = kind == 'handler'
    old = handler and not entry
    regs = {r: (('old', r) if old else ('any',)) for r in range(32)}
    pairs, flags = {p: ('any',) for p in 'xyz'}, {b: ('o' if old else '?') for b in FLAGS}
    mine = [i for i, c in enumerate(cert['cells']) if kind == 'alone' or c[1] == kind]
    cells = {i: ('range', *cert['cells'][i][2:]) for i in mine}
    stack, successors, least = [], [], 0
    depth = cert['handler'] if handler else cert['main']

    def place(at, default):
        nonlocal least
        if at < least or default:
            line.bad('Order')
        least = at + 1
    while line.at < len(line.words):
        word = line.take()
        later = [w[:2] for w in line.words[line.at:]]
        if word[:1] == b'>':
            if entry or not all_digits(word[1:]):
                line.bad('Word')
            if not numeral(word[1:]):
                line.bad('Number')
            if len(successors) == 16:
                line.bad('Limit')
            if int(word[1:]) >= cert['points']:
                line.bad('Unknown')
            if successors and int(word[1:]) <= successors[-1]:
                line.bad('Order')
            least = 63
            successors.append(int(word[1:]))
            continue
        if word[:2] == b's:':
            f = fact(line, word[2:], 255, not entry, old)
            if len(stack) == depth:
                line.bad('Limit')
            spelled(line, f, word, 255)
            place(42, False)
            least = 42
            stack.append(f)
            continue
        if b'=' not in word:
            line.bad('Word')
        key, value = word.split(b'=', 1)
        if cert['version'] == 3 and kind == 'main' and not entry and key in (b'flags', b'split'):
            if key == b'flags':
                told_by_flags(line, value)
            else:
                numbers(line, [value], (0,), 31)
            place(61 if key == b'flags' else 62, False)
        elif key[:1] == b'r':
            if not numeral(key[1:]) or int(key[1:]) > 31:
                line.bad('Word')
            f = fact(line, value, 255, not entry, old)
            spelled(line, f, value, 255)
            place(int(key[1:]), f == regs[int(key[1:])])
            regs[int(key[1:])] = f
        elif key[:1] == b'm':
            if not all_digits(key[1:]):
                line.bad('Word')
            known = numeral(key[1:]) and int(key[1:]) < len(cert['cells'])
            own = cert['cells'][int(key[1:])] if known else None
            try:
                limits = own[2:] if own and entry else (0, 255)
                f = fact(line, value, 255, not entry, False, *limits)
            except Bad as bad:
                if bad.why != 'Word' and not numeral(key[1:]):
                    line.bad('Number')
                raise
            if not numeral(key[1:]):
                line.bad('Number')
            if not known or int(key[1:]) not in mine:
                line.bad('Unknown')
            spelled(line, f, value, 255)
            at = int(key[1:])
            same = f == ('range', *own[2:]) or (f == ('any',) and own[2:] == (0, 255))
            place(43 + at, same)
            cells[at] = f
        elif key == b'z' and not (entry or least > 35 or value in (b'?', b'o')
                                  or (value in (b'0', b'1') and b'c=' not in later and b'z=' not in later)):
            f = fact(line, value, 65535, True, False)
            spelled(line, f, value, 65535)
            place(34, f == ('any',))
            pairs['z'] = f
        elif key in (b'x', b'y'):
            if entry:
                line.bad('Word')
            f = fact(line, value, 65535, True, False)
            spelled(line, f, value, 65535)
            place(32 + b'xy'.index(key), f == ('any',))
            pairs[key.decode()] = f
        elif len(key) == 1 and key.decode('latin1') in FLAGS:
            if value not in ((b'0', b'1', b'?', b'o') if old else (b'0', b'1', b'?')):
                line.bad('Word')
            key = key.decode()
            place(35 + FLAGS.index(key), value.decode() == flags[key])
            flags[key] = value.decode()
        else:
            line.bad('Word')
    if not line.ended:
        line.bad('NoEnd')
    return {'regs': regs, 'pairs': pairs, 'flags': flags, 'stack': stack, 'cells': cells, 'next': successors}


def read_cert(text):
    pieces = text.split(b'\n')
    number = 0

    def line():
        nonlocal number
        number += 1
        return Line(pieces[number - 1], number, number < len(pieces))
    if pieces[0] not in (b'uzcert 2', b'uzcert 3'):
        raise Bad(1, 'Head')
    if len(pieces) == 1:
        raise Bad(1, 'NoEnd')
    number = 1
    cert = {'version': int(pieces[0][-1:]), 'cells': [], 'kinds': [], 'lines': [], 'rests': [], 'list': []}
    l = line()
    l.fixed(b'size')
    kinds = l.number_in(1, 525)
    lines = l.number_in(1, 525)
    rests = l.number_in(0, lines)
    cert['points'] = l.number_in(1, 524288)
    cells = l.number_in(0, 16)
    l.finish()
    l = line()
    l.fixed(b'irq')
    cert['irq'] = l.number_in(4, 5)
    l.finish()
    l = line()
    l.fixed(b'stack')
    lo = l.number_in(256, 4350)
    hi = l.number_in(lo + 1, 4351)
    cert['main'] = l.number_in(0, min(32, hi - lo - 1))
    cert['handler'] = l.number_in(0, min(32, hi - lo - 1 - cert['main']))
    l.finish()
    for _ in range(cells):
        l = line()
        l.fixed(b'cell')
        at = l.number_in(256, 4351)
        if lo <= at <= hi:
            l.bad('Limit')
        if cert['cells'] and at <= cert['cells'][-1][0]:
            l.bad('Order')
        owner = l.choice(b'main', b'handler')
        low = l.number_in(0, 255)
        cert['cells'].append((at, owner, low, l.number_in(low, 255)))
        l.finish()
    for _ in range(kinds):
        l = line()
        l.fixed(b'kind')
        count = l.number_in(1, 1820)
        clocks = l.number_in(910, 1820)
        if clocks not in (910, 1820) or count > clocks:
            l.bad('Limit')
        l.finish()
        events, least = [], 0
        for _ in range(count):
            l = line()
            clock = l.number_in(0, clocks - 1)
            if clock < least:
                l.bad('Order')
            least = clock + 1
            event = l.choice(b'sync', b'pixel', b'sound', b'leave')
            if event == 'sync':
                event += str(l.number_in(0, 1))
            events.append((clock, event))
            l.finish()
        cert['kinds'].append((clocks, events))
    l = line()
    l.fixed(b'fall')
    cert['fall'] = l.number_in(1, 1819)
    l.finish()
    while len(cert['lines']) < lines:
        l = line()
        l.fixed(b'run')
        count = l.number_in(1, lines - len(cert['lines']))
        kind = l.number_in(0, kinds - 1, 'Unknown')
        if cert['lines'] and cert['lines'][-1] == kind:
            l.bad('Order')
        cert['lines'] += [kind] * count
        l.finish()
    for _ in range(rests):
        l = line()
        l.fixed(b'rest')
        at = l.number_in(0, lines - 1)
        if cert['rests'] and at <= cert['rests'][-1]['line']:
            l.bad('Order')
        rest = {'line': at, 'clock': l.number_in(0, 1819), 'vector': l.number_in(0, cert['points'] - 1, 'Unknown'), 'cells': {}}
        for i, c in enumerate(cert['cells']):
            if c[1] == 'handler':
                word = l.take()
                f = fact(l, word, 255, False, False, *c[2:])
                spelled(l, f, word, 255)
                rest['cells'][i] = f
        l.finish()
        cert['rests'].append(rest)
    l = line()
    l.fixed(b'entry')
    kind = l.choice(b'main', b'alone')
    entry = {'kind': kind, 'id': l.number_in(0, cert['points'] - 1, 'Unknown'), 'pc': l.number_in(0, 32767)}
    entry['line'] = l.number_in(0, 0 if kind == 'main' else lines - 1)
    entry['clock'] = l.number_in(0, 0 if kind == 'main' else 1819)
    entry.update(items(l, kind, True, cert))
    cert['entry'] = entry
    left = 16777216
    for _ in range(cert['points']):
        l = line()
        l.fixed(b'point')
        kind = l.choice(b'main', b'handler', b'alone')

        def limit(n):
            return 0 if kind == 'main' else n
        p = {'kind': kind, 'pc': l.number_in(0, 32767), 'l0': l.number_in(0, limit(lines - 1))}
        p['l1'] = l.number_in(p['l0'], limit(lines - 1))
        p['c0'] = l.number_in(0, limit(255))
        p['c1'] = l.number_in(p['c0'], min(limit(255), p['c0'] + left // (p['l1'] - p['l0'] + 1) - 1))
        p['clock'] = l.number_in(0, limit(1819))
        word = l.take()
        size = word[1:] if word[:1] == b'-' else word
        if not numeral(size) or word == b'-0':
            l.bad('Number')
        if int(size) > limit(1819):
            l.bad('Limit')
        p['slope'] = int(word)
        p['pending'] = l.number_in(0, 1 if kind == 'handler' else 0)
        p.update(items(l, kind, False, cert))
        left -= (p['l1'] - p['l0'] + 1) * (p['c1'] - p['c0'] + 1)
        cert['list'].append(p)
    l = line()
    l.fixed(b'end')
    l.finish()
    if pieces[number:] != [b'']:
        raise Bad(number + 1, 'NoEnd')
    return cert


def value(f, l, c, top):
    """What a fact says at a line and a count."""
    if f[0] == 'any':
        return (0, top)
    if f[0] in 'lc':
        n = (f[1] * (l if f[0] == 'l' else c) + f[2]) % (top + 1)
        return (n, n)
    return f[1:] if f[0] == 'range' else f


def lies(a, b):
    """A range or an old value in another."""
    if isinstance(b[0], str):
        return a == b
    if isinstance(a[0], str):
        a = (0, 255)
    return b[0] <= a[0] and a[1] <= b[1]


def in_point(a, p):
    """Whether an entry's state lies in some instance of a point."""
    if (a['kind'], a['pc']) != (p['kind'], p['pc']) or p['pending'] or len(a['stack']) != len(p['stack']):
        return False
    for l in range(p['l0'], p['l1'] + 1):
        for c in range(p['c0'], p['c1'] + 1):
            if p['kind'] != 'main' and (l != a['line'] or p['clock'] + p['slope'] * c != a['clock']):
                continue
            if (all(lies(a['regs'][r], value(p['regs'][r], l, c, 255)) for r in range(32))
                    and all(lies(a['pairs'][x], value(p['pairs'][x], l, c, 65535)) for x in 'xyz')
                    and all(lies(x, value(y, l, c, 255)) for x, y in zip(a['stack'], p['stack']))
                    and all(lies(a['cells'][i], value(p['cells'][i], l, c, 255)) for i in p['cells'])
                    and all(p['flags'][b] in ('?', a['flags'][b]) for b in FLAGS)):
                return True
    return False


def check_empty(cert):
    """The check of an image without a byte: no word there is an instruction."""
    for n, k in enumerate(cert['lines']):
        clocks, line = cert['kinds'][k]
        if clocks != 1820:
            return 'schedule line %d clock %d' % (n, clocks)
        falls = [c for c, e in line if e == 'sync0']
        if line[0] != (cert['fall'], 'sync0'):
            return 'schedule line %d clock %d' % (n, line[0][0])
        if len(falls) > 1:
            return 'schedule line %d clock %d' % (n, falls[1])
    events = [cert['kinds'][k][1] for k in cert['lines']]
    for r in cert['rests']:
        line, after = events[r['line']], events[(r['line'] + 1) % len(events)]
        right = line[-1] == (r['clock'], 'leave') and after[0][0] > cert['irq'] + 3
        for c in range(4):
            state = {'kind': 'handler', 'pc': 26, 'line': (r['line'] + 1) % len(events), 'clock': c + cert['irq'],
                     'regs': {n: ('old', n) for n in range(32)}, 'pairs': {x: (0, 65535) for x in 'xyz'},
                     'flags': {b: 'o' for b in FLAGS}, 'stack': [], 'cells': {i: value(f, 0, 0, 255) for i, f in r['cells'].items()}}
            right = right and in_point(state, cert['list'][r['vector']])
        if not right:
            return 'rest line %d' % r['line']
    e = dict(cert['entry'])
    for part in ('regs', 'cells'):
        e[part] = {n: value(f, 0, 0, 255) for n, f in e[part].items()}
    e['stack'] = [value(f, 0, 0, 255) for f in e['stack']]
    e['pairs'] = {x: tuple(e['regs'][lo + 1][k] * 256 + e['regs'][lo][k] for k in (0, 1)) for x, lo in zip('xyz', (26, 28, 30))}
    if e['kind'] == 'main' and not cert['rests'] or not in_point(e, cert['list'][e['id']]):
        return 'entry'
    p = cert['list'][0]
    return 'point 0 pc 0x%04X line %d count %d Opcode' % (p['pc'], p['l0'], p['c0'])


# source

MARKS = b':,=.+-*/%()|^&~'
SHAPES = {b'ldi': (2, 2), b'rjmp': (2, 1), b'jmp': (4, 1), b'ld': (2, 2)}


def name_byte(c):
    return 48 <= c <= 57 or 65 <= c <= 90 or 97 <= c <= 122 or c == 95


def tokens(line):
    """The tokens of a line: names as bytes, numbers as int, marks as one character."""
    out, at = [], 0
    while at < len(line):
        c = line[at]
        if c == 59:
            # only the line's end is looked for behind `;`
            break
        if c in (32, 9):
            at += 1
        elif name_byte(c):
            end = at
            while end < len(line) and name_byte(line[end]):
                end += 1
            word = line[at:end]
            if 48 <= c <= 57:
                out.append(number_of(word))
            else:
                out.append(word)
            at = end
        elif line[at:at + 2] in (b'<<', b'>>'):
            out.append(line[at:at + 2].decode())
            at += 2
        elif c in MARKS:
            out.append(chr(c))
            at += 1
        else:
            raise ValueError
    return out


def number_of(word):
    for head, base in ((b'0x', 16), (b'0b', 2)):
        if word.startswith(head):
            n = int(word[2:].replace(b'_', b'?').decode(), base)
            break
    else:
        n = int(word.replace(b'_', b'?').decode())
    if n > 2 ** 63 - 1:
        raise ValueError
    return n


def expression(parts, symbols, dot):
    """A sum of numbers, names and `.`, as the cases have them."""
    total, sign, wants = 0, 1, True
    for t in parts:
        if wants and t == '-':
            sign = -sign
        elif wants:
            if t == '.' and dot is None or isinstance(t, str) and t != '.':
                raise Bad(0, 'Operand')
            if isinstance(t, bytes) and t not in symbols:
                raise Bad(0, 'Symbol')
            total += sign * (dot if t == '.' else symbols[t] if isinstance(t, bytes) else t)
            wants = False
        elif t in ('+', '-'):
            sign, wants = (1 if t == '+' else -1), True
        else:
            raise Bad(0, 'Operand')
    if wants:
        raise Bad(0, 'Operand')
    return total


def register(part):
    ok = len(part) == 1 and isinstance(part[0], bytes) and part[0][:1] in b'rR' and numeral(part[0][1:])
    return int(part[0][1:]) if ok and int(part[0][1:]) < 32 else None


def split_commas(parts):
    out = [[]]
    for t in parts:
        if t == ',':
            out.append([])
        else:
            out[-1].append(t)
    return out if parts else []


PREDEFINED = {b'PORTB': 0x25}


def assemble(text):
    lines, symbols, address, work = text_lines(text), dict(PREDEFINED), 0, []
    for number, line in enumerate(lines, 1):
        try:
            parts = tokens(line)
        except ValueError:
            raise Bad(number, 'Lex')
        whys = []
        if len(parts) > 1 and isinstance(parts[0], bytes) and parts[1] == ':':
            name, parts = parts[0], parts[2:]
            if name in symbols or register([name]) is not None or name in (b'X', b'Y', b'Z', b'x', b'y', b'z'):
                whys.append((6, 'Twice'))
            symbols.setdefault(name, address)
        if parts:
            if parts[0] == '.':
                if len(parts) < 2 or parts[1] != b'dw' or len(parts) < 3:
                    whys.append((9, 'Directive'))
                size = 2 * len(split_commas(parts[2:]))
            elif isinstance(parts[0], bytes) and parts[0].lower() in SHAPES:
                size = SHAPES[parts[0].lower()][0]
                if address % 2:
                    whys.append((9, 'Directive'))
            else:
                whys.append((2, 'Mnemonic'))
                size = 0
            work.append((number, address, parts))
            address += size
        if whys:
            raise Bad(number, min(whys)[1])
    for number, at, parts in work:
        try:
            emit(at, parts, symbols)
        except Bad as bad:
            raise Bad(number, bad.why)
    return address


def emit(at, parts, symbols):
    if parts[0] == '.':
        for part in split_commas(parts[2:]):
            if not -32768 <= expression(part, symbols, None) <= 65535:
                raise Bad(0, 'Range')
        return
    name, operands = parts[0].lower(), split_commas(parts[1:])
    if len(operands) != SHAPES[name][1] or name == b'ld':
        raise Bad(0, 'Operand')
    if name == b'ldi':
        r = register(operands[0])
        if r is None:
            raise Bad(0, 'Operand')
        n = expression(operands[1], symbols, None)
        if r < 16 or not -128 <= n <= 255:
            raise Bad(0, 'Range')
    elif name == b'rjmp':
        n = expression(operands[0], symbols, at + 2) - at - 2
        if n % 2 or not -4096 <= n <= 4094:
            raise Bad(0, 'Range')
    else:
        n = expression(operands[0], symbols, None)
        if n % 2 or not 0 <= n <= 65535:
            raise Bad(0, 'Range')


# commands

def run(words, files, changed):
    """The status and the printed text of a command, of whose files this one is changed."""
    def bad(why):
        return 3, 'bad %s line %d %s\n' % (changed, why.line, why.why)
    text = files[changed]
    try:
        if words[0] == 'dis':
            image = read_hex(text)
            return 0, {0: '', 2: '0000: CFFF      rjmp .-2\n'}[len(image)]
        if words[0] == 'trace':
            read_pads(text)
            return 0, 'end %s\n' % words[4]
        if words[0] == 'debug':
            return 0, session(read_script(text))
        if words[0] == 'check':
            return 4, 'refused %s\n' % check_empty(read_cert(text))
        if words[0] == 'asm':
            return 0, 'assembled bytes %d\n' % assemble(text)
    except Bad as why:
        return bad(why)
    raise SystemExit('a command that is not known here: ' + words[0])


def told(title, answers):
    """The lines of a directive."""
    counts, total, runs = {}, 0, 0
    for status, text in answers:
        words = text.split()
        key = '%d %s %s' % (status, words[0] if words else '', words[-1] if words else '')
        counts[key] = counts.get(key, 0) + 1
        for byte in [status] + list(text.encode()):
            total = (total * 31 + byte) % 2 ** 32
        runs += 1
    return '\n'.join([title, *('%d times %s' % (count, key) for key, count in counts.items()), 'runs %d sum %d\n' % (runs, total)])


def directives(script):
    """The lines of each directive of a script."""
    files, name = {}, None
    for line in script.split(b'\n'):
        word, _, rest = line.partition(b' ')
        if line[:1] == b'|':
            files[name] += line[1:] + b'\n'
        elif word == b'case':
            files, name = {}, None
        elif word == b'file':
            name = rest.decode()
            files[name] = b''
        elif word in (b'cut', b'change'):
            changed, *words = rest.decode().split()
            text = files[changed]
            if word == b'cut':
                texts = [text[:n] for n in range(len(text))]
            else:
                texts = [text[:n] + bytes([b]) + text[n + 1:] for n in range(len(text)) for b in KEPT]
            yield told(line.decode(), [run(words, {**files, changed: t}, changed) for t in texts])


def main():
    words = sys.argv[1:]
    if words not in ([], ['print']):
        usage(__doc__)
    cases, outcomes = os.path.join(TOP, 'crates', 'command_cases'), Outcomes()
    with open(os.path.join(cases, 'stdin'), 'rb') as script, open(os.path.join(cases, 'stdout'), encoding='latin-1') as stored:
        answers = '\n' + stored.read()
        for lines in directives(script.read()):
            if words:
                print(lines, end='')
            else:
                outcomes.tell('\n' + lines in answers, 'the stored answers lack these lines:\n' + lines)
    if not words:
        outcomes.end()


if __name__ == '__main__':
    main()
