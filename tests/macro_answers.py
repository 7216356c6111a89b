#!/usr/bin/env python3
"""A plain expander of macros, written from docs/SOURCE.md and docs/DECISIONS.md and not from the code, beside the program.

    macro_answers.py [PROGRAM [COUNT [SEED]]]

draws COUNT sources (1000, where nothing is said) of up to three files with blocks, calls, definitions in calls and `@` at odd
places, expands each by `PROGRAM expand` and by itself, and compares the status, the printed line and the flat file. PROGRAM is the
program, else the variable UZEBOX, else `uzebox` at the top of the repository. It prints the sources that differ, and how many
cases ended with which answer.
"""
import os
import random
import sys
import tempfile
from collections import Counter

from outcomes import Outcomes, binary, program, run, usage

MOST_LINES = MOST_BYTES = FILE_LIMIT = 1048576
BLANKS = ' \t'
DIRECTIVES = ['macro', 'endm', 'rept', 'endr', 'if', 'else', 'endif', 'include', 'equ']


class Refused(Exception):
    """The reasons of a line, of which the first in ORDER is told."""


def split_word(text):
    """The word at the front, and what comes after it."""
    end = 0
    while end < len(text) and (text[end].isalnum() or text[end] == '_'):
        end += 1
    return text[:end], text[end:]


def directive_of(line):
    """The directive that a line is, or None, and what comes after its name."""
    line = line.lstrip(BLANKS)
    if not line.startswith('.'):
        return None, ''
    word, rest = split_word(line[1:].lstrip(BLANKS))
    return (word.lower() if word.lower() in DIRECTIVES else None), rest


def is_bare(text):
    text = text.lstrip(BLANKS)
    return text == '' or text.startswith(';')


def lines_of(text):
    pieces = text.split('\n')
    lines = [p[:-1] if p.endswith('\r') else p for p in pieces[:-1]]
    return lines + ([pieces[-1]] if pieces[-1] else [])


def substituted(line, arguments, call):
    """A line with the arguments and the number of a call in their places, or None where it names an argument that isn't there."""
    out, at, lacks = '', 0, False
    while at < len(line):
        following = line[at + 1] if at + 1 < len(line) else ''
        if line[at] == '@' and following.isdigit():
            if int(following) < len(arguments):
                out += arguments[int(following)]
            else:
                lacks = True
            at += 2
        elif line[at] == '@' and following == '@':
            out += str(call)
            at += 2
        else:
            out += line[at]
            at += 1
    return None if lacks else out


def value_of(text, constants):
    """The value of sums and differences of numbers and constants, or None."""
    words = text.split(';')[0].replace('+', ' + ').replace('-', ' - ').split()
    if not words:
        return None
    value, sign, wants = 0, 1, True
    for word in words:
        if wants:
            if word == '-':
                sign = -sign
                continue
            if word.isdigit():
                number = int(word)
            elif word in constants:
                number = constants[word]
            else:
                return None
            value, wants = value + sign * number, False
        elif word in '+-':
            sign, wants = (1 if word == '+' else -1), True
        else:
            return None
    return None if wants else value


class Expander:
    def __init__(self, files):
        self.files, self.names, self.flat = files, [], ''
        self.macros, self.constants = {}, {}
        self.calls = self.reached = self.count = 0

    def refuse_unless(self, at, *tests):
        """The least reason that stands."""
        for reason, stands in tests:
            if stands:
                raise Refused(at, reason)

    def is_full(self):
        return self.reached >= MOST_LINES

    def expand_file(self, name, includes, place):
        self.names.append(name)
        number = len(self.names) - 1
        at = place if place else (number, 0)
        if name not in self.files:
            raise Refused(at, 'Unread')
        self.refuse_unless(at, ('TooLong', len(self.files[name].encode()) > FILE_LIMIT))
        if place:
            self.refuse_unless(at, ('Depth', includes > 8), ('Form', self.blocks_at_include > 0), ('Full', self.is_full()))
            self.reached += 1
        self.level(lines_of(self.files[name]), number, None, includes, 0)

    def closing(self, lines, at, opens, closes):
        """The line that closes the block of line `at`, and the block's first `.else`, where blocks of one kind nest."""
        depth, part = 0, None
        for k in range(at + 1, len(lines)):
            word = directive_of(lines[k])[0]
            if word == opens:
                depth += 1
            elif word == closes:
                if depth == 0:
                    return k, part
                depth -= 1
            elif word == 'else' and opens == 'if' and depth == 0 and part is None:
                part = k
        return None, None

    def closes_well(self, line):
        return is_bare(directive_of(line)[1])

    def level(self, lines, number, origin, includes, blocks):
        at = 0
        while at < len(lines):
            place = origin if origin else (number, at + 1)
            word, rest = directive_of(lines[at])
            step = {'macro': self.define, 'rept': self.repeat, 'if': self.choose}.get(word)
            if step:
                at = step(lines, at, rest, place, number, includes, blocks)
            elif word == 'include':
                name = rest.strip(BLANKS)
                if not name:
                    self.refuse_unless(place, ('Depth', includes >= 8), ('Form', True))
                self.blocks_at_include = blocks
                self.expand_file(name, includes + 1, place)
                at += 1
            elif word in ('endm', 'endr', 'else', 'endif'):
                raise Refused(place, 'Form')
            else:
                self.other(lines[at], word, rest, place, number, includes, blocks)
                at += 1

    def define(self, lines, at, rest, place, number, includes, blocks):
        name, after = split_word(rest.lstrip(BLANKS))
        named = name != '' and not name[0].isdigit() and is_bare(after)
        end, _ = self.closing(lines, at, 'macro', 'endm')
        self.refuse_unless(place, ('Depth', blocks >= 16), ('Form', not named), ('Unclosed', end is None),
                           ('Twice', name in self.macros), ('Full', self.is_full()))
        self.reached += 1
        self.macros[name] = lines[at + 1:end]
        self.refuse_unless(place, ('Form', not self.closes_well(lines[end])))
        return end + 1

    def repeat(self, lines, at, rest, place, number, includes, blocks):
        end, _ = self.closing(lines, at, 'rept', 'endr')
        times = value_of(rest, self.constants)
        self.refuse_unless(place, ('Depth', blocks >= 16), ('Form', is_bare(rest)), ('Unclosed', end is None),
                           ('Value', times is None or not 0 <= times <= 65535), ('Full', self.is_full()))
        self.reached += 1
        for _ in range(times):
            self.level(lines[at + 1:end], number, place, includes, blocks + 1)
            self.refuse_unless(place, ('Form', not self.closes_well(lines[end])), ('Full', self.is_full()))
            self.reached += 1
        return end + 1

    def choose(self, lines, at, rest, place, number, includes, blocks):
        end, part = self.closing(lines, at, 'if', 'endif')
        value = value_of(rest, self.constants)
        self.refuse_unless(place, ('Depth', blocks >= 16), ('Form', is_bare(rest)), ('Unclosed', end is None),
                           ('Value', value is None), ('Full', self.is_full()))
        self.reached += 1
        middle = end if part is None else part
        chosen = lines[at + 1:middle] if value != 0 else lines[middle + 1:end]
        parts_well = part is None or self.closes_well(lines[part])
        self.refuse_unless(place, ('Form', value == 0 and not parts_well))
        self.level(chosen, number, place, includes, blocks + 1)
        self.refuse_unless(place, ('Form', not parts_well or not self.closes_well(lines[end])))
        return end + 1

    def other(self, line, word, rest, place, number, includes, blocks):
        name, after = split_word(line.lstrip(BLANKS))
        if name in self.macros and (after == '' or after[0] in BLANKS + ';'):
            text = after.split(';')[0]
            arguments = [] if text.strip(BLANKS) == '' else [a.strip(BLANKS) for a in text.split(',')]
            body = [substituted(b, arguments, self.calls) for b in self.macros[name]]
            self.refuse_unless(place, ('Depth', blocks >= 16), ('Argument', len(arguments) > 10 or None in body), ('Full', self.is_full()))
            self.reached += 1
            self.calls += 1
            self.level(body, number, place, includes, blocks + 1)
            return
        self.refuse_unless(place, ('Full', self.is_full() or len(self.flat) + len(line) + 1 > MOST_BYTES))
        self.reached += 1
        if word == 'equ':
            target, equals, expression = rest.partition('=')
            value = value_of(expression, self.constants)
            key = target.strip(BLANKS)
            if equals and value is not None and split_word(key) == (key, '') and key and not key[0].isdigit():
                self.constants[key] = value
        self.flat += line + '\n'
        self.count += 1


def answer(files):
    """Status, printed line, flat file."""
    expander = Expander(files)
    try:
        expander.expand_file('a.asm', 0, None)
    except Refused as refusal:
        (number, line), why = refusal.args
        if why == 'Unread':
            return 2, 'unread %s\n' % expander.names[-1], None
        return 3, 'bad %s line %d %s\n' % (expander.names[number], line, why), None
    return 0, 'expanded lines %d\n' % expander.count, expander.flat


# Drawing of sources

MACROS = ['p', 'q', 'r', 'x0', 'x1', 'x2', 'nop']
ARGUMENTS = ['1', '0', '2', 'r1', '', 'nop', '.endif', '.else', '.if 1', '.endr', '.endm', 'm', 'p', '@0', '@1', '@@', 'if', 'a']
PLAIN = ['nop', '  ldi r16, 1', 'w: dec r31', '; a comment', '', 'p: nop', 'p,3', '.db 1, 2', '.equ a = 1', '.equ a = 0',
         '.equ b = a + 1', '.equ c = zz', 'x: .rept 2', '.foo', ' . equ d = 2', '.EQU a = 2', '@', 'a@b']
IN_BODY = ['@0', '@0 r1', '.@0', '.@0 1', '.if@0', '.end@0', '.endif@0', '.if @0', '.rept @0', '  ldi r16, @1 ; @2', 'w@@: dec r31',
           'w@@0: nop', '@@', '@@@0', '@0@1', 'p @0', 'q @1, @0', '.equ a = @0', '.equ a@@ = @0', 'nop ;@0', '.endr ;@0', '@x @0',
           '.else ;@0', '. if @0', '.macro x@@', '.macro @0']


def drawn_expression(draw):
    return draw.choice(['0', '1', '2', '3', 'a', 'b', 'a - 1', '1 - 1', 'zz', '', ' ; none', '1 2', '-1', '65536', 'a + b ; sum'])


def drawn_call(draw):
    count = draw.choice([0, 0, 1, 1, 2, 3, 11])
    return draw.choice(MACROS) + ' ' + ', '.join(draw.choice(ARGUMENTS) for _ in range(count)) + draw.choice(['', '', ' ; call'])


def drawn_lines(draw, depth, in_body):
    lines = []
    for _ in range(draw.randrange(0, 6)):
        kind = draw.randrange(12)
        inner = lambda body=in_body: drawn_lines(draw, depth + 1, body) if depth < 5 else []
        tail = draw.choice(['', '', '', '', ' ; well', ' x'])
        if kind < 3:
            lines.append(draw.choice(PLAIN + (IN_BODY if in_body else [])))
        elif kind == 3:
            lines += ['.macro ' + draw.choice(MACROS + (['m@@', 'x@0'] if in_body else []))] + inner(True) + ['.endm' + tail]
        elif kind == 4:
            lines += ['.rept ' + drawn_expression(draw)] + inner() + ['.endr' + tail]
        elif kind == 5:
            lines += ['.if ' + drawn_expression(draw)] + inner() + ['.endif' + tail]
        elif kind == 6:
            lines += [' .IF ' + drawn_expression(draw)] + inner() + ['.else' + tail] + inner() + ['.endif' + draw.choice(['', ' ;'])]
        elif kind < 10:
            lines.append(drawn_call(draw))
        elif kind == 10 and draw.randrange(4) == 0:
            lines.append('.include ' + draw.choice(['b.asm', 'c.asm', 'd.asm', '']))
        elif draw.randrange(8) == 0:
            lines.append(draw.choice(['.endm', '.endr', '.else', '.endif', '.macro', '.macro 1', '.rept', '.if', '.if 1', '.rept 1']))
    return lines


def drawn_files(draw):
    files = {}
    for name in ['a.asm', 'b.asm', 'c.asm']:
        start = []
        if name == 'a.asm':
            for macro in draw.sample(MACROS, draw.randrange(0, 4)):
                start += ['.macro ' + macro] + drawn_lines(draw, 1, True) + ['.endm']
        lines = start + drawn_lines(draw, 0, False) + drawn_lines(draw, 0, False)
        end = draw.choice(['\n', '\n', '\r\n'])
        files[name] = end.join(lines) + draw.choice(['', end])
    return files


def expanded(path, folder, files):
    """The status, the printed line and the flat file of the program."""
    flat = os.path.join(folder, 'flat')
    for name, text in files.items():
        with open(os.path.join(folder, name), 'w', newline='') as out:
            out.write(text)
    if os.path.exists(flat):
        os.remove(flat)
    status, printed = run([path, 'expand', 'a.asm', 'flat'], folder)
    if not os.path.exists(flat):
        return status, printed.decode(), None
    with open(flat, newline='') as written:
        return status, printed.decode(), written.read()


def main():
    words = sys.argv[1:]
    if len(words) > 3 or not all(word.isdigit() for word in words[1:]):
        usage(__doc__)
    path, count, seed = binary(program(words[:1], __doc__)), *(list(map(int, words[1:])) + [1000, 1][len(words[1:]):])
    draw, answers, outcomes = random.Random(seed), Counter(), Outcomes()
    with tempfile.TemporaryDirectory() as folder:
        for case in range(count):
            files = drawn_files(draw)
            wanted = answer(files)
            status, printed, _ = wanted
            got = expanded(path, folder, files)
            answers['expanded' if status == 0 else printed.split()[-1] if status == 3 else 'Unread'] += 1
            if not outcomes.equal('case %d' % case, wanted, got):
                for name, text in files.items():
                    print('--', name)
                    print(text)
    for name, number in answers.most_common():
        print(number, name)
    outcomes.end()


if __name__ == '__main__':
    main()
