#!/usr/bin/env python3
"""Runs the rows of crates/command_cases, which are proved to hold over files in memory, through the program with real files.

    command_rows.py [PROGRAM]

PROGRAM is the program, else the variable UZEBOX, else `uzebox` at the top of the repository. The crate's `stdin` is a script
(its src/main.rt and src/outside.rt say how it is read), its `stdout` what the commands are to answer. Each case has a folder of
its own. Rows in which a call of a file or a print is planned to fail can't be made from outside: they are skipped.
"""
import os
import sys
import tempfile

from outcomes import TOP, Outcomes, binary, program, run

CASES = os.path.join(TOP, 'crates', 'command_cases')
CHANGED = [0, 10, 13, ord('7'), 255]  # what stands in place of a byte
NO_FILE_FAULT = 'a fault of a file is planned, which only files in memory have'
NO_PRINT_FAULT = 'a fault of output is planned, which only a sink in memory has'
NO_EACH_CALL = 'runs in which each call outside fails in turn, which only files in memory can'
PRINTING = {b'case', b'run', b'make', b'show', b'bytes', b'count', b'cut', b'change'}


def read(name):
    with open(os.path.join(CASES, name), 'rb') as file:
        return file.read()


class Answers:
    """The lines of `stdout`, taken a directive at a time."""

    def __init__(self, script):
        self.lines, self.at, headers, outside = read('stdout').split(b'\n'), 0, [], False
        for line in script:
            word, _, rest = line.partition(b' ')
            outside = outside or line == b'outside'
            if word in PRINTING and (b' ' in line) and not (outside and word in (b'show', b'bytes', b'count', b'cut', b'change')):
                headers.append(self.header(word, rest))
        self.headers = headers

    @staticmethod
    def header(word, rest):
        if word == b'show':
            return b'file ' + rest
        if word == b'bytes':
            return b'file ' + rest + b':'
        return (b'run' if word == b'make' else word) + b' ' + rest

    def take(self):
        """The lines from the next directive's first one up to that of the one after it."""
        header = self.headers.pop(0)
        after = self.headers[0] if self.headers else None
        start = self.at
        self.at += 1
        while self.at < len(self.lines) and not (after is not None and self.is_first(self.lines[self.at], after)):
            self.at += 1
        return self.lines[start:self.at] if self.is_first(self.lines[start], header) else [b'no answer stands there']

    @staticmethod
    def is_first(line, header):
        return line == header or header.endswith(b':') and line.startswith(header)


class Folder:
    """The files of a case."""

    def __init__(self, base):
        self.base, self.count, self.path = base, 0, None

    def begin(self):
        self.count += 1
        self.path = os.path.join(self.base, str(self.count))
        os.mkdir(self.path)

    def put(self, name, data):
        path = os.path.join(self.path.encode(), name)
        os.makedirs(os.path.dirname(path), exist_ok=True)
        with open(path, 'wb') as file:
            file.write(data)

    def get(self, name):
        path = os.path.join(self.path.encode(), name)
        if not os.path.isfile(path):
            return None
        with open(path, 'rb') as file:
            return file.read()


def with_line(data, number, text):
    """The data with a text in place of the line of this number, or without that line where the text is empty."""
    lines = data.splitlines(keepends=True) if b'\r' not in data else data.replace(b'\n', b'\n\0').split(b'\0')
    if 0 < number <= len(lines):
        lines[number - 1] = text + b'\n' if text else b''
    return b''.join(lines)


def lines_of(text):
    """The lines of a text whose last line may lack its end."""
    lines = text.split(b'\n')
    return lines[:-1] if lines[-1] == b'' else lines


def told(answers):
    """How often each answer came, told by status, first and last word, and the sum over all."""
    counts, total, runs = {}, 0, 0
    for status, text in answers:
        words = text.split()
        key = b'%d %s %s' % (status, words[0] if words else b'', words[-1] if words else b'')
        counts[key] = counts.get(key, 0) + 1
        for byte in bytes([status]) + text:
            total = (total * 31 + byte) % 2 ** 32
        runs += 1
    return [b'%d times %s' % (count, key) for key, count in counts.items()] + [b'runs %d sum %d' % (runs, total)]


class Rows:
    """Goes over the script."""

    def __init__(self, path, base, outcomes):
        self.path, self.outcomes, self.folder = path, outcomes, Folder(base)
        self.script = read('stdin').split(b'\n')
        self.answers = Answers(self.script)
        self.case, self.name, self.text = b'', None, b''
        self.file_fault = self.print_fault = False

    def go(self):
        for number, line in enumerate(self.script):
            if line == b'outside':
                self.end_file()
                return Outside(self).go(self.script[number + 1:])
            if line[:1] in (b'|', b'+', b'*'):
                self.continue_file(line)
            else:
                self.end_file()
                word, blank, rest = line.partition(b' ')
                if blank:
                    self.act(word, rest)

    def continue_file(self, line):
        if line[:1] == b'|':
            self.text += line[1:] + b'\n'
        else:
            words = line.split()
            count, digits = (1, words[1:]) if words[0] == b'+' else (int(words[1]), words[2:])
            self.text += bytes(int(word, 16) for word in digits) * count

    def end_file(self):
        if self.name is not None:
            self.folder.put(self.name, self.text)
        self.name, self.text = None, b''

    def act(self, word, rest):
        if word == b'case':
            self.begin(rest)
        elif word == b'shelf':
            self.file_fault = True
            self.folder.begin()
        elif word == b'sink':
            self.print_fault = True
        elif word == b'file':
            self.name = rest
        elif word == b'fill':
            name, count = rest.split(b' ')
            self.folder.put(name, b'\n' * int(count))
        elif word == b'swap':
            before, name, number, *text = rest.split(b' ', 3)
            self.folder.put(name, with_line(self.folder.get(before) or b'', int(number), b''.join(text)))
        elif word in PRINTING:
            self.look(word, rest)

    def begin(self, name):
        self.case = name
        self.file_fault = self.print_fault = False
        self.folder.begin()
        self.answers.take()

    def look(self, word, rest):
        """Runs what a directive says, and compares it with its answer."""
        wanted = self.answers.take()
        if self.file_fault:
            return self.outcomes.skip(NO_FILE_FAULT)
        got = [self.answers.header(word, rest)] + getattr(self, word.decode())(rest)
        if word == b'bytes':
            got = [b''.join(got)]
        if self.print_fault and word == b'run':
            return self.outcomes.skip(NO_PRINT_FAULT)
        return self.outcomes.equal('case %s: %s %s' % (self.case.decode(), word.decode(), rest.decode()),
                                   b'\n'.join(wanted), b'\n'.join(got))

    def answer(self, words):
        return run([self.path, *words.split()], self.folder.path)

    def run(self, words):
        status, text = self.answer(words)
        return lines_of(text) + [b'status %s' % str(status).encode()]

    def show(self, name):
        return lines_of(self.folder.get(name) or b'')

    def bytes(self, name):
        return [b''.join(b' %02X' % byte for byte in self.folder.get(name) or b'')]

    def count(self, words):
        return told([self.answer(words)])

    def cut(self, rest):
        name, _, words = rest.partition(b' ')
        whole = self.folder.get(name)
        return self.changed(name, words, [whole[:count] for count in range(len(whole))])

    def change(self, rest):
        name, _, words = rest.partition(b' ')
        whole = self.folder.get(name)
        return self.changed(name, words, [whole[:at] + bytes([byte]) + whole[at + 1:] for at in range(len(whole)) for byte in CHANGED])

    def changed(self, name, words, texts):
        whole, answers = self.folder.get(name), []
        for text in texts:
            self.folder.put(name, text)
            answers.append(self.answer(words))
        self.folder.put(name, whole)
        return told(answers)


class Outside:
    """The script's second part: each command runs over the files of its case alone."""

    def __init__(self, rows):
        self.rows, self.files, self.case = rows, {}, b''

    def go(self, lines):
        name = None
        for line in lines:
            word, blank, rest = line.partition(b' ')
            if line[:1] == b'|':
                self.files[name] += line[1:] + b'\n'
            elif word == b'case' and blank:
                self.case, self.files = rest, {}
                self.rows.answers.take()
            elif word == b'file' and blank:
                name = rest
                self.files[name] = b''
            elif word == b'take' and blank:
                self.files[rest] = self.rows.folder.get(rest) or b''
            elif word in (b'run', b'make') and blank:
                self.run(word, rest)

    def run(self, word, words):
        folder, outcomes = self.rows.folder, self.rows.outcomes
        folder.begin()
        for name, data in self.files.items():
            folder.put(name, data)
        wanted = self.rows.answers.take()
        if word == b'run':
            outcomes.skip(NO_EACH_CALL)
            wanted = wanted[:next((at for at, line in enumerate(wanted) if line.startswith(b'shelf: ')), 0)]
        got = [b'run ' + words] + self.rows.run(words)
        outcomes.equal('case %s: run %s' % (self.case.decode(), words.decode()), b'\n'.join(wanted), b'\n'.join(got))


def main():
    path = binary(program(sys.argv[1:], __doc__))
    outcomes = Outcomes()
    with tempfile.TemporaryDirectory() as base:
        rows = Rows(path, base, outcomes)
        rows.go()
        outcomes.equal('the answers that no row asks for', [b''], rows.answers.lines[rows.answers.at:] or [b''])
    outcomes.end()


if __name__ == '__main__':
    main()
