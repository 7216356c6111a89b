#!/usr/bin/env python3
"""Runs the commands that the pages show, and compares what comes with what the pages print.

    page_commands.py [PROGRAM]

PROGRAM is the program, else the variable UZEBOX, else `uzebox` at the top of the repository. Each block of a page that begins
with ```console is a session: a line that begins with `$ ` is a command, lines that follow and begin with `> ` go on with it,
and the lines up to the next command or the block's end are what it prints, on standard output or standard error, as a terminal
shows it. A line `...` of a page stands for any lines. The blocks of one page run one after another in one shell in one empty
folder; `~/dothwelen` is the repository with the program as its `uzebox`. A block whose first command begins with `./` runs there.

A command is skipped where a tool that it names isn't installed, and so is each later one of the page that names a file which
that command was to make. Commands of WITHOUT aren't run at all.
"""
import fnmatch
import os
import re
import shutil
import signal
import subprocess
import sys
import tempfile
import threading

from outcomes import SECONDS, TOP, Outcomes, program

# what a command may begin with, in any of its parts, that isn't run here
WITHOUT = {
    './prove': 'proves for an hour',
    '.ci/run': 'proves for hours, and runs these tests itself',
    'tests/run': 'runs these tests itself',
    'tests/try_wrong_bodies': 'proves for minutes',
    'rt': 'proves, and needs the toolchain',
    'git': 'needs the network',
    'install': 'writes outside its folder',
}

# tools that a machine may lack, with words that make one say its release, and the release that the pages were written with
TOOLS = {'avr-gcc': (['-dumpversion'], '5.4.0'), 'avr-objcopy': None, 'avr-objdump': None, 'avr-nm': None, 'srec_cat': None,
         'ffmpeg': None, 'file': None, 'xxd': None, 'sha256sum': None, 'convert': None}

COPIED = ['docs', 'examples', 'tools']  # folders of the repository that a command may write into


class Command:
    """A command of a page: its line's number, its text, and the lines that the page prints after it."""

    def __init__(self, number, text, block):
        self.number, self.text, self.output, self.in_clone = number, text, [], block[0].startswith('./')

    def words(self):
        return re.findall(r"[\w./~+-]+", self.text)

    def parts(self):
        """The words of each command of a list or a pipe, without what is quoted."""
        parts = re.split(r'\|\|?|&&|;|\n', re.sub(r"'[^']*'", "''", self.text))
        return [part.split() for part in parts if part.split()]

    def made(self):
        """Names of files that the command may make; `*` stands for any rest of a name."""
        last = [words[-1] for words in self.parts() if words[0] == 'uzebox']
        pictures = [word[:-4] + '*.png' for words in self.parts() if words[0].endswith('tools/frames') for word in words if word.endswith('.png')]
        return [word for word in self.words() if '.' in word] + last + pictures


def commands_of(text):
    """The commands of a page's sessions."""
    found, inside, block = [], False, []
    for number, line in enumerate(text.split('\n'), 1):
        if line.startswith('```'):
            inside, block, fresh = line == '```console', [], True
        elif inside and line.startswith('$ '):
            block.append(line[2:])
            found.append(Command(number, line[2:], block))
            fresh = True
        elif inside and fresh and found and line.startswith('> '):
            found[-1].text += '\n' + line[2:]
        elif inside and found:
            found[-1].output.append(line)
            fresh = False
    return found


def lacks(tool):
    """Why a tool can't be used here, or None."""
    if tool not in TOOLS:
        return None
    if not shutil.which(tool):
        return '%s is not installed' % tool
    if TOOLS[tool]:
        words, release = TOOLS[tool]
        if subprocess.run([tool, *words], capture_output=True, text=True).stdout.strip() != release:
            return '%s is not release %s' % (tool, release)
    return None


def is_shown(wanted, got):
    """Whether the lines are those that the page prints, in which `...` stands for any lines."""
    if '...' not in wanted:
        return wanted == got
    at = wanted.index('...')
    rest = wanted[at + 1:]
    return got[:at] == wanted[:at] and any(is_shown(rest, got[k:]) for k in range(at, len(got) + 1))


class Session:
    """A shell in a folder of a page."""

    def __init__(self, folder, path):
        home = os.path.join(folder, 'home')
        clone = os.path.join(home, 'dothwelen')
        self.folder = os.path.join(folder, 'empty')
        os.makedirs(clone)
        os.makedirs(self.folder)
        for name in os.listdir(TOP):
            if name in COPIED:
                shutil.copytree(os.path.join(TOP, name), os.path.join(clone, name))
            elif name != 'uzebox' and not name.startswith('.git'):
                os.symlink(os.path.join(TOP, name), os.path.join(clone, name))
        os.symlink(path, os.path.join(clone, 'uzebox'))
        here = os.path.dirname(sys.executable)
        environment = dict(os.environ, HOME=home, LC_ALL='C', PATH=here + os.pathsep + os.environ['PATH'])
        self.shell = subprocess.Popen(['sh'], cwd=self.folder, env=environment, stdin=subprocess.PIPE, stdout=subprocess.PIPE,
                                      stderr=subprocess.STDOUT, start_new_session=True)
        self.missing = set()

    def run(self, command):
        """The lines that a command prints, or None where it takes too long or ends the shell."""
        asked = "{ eval '%s'\n} </dev/null 2>&1; printf '\\001'\n" % command.text.replace("'", "'\\''")
        if command.in_clone:
            asked = 'cd ~/dothwelen\n%scd "$OLDPWD"\n' % asked
        try:
            self.shell.stdin.write(asked.encode())
            self.shell.stdin.flush()
        except BrokenPipeError:
            return None
        late = threading.Timer(SECONDS, self.stop)
        late.start()
        out = bytearray()
        while not out.endswith(b'\x01'):
            piece = self.shell.stdout.read1(65536)
            if not piece:
                break
            out += piece
        late.cancel()
        if not out.endswith(b'\x01'):
            return None
        lines = bytes(out[:-1]).decode('latin-1').split('\n')
        return lines[:-1] if lines[-1] == '' else lines

    def stop(self):
        os.killpg(self.shell.pid, signal.SIGKILL)

    def end(self):
        self.stop()
        self.shell.communicate()

    def reason(self, command):
        """Why a command is skipped, or None."""
        for name, *_ in command.parts():
            if name in WITHOUT:
                return '`%s` %s' % (name, WITHOUT[name])
            lacked = lacks(name)
            if lacked:
                return lacked
        if any(fnmatch.fnmatch(word, name) for word in command.words() for name in self.missing):
            return 'a file is missing that a skipped command makes'
        return None

    def leave_out(self, command):
        """Files that the command was to make are those of its words that aren't there."""
        self.missing.update(word for word in command.made() if not os.path.exists(os.path.join(self.folder, word)))


def run_page(outcomes, page, path):
    with open(os.path.join(TOP, page), encoding='latin-1') as file:
        commands = commands_of(file.read())
    if not commands:
        return
    with tempfile.TemporaryDirectory() as folder:
        session = Session(folder, path)
        for command in commands:
            reason = session.reason(command)
            if reason:
                session.leave_out(command)
                outcomes.skip(reason)
                continue
            got = session.run(command)
            right = got is not None and is_shown(command.output, got)
            outcomes.tell(right, '%s line %d: $ %s\n  the page: %s\n  it prints: %s' % (
                page, command.number, command.text, command.output, got))
        session.end()


def pages():
    docs = sorted('docs/' + name for name in os.listdir(os.path.join(TOP, 'docs')) if name.endswith('.md'))
    return ['README.md', 'examples/README.md', *docs]


def main():
    path = program(sys.argv[1:], __doc__)
    outcomes = Outcomes()
    for page in pages():
        run_page(outcomes, page, path)
    outcomes.end()


if __name__ == '__main__':
    main()
