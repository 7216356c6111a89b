"""What the tests share: where the program is, how it is run, and how tests that passed, failed or were skipped are counted.

usage: a module of the scripts beside it, no script.

A script of tests takes the program as its word, else from the variable UZEBOX, else it takes `uzebox` at the top of the
repository. Its last line is `N passed, M failed, K skipped`. It ends with 0 where none failed, 1 where one did, and 2 where its
words aren't those of its usage.
"""
import os
import resource
import subprocess
import sys
import tempfile
import time

HERE = os.path.dirname(os.path.realpath(__file__))
TOP = os.path.dirname(HERE)
EXAMPLES = os.path.join(TOP, 'examples')
SECONDS = 120  # that one command has


def usage(doc):
    print(doc.strip(), file=sys.stderr)
    sys.exit(2)


def program(words, doc):
    """The path of the program that these words of a script name, or the one that is tested without words."""
    if len(words) > 1:
        usage(doc)
    path = os.path.abspath(words[0] if words else os.environ.get('UZEBOX') or os.path.join(TOP, 'uzebox'))
    if not os.access(path, os.X_OK):
        print('%s: no program is there' % path, file=sys.stderr)
        sys.exit(2)
    return path


def program_with(process, path):
    """The program that a process runs, where it has a file open; else None."""
    own = '/proc/%d/' % process.pid
    try:
        if any(os.path.samefile(own + 'fd/' + fd, path) for fd in os.listdir(own + 'fd')):
            return os.readlink(own + 'exe')
    except OSError:
        pass  # the process ended
    return None


def binary(path):
    """The program itself, where the path is the runner of this repository, whose own time thousands of runs would add up. The runner
    becomes that program: it is what its process is when it has a pipe open that it was told to list."""
    if os.path.realpath(path) != os.path.join(TOP, 'uzebox'):
        return path
    with tempfile.TemporaryDirectory() as folder:
        pipe = os.path.join(folder, 'pipe')
        os.mkfifo(pipe)
        runner = subprocess.Popen([path, 'dis', pipe], stdin=subprocess.DEVNULL, stdout=subprocess.DEVNULL, stderr=subprocess.DEVNULL)
        writer, found, looks = None, None, 0
        while not found and looks < 500 and runner.poll() is None:
            try:
                writer = os.open(pipe, os.O_WRONLY | os.O_NONBLOCK) if writer is None else writer
                found = program_with(runner, pipe)
                looks += 1  # it may have the file only after the pipe has a writer
            except OSError:
                pass  # nobody reads it yet
            time.sleep(0.01)
        if writer is not None:
            os.close(writer)
        runner.wait()
    return found or path


def run(words, folder, *, room=None, **others):
    """The status and the printed bytes of a command, whose process has so many bytes of addresses where that is said."""
    limit = None if room is None else lambda: resource.setrlimit(resource.RLIMIT_AS, (room, room))
    try:
        ran = subprocess.run(words, cwd=folder, stdin=subprocess.DEVNULL, stdout=subprocess.PIPE, stderr=subprocess.DEVNULL,
                             timeout=SECONDS, preexec_fn=limit, **others)
    except subprocess.TimeoutExpired as late:
        return 'none in %d seconds' % SECONDS, late.stdout or b''
    return ran.returncode, ran.stdout


def shown(text):
    """A text for a message: short, on one line."""
    text = repr(text)
    return text if len(text) < 400 else text[:200] + ' .. ' + text[-200:]


class Outcomes:
    """How many tests passed, failed and were skipped, and why those were."""

    def __init__(self):
        self.passed, self.failed, self.reasons = 0, 0, {}

    def tell(self, right, message):
        """One more test; the message is printed where it failed."""
        if right:
            self.passed += 1
        else:
            self.failed += 1
            print('failed: ' + message, flush=True)
        return right

    def equal(self, name, wanted, got):
        return self.tell(wanted == got, '%s: %s and not %s' % (name, shown(got), shown(wanted)))

    def skip(self, reason, count=1):
        self.reasons[reason] = self.reasons.get(reason, 0) + count

    def end(self):
        """Prints the reasons and the counts, and ends the script."""
        for reason, count in self.reasons.items():
            print('skipped: %d, %s' % (count, reason))
        print('%d passed, %d failed, %d skipped' % (self.passed, self.failed, sum(self.reasons.values())), flush=True)
        sys.exit(1 if self.failed else 0)
