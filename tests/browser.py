"""A page in headless Chromium, for a script of tests: its scripts' values, keys, pictures, over the browser's pipe.

usage: a module of the scripts beside it, no script.
"""
import base64
import functools
import http.server
import json
import os
import select
import shutil
import subprocess
import threading
import time

from outcomes import TOP

NAMES = ('chromium', 'chromium-browser', 'google-chrome', 'google-chrome-stable')


def installed():
    """The browser's path, or None."""
    return next((path for path in map(shutil.which, NAMES) if path), None)


class Quiet(http.server.SimpleHTTPRequestHandler):
    def log_message(self, *_):
        pass


def served():
    """Serves the top of the repository on this machine alone: its address, and a call that ends it."""
    server = http.server.ThreadingHTTPServer(('127.0.0.1', 0), functools.partial(Quiet, directory=TOP))
    threading.Thread(target=server.serve_forever, daemon=True).start()
    return 'http://127.0.0.1:%d' % server.server_address[1], server.shutdown


class Late(Exception):
    pass


class Browser:
    """One page. A call that has no answer in its time is Late; what scripts of the page fail with is in `faults`."""

    def __init__(self, folder, seconds=180):
        self.seconds, self.number, self.session, self.data, self.faults = seconds, 0, None, b'', []
        command, self.write = os.pipe()
        self.read, answer = os.pipe()

        def pipes():
            # the browser reads commands from 3 and writes answers to 4
            low, high = os.dup(command), os.dup(answer)
            spare = [os.dup2(low, 10), os.dup2(high, 11)]
            os.dup2(spare[0], 3)
            os.dup2(spare[1], 4)

        words = [installed(), '--headless=new', '--no-sandbox', '--disable-gpu', '--disable-dev-shm-usage', '--window-size=1100,900',
                 '--user-data-dir=' + os.path.join(folder, 'profile'), '--remote-debugging-pipe', 'about:blank']
        self.process = subprocess.Popen(words, stdin=subprocess.DEVNULL, stdout=subprocess.DEVNULL, stderr=subprocess.DEVNULL,
                                        close_fds=False, preexec_fn=pipes, start_new_session=True)
        os.close(command)
        os.close(answer)

    def message(self, until):
        while b'\0' not in self.data:
            ready, _, _ = select.select([self.read], [], [], max(0, until - time.monotonic()))
            part = os.read(self.read, 1 << 20) if ready else b''
            if not part:
                raise Late('the browser ended' if ready else 'the browser gives no answer')
            self.data += part
        text, _, self.data = self.data.partition(b'\0')
        return json.loads(text)

    def send(self, method, **words):
        self.number += 1
        request = {'id': self.number, 'method': method, 'params': words}
        if self.session:
            request['sessionId'] = self.session
        os.write(self.write, json.dumps(request).encode() + b'\0')
        until = time.monotonic() + self.seconds
        while True:
            message = self.message(until)
            if message.get('method') == 'Runtime.exceptionThrown':
                self.faults.append(json.dumps(message['params']['exceptionDetails'])[:400])
            if message.get('id') == self.number:
                return message.get('result', {})

    def version(self):
        """Its main version, as a number; 0 where it gives no answer."""
        try:
            product = self.send('Browser.getVersion').get('product', '')
            return int(product.partition('/')[2].partition('.')[0])
        except (Late, OSError, ValueError):
            return 0

    def open(self, address):
        self.session = None
        target = self.send('Target.createTarget', url='about:blank')['targetId']
        self.session = self.send('Target.attachToTarget', targetId=target, flatten=True)['sessionId']
        for domain in ('Runtime', 'Page'):
            self.send(domain + '.enable')
        self.send('Page.navigate', url=address)

    def value(self, expression):
        """What an expression of the page's scripts is, after its promise if it is one."""
        answer = self.send('Runtime.evaluate', expression=expression, awaitPromise=True, returnByValue=True)
        return answer.get('result', {}).get('value')

    def wait(self, expression):
        """Waits until an expression is true: whether it got so."""
        until = time.monotonic() + self.seconds
        while time.monotonic() < until:
            if self.value(expression):
                return True
            time.sleep(0.1)
        return False

    def key(self, code, down):
        self.send('Input.dispatchKeyEvent', type='keyDown' if down else 'keyUp', code=code, key=code)

    def picture(self, name):
        """Writes what is shown as a PNG file."""
        with open(name, 'wb') as out:
            out.write(base64.b64decode(self.send('Page.captureScreenshot', format='png')['data']))

    def end(self):
        self.session = None
        try:
            self.seconds = 5
            self.send('Browser.close')
        except (Late, OSError):
            pass
        try:
            self.process.wait(5)
        except subprocess.TimeoutExpired:
            self.process.kill()
            self.process.wait()
        os.close(self.read)
        os.close(self.write)
