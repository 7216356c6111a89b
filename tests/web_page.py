#!/usr/bin/env python3
"""Plays and certifies in the page web/index.html, by headless Chromium, and compares with the program.

    web_page.py [PROGRAM]

PROGRAM is the program, else the variable UZEBOX, else `uzebox` at the top of the repository. Of 300 frames of the tile kernel,
100 of the console, and of 40 more with keys: the sum of all rows and sounds is that of `play` over the pads that the page
recorded. A loaded state plays on as the saved one did. What is printed, and the certificate that is found, are the program's.
Skipped where the page's module isn't there, or no Chromium that runs it.
"""
import base64
import os
import subprocess
import sys
import tempfile
import zlib

import browser
from outcomes import EXAMPLES, TOP, Outcomes, program

MODULES = [os.path.join(TOP, *it) for it in (('web', 'uzebox.wasm'), ('release', 'wasm64', 'uzebox.wasm'))]
FRAMES = {'tiles': 300, 'console': 100}  # the console reads the pads some 300 times a frame, and a record has 65,536 readings
OLDEST = 133  # the first with 64-bit memory
ROW, END = 461, 5  # bytes of a record of a row, and of a frame's end
KEYS = [('ArrowRight', 8), ('ArrowDown', 8), ('KeyZ', 4), ('KeyX', 4), ('Enter', 4), ('KeyL', 4), ('ArrowUp', 8)]


def said(path, folder, *words):
    ran = subprocess.run([path, *words], cwd=folder, capture_output=True, text=True, timeout=120)
    return ran.returncode, ran.stdout


def played(path, folder, name, pads, frames):
    """The sum of so many frames that `play` writes."""
    with open(os.path.join(folder, 'pads'), 'w') as out:
        out.write(pads)
    clocks = str((frames + 3) * 478660)
    status, _ = said(path, folder, 'play', name + '.hex', name + '.cert', 'pads', clocks, 'frames')
    with open(os.path.join(folder, 'frames'), 'rb') as file:
        data = file.read()
    at, ended = 0, 0
    while ended < frames and at < len(data):
        ended += data[at] == 0x46
        at += END if data[at] == 0x46 else ROW
    return status, ended, zlib.crc32(data[:at])


def try_game(outcomes, path, folder, page, address, name):
    page.open('%s/web/?game=%s&frames=%d' % (address, name, FRAMES[name]))
    if not outcomes.tell(page.wait("document.body.dataset.ready === 'yes'"), '%s: the page says %s' % (name, page.value('says.textContent'))):
        return
    now = '[page.player.frames, page.player.sum]'
    outcomes.equal(name + ': frames and their sum', list(played(path, folder, name, '', FRAMES[name])[1:]), page.value(now))
    total = FRAMES[name]
    for code, count in KEYS:
        page.key(code, True)
        for _ in range(count):
            page.key('KeyN', True)
            page.key('KeyN', False)
        page.key(code, False)
        total += count
    record = page.value('page.player.record()')
    outcomes.tell('0080 0000' in record and '0000 0080' in record, '%s: keys that were pressed are not in the record' % name)
    outcomes.equal(name + ': the record, played', list(played(path, folder, name, record, total)[1:]), page.value(now))
    again = '''(() => {
        const it = page.player, sums = [];
        it.save(0);
        for (const round of [0, 1]) {
            it.restore(0);
            it.sum = 0;
            for (let k = 0; k < 5; k++) it.step();
            sums.push([it.frames, it.sum, it.library.clock()].join(' '));
        }
        return sums;
    })()'''
    first, second = page.value(again) or ('no', 'answer')
    outcomes.equal(name + ': a state that was loaded', first, second)


def try_hex(outcomes, folder, name):
    """The HEX file beside the page, for a module without commands, is what `build` makes."""
    with open(os.path.join(TOP, 'web', name + '.hex'), 'rb') as one, open(os.path.join(folder, name + '.hex'), 'rb') as other:
        outcomes.tell(one.read() == other.read(), 'web/%s.hex is not what build makes of the example' % name)


def try_certify(outcomes, path, folder, page, address, name):
    page.open('%s/web/?game=%s&tab=make' % (address, name))
    page.wait("document.body.dataset.ready === 'yes' && document.getElementById('do-certify') !== null")
    page.value("document.getElementById('do-certify').click()")
    page.wait("document.getElementById('status').dataset.done === 'yes'")
    said(path, folder, 'expand', name + '.asm', name + '.flat.asm')
    status, text = said(path, folder, 'certify', name + '.flat.asm', '4', name + '.hex', 'found.cert')
    outcomes.equal(name + ': certify prints', text, (page.value("document.getElementById('out').textContent") or '').split('\n', 3)[-1])
    told = page.value("document.getElementById('status').textContent") or ''
    outcomes.tell(told.startswith('certify: status %d,' % status), '%s: the page says %s and not status %d' % (name, told, status))
    if status == 0:
        with open(os.path.join(folder, 'found.cert'), 'rb') as file:
            wanted = file.read()
        got = page.value("btoa(new TextDecoder().decode(page.desk.files.get('%s.cert')))" % name) or ''
        outcomes.tell(base64.b64decode(got) == wanted, name + ': the certificate is another')
        outcomes.tell(page.value("document.querySelector('#schedule svg') !== null"), name + ': no schedule is drawn')


def main():
    path, outcomes = program(sys.argv[1:], __doc__), Outcomes()
    if not browser.installed():
        outcomes.skip('Chromium is not installed')
    elif not any(map(os.path.exists, MODULES)):
        outcomes.skip('web/build has made no module')
    else:
        with tempfile.TemporaryDirectory() as folder:
            for name in os.listdir(EXAMPLES):
                os.symlink(os.path.join(EXAMPLES, name), os.path.join(folder, name))
            for name in FRAMES:
                said(path, folder, 'build', name + '.asm', name + '.hex')
                try_hex(outcomes, folder, name)
            said(path, folder, 'find', 'console.hex', 'console.asm', '4', 'console.cert')
            address, end = browser.served()
            page = browser.Browser(folder)
            try:
                if page.version() < OLDEST:
                    outcomes.skip('Chromium gives no answer here, or is older than %d' % OLDEST)
                    return outcomes.end()
                for name in FRAMES:
                    try_game(outcomes, path, folder, page, address, name)
                if page.value('page.commands !== null'):
                    for name in ('pulse', 'button-late'):
                        try_certify(outcomes, path, folder, page, address, name)
                else:
                    outcomes.skip('the module has no commands', 2)
                outcomes.equal('faults of the scripts', [], page.faults)
            except browser.Late as late:
                outcomes.tell(False, 'the page: %s' % late)
            finally:
                page.end()
                end()
    outcomes.end()


if __name__ == '__main__':
    main()
