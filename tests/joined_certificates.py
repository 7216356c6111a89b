#!/usr/bin/env python3
"""Certifies a table of kernels, and compares each certificate with the one that is stored, so that points that are no longer
joined are seen.

    joined_certificates.py [PROGRAM [write]]

PROGRAM is the program, else the variable UZEBOX, else `uzebox` at the top of the repository. certificates.sums has a line for
each kernel: the SHA-256 sum of its certificate, its name, and how many points it has. Certificates of few points stand in
the folder `certificates` as text. With the word `write` these are written anew: look at what changed, since any accepted
certificate would do for the checker. Two numbers are limits, whatever is stored: 2,000 points for the console, 2,400 for the
tile kernel. Each certificate is checked as well.
"""
import hashlib
import os
import sys
import tempfile

from outcomes import EXAMPLES, HERE, Outcomes, binary, program, run, usage

SUMS = os.path.join(HERE, 'certificates.sums')
STORED = os.path.join(HERE, 'certificates')
STORED_MOST = 120  # points of a certificate that is stored as text
LIMITS = {'console': 2000, 'tiles': 2400}


def example(name):
    with open(os.path.join(EXAMPLES, name)) as file:
        return file.read()


def changed(name, *swaps):
    """An example with texts in place of others, each of which stands in it."""
    text = example(name)
    for old, new in swaps:
        assert old in text, (name, old)
        text = text.replace(old, new)
    return text


def waiting(turns):
    """The pulse with a main that waits by a loop of so many turns."""
    return changed('pulse.asm', ('loop: rjmp loop', 'loop: ldi r24,%d\nwait: dec r24\n  brne wait\n  rjmp loop' % turns))


def lines_by_count(lines):
    """The pulse on so many lines, which the handler counts in a cell; each shape of line waits otherwise."""
    count = '\n'.join(['  lds r30,0x100', '  inc r30', '  cpi r30,%d' % lines, '  brne keep', '  ldi r30,0',
                       'keep: sts 0x100,r30', '  pop r30\n  out SREG,r30'])
    return changed('pulse.asm', ('.lines 1, 23', '.lines %d, 23\n.cell 0x100, handler, 0, %d, 0' % (lines, lines - 1)),
                   ('  pop r30\n  out SREG,r30', count))


def drawing_loop():
    """The pulse with a handler that draws by a loop, whose turns are one point by their count."""
    draw = '\n'.join(['  push r31', '  ldi r31,20', 'pixel: out PORTC,r31', '  dec r31', '  brne pixel', '  out PORTC,r31',
                      '  pop r31', '  pop r30\n  out SREG,r30'])
    return changed('pulse.asm', ('0x10FF, 0, 2', '0x10FF, 0, 3'), ('  pop r30\n  out SREG,r30', draw))


def kernels():
    """The name of each kernel, its response, its source, and whether it has macros, blocks or files of its own."""
    five = [('subi r30,10', 'subi r30,11'), ('.lines 1, 23', '.lines 1, 24')]
    half_five = [('subi r30,10', 'subi r30,11'), ('.lines 2, 23', '.lines 2, 24')]
    return [
        ('loop-ring', 4, example('loop-ring.asm'), False),
        ('ring-100-lines', 4, changed('ring.asm', ('.lines 1,', '.lines 100,')), True),
        ('pulse', 4, example('pulse.asm'), False),
        ('pulse-five', 5, changed('pulse.asm', *five), False),
        ('pulse-525-lines', 4, changed('pulse.asm', ('.lines 1,', '.lines 525,')), False),
        ('pulse-waits', 4, waiting(255), False),
        ('pulse-counts-lines', 4, lines_by_count(200), False),
        ('pulse-draws', 4, drawing_loop(), False),
        ('button', 4, example('button.asm'), False),
        ('half-pulse', 4, example('half-pulse.asm'), False),
        ('half-pulse-five', 5, changed('half-pulse.asm', *half_five), False),
        ('vertical-sync', 4, example('vertical-sync.asm'), True),
        ('console', 4, example('console.asm'), False),
        ('tiles', 4, example('tiles.asm'), True),
        ('tiles-plain', 4, example('tiles.asm'), True),
    ]


def certified(path, folder, name, response, text, has_macros):
    """The certificate of a kernel, or None, and what the commands answered."""
    said = []
    with open(os.path.join(folder, name + '.asm'), 'w') as out:
        out.write(text)
    source = name + '.asm'
    if has_macros:
        source = name + '-flat.asm'
        said.append(run([path, 'expand', name + '.asm', source], folder))
    if name == 'tiles-plain':  # without its facts, its lines aren't alike
        with open(os.path.join(folder, source)) as flat:
            lines = [line for line in flat if not line.startswith('.fact')]
        with open(os.path.join(folder, source), 'w') as out:
            out.writelines(lines)
    said.append(run([path, 'certify', source, str(response), name + '.hex', name + '.cert'], folder))
    said.append(run([path, 'check', name + '.hex', name + '.cert'], folder))
    cert = os.path.join(folder, name + '.cert')
    if not os.path.exists(cert):
        return None, said
    with open(cert, 'rb') as file:
        return file.read(), said


def points_of(cert):
    return cert.count(b'\npoint ')


def stored_sums():
    with open(SUMS) as file:
        return {name: (total, int(points)) for total, name, points in map(str.split, file)}


def stored_text(name):
    path = os.path.join(STORED, name + '.cert')
    if not os.path.exists(path):
        return None
    with open(path, 'rb') as file:
        return file.read()


def compare(outcomes, name, cert, stored):
    """Compares a certificate with its line of the sums, its limit and its text."""
    points = points_of(cert)
    total, before = stored.get(name, ('none', 0))
    outcomes.equal('points of %s' % name, before, points)
    if name in LIMITS:
        outcomes.tell(points <= LIMITS[name], '%s: %d points, more than %d' % (name, points, LIMITS[name]))
    text = stored_text(name)
    if points <= STORED_MOST:
        outcomes.equal('certificate of %s' % name, text, cert)
    outcomes.equal('sum of %s' % name, total, hashlib.sha256(cert).hexdigest())


def write(certs):
    """Stores the sums of certificates, and the texts of those that are small."""
    os.makedirs(STORED, exist_ok=True)
    with open(SUMS, 'w') as out:
        for name, cert in certs.items():
            out.write('%s %s %d\n' % (hashlib.sha256(cert).hexdigest(), name, points_of(cert)))
            if points_of(cert) <= STORED_MOST:
                with open(os.path.join(STORED, name + '.cert'), 'wb') as text:
                    text.write(cert)


def main():
    words = sys.argv[1:]
    if words[1:] not in ([], ['write']):
        usage(__doc__)
    path, outcomes, certs = binary(program(words[:1], __doc__)), Outcomes(), {}
    with tempfile.TemporaryDirectory() as folder:
        for name in os.listdir(EXAMPLES):
            os.symlink(os.path.join(EXAMPLES, name), os.path.join(folder, 'example-' + name))
            if name.startswith('tiles-'):
                os.symlink(os.path.join(EXAMPLES, name), os.path.join(folder, name))
        for kernel in kernels():
            name = kernel[0]
            cert, said = certified(path, folder, *kernel)
            right = cert is not None and all(status == 0 for status, _ in said) and said[-1] == said[-2]
            outcomes.tell(right and said[-1][1].startswith(b'accepted lines '), '%s: %s' % (name, said))
            if cert is not None:
                certs[name] = cert
    if words[1:]:
        write(certs)
    else:
        stored = stored_sums()
        for name, cert in certs.items():
            compare(outcomes, name, cert, stored)
    outcomes.end()


if __name__ == '__main__':
    main()
