#!/usr/bin/env python3
"""Kills `yamlfmt fmt --write` at random moments, and looks at the files.

Usage: bench/kills.py [PROGRAM [RUNS]]     (default: the program that ./yamlfmt builds; build it first; 200 runs)

Run it by hand; it is not part of rt ci. Each time FILE must have its old text or the new one, whole. Half of the kills
are at any moment of a run, the others soon after the new file appears. The last run is not killed, and must succeed
despite the files that the others left.
"""
import os
import random
import subprocess
import sys
import tempfile
import time

TOP = os.path.dirname(os.path.dirname(os.path.abspath(__file__)))

OLD = b''.join(b'key%06d:   [a,  b, "c d"]   # comment\n' % i for i in range(100000))


def write(path, text):
    with open(path, 'wb') as file:
        file.write(text)


def read(path):
    with open(path, 'rb') as file:
        return file.read()


def start(program, path):
    return subprocess.Popen([program, 'fmt', '--write', path], stdout=subprocess.DEVNULL, stderr=subprocess.DEVNULL)


def killed(program, path, whole, soon):
    """Kills a run: at any moment, or soon after its new file appears."""
    run = start(program, path)
    if soon:
        while not os.path.exists(path + '.yamlfmt-new') and run.poll() is None:
            pass
        time.sleep(random.uniform(0, 0.15 * whole))
    else:
        time.sleep(random.uniform(0, whole))
    run.kill()
    return run.wait() != 0


def main():
    program = sys.argv[1] if len(sys.argv) > 1 else os.path.join(TOP, 'crates', 'yamlfmt', 'out', 'yamlfmt')
    runs = int(sys.argv[2]) if len(sys.argv) > 2 else 200
    counts = {'old': 0, 'new': 0, 'neither': 0, 'killed': 0, 'new file left': 0}
    with tempfile.TemporaryDirectory() as folder:
        path = os.path.join(folder, 'a.yaml')
        write(path, OLD)
        begin = time.monotonic()
        if start(program, path).wait():
            sys.exit('kills: the program does not rewrite the file')
        whole = time.monotonic() - begin
        new = read(path)
        for number in range(runs):
            write(path, OLD)
            counts['killed'] += killed(program, path, whole, number % 2)
            text = read(path)
            counts['old' if text == OLD else 'new' if text == new else 'neither'] += 1
            counts['new file left'] += os.path.exists(path + '.yamlfmt-new')
        write(path, OLD)
        ends = start(program, path).wait() == 0 and read(path) == new and os.listdir(folder) == ['a.yaml']
    print(', '.join('%s: %d' % pair for pair in counts.items()) + ', the last run: ' + ('succeeds' if ends else 'fails'))
    return 1 if counts['neither'] or not ends else 0


if __name__ == '__main__':
    sys.exit(main())
