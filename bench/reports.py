#!/usr/bin/env python3
"""Measures the reports of `check --format` on texts with up to a million findings, and fails if one grows faster than
its text.

Usage: bench/reports.py PROGRAM [FINDINGS]     (FINDINGS: how many at most; a million by default)

Each text has one finding on each line. For each format, the script runs a text with a quarter, a half and all of the
findings. It prints the processor seconds and the peak of memory in bytes per finding, and the size of the report. It is
a fault if time or memory grows more than 2.5-fold twice in a row, if the report lists another number of findings, or
if the status is not 1. Time is the best of three runs. Run it by hand; it is not part of rt ci.
"""
import json
import os
import re
import subprocess
import sys
import tempfile

FORMATS = ('line', 'full', 'json', 'sarif', 'github', 'gitlab', 'junit', 'checkstyle')


def text_of(findings):
    """A sequence in the house style, except for a blank after each item."""
    return b'---\n' + b''.join(b'- item %d \n' % number for number in range(findings))


def count(name, path):
    """The number of findings that a report lists."""
    with open(path, 'rb') as file:
        report = file.read()
    if name in ('json', 'gitlab'):
        return len(json.loads(report))
    if name == 'sarif':
        return len(json.loads(report)['runs'][0]['results'])
    marks = {'github': rb'(?m)^::warning ', 'junit': rb'<failure', 'checkstyle': rb'<error'}
    return len(re.findall(marks.get(name, rb' \(fixable\)\n'), report))


def run(program, name, path, out):
    """The processor seconds, the peak of memory in bytes, and the status."""
    with open(out, 'wb') as file:
        child = subprocess.Popen([program, 'check', '--no-config', '--format', name, path], stdout=file)
        _, status, usage = os.wait4(child.pid, 0)
    return usage.ru_utime + usage.ru_stime, usage.ru_maxrss * 1024, os.waitstatus_to_exitcode(status)


def tried(program, name, findings, folder):
    path, out = folder + '/text.yaml', folder + '/report'
    with open(path, 'wb') as file:
        file.write(text_of(findings))
    runs = [run(program, name, path, out) for _ in range(3)]
    seconds, memory, status = (min(values) for values in zip(*runs))
    print('%-10s %9d findings: %6.2f s, %5d bytes of memory and %4d of the report for each' % (
        name, findings, seconds, memory // findings, os.path.getsize(out) // findings), flush=True)
    # A process of its own counts, since the peak of a child's memory includes what this process held when it began.
    listed = int(subprocess.run([sys.executable, __file__, '--count', name, out], stdout=subprocess.PIPE).stdout)
    if status != 1 or listed != findings:
        print('  status %d, %d findings listed' % (status, listed))
        return None
    return seconds, memory


def is_linear(found):
    """Whether each text has a result, and neither time nor memory grows too fast."""
    if None in found:
        return False
    few, half, all_of_them = found
    return not any(b > 2.5 * a and c > 2.5 * b for a, b, c in zip(few, half, all_of_them))


def main():
    if sys.argv[1] == '--count':
        print(count(*sys.argv[2:]))
        return
    program, most = os.path.abspath(sys.argv[1]), int(sys.argv[2]) if len(sys.argv) > 2 else 1_000_000
    faults = 0
    with tempfile.TemporaryDirectory() as folder:
        for name in FORMATS:
            found = [tried(program, name, most // part, folder) for part in (4, 2, 1)]
            if not is_linear(found):
                print('  %s: a fault' % name)
                faults += 1
    sys.exit(1 if faults else 0)


if __name__ == '__main__':
    main()
