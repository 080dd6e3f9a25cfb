#!/usr/bin/env python3
"""Measures `fmt --lines` on the YAML files of this machine: how many lines change if one line is requested.

Usage: bench/parts.py PROGRAM [FILES]     (FILES: how many files for each of the settings; 400 by default)
       bench/parts.py PROGRAM --times

For each of four settings it takes files that `fmt` changes, in an order that is always the same, and requests one line
that differs from the formatting. It prints the median and the 90th percentile of the lines that change, beside those of
the difference with the requested line, and those of the whole formatting. It also prints how many files have several
differences, and for how many of these the result is the whole formatting. It checks each result: formatting it gives the
formatting of the file. A result that fails is printed, and the status is 1.

With --times it compares the processor seconds of `fmt --lines`, with one line in the middle, and of `fmt`, on the 16 MB
of configuration of bench/measure.py. It takes the fastest of three runs. The status is 1 if the ratio is 4 or more.

Run it by hand; it is not part of rt ci.
"""
import importlib.util
import os
import random
import re
import resource
import subprocess
import sys
import tempfile

SETTINGS = ('', 'document_start = "keep"\n', 'indent = 4\nmax_line = 120\n',
            'document_start = "keep"\nseq_indent = false\ncomments = "block"\n')
LIMIT = 200_000

# A difference, as `diff` prints it.
HUNK = re.compile(rb'(?m)^(\d+)(?:,(\d+))?([acd])(\d+)(?:,(\d+))?$')


def files():
    """The YAML files below /usr and /opt, in an order that is always the same."""
    paths = (os.path.join(folder, name) for top in ('/usr', '/opt') for folder, _, names in os.walk(top)
             for name in names if name.endswith(('.yaml', '.yml')))
    found = sorted(path for path in paths if os.path.isfile(path) and os.path.getsize(path) < LIMIT)
    random.Random(1).shuffle(found)
    return found


def run(program, config, text, *words):
    done = subprocess.run([program, 'fmt', '--config', config, *words], input=text, stdout=subprocess.PIPE,
                          stderr=subprocess.DEVNULL, check=False)
    return done.stdout if done.returncode == 0 else None


def hunks(old, new):
    """The differences between two texts: for each, the lines of the first and of the second, from and to."""
    with tempfile.NamedTemporaryFile() as before, tempfile.NamedTemporaryFile() as after:
        for file, text in ((before, old), (after, new)):
            file.write(text)
            file.flush()
        done = subprocess.run(['diff', '-a', before.name, after.name], stdout=subprocess.PIPE, check=False)
    found = []
    for start, stop, kind, to, last in HUNK.findall(done.stdout):
        start, stop, to, last = int(start), int(stop or start), int(to), int(last or to)
        found.append((start - (kind != b'a'), stop, to - (kind != b'd'), last))
    return found


def size(hunk):
    """How many lines of the first text change, or if none do, how many are added."""
    start, stop, to, last = hunk
    return max(stop - start, last - to)


def one(program, config, path):
    """The lines that change, in the result, in the difference with the requested line, and in the whole formatting; and
    whether there are several differences, and the result is the whole formatting."""
    with open(path, 'rb') as file:
        text = file.read()
    if b'\r' in text:
        return None
    whole = run(program, config, text)
    if whole is None or whole == text:
        return None
    all_hunks = hunks(text, whole)
    asked = sorted({(line, hunk) for hunk in all_hunks for line in range(*hunk[:2])})
    if not asked:
        return None
    line, hunk = random.Random(path).choice(asked)
    part = run(program, config, text, '--lines', str(line + 1))
    if part is None or run(program, config, part) != whole:
        print('%s: line %d: another formatting' % (path, line + 1))
        sys.exit(1)
    sizes = sum(map(size, hunks(text, part))), size(hunk), sum(map(size, all_hunks))
    return (*sizes, len(all_hunks) > 1, len(all_hunks) > 1 and part == whole)


def seconds(program, text, *words):
    """The output, and the processor seconds of the fastest of three runs."""
    least = None
    for _ in range(3):
        before = resource.getrusage(resource.RUSAGE_CHILDREN)
        command = [program, 'fmt', '--no-config', *words]
        out = subprocess.run(command, input=text, stdout=subprocess.PIPE, check=True).stdout
        after = resource.getrusage(resource.RUSAGE_CHILDREN)
        took = after.ru_utime + after.ru_stime - before.ru_utime - before.ru_stime
        least = took if least is None else min(least, took)
    return out, least


def times(program):
    at = os.path.join(os.path.dirname(os.path.abspath(__file__)), 'measure.py')
    spec = importlib.util.spec_from_file_location('measure', at)
    measure = importlib.util.module_from_spec(spec)
    spec.loader.exec_module(measure)
    text = measure.text_of(16 << 20)
    whole, one = seconds(program, text)
    found = [hunk for hunk in hunks(text, whole) if hunk[0] < hunk[1]]
    line = found[len(found) // 2][0] + 1
    part, two = seconds(program, text, '--lines', str(line))
    changed = sum(map(size, hunks(text, part)))
    print('%d bytes, %d hunks: fmt %.2f s, fmt --lines %d %.2f s (%.1f times), which changes %d lines' % (
        len(text), len(found), one, line, two, two / one, changed))
    sys.exit(two >= 4 * one)


def main():
    program = os.path.abspath(sys.argv[1])
    if sys.argv[2:] == ['--times']:
        times(program)
    wanted = int(sys.argv[2]) if len(sys.argv) > 2 else 400
    paths = files()
    for setting in SETTINGS:
        with tempfile.NamedTemporaryFile('w', suffix='.toml') as config:
            config.write(setting)
            config.flush()
            results = []
            for path in paths:
                result = one(program, config.name, path)
                if result:
                    results.append(result)
                if len(results) == wanted:
                    break
        columns = list(zip(*results))
        count = len(results)
        middle = ['%d, %d' % (numbers[count // 2], numbers[count * 9 // 10]) for numbers in map(sorted, columns[:3])]
        print('%-60s %d files: %s lines (one difference: %s; all: %s); %d with several differences, all in %d of them' % (
            repr(setting), count, *middle, sum(columns[3]), sum(columns[4])), flush=True)


if __name__ == '__main__':
    main()
