#!/usr/bin/env python3
"""Measures yamlfmt on texts of 1 and 16 MB: processor seconds (user and system), their ratio, and the peak of memory.

Usage: bench/measure.py [--dense | --real FOLDER..] [--program PROGRAM]
       (default: the program that ./yamlfmt builds; build it first)

If valgrind is installed, it also prints the instructions per byte on 300 KB, by phase. The fastest of three runs
counts. Real files differ, so --real also measures the sixteen parts of the 16 MB, and compares their mean with the
whole.

The text is ordinary configuration, which the script makes. With --dense it is the line `- a: 1` again and again. With
--real it is the .yaml and .yml files below the folders, in an order from a fixed seed, joined by `---`, without copies,
files that begin with a directive or a byte order mark, and files that this program or fy-tool refuses.

Installed peers are measured on the same files: for `events` the `--testsuite` output of fy-tool, for `check` yamllint,
and for `fmt` the `--dump` output of fy-tool, another yamlfmt, prettier and ruamel.yaml. A run ends after LIMIT seconds.
With --dense, fy-tool is the only peer. Not part of rt ci.
"""
import argparse
import importlib.util
import os
import random
import re
import resource
import shutil
import subprocess
import sys
import tempfile

LIMIT = 150
TOP = os.path.dirname(os.path.dirname(os.path.abspath(__file__)))

ENTRY = '''service-%d:
  image: "registry.example.com/team/service:%d"
  command: [serve, --port, "80%02d", --verbose]
  # restarted by the scheduler
  restart: always
  environment:
    - name: LOG_LEVEL
      value: info
    - name: GREETING
      value: 'it''s up'
  resources: {limits: {cpu: 2, memory: 512Mi}, requests: {cpu: 1}}
  notes: |
    First line of %d.
      indented

'''


def text_of(size):
    parts, length, i = [], 0, 0
    while length < size:
        entry = ENTRY % (i, i, i % 100, i)
        parts.append(entry)
        length += len(entry)
        i += 1
    return ''.join(parts).encode()


def dense_text(size):
    return b'- a: 1\n' * (size // 7 + 1)


def parts_of(text):
    """The sixteen parts of a text with many documents, each cut before a document."""
    cuts = [0] + [text.rfind(b'\n---\n', 0, len(text) * k // 16) + 1 for k in range(1, 16)] + [len(text)]
    return [text[start:end] for start, end in zip(cuts, cuts[1:])]


def is_accepted(program, text):
    """Whether this program and fy-tool accept the text, and it can follow another one."""
    readers = [[program, 'events']] + [words for words in [words_of('fy-tool', '--testsuite', '-')] if words]
    quiet = {'stdout': subprocess.DEVNULL, 'stderr': subprocess.DEVNULL}
    return text[:1] not in (b'%', b'\xef', b'\xfe', b'\xff') and all(
        subprocess.run(words, input=text, **quiet).returncode == 0 for words in readers)


def real_files(program, folders):
    """The texts of the files below the folders, each once."""
    paths = sorted({os.path.join(folder, name) for top in folders for folder, _, names in os.walk(top)
                    for name in names if name.endswith(('.yaml', '.yml'))})
    random.Random(0).shuffle(paths)
    seen = set()
    for path in paths:
        with open(path, 'rb') as source:
            text = source.read().rstrip(b'\n') + b'\n'
        if text not in seen and is_accepted(program, text):
            seen.add(text)
            yield text


def real_text(program, folders):
    """A function from a size to a text: files below the folders, until the size is reached."""
    parts, length = [], 0
    for text in real_files(program, folders):
        parts.append(text + b'---\n')
        length += len(parts[-1])
        if length >= 16 << 20:
            break
    whole = b''.join(parts)
    print('%d files, %d bytes' % (len(parts), len(whole)))
    return lambda size: whole[:whole.rfind(b'\n---\n', 0, size + 1) + 1]


def run(words, path, good):
    """Processor seconds (None if too many), and the peak of resident memory in bytes."""
    with open(path, 'rb') as source:
        child = subprocess.Popen(words, stdin=source, stdout=subprocess.DEVNULL)
        resource.prlimit(child.pid, resource.RLIMIT_CPU, (LIMIT, LIMIT))
        _, status, usage = os.wait4(child.pid, 0)
    if os.WIFSIGNALED(status) and usage.ru_utime + usage.ru_stime > 0.9 * LIMIT:
        return None, usage.ru_maxrss * 1024
    if os.waitstatus_to_exitcode(status) not in good:
        sys.exit('%s: status %d' % (' '.join(words), status))
    return usage.ru_utime + usage.ru_stime, usage.ru_maxrss * 1024


# The functions that are the phases of each command, by their names in the program. Functions that are inlined elsewhere
# are part of the rest.
PHASES = {
    'events': (('reading the stream', 'yf_stream::stream::read_stream'), ('writing the lines', 'yf_events::notation::write_events')),
    'check': (('the table of lines', 'yf_lines::table::LineTable::build'), ('reading the stream', 'yf_stream::stream::read_stream'),
              ('the rules', 'yf_rule_sets::rules::offsets_by')),
    'fmt': (('reading the stream', 'yf_stream::stream::read_stream'), ('measuring the nodes', 'yf_forms::form::measure::measure_text'),
            ('deciding their forms', 'yf_forms::form::decide::decide')),
}


def instructions(verb, program, path):
    """Prints the instructions per byte of a command and of its phases, by valgrind."""
    counter, teller = shutil.which('valgrind'), shutil.which('callgrind_annotate')
    if counter is None or teller is None:
        return
    size = os.path.getsize(path)
    with tempfile.TemporaryDirectory() as folder, open(path, 'rb') as source:
        counts = os.path.join(folder, 'counts')
        words = [counter, '--tool=callgrind', '--callgrind-out-file=' + counts, program, verb]
        subprocess.run(words, stdin=source, stdout=subprocess.DEVNULL, stderr=subprocess.DEVNULL)
        said = subprocess.run([teller, '--inclusive=yes', '--threshold=100', counts], capture_output=True, text=True).stdout
    total = re.search(r'^ *([\d,]+) .*PROGRAM TOTALS', said, re.M)
    if total is None:
        return
    left = int(total[1].replace(',', ''))
    print('%-24s %9d bytes  %.0f instructions per byte' % ('yamlfmt ' + verb, size, left / size))
    for phase, function in PHASES[verb]:
        found = re.search(r'^ *([\d,]+) .*:%s(::<\S*)? \[' % re.escape(function), said, re.M)
        if found:
            count = int(found[1].replace(',', ''))
            left -= count
            print('    %-20s %26.0f' % (phase, count / size))
    print('    %-20s %26.0f' % ('the rest', left / size))


def least(words, path, good):
    """The fastest of three runs, or the first run if it takes ten seconds or more."""
    best = run(words, path, good)
    if best[0] is None or best[0] >= 10:
        return best
    return min(best, run(words, path, good), run(words, path, good))


def measure(name, words, files, good=(0,), parts=()):
    seconds = []
    for path, size in files:
        best = least(words, path, good)
        if best[0] is None:
            print('%-24s %9d bytes  more than %d s' % (name, size, LIMIT))
            return
        seconds.append(best[0])
        print('%-24s %9d bytes  %7.2f s  %6.1f bytes of memory per byte of input' % (name, size, best[0], best[1] / size))
    print('%-24s ratio of the times %.1f' % (name, seconds[1] / seconds[0]))
    if parts:
        mean = sum(least(words, path, good)[0] for path in parts) / len(parts)
        print('%-24s ratio to its parts %.1f' % (name, seconds[1] / mean))


ROUND_TRIP = 'import sys; from ruamel.yaml import YAML; y = YAML(); y.dump(y.load(sys.stdin), sys.stdout)'


def words_of(name, *words):
    """The command with its arguments, if it is installed and is not this program."""
    path = shutil.which(name)
    if path is None or os.path.realpath(path).startswith(TOP + os.sep):
        return None
    return [path, *words]


def peers(is_dense):
    """Names of peers, their command lines from standard input to standard output, or None, and the statuses of a good run."""
    yield 'fy-tool --testsuite', words_of('fy-tool', '--testsuite', '-'), (0,)
    if is_dense:
        return
    yield 'fy-tool --dump', words_of('fy-tool', '--dump', '-'), (0,)
    yield 'yamllint', words_of('yamllint', '-'), (0, 1)
    yield 'another yamlfmt', words_of('yamlfmt', '-in'), (0,)
    yield 'prettier', words_of('prettier', '--parser', 'yaml'), (0,)
    yield 'ruamel.yaml', [sys.executable, '-c', ROUND_TRIP] if importlib.util.find_spec('ruamel') else None, (0,)


SIZES = 300_000, 1 << 20, 16 << 20


def write_texts(given, folder):
    text = real_text(given.program, given.real) if given.real else dense_text if given.dense else text_of
    for size in SIZES:
        with open(os.path.join(folder, '%d.yaml' % size), 'wb') as out:
            out.write(text(size))
    for k, part in enumerate(parts_of(text(SIZES[-1])) if given.real else []):
        with open(os.path.join(folder, 'part%d.yaml' % k), 'wb') as out:
            out.write(part)


def written(given, folder):
    """The paths of the texts and of the parts.

    A process of its own makes them, since the memory of this one counts for each process that it starts.
    """
    child = os.fork()
    if child == 0:
        write_texts(given, folder)
        sys.stdout.flush()
        os._exit(0)
    os.waitpid(child, 0)
    parts = [os.path.join(folder, 'part%d.yaml' % k) for k in range(16)] if given.real else []
    return [os.path.join(folder, '%d.yaml' % size) for size in SIZES], parts


def arguments():
    parser = argparse.ArgumentParser(description=__doc__.split('\n\n')[0])
    parser.add_argument('--dense', action='store_true')
    parser.add_argument('--real', nargs='+', metavar='FOLDER')
    parser.add_argument('--program', default=os.path.join(TOP, '.build/yamlfmt'))
    return parser.parse_args()


def main():
    given = arguments()
    program = given.program
    if not os.access(program, os.X_OK):
        sys.exit('there is no program %s: run ./yamlfmt once, which builds it' % program)
    with tempfile.TemporaryDirectory() as folder:
        (small, *paths), parts = written(given, folder)
        files = [(path, os.path.getsize(path)) for path in paths]
        measure('yamlfmt events', [program, 'events'], files, parts=parts)
        measure('yamlfmt check', [program, 'check'], files, good=(0, 1), parts=parts)
        measure('yamlfmt fmt', [program, 'fmt'], files, parts=parts)
        for verb in ('events', 'check', 'fmt'):
            instructions(verb, program, small)
        for name, words, good in peers(given.dense):
            if words:
                measure(name, words, files, good)
            else:
                print('%-24s not installed' % name)


if __name__ == '__main__':
    main()
