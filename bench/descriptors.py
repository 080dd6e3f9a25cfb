#!/usr/bin/env python3
"""Runs yamlfmt with closed standard streams, and fails if a message or an output goes into a file.

Usage: bench/descriptors.py [PROGRAM]     (default: the program that ./yamlfmt builds; build it first)

Run it by hand; it is not part of rt ci. A daemon or a cron job may start a program with closed standard streams. The
system gives an opened file the lowest free number, so a FILE could become standard error. Each run is repeated with
each of the 8 combinations of closed streams. The files must be as after the run with all streams open, or as before if
the run fails. A read from a closed standard input is `read failed`, a write to a closed standard output is `write
failed`, and every other result is as with all streams open.
"""
import itertools
import os
import subprocess
import sys
import tempfile

TOP = os.path.dirname(os.path.dirname(os.path.abspath(__file__)))

FILES = {
    'w.yaml': b'a:   1\n',
    'x.yaml': b'b:   [1,2]\n',
    'good.yaml': b'---\na: 1\n',
    'bad.yaml': b'a: b: c\n',
    's.toml': b'quotes = "single"\n',
    'bad.toml': b'indent = 9\n',
}

INPUT = b'c:   "x" # y\n'

RUNS = [
    ['events', 'w.yaml'], ['events', 'bad.yaml'], ['events'], ['events', 'none.yaml'],
    ['check', 'w.yaml'], ['check', 'good.yaml'], ['check', 'w.yaml', 'bad.yaml', 'x.yaml'], ['check', '--explain', 'w.yaml', 'bad.yaml'],
    ['check', '-'], ['--explain', 'check', 'bad.yaml'],
    ['fmt', 'w.yaml'], ['fmt', '--config', 's.toml', 'w.yaml'], ['fmt', '--config', 'bad.toml', '--explain', 'w.yaml'], ['fmt'],
    ['fmt', '--check', 'w.yaml', 'good.yaml', 'bad.yaml'], ['fmt', '--check', '--explain', 'bad.yaml'], ['fmt', '--diff', 'w.yaml'],
    ['fmt', '--diff', '--explain', 'bad.yaml'], ['fmt', '--diff'], ['fmt', '--lines', '1-3', 'w.yaml'], ['fmt', '--lines=1'],
    ['fmt', '--lines', '1', '--write', 'w.yaml'],
    ['fmt', '--write', 'w.yaml'], ['fmt', '--write', 'bad.yaml'], ['fmt', '--write', 'none.yaml'],
    ['fmt', '--write', 'w.yaml', 'bad.yaml'], ['fmt', '--write', 'bad.yaml', 'w.yaml', 'none.yaml', 'x.yaml'],
    ['fmt', '--write', '--explain', 'w.yaml', 'bad.yaml', 'x.yaml'], ['fmt', '--write', '--config', 's.toml', 'w.yaml', 'none.yaml'],
    ['--version'], ['--help'], ['fmt', '--help'], ['fmt', '--write'], ['nothing'], [],
]


def run(program, folder, words, closed):
    """Status, standard output and standard error (empty if closed), and the files of the folder after the run."""
    for name in os.listdir(folder):
        os.remove(os.path.join(folder, name))
    for name, data in FILES.items():
        with open(os.path.join(folder, name), 'wb') as out:
            out.write(data)

    def close():
        for number in closed:
            os.close(number)

    ran = subprocess.run([program] + words, input=INPUT, capture_output=True, cwd=folder, preexec_fn=close)
    files = {}
    for name in os.listdir(folder):
        with open(os.path.join(folder, name), 'rb') as source:
            files[name] = source.read()
    return ran.returncode, ran.stdout, ran.stderr, files


def reads_input(words):
    """Whether the arguments name no FILE, so that standard input is read."""
    verbs = [word for word in words if not word.startswith('-')]
    return words != [] and words[0] in ('events', 'check', 'fmt') and (len(verbs) == 1 or '-' in words) and not {'--write', '--help'} & set(words)


def is_right(words, closed, whole, answer):
    status, output, said, files = answer
    if 0 in closed and reads_input(words):
        told = said == b'' if 2 in closed else said.endswith(b'read failed\n')
        return status == 3 and output == b'' and told and files == FILES
    if 1 in closed and whole[1]:
        told = said == b'' if 2 in closed else said.endswith(b'write failed\n')
        return status == 3 and output == b'' and told and files == whole[3]
    return answer == (whole[0], whole[1], b'' if 2 in closed else whole[2], whole[3])


def main():
    program = os.path.abspath(sys.argv[1]) if len(sys.argv) > 1 else os.path.join(TOP, 'crates/yamlfmt/out/yamlfmt')
    if not os.access(program, os.X_OK):
        sys.exit('there is no program %s: run ./yamlfmt once, which builds it' % program)
    faults, runs = 0, 0
    with tempfile.TemporaryDirectory() as folder:
        for words in RUNS:
            whole = run(program, folder, words, ())
            for closed in itertools.chain.from_iterable(itertools.combinations((0, 1, 2), n) for n in range(4)):
                answer = run(program, folder, words, closed)
                runs += 1
                if not is_right(words, closed, whole, answer):
                    faults += 1
                    print('FAULT %s with %s closed: %r' % (' '.join(words), ' '.join(map(str, closed)), answer))
    if faults:
        sys.exit('%d faults in %d runs' % (faults, runs))
    print('no fault in %d runs' % runs)


if __name__ == '__main__':
    main()
