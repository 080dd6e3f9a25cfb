#!/usr/bin/env python3
"""Refuses each allocation of yamlfmt in turn, and looks at the result.

Usage: bench/refusals.py [PROGRAM]     (default: the program that ./yamlfmt builds; build it first)

Run it by hand; it is not part of rt ci. It needs a C compiler (cc) and Linux's LD_PRELOAD. Each run must have the
result that it has with ample memory, or status 3, the line `no memory` and nothing on standard output. With several
files, the one for which memory was refused has only that line, and the lines of the others stay. It also tests an input
that never ends, an output that accepts nothing, and `fmt --write`, which must leave the old text or the new one and no
other file.
"""
import os
import subprocess
import sys
import tempfile

TOP = os.path.dirname(os.path.dirname(os.path.abspath(__file__)))

# Refuses the REFUSE-th call for memory, and then makes the file REFUSED.
SHIM = r'''
#define _GNU_SOURCE
#include <dlfcn.h>
#include <errno.h>
#include <fcntl.h>
#include <stdlib.h>
#include <unistd.h>

static long calls;

static int is_refused(void) {
    const char *at = getenv("REFUSE");
    if (!at || ++calls != atol(at)) return 0;
    close(open(getenv("REFUSED"), O_CREAT | O_WRONLY, 0600));
    errno = ENOMEM;
    return 1;
}

void *malloc(size_t n) {
    static void *(*real)(size_t);
    if (!real) real = dlsym(RTLD_NEXT, "malloc");
    return is_refused() ? 0 : real(n);
}

void *realloc(void *p, size_t n) {
    static void *(*real)(void *, size_t);
    if (!real) real = dlsym(RTLD_NEXT, "realloc");
    return is_refused() ? 0 : real(p, n);
}

void *aligned_alloc(size_t a, size_t n) {
    static void *(*real)(size_t, size_t);
    if (!real) real = dlsym(RTLD_NEXT, "aligned_alloc");
    return is_refused() ? 0 : real(a, n);
}
'''

STREAMS = [
    "\ufeffa: 'x'  # c \r\nb: |\r\n  y \r\na: 1\r\n",
    "[a, # c\n # d\n b, {k: # e\n v}] # f\n",
    "? [a, {b: }]\n: - c\n  - d\n? |\n  x\n: y\n",
    "a\n...\n# c\n%YAML 1.1\n--- b\n",
    "- |2\n    x\n\n- >\n a\n b\n\n   c\n- |\n\n",
    "- " * 1024 + "a",
    "a: b: c\n",
    "- *a\n- &a x\n",
]


class Runs:
    def __init__(self, program, folder):
        self.program, self.folder = program, folder
        self.shim = os.path.join(folder, 'shim.so')
        self.note = os.path.join(folder, 'refused')
        self.faults = 0
        source = os.path.join(folder, 'shim.c')
        with open(source, 'w') as out:
            out.write(SHIM)
        subprocess.run(['cc', '-shared', '-fPIC', '-O1', '-o', self.shim, source, '-ldl'], check=True)

    def run(self, words, data, refuse=None):
        """Status, standard output and standard error, and whether an allocation was refused."""
        if os.path.exists(self.note):
            os.remove(self.note)
        env = {'LD_PRELOAD': self.shim, 'REFUSED': self.note}
        if refuse:
            env['REFUSE'] = str(refuse)
        ran = subprocess.run([self.program] + words, input=data, capture_output=True, env=env, cwd=self.folder)
        return (ran.returncode, ran.stdout, ran.stderr), os.path.exists(self.note)

    def fault(self, words, what, answer):
        self.faults += 1
        print('FAULT %s: %s: %r' % (' '.join(words), what, answer))

    def in_turn(self, words, data, restore=None, look=None):
        """Refuses each allocation of a run. `restore` sets the files up before each, and `look` judges them after."""
        restore = restore or (lambda: None)
        restore()
        full, _ = self.run(words, data)
        refuse, memory = 0, 0
        while True:
            refuse += 1
            restore()
            answer, refused = self.run(words, data, refuse)
            if look and not look(answer):
                self.fault(words, 'the files, allocation %d' % refuse, answer)
            if answer == (3, b'', b'no memory\n') and refused:
                memory += 1
            elif answer != full and not (refused and answer == unexplained(full)):
                self.fault(words, 'allocation %d' % refuse, answer)
            if not refused:
                break
        if refuse == 1:
            self.fault(words, 'no allocation was met', full)
        print('%-44s %5d allocations, %5d with `no memory`' % (' '.join(words), refuse - 1, memory))


    def several(self, words, files):
        """Refuses each allocation of a run over several files, which are set up before each run."""
        names = list(files)
        words = words + names

        def restore():
            for name, data in files.items():
                write(os.path.join(self.folder, name), data)

        def texts():
            return {name: read(os.path.join(self.folder, name)) for name in names}

        restore()
        full, _ = self.run(words, b'')
        new = texts()
        refuse, memory = 0, 0
        while True:
            refuse += 1
            restore()
            answer, refused = self.run(words, b'', refuse)
            lost = [name for name in names if refused and is_without(name.encode(), names, full, answer)]
            # a file with only `no memory` may have its old text or its new one
            left = [dict(new, **{name: old}) for name in lost for old in (files[name], new[name])]
            if answer == (3, b'', b'no memory\n') and refused:
                left.append(files)
            if answer == full or (refused and unexplained(answer) == unexplained(full)):
                left.append(new)
            memory += answer != full
            if texts() not in left or set(os.listdir(self.folder)) & {name + '.yamlfmt-new' for name in names}:
                self.fault(words, 'allocation %d' % refuse, answer)
            if not refused:
                break
        print('%-44s %5d allocations, %5d with `no memory`' % (' '.join(words), refuse - 1, memory))


def lines_of(name, text):
    """The lines of a file among several."""
    return [line for line in text.splitlines(True) if line.startswith(name + b':')]


def is_without(name, names, full, answer):
    """Whether a result is the full one, except that one file has only `no memory`."""
    output = b''.join(line for line in full[1].splitlines(True) if not line.startswith(name + b':'))
    for told in (name + b': no memory\n', b'no memory\n'):
        said = b''
        for other in names:
            said += told if other.encode() == name else b''.join(lines_of(other.encode(), full[2]))
        if answer == (3, output, said):
            return True
    return False


def unexplained(answer):
    """A result without the lines of `--explain`, which a refusal may remove."""
    status, output, said = answer
    return status, output, b''.join(line for line in said.splitlines(True) if not line.startswith(b'  ') and b':   ' not in line)


def write(path, data):
    with open(path, 'wb') as out:
        out.write(data)


def read(path):
    with open(path, 'rb') as source:
        return source.read()


def rewrites(runs):
    path = os.path.join(runs.folder, 'rewritten.yaml')
    old = b"- a\n- 'b'\n"
    new = runs.run(['fmt'], old)[0][1]

    def is_whole(answer):
        return not os.path.exists(path + '.yamlfmt-new') and read(path) == (new if answer[0] == 0 else old)

    runs.in_turn(['fmt', '--write', 'rewritten.yaml'], b'', lambda: write(path, old), is_whole)


def devices(runs):
    with open('/dev/full', 'wb') as full:
        ran = subprocess.run([runs.program, 'events'], input=b'- a\n', stdout=full, stderr=subprocess.PIPE)
    if (ran.returncode, ran.stderr) != (3, b'write failed\n'):
        runs.fault(['events', '>', '/dev/full'], 'answer', ran)
    for verb in ('events', 'check', 'fmt'):
        with open('/dev/zero', 'rb') as endless:
            ran = subprocess.run([runs.program, verb], stdin=endless, capture_output=True)
        if (ran.returncode, ran.stdout, ran.stderr) != (3, b'', b'read failed\n'):
            runs.fault([verb, '<', '/dev/zero'], 'answer', ran)
    print('an output that accepts nothing, an input that never ends')


def main():
    program = os.path.abspath(sys.argv[1]) if len(sys.argv) > 1 else os.path.join(TOP, '.build/yamlfmt')
    if not os.access(program, os.X_OK):
        sys.exit('there is no program %s: run ./yamlfmt once, which builds it' % program)
    with tempfile.TemporaryDirectory() as folder:
        runs = Runs(program, folder)
        for stream in STREAMS:
            for words in (['events'], ['check'], ['fmt'], ['fmt', '--diff'], ['fmt', '--lines', '1,3']):
                runs.in_turn(words, stream.encode())
        for line in ('indent = 9\n', 'indent = 4\n', 'tabs = 1\n'):
            write(os.path.join(folder, 's.toml'), line.encode())
            runs.in_turn(['fmt', '--config', 's.toml'], b'- a\n')
        for words, data in ((['fmt', '--explain'], b'a: [\n  1\nb: c\n'), (['events', '--explain'], b'a\xff'), (['check', '--explain'], b'a: 1 # c\na: 2\n')):
            runs.in_turn(words, data)
        write(os.path.join(folder, 's.toml'), b'indent = 9\n')
        runs.in_turn(['fmt', '--explain', '--config', 's.toml'], b'- a\n')
        write(os.path.join(folder, 'x.yaml'), b'a: [\n  1\nb: c\n')
        for name in ('x.yaml', 'none.yaml'):
            runs.in_turn(['check', '--explain', name], b'')
        write(os.path.join(folder, 'a.yaml'), b'- a\n')
        for words in (['check', 'a.yaml'], ['check', '--without', 'quoting,document-start', 'a.yaml']):
            runs.in_turn(words, b'')
        several = {'a.yaml': b'- a # c\n- b # c\n', 'bad.yaml': b'a: b: c\n', 'b.yaml': b"- 'a'\n"}
        for words in (['check'], ['fmt', '--check'], ['fmt', '--write'], ['check', '--explain'], ['fmt', '--write', '--explain']):
            runs.several(words, several)
        runs.several(['check'], {'a.yaml': b'a:   1\n', 'b.yaml': b'a:   1\n'})
        for words in (['events', 'a', 'b'], ['check', '--without', 'quotes'], ['fmt', '--write'], ['fmt', '--lines', '0'],
                      ['--help'], ['fmt', '--help']):
            runs.in_turn(words, b'')
        rewrites(runs)
        devices(runs)
    if runs.faults:
        sys.exit('%d faults' % runs.faults)
    print('no fault')


if __name__ == '__main__':
    main()
