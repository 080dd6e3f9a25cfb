#!/usr/bin/env python3
"""Tries which settings are in force, and what they exclude, on a real file system.

    bench/in_force.py PROGRAM

Each row makes files in a new folder, runs PROGRAM there, and compares the status and both outputs. It prints the rows
that differ, and how many rows it tried. Rows that need another user are skipped if this user can't become one."""
import os
import subprocess
import sys
import tempfile

BAD = '---\na: "x" # c\n'
DOUBLE = '---\na: "x"  # c\n'
SINGLE = "---\na: 'x'  # c\n"
QUOTES = 'quotes = "single"\n'
OUT = 'left out: the settings exclude it\n'
LINE = '2:8 comment-space (fixable)\n'
NOBODY = 65534

# What a row makes: a text for a file, None for a folder, and a tuple for a link to its item.
# A row: its name, what it makes, the folder in which the program runs, its words, its standard input, and the expected
# status and outputs.
ROWS = [
    ('the defaults', {'a.yaml': BAD}, '.', ['fmt', 'a.yaml'], '', 0, DOUBLE, ''),
    ('beside the file', {'.git': None, '.yamlfmt.toml': QUOTES, 'a.yaml': BAD}, '.', ['fmt', 'a.yaml'], '', 0, SINGLE, ''),
    ('in a folder above', {'.git': None, '.yamlfmt.toml': QUOTES, 'd/e/a.yaml': BAD}, 'd/e', ['fmt', 'a.yaml'], '', 0, SINGLE, ''),
    ('of the current folder, not of the file', {'.git': None, 'd/.yamlfmt.toml': QUOTES, 'd/a.yaml': BAD, 'e/b.yaml': BAD}, 'd',
     ['fmt', '../e/b.yaml'], '', 0, SINGLE, ''),
    ('not of the folder of the file', {'.git': None, 'd/.yamlfmt.toml': QUOTES, 'd/a.yaml': BAD}, '.', ['fmt', 'd/a.yaml'], '', 0, DOUBLE, ''),
    ('above the work tree', {'.yamlfmt.toml': QUOTES, 'w/.git': None, 'w/d/a.yaml': BAD}, 'w/d', ['fmt', 'a.yaml'], '', 0, DOUBLE, ''),
    ('above a work tree with a .git file', {'.yamlfmt.toml': QUOTES, 'w/.git': 'gitdir: x\n', 'w/a.yaml': BAD}, 'w', ['fmt', 'a.yaml'], '', 0, DOUBLE, ''),
    ('beside .git', {'w/.yamlfmt.toml': QUOTES, 'w/.git': None, 'w/a.yaml': BAD}, 'w', ['fmt', 'a.yaml'], '', 0, SINGLE, ''),
    ('standard input', {'.git': None, '.yamlfmt.toml': QUOTES}, '.', ['fmt'], BAD, 0, SINGLE, ''),
    ('--no-config', {'.git': None, '.yamlfmt.toml': QUOTES, 'a.yaml': BAD}, '.', ['fmt', '--no-config', 'a.yaml'], '', 0, DOUBLE, ''),
    ('a link to the settings', {'.git': None, 'team.toml': QUOTES, 'd/.yamlfmt.toml': ('../team.toml',), 'd/a.yaml': BAD}, 'd',
     ['fmt', 'a.yaml'], '', 0, SINGLE, ''),
    ('a link to nothing', {'.git': None, '.yamlfmt.toml': ('nothing',), 'a.yaml': BAD}, '.', ['fmt', 'a.yaml'], '', 3, '', '.yamlfmt.toml: read failed\n'),
    ('a folder', {'.git': None, '.yamlfmt.toml': None, 'a.yaml': BAD}, '.', ['fmt', 'a.yaml'], '', 3, '', '.yamlfmt.toml: read failed\n'),
    ('a folder above', {'.git': None, '.yamlfmt.toml': None, 'd/a.yaml': BAD}, 'd', ['fmt', 'a.yaml'], '', 3, '', '../.yamlfmt.toml: read failed\n'),
    ('no UTF-8', {'.git': None, '.yamlfmt.toml': b'\xff', 'a.yaml': BAD}, '.', ['fmt', 'a.yaml'], '', 3, '', '.yamlfmt.toml: config: \n'),
    ('through a link to a folder', {'.git': None, 'real/.yamlfmt.toml': QUOTES, 'real/d/a.yaml': BAD, 'link': ('real/d',)}, 'link',
     ['fmt', 'a.yaml'], '', 0, SINGLE, ''),
    ('a bad pattern', {'.git': None, '.yamlfmt.toml': 'exclude = ["a", "["]\n', 'a.yaml': BAD}, '.', ['check', 'a.yaml'], '', 3, '', '.yamlfmt.toml: config: exclude\n'),
    ('no pattern', {'.git': None, '.yamlfmt.toml': 'exclude = []\n', 'a.yaml': BAD}, '.', ['check', 'a.yaml'], '', 1, LINE, ''),
    ('an excluded file', {'.git': None, '.yamlfmt.toml': 'exclude = ["a.yaml"]\n', 'a.yaml': BAD}, '.', ['check', 'a.yaml'], '', 0, '', ''),
    ('an excluded file, explained', {'.git': None, '.yamlfmt.toml': 'exclude = ["a.yaml"]\n', 'a.yaml': BAD}, '.',
     ['check', '--explain', './a.yaml'], '', 0, '', OUT),
    ('an excluded file that is missing', {'.git': None, '.yamlfmt.toml': 'exclude = ["a.yaml"]\n'}, '.', ['check', 'a.yaml'], '', 0, '', ''),
    ('a name with ..', {'.git': None, '.yamlfmt.toml': 'exclude = ["/d/*.yaml"]\n', 'd/a.yaml': BAD, 'e/b.yaml': BAD}, 'e',
     ['check', '--names', '../d/a.yaml', 'b.yaml'], '', 1, 'b.yaml:' + LINE, ''),
    ('a name with .. that leads back', {'.git': None, '.yamlfmt.toml': 'exclude = ["/d/*.yaml"]\n', 'd/a.yaml': BAD}, 'd', ['check', '../d/a.yaml'], '', 0, '', ''),
    ('a link to an excluded file', {'.git': None, '.yamlfmt.toml': 'exclude = ["a.yaml"]\n', 'a.yaml': BAD, 'b.yaml': ('a.yaml',)}, '.',
     ['check', 'b.yaml'], '', 1, LINE, ''),
    ('an excluded name of standard input', {'.git': None, '.yamlfmt.toml': 'exclude = ["d/"]\n'}, '.', ['fmt', '--stdin-name', 'd/a.yaml'], BAD, 0, BAD, ''),
    ('a name of standard input with ..', {'.git': None, '.yamlfmt.toml': 'exclude = ["d/"]\n', 'e': None}, 'e',
     ['check', '--explain', '--stdin-name', '../d/a.yaml'], BAD, 0, '', OUT),
    ('two documents, one of them no data', {'.git': None, 'a.yaml': '---\na: 1\n---\nb\nc\n'}, '.', ['check', 'a.yaml'], '', 1, '4:1 no-data\n', ''),
    ('any_text', {'.git': None, '.yamlfmt.toml': 'any_text = true\n', 'a.yaml': '---\nb\nc\n'}, '.', ['fmt', '--check', 'a.yaml'], '', 1, '2:2 not formatted\n', ''),
    ('a name that is not UTF-8', {'.git': None, b'\xe9.yaml': BAD}, '.', ['check', b'\xe9.yaml'], '', 3, '', 'error: the command line cannot be read\n'),
    ('another version', {'.git': None, '.yamlfmt.toml': 'required_version = ">=9"\n', 'a.yaml': BAD}, '.', ['check', 'a.yaml'], '', 3, '',
     'required_version: the settings require yamlfmt >=9, and this is 0.2.0\n'),
]

# The same for a user without rights in the folder `w`, in which `d` is.
UNREADABLE = [
    ('an unreadable folder on the way up', {'.yamlfmt.toml': QUOTES, 'w/d/a.yaml': BAD}, 'w/d', ['fmt', 'a.yaml'], '', 3, '', '../.yamlfmt.toml: read failed\n'),
]


def make(folder, files):
    for name, what in files.items():
        path = os.path.join(folder, os.fsdecode(name))
        os.makedirs(os.path.dirname(path), exist_ok=True)
        if what is None:
            os.makedirs(path, exist_ok=True)
        elif isinstance(what, tuple):
            os.symlink(what[0], path)
        else:
            with open(path, 'wb') as file:
                file.write(what if isinstance(what, bytes) else what.encode())


def differs(program, folder, row, **options):
    """Returns whether the row has another result, and prints it."""
    name, _files, at, words, text, *wanted = row
    done = subprocess.run([program, *words], cwd=os.path.join(folder, at), input=text.encode(), capture_output=True, check=False, **options)
    found = [done.returncode, done.stdout.decode(), done.stderr.decode()]
    if found != wanted:
        print('%s: %r: %r, wanted %r' % (name, words, found, wanted))
    return found != wanted


def main():
    program = os.path.abspath(sys.argv[1])
    wrong = 0
    for row in ROWS:
        with tempfile.TemporaryDirectory() as folder:
            make(folder, row[1])
            wrong += differs(program, folder, row)
    count = len(ROWS)
    for row in UNREADABLE if os.geteuid() == 0 else []:
        with tempfile.TemporaryDirectory() as folder:
            make(folder, row[1])
            os.chmod(folder, 0o755)
            os.chmod(os.path.join(folder, 'w'), 0o711)
            os.chmod(os.path.join(folder, 'w/d'), 0o755)
            at = os.open(os.path.join(folder, 'w/d'), os.O_RDONLY)
            os.chmod(os.path.join(folder, 'w'), 0o600)
            wrong += differs(program, folder, row[:2] + ('.',) + row[3:],
                             preexec_fn=lambda at=at: (os.fchdir(at), os.setgroups([]), os.setgid(NOBODY), os.setuid(NOBODY)))
            os.close(at)
            count += 1
    print('%d rows, %d wrong' % (count, wrong))
    return wrong != 0


if __name__ == '__main__':
    sys.exit(main())
