#!/usr/bin/env python3
"""Writes docs/PROVED_TABLES.md: per crate, the clauses of the functions that bench/proved.txt lists.

Usage: bench/proved.py [--check | --write]

Each row has a function, the names of its `ensures` clauses, and the first words of its doc comment. The page also has,
per crate, the number of functions with a contract. With --check it fails if the page differs from the sources, with
--write it writes the page, and otherwise it prints the page.

If two crates have a function of one name, bench/proved.txt has CRATE::NAME. --check also fails at a name that no crate
has.
"""
import glob
import os
import re
import sys
import textwrap

TOP = os.path.dirname(os.path.dirname(os.path.abspath(__file__)))
PAGE = 'docs/PROVED_TABLES.md'
HEAD = '''# Proved, crate by crate

Made by `bench/proved.py` from the sources. [PROVED](PROVED.md) explains the theorem of the whole program.

After a crate's name is the number of its functions with a contract. Below are its main calls, with the names of their
clauses.

'''
HEADER = re.compile(r'^ *(pub(?:\([^)]*\))? )?(?:const )?fn (\w+)')


def read(path):
    with open(os.path.join(TOP, path), encoding='utf-8') as file:
        return file.read()


def crates():
    """The names of the crates, in the order of crates.txt."""
    lines = (line.partition('#')[0] for line in read('crates.txt').splitlines())
    return [line.partition(':')[0].split()[0] for line in lines if line.strip()]


def sources(crate):
    """The source files of a crate without its tests."""
    paths = sorted(glob.glob('%s/crates/%s/src/**/*.rt' % (TOP, crate), recursive=True))
    return [path for path in paths if not re.search(r'/tests?(/|\.rt)|_tests\.rt', path)]


def functions(crate):
    """Each function of a crate: its name, whether it is public and free, its doc comment, and its clauses."""
    for path in sources(crate):
        lines = read(path).split('\n')
        for at, line in enumerate(lines):
            head = HEADER.match(line)
            if not head:
                continue
            start = at
            while start and re.match(r' *(///|#\[)', lines[start - 1]):
                start -= 1
            doc = [re.sub(r'^ */// ?', '', one) for one in lines[start:at] if '///' in one]
            end = at
            while end + 1 < len(lines) and not re.match(r'\s*\{\}?$|(\s*\)|.*\bfn ).*\{\}?$|.*;$', lines[end]):
                end += 1
            clauses = []
            for one in lines[at:end + 1]:
                clauses += [name or '' for name in re.findall(r'^ +ensures (?:(\w+) )?\{', one)]
            yield head[2], bool(head[1]) and not line.startswith(' '), doc, clauses


def sentence(doc):
    """The first words of a doc comment, up to the first colon or full stop, without what is in parentheses."""
    words = re.sub(r' \((?:[^()]|\([^()]*\))*\)', '', ' '.join(' '.join(doc).split()))
    first, *more = re.split(r'[.:;](?= |$)', words)
    shown = more[0].strip() if first == 'Does nothing' else first
    return shown[:1].lower() + shown[1:]


def wrapped(row):
    """An item of a list on lines of at most 120 characters."""
    return textwrap.wrap(row, 120, subsequent_indent='    ', break_long_words=False, break_on_hyphens=False)


def listed():
    """The names of bench/proved.txt."""
    return [word for line in read('bench/proved.txt').splitlines() for word in line.partition('#')[0].split()]


def page():
    """The names of bench/proved.txt that are not in exactly one crate, and the whole page."""
    names, found, parts = listed(), {}, []
    for crate in crates():
        held, rows = 0, []
        for name, free, doc, clauses in functions(crate):
            held += bool(clauses)
            for asked in (name, '%s::%s' % (crate, name)):
                if free and clauses and asked in names:
                    found.setdefault(asked, []).append(crate)
                    shown = ' (%s)' % ', '.join('`%s`' % one for one in clauses if one) if any(clauses) else ''
                    rows += wrapped('  - `%s`%s: %s' % (name, shown, sentence(doc)))
        parts += ['- **%s** (%d)' % (crate, held), *rows]
    wrong = ['%s %s' % (name, found.get(name, '')) for name in names if len(found.get(name, [])) != 1]
    return wrong, HEAD + '\n'.join(parts) + '\n'


def main():
    task = sys.argv[1] if len(sys.argv) > 1 else ''
    if len(sys.argv) > 2 or task not in ('', '--check', '--write'):
        sys.exit(__doc__)
    wrong, text = page()
    if wrong:
        print('bench/proved.txt: not in exactly one crate: ' + ', '.join(wrong), file=sys.stderr)
    if task == '--write':
        with open(os.path.join(TOP, PAGE), 'w', encoding='utf-8') as file:
            file.write(text)
    elif task == '--check':
        if wrong or not os.path.exists(os.path.join(TOP, PAGE)) or read(PAGE) != text:
            sys.exit('%s differs from the sources: run bench/proved.py --write' % PAGE)
    else:
        print(text, end='')


if __name__ == '__main__':
    main()
