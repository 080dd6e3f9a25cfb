#!/usr/bin/env python3
"""Makes the diagram and the list of crates in docs/ARCHITECTURE.md from crates.txt.

Usage: bench/crates.py [--check | --write]

The diagram has a line for each level: a crate is one level above the highest crate that it uses. In the list, a crate
is followed, in parentheses, by the crates that it uses, without those below another one of these, and by the libraries
of the kit; and then by its description. The script keeps descriptions; a new crate gets the first sentence of its root
file. With --check it fails if the page differs, with --write it writes the page, and otherwise it prints both.
"""
import os
import re
import sys
import textwrap

TOP = os.path.dirname(os.path.dirname(os.path.abspath(__file__)))
PAGE = 'docs/ARCHITECTURE.md'


def read(path):
    with open(os.path.join(TOP, path), encoding='utf-8') as file:
        return file.read()


def crates():
    """The crates that each crate uses, in the order of crates.txt."""
    found = {}
    for line in read('crates.txt').splitlines():
        head, _, names = line.partition('#')[0].partition(':')
        if head.strip():
            found[head.split()[0]] = names.split()
    return found


def below(uses, name):
    """All crates below a crate."""
    found = [one for one in uses[name] if one in uses]
    for one in found:
        found += [more for more in uses[one] if more in uses and more not in found]
    return found


def levels(uses):
    """The level of each crate, from 0."""
    found = {}

    def level(name):
        if name not in found:
            found[name] = max((level(one) + 1 for one in uses[name] if one in uses), default=0)
        return found[name]

    for name in uses:
        level(name)
    return found


def diagram(uses):
    """The levels, the highest first."""
    found = levels(uses)
    rows = []
    for level in range(max(found.values()), -1, -1):
        rows.append('    %2d  %s' % (level, '  '.join(name for name in uses if found[name] == level)))
    return '\n'.join(rows) + '\n'


def used(uses, name):
    """The crates that a crate uses, the highest first, without those below another of them; and the kit's libraries."""
    level = levels(uses)
    own = [one for one in uses[name] if one in uses]
    first = [one for one in own if not any(one in below(uses, other) for other in own)]
    return ', '.join(sorted(first, key=lambda one: -level[one]) + [one for one in uses[name] if one not in uses])


def sentence(name):
    """The first sentence of a crate's root file."""
    for root in ('lib.rt', 'main.rt'):
        path = 'crates/%s/src/%s' % (name, root)
        if os.path.exists(os.path.join(TOP, path)):
            words = ' '.join(line[3:].strip() for line in read(path).splitlines() if line.startswith('//!'))
            return re.split(r'[.](?= |$)', words)[0]
    return ''


def described(page):
    """The description of each crate in the page."""
    items = re.findall(r'^- \*\*(\w+)\*\*(?: \([^)]*\))?: (.*(?:\n  .*)*)', page, re.M)
    return {name: ' '.join(text.split()) for name, text in items}


def items(uses, page):
    """The list of the crates, the highest first."""
    kept, level, rows = described(page), levels(uses), []
    for name in sorted(uses, key=lambda name: -level[name]):
        below = used(uses, name)
        row = '- **%s**%s: %s' % (name, ' (%s)' % below if below else '', kept.get(name) or sentence(name))
        rows += textwrap.wrap(row, 120, subsequent_indent='  ', break_long_words=False, break_on_hyphens=False)
    return '\n'.join(rows) + '\n'


def put(page, mark, text):
    """The page with the text between the marks of a name."""
    start, end = '<!-- %s -->\n' % mark, '<!-- end of %s -->\n' % mark
    if start not in page or end not in page:
        sys.exit('%s has no marks of %s' % (PAGE, mark))
    return page.split(start)[0] + start + text + end + page.split(end)[1]


def main():
    task = sys.argv[1] if len(sys.argv) > 1 else ''
    if len(sys.argv) > 2 or task not in ('', '--check', '--write'):
        sys.exit(__doc__)
    uses, page = crates(), read(PAGE)
    rows = '\n' + items(uses, page) + '\n'
    new = put(put(page, 'levels', '\n' + diagram(uses) + '\n'), 'crates', rows)
    if task == '--write':
        with open(os.path.join(TOP, PAGE), 'w', encoding='utf-8') as file:
            file.write(new)
    elif task == '--check':
        if new != page:
            sys.exit('%s differs from crates.txt: run bench/crates.py --write' % PAGE)
    else:
        print(diagram(uses) + rows, end='')


if __name__ == '__main__':
    main()
