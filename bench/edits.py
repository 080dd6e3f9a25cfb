#!/usr/bin/env python3
"""Prints which promise each must-fail edit shows, and what holds the promises without an edit.

Usage: bench/edits.py [--check] [CRATE..]

It prints the list of these crates, or of all crates, as Markdown. With --check it prints only what is wrong.

An edit, crates/NAME/must-fail/*.edit, has one line `# promise: TEXT`. Edits with one text share an item of the list.
The promises without an edit are in docs/proving/promises.txt, a line each: crate, promise and what holds it, with tabs
between. What holds it names files or tests of yamlfmt in backticks; or it is `-` if there is nothing to hold; or it is
as `EDIT`, for an edit of the crate that breaks the same clause, one of the same form, or one that rests on this one;
or as `EDIT` of CRATE, for an edit of another crate that breaks a clause which rests on this one.

With or without --check, it fails if

- an edit has no promise or two, or its `old:` text is not in its file exactly once;
- a promise names a function in backticks that its crate doesn't have;
- what should hold a promise doesn't exist;
- a crate has no promise.

It proves nothing: `rt must-fail` tries the edits. It is not part of rt ci.
"""
import glob
import os
import re
import sys
import textwrap

TOP = os.path.dirname(os.path.dirname(os.path.abspath(__file__)))
PROMISES = 'docs/proving/promises.txt'
PROMISE = '# promise: '
HEAD = '''# Which edit shows which promise

Each item is a promise, and after it the edits that break it. An edit's name is the function and what is wrong with it;
the promise is that function's, if it names no other. One edit stands for a family of promises whose clauses have one
form. A function needs no edit if the exact clause of another one rests on it: a wrong result of it is refused there. If
a promise has no edit, the item says why:

- *as* an edit: a similar edit was tried by hand, or by the gate of commit 74c4f26a or 2ca61b81, and a clause refused it;
  or it was in the list of commit e20bd9c7, which was tried only in part. The named edit breaks the same clause, one of
  the same form, or one that rests on it. If the edit is *of* another crate, its clause rests on that of the similar one.
- *by* tests or files: they hold the promise.

docs/proving/COST.md says how to write an edit, and what it costs.
'''


def read(path):
    with open(os.path.join(TOP, path), encoding='utf-8') as file:
        return file.read()


def sources(folder):
    """The texts of all files in a folder and below, as one."""
    files = sorted(glob.glob(os.path.join(TOP, folder, '**', '*.rt'), recursive=True))
    return '\n'.join(read(file) for file in files)


def crates():
    """The crates, in the order of crates.txt."""
    lines = read('crates.txt').splitlines()
    return [line.split(':')[0].split()[0] for line in lines if line.strip() and not line.startswith('#')]


def applied(crate, lines):
    """What is wrong with the texts of an edit, or None. Each pair applies to what the pairs before it made."""
    name = next((line[6:].strip() for line in lines if line.startswith('file: ')), None)
    path = os.path.join('crates', crate, name or '')
    if not name or not os.path.isfile(os.path.join(TOP, path)):
        return 'names no file'
    text = read(path)
    old = [line[5:] for line in lines if line.startswith('old: ')]
    new = [line[5:] for line in lines if line.startswith('new: ')]
    if not old or len(old) != len(new):
        return 'has no pairs of old and new'
    for before, after in zip(old, new):
        if text.count(before) != 1:
            return f'{path} has this text {text.count(before)} times: {before.strip()}'
        text = text.replace(before, after)
    return None


def edits(crate, wrong):
    """The promises of a crate's edits with the names of these, in the order of the first names."""
    rows = {}
    for path in sorted(glob.glob(os.path.join(TOP, 'crates', crate, 'must-fail', '*.edit'))):
        name = os.path.basename(path)[:-len('.edit')]
        lines = read(path).splitlines()
        promises = [line[len(PROMISE):].strip() for line in lines if line.startswith(PROMISE)]
        if len(promises) != 1 or not promises[0]:
            wrong.append(f'{crate}, {name}: {len(promises)} lines "{PROMISE}..", but one is needed')
            continue
        fault = applied(crate, lines)
        if fault:
            wrong.append(f'{crate}, {name}: {fault}')
        rows.setdefault(promises[0], []).append(f'`{name}`')
    return rows


def exists(holder, tests, edit_of):
    """Whether the edit of a crate, if one is given, or else the file or test of that name exists."""
    if edit_of:
        return os.path.exists(os.path.join(TOP, 'crates', edit_of, 'must-fail', holder + '.edit'))
    if '/' in holder:
        return os.path.exists(os.path.join(TOP, holder))
    below = os.path.join(TOP, 'crates', 'yamlfmt', 'src', '**', holder + '.rt')
    return bool(glob.glob(below, recursive=True)) or re.search(rf'\bfn {re.escape(holder)}\b', tests)


def others(wrong):
    """The promises without an edit: for each crate, what holds some of them, and these."""
    rows = {}
    tests = sources('crates/yamlfmt/src')
    for number, line in enumerate(read(PROMISES).splitlines(), 1):
        if not line or line.startswith('#'):
            continue
        fields = line.split('\t')
        if len(fields) != 3 or not all(fields):
            wrong.append(f'{PROMISES}:{number}: not a crate, a promise and what holds it, with tabs between')
            continue
        crate, promise, held = fields
        holders = re.findall('`([^`]+)`', held)
        if held != '-' and not holders:
            wrong.append(f'{PROMISES}:{number}: what holds it has no name in backticks')
        other = re.search(r'` of (\w+)$', held)
        edit_of = None if not held.startswith('as ') else other[1] if other else crate
        for holder in holders:
            if not exists(holder, tests, edit_of):
                wrong.append(f'{PROMISES}:{number}: {holder} does not exist')
        shown = '' if held == '-' else held if edit_of else 'by ' + held
        rows.setdefault(crate, {}).setdefault(shown, []).append(promise)
    return rows


def unknown(crate, promise, text):
    """The functions that a promise names and the crate, or the crate that it names after `of`, doesn't have."""
    for word, other in re.findall(r'`([A-Za-z_][A-Za-z0-9_:]+)`(?: of (yf_\w+))?', promise):
        if not re.search(rf'\b{word.split("::")[-1]}\b', sources(f'crates/{other}/src') if other else text):
            yield f'{other or crate} has no `{word}`: {promise}'


def item(text, indent=''):
    """An item of a list, on lines of at most 120 characters."""
    return textwrap.fill(text, 120, initial_indent=indent + '- ', subsequent_indent=indent + '  ',
                         break_long_words=False, break_on_hyphens=False)


def shortened(promise, names):
    """A promise without the function before it, if the name of an edit begins with that function."""
    head = re.match(r'`(?:\w+::)*(\w+)`: ', promise)
    return promise[head.end():] if head and any(name.startswith(f'`{head[1]}-') for name in names) else promise


def items(found, without):
    """The items of a crate: its promises with edits, and those without, by what holds them."""
    shown = [item(f'{shortened(promise, names)}: {", ".join(names)}') for promise, names in found.items()]
    for held, promises in without.items():
        if len(promises) > 1 and held:
            shown += [item(held + ':'), *(item(promise, '  ') for promise in promises)]
        else:
            shown += [item(f'{promise}: {held}' if held else promise) for promise in promises]
    return shown


def page(wrong, asked):
    """The list for the crates that are asked for. All crates are looked at, and what is wrong is added to the list."""
    lines = [HEAD]
    without = others(wrong)
    names = crates()
    wrong.extend(f'{PROMISES}: no crate {crate}' for crate in without if crate not in names)
    for crate in names:
        found, rest = edits(crate, wrong), without.get(crate, {})
        text = sources(f'crates/{crate}/src')
        promises = [*found, *(promise for some in rest.values() for promise in some)]
        if not promises:
            wrong.append(f'{crate} has neither an edit nor a line in {PROMISES}')
        for promise in promises:
            wrong.extend(unknown(crate, promise, text))
        if crate in asked or not asked:
            lines += [f'## {crate}', '', *items(found, rest), '']
    return '\n'.join(lines[:-1]) + '\n'


def main():
    asked = [word for word in sys.argv[1:] if word != '--check']
    if not set(asked) <= set(crates()):
        sys.exit(__doc__)
    wrong = []
    made = page(wrong, asked)
    if '--check' not in sys.argv[1:]:
        print(made, end='')
    for line in wrong:
        print(f'edits.py: {line}', file=sys.stderr)
    sys.exit(bool(wrong))


if __name__ == '__main__':
    main()
