"""Matches each kind of line of hooks/each_file with the matchers of docs/RECIPES.md. bench/recipes.py runs this.

It reads the kinds from their sources: refusals from docs/GRAMMAR.md, rules from docs/STYLE.md, and messages from the
hooks. So it also tests each new kind.
"""
import json
import os
import re

from scratch import TOP, read

EACH_FILE = ('/hooks/each_file', '/hooks/one_file.bash', '/hooks/staged_files.bash')
FILES = ('a.yaml', 'deep folder/a b.yaml', 'x: y.yaml', '../.yamlfmt.toml')


def section(page, title):
    return read(TOP + '/docs/' + page).split('\n## %s\n' % title)[1].split('\n## ')[0]


def refusals():
    """The program's lines on standard error."""
    cells = re.findall(r'^\| (`.*?`) \| [23] \|', section('GRAMMAR.md', 'The lines of refusals'), re.M)
    for name in re.findall(r'`(.*?)`', ' '.join(cells)):
        yield name.replace('L:C', '3:15').replace('byte N', 'byte 70').replace('KEY', 'max_line')
    yield 'config: '
    yield 'error: the command line cannot be read'


def findings():
    for name, fixable in re.findall(r'^\| \d+ \| ([a-z-]+) \| .* \| (yes|no) \|$', section('STYLE.md', 'Rules'), re.M):
        yield '12:3 ' + name + (' (fixable)' if fixable == 'yes' else '')
    yield '12:3 no-data'
    yield '12:3 template'


def said(word, *names):
    """The messages after that word in the hooks, with the variables of the shell replaced."""
    for name in names:
        for text in re.findall(r'(?<![\w-])%s"([^"]*)"' % word, read(TOP + name)):
            yield re.sub(r'\$\{?\w+\}?(%%[^}]*\})?', 'a word', text)


def of_a_file():
    """The messages of each_file itself about a file."""
    return [*said(r'say "\$\w+" ', *EACH_FILE)]


def left_alone():
    """The messages of the program about files that are left alone: with status 1, and with status 0."""
    return ['left alone: no data', 'left alone: template'], ['left alone: encrypted']


def explanations():
    """Lines that `--explain` adds, which are no errors themselves."""
    return ('  expected a `,` or the closing bracket', '  | a:1:2 b', '  | x: read failed', '  | x: left alone: y', '  |     ^', '  opened at 2:4',
            '  3:4: the byte xE9 is not UTF-8 here', '  2:8 comment-space: fmt writes two spaces before it', '  a.yaml: No such file or directory (os error 2)')


def of_hooks():
    for text in said('refuse ', *EACH_FILE):
        yield 'each_file: ' + text
    for text in said('refuse ', '/hooks/program', '/dist/program'):
        if not text.startswith('hooks/program '):
            yield 'yamlfmt: ' + text
    for text in said('say ', '/hooks/build'):
        if not text.startswith('hooks/build '):
            yield 'yamlfmt: ' + text
    yield "yamlfmt: can't list the staged files"
    yield 'required_version: the settings require yamlfmt >=0.3, and this is 0.2.0'
    yield "can't look for a settings file: the path of the current folder is unknown"


def progress():
    """Messages about a build, which are no errors."""
    for text in said('tell ', '/hooks/program', '/hooks/build'):
        yield 'yamlfmt: ' + text
    yield 'yamlfmt: 3 of 25 crates are proved; now yf_one (100 of 200 functions), yf_two'


def matches(patterns, line):
    """The patterns that match the line, and the parts that they find in it."""
    for owner, pattern in patterns.items():
        hit = re.search(pattern['regexp'], line)
        if hit:
            yield owner, *(hit[pattern[part]] if part in pattern else None for part in ('file', 'line', 'column', 'message'))


def rows():
    """Each line, the only matcher for it, and the parts that the matcher must find."""
    counted, passed = left_alone()
    for file in FILES:
        for text in [*refusals(), *findings(), *of_a_file(), *counted]:
            place = re.match(r'(\d+):(\d+) (.*)', text)
            if place:
                yield '%s:%s' % (file, text), [('yamlfmt', file, *place.groups())]
            else:
                yield '%s: %s' % (file, text), [('yamlfmt-file', file, None, None, text)]
        for text in explanations():
            yield '%s: %s' % (file, text), []
        for line in [file + ': ' + text for text in passed]:
            yield line, [('yamlfmt-left', file, None, None, line)]
    for line in ('each_file: symbolic links are left alone: a.yaml', 'each_file: symbolic links are left alone: a.yaml and 3 more'):
        yield line, [('yamlfmt-left', None, None, None, line)]
    for line in of_hooks():
        yield line, [('yamlfmt-hooks', None, None, None, line)]
    for line in [*progress(), 'Run git ls-files', 'fatal: not a git repository', 'xargs: each_file: No such file or directory',
                 'This repairs them: hooks/each_file fmt --write -- a.yaml', '']:
        yield line, []


def patterns_of(matchers):
    found = {}
    for matcher in matchers:
        pattern = matcher['pattern']
        found[matcher['owner']] = pattern[0] if isinstance(pattern, list) else pattern
    return found


def matcher(room, text, clone):
    """Exactly one matcher matches each line, and finds its parts; no matcher matches a line that is no error."""
    patterns = patterns_of(json.loads(text)['problemMatcher'])
    good = len(patterns) == 4
    kinds = [[*refusals()], [*findings()], of_a_file(), [*of_hooks()], [*progress()]]
    for kind, least in zip(kinds, (12, 13, 3, 20, 5)):
        if len(kind) < least:
            print('  only %d of a kind of line: %s' % (len(kind), kind))
            good = False
    for line, wanted in rows():
        found = [*matches(patterns, line)]
        if found != wanted:
            print('  %r gives %r, and not %r' % (line, found, wanted))
            good = False
    return good
