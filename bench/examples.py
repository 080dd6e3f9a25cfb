#!/usr/bin/env python3
"""Runs a program on the examples of docs/TROUBLESHOOTING.md and of the rules in docs/STYLE.md.

Usage: bench/examples.py [PROGRAM]     (default: the program that ./yamlfmt builds; build it first)

A row of TROUBLESHOOTING has texts in backticks and then, in parentheses, the positions at which they are refused, or
one position for all. A row of the rules has texts, each with the position of a finding. The script prints a line for
each wrong example, and returns 1 if there is one. bench/recipes.py tests the other examples.
"""
import html
import os
import re
import subprocess
import sys
import tempfile

TOP = os.path.dirname(os.path.dirname(os.path.abspath(__file__)))


def read(path):
    with open(os.path.join(TOP, path), encoding='utf-8') as file:
        return file.read()


def said(program, words, text):
    """The output of the program for a text, on both streams."""
    done = subprocess.run([program, *words], input=text, stdout=subprocess.PIPE, stderr=subprocess.STDOUT, text=True)
    return done.stdout.splitlines()


def spans(cell):
    """The texts of a cell, with their signs for line breaks and tabs replaced."""
    for found in re.findall(r'`` (.*?) ``|`(.*?)`|<code>(.*?)</code>', cell):
        yield html.unescape(''.join(found)).replace('\\|', '|').replace('⏎', '\n').replace('→', '\t')


def refusals():
    """Each text of TROUBLESHOOTING, and the position of its refusal."""
    for line in read('docs/TROUBLESHOOTING.md').splitlines():
        row = re.match(r'\| (.*?) \((\d+:\d+(?:, \d+:\d+)*)\) \|', line)
        if row:
            texts, places = [*spans(row[1])], row[2].split(', ')
            places *= len(texts) if len(places) == 1 else 1
            if len(texts) != len(places):
                sys.exit('texts and positions differ in number: %s' % line)
            yield from zip(texts, places)


def findings():
    """Each example of a rule: the rule, the text, the settings, and the position of the finding."""
    for row in re.findall(r'^\| \d+ \| ([a-z-]+) \| .* \| (.*) \| (?:yes|no) \|$', read('docs/STYLE.md'), re.M):
        for text, setting, place in re.findall(r'`([^`]*)`(?: under `([^`]*)`)?: `(\d+:\d+)`', row[1]):
            yield row[0], text.encode().decode('unicode_escape'), setting, place


def main():
    program = os.path.abspath(sys.argv[1]) if len(sys.argv) > 1 else TOP + '/.build/yamlfmt'
    if len(sys.argv) > 2 or not os.access(program, os.X_OK):
        sys.exit(__doc__)
    tried, bad = 0, 0
    for text, place in refusals():
        lines = [line for end in ('\n', '') for line in said(program, ['events'], text + end)[:1]]
        tried += 1
        if not any(re.match(r'%s refused: ' % place, line) for line in lines):
            bad += 1
            print('TROUBLESHOOTING: %r gives %s, not %s' % (text, lines, place))
    for rule, text, setting, place in findings():
        with tempfile.NamedTemporaryFile('w', suffix='.toml') as config:
            config.write(setting + '\n')
            config.flush()
            lines = said(program, ['check', '--config', config.name], text)
        tried += 1
        if not any(line.startswith('%s %s' % (place, rule)) for line in lines):
            bad += 1
            print('STYLE: %s in %r: %s, not %s' % (rule, text, lines, place))
    print('%d examples, %d wrong' % (tried, bad))
    return 1 if bad or not tried else 0


if __name__ == '__main__':
    sys.exit(main())
