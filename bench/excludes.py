#!/usr/bin/env python3
"""Compares yf_excludes with Git: random patterns and paths, against `git check-ignore`.

Usage: bench/excludes.py [--seed N] [--sets N] [--paths N] COMMAND..

COMMAND reads a line for each case from standard input: a path, and the patterns in order, with tabs between. It writes
a line for each: `1` if the patterns exclude the path, `0` if they don't, and `bad` if one of them is no pattern. Cases
with a bad pattern are counted and left out: Git ignores such a pattern. Git gets the patterns in the .gitignore of an
empty folder, so no path exists, and Git takes the last name of each path for a file.

Two cases are left out. gitignore(5) says of `**` in a segment that begins with a plain byte, such as `a**/b`, that its
stars are plain stars. Git takes the plain bytes off first, and reads the rest, `**/b`, as if it were at the beginning.
The range of a class with its first byte above its last, such as `[b-a]`, has no byte here; Git takes its first byte.
"""
import argparse
import os
import random
import re
import subprocess
import sys
import tempfile

NAMES = ['a', 'b', 'ab', 'ba', 'abc', 'a.b', '.a', 'a-b', 'aa', 'a]b', 'b!', '*', 'a[b', 'aab', 'c']
PIECES = ['a', 'b', 'c', '.', '*', '*', '?', '**', '[ab]', '[!a]', '[^a]', '[a-c]', '[]a]', '[!]a]', '[a-]', '[-a]',
          '[a\\-c]', '[a\\]]', '\\*', '\\a', '\\!', '\\[', '-', ']', '!', '[.-]', '[--b]']


def segment(rng):
    if rng.random() < 0.25:
        return rng.choice(['**', '**', '***', '*'])
    return ''.join(rng.choice(PIECES) for _ in range(rng.choice([1, 1, 2, 2, 3, 4])))


def pattern(rng):
    text = '/'.join(segment(rng) for _ in range(rng.choice([1, 1, 1, 2, 2, 3, 4])))
    if rng.random() < 0.2:
        text = '/' + text
    if rng.random() < 0.25:
        text += '/'
    if rng.random() < 0.3:
        text = '!' + text
    return text


def path(rng):
    return '/'.join(rng.choice(NAMES) for _ in range(rng.choice([1, 2, 2, 3, 3, 4])))


def quirk(text):
    body = text[1:] if text.startswith('!') else text
    plain = re.match(r'[^*?\[\\]*', body).group()
    return '/' in body.rstrip('/') and plain and not plain.endswith('/') and body[len(plain):].startswith('**')


def output_of(command, text):
    return subprocess.run(command, input=text, capture_output=True, text=True, check=False)


def main():
    reader = argparse.ArgumentParser(usage=__doc__)
    reader.add_argument('--seed', type=int, default=1)
    reader.add_argument('--sets', type=int, default=200)
    reader.add_argument('--paths', type=int, default=10)
    reader.add_argument('command', nargs=argparse.REMAINDER)
    asked = reader.parse_args()
    rng = random.Random(asked.seed)
    cases, wanted = [], []
    for _ in range(asked.sets):
        patterns = []
        while not patterns:
            patterns = [p for p in (pattern(rng) for _ in range(rng.choice([1, 1, 2, 3, 4]))) if not quirk(p)]
        paths = sorted({path(rng) for _ in range(asked.paths)})
        with tempfile.TemporaryDirectory() as folder:
            subprocess.run(['git', 'init', '-q', folder], check=True)
            with open(os.path.join(folder, '.gitignore'), 'w', encoding='utf-8') as file:
                file.write(''.join(p + '\n' for p in patterns))
            git = ['git', '-c', 'core.ignoreCase=false', '-C', folder, 'check-ignore', '--no-index', '-z', '--stdin']
            ignored = set(output_of(git, '\0'.join(paths) + '\0').stdout.split('\0'))
        for name in paths:
            cases.append('\t'.join([name] + patterns))
            wanted.append('1' if name in ignored else '0')
    run = output_of(asked.command, ''.join(c + '\n' for c in cases))
    found = [line for line in run.stdout.splitlines() if line in ('0', '1', 'bad')]
    if len(found) != len(cases):
        sys.exit(f'{len(cases)} cases, {len(found)} lines; status {run.returncode}\n{run.stderr[-2000:]}')
    bad = found.count('bad')
    other = [(c, w, f) for c, w, f in zip(cases, wanted, found) if f != 'bad' and f != w]
    for case, want, got in other[:40]:
        print(f'Git says {want}, yf_excludes says {got}: {case!r}')
    excluded = wanted.count('1')
    print(f'{len(cases)} cases, {bad} with a bad pattern, {excluded} excluded by Git, {len(other)} differ')
    sys.exit(1 if other else 0)


if __name__ == '__main__':
    main()
