#!/usr/bin/env python3
"""Makes the fixes of `check --format sarif` and `fmt --check --format sarif`, and compares the results with `fmt`.

Usage: bench/fixes.py PROGRAM [FILE..]

It takes texts of its own, those of awkward.txt, and these files. The first fixable result of a text must have a fix,
and the others none. The script makes the replacements by their lines and columns, and the result must be the output of
`fmt`. A text without fixable results has no fix. Each fault is printed, and then the status is 1. Run it by hand; it is
not part of rt ci.
"""
import json
import os
import re
import subprocess
import sys
import tempfile

OWN = (b'', b'a', b'a: 1', b'---\na: x # c\n', b'---\na: b \n\n\n\n\nc: d \n', b'\xef\xbb\xbfa: b', b'a: b\r\nc: d\r\n',
       b'a: b\rc: d\r', b'---\n- a\n-   b\n- c\n-   d', b'a: "\xc3\xa9" #c', b'---\n\n\na\n', b'{a: b}\n...\n',
       b'- a\r- b', b'\xef\xbb\xbf\xef\xbb\xbf- \xe2\x82\xac', b'---\na: b\n\n', b'a: |\n  x\n\n\nb: c')
BREAK = re.compile('\r\n|\r|\n')


def texts():
    """The texts that are not in files: those above, and those of awkward.txt."""
    with open(os.path.join(os.path.dirname(os.path.abspath(__file__)), 'awkward.txt'), encoding='utf-8') as file:
        blocks = file.read().split('\n%%\n')
    return list(OWN) + [block.replace('@i', 'i').replace('@n', 'n').encode() for block in blocks]


def run(program, *words):
    done = subprocess.run([program, *words], stdout=subprocess.PIPE, stderr=subprocess.DEVNULL, check=False)
    return done.returncode, done.stdout


def offset(text, starts, line, column):
    """The offset of a position. Byte order marks at the start of a line have no columns."""
    start = starts[line - 1] if line <= len(starts) else len(text)
    if column == 1:
        return start
    while text[start:start + 1] == '\ufeff':
        start += 1
    return start + column - 1


def fixed(text, fix):
    """The text with the replacements of a fix made."""
    starts = [0] + [found.end() for found in BREAK.finditer(text)]
    done, at = '', 0
    for replacement in fix['artifactChanges'][0]['replacements']:
        region = replacement['deletedRegion']
        begin = offset(text, starts, region['startLine'], region['startColumn'])
        end = offset(text, starts, region['endLine'], region['endColumn'])
        if begin < at or end < begin:
            return None
        done += text[at:begin] + replacement.get('insertedContent', {'text': ''})['text']
        at = end
    return done + text[at:]


def fault_in(program, command, path):
    """What is wrong with the fixes that a command gives for a file, or None; and whether it has a fix."""
    with open(path, 'rb') as file:
        data = file.read()
    status, log = run(program, *command, '--no-config', '--format', 'sarif', path)
    results = json.loads(log)['runs'][0]['results']
    fixable = [result for result in results if result['properties']['fixable']]
    given = [result for result in results if 'fixes' in result]
    formatted, output = run(program, 'fmt', '--no-config', '--any-text', path)
    left = any(result['ruleId'] in ('no-data', 'template') for result in results)
    if status not in (0, 1) or left or not fixable:
        return ('a fix without need' if given else None), False
    if given != fixable[:1] or len(given[0]['fixes']) != 1:
        return 'not the first fixable result', True
    if formatted != 0:
        return 'fmt fails', True
    done = fixed(data.decode(), given[0]['fixes'][0])
    return (None if done is not None and done.encode() == output else 'another text'), True


def main():
    program, paths = os.path.abspath(sys.argv[1]), sys.argv[2:]
    faults, fixes = 0, 0
    with tempfile.TemporaryDirectory() as folder:
        for number, text in enumerate(texts()):
            paths.append('%s/%d.yaml' % (folder, number))
            with open(paths[-1], 'wb') as file:
                file.write(text)
        for path in paths:
            for command in (['check'], ['fmt', '--check']):
                fault, has_fix = fault_in(program, command, path)
                fixes += has_fix
                if fault:
                    faults += 1
                    print('%s: %s: %s' % (path, ' '.join(command), fault))
    print('%d texts, %d fixes, %d faults' % (len(paths), fixes, faults))
    sys.exit(1 if faults else 0)


if __name__ == '__main__':
    main()
