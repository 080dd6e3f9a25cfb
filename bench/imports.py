#!/usr/bin/env python3
"""Tests contrib/import_settings: files of Prettier and yamllint, and the settings and notes that they give.

Usage: bench/imports.py PROGRAM

The script reads YAML by PROGRAM, which must also accept the settings that each row gives. It prints a line for each row
that fails, then the number of rows, and returns 1 if one failed.
"""
import os
import re
import subprocess
import sys
import tempfile

TOP = os.path.dirname(os.path.dirname(os.path.abspath(__file__)))
SCRIPT = TOP + '/contrib/import_settings'
# What .prettierrc gives if it is empty, and what it notes.
PRETTIER = {'indent': '2', 'max_line': '80', 'quotes': '"double"', 'seq_indent': 'true', 'document_start': '"keep"',
            'comments': '"block"'}
BRACES, PROSE = 'bracketSpacing (default)', 'proseWrap (default)'
# What .yamllint gives with `extends: default`, and what it notes.
YAMLLINT = {'max_line': '80', 'seq_indent': 'true', 'document_start': '"always"', 'comments': '"next"'}
NOTED = ['truthy', 'comments', 'line-length', 'trailing-spaces']
# What .yamllint gives without rules, and what it notes.
FREE = {'document_start': '"keep"', 'comments': '"block"'}
OFF = ['line-length', 'key-duplicates']

# The name and the text of a file; the settings; the setting of each note.
ROWS = (
    ('.prettierrc', '', PRETTIER, [BRACES, PROSE]),
    ('.prettierrc', '{}', PRETTIER, [BRACES, PROSE]),
    ('.prettierrc', '# no option\n', PRETTIER, [BRACES, PROSE]),
    ('.prettierrc.json', '{\n\t"printWidth": 120,\n\t"singleQuote": true,\n\t"bracketSpacing": false\n}\n',
     {**PRETTIER, 'max_line': '120', 'quotes': '"single"'}, [PROSE]),
    ('.prettierrc.yaml', 'tabWidth: 4\nsemi: false\nproseWrap: never\n', {**PRETTIER, 'indent': '4'},
     [BRACES, 'proseWrap', 'tabWidth']),
    ('.prettierrc.yml', 'tabWidth: 2\nproseWrap: always\nendOfLine: auto\n', PRETTIER,
     [BRACES, 'proseWrap', 'endOfLine']),
    ('.prettierrc', 'useTabs: true\nrequirePragma: true\ninsertPragma: true\nplugins: [a]\n', PRETTIER,
     ['plugins', BRACES, PROSE, 'requirePragma', 'insertPragma']),
    ('.prettierrc', 'printWidth: 20\ntabWidth: 1\n', {**PRETTIER, 'max_line': '40'},
     ['tabWidth', 'printWidth', BRACES, PROSE]),
    ('.prettierrc', 'printWidth: .inf\n', {**PRETTIER, 'max_line': '1000'}, ['printWidth', BRACES, PROSE]),
    ('.prettierrc', 'printWidth: "80"\nsingleQuote: 1\ntabWidth: true\nproseWrap: some\n', PRETTIER,
     ['printWidth', 'singleQuote', 'tabWidth', 'proseWrap', BRACES, PROSE]),
    ('.prettierrc', 'overrides:\n- files: "*.md"\n  options: {tabWidth: 8}\n', PRETTIER, [BRACES, PROSE]),
    ('.prettierrc', 'overrides:\n- files: ["**/*.{yml,yaml}", "*.json"]\n  options: &o {singleQuote: true}\n'
     '- {files: "*", options: *o}\n', {**PRETTIER, 'quotes': '"single"'}, [BRACES, PROSE]),
    ('.prettierrc', 'overrides:\n- files: "*.yml"\n  options: {printWidth: 90}\n', {**PRETTIER, 'max_line': '90'},
     ['overrides[0]', BRACES, PROSE]),
    ('.prettierrc', 'overrides:\n- files: a/**\n  options: {printWidth: 90}\n- files: "*.y?(a)ml"\n'
     '  excludeFiles: b.yml\n  options: {printWidth: 70}\n', PRETTIER, ['overrides[0]', 'overrides[1]', BRACES, PROSE]),
    ('.yamllint', 'extends: default\n', YAMLLINT, NOTED),
    ('.yamllint', '---\nextends: relaxed\n', {'max_line': '80', **FREE}, ['line-length', 'trailing-spaces']),
    ('.yamllint.yaml', 'rules: {}\n', FREE, OFF),
    ('.yamllint.yml', 'extends: default\nrules: {line-length: disable, truthy: disable, comments: disable}\n',
     {key: word for key, word in YAMLLINT.items() if key != 'max_line'}, ['trailing-spaces', 'line-length']),
    ('.yamllint', 'extends: default\nrules:\n  line-length: {max: 120}\n'
     '  indentation: {spaces: 4, indent-sequences: no}\n',
     {**YAMLLINT, 'max_line': '120', 'seq_indent': 'false', 'indent': '4'}, [*NOTED, 'hyphens']),
    ('.yamllint', 'extends: default\nrules:\n'
     '  line-length: {max: 120, level: warning, allow-non-breakable-words: off}\n'
     '  truthy: {allowed-values: ["on"], ignore: /a}\n', {**YAMLLINT, 'max_line': '120'},
     ['level', 'truthy: ignore', 'truthy', 'comments', 'trailing-spaces']),
    ('.yamllint', 'rules:\n  key-duplicates: enable\n  document-start: {present: false}\n  comments-indentation: {}\n'
     '  quoted-strings: {quote-type: single, required: only-when-needed}\n',
     {'quotes': '"single"', 'document_start': '"keep"', 'comments': '"next"'},
     ['document-start', 'quoted-strings', 'line-length']),
    ('.yamllint', 'rules:\n  quoted-strings: {quote-type: double}\n  key-ordering: enable\n  my-rule: enable\n'
     '  braces: {forbid: non-empty, min-spaces-inside: 1}\n  empty-lines: {max: 0}\n  hyphens: {my-option: 1}\n',
     {'quotes': '"double"', **FREE},
     ['hyphens: my-option', 'key-ordering', 'my-rule', 'braces', 'braces', 'empty-lines', 'quoted-strings', *OFF]),
    ('.yamllint', 'ignore: |\n  # made\n  /vendor/\n\n  *.[!a]ml  \n  [a\n  b\\\n  [[:digit:]]\n  []]\n  [!]\n'
     'locale: C\nyaml-files: ["*"]\n', {**FREE, 'exclude': '["/vendor/", "*.[!a]ml", "[]]"]'},
     ['locale', 'yaml-files', 'ignore', 'ignore', 'ignore', 'ignore', *OFF]),
    ('.yamllint', 'ignore: ["a \\"b\\"", c]\n', {**FREE, 'exclude': '["a \\"b\\"", "c"]'}, OFF),
    ('.yamllint', 'ignore-from-file: [.gitignore]\n', {**FREE, 'exclude': '["/made", "!/made/kept"]'}, OFF),
    ('.yamllint', 'extends: base.yaml\nrules:\n  line-length: {allow-non-breakable-words: false}\n',
     {**FREE, 'max_line': '99', 'exclude': '["x"]'}, ['key-duplicates']),
)
# Further files of each row.
BESIDE = {'.gitignore': '# made\n/made\n!/made/kept\n', 'base.yaml': 'ignore: x\nrules: {line-length: {max: 99}}\n',
          'self.yaml': 'extends: self.yaml\n', 'own.conf': 'tabWidth: 3\n', 'bad.conf': 'a: b: c\n'}

# A program that fails without reading its input.
BROKEN = 'false'
# Files, the words of a command line, the exit status, and a part of the error line or of the settings.
CALLS = (
    ({}, ['--help'], 0, 'Usage: import_settings '),
    ({}, [], 3, 'the current folder has no .prettierrc and no .yamllint'),
    ({}, ['--wrong'], 3, 'there is no option --wrong'),
    ({}, ['--as', 'eslint', 'own.conf'], 3, '--as needs prettier or yamllint'),
    ({}, ['own.conf'], 3, 'own.conf: the name shows no kind of settings'),
    ({}, ['--as=prettier', 'own.conf'], 0, 'indent = 3  # tabWidth\n'),
    ({}, ['--as', 'prettier', '--', 'own.conf'], 0, 'indent = 3  # tabWidth\n'),
    ({}, ['.prettierrc.toml'], 3, '.prettierrc.toml: the script reads only JSON and YAML'),
    ({}, ['.prettierrc'], 3, '.prettierrc: No such file or directory'),
    ({}, ['--as=yamllint', 'bad.conf'], 2, 'bad.conf: it is not YAML: 1:5 refused: syntax'),
    ({'.prettierrc': '"@a/b"'}, [], 2, '.prettierrc: it names the package "@a/b"'),
    ({'.prettierrc': '[1]'}, [], 2, '.prettierrc: it is no mapping'),
    ({'.prettierrc': 'overrides: [1]'}, [], 2, '.prettierrc: overrides[0] is not a mapping'),
    ({'.yamllint': 'rules: [a]'}, [], 2, '.yamllint: it is no mapping with rules'),
    ({'.yamllint': 'rules: {braces: 1}'}, [], 2, '.yamllint: the rule braces is not enable, disable or a mapping'),
    ({'.yamllint': 'rules: {line-length: {max: a}}'}, [], 2, '.yamllint: line-length: "a" is no value for max'),
    ({'.yamllint': 'extends: [default, self.yaml]'}, [], 2, '.yamllint: extends is a list'),
    ({'.yamllint': 'ignore: yes'}, [], 2, '.yamllint: ignore is no text and no list of texts'),
    ({'.yamllint': 'extends: self.yaml'}, [], 2, 'self.yaml: it extends itself'),
    ({'.yamllint': 'extends: none.yaml'}, [], 3, 'none.yaml: No such file or directory'),
    ({'.yamllint': 'extends: default\nignore: a', '.prettierrc.yaml': 'tabWidth: 2'}, [], 0,
     'quotes = "double"  # singleQuote (default)\nseq_indent = true  # Prettier indents sequences\n'
     'document_start = "always"  # document-start\ncomments = "next"  # comments-indentation\n'
     'exclude = ["a"]  # ignore\n'),
    ({'.yamllint': 'extends: default\nrules: {line-length: {max: 90}}', '.prettierrc': 'printWidth: 100'}, [], 0,
     '# .yamllint: line-length: max: it needs max_line = 90, but .prettierrc needs 100\n'),
    ({'.yamllint': 'extends: default\nrules: {line-length: {max: 90}}', '.prettierrc': 'printWidth: 100'},
     ['.yamllint', '.prettierrc'], 0, 'max_line = 90  # line-length: max\n'),
    ({'.prettierrc': '"\\e[2J\\u202e": 1'}, [], 0, '# .prettierrc: \\u001b[2J\\u202e: yamlfmt has no such setting\n'),
)


def broken(text):
    """The line of a run with a program that fails."""
    env = {**os.environ, 'YAMLFMT_PROGRAM': BROKEN}
    with tempfile.TemporaryDirectory() as folder:
        with open(folder + '/.prettierrc', 'w', encoding='utf-8') as file:
            file.write(text)
        done = subprocess.run([sys.executable, SCRIPT], cwd=folder, env=env, capture_output=True, text=True)
    return (done.returncode, done.stdout, done.stderr)


def run(program, files, words):
    """Runs the script in a folder with these files, and then PROGRAM with the settings that it prints."""
    with tempfile.TemporaryDirectory() as folder:
        for name, text in {**BESIDE, **files}.items():
            with open(os.path.join(folder, name), 'w', encoding='utf-8') as file:
                file.write(text)
        env = {**os.environ, 'YAMLFMT_PROGRAM': program}
        command = [sys.executable, SCRIPT, *words]
        done = subprocess.run(command, cwd=folder, env=env, capture_output=True, encoding='utf-8')
        if done.returncode or words == ['--help']:
            return done, 0
        with open(folder + '/.yamlfmt.toml', 'w', encoding='utf-8') as file:
            file.write(done.stdout)
        words = [program, 'fmt', '--config', folder + '/.yamlfmt.toml']
        return done, subprocess.run(words, input='---\n', text=True, capture_output=True).returncode


def faults_of_row(program, name, text, settings, notes):
    done, accepted = run(program, {name: text}, [])
    if done.returncode:
        return 'status %d, %s' % (done.returncode, done.stderr)
    printed = dict(re.findall(r'^(\w+) = (.*?)  # ', done.stdout, re.M))
    if printed != settings:
        return 'settings %r' % printed
    said = done.stderr.splitlines()
    if said != [line[2:] for line in done.stdout.partition('# No counterpart:\n')[2].splitlines()]:
        return 'the notes differ: %r' % said
    wanted = ['%s: %s: ' % (name, note) for note in notes]
    if len(said) != len(wanted) or not all(map(str.startswith, said, wanted)):
        return 'notes %r' % said
    return 'the program does not accept the settings' if accepted else ''


def faults_of_call(program, files, words, status, part):
    done, accepted = run(program, files, words)
    if done.returncode != status or part not in done.stdout + done.stderr:
        return 'status %d, %s%s' % (done.returncode, done.stdout, done.stderr)
    if status and (done.stdout or not re.fullmatch(r'import_settings: .+\n', done.stderr)):
        return 'not one line: %r %r' % (done.stdout, done.stderr)
    return 'the program does not accept the settings' if accepted else ''


def main():
    if len(sys.argv) != 2 or sys.argv[1].startswith('-'):
        sys.exit(__doc__)
    program, failed = os.path.abspath(sys.argv[1]), 0
    # A text that is longer than a pipe holds.
    said = broken('# a comment\n' * 9999)
    if said != (3, '', 'import_settings: yamlfmt fails with status 1\n'):
        print('a program that fails: %r' % (said,))
        failed += 1
    for test, rows in ((faults_of_row, ROWS), (faults_of_call, CALLS)):
        for row in rows:
            fault = test(program, *row)
            if fault:
                print('%r: %s' % (row[:2], fault))
                failed += 1
    print('%d rows, %d failed' % (len(ROWS) + len(CALLS) + 1, failed))
    return 1 if failed else 0


if __name__ == '__main__':
    sys.exit(main())
