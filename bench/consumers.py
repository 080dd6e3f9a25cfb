#!/usr/bin/env python3
"""Reads the reports of `check --format` and `fmt --check --format` with other programs, and compares them.

Usage: bench/consumers.py PROGRAM [FILE..]

It needs the Debian packages python3-jsonschema, libxml2-utils and jq. The texts are those of bench/fixes.py, texts with
refusals and texts that are no data, under names with signs that formats escape, and these files. Each text gets a
report in each format, and all texts together get one.

- `json` must meet docs/formats/findings.schema.json, and `sarif` bench/sarif.schema.json.
- jq must read the three formats that are JSON, and xmllint those that are XML.
- `github` is read as GitHub's runner reads workflow commands, and `gitlab` by the properties that GitLab requires.
- Each report must have the problems of the report in `json`, with their names, positions, rules and messages, and be
  empty if that is.

Each fault is printed, and then the status is 1. Run it by hand; it is not part of rt ci.
"""
import json
import os
import subprocess
import sys
import tempfile
import urllib.parse
import xml.etree.ElementTree

import jsonschema

import fixes

TOP = os.path.dirname(os.path.dirname(os.path.abspath(__file__)))
MORE = (b'a: *x\n', b'a: "\\uD800"\n', b'\xff', b'a: [', b'---\na: {{ x }}\n', b'a\nb\nc\n', b'---\na: 1\nb: 2\na: 3\n',
        b'---\na: b\n', b'---\n{a: b, a: c, a: d}\n', b'---\na: %s\n' % (b'x' * 120), b'---\n? a\n: b\n',
        b'a: b\n---\na:   [1,2]\nb: {c:  d}\n', b'---\na: "x"\na: y\n"a": z\n')
NAMES = ('a%41:b,c=d.yaml', 'a b&<>"\'.yaml', '::error file=x::y.yaml', '\u20ac\U0001f600.yaml', 'a]]>%0A%2C.yaml')


def schema(name):
    with open(os.path.join(TOP, name), encoding='utf-8') as file:
        return jsonschema.Draft202012Validator(json.load(file))


FINDINGS, SARIF = schema('docs/formats/findings.schema.json'), schema('bench/sarif.schema.json')


def report(program, command, name, paths):
    return subprocess.run([program, *command, '--no-config', '--format', name, *paths], stdout=subprocess.PIPE,
                          stderr=subprocess.DEVNULL, check=False).stdout


def is_read_by(words, data):
    return subprocess.run(words, input=data, stdout=subprocess.DEVNULL, check=False).returncode == 0


def unescaped(text, signs):
    for sign in signs:
        text = text.replace('%%%02X' % ord(sign), sign)
    return text.replace('%25', '%')


def github(data):
    """The commands of a log, as the runner of GitHub reads its lines (ActionCommand.TryParseV2)."""
    for line in data.decode().split('\n')[:-1]:
        if not line.startswith('::') or '::' not in line[2:]:
            yield 'no command', line
            continue
        head, message = line[2:].split('::', 1)
        command, values = head.split(' ', 1)
        properties = dict(pair.split('=', 1) for pair in values.split(',') if '=' in pair)
        properties = {key: unescaped(value, '\r\n:,') for key, value in properties.items()}
        yield (command, properties.get('file'), int(properties['line']), properties['title'],
               unescaped(message, '\r\n'))


def from_github(wanted, data):
    ordered = [p for p in wanted if p['severity'] == 'error'] + [p for p in wanted if p['severity'] == 'warning']
    return list(github(data)) == [(p['severity'], p['file'], p['line'], p['rule'], p['message']) for p in ordered]


def region_of(place):
    return tuple(place[key] for key in ('startLine', 'startColumn', 'endLine', 'endColumn'))


def range_of(problem):
    return tuple(problem[key] for key in ('line', 'column', 'end_line', 'end_column'))


def from_sarif(wanted, data):
    log = json.loads(data)
    if list(SARIF.iter_errors(log)):
        return False
    read = []
    for result in log['runs'][0]['results']:
        place = result['locations'][0]['physicalLocation']
        name = urllib.parse.unquote(place['artifactLocation']['uri'])
        related = [(region_of(other['physicalLocation']['region']), other['message']['text'])
                   for other in result.get('relatedLocations', [])]
        read.append((name, region_of(place['region']), result['ruleId'], result['level'], result['message']['text'],
                     result['properties']['fixable'], related))
    return read == [(p['file'] or 'stdin', range_of(p), p['rule'], p['severity'], p['message'], p['fixable'],
                     [(range_of(other), other['message']) for other in [p['related']]] if 'related' in p else [])
                    for p in wanted]


def from_gitlab(wanted, data):
    read = json.loads(data)
    if len({p['fingerprint'] for p in read}) != len(read):
        return False
    severity = {'error': 'major', 'warning': 'minor'}
    return [(p['location']['path'], p['location']['positions']['begin'], p['check_name'], p['severity'],
             p['description']) for p in read] == [
                 (p['file'] or 'stdin', {'line': p['line'], 'column': p['column']}, p['rule'], severity[p['severity']],
                  p['message']) for p in wanted]


def from_checkstyle(wanted, data):
    root = xml.etree.ElementTree.fromstring(data)
    read = [(file.get('name'), int(error.get('line')), int(error.get('column')), error.get('source'),
             error.get('severity'), error.get('message')) for file in root for error in file]
    return root.tag == 'checkstyle' and read == [
        (p['file'] or 'stdin', p['line'], p['column'], p['rule'], p['severity'], p['message']) for p in wanted]


def from_junit(wanted, data):
    root = xml.etree.ElementTree.fromstring(data)
    cases, suite = list(root.iter('testcase')), root[0]
    errors = sum(p['severity'] == 'error' for p in wanted)
    if [int(suite.get(key)) for key in ('tests', 'failures', 'errors')] != [len(cases), len(cases) - errors, errors]:
        return False
    tags = {'error': 'error', 'warning': 'failure'}
    read = [(case.get('classname'), int(case.get('line')), int(case.get('column')), case.get('name'), case[0].tag,
             case[0].get('message')) for case in cases]
    return read == [(p['file'] or 'stdin', p['line'], p['column'], p['rule'], tags[p['severity']], p['message'])
                    for p in wanted]


FORMATS = {'sarif': from_sarif, 'gitlab': from_gitlab, 'checkstyle': from_checkstyle, 'junit': from_junit,
           'github': from_github}


def faults_of(program, command, paths):
    """What is wrong with the reports on these files."""
    data = report(program, command, 'json', paths)
    wanted = json.loads(data)
    for error in FINDINGS.iter_errors(wanted):
        yield 'json: %s' % error.message
    if not is_read_by(['jq', '-e', '. | type == "array"'], data):
        yield 'json: jq'
    for name, is_same in FORMATS.items():
        data = report(program, command, name, paths)
        if not is_same(wanted, data):
            yield '%s: other problems' % name
        if name in ('sarif', 'gitlab') and not is_read_by(['jq', '-e', '.'], data):
            yield '%s: jq' % name
        if name in ('checkstyle', 'junit') and not is_read_by(['xmllint', '--noout', '-'], data):
            yield '%s: xmllint' % name


def main():
    program, files = os.path.abspath(sys.argv[1]), [os.path.abspath(name) for name in sys.argv[2:]]
    faults, count = 0, 0
    with tempfile.TemporaryDirectory() as folder:
        os.chdir(folder)
        paths = list(files)
        for number, text in enumerate([*fixes.texts(), *MORE]):
            paths.append('%d-%s' % (number, NAMES[number % len(NAMES)]))
            with open(paths[-1], 'wb') as file:
                file.write(text)
        for command in (['check'], ['fmt', '--check']):
            for group in [[path] for path in paths] + [paths]:
                count += 1
                for fault in faults_of(program, command, group):
                    faults += 1
                    print('%s %s: %s' % (' '.join(command), ' '.join(group)[:60], fault))
    print('%d times six reports, %d faults' % (count, faults))
    sys.exit(1 if faults else 0)


if __name__ == '__main__':
    main()
