#!/usr/bin/env python3
"""Makes docs/RULES.md from the pages of crates/yf_rule_pages, and tries their examples.

Usage: bench/rules.py --write | --check | --try PROGRAM

--write writes the page. --check fails if it is stale, or if the names of the pages are not those of the rules, of the
refusals, of texts that are not formatted and of the texts that the program skips. --try runs PROGRAM on the examples:
`check` must report the rule for each text under "Wrong" and nothing for the text under "Right", and `fmt` must turn the
one into the other if the page says that it fixes it. `explain` must print each page and the list. In examples <space>,
<CR LF>, <end of the file> and <U+HHHH> stand for characters.
"""
import os
import re
import subprocess
import sys

TOP = os.path.dirname(os.path.dirname(os.path.abspath(__file__)))
PAGE = 'docs/RULES.md'
HEAD = '''# Rules

Each rule of `check`: what is at fault, why, and an example. `yamlfmt explain` prints them too.
[STYLE](STYLE.md#rules) has the exact sets. Made by `bench/rules.py --write` from `crates/yf_rule_pages`.
'''


# A string of a source, without its quotes.
STRING = r'"((?:[^"\\]|\\.)*)"'
PAGE_ITEM = r'Page = Page \{\s*name: %s,\s*summary: %s,\s*text: (.*?),\n\};\n' % (STRING, STRING)


def read(name):
    with open(os.path.join(TOP, 'crates', name), encoding='utf-8') as file:
        return file.read()


def unescaped(string):
    return re.sub(r'\\(.)', lambda match: '\n' if match[1] == 'n' else match[1], string)


def pages(name):
    """The pages of a file, as triples of a name, a summary and the text of the page."""
    for item in re.findall(PAGE_ITEM, read('yf_rule_pages/src/' + name), re.S):
        summary, rest = unescaped(item[1]), unescaped(''.join(re.findall(STRING, item[2])))
        yield item[0], summary, '# %s\n\n%s\n\n%s' % (item[0], summary, rest)


def all_pages():
    return [*pages('rules.rt'), *pages('refusals.rt')]


def known_names():
    """The names of the rules, of the refusals, of texts that are not formatted, and of those that the program skips."""
    rules = read('yf_rules/src/asked.rt').split('RULE_NAMES: [&str;', 1)[1].split('];', 1)[0]
    refusals = re.findall(r'Fault::\w+(?: \{ \.\. \})? => "([a-z0-9-]+)",', read('yf_findings/src/refusals.rt'))
    compared = re.findall(r'rule: "([a-z-]+)",', read('yf_findings/src/differences.rt'))
    skipped = re.findall(r'id: "([a-z-]+)",', read('yf_guarded/src/findings.rt'))
    return [*re.findall(STRING, rules), *refusals, *compared, *skipped, 'encrypted']


def page():
    return HEAD + ''.join('\n#' + text for _, _, text in pages('rules.rt'))


def example(text, title):
    """The bytes of the example under a title."""
    lines = text.split(title + ':\n\n', 1)[1].split('\n')
    block = []
    for line in lines:
        if line and not line.startswith('    '):
            break
        block.append(line[4:])
    while block and not block[-1]:
        block.pop()
    shown = '\n'.join(block) + '\n'
    shown = shown.replace('<space>', ' ').replace('<CR LF>', '\r').replace('<end of the file>\n', '')
    return re.sub(r'<U\+([0-9A-F]+)>', lambda match: chr(int(match[1], 16)), shown).encode()


def run(program, words, text):
    done = subprocess.run([program, *words], input=text, stdout=subprocess.PIPE, stderr=subprocess.PIPE, cwd='/')
    return done.stdout


def tried(program):
    """What is wrong with the examples."""
    config = os.path.join(os.environ.get('TMPDIR', '/tmp'), 'yamlfmt-rules-%d.toml' % os.getpid())
    with open(config, 'w', encoding='utf-8') as file:
        file.write('invisible = "escaped"\n')
    for name, _, text in pages('rules.rt'):
        wrong, right = example(text, 'Wrong'), example(text, 'Right')
        words = ['--config', config] if name == 'hidden-character' else []
        if name.encode() not in run(program, ['check', *words], wrong):
            yield f'{name}: check does not report it'
        if run(program, ['check', *words], right):
            yield f'{name}: check reports something in the right text'
        if 'fmt` fixes it' in text and run(program, ['fmt', *words], wrong) != right:
            yield f'{name}: fmt does not give the right text'
    os.remove(config)
    for name, _, text in all_pages():
        if run(program, ['explain', name], b'') != text.encode():
            yield f'{name}: explain does not print the page'
    if run(program, ['explain'], b'') != ''.join('%s: %s\n' % row[:2] for row in all_pages()).encode():
        yield 'explain does not print the list'


def main():
    words = sys.argv[1:]
    if words == ['--write']:
        with open(os.path.join(TOP, PAGE), 'w', encoding='utf-8') as file:
            file.write(page())
    elif words == ['--check']:
        with open(os.path.join(TOP, PAGE), encoding='utf-8') as file:
            if file.read() != page():
                sys.exit(f'{PAGE} is stale: run bench/rules.py --write')
        names = [name for name, _, _ in all_pages()]
        if sorted(names) != sorted(known_names()):
            sys.exit('pages and names differ: %s' % ' '.join(sorted(set(names) ^ set(known_names()))))
    elif len(words) == 2 and words[0] == '--try':
        wrong = list(tried(words[1]))
        print('\n'.join(wrong) or '%d pages: the examples are as they say' % len(all_pages()))
        sys.exit(bool(wrong))
    else:
        sys.exit(__doc__)


if __name__ == '__main__':
    main()
