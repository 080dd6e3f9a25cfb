#!/usr/bin/env python3
"""Checks the pages against the repository, and counts words.

Usage: bench/pages.py [--check]

It finds, in all pages except those that a script makes:
- links to files or headings that don't exist;
- names in backticks that look like a file or an item of the code, and don't occur in the repository;
- numbers of rules, fixable rules and crates, and sums of productions, that differ from the code;
- lists of settings that differ from the program's, and options of the program that README.md doesn't name.

It prints a line for each, then the number of words, and how often the pages use some words, per 10,000 words, beside
the figures for Debian's Rust crates (a guide, not a rule). With --check it fails if it has found something.
"""
import glob
import os
import re
import signal
import sys

TOP = os.path.dirname(os.path.dirname(os.path.abspath(__file__)))
MADE = ('docs/STANDARD.md', 'docs/PROVED_TABLES.md')
FILE = re.compile(r'[\w.*{}-]+(/[\w.*{},-]+)+/?|[\w*-]+\.(rt|antt|py|md|txt|edit)')
ITEM = re.compile(r'[A-Za-z]\w*(::\w+)*')
# In names, a part in capitals means any word: ID_mended, vVERSION.
EXAMPLE = re.compile(r'\b[A-Z]+_|_[A-Z]+\b|_$|vV')
# Names of examples, of other programs and of the standard library.
FOREIGN = set('''my_rule my_rule_at my_setting_of my_setting_at MyRule AllocError from_residual
    Default_Ignorable_Code_Point RT_JOBS O_CREAT O_EXCL PIP_FIND_LINKS same_Some or_parts
    or_cases yf_name didChange didSave previousResultId'''.split())
UNITS = ('zero one two three four five six seven eight nine ten eleven twelve thirteen fourteen fifteen sixteen '
         'seventeen eighteen nineteen').split()
TENS = '_ _ twenty thirty forty fifty sixty seventy eighty ninety'.split()
# A word or phrase, and how often Debian's Rust crates use it, per 10,000 words.
RATES = (('tell|tells|told', 0.2), ('alone', 0.1), ('what is|what are', 0.2), ('whose', 0.5),
         ('of which|by which|in which', 1.4), ('where', 10), ('when|if', 25), ('returns?', 57), ('for example', 7.6),
         ('should', 14))


def read(path):
    with open(os.path.join(TOP, path), encoding='utf-8') as file:
        return file.read()


def pages():
    """All pages, from the top."""
    found = [*glob.glob(TOP + '/*.md'), *glob.glob(TOP + '/docs/**/*.md', recursive=True)]
    found += [*glob.glob(TOP + '/.github/*.md'), *glob.glob(TOP + '/.gitlab/**/*.md', recursive=True)]
    return sorted(os.path.relpath(path, TOP) for path in found)


def prose(text):
    """A page with empty lines instead of its blocks of code."""
    text = re.sub(r'^```.*?^```', lambda block: '\n' * block[0].count('\n'), text, flags=re.M | re.S)
    return re.sub(r'^( {4,})(?![-*\d]).*', '', text, flags=re.M)


def slugs(text):
    """The anchors of a page's headings, as GitHub and GitLab make them."""
    found = set()
    for heading in re.findall(r'^#+ (.*)', re.sub(r'^```.*?^```', '', text, flags=re.M | re.S), re.M):
        words = re.sub(r'\[([^]]*)\]\([^)]*\)', r'\1', heading).replace('`', '').lower()
        found.add(re.sub(r'[^\w -]', '', words).replace(' ', '-'))
    return found


def links(page, text):
    """The links of a page that lead nowhere."""
    for target in re.findall(r'\]\(([^)\s]+)\)', prose(text)):
        if re.match(r'\w+:', target):
            continue
        path, _, anchor = target.partition('#')
        goal = os.path.normpath(os.path.join(os.path.dirname(page), path)) if path else page
        if not os.path.exists(os.path.join(TOP, goal)):
            yield 'no file for the link %s' % target
        elif anchor and anchor not in slugs(read(goal)):
            yield 'no heading for the link %s' % target


def words_of_code():
    """All words of the code, the definitions, the proofs and the scripts."""
    kinds = ('crates/**/*.rt', 'crates/**/*.antt', 'crates/**/*.edit', 'bench/*', 'contrib/*', 'dist/*', 'hooks/*',
             'crates.txt', 'docs/proving/*.txt')
    found = set()
    for kind in kinds:
        for path in glob.glob('%s/%s' % (TOP, kind), recursive=True):
            if os.path.isfile(path) and '/out/' not in path and not path.endswith('/pages.py'):
                found.update(re.findall(r'[A-Za-z_]\w*', read(path)))
    return found


def is_there(name):
    """Whether the repository has the file or folder: from the top, in a crate, or at the end of a path."""
    places = (name, 'crates/*/' + name, 'crates/**/' + name, 'docs/**/' + name, 'bench/' + name)
    return any(glob.glob('%s/%s' % (TOP, place), recursive=True) for place in places)


def names(text, words):
    """The names in backticks that do not occur in the repository."""
    for name in dict.fromkeys(re.findall(r'(?<!`)`([^`\n]+)`(?!`)', prose(text))):
        if FILE.fullmatch(name) and not re.search(r'\b[A-Z]{1,6}\b(?!\.md)|^\d|^/|^\.\.?/', name):
            known = re.match(r'(crates|docs|bench|contrib|dist|hooks|specs|proofs|src|must-fail|\w+\.(rt|antt|py))\b', name)
            is_example = name.rstrip('/').endswith('/out') or name.split('/')[-1].split('.')[0] in FOREIGN
            if known and not is_example and not is_there(name.rstrip('/')):
                yield 'no file `%s`' % name
        elif ITEM.fullmatch(name) and re.search(r'_|[a-z][A-Z]|::', name) and not EXAMPLE.search(name):
            lost = [part for part in name.split('::') if part not in words and part not in FOREIGN]
            if lost:
                yield 'no item `%s`' % name


def in_words(number):
    """A number in words, below a hundred."""
    if number < 20:
        return UNITS[number]
    return TENS[number // 10] + ('-' + UNITS[number % 10] if number % 10 else '') if number < 100 else str(number)


def rules(kind):
    """The number of rules, or of `fixable` ones."""
    tables = [read(path) for path in glob.glob(TOP + '/crates/*/src/rules.rt')]
    return max(len(re.findall(r'=> About::%s\(' % kind, table)) for table in tables)


def built():
    """The number of crates of the program."""
    below = {}
    for line in read('crates.txt').splitlines():
        head, _, uses = line.partition('#')[0].partition(':')
        if head.strip():
            below[head.split()[0]] = uses.split()
    found = ['yamlfmt']
    for name in found:
        found += [one for one in below[name] if one in below and one not in found]
    return len(found)


def numbers(text):
    """The numbers that differ from the code."""
    every, fixable, crates = rules(r'(?:un)?fixable'), rules('fixable'), built()
    pairs = ((r'(?:definitions of the|all) (\w+) rules\b', every), (r'[Tt]he (\w+) (?:style )?rules\b', every),
             (r'the (\w+) fixable rules', fixable), (r'proves ([\w-]+) crates', crates), (r'\b(\d+) productions', 211))
    flat = re.sub(r'\s+', ' ', prose(text))
    for pattern, number in pairs:
        for said in re.findall(pattern, flat):
            is_number = said.isdigit() or said in UNITS or said.split('-')[0] in TENS[2:]
            if is_number and said not in (in_words(number), str(number)):
                yield 'the number %s, for %s' % (said, in_words(number))


def settings(file, key):
    """The keys of the settings in a file of yf_settings that has the key, from its constants."""
    for path in glob.glob(TOP + '/crates/*/src/%s.rt' % file):
        found = re.findall(r'const [A-Z_]+: &str = "(\w+)";', read(path))
        if key in found:
            return sorted(found)
    return []


def options():
    """The options of the command line, from the constants of the file that declares them."""
    for path in glob.glob(TOP + '/crates/*/src/options.rt'):
        found = re.findall(r'const ([A-Z_]+): &str = "([a-z-]+)";', read(path))
        names = [word for _, word in found if word not in ('events', 'check', 'fmt', 'server', 'yamlfmt', 'file')]
        if 'write' in names:
            return sorted({'--' + word for word in names} | {'--check'})
    return []


def lists():
    """The differences of a page's list of settings or options from the program's."""
    keys = settings('settings', 'indent')
    every = sorted(keys + settings('texts', 'exclude'))
    places = (('README.md', r'^    (\w+) = ', keys), ('dist/yamlfmt.1.in', r'^(\w+) = ', keys),
              ('docs/STYLE.md', r'^\| `(\w+)` \| .* \| .* \| .* \|$', every))
    for page, pattern, wanted in places:
        if sorted(re.findall(pattern, read(page), re.M)) != wanted:
            yield page, 'its settings are not %s' % ' '.join(wanted)
    own = options()
    if not keys or not own:
        yield 'bench/pages.py', 'finds no settings or options in the code'
    for option in own:
        if option not in read('README.md'):
            yield 'README.md', 'no word of %s' % option


def main():
    task = sys.argv[1] if len(sys.argv) > 1 else ''
    if len(sys.argv) > 2 or task not in ('', '--check'):
        sys.exit(__doc__)
    # If the reader of the output leaves, end without a traceback.
    signal.signal(signal.SIGPIPE, signal.SIG_DFL)
    words, bad, total, letters, everything = words_of_code(), 0, 0, 0, ''
    faults = [*lists()]
    for page in pages():
        text = read(page)
        total += 0 if page.startswith('.') else len(text.split())
        letters += 0 if page.startswith('.') else sum(bool(re.search(r'\w', word)) for word in text.split())
        if page in MADE:
            continue
        everything += prose(text) + '\n'
        found = [*links(page, text), *numbers(text)]
        # CHANGELOG has old names.
        found += [] if page == 'CHANGELOG.md' else [*names(text, words)]
        faults += [(page, fault) for fault in found]
    for page, fault in faults:
        print('%s: %s' % (page, fault))
        bad += 1
    count = len(re.findall(r'\w+', everything))
    print('%d words in all pages, %d of them with a letter or a digit' % (total, letters))
    print('per 10,000 words (beside Debian\'s Rust crates):')
    for pattern, usual in RATES:
        uses = len(re.findall(r'\b(?:%s)\b' % pattern, everything, re.I))
        print('  %s %.1f (%s)' % (pattern, uses * 10000 / count, usual))
    return 1 if bad and task == '--check' else 0


if __name__ == '__main__':
    sys.exit(main())
