#!/usr/bin/env python3
"""Runs yamlfmt on texts that are made to be slow or to need memory, and fails if one does.

Usage: bench/hostile.py [--program PROGRAM] [--list] [NAME..]

PROGRAM is by default the one that ./yamlfmt builds; build it first. With NAMEs, only those shapes. Run it by hand; it
is not part of rt ci. docs/HOSTILE.md has the results. Each shape makes texts of any size. The script times each
command, `check --explain`, and `fmt` with `comments = "block"` (in processor seconds) at one size, twice and four times
that size. It is a fault if

- the time grows more than 2.5-fold twice in a row;
- a run needs more bytes of memory per input byte than LIMIT allows (more for shapes that `fmt` makes much longer);
- a run takes more than two minutes;
- a run ends with a signal, or with another status than 0, 1 and 2.
"""
import os
import subprocess
import sys
import tempfile
import time

TOP = os.path.dirname(os.path.dirname(os.path.abspath(__file__)))

# `explain` is `check --explain`: all explanations of refusals and findings. `block` is `fmt` with `comments = "block"`.
VERBS = ('events', 'check', 'explain', 'fmt', 'block')

# Bytes of memory per byte of input. `lines` is `fmt --lines`, only for the shapes in LINES.
LIMIT = {'events': 150, 'check': 250, 'explain': 1000, 'fmt': 1000, 'block': 1000, 'lines': 1000}

# The shapes that are made for `fmt --lines`, with the lines that are asked for.
LINES = {}

# The shapes for which `fmt` writes much more than it reads, with the bytes that it writes per byte of input. It holds all
# of them before it writes the first, and twice as many while their buffer grows. It may use that memory beside LIMIT.
WRITTEN = {}

RATIO = 2.5

# Runs whose output grows with the square of the input (docs/HOSTILE.md, "What is not promised"): their time may, too.
QUADRATIC = {('tag-prefix-long', 'events')}

# Each shape by its name: a function from a number of bytes to a text of about that size.
SHAPES = {}


def shape(name, make, written=0):
    assert name not in SHAPES, name
    SHAPES[name] = make
    if written:
        WRITTEN[name] = written


def lines_shape(name, make, lines):
    """A shape for `fmt --lines`."""
    shape(name, make)
    LINES[name] = lines


def limit(name, verb):
    """Bytes of memory per byte of input."""
    return LIMIT[verb] + (2 * WRITTEN.get(name, 0) if verb in ('fmt', 'block') else 0)


def repeated(name, part, front='', end=''):
    """Repetitions of the part."""
    shape(name, lambda n: front + part * (max(1, n // len(part.encode()))) + end)


def numbered(name, part, front='', end=''):
    """Repetitions of a part that contains an increasing number."""
    width = len(part % 1000000)

    def make(n):
        return front + ''.join(part % (1000000 + i) for i in range(max(1, n // width))) + end

    shape(name, make)


def documents(name, body):
    """Repetitions of a document."""
    repeated(name, body + '\n---\n')


INDICATORS = {
    'dash': '-', 'question': '?', 'colon': ':', 'comma': ',', 'open-bracket': '[', 'close-bracket': ']', 'open-brace': '{',
    'close-brace': '}', 'hash': '#', 'ampersand': '&', 'star': '*', 'bang': '!', 'bar': '|', 'greater': '>', 'quote': "'",
    'double-quote': '"', 'percent': '%', 'at': '@', 'backtick': '`', 'dot': '.', 'tilde': '~',
}
for word, sign in INDICATORS.items():
    repeated('run-of-' + word, sign)
    repeated('spaced-' + word, sign + ' ')
    repeated('lines-of-' + word, sign + '\n')
    repeated('keys-with-' + word, 'k: ' + sign + '\n')
    repeated('indented-' + word, '  ' + sign + ' a\n', 'k:\n')

# Deep nesting, below the limit of 1,024 open collections and at it.
documents('deep-flow-sequences', '[' * 1000 + ']' * 1000)
documents('deep-flow-mappings', '{a: ' * 1000 + '}' * 1000)
documents('deep-flow-keys', '{? ' * 1000 + '}' * 1000)
documents('deep-single-pairs', '[a: ' * 500 + ']' * 500)
documents('deep-flow-both', '[{a: ' * 500 + '}]' * 500)
documents('deep-flow-open', '[' * 1000)
documents('deep-dashes', '- ' * 1000 + 'a')
documents('deep-questions', '? ' * 1000 + 'a')
documents('deep-questions-empty', '? ' * 1000)
documents('deep-colons', ': ' * 1000 + 'a')
documents('deep-compact-both', '- ? ' * 500 + 'a')
documents('deep-lines-of-dashes', '\n'.join(' ' * i + '-' for i in range(500)))
documents('deep-lines-of-keys', '\n'.join(' ' * i + 'k:' for i in range(500)))
documents('deep-lines-of-questions', '\n'.join(' ' * i + '?' for i in range(500)))
documents('deep-lines-both', '\n'.join(' ' * i + ('- ' if i % 2 else '? ') + 'k:' for i in range(400)))
documents('deep-properties', '\n'.join(' ' * i + '- &a !b' for i in range(300)))
documents('deep-flow-in-block', '- ' * 500 + '[' * 500 + ']' * 500)
documents('deep-refused', '[' * 1025)
documents('deeper-lines-of-dashes', '\n'.join(' ' * i + '-' for i in range(1030)))
documents('deeper-lines-of-keys', '\n'.join(' ' * i + 'k:' for i in range(1030)))
documents('deeper-lines-of-questions', '\n'.join(' ' * i + '?' for i in range(1030)))
repeated('deeper-lines-after-documents', '- a\n---\n', end='\n'.join(' ' * i + 'k:' for i in range(1030)))
repeated('deeper-flow-after-entries', '- a\n', end='- ' + '[' * 1030)
repeated('deeper-flow-after-one-entry', '[', 'a: 1\nb: ')
documents('deep-quoted-keys', '{"a": ' * 1000 + '}' * 1000)
repeated('wide-flow-sequences', '[], ', '[', ']')
repeated('wide-flow-pairs', 'a: b, ', '{', '}')
repeated('wide-single-pairs', 'a: b, ', '[', ']')
repeated('wide-nested-flow', '[a, {b: c}], ', '[', ']')
repeated('wide-flow-lines', 'a,\n ', '[', ']')
repeated('wide-flow-comments', 'a, # c\n ', '[', ']')
repeated('wide-flow-empties', ', ', '{a', '}')
repeated('flow-never-closed', '[a, ')
repeated('flow-mapping-never-closed', '{a: b, ')
repeated('flow-lines-never-closed', '- [a\n')

# Short lines that `fmt` indents to the column of the deepest entry.
shape('deep-comments', lambda n: '- ' * 1000 + 'a\n' + '#\n' * max(1, n // 2 - 2000) + ' ' * 1998 + '- b\n', 1000)
# comments at 1,000 columns, falling and rising, each in its own block
shape('deep-comments-in-blocks', lambda n: '- ' * 1000 + 'a\n' + ''.join(' ' * (2 * abs(999 - k % 1998)) + '#\n'
                                                                                for k in range(max(1, n // 1000 - 4))), 1000)
# with `comments = "block"`, each comment is compared with all open collections
shape('deep-comments-at-margin', lambda n: '- ' * 1000 + 'a\n' + '#\n' * max(1, n // 2 - 1000) + '- b\n')
shape('deep-wide-flow-comment', lambda n: '[' * 1000 + 'a,' * max(1, n // 2 - 1000) + ' #\n' + ']' * 1000 + '\n', 1001)

# Block scalars.
repeated('literal-without-content', 'k: |\n')
repeated('folded-without-content', '- >\n')
repeated('digit-without-content', 'k: |9\n')
repeated('keep-without-content', 'k: |+\n\n')
repeated('documents-of-literals', '--- |\n')
repeated('short-literals', '- |\n  a\n')
repeated('short-folded', '- >\n  a\n  b\n')
repeated('literal-lines', '  a\n', 'k: |\n')
repeated('literal-blank-lines', '\n', 'k: |\n', '  a\n')
repeated('literal-kept-tail', '\n', 'k: |+\n  a\n')
repeated('literal-spaces', '  \n', 'k: |\n', '  a\n')
repeated('literal-long-line', 'a', 'k: |\n  ')
repeated('literal-marks', '  \ufeff\n', 'k: |\n')
repeated('folded-lines', '  a\n', 'k: >\n')
repeated('folded-more-indented', '  a\n   b\n', 'k: >\n')
repeated('folded-blank-lines', '  a\n\n', 'k: >\n')
repeated('folded-tabs', '  \ta\n', 'k: >\n')
repeated('literal-comments', '- | # c\n')
repeated('literal-then-comments', '# c\n', '- |\n  a\n')
shape('literal-ascending', lambda n: 'k: |\n' + '\n'.join(' ' * (1 + i % 1000) + 'a' for i in range(max(2, n // 500))))

# Comments.
repeated('comments', '# c\n')
repeated('comments-after-items', '- a # c\n')
repeated('comments-between-keys', 'k: v\n\n# c\n')
repeated('comments-indented', '        # c\n', '- a\n')
repeated('comments-after-keys', 'k: # c\n  v\n')
repeated('comments-in-properties', '- &a # c\n  !b # c\n  x\n')
repeated('comments-at-end', '# c\n', 'k:\n  - a\n')
repeated('comment-long', 'c', '# ')
repeated('comment-of-hashes', '# ', '# ')

# Documents and directives.
repeated('documents-empty', '---\n')
repeated('documents-short', '--- a\n')
repeated('documents-ends', '...\n')
repeated('documents-both', '---\n...\n')
repeated('documents-versions', '%YAML 1.2\n---\n...\n')
repeated('documents-tags', '%TAG !e! tag:e,2000:\n---\n!e!a b\n...\n')
repeated('documents-comments', '--- # c\n')
repeated('directives-reserved', '%FOO a b\n', '', '---\na\n')
repeated('directives-words', 'a ', '%FOO ', '\n---\na\n')
repeated('directives-repeated', '%TAG ! tag:a\n', '', '---\na\n')
numbered('directives-handles', '%%TAG !e%d! tag:a\n', '', '---\n!e1000000!a b\n')
numbered('directives-handles-used', '%%TAG !e%d! tag:a\n', '', '---\n' + '- !e1000000!a b\n' * 1000)
repeated('directive-never-ends', '%FOO a\n')
repeated('markers-in-scalars', ' ---\n', 'a\n')

# Keys.
numbered('keys', 'k%d: v\n')
repeated('keys-repeated', 'k: v\n')
numbered('keys-flow', 'k%d: v, ', '{', '}')
shape('keys-flow-repeated-late', lambda n: '{x: "' + 'a' * (n // 2) + '", ' + 'k: v, ' * (n // 12) + '}')
numbered('keys-explicit', '? k%d\n: v\n')
numbered('keys-explicit-then-flow', '? k%d\n: v\n', '', '? [a]\n: v\n')
numbered('keys-explicit-tagged', '? !t k%d\n: !u v\n')
numbered('keys-quoted', '"k%d": v\n')
numbered('keys-tagged', '!t k%d: v\n')
numbered('keys-nested', 'k%d:\n  a: b\n')
repeated('keys-empty', ': a\n')
repeated('keys-only', 'k:\n')
repeated('keys-of-flow', '[a, b]: c\n')
repeated('keys-of-aliases', '*a : b\n', 'x: &a y\n')
repeated('keys-long', 'k' * 1000 + ': v\n')
repeated('keys-too-long', 'k' * 1100 + ': v\n')
repeated('keys-never', 'k' * 1000 + '\n')
repeated('keys-flow-too-long', 'k' * 1100 + ': v, ', '{', '}')
repeated('keys-flow-never', '"k", ' , '[', ']')
repeated('keys-quoted-long', '"' + 'k' * 1000 + '": v\n')
repeated('key-one-line', 'a: b: c ')
repeated('key-spaces', ' ', 'a', ': b\n')
repeated('key-then-blanks', '\n', 'k:', '  v\n')

# Anchors, aliases, tags.
numbered('anchors', '- &a%d x\n')
repeated('anchors-alike', '- &a x\n')
repeated('aliases', '- *a\n', '- &a x\n')
# Names with the hash 0: bytes 16 to 23 are the hasher's state after the first 16 bytes, by which it multiplies.
numbered('anchors-colliding', '- &q1I6QTW0fzGxZTUhx7og5Gtv0%d x\n')
numbered('aliases-colliding', '- &q1I6QTW0fzGxZTUhx7og5Gtv0%d x\n- *q1I6QTW0fzGxZTUhx7og5Gtv01000000\n')
numbered('handles-colliding', '%%TAG !tnGvUoGllC2pb8vswSWGlOO%d! tag:a\n', '', '---\na\n')
numbered('aliases-own', '- &a%d x\n- *a1000000\n')
repeated('aliases-unknown', '- *a\n')
repeated('alias-long', 'a', '- &b x\n- *')
repeated('anchor-long', 'a', '- &', ' x\n')
repeated('anchors-on-empties', '- &a\n')
repeated('anchors-on-keys', '&a k: &b v\n')
repeated('tags', '- !a x\n')
repeated('tags-of-schemas', '- !!str x\n')
repeated('tags-verbatim', '- !<tag:e.com,2000:t> x\n')
repeated('tags-alone', '- !\n')
repeated('tags-unknown', '- !e!a x\n')
repeated('tag-long', 'a', '- !', ' x\n')
repeated('tag-percent', '%41', '- !', ' x\n')
repeated('tag-percent-bad', '%FF', '- !', ' x\n')
shape('tag-prefix-long', lambda n: '%TAG !e! tag:' + 'x' * (n // 2) + '\n---\n' + '- !e!a\n' * (n // 14))
repeated('properties-only', '&a !b ')

# Marks, breaks, white space.
repeated('marks', '\ufeff')
repeated('marks-then-text', '\ufeff', '', 'a\n')
repeated('marks-on-lines', '\ufeff\n')
repeated('marks-on-documents', '\ufeff---\n')
repeated('marks-on-comments', '\ufeff# c\n')
repeated('marks-in-text', 'a\ufeff', '- ')
repeated('marks-on-keys', '\ufeffk: v\n')
repeated('breaks', '\n')
repeated('breaks-returns', '\r')
repeated('breaks-both', '\r\n')
repeated('breaks-after-text', '\n', 'a')
repeated('breaks-between-items', '- a\n\n\n')
repeated('returns-between-items', '- a\r\n')
repeated('spaces', ' ')
repeated('spaces-on-lines', '  \n')
repeated('tabs', '\t')
repeated('tabs-on-lines', '\t\n')
repeated('tabs-after-dashes', '-\t')
repeated('spaces-after-text', ' ', 'a')
repeated('spaces-at-line-ends', '- a   \n')
repeated('spaces-indented', ' ', '- a\n')
shape('indents-ascending', lambda n: '\n'.join(' ' * (i % 1000) for i in range(max(2, n // 500))))

# Quotes and plain scalars, long lines and many lines.
repeated('single-never-closed', 'a', "'")
repeated('double-never-closed', 'a', '"')
repeated('single-lines-never-closed', 'a\n', "'")
repeated('double-lines-never-closed', 'a\n', '"')
repeated('double-opened-on-each-line', '- "a\n')
repeated('single-opened-on-each-line', "- 'a\n")
repeated('single-long', 'a', "'", "'")
repeated('double-long', 'a', '"', '"')
repeated('single-quotes', "''", "'", "'")
repeated('double-escapes', '\\x41', '"', '"')
repeated('double-wide-escapes', '\\U0001F600', '"', '"')
repeated('double-surrogates', '\\ud83d\\ude00', '"', '"')
repeated('double-bad-escapes', '\\ud83d', '"', '"')
repeated('double-unknown-escapes', '\\q', '"', '"')
repeated('double-backslashes', '\\\\', '"', '"')
repeated('double-line-escapes', 'a\\\n', '"', '"')
repeated('double-lines', ' a\n', '"', '"')
repeated('double-blank-lines', '\n', '"a', '"')
repeated('double-control', '\\0', '"', '"')
repeated('single-lines', ' a\n', "'", "'")
repeated('single-blank-lines', '\n', "'a", "'")
repeated('single-spaces', ' ', "'", "'")
repeated('double-spaces', ' ', '"', '"')
repeated('quoted-items', '- "a"\n- \'b\'\n')
repeated('plain-long', 'a')
repeated('plain-words', 'a b ')
repeated('plain-lines', 'a\n')
repeated('plain-lines-in-items', '- a\n  b\n  c\n')
repeated('plain-blank-lines', '\n', 'a\n', 'b\n')
repeated('plain-spaces', ' ', 'a', 'b\n')
repeated('plain-colons', 'a:')
repeated('plain-hashes', 'a#')
repeated('plain-dashes', '-a')
repeated('plain-flow-signs', 'a,]}')
repeated('plain-wide', '\U0001F600')
repeated('plain-in-flow', 'a ', '[', ']')
repeated('plain-lines-in-flow', 'a\n ', '[', ']')
repeated('items', '- a\n')
repeated('items-empty', '-\n')
repeated('items-long', '- ' + 'a' * 2000 + '\n')
repeated('items-in-keys', 'k:\n- a\n')
repeated('mixed-refused-late', '- a\n', '', 'b: c: d\n')
# After a refusal the text is read a second time, and the part before the refusal is looked at again.
repeated('refused-open-quote', 'a\n ', '"')
repeated('refused-open-brackets', 'a,\n ', '[')
repeated('refused-open-brackets-deep', 'a, ', '[' * 1000)
repeated('refused-comma-missing', '"k": "v",\n ', '{', '"a": 1 "b": 2}')
repeated('refused-after-entries', 'k: v\n', 'a:\n', 'x: y: z\n')
repeated('refused-after-comments', '# c\n', '', 'a: b: c\n')
repeated('refused-after-blank-lines', '\n', 'a: |\n', ' \n  x\n y\nz\n')
repeated('refused-after-spaces', ' ', 'a:', '@')
repeated('refused-after-tabs', '\t', 'a:\n', 'b: 1')
repeated('refused-after-plain-lines', 'a\n', '', 'b: c\n')
repeated('refused-key-before-items', '  - b\n', 'a: 1\nk\n')
repeated('refused-long-line', 'a ', '', ': b: c')
repeated('refused-deep-lines', ' ' * 1000 + 'k: v\n', ''.join(' ' * i + 'a:\n' for i in range(1000)), ' ' * 1000 + 'b: c: d\n')
repeated('refused-after-escapes', '\\x41', '"', '\\q"')
repeated('refused-after-properties', '&a ', '', 'b')
repeated('refused-open-tag', 'a', '!<')
repeated('refused-after-documents', '---\na\n', '', 'a: b: c')
repeated('refused-after-literal', ' a\n', '|\n', 'b: c: d\n@')

# Lines to format. All lines are one hunk; each hunk is one line; one hunk is almost the whole text; and no hunk can be
# applied without all others, so their number is doubled until all are.
lines_shape('lines-all', lambda n: '---\n' + '-  a\n' * (n // 5), '1-1000000000')
lines_shape('lines-alternate', lambda n: '---\n' + '-  a\n- b\n' * (n // 9), '1-1000000000')
lines_shape('lines-many-ranges', lambda n: '---\n' + '-  a\n- b\n' * (n // 9), ','.join(str(2 + 4 * k) for k in range(10000)))
lines_shape('lines-one-hunk', lambda n: '---\nk: |\n' + '   a\n' * (n // 5), '3')
lines_shape('lines-that-grow', lambda n: '---\nk: |\n' + '   a\n\n' * (n // 6), '3')


def command(program, verb, path, lines):
    """The arguments of a command; the settings of the last one are in a file beside the text."""
    if verb == 'explain':
        return [program, 'check', '--explain']
    if verb == 'lines':
        return [program, 'fmt', '--lines', lines]
    if verb != 'block':
        return [program, verb]
    config = path + '.toml'
    if not os.path.exists(config):
        with open(config, 'w', encoding='utf-8') as out:
            out.write('comments = "block"\n')
    return [program, 'fmt', '--config', config]


def run(program, verb, path, lines=None):
    """Processor seconds, peak of resident memory in bytes, and the status (None if the run took too long)."""
    with open(path, 'rb') as source:
        child = subprocess.Popen(command(program, verb, path, lines), stdin=source, stdout=subprocess.DEVNULL, stderr=subprocess.DEVNULL)
        deadline = time.monotonic() + 120
        while True:
            pid, status, usage = os.wait4(child.pid, os.WNOHANG)
            if pid:
                return usage.ru_utime + usage.ru_stime, usage.ru_maxrss * 1024, os.waitstatus_to_exitcode(status)
            if time.monotonic() > deadline:
                child.kill()
                os.wait4(child.pid, 0)
                return 120.0, 0, None
            time.sleep(0.002)


class Measure:
    def __init__(self, program, folder):
        self.program, self.folder = program, folder
        self.faults, self.rows = [], []
        self.lines = None
        self.base = 0
        self.base = self.at(lambda n: '', 'events', 0)[1]

    def at(self, make, verb, size, times=1):
        """Least seconds of the runs, bytes above those of an empty input, the status, and the size of the text."""
        path = os.path.join(self.folder, 'hostile.yaml')
        with open(path, 'wb') as out:
            out.write(make(size).encode())
        size = os.path.getsize(path)
        seconds, memory, status = min(run(self.program, verb, path, self.lines) for _ in range(times))
        return seconds, memory - self.base, status, size

    def start(self, make, verb):
        """A size at which a run takes a measurable time."""
        size = 1 << 16
        while size < 1 << 20 and self.at(make, verb, size)[0] < 0.02:
            size *= 2
        return size

    def grows(self, make, verb, size, times):
        """The two ratios, and the last measurement."""
        first, second, third = (self.at(make, verb, size * k, times) for k in (1, 2, 4))
        floor = 0.005
        return (second[0] + floor) / (first[0] + floor), (third[0] + floor) / (second[0] + floor), third

    def verb(self, name, verb):
        make = SHAPES[name]
        self.lines = LINES.get(name)
        size = self.start(make, verb)
        for times in (1, 3):
            one, two, (seconds, memory, status, length) = self.grows(make, verb, size, times)
            if min(one, two) <= RATIO:
                break
        a_byte = memory / max(1, length)
        wrong = []
        if status not in (0, 1, 2):
            wrong.append('status %s' % status)
        if min(one, two) > RATIO and (name, verb) not in QUADRATIC:
            wrong.append('ratios %.1f, %.1f' % (one, two))
        if a_byte > limit(name, verb):
            wrong.append('%.0f bytes per byte' % a_byte)
        self.rows.append((name, verb, length, seconds, two, a_byte))
        print('%-30s %-6s %9d bytes %7.2f s %5.1f %5.1f %7.1f bytes per byte  %s'
              % (name, verb, length, seconds, one, two, a_byte, 'FAULT ' + ', '.join(wrong) if wrong else ''), flush=True)
        if wrong:
            self.faults.append('%s %s: %s' % (verb, name, ', '.join(wrong)))


def report(rows):
    """The shapes that take most for each command."""
    for verb in VERBS + ('lines',):
        mine = [row for row in rows if row[1] == verb]
        if not mine:
            continue
        slow = max(mine, key=lambda row: row[3] / row[2])
        wide = sorted(mine, key=lambda row: -row[5])[:5]
        print('%s: slowest %s with %.2f s per MB; most memory %s' % (verb, slow[0], slow[3] / slow[2] * (1 << 20),
              ', '.join('%s %.0f' % (row[0], row[5]) for row in wide)))


def main():
    words = sys.argv[1:]
    program = os.path.join(TOP, '.build/yamlfmt')
    if words[:1] == ['--program']:
        program, words = os.path.abspath(words[1]), words[2:]
    if words == ['--list']:
        print('\n'.join(SHAPES))
        return
    if not os.access(program, os.X_OK):
        sys.exit('there is no program %s: run ./yamlfmt once, which builds it' % program)
    unknown = [word for word in words if word not in SHAPES]
    if unknown:
        sys.exit('no such shape: %s' % ', '.join(unknown))
    with tempfile.TemporaryDirectory() as folder:
        measure = Measure(program, folder)
        for name in words or SHAPES:
            for verb in VERBS + (('lines',) if name in LINES else ()):
                measure.verb(name, verb)
    report(measure.rows)
    if measure.faults:
        sys.exit('%d faults\n%s' % (len(measure.faults), '\n'.join(measure.faults)))
    print('no fault in %d shapes' % len(words or SHAPES))


if __name__ == '__main__':
    main()
