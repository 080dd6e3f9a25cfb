#!/usr/bin/env python3
"""Counts some words in the comments of the code, the definitions and the proofs, per 10,000 words of comments.

Usage: bench/comments.py [CRATE..]     (without a name: all crates together, then the crates with the highest sums)

The words are those that our old comments used far more, or far less, often than Debian's Rust crates do. It is a guide, not a
rule.
"""
import glob
import os
import re
import signal
import sys

TOP = os.path.dirname(os.path.dirname(os.path.abspath(__file__)))
# A word or phrase; how often the comments used it in commit 3d0927b8; and how often Debian's Rust crates use it.
RATES = (('tell|tells|told', 22.1, 0.2), ('alone', 15.7, 0.1), ('what is|what are', 62.9, 0.2), ('whose', 21.6, 0.5),
         ('of which|by which|in which', 12.3, 1.4), ('where', 118, 10), ('when|if', 11.1, 25), ('returns?', 0.7, 57))
OLD = r'\b(?:tell|tells|told|alone|what is|what are|so many|in place of|is there|where)\b'


def comments(path):
    """The comments of a file, without code in backticks."""
    with open(path, encoding='utf-8') as file:
        text = file.read()
    mark = r'//[/!]?' if path.endswith('.rt') else '--'
    lines = re.findall(r'(?:^|\s)%s (.*)' % mark, text, re.M)
    return re.sub(r'`[^`]*`', '', '\n'.join(lines))


def comments_of(crate):
    paths = [path for ending in ('rt', 'antt') for path in glob.glob('%s/crates/%s/**/*.%s' % (TOP, crate, ending), recursive=True)]
    return '\n'.join(comments(path) for path in sorted(paths) if '/out/' not in path)


def rate(pattern, text):
    count = len(re.findall(r'\w+', text)) or 1
    return len(re.findall(r'\b(?:%s)\b' % pattern, text, re.I)) * 10000 / count


def main():
    # If the reader of the output leaves, end without a traceback.
    signal.signal(signal.SIGPIPE, signal.SIG_DFL)
    crates = sorted(os.path.basename(path) for path in glob.glob(TOP + '/crates/*') if os.path.isdir(path))
    texts = {crate: comments_of(crate) for crate in sys.argv[1:] or crates}
    everything = '\n'.join(texts.values())
    print('%d words of comments' % len(re.findall(r'\w+', everything)))
    for pattern, first, usual in RATES:
        print('  %-28s %6.1f, in commit 3d0927b8 %s, in Rust\'s crates %s' % (pattern, rate(pattern, everything), first, usual))
    sums = sorted(((len(re.findall(OLD, text, re.I)), crate) for crate, text in texts.items()), reverse=True)
    for count, crate in sums[:40]:
        print('  %-18s %5d uses of old words in %d words' % (crate, count, len(re.findall(r'\w+', texts[crate]))))


if __name__ == '__main__':
    main()
