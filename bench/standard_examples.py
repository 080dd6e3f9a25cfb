#!/usr/bin/env python3
"""Computes the examples of YAML 1.2.2, chapters 5 to 9, by the definitions of crates/yf_standard.

Usage: bench/standard_examples.py [NUMBER..]

For each example it computes all derivations by the productions, as `specs/Productions.antt` has them, and what their tokens
say, as `specs/Contents.antt`, `Tokens.antt` and `Readings.antt` have it (bench/standard_meanings.py). It compares that with
the events that the standard describes, which are written here by hand in the notation of YAML's test suite. All derivations
of an example must say one thing. An example that the standard calls invalid must have no derivation, except 6.25: its tags
are invalid by section 6.9.1, but the productions derive them.

It prints a line for each example that differs, and a sum, and fails if one differs. It is not part of rt ci.
"""
import sys
import time

from standard_examples_list import EXAMPLES
from standard_meanings import documents

STYLES = {'Plain': ':', 'Single': "'", 'Double': '"', 'Literal': '|', 'Folded': '>'}
ESCAPES = {'\\': '\\\\', '\n': '\\n', '\t': '\\t', '\r': '\\r', '\b': '\\b'}


def text_of(numbers):
    return ''.join(map(chr, numbers))


def value_of(numbers):
    """The bytes of a scalar, with the escapes of the notation."""
    return ''.join(ESCAPES.get(c, c) for c in bytes(numbers).decode('utf-8', 'surrogatepass'))


def tag_of(tag, prefixes):
    """The resolved tag (section 6.9.1), without decoding."""
    if tag.name == 'IsVerbatim':
        return text_of(tag.args[0])
    if tag.name == 'IsNonSpecific':
        return '!'
    handle, suffix = map(text_of, tag.args)
    return prefixes.get(handle, 'UNKNOWN ') + suffix.replace('%21', '!')


def props_of(props, prefixes):
    words = ''
    if props['anchor'].args:
        words += ' &' + text_of(props['anchor'].args[0])
    if props['tag'].args:
        words += ' <%s>' % tag_of(props['tag'].args[0], prefixes)
    return words


def event_of(event, prefixes):
    name, args = event.name, event.args
    if name == 'scalar_node':
        return '=VAL' + props_of(args[0], prefixes) + ' ' + STYLES[args[1].name] + value_of(args[2])
    if name == 'alias_node':
        return '=ALI *' + text_of(args[0])
    if name in ('sequence_ends', 'mapping_ends'):
        return '-SEQ' if name == 'sequence_ends' else '-MAP'
    kind, flow = ('+SEQ', ' []') if name == 'sequence_starts' else ('+MAP', ' {}')
    return kind + (flow if args[0] else '') + props_of(args[1], prefixes)


def events_of(said):
    """The events of what is said, a line each."""
    lines = []
    for document in said['documents']:
        prefixes = {'!': '!', '!!': 'tag:yaml.org,2002:'}
        for directive in document['directives']:
            words = [text_of(word) for word in directive['words']]
            if words[0] == 'TAG':
                prefixes[words[1]] = words[2]
        lines.append('+DOC ---' if document['marked'] else '+DOC')
        lines += [event_of(event, prefixes) for event in document['events']]
    return lines


def main():
    wrong = 0
    asked = [example for example in EXAMPLES if len(sys.argv) == 1 or example[0] in sys.argv[1:]]
    start = time.time()
    for number, text, wanted in asked:
        said = [' | '.join(events_of(found)) for found in documents(text)]
        if said != ([] if wanted is None else [wanted]):
            wrong += 1
            print('%s: %s' % (number, text.encode('unicode_escape').decode()))
            for found in said:
                print('  computed: ' + found)
            print('  expected: %s' % wanted)
    print('%d examples computed in %d s, %d differ' % (len(asked), time.time() - start, wrong))
    return 1 if wrong else 0


if __name__ == '__main__':
    sys.exit(main())
