"""Folding ranges, symbols and selection ranges of a running server, for `bench/server_client.py`."""
from server_model import NAME, lines_of, offset_of, position_of

FOLDS = [
    # a collection under its key, an item under its dash, and only the longest of those that begin on a line
    ('a:\n  b: 1\n  c:\n  - x\n  - - y\n    - z\nd: 1\n', [(0, 5), (2, 5), (4, 5)]),
    # block scalars without the empty lines after them, quoted scalars; not plain ones
    ('a: |+\n  x\n\n  y\n\n\nb: "x\n  y"\nc: x\n  y\n', [(0, 3), (6, 7)]),
    # flow collections, and documents
    ('--- [a,\n  b]\n---\n{\n  c: [\n  1\n] }\n...\n', [(0, 1), (3, 6), (4, 6)]),
    # explicit keys, and a value that begins on a later line
    ('? - a\n  - b\n: - c\n  - d\n', [(0, 3)]),
    ('k:\n\n  &a\n  - x\nm:\n', [(0, 3)]),
    # comment lines in a row, but not one line, nor a comment after content; a fold ends before the comments after it
    ('a: 1 # x\n# y\n # z\n\n# u\n\n# v\n# w\nb:\n- c\n# t\n', [(1, 2, 'comment'), (6, 7, 'comment'), (8, 9)]),
    # line breaks of each kind
    ('# a\r# b\r\n# c\nk: [\r\n ]\r', [(0, 2, 'comment'), (3, 4)]),
    ('', []), ('a: 1\n', []), ("'a\n\n b'", [(0, 2)]),
    # a text that is refused
    ('a: [\n\n', None), ('a: b: c\n', None),
]


def some_folds(server):
    """The folding ranges of some texts: first line, last line, and the kind of comments."""
    for version, (text, folds) in enumerate(FOLDS, 100):
        server.change(version, [{'text': text}])
        server.receive()
        answer, _ = server.request('textDocument/foldingRange', {'textDocument': {'uri': NAME}})
        if folds is None:
            assert answer['result'] is None, (text, answer)
            continue
        got = [(f['startLine'], f['endLine'], *([f['kind']] if 'kind' in f else [])) for f in answer['result']]
        assert got == folds, (text, got)


def check_folds(server, text, is_refused):
    """Each folding range has at least two lines of the text, and one begins on a line at most."""
    answer, before = server.request('textDocument/foldingRange', {'textDocument': {'uri': NAME}})
    assert before == [], before
    if is_refused:
        assert answer['result'] is None, 'a refused text has folding ranges'
        return
    firsts = [fold['startLine'] for fold in answer['result']]
    assert firsts == sorted(set(firsts)), firsts
    assert all(f['startLine'] < f['endLine'] < len(lines_of(text)) for f in answer['result']), answer
    assert all(set(f) - {'kind'} == {'startLine', 'endLine'} for f in answer['result']), answer


DOCUMENT, OBJECT, ARRAY, STRING, VARIABLE, NULL = 2, 19, 18, 15, 13, 21
SYMBOLS = [
    # keys by their values, and items by their first lines
    ('a: &l 1\nb:\n  c: x\n  "d e": [1, {f: g}]\nh:\n- i: |\n    j\n\n  k: *l\n-\n', [
        ('a', STRING, (0, 0, 0, 7), []),
        ('b', OBJECT, (1, 0, 3, 20), [
            ('c', STRING, (2, 2, 2, 6), []),
            ('"d e"', ARRAY, (3, 2, 3, 20), [
                ('1', STRING, (3, 10, 3, 11), []),
                ('{f: g}', OBJECT, (3, 13, 3, 19), [('f', STRING, (3, 14, 3, 18), [])])])]),
        ('h', ARRAY, (4, 0, 9, 1), [
            ('i: |', OBJECT, (5, 0, 8, 7), [
                ('i', STRING, (5, 2, 6, 5), []), ('k', VARIABLE, (8, 2, 8, 7), [])]),
            ('-', NULL, (9, 0, 9, 1), [])])]),
    # nothing in a key has a symbol, and its first line is its name
    ('? [a, b]\n: c\n? - d: e\n  - f\n', [
        ('[a, b]', STRING, (0, 0, 1, 3), []), ('- d: e', NULL, (2, 0, 3, 5), [])]),
    # several documents, one of them empty
    ('--- a\n---\n--- # c\nb: 1\n', [
        ('a', DOCUMENT, (0, 4, 0, 5), []), ('b: 1', DOCUMENT, (3, 0, 3, 4), [('b', STRING, (3, 0, 3, 4), [])])]),
    ('', []), ('x\n', []), ('[]\n', []), (': \n', [(':', NULL, (0, 0, 0, 1), [])]), ('a: [', None), ('*a\n', None),
]


def lines_and_units(found):
    start, end = found['range']['start'], found['range']['end']
    return (start['line'], start['character'], end['line'], end['character'])


def symbol(found, text):
    assert set(found) == {'name', 'kind', 'range', 'selectionRange', 'children'}, found
    selected = [offset_of(text, found['selectionRange'][side], 'utf-16') for side in ('start', 'end')]
    assert text[selected[0]:selected[1]] == found['name'] != '', (found, text)
    return (found['name'], found['kind'], lines_and_units(found), [symbol(child, text) for child in found['children']])


def some_symbols(server):
    """The symbols of some texts: name, kind, range, and the symbols in it."""
    for version, (text, symbols) in enumerate(SYMBOLS, 200):
        server.change(version, [{'text': text}])
        server.receive()
        answer, _ = server.request('textDocument/documentSymbol', {'textDocument': {'uri': NAME}})
        got = None if answer['result'] is None else [symbol(found, text) for found in answer['result']]
        assert got == symbols, (text, got)


def check_nested(symbols, text, encoding, start, end):
    """Symbols are in order from one offset to another, and each has the place that it selects."""
    for found in symbols:
        first, last = (offset_of(text, found['range'][side], encoding) for side in ('start', 'end'))
        selected = [offset_of(text, found['selectionRange'][side], encoding) for side in ('start', 'end')]
        assert start <= first <= selected[0] < selected[1] <= last <= end, (found, text)
        assert text[selected[0]:selected[1]] == found['name'], (found, text)
        check_nested(found['children'], text, encoding, first, last)
        start = last


def check_symbols(server, text, is_refused, encoding):
    """The symbols of a text are in it, one in the other."""
    answer, before = server.request('textDocument/documentSymbol', {'textDocument': {'uri': NAME}})
    assert before == [], before
    if is_refused:
        assert answer['result'] is None, 'a refused text has symbols'
        return
    check_nested(answer['result'], text, encoding, 0, len(text))


SELECTIONS = [
    # the value, its entry, and the collections and entries around it
    ('a:\n  - b: 1\n    c: x\n', (2, 7), [
        (2, 7, 2, 8), (2, 4, 2, 8), (1, 4, 2, 8), (1, 2, 2, 8), (1, 2, 2, 8), (0, 0, 2, 8)]),
    # a key; and the end of an entry, which is a part of it
    ('a:\n  - b: 1\n    c: x\n', (0, 0), [(0, 0, 0, 1), (0, 0, 2, 8)]),
    ('a: |\n  b\n\nc: 1\n', (1, 3), [(0, 3, 1, 3), (0, 0, 1, 3)]),
    # between entries, and after the end of the text
    ('a: |\n  b\n\nc: 1\n', (2, 0), [(2, 0, 2, 0)]), ('a: 1\n', (5, 5), [(1, 0, 1, 0)]),
    # a text without entries, and one that is refused
    ('x', (0, 0), [(0, 0, 0, 0)]), ('a: [', (0, 0), None),
]


def chain_of(found):
    """The ranges of a selection range, the inner one first."""
    chain = []
    while found is not None:
        assert set(found) - {'parent'} == {'range'}, found
        chain.append(lines_and_units(found))
        found = found.get('parent')
    return chain


def some_selections(server):
    """The selection ranges at positions of some texts."""
    for version, (text, (line, character), chain) in enumerate(SELECTIONS, 300):
        server.change(version, [{'text': text}])
        server.receive()
        place = {'line': line, 'character': character}
        answer, _ = server.request('textDocument/selectionRange', {
            'textDocument': {'uri': NAME}, 'positions': [place, place]})
        got = answer['result'] and [chain_of(found) for found in answer['result']]
        assert got == (None if chain is None else [chain, chain]), (text, got)
    for params in ({}, {'positions': None}, {'positions': [{'line': 0, 'character': 0}, {'line': 0}]}):
        answer, _ = server.request('textDocument/selectionRange', {'textDocument': {'uri': NAME}, **params})
        assert answer['error']['code'] == -32602, answer


def check_selections(server, text, is_refused, encoding):
    """A selection range has its position, and each range around it has the range."""
    offsets = range(0, len(text) + 1, max(1, len(text) // 7))
    # no position is between CR and LF
    places = [position_of(text, offset, encoding) for offset in offsets if text[offset - 1:offset + 1] != '\r\n']
    answer, before = server.request('textDocument/selectionRange', {
        'textDocument': {'uri': NAME}, 'positions': places})
    assert before == [], before
    if is_refused:
        assert answer['result'] is None, 'a refused text has selection ranges'
        return
    assert len(answer['result']) == len(places), answer
    for place, found in zip(places, answer['result']):
        inner = (place['line'], place['character'])
        inner += inner
        for outer in chain_of(found):
            assert outer[:2] <= inner[:2] and inner[2:] <= outer[2:], (found, text)
            inner = outer


def check_outline(server, text, is_refused, encoding):
    check_folds(server, text, is_refused)
    check_symbols(server, text, is_refused, encoding)
    check_selections(server, text, is_refused, encoding)
