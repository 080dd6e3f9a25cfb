#!/usr/bin/env python3
"""Drives `yamlfmt server` as an editor does.

    bench/server_client.py PROGRAM [--times] [--edits N] [--seed N]

PROGRAM is the built program (crates/yamlfmt/out/yamlfmt). The script opens documents, edits them at random, formats
them, and compares each response with a model (bench/server_model.py): the text that the edits must give, and what
PROGRAM itself prints for that text by `fmt` and `check`. It requests the edits, the code actions, the problems, and
what bench/server_outline.py checks, in each possible way. Then it opens documents of folders with different settings
files, sends what a broken client sends, and runs a session with too little memory. With --times it measures how long
after an edit its diagnostics come, in documents of 1 MB and of 16 MB.
"""
import argparse
import os
import random
import sys
import time

from server_broken import broken_clients, refused_memory
from server_checks import check_diagnostics, check_document, check_problems, some_lines
from server_folders import folders
from server_model import CAPABILITIES, NAME, Server, initialize, position_of
from server_outline import some_folds, some_selections, some_symbols


PIECES = ['a: 1\n', '- x\n', '  b:   2 \r\n', "k: 'v'\n", '# c\n', '\u00e9: \U0001F600\n', '[1,  2]\n', '\r\n', '\n',
          ' ', 'x', '\U0001F600', '---\n', '"q": |\n  text\n', '\t', '{a: b}\r\n', '&a x\n', '*a\n', '\r', '\u2028']


def random_edits(program, count, seed, encoding):
    chance = random.Random(seed)
    server = Server(program)
    capabilities = initialize(server, [encoding])
    assert capabilities['positionEncoding'] == encoding, capabilities
    text = ''.join(chance.choice(PIECES) for _ in range(20))
    server.open(text)
    check_diagnostics(program, server.receive(), text, 1, encoding)
    for version in range(2, count + 2):
        changes = []
        for _ in range(chance.choice((1, 1, 1, 2, 3))):
            if chance.random() < 0.02:
                text = ''.join(chance.choice(PIECES) for _ in range(chance.randrange(12)))
                changes.append({'text': text})
                continue
            start = chance.randrange(len(text) + 1)
            end = min(len(text), start + chance.choice((0, 0, 1, 2, 9)))
            # no position is between CR and LF
            while 0 < start < len(text) and text[start - 1:start + 1] == '\r\n':
                start -= 1
            while 0 < end < len(text) and text[end - 1:end + 1] == '\r\n':
                end += 1
            new = chance.choice(PIECES) if chance.random() < 0.6 else ''
            changes.append({'range': {'start': position_of(text, start, encoding),
                                      'end': position_of(text, end, encoding)}, 'text': new})
            text = text[:start] + new + text[end:]
            if len(text) > 400:
                text = text[:100]
                changes.append({'text': text})
        server.change(version, changes)
        check_diagnostics(program, server.receive(), text, version, encoding)
        if version % 10 == 0:
            assert check_document(program, server, text, encoding) == []
    answer, _ = server.request('shutdown')
    assert answer['result'] is None
    server.notify('exit')
    assert server.end() == (0, b'', b''), 'the end of a session'


def check_lost(server, uri=NAME):
    """The text of the document is lost, and the client gets a warning."""
    assert server.receive()['method'] == 'window/logMessage'
    cleared = server.receive()
    assert cleared['params'] == {'uri': uri, 'diagnostics': []}, cleared
    answer, _ = server.request('textDocument/formatting', {'textDocument': {'uri': uri}})
    assert answer['error']['code'] == -32803, answer


def faulty_changes(program, server):
    """After a change at fault, a document has no text until it is opened again or sent whole. Another one stays."""
    reversed_range = {'start': {'line': 1, 'character': 0}, 'end': {'line': 0, 'character': 0}}
    server.open('b:   2\n', uri='file:///tmp/two.yaml')
    server.receive()
    for version, changes in ((1, [{'text': ''}]), (2, [{'range': reversed_range, 'text': ''}]),
                             (2, [{'text': 'x\ny\n'}, {'range': reversed_range, 'text': ''}]), (None, [{'text': ''}]),
                             ('2', [{'text': ''}]), (2, None), (2, [{}]), (2, [{'range': {}, 'text': ''}])):
        server.change(version, changes)
        check_lost(server)
        server.change(2, [{'range': {'start': {'line': 0, 'character': 0}, 'end': {'line': 0, 'character': 0}},
                           'text': ''}])
        check_lost(server)
        server.change(2, [{'text': 'c:   3\n'}])
        check_diagnostics(program, server.receive(), 'c:   3\n', 2, 'utf-16')
        check_document(program, server, 'c:   3\n', 'utf-16')
        server.open('a:   1\n')
        check_diagnostics(program, server.receive(), 'a:   1\n', 1, 'utf-16')
    server.open(None)
    check_lost(server)
    server.open('a:   1\n')
    check_diagnostics(program, server.receive(), 'a:   1\n', 1, 'utf-16')
    server.notify('textDocument/didChange', {'contentChanges': [{'text': ''}]})
    assert server.receive()['method'] == 'window/logMessage'
    check_document(program, server, 'a:   1\n', 'utf-16')
    answer, _ = server.request('textDocument/diagnostic', {'textDocument': {'uri': 'file:///tmp/two.yaml'}})
    check_problems(program, answer['result']['items'], 'b:   2\n', 'utf-16')
    # content that is not JSON may be a change of any document
    server.write(b'Content-Length: 14\r\n\r\n{"a":"\\ud83d"}')
    answer = server.receive()
    assert answer['error']['code'] == -32700 and answer['id'] is None, answer
    for uri in (NAME, 'file:///tmp/two.yaml'):
        answer, _ = server.request('textDocument/formatting', {'textDocument': {'uri': uri}})
        assert answer['error']['code'] == -32803, answer
    server.open('a:   1\n')
    check_diagnostics(program, server.receive(), 'a:   1\n', 1, 'utf-16')


def vault(server):
    """A file from Ansible Vault is left alone."""
    name = 'file:///tmp/vault.yaml'
    server.open('$ANSIBLE_VAULT;1.1;AES256\n3366\n6131\n', uri=name)
    assert server.receive()['params'] == {'uri': name, 'version': 1, 'diagnostics': []}
    whole = {'start': {'line': 0, 'character': 0}, 'end': {'line': 3, 'character': 0}}
    for method, result in (('formatting', None), ('willSaveWaitUntil', None), ('rangeFormatting', None),
                           ('codeAction', []), ('diagnostic', {'kind': 'full', 'items': []}), ('foldingRange', []),
                           ('documentSymbol', []), ('selectionRange', [])):
        answer, _ = server.request('textDocument/' + method, {
            'textDocument': {'uri': name}, 'range': whole, 'positions': []})
        assert answer['result'] == result, answer


def life_cycle(program):
    server = Server(program)
    answer, _ = server.request('textDocument/formatting', {})
    assert answer['error']['code'] == -32002, answer
    capabilities = initialize(server)
    assert capabilities == {'positionEncoding': 'utf-16', **CAPABILITIES}, capabilities
    answer, _ = server.request('initialize', {})
    assert answer['error']['code'] == -32600, answer
    answer, _ = server.request('workspace/symbol', {})
    assert answer['error']['code'] == -32601, answer
    for method in ('formatting', 'willSaveWaitUntil', 'rangeFormatting', 'codeAction', 'diagnostic', 'foldingRange',
                   'documentSymbol', 'selectionRange'):
        answer, _ = server.request('textDocument/' + method, {'textDocument': {'uri': NAME}})
        assert answer['error']['code'] == -32602, answer
        answer, _ = server.request('textDocument/' + method, {})
        assert answer['error']['code'] == -32602, answer
    server.write(b'Content-Length: 3\r\n\r\n{{{')
    answer = server.receive()
    assert answer['error']['code'] == -32700 and answer['id'] is None, answer
    server.write(b'Content-Length: 2\r\n\r\n[]')
    answer = server.receive()
    assert answer['error']['code'] == -32600 and answer['id'] is None, answer
    server.open('a:   1\n')
    assert server.receive()['params']['version'] == 1
    faulty_changes(program, server)
    some_lines(server)
    some_folds(server)
    some_symbols(server)
    some_selections(server)
    vault(server)
    server.notify('textDocument/didSave', {'textDocument': {'uri': NAME}})
    server.notify('$/cancelRequest', {'id': 1})
    server.notify('textDocument/didClose', {'textDocument': {'uri': NAME}})
    closed = server.receive()
    assert closed['params'] == {'uri': NAME, 'diagnostics': []}, closed
    server.request('shutdown')
    answer, _ = server.request('textDocument/formatting', {'textDocument': {'uri': NAME}})
    assert answer['error']['code'] == -32600, answer
    server.notify('exit')
    assert server.end() == (0, b'', b'')


def asking_client(program):
    """A client that asks for problems gets them only on request."""
    server = Server(program)
    server.request('initialize', {'capabilities': {'textDocument': {'diagnostic': {'dynamicRegistration': False}}}})
    server.open('a:   1\n')
    assert check_document(program, server, 'a:   1\n', 'utf-16') == [], 'problems are published'
    server.change(2, [{'text': 'a: ['}])
    assert check_document(program, server, 'a: [', 'utf-16') == [], 'problems are published'
    server.change(2, [{'text': ''}])
    assert server.receive()['method'] == 'window/logMessage'
    server.request('shutdown')
    server.notify('exit')
    assert server.end() == (0, b'', b'')


def one_time(program, size):
    line = 'key_%07d: some value of a line\n'
    text = '---\n' + ''.join(line % k for k in range(size // len(line % 0)))
    server = Server(program)
    initialize(server)
    began = time.monotonic()
    server.open(text)
    server.receive()
    opened = time.monotonic() - began
    best = None
    middle = text.count('\n') // 2
    for version in range(2, 7):
        began = time.monotonic()
        server.change(version, [{'range': {'start': {'line': middle, 'character': 13},
                                           'end': {'line': middle, 'character': 13}}, 'text': 'x'}])
        server.receive()
        taken = time.monotonic() - began
        best = taken if best is None else min(best, taken)
    began = time.monotonic()
    server.request('textDocument/formatting', {'textDocument': {'uri': NAME}})
    formatted = time.monotonic() - began
    server.request('shutdown')
    server.notify('exit')
    server.process.stdin.close()
    _, status, usage = os.wait4(server.process.pid, 0)
    server.process.returncode = os.waitstatus_to_exitcode(status)
    print(f'{size:>10} bytes: opened in {opened * 1000:.0f} ms, an edit in {best * 1000:.0f} ms, formatted in '
          f'{formatted * 1000:.0f} ms, {usage.ru_maxrss * 1024 / size:.1f} bytes of memory a byte')


def main():
    parser = argparse.ArgumentParser()
    parser.add_argument('program')
    parser.add_argument('--times', action='store_true')
    parser.add_argument('--edits', type=int, default=1000)
    parser.add_argument('--seed', type=int, default=1)
    given = parser.parse_args()
    program = os.path.abspath(given.program)
    life_cycle(program)
    print('life cycle: as expected')
    folders(program)
    print('settings of folders: as expected')
    asking_client(program)
    print('a client that asks for problems: as expected')
    broken_clients(program)
    print('broken clients: as expected')
    counts = ', '.join(f'{count} {name}' for name, count in refused_memory(program).items())
    print(f'less memory than the session needs: as expected ({counts})')
    for encoding in ('utf-16', 'utf-8', 'utf-32'):
        random_edits(program, given.edits, given.seed, encoding)
        print(f'{given.edits} random edits in {encoding}: as expected')
    if given.times:
        for size in (1_000_000, 16_000_000):
            one_time(program, size)


if __name__ == '__main__':
    sys.exit(main())
