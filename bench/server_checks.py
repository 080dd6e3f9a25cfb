"""Checks of what the server returns for a document, for bench/server_client.py and others."""
import json

from server_model import NAME, apply, offset_of, position_of, run
from server_outline import check_outline


def code_actions(server, context):
    everything = {'start': {'line': 0, 'character': 0}, 'end': {'line': 0, 'character': 0}}
    answer, before = server.request('textDocument/codeAction', {
        'textDocument': {'uri': NAME}, 'range': everything, 'context': context})
    assert before == [], before
    return answer['result']


def check_actions(server, text, formatted, encoding):
    """The code action has the edits of the whole formatting. (formatted: None if the text is refused)"""
    for only, is_wanted in ((None, True), ([], False), (['source'], True), (['quickfix', 'source.fixAll'], True),
                            (['source.fixAll.yamlfmt'], True), ([''], True), (['source.fixAll.other'], False),
                            (['source.fix'], False), (['quickfix'], False), ([7], False)):
        actions = code_actions(server, {'diagnostics': []} if only is None else {'diagnostics': [], 'only': only})
        if not is_wanted or formatted is None or formatted == text:
            assert actions == [], (only, actions)
            continue
        (action,) = actions
        assert action['kind'] == 'source.fixAll.yamlfmt' and set(action) == {'title', 'kind', 'edit'}, action
        assert list(action['edit']) == ['changes'] and list(action['edit']['changes']) == [NAME], action
        assert apply(text, action['edit']['changes'][NAME], encoding) == formatted, 'the action gives another text'


def lines_formatted(server, text, start, end, encoding):
    """The text in which the server formats the lines of a range, which is given by offsets."""
    answer, before = server.request('textDocument/rangeFormatting', {
        'textDocument': {'uri': NAME}, 'options': {'tabSize': 8, 'insertSpaces': False},
        'range': {'start': position_of(text, start, encoding), 'end': position_of(text, end, encoding)}})
    assert before == [], before
    return None if answer['result'] is None else apply(text, answer['result'], encoding)


def check_lines(program, server, text, formatted, encoding):
    """Formatting some lines keeps what the formatting is. (formatted: None if the text is refused)"""
    for start, end in ((0, len(text)), (0, 0), (len(text) // 3, 2 * len(text) // 3), (len(text), len(text))):
        part = lines_formatted(server, text, start, end, encoding)
        if formatted is None:
            assert part is None, 'a refused text is formatted'
            continue
        assert run(program, ['fmt'], part)[1] == formatted, 'the lines give another text'
        if (start, end) == (0, len(text)):
            assert part == formatted, 'the lines are not all lines'


def some_lines(server):
    """Formats ranges of one text. A range that ends at the start of a line does not have that line."""
    text = '---\na:   1\nx: 1\nb:   \U0001F600\ny: 1\nc:   3\n'
    server.change(3, [{'text': text}])
    server.receive()
    for start, end, part in (
            ((3, 0), (3, 0), '---\na:   1\nx: 1\nb: \U0001F600\ny: 1\nc:   3\n'),
            ((3, 5), (3, 7), '---\na:   1\nx: 1\nb: \U0001F600\ny: 1\nc:   3\n'),
            ((1, 0), (3, 0), '---\na: 1\nx: 1\nb:   \U0001F600\ny: 1\nc:   3\n'),
            ((1, 3), (3, 1), '---\na: 1\nx: 1\nb: \U0001F600\ny: 1\nc:   3\n'),
            ((3, 0), (9, 9), '---\na:   1\nx: 1\nb: \U0001F600\ny: 1\nc: 3\n'),
            ((5, 1), (3, 0), '---\na:   1\nx: 1\nb:   \U0001F600\ny: 1\nc: 3\n'),
            ((0, 0), (0, 3), text), ((2, 0), (3, 0), text), ((6, 0), (6, 0), text), ((7, 0), (8, 0), text)):
        answer, _ = server.request('textDocument/rangeFormatting', {
            'textDocument': {'uri': NAME}, 'options': {'tabSize': 2, 'insertSpaces': True},
            'range': {'start': {'line': start[0], 'character': start[1]},
                      'end': {'line': end[0], 'character': end[1]}}})
        assert apply(text, answer['result'], 'utf-16') == part, (start, end, answer)
    for params in ({}, {'range': None}, {'range': {'start': {'line': 0, 'character': 0}}}):
        answer, _ = server.request('textDocument/rangeFormatting', {'textDocument': {'uri': NAME}, **params})
        assert answer['error']['code'] == -32602, answer


def check_document(program, server, text, encoding):
    """What an open document gets on request agrees with `fmt` and `check`."""
    answer, before = server.request('textDocument/formatting', {
        'textDocument': {'uri': NAME}, 'options': {'tabSize': 8, 'insertSpaces': False}})
    # a text that is no data is printed as it is, with status 1
    status, formatted, _ = run(program, ['fmt', '--no-config', '--stdin-name', 'one.yaml'], text)
    if status == 0:
        assert apply(text, answer['result'], encoding) == formatted, 'the edits give another text'
        if text == formatted:
            assert answer['result'] == [], 'edits of a formatted text'
    else:
        assert answer['result'] is None, 'a text that is refused or no data is formatted'
    saved, _ = server.request('textDocument/willSaveWaitUntil', {'textDocument': {'uri': NAME}, 'reason': 1})
    assert saved['result'] == answer['result'], 'other edits before a save'
    check_actions(server, text, formatted if status == 0 else None, encoding)
    check_lines(program, server, text, formatted if status == 0 else None, encoding)
    pulled, _ = server.request('textDocument/diagnostic', {'textDocument': {'uri': NAME}})
    assert set(pulled['result']) == {'kind', 'items'} and pulled['result']['kind'] == 'full', pulled
    check_problems(program, pulled['result']['items'], text, encoding)
    is_refused = any(d['severity'] == 1 for d in pulled['result']['items'])
    check_outline(server, text, is_refused, encoding)
    return before


def check_diagnostics(program, published, text, version, encoding):
    assert published['method'] == 'textDocument/publishDiagnostics', published
    params = published['params']
    assert params['uri'] == NAME and params['version'] == version, params
    check_problems(program, params['diagnostics'], text, encoding)


def check_problems(program, listed, text, encoding):
    """The problems are those that `check` prints, with their messages, or why it refuses the text."""
    status, findings, errors = run(program, ['check', '--format', 'json'], text)
    if status in (0, 1):
        wanted = sorted((found['rule'], found['message']) for found in json.loads(findings))
        assert sorted((d['code'], d['message']) for d in listed) == wanted, (listed, findings)
        assert all(d['severity'] == 2 for d in listed)
    else:
        assert len(listed) == 1 and listed[0]['severity'] == 1, listed
        assert errors.strip().endswith('refused: ' + listed[0]['code']), (listed, errors)
    for d in listed:
        start = offset_of(text, d['range']['start'], encoding)
        end = offset_of(text, d['range']['end'], encoding)
        assert start <= end, d
        assert position_of(text, start, encoding) == d['range']['start'], d


# ---- sessions
