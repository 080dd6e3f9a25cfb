"""Broken clients, and sessions with too little memory, for bench/server_client.py."""
from server_checks import check_diagnostics, check_document
from server_model import NAME, Server, apply, initialize, run


def broken_clients(program):
    """Each ends the server with a status, and with one line on the error stream, or none."""
    body = b'{"jsonrpc":"2.0","method":"exit"}'
    cases = [
        (b'', 1, b''),
        (b'Content-Length: 33\r\n\r\n' + body, 1, b''),
        (b'content-LENGTH: 33\r\nContent-Type: x\r\n\r\n' + body, 1, b''),
        (b'Content-Length: 33\r\n\r\n' + body[:20], 1, b''),
        (b'Content-Le', 1, b''),
        (b'garbage\x00\x01\r\n\r\n', 3, b'message refused: malformed header\n'),
        (b'Content-Type: x\r\n\r\n{}', 3, b'message refused: no content length\n'),
        (b'Content-Length: -1\r\n\r\n{}', 3, b'message refused: no content length\n'),
        (b'Content-Length: 2, 3\r\n\r\n{}', 3, b'message refused: no content length\n'),
        (b'Content-Length: 99999999999\r\n\r\n{}', 3, b'message refused: too long\n'),
        (b'Content-Length: 1073741824\r\n\r\n{}', 1, b''),
        (b''.join(b'X-%d: y\r\n' % k for k in range(40)) + b'\r\n', 3, b'message refused: malformed header\n'),
    ]
    for data, status, line in cases:
        server = Server(program)
        try:
            server.write(data)
        except BrokenPipeError:
            pass
        ended = server.end()
        assert ended == (status, b'', line), (data, ended)
    # a length that lies: what follows it is read as the next message
    server = Server(program)
    server.write(b'Content-Length: 2\r\n\r\n' + body)
    ended = server.end()
    assert ended[0] == 3 and b'-32700' in ended[1], ended
    deep = b'[' * 100000
    server = Server(program)
    server.write(b'Content-Length: %d\r\n\r\n' % len(deep) + deep)
    assert server.receive()['error']['code'] == -32700
    server.process.kill()
    server.process.wait()


def with_memory(program, limit, breaks):
    """A session in which a change adds many lines. Returns its result."""
    server = Server(program, limit=limit)
    try:
        initialize(server)
    except (BrokenPipeError, TypeError):
        server.end()
        return 'not started'
    outcome = 'kept'
    try:
        server.open('a:   1\n')
        check_diagnostics(program, server.receive(), 'a:   1\n', 1, 'utf-16')
        server.change(2, [{'range': {'start': {'line': 0, 'character': 6}, 'end': {'line': 0, 'character': 6}},
                           'text': '\n' * breaks}])
        text = 'a:   1' + '\n' * (breaks + 1)
        answer, before = server.request('textDocument/formatting', {'textDocument': {'uri': NAME}})
        if 'error' in answer:
            assert answer['error']['code'] == -32803, answer
        else:
            assert apply(text, answer['result'], 'utf-16') == run(program, ['fmt'], text)[1], 'the edits are wrong'
        server.change(3, [{'range': {'start': {'line': 0, 'character': 0}, 'end': {'line': 0, 'character': 0}},
                           'text': '# c\n'}])
        answer, after = server.request('textDocument/codeAction', {
            'textDocument': {'uri': NAME}, 'context': {'only': ['quickfix']}})
        said = before + after
        if 'error' in answer:
            assert answer['error']['code'] == -32803 and 'open it again' in answer['error']['message'], answer
            outcome = 'lost, told' if said else 'lost'
            published = [m['params'] for m in said if m['method'] == 'textDocument/publishDiagnostics']
            assert not published or published[-1] == {'uri': NAME, 'diagnostics': []}, published
        else:
            assert answer['result'] == [], answer
            outcome = 'kept' if len(said) == 2 else 'unpublished'
            assert [m['params']['version'] for m in said] in ([], [2], [3], [2, 3]), said
        server.change(4, [{'text': 'b:   [1,  2]\n'}])
        check_diagnostics(program, server.receive(), 'b:   [1,  2]\n', 4, 'utf-16')
        check_document(program, server, 'b:   [1,  2]\n', 'utf-16')
        server.request('shutdown')
        server.notify('exit')
        assert server.end() == (0, b'', b''), 'the end of a session'
    except (BrokenPipeError, TypeError):
        # the server ended in the middle of the session, so nothing more can be received
        status, _, errors = server.end()
        assert status == 3 and b'memory' in errors, (limit, status, errors)
        return 'ended'
    return outcome


def refused_memory(program):
    """Runs the session with too little memory for the text, and then with more each time, until all of it is done."""
    outcomes = [with_memory(program, part << 19, 100_000) for part in range(8, 16)]
    assert any(outcome.startswith('lost') for outcome in outcomes), outcomes
    limit = 8 << 20
    while outcomes[-1] != 'kept':
        outcomes.append(with_memory(program, limit, 10_000))
        limit += 8 << 20
    return {name: outcomes.count(name) for name in sorted(set(outcomes))}
