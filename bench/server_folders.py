"""Documents in folders with different settings files, for bench/server_client.py."""
import os
import tempfile
import urllib.parse

from server_model import Server, apply, initialize


def formatted_at_save(server, uri, text):
    """The text of a document after the edits before a save, or None if it gets none."""
    answer, _ = server.request('textDocument/willSaveWaitUntil', {'textDocument': {'uri': uri}, 'reason': 1})
    return None if answer['result'] is None else apply(text, answer['result'], 'utf-16')


def problems_of(server, uri):
    answer, _ = server.request('textDocument/diagnostic', {'textDocument': {'uri': uri}})
    return [(d['code'], d['message']) for d in answer['result']['items']]


NESTED = 'a:\n   b: 1\n'


def nested(indent):
    return '---\na:\n' + ' ' * indent + 'b: 1\n'


def folders(program):
    """Each document has the settings of its folder, as they are now. Templates and excluded files stay."""
    with tempfile.TemporaryDirectory() as top:
        def write(name, text):
            path = os.path.join(top, name)
            os.makedirs(os.path.dirname(path), exist_ok=True)
            with open(path, 'w', encoding='utf-8') as file:
                file.write(text)

        def uri(name):
            return 'file://' + urllib.parse.quote(os.path.join(top, name))

        write('.yamlfmt.toml', 'indent = 3\n')
        write('four #1 \u00e9/.yamlfmt.toml', 'indent = 4\nexclude = ["no.yaml"]\n')
        write('four #1 \u00e9/inner/x', '')
        write('work/.git/x', '')
        write('faulty/.yamlfmt.toml', 'indent = 9\n')
        write('other/.yamlfmt.toml', 'required_version = ">=99"\n')
        write('any/.yamlfmt.toml', 'any_text = true\n')
        os.makedirs(os.path.join(top, 'folder/.yamlfmt.toml'))
        server = Server(program, folder=top)
        initialize(server)
        config = os.path.join(top, 'faulty/.yamlfmt.toml')
        template, lines = '{{ x }}\n', 'a b\nc d\n'
        said = {'faulty': f'{config}: config: indent',
                'other': os.path.join(top, 'other/.yamlfmt.toml')
                + ': required_version: the settings require yamlfmt >=99',
                'folder': os.path.join(top, 'folder/.yamlfmt.toml') + ': read failed'}
        for name, text, wanted in (
                (uri('a.yaml'), NESTED, nested(3)), (uri('four #1 \u00e9/a.yaml'), NESTED, nested(4)),
                (uri('four #1 \u00e9/inner/a.yaml'), NESTED, nested(4)), (uri('work/new/a.yaml'), NESTED, nested(2)),
                (uri('four #1 \u00e9/no.yaml'), NESTED, None), (uri('four #1 \u00e9/inner/no.yaml'), NESTED, None),
                (uri('a/no.yaml'), NESTED, nested(3)), ('untitled:one', NESTED, nested(3)),
                ('file:a.yaml', NESTED, nested(3)), ('file://host/a.yaml', NESTED, nested(3)),
                (uri('t.yaml'), template, None), (uri('l.yaml'), lines, None), ('untitled:two', template, None),
                (uri('any/l.yaml'), lines, '---\na b c d\n'), (uri('any/v.yaml'), '$ANSIBLE_VAULT;1.1\n', None),
                *((uri(folder + '/a.yaml'), NESTED, None) for folder in said)):
            server.open(text, uri=name)
            published = server.receive()['params']
            assert formatted_at_save(server, name, text) == wanted, (name, text, wanted)
            listed = problems_of(server, name)
            assert listed == [(d['code'], d['message']) for d in published['diagnostics']], (name, listed, published)
            whole = {'start': {'line': 0, 'character': 0}, 'end': {'line': 9, 'character': 0}}
            for method in ('formatting', 'rangeFormatting'):
                answer, _ = server.request('textDocument/' + method, {'textDocument': {'uri': name}, 'range': whole})
                assert (answer['result'] is None) == (wanted is None), (name, method, answer)
            answer, _ = server.request('textDocument/codeAction', {'textDocument': {'uri': name}, 'range': whole})
            assert (answer['result'] == []) == (wanted is None), (name, answer)
            if 'no.yaml' in name and wanted is None:
                assert listed == [], (name, listed)
        for folder, message in said.items():
            assert problems_of(server, uri(folder + '/a.yaml')) == [('settings', message)], folder
        # the file changes: what counts is how it is now
        write('faulty/.yamlfmt.toml', 'indent = 5\n')
        server.notify('textDocument/didSave', {'textDocument': {'uri': uri('faulty/.yamlfmt.toml')}})
        assert formatted_at_save(server, uri('faulty/a.yaml'), NESTED) == nested(5)
        assert 'settings' not in dict(problems_of(server, uri('faulty/a.yaml')))
        os.remove(config)
        assert formatted_at_save(server, uri('faulty/a.yaml'), NESTED) == nested(3)
        server.request('shutdown')
        server.notify('exit')
        assert server.end() == (0, b'', b'')
        # `--config` and `--no-config` count for each document
        for words, wanted in ((('--config', 'four #1 \u00e9/.yamlfmt.toml'), nested(4)), (('--no-config',), nested(2))):
            server = Server(program, ('server', *words), folder=top)
            initialize(server)
            for name in ('a.yaml', 'other/a.yaml', 'four #1 \u00e9/inner/no.yaml', 'no.yaml'):
                server.open(NESTED, uri=uri(name))
                is_out = 'inner/no' in name and len(words) == 2
                assert formatted_at_save(server, uri(name), NESTED) == (None if is_out else wanted), (words, name)
            server.process.stdin.close()
            server.process.stdout.read()
            assert server.process.wait() == 1
