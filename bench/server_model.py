"""What `bench/server_client.py` needs: a running server, and a model of texts, positions and edits."""
import json
import resource
import subprocess

NAME = 'file:///tmp/one.yaml'
CAPABILITIES = {
    'textDocumentSync': {'openClose': True, 'change': 2, 'willSaveWaitUntil': True},
    'documentFormattingProvider': True,
    'documentRangeFormattingProvider': True,
    'foldingRangeProvider': True,
    'documentSymbolProvider': True,
    'selectionRangeProvider': True,
    'codeActionProvider': {'codeActionKinds': ['source.fixAll.yamlfmt']},
    'diagnosticProvider': {'interFileDependencies': False, 'workspaceDiagnostics': False},
}


class Server:
    """A running server, and its pipes."""

    def __init__(self, program, words=('server',), limit=None, folder=None):
        """limit: how many bytes of memory it may have; folder: the one that it starts in"""
        refuse = (lambda: resource.setrlimit(resource.RLIMIT_AS, (limit, limit))) if limit else None
        self.process = subprocess.Popen([program, *words], stdin=subprocess.PIPE, stdout=subprocess.PIPE,
                                        stderr=subprocess.PIPE, preexec_fn=refuse, cwd=folder)
        self.next_id = 0

    def write(self, data):
        self.process.stdin.write(data)
        self.process.stdin.flush()

    def send(self, message):
        body = json.dumps(message, ensure_ascii=False).encode()
        self.write(b'Content-Length: %d\r\n\r\n' % len(body) + body)

    def notify(self, method, params=None):
        message = {'jsonrpc': '2.0', 'method': method}
        if params is not None:
            message['params'] = params
        self.send(message)

    def receive(self):
        length = None
        while True:
            line = self.process.stdout.readline()
            if not line:
                return None
            if line == b'\r\n':
                break
            name, value = line.split(b':', 1)
            if name.lower() == b'content-length':
                length = int(value)
        return json.loads(self.process.stdout.read(length))

    def request(self, method, params=None):
        """Sends a request and returns its response, and the notifications before it."""
        self.next_id += 1
        message = {'jsonrpc': '2.0', 'id': self.next_id, 'method': method}
        if params is not None:
            message['params'] = params
        self.send(message)
        before = []
        while True:
            answer = self.receive()
            if answer is None or 'id' in answer:
                return answer, before
            before.append(answer)

    def end(self):
        """Closes the input, and returns the status and what was written since."""
        output, errors = self.process.communicate(timeout=60)
        return self.process.returncode, output, errors

    def open(self, text, version=1, uri=NAME):
        self.notify('textDocument/didOpen', {'textDocument': {
            'uri': uri, 'languageId': 'yaml', 'version': version, 'text': text}})

    def change(self, version, changes, uri=NAME):
        self.notify('textDocument/didChange', {'textDocument': {'uri': uri, 'version': version},
                                               'contentChanges': changes})


def initialize(server, encodings=None):
    capabilities = {'general': {'positionEncodings': encodings}} if encodings else {}
    answer, _ = server.request('initialize', {'processId': None, 'rootUri': None, 'capabilities': capabilities})
    server.notify('initialized', {})
    return answer['result']['capabilities']


# ---- the model: positions in UTF-16, lines that end with LF, CR LF or CR

def lines_of(text):
    lines, start, at = [], 0, 0
    while at < len(text):
        if text.startswith('\r\n', at):
            lines.append((start, at))
            at += 2
            start = at
        elif text[at] in '\r\n':
            lines.append((start, at))
            at += 1
            start = at
        else:
            at += 1
    lines.append((start, len(text)))
    return lines


def units(character, encoding):
    if encoding == 'utf-32':
        return 1
    if encoding == 'utf-8':
        return len(character.encode())
    return 2 if ord(character) > 0xFFFF else 1


def offset_of(text, position, encoding):
    lines = lines_of(text)
    if position['line'] >= len(lines):
        return len(text)
    start, end = lines[position['line']]
    left = position['character']
    at = start
    while at < end and left >= units(text[at], encoding):
        left -= units(text[at], encoding)
        at += 1
    return at


def position_of(text, offset, encoding):
    lines = lines_of(text)
    number = max(k for k, line in enumerate(lines) if line[0] <= offset)
    start, end = lines[number]
    return {'line': number, 'character': sum(units(c, encoding) for c in text[start:min(offset, end)])}


def apply(text, edits, encoding):
    """The text after text edits, which are all of the same text."""
    spans = [(offset_of(text, e['range']['start'], encoding), offset_of(text, e['range']['end'], encoding),
              e['newText']) for e in edits]
    for before, after in zip(spans, spans[1:]):
        assert before[1] <= after[0], 'edits overlap'
    for start, end, new in reversed(spans):
        text = text[:start] + new + text[end:]
    return text


# ---- what the program says of a text elsewhere

def run(program, command, text):
    done = subprocess.run([program, *command], input=text.encode(), capture_output=True, check=False)
    return done.returncode, done.stdout.decode(), done.stderr.decode()
