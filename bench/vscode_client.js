// Runs editors/vscode in Node, with a stand-in for the part of VS Code's API that it uses, and the program.
//
//   node bench/vscode_client.js PROGRAM
//
// It opens a document, changes and formats it, and compares what the extension shows and applies with what the program
// prints by `check` and `fmt`. It throws at a difference.
'use strict';

const assert = require('assert');
const { spawnSync } = require('child_process');
const fs = require('fs');
const Module = require('module');
const os = require('os');
const path = require('path');

const program = path.resolve(process.argv[2]);
const room = fs.mkdtempSync(path.join(os.tmpdir(), 'yamlfmt-'));
const status = path.join(room, 'status');
const settings = { path: path.join(room, 'yamlfmt'), config: '' };
const shown = new Map();
const errors = [];
const listeners = {};
let provider;

const event = (name) => (listener) => {
  listeners[name] = listener;
  return { dispose: () => delete listeners[name] };
};

const vscode = {
  Range: class {
    constructor(line, character, endLine, endCharacter) {
      this.start = { line, character };
      this.end = { line: endLine, character: endCharacter };
    }
  },
  Diagnostic: class {
    constructor(range, message, severity) {
      Object.assign(this, { range, message, severity });
    }
  },
  EndOfLine: { LF: 1, CRLF: 2 },
  TextEdit: { replace: (range, newText) => ({ range, newText }), setEndOfLine: (newEol) => ({ newEol }) },
  Uri: { parse: (text) => ({ scheme: 'file', toString: () => text }) },
  commands: { registerCommand: () => ({ dispose() {} }) },
  languages: {
    createDiagnosticCollection: () => ({
      set: (uri, found) => shown.set(String(uri), found),
      dispose: () => shown.clear(),
    }),
    match: (filters, { languageId, uri }) => filters
      .some(({ language, scheme }) => language === languageId && scheme === uri.scheme),
    registerDocumentFormattingEditProvider: (_, given) => {
      provider = given;
      return { dispose() { provider = undefined; } };
    },
  },
  window: { showErrorMessage: (text) => errors.push(text) },
  workspace: {
    workspaceFolders: [{ uri: { scheme: 'file', fsPath: room } }],
    textDocuments: [],
    getConfiguration: () => ({ get: (name) => settings[name] }),
    onDidChangeConfiguration: event('settings'),
    onDidOpenTextDocument: event('open'),
    onDidChangeTextDocument: event('change'),
    onDidCloseTextDocument: event('close'),
  },
};

const load = Module._load;
Module._load = (name, ...more) => (name === 'vscode' ? vscode : load(name, ...more));
const { activate, deactivate } = require('../editors/vscode/client.js');

// A document whose lines end with LF, so JavaScript's units are those of the protocol.
function documentOf(text) {
  const uri = vscode.Uri.parse('file:///tmp/a%20b.yaml');
  return { uri, languageId: 'yaml', version: 1, text, getText() { return this.text; } };
}

function offsetOf(text, { line, character }) {
  let start = 0;
  for (; line > 0 && text.indexOf('\n', start) >= 0; line--) {
    start = text.indexOf('\n', start) + 1;
  }
  return line > 0 ? text.length : start + character;
}

function edited(text, edits) {
  return edits.filter((edit) => edit.range).reverse().reduce((rest, { range: { start, end }, newText }) => (
    rest.slice(0, offsetOf(text, start)) + newText + rest.slice(offsetOf(text, end))), text);
}

function change(document, start, text) {
  document.text = edited(document.text, [{ range: { start, end: start }, newText: text }]);
  document.version++;
  listeners.change({ document, contentChanges: [{ range: { start, end: start }, text }] });
}

const printed = (words, input) => spawnSync(program, words, { input, encoding: 'utf8' }).stdout;

// Waits until the extension shows what `check` finds in the document.
async function agreed(document) {
  const lines = printed(['check'], document.text).trim().split('\n').filter(Boolean);
  const wanted = lines.map((line) => line.split(' ').slice(0, 2).join(' '));
  let found;
  for (let left = 200; left > 0; left--) {
    found = (shown.get(String(document.uri)) || [])
      .map(({ range: { start }, code }) => `${start.line + 1}:${start.character + 1} ${code}`);
    if (JSON.stringify([...found].sort()) === JSON.stringify([...wanted].sort())) {
      return wanted.length;
    }
    await new Promise((resolve) => setTimeout(resolve, 20));
  }
  throw new assert.AssertionError({ message: 'other diagnostics', actual: found, expected: wanted });
}

async function main() {
  fs.writeFileSync(settings.path, `#!/bin/sh\n'${program}' "$@"\necho $? >> '${status}'\n`, { mode: 0o755 });
  const document = documentOf('---\na: "x" # c\n');
  vscode.workspace.textDocuments.push(document);
  await activate({ subscriptions: [] });
  assert.strictEqual(await agreed(document), 1);
  change(document, { line: 2, character: 0 }, '\u00e9: "y" # d\n');
  assert.strictEqual(await agreed(document), 2);
  change(document, { line: 2, character: 4 }, '\u{1F600}');
  assert.strictEqual(shown.get(String(document.uri))[0].severity, 1);
  const edits = await provider.provideDocumentFormattingEdits(document, { tabSize: 8, insertSpaces: false });
  assert.strictEqual(edited(document.text, edits), printed(['fmt'], document.text));
  change(document, { line: 2, character: 0 }, 'a: b: c\n');
  for (let left = 200; left > 0 && shown.get(String(document.uri))[0].severity !== 0; left--) {
    await new Promise((resolve) => setTimeout(resolve, 20));
  }
  assert.strictEqual(shown.get(String(document.uri))[0].range.start.line, 2);
  assert.deepStrictEqual(await provider.provideDocumentFormattingEdits(document, {}), []);
  await deactivate();
  for (let left = 200; left > 0 && !fs.existsSync(status); left--) {
    await new Promise((resolve) => setTimeout(resolve, 20));
  }
  assert.strictEqual(fs.readFileSync(status, 'utf8'), '0\n');
  assert.deepStrictEqual(errors, []);
  fs.writeFileSync(settings.path, '#!/bin/sh\necho no memory >&2\nexit 3\n');
  await activate({ subscriptions: [] });
  assert.match(errors[0], /no memory/);
  settings.path = path.join(room, 'none');
  await activate({ subscriptions: [] });
  assert.match(errors[1], /ENOENT/);
  assert.strictEqual(errors.length, 2);
}

main().finally(() => fs.rmSync(room, { recursive: true }));
