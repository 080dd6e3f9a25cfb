'use strict';

const { spawn } = require('child_process');
const vscode = require('vscode');
const { Connection } = require('./connection');

const DOCUMENTS = [{ language: 'yaml', scheme: 'file' }, { language: 'yaml', scheme: 'untitled' }];
let session;

const uriOf = (document) => ({ uri: document.uri.toString() });

function rangeOf({ start, end }) {
  return new vscode.Range(start.line, start.character, end.line, end.character);
}

function diagnosticOf(found) {
  // The protocol counts severities from 1, and VS Code counts them from 0.
  const made = new vscode.Diagnostic(rangeOf(found.range), found.message, found.severity - 1);
  made.code = found.code;
  made.source = 'yamlfmt';
  return made;
}

/** One run of the server, with what it shows. */
class Session {
  constructor() {
    const settings = vscode.workspace.getConfiguration('yamlfmt');
    const folder = (vscode.workspace.workspaceFolders || []).find(({ uri }) => uri.scheme === 'file');
    const words = ['server', ...(settings.get('config') ? ['--config', settings.get('config')] : [])];
    this.isStopping = false;
    this.said = '';
    this.opened = new Set();
    this.shown = vscode.languages.createDiagnosticCollection('yamlfmt');
    this.parts = [this.shown];
    this.server = spawn(settings.get('path'), words, { cwd: folder && folder.uri.fsPath });
    this.connection = new Connection(this.server, (method, params) => this.received(method, params));
    this.server.stdin.on('error', () => {});
    this.server.stderr.on('data', (text) => { this.said += text; });
    this.server.on('error', (error) => this.ended(error.message));
    this.server.on('close', (status) => this.ended(this.said.trim() || `status ${status}`));
  }

  async start() {
    await this.connection.request('initialize', { processId: process.pid, rootUri: null, capabilities: {} });
    if (this.isStopping) {
      return;
    }
    this.connection.notify('initialized', {});
    const { workspace, languages } = vscode;
    workspace.textDocuments.forEach((document) => this.open(document));
    this.parts.push(
      workspace.onDidOpenTextDocument((document) => this.open(document)),
      workspace.onDidChangeTextDocument((event) => this.change(event)),
      workspace.onDidCloseTextDocument((document) => this.close(document)),
      languages.registerDocumentFormattingEditProvider(DOCUMENTS, {
        provideDocumentFormattingEdits: (document, options) => this.format(document, options),
      }),
    );
  }

  open(document) {
    if (vscode.languages.match(DOCUMENTS, document)) {
      const { languageId, version } = document;
      this.opened.add(document.uri.toString());
      const textDocument = { ...uriOf(document), languageId, version, text: document.getText() };
      this.connection.notify('textDocument/didOpen', { textDocument });
    }
  }

  change({ document, contentChanges }) {
    if (this.opened.has(document.uri.toString()) && contentChanges.length > 0) {
      this.connection.notify('textDocument/didChange', {
        textDocument: { ...uriOf(document), version: document.version },
        contentChanges: contentChanges.map(({ range: { start, end }, text }) => ({
          range: {
            start: { line: start.line, character: start.character },
            end: { line: end.line, character: end.character },
          },
          text,
        })),
      });
    }
  }

  close(document) {
    if (this.opened.delete(document.uri.toString())) {
      this.connection.notify('textDocument/didClose', { textDocument: uriOf(document) });
    }
  }

  async format(document, { tabSize, insertSpaces }) {
    const params = { textDocument: uriOf(document), options: { tabSize, insertSpaces } };
    const edits = await this.connection.request('textDocument/formatting', params);
    if (!edits || edits.length === 0) {
      return [];
    }
    const made = edits.map((edit) => vscode.TextEdit.replace(rangeOf(edit.range), edit.newText));
    return [...made, vscode.TextEdit.setEndOfLine(vscode.EndOfLine.LF)];
  }

  received(method, params) {
    if (method === 'textDocument/publishDiagnostics') {
      this.shown.set(vscode.Uri.parse(params.uri), params.diagnostics.map(diagnosticOf));
    } else if (method === 'window/logMessage') {
      console.warn(`yamlfmt: ${params.message}`);
    }
  }

  ended(reason) {
    this.connection.end(new Error(reason));
    if (!this.isStopping) {
      this.dispose();
      vscode.window.showErrorMessage(`yamlfmt: the server ended: ${reason}`);
    }
  }

  dispose() {
    this.isStopping = true;
    this.parts.splice(0).forEach((part) => part.dispose());
  }

  async stop() {
    if (!this.isStopping) {
      this.dispose();
      setTimeout(() => this.server.kill(), 2000).unref();
      await this.connection.request('shutdown').catch(() => {});
      this.connection.notify('exit');
      this.server.stdin.end();
    }
  }
}

async function restart() {
  const ending = session;
  const started = new Session();
  session = started;
  if (ending) {
    ending.stop();
  }
  // If the server does not start, `ended` shows why.
  await started.start().catch(() => {});
}

async function deactivate() {
  if (session) {
    await session.stop();
  }
}

function activate(context) {
  context.subscriptions.push(
    vscode.commands.registerCommand('yamlfmt.restart', restart),
    vscode.workspace.onDidChangeConfiguration((event) => event.affectsConfiguration('yamlfmt') && restart()),
  );
  return restart();
}

module.exports = { activate, deactivate };
