// Shows, where a program of SecreC is opened or saved, its refusal at the place, with what `secrec-explain` says of it.
'use strict';
const { execFile } = require('child_process');
const vscode = require('vscode');

const LANGUAGE = 'secrec';
const PATIENCE = 20000;

// What is told of a finding, as an editor takes it: the place from 0, and the text. A refusal without a place stands at the first line.
function told(finding) {
  const line = Math.max((finding.line || 1) - 1, 0);
  const column = Math.max((finding.column || 1) - 1, 0);
  return { line, column, end: column + (finding.length || 1), text: [finding.refusal, ...finding.says].join('\n') };
}

// Shows what the command has printed of a document.
function show(found, document, printed) {
  const finding = JSON.parse(printed || '{}');
  if (!finding.refusal) {
    found.delete(document.uri);
    return;
  }
  const { line, column, end, text } = told(finding);
  const place = new vscode.Range(line, column, line, end);
  const diagnostic = new vscode.Diagnostic(place, text, vscode.DiagnosticSeverity.Error);
  diagnostic.source = LANGUAGE;
  found.set(document.uri, [diagnostic]);
}

// Asks the command about a document, and shows its answer; `said` is told once that the command can't be called.
function ask(found, document, said) {
  if (document.languageId !== LANGUAGE || document.uri.scheme !== 'file') return;
  const command = vscode.workspace.getConfiguration(LANGUAGE).get('explain');
  execFile(command, ['--json', 'check', document.uri.fsPath], { timeout: PATIENCE }, (error, printed) => {
    if (error && error.code === 'ENOENT') {
      said(`${command} is not on the path: ./install puts it there, or set secrec.explain`);
      return;
    }
    try {
      show(found, document, printed);
    } catch (_) {
      found.delete(document.uri);
    }
  });
}

function activate(context) {
  const found = vscode.languages.createDiagnosticCollection(LANGUAGE);
  let told = false;
  const said = (text) => {
    if (!told) vscode.window.showWarningMessage(text);
    told = true;
  };
  context.subscriptions.push(
    found,
    vscode.workspace.onDidOpenTextDocument((document) => ask(found, document, said)),
    vscode.workspace.onDidSaveTextDocument((document) => ask(found, document, said)),
    vscode.workspace.onDidCloseTextDocument((document) => found.delete(document.uri))
  );
  vscode.workspace.textDocuments.forEach((document) => ask(found, document, said));
}

module.exports = { activate, told };
