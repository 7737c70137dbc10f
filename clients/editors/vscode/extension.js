// Connects VS Code with the language server for modules. It speaks the protocol itself: nothing is installed beside this folder.
'use strict';

const { spawn } = require('child_process');
const vscode = require('vscode');

/** A server, and the requests that wait for its answers. */
class Connection {
  constructor(command, words, folder, noticed, ended) {
    this.waiting = new Map();
    this.number = 0;
    this.got = Buffer.alloc(0);
    this.noticed = noticed;
    this.process = spawn(command, words, { cwd: folder, stdio: ['pipe', 'pipe', 'ignore'] });
    this.process.stdout.on('data', data => this.take(data));
    this.process.stdin.on('error', () => {});
    this.process.on('error', ended);
    this.process.on('exit', status => {
      for (const { reject } of this.waiting.values()) reject(new Error('the server has ended'));
      this.waiting.clear();
      if (status !== 0) ended(new Error(`the server has ended with status ${status}`));
    });
  }

  send(message) {
    const data = Buffer.from(JSON.stringify({ jsonrpc: '2.0', ...message }));
    this.process.stdin.write(`Content-Length: ${data.length}\r\n\r\n`);
    this.process.stdin.write(data);
  }

  note(method, params) {
    this.send({ method, params });
  }

  ask(method, params) {
    const id = ++this.number;
    return new Promise((resolve, reject) => {
      this.waiting.set(id, { resolve, reject });
      this.send({ id, method, params });
    });
  }

  take(data) {
    this.got = Buffer.concat([this.got, data]);
    for (;;) {
      const end = this.got.indexOf('\r\n\r\n');
      if (end < 0) return;
      const length = Number(/content-length: *(\d+)/i.exec(this.got.toString('latin1', 0, end))[1]);
      if (this.got.length < end + 4 + length) return;
      const message = JSON.parse(this.got.toString('utf8', end + 4, end + 4 + length));
      this.got = this.got.subarray(end + 4 + length);
      const waiting = this.waiting.get(message.id);
      if (!waiting || message.method) {
        this.noticed(message);
        continue;
      }
      this.waiting.delete(message.id);
      if (message.error) waiting.reject(new Error(message.error.message));
      else waiting.resolve(message.result);
    }
  }
}

// ---- what the protocol and VS Code call by different names

const rangeOf = it => new vscode.Range(it.start.line, it.start.character, it.end.line, it.end.character);
const locationOf = it => new vscode.Location(vscode.Uri.parse(it.uri), rangeOf(it.range));
const placeOf = (document, position) => ({
  textDocument: { uri: document.uri.toString() },
  position: { line: position.line, character: position.character },
});

function diagnosticOf(it) {
  const found = new vscode.Diagnostic(rangeOf(it.range), it.message, it.severity - 1);
  found.source = it.source;
  found.code = it.code;
  found.tags = it.tags;
  found.data = it.data;
  const related = it.relatedInformation || [];
  found.relatedInformation = related.map(one => new vscode.DiagnosticRelatedInformation(locationOf(one.location), one.message));
  return found;
}

function editOf(found) {
  const edit = new vscode.WorkspaceEdit();
  for (const [uri, edits] of Object.entries(found.changes))
    for (const it of edits) edit.replace(vscode.Uri.parse(uri), rangeOf(it.range), it.newText);
  return edit;
}

function completionOf(it) {
  const found = new vscode.CompletionItem(it.label, it.kind - 1);
  found.detail = it.detail;
  found.documentation = it.documentation;
  found.filterText = it.filterText;
  found.sortText = it.sortText;
  if (it.insertText) found.insertText = it.insertTextFormat === 2 ? new vscode.SnippetString(it.insertText) : it.insertText;
  return found;
}

function symbolOf(it) {
  return new vscode.DocumentSymbol(it.name, it.detail, it.kind - 1, rangeOf(it.range), rangeOf(it.selectionRange));
}

function hoverOf(it) {
  return it && new vscode.Hover(new vscode.MarkdownString(it.contents.value));
}

function signatureOf(it) {
  if (!it) return null;
  const found = new vscode.SignatureHelp();
  found.signatures = it.signatures.map(one => {
    const signature = new vscode.SignatureInformation(one.label, one.documentation);
    signature.parameters = one.parameters.map(parameter => new vscode.ParameterInformation(parameter.label));
    return signature;
  });
  found.activeSignature = it.activeSignature;
  found.activeParameter = it.activeParameter;
  return found;
}

// ---- the extension

const LANGUAGE = 'stratego';
let connection = null;

function providers(ask, legend) {
  const { languages } = vscode;
  const of = document => ({ textDocument: { uri: document.uri.toString() } });
  return [
    languages.registerCompletionItemProvider(LANGUAGE, {
      provideCompletionItems: async (document, position) => (await ask('completion', placeOf(document, position))).map(completionOf),
    }, '<', '!', '?'),
    languages.registerHoverProvider(LANGUAGE, {
      provideHover: async (document, position) => hoverOf(await ask('hover', placeOf(document, position))),
    }),
    languages.registerSignatureHelpProvider(LANGUAGE, {
      provideSignatureHelp: async (document, position) => signatureOf(await ask('signatureHelp', placeOf(document, position))),
    }, '(', ',', '|'),
    languages.registerDefinitionProvider(LANGUAGE, {
      provideDefinition: async (document, position) => (await ask('definition', placeOf(document, position))).map(locationOf),
    }),
    languages.registerReferenceProvider(LANGUAGE, {
      provideReferences: async (document, position, context) =>
        (await ask('references', { ...placeOf(document, position), context })).map(locationOf),
    }),
    languages.registerDocumentHighlightProvider(LANGUAGE, {
      provideDocumentHighlights: async (document, position) =>
        (await ask('documentHighlight', placeOf(document, position))).map(it => new vscode.DocumentHighlight(rangeOf(it.range), it.kind - 1)),
    }),
    languages.registerRenameProvider(LANGUAGE, {
      prepareRename: async (document, position) => {
        const found = await ask('prepareRename', placeOf(document, position));
        if (!found) throw new Error('there is no name');
        return { range: rangeOf(found.range), placeholder: found.placeholder };
      },
      provideRenameEdits: async (document, position, newName) => {
        const found = await ask('rename', { ...placeOf(document, position), newName });
        return found && editOf(found);
      },
    }),
    languages.registerDocumentSymbolProvider(LANGUAGE, {
      provideDocumentSymbols: async document => (await ask('documentSymbol', of(document))).map(symbolOf),
    }),
    languages.registerFoldingRangeProvider(LANGUAGE, {
      provideFoldingRanges: async document =>
        (await ask('foldingRange', of(document))).map(it => new vscode.FoldingRange(it.startLine, it.endLine, it.kind === 'comment' ? 1 : 3)),
    }),
    languages.registerDocumentFormattingEditProvider(LANGUAGE, {
      provideDocumentFormattingEdits: async document =>
        (await ask('formatting', { ...of(document), options: {} })).map(it => new vscode.TextEdit(rangeOf(it.range), it.newText)),
    }),
    languages.registerCodeLensProvider(LANGUAGE, {
      provideCodeLenses: async document => (await ask('codeLens', of(document))).map(it => new vscode.CodeLens(rangeOf(it.range), it.command)),
    }),
    languages.registerCodeActionsProvider(LANGUAGE, {
      provideCodeActions: async (document, range, context) => {
        const diagnostics = context.diagnostics.filter(it => it.data).map(it => ({ data: it.data }));
        const found = await ask('codeAction', { ...of(document), context: { diagnostics } });
        return found.map(it => {
          const action = new vscode.CodeAction(it.title, vscode.CodeActionKind.QuickFix);
          action.edit = editOf(it.edit);
          return action;
        });
      },
    }),
    languages.registerDocumentSemanticTokensProvider(LANGUAGE, {
      provideDocumentSemanticTokens: async document => new vscode.SemanticTokens(new Uint32Array((await ask('semanticTokens/full', of(document))).data)),
    }, new vscode.SemanticTokensLegend(legend.tokenTypes, legend.tokenModifiers)),
  ];
}

async function activate(context) {
  const settings = vscode.workspace.getConfiguration('stratbench');
  const [command, ...words] = settings.get('server');
  const folders = vscode.workspace.workspaceFolders;
  const diagnostics = vscode.languages.createDiagnosticCollection('stratbench');
  const noticed = ({ method, params }) => {
    if (method === 'textDocument/publishDiagnostics') diagnostics.set(vscode.Uri.parse(params.uri), params.diagnostics.map(diagnosticOf));
    else if (method === 'window/showMessage' && params.type === 3) vscode.window.showInformationMessage(params.message);
    else if (method === 'window/showMessage') vscode.window.showWarningMessage(params.message);
  };
  const ended = error => vscode.window.showErrorMessage(`stratbench: ${command}: ${error.message}`);
  connection = new Connection(command, words, folders && folders[0].uri.fsPath, noticed, ended);
  const { capabilities } = await connection.ask('initialize', { processId: process.pid, rootUri: null, capabilities: {} });
  connection.note('initialized', {});

  const told = document => document.languageId === LANGUAGE && document.uri.scheme === 'file';
  const open = document => {
    if (!told(document)) return;
    const textDocument = { uri: document.uri.toString(), languageId: LANGUAGE, version: document.version, text: document.getText() };
    connection.note('textDocument/didOpen', { textDocument });
  };
  const { workspace } = vscode;
  const server = connection;
  context.subscriptions.push(
    diagnostics,
    workspace.onDidOpenTextDocument(open),
    workspace.onDidChangeTextDocument(({ document }) => {
      if (!told(document)) return;
      const textDocument = { uri: document.uri.toString(), version: document.version };
      server.note('textDocument/didChange', { textDocument, contentChanges: [{ text: document.getText() }] });
    }),
    workspace.onDidSaveTextDocument(document => {
      if (told(document)) server.note('textDocument/didSave', { textDocument: { uri: document.uri.toString() } });
    }),
    workspace.onDidCloseTextDocument(document => {
      if (told(document)) server.note('textDocument/didClose', { textDocument: { uri: document.uri.toString() } });
    }),
    vscode.commands.registerCommand('stratbench.try', (...words) => server.ask('workspace/executeCommand', { command: 'stratbench.try', arguments: words })),
    ...providers((method, params) => server.ask(`textDocument/${method}`, params), capabilities.semanticTokensProvider.legend),
  );
  workspace.textDocuments.forEach(open);
}

async function deactivate() {
  if (!connection) return;
  await connection.ask('shutdown', {}).catch(() => {});
  connection.note('exit', {});
  connection = null;
}

module.exports = { activate, deactivate };
