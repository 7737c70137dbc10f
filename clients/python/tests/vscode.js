// Starts the extension for VS Code with a stand-in for VS Code's API, opens a module and asks what an editor asks. Prints what comes of it.
'use strict';

const Module = require('module');
const fs = require('fs');
const [folder, file] = process.argv.slice(2);

class Range { constructor(...at) { this.at = at; } }
class Named { constructor(...given) { this.given = given; } }
const registered = {};
const listeners = {};
const register = name => (language, provider) => { registered[name] = provider; return { dispose() {} }; };
const on = name => listener => { listeners[name] = listener; return { dispose() {} }; };
let told = () => {};
const found = [];
const names = 'Completion Hover SignatureHelp Definition Reference DocumentHighlight Rename DocumentSymbol FoldingRange CodeLens CodeActions'.split(' ');
const vscode = {
  Range,
  Uri: { parse: uri => ({ toString: () => uri }) },
  Diagnostic: class { constructor(range, message, severity) { Object.assign(this, { range, message, severity }); } },
  WorkspaceEdit: class { constructor() { this.edits = []; } replace(uri, range, text) { this.edits.push([range.at, text]); } },
  SignatureHelp: class {}, CodeActionKind: { QuickFix: 'quickfix' },
  CompletionItem: class { constructor(label) { this.label = label; } },
  ...Object.fromEntries(('Location DiagnosticRelatedInformation SnippetString DocumentSymbol Hover MarkdownString SignatureInformation ParameterInformation ' +
    'DocumentHighlight FoldingRange TextEdit CodeLens CodeAction SemanticTokens SemanticTokensLegend').split(' ').map(name => [name, class extends Named {}])),
  window: {
    showInformationMessage: text => console.log(`message: ${text}`), showWarningMessage: text => console.log(`warning: ${text}`),
    showErrorMessage: text => console.log(`error: ${text}`),
  },
  commands: { registerCommand: (name, run) => { registered[name] = run; return { dispose() {} }; } },
  languages: {
    createDiagnosticCollection: () => ({ set: (uri, every) => { if (uri.toString() === document.uri.toString()) told(every); }, dispose() {} }),
    ...Object.fromEntries(names.map(name => [`register${name}${['Completion'].includes(name) ? 'Item' : ''}Provider`, register(name)])),
    registerDocumentFormattingEditProvider: register('Formatting'), registerDocumentSemanticTokensProvider: register('SemanticTokens'),
  },
  workspace: {
    getConfiguration: () => ({ get: () => [process.env.PYTHON, '-m', 'stratbench.server'] }), workspaceFolders: undefined, textDocuments: [],
    onDidOpenTextDocument: on('open'), onDidChangeTextDocument: on('change'), onDidSaveTextDocument: on('save'), onDidCloseTextDocument: on('close'),
  },
};
const load = Module._load;
Module._load = (name, ...more) => (name === 'vscode' ? vscode : load(name, ...more));
const extension = require(`${folder}/extension.js`);

let text = fs.readFileSync(file, 'utf8');
const document = {
  uri: { scheme: 'file', toString: () => `file://${file}` }, languageId: 'stratego', version: 1, getText: () => text,
};
const diagnosed = () => new Promise(resolve => { told = resolve; });
const change = async new_text => { text = new_text; const next = diagnosed(); listeners.change({ document }); return next; };
const at = (line, character) => ({ line, character });

async function main() {
  await extension.activate({ subscriptions: [] });
  const first = diagnosed();
  listeners.open(document);
  console.log('diagnostics', (await first).length);
  const whole = text;
  const wrong = await change(text.replace('= s; s', '= s; twic'));
  console.log('diagnostic', wrong[0].range.at.join(' '), wrong[0].severity, wrong[0].message.split('\n')[0]);
  const [fix] = await registered.CodeActions.provideCodeActions(document, null, { diagnostics: wrong });
  console.log('fix', JSON.stringify(fix.edit.edits));
  console.log('diagnostics', (await change(whole)).length);
  const completions = await registered.Completion.provideCompletionItems(document, at(3, 13));
  const twice = completions.find(it => it.filterText === 'twice');
  console.log('completion', twice.label, twice.insertText.given[0]);
  console.log('hover', (await registered.Hover.provideHover(document, at(3, 4))).given[0].given[0].split('\n')[1]);
  console.log('definitions', (await registered.Definition.provideDefinition(document, at(4, 13))).length);
  console.log('references', (await registered.Reference.provideReferences(document, at(4, 13), { includeDeclaration: true })).length);
  console.log('rename', JSON.stringify((await registered.Rename.provideRenameEdits(document, at(3, 3), 'double')).edits));
  console.log('symbols', (await registered.DocumentSymbol.provideDocumentSymbols(document)).map(it => it.given[0]).join(' '));
  console.log('tokens', (await registered.SemanticTokens.provideDocumentSemanticTokens(document)).given[0].length % 5);
  console.log('layout', (await registered.Formatting.provideDocumentFormattingEdits(document)).length);
  console.log('signature', (await registered.SignatureHelp.provideSignatureHelp(document, at(4, 18))).signatures[0].given[0]);
  const lenses = await registered.CodeLens.provideCodeLenses(document);
  await registered['stratbench.try'](...lenses[0].given[1].arguments);
  await extension.deactivate();
}

main().catch(error => { console.log(error.stack); process.exit(1); });
