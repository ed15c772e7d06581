// What VS Code's extension shows and does with the language server, for .ci/editors: the facts, as
// JSON in the file `out`. VS Code itself isn't there: a stand-in has as much of its calls as the
// extension uses, so this tries the protocol and the shapes of answers alone.
//
//   node vscode.js EXTENSION FILE [SERVER]
'use strict';

const fs = require('fs');
const { pathToFileURL, fileURLToPath } = require('url');
const Module = require('module');

const [extension, name, ...server] = process.argv.slice(2);
const SETTINGS = { server, inlayHints: true };
const registered = {};
const listeners = {};
const shown = [];
const logged = [];
const diagnostics = new Map();

const dispose = () => {};
const log = (text) => logged.push(text);
const listen = (event) => (call) => {
  (listeners[event] = listeners[event] || new Set()).add(call);
  return { dispose: () => listeners[event].delete(call) };
};
const fire = (event, it) => listeners[event].forEach((call) => call(it));

class Position {
  constructor(line, character) {
    Object.assign(this, { line, character });
  }

  toJSON() {
    return { line: this.line, character: this.character };
  }
}

class Range {
  constructor(start, end) {
    Object.assign(this, { start, end });
  }

  intersection(it) {
    const before = (a, b) => a.line < b.line || (a.line === b.line && a.character <= b.character);
    return before(this.start, it.end) && before(it.start, this.end) ? this : undefined;
  }

  toJSON() {
    return [this.start, this.end];
  }
}

class Uri {
  constructor(text) {
    this.text = text;
  }

  static parse(text) {
    return new Uri(decodeURI(text));
  }

  get fsPath() {
    return fileURLToPath(this.text);
  }

  toString() {
    return encodeURI(this.text);
  }
}

// A class that keeps what it is made of under these names.
const kept = (...names) =>
  class {
    constructor(...given) {
      names.forEach((it, at) => {
        this[it] = given[at];
      });
    }
  };

class MarkdownString {
  constructor(value) {
    this.value = value || '';
  }

  appendText(text) {
    this.value += text;
    return this;
  }
}

class WorkspaceEdit {
  constructor() {
    this.all = new Map();
  }

  set(uri, edits) {
    this.all.set(uri.toString(), edits);
  }
}

const languages = new Proxy(
  {
    createDiagnosticCollection: () => ({
      set: (uri, them) => diagnostics.set(uri.toString(), them),
      delete: (uri) => diagnostics.delete(uri.toString()),
      dispose: () => diagnostics.clear(),
    }),
    match: (selector, it) => (it.languageId === 'xduce' ? 10 : 0),
  },
  {
    get: (known, call) =>
      known[call] ||
      ((...given) => {
        registered[call] = given[call === 'registerWorkspaceSymbolProvider' ? 0 : 1];
        return { dispose };
      }),
  },
);

// A text as VS Code keeps it. Changes are those of the protocol's units, UTF-16.
class Document {
  constructor(path) {
    this.uri = Uri.parse(decodeURI(pathToFileURL(path).href));
    this.languageId = 'xduce';
    this.version = 1;
    this.text = fs.readFileSync(path, 'utf8');
  }

  getText() {
    return this.text;
  }

  offset({ line, character }) {
    let at = 0;
    for (let count = 0; count < line; count += 1) {
      at = this.text.indexOf('\n', at) + 1;
    }
    return at + character;
  }

  part(range) {
    return this.text.slice(this.offset(range.start), this.offset(range.end));
  }

  // Where the word of a line begins.
  place(line, word) {
    return new Position(line - 1, this.text.split('\n')[line - 1].indexOf(word));
  }

  // The text with edits in it; it and the server keep theirs.
  with(edits) {
    const places = edits.map((it) => [this.offset(it.range.start), this.offset(it.range.end), it]);
    places.sort((a, b) => b[0] - a[0]);
    return places.reduce(
      (text, [begin, end, it]) => text.slice(0, begin) + it.newText + text.slice(end),
      this.text,
    );
  }

  apply(edits) {
    const contentChanges = [...edits]
      .sort((a, b) => this.offset(b.range.start) - this.offset(a.range.start))
      .map((it) => ({ range: it.range, text: it.newText }));
    this.text = this.with(edits);
    this.version += 1;
    fire('change', { document: this, contentChanges });
  }
}

const opened = new Document(name);
const vscode = {
  version: '0',
  Position,
  Range,
  Uri,
  MarkdownString,
  WorkspaceEdit,
  Location: kept('uri', 'range'),
  Hover: kept('contents', 'range'),
  TextEdit: kept('range', 'newText'),
  Diagnostic: kept('range', 'message', 'severity'),
  DiagnosticRelatedInformation: kept('location', 'message'),
  CodeAction: kept('title', 'kind'),
  CodeActionKind: { Empty: { append: (it) => it } },
  DocumentHighlight: kept('range', 'kind'),
  CompletionItem: kept('label', 'kind'),
  CompletionList: kept('items', 'isIncomplete'),
  SnippetString: kept('value'),
  SignatureHelp: kept(),
  SignatureInformation: kept('label', 'documentation'),
  ParameterInformation: kept('label', 'documentation'),
  DocumentSymbol: kept('name', 'detail', 'kind', 'range', 'selectionRange'),
  SymbolInformation: kept('name', 'kind', 'containerName', 'location'),
  FoldingRange: kept('start', 'end', 'kind'),
  SelectionRange: kept('range', 'parent'),
  SemanticTokens: kept('data'),
  SemanticTokensLegend: kept('tokenTypes', 'tokenModifiers'),
  InlayHint: kept('position', 'label', 'kind'),
  languages,
  commands: {
    registerCommand: (command, call) => {
      registered[command] = call;
      return { dispose };
    },
  },
  window: {
    createOutputChannel: () => ({ append: log, appendLine: log, dispose }),
    showErrorMessage: (text) => shown.push(text),
    showWarningMessage: (text) => shown.push(text),
    showInformationMessage: (text) => shown.push(text),
  },
  workspace: {
    workspaceFolders: undefined,
    textDocuments: [opened],
    getConfiguration: () => ({ ...SETTINGS, get: (it) => SETTINGS[it] }),
    createFileSystemWatcher: () => ({
      onDidCreate: listen('create'),
      onDidChange: listen('alter'),
      onDidDelete: listen('delete'),
      dispose,
    }),
    onDidOpenTextDocument: listen('open'),
    onDidChangeTextDocument: listen('change'),
    onDidCloseTextDocument: listen('close'),
    onDidSaveTextDocument: listen('save'),
    onDidChangeConfiguration: listen('configuration'),
  },
};
const load = Module._load;
Module._load = (request, ...rest) => (request === 'vscode' ? vscode : load(request, ...rest));

async function until(what) {
  for (let count = 0; count < 750 && !what(); count += 1) {
    await new Promise((resolve) => setTimeout(resolve, 20));
  }
}

const SEVERITIES = ['error', 'warning', 'information', 'hint'];
const faults = (document) => diagnostics.get(document.uri.toString()) || [];
const told = (document) =>
  faults(document).map((it) => {
    const [line] = it.message.split('\n');
    return [it.range.start.line + 1, document.part(it.range), SEVERITIES[it.severity], line];
  });
const lines = (text) => text.replace(/\n$/, '').split('\n');

// A server of a few lines: it answers in pieces of a byte, and then by what is no frame.
const ODD = `
let count = 0;
process.stdin.on('data', async (data) => {
  const { id } = JSON.parse(data.toString().split('\\r\\n\\r\\n')[1]);
  const body = JSON.stringify({ jsonrpc: '2.0', id, result: '\u00fc\u{1d11e}' });
  const frame = 'content-length: ' + Buffer.byteLength(body) + '\\r\\n\\r\\n' + body;
  for (const byte of Buffer.from(count++ ? 'no frame\\r\\n\\r\\n' : frame)) {
    process.stdout.write(Buffer.from([byte]));
    await new Promise(setImmediate);
  }
});
`;

async function askOdd(facts, { Client }) {
  const words = [process.execPath, '-e', ODD];
  const client = new Client(words, undefined, { said: log, end: (reason) => shown.push(reason) });
  facts.odd = [await client.request('first')];
  for (const method of ['second', 'third']) {
    facts.odd.push(await client.request(method).catch((error) => error.message));
  }
  facts.odd.push(...shown.splice(0));
}

async function look(facts, { activate, deactivate }) {
  await activate({ subscriptions: [] });
  await until(() => faults(opened).length || shown.length);
  facts.shown = shown;
  if (shown.length) {
    return;
  }
  facts.faults = told(opened);

  const at = opened.place(3, 'Title');
  const hover = await registered.registerHoverProvider.provideHover(opened, at);
  facts.hover = hover && hover.contents.map((it) => it.value).join('\n');
  const definitions = await registered.registerDefinitionProvider.provideDefinition(opened, at);
  [facts.definition] = definitions.map((it) => it.range.start.line + 1);
  const references = await registered.registerReferenceProvider.provideReferences(opened, at, {
    includeDeclaration: true,
  });
  facts.references = references.map((it) => it.range.start.line + 1);
  const completed = await registered.registerCompletionItemProvider.provideCompletionItems(
    opened,
    new Position(at.line, at.character + 2),
    undefined,
    { triggerKind: 0 },
  );
  facts.completed = completed.items.map((it) => it.label).filter((it) => it.startsWith('Ti'));
  const symbols = await registered.registerDocumentSymbolProvider.provideDocumentSymbols(opened);
  facts.symbols = symbols.map((it) => `${it.name} ${it.kind}`);

  const highlighter = registered.registerDocumentHighlightProvider;
  const highlights = await highlighter.provideDocumentHighlights(opened, at);
  facts.highlights = highlights.map((it) => it.range.start.line + 1);
  const helper = registered.registerSignatureHelpProvider;
  const within = opened.place(3, 'all)');
  const help = await helper.provideSignatureHelp(opened, within);
  facts.signature = help && [help.signatures[0].label, help.signatures[0].parameters[0].label];
  const folder = registered.registerFoldingRangeProvider;
  facts.folds = (await folder.provideFoldingRanges(opened)) || [];
  const selector = registered.registerSelectionRangeProvider;
  const [selection] = await selector.provideSelectionRanges(opened, [within]);
  facts.selected = [selection, selection.parent].map((it) => opened.part(it.range));
  const colours = registered.registerDocumentSemanticTokensProvider;
  facts.tokens = (await colours.provideDocumentSemanticTokens(opened)).data.length % 5;
  const workspace = registered.registerWorkspaceSymbolProvider;
  const found = await workspace.provideWorkspaceSymbols('Tit');
  facts.names = found.map((it) => it.name);

  const renamer = registered.registerRenameProvider;
  facts.placeholder = (await renamer.prepareRename(opened, at)).placeholder;
  const renamed = await renamer.provideRenameEdits(opened, at, 'Heading');
  facts.renamed = lines(opened.with([...renamed.all.values()][0]));

  const wrong = opened.place(1, 'Titel');
  const where = new Range(wrong, wrong);
  const actions = await registered.registerCodeActionsProvider.provideCodeActions(opened, where);
  facts.actions = actions.map((it) => it.title);
  opened.apply([...actions[0].edit.all.values()][0]);
  [facts.corrected] = lines(opened.text);
  await until(() => !faults(opened).length);
  facts.left = told(opened);
  const hinter = registered.registerInlayHintsProvider;
  const whole = new Range(new Position(0, 0), new Position(9, 0));
  const hints = (await hinter.provideInlayHints(opened, whole)) || [];
  facts.hints = hints.map((it) => [it.position.line + 1, it.label]);

  const formatter = registered.registerDocumentFormattingEditProvider;
  const options = { tabSize: 2, insertSpaces: true };
  const edits = await formatter.provideDocumentFormattingEdits(opened, options);
  facts.formatted = lines(opened.with(edits));

  // A server that is ended is started again, and has the text as it stands.
  opened.apply([{ range: new Range(new Position(1, 5), new Position(1, 10)), newText: 'Head' }]);
  await until(() => faults(opened).length);
  facts.again = told(opened).map(([, word]) => word);
  diagnostics.clear();
  await registered['xduce.restart']();
  await until(() => faults(opened).length);
  facts.restarted = told(opened).map(([, word]) => word);
  fire('close', opened);
  facts.closed = told(opened);
  await deactivate();
  await askOdd(facts, require(`${extension}/client.js`));
}

const facts = {};
look(facts, require(`${extension}/extension.js`))
  .catch((error) => {
    facts.error = `${error.stack}\n${logged.join('\n')}`;
  })
  .then(() => fs.writeFileSync('out', JSON.stringify(facts)))
  .then(() => process.exit(0));
