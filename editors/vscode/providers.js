// What VS Code asks, put to the server as far as the server is able to answer it.
'use strict';

const vscode = require('vscode');
const made = require('./conversion');

const each = (call) => (them) => made.list(them).map(call);

// Each question: what the server says that it is able to do, VS Code's call that registers who
// answers, and what it is given: who answers, and more. `ask` puts a request about a document to
// the server, and makes its answer into VS Code's; `told` gives a document's diagnostics as the
// server told them.
const QUESTIONS = [
  ['hoverProvider', 'registerHoverProvider', (ask) => [{
    provideHover: (document, position, token) =>
      ask('hover', document, { position }, token, made.hover),
  }]],
  ['definitionProvider', 'registerDefinitionProvider', (ask) => [{
    provideDefinition: (document, position, token) =>
      ask('definition', document, { position }, token, each(made.location)),
  }]],
  ['referencesProvider', 'registerReferenceProvider', (ask) => [{
    provideReferences: (document, position, context, token) =>
      ask('references', document, { position, context }, token, each(made.location)),
  }]],
  ['documentHighlightProvider', 'registerDocumentHighlightProvider', (ask) => [{
    provideDocumentHighlights: (document, position, token) =>
      ask('documentHighlight', document, { position }, token, each(made.highlight)),
  }]],
  ['renameProvider', 'registerRenameProvider', (ask) => [{
    provideRenameEdits: (document, position, newName, token) =>
      ask('rename', document, { position, newName }, token, made.workspaceEdit),
    prepareRename: async (document, position, token) => {
      const found = await ask('prepareRename', document, { position }, token, made.renamed);
      if (!found) {
        throw new Error('There is no name to change here.');
      }
      return found;
    },
  }]],
  ['completionProvider', 'registerCompletionItemProvider', (ask, { triggerCharacters }) => [{
    provideCompletionItems: (document, position, token, { triggerKind, triggerCharacter }) => {
      const context = { triggerKind: triggerKind + 1, triggerCharacter };
      return ask('completion', document, { position, context }, token, made.completions);
    },
  }, ...made.list(triggerCharacters)]],
  ['signatureHelpProvider', 'registerSignatureHelpProvider', (ask, { triggerCharacters }) => [{
    provideSignatureHelp: (document, position, token) =>
      ask('signatureHelp', document, { position }, token, made.signatures),
  }, ...made.list(triggerCharacters)]],
  ['documentFormattingProvider', 'registerDocumentFormattingEditProvider', (ask) => [{
    provideDocumentFormattingEdits: (document, options, token) =>
      ask('formatting', document, { options }, token, made.edits),
  }]],
  ['documentSymbolProvider', 'registerDocumentSymbolProvider', (ask) => [{
    provideDocumentSymbols: (document, token) =>
      ask('documentSymbol', document, {}, token, each(made.symbol)),
  }]],
  ['codeActionProvider', 'registerCodeActionsProvider', (ask, _, told) => [{
    provideCodeActions: (document, where, context, token) => {
      const diagnostics = told(document).filter((it) => where.intersection(made.range(it.range)));
      const more = { range: made.span(where), context: { diagnostics } };
      return ask('codeAction', document, more, token, each(made.action));
    },
  }]],
  ['foldingRangeProvider', 'registerFoldingRangeProvider', (ask) => [{
    provideFoldingRanges: (document, context, token) =>
      ask('foldingRange', document, {}, token, each(made.fold)),
  }]],
  ['selectionRangeProvider', 'registerSelectionRangeProvider', (ask) => [{
    provideSelectionRanges: (document, positions, token) =>
      ask('selectionRange', document, { positions }, token, each(made.selection)),
  }]],
  ['semanticTokensProvider', 'registerDocumentSemanticTokensProvider', (ask, { legend }) => [{
    provideDocumentSemanticTokens: (document, token) =>
      ask('semanticTokens/full', document, {}, token, made.tokens),
  }, new vscode.SemanticTokensLegend(legend.tokenTypes, legend.tokenModifiers)]],
  ['inlayHintProvider', 'registerInlayHintsProvider', (ask) => [{
    provideInlayHints: (document, where, token) =>
      ask('inlayHint', document, { range: made.span(where) }, token, each(made.hint)),
  }]],
];

// Registers for the texts of a selector what the server is able to do; gives what takes that away
// again.
function register(client, has, selector, told) {
  const ask = async (method, document, more, token, convert) => {
    const params = { textDocument: { uri: document.uri.toString() }, ...more };
    const answer = await client.request(`textDocument/${method}`, params, token);
    return answer ? convert(answer) : undefined;
  };
  const registered = QUESTIONS.filter(
    // (an older VS Code may lack a call)
    ([able, call]) => has[able] && vscode.languages[call],
  ).map(([able, call, given]) => vscode.languages[call](selector, ...given(ask, has[able], told)));
  if (has.workspaceSymbolProvider) {
    const provideWorkspaceSymbols = async (query, token) =>
      each(made.found)(await client.request('workspace/symbol', { query }, token));
    const provider = { provideWorkspaceSymbols };
    registered.push(vscode.languages.registerWorkspaceSymbolProvider(provider));
  }
  return registered;
}

module.exports = { register };
