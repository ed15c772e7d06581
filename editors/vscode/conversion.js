// What the Language Server Protocol has, made into what VS Code has. Numbers of kinds begin with 1
// there and with 0 here.
'use strict';

const vscode = require('vscode');

const FOLDS = { comment: 1, imports: 2, region: 3 };

const list = (it) => (Array.isArray(it) ? it : it ? [it] : []);

const place = ({ line, character }) => new vscode.Position(line, character);

const range = ({ start, end }) => new vscode.Range(place(start), place(end));

// A range of VS Code's as the protocol has it. (It would become a pair of JSON by itself.)
const span = ({ start, end }) => ({
  start: { line: start.line, character: start.character },
  end: { line: end.line, character: end.character },
});

const location = (it) =>
  new vscode.Location(
    vscode.Uri.parse(it.targetUri || it.uri),
    range(it.targetSelectionRange || it.range),
  );

function markdown(it) {
  if (it.language) {
    return new vscode.MarkdownString().appendCodeblock(it.value, it.language);
  }
  return it.kind === 'plaintext'
    ? new vscode.MarkdownString().appendText(it.value)
    : new vscode.MarkdownString(it.value === undefined ? it : it.value);
}

const hover = (it) =>
  new vscode.Hover(list(it.contents).map(markdown), it.range && range(it.range));

const edits = (them) => them.map((it) => new vscode.TextEdit(range(it.range), it.newText));

function workspaceEdit({ changes, documentChanges }) {
  const whole = new vscode.WorkspaceEdit();
  for (const [uri, its] of Object.entries(changes || {})) {
    whole.set(vscode.Uri.parse(uri), edits(its));
  }
  for (const its of documentChanges || []) {
    whole.set(vscode.Uri.parse(its.textDocument.uri), edits(its.edits));
  }
  return whole;
}

function diagnostic(it) {
  const made = new vscode.Diagnostic(range(it.range), it.message, (it.severity || 1) - 1);
  const target = it.codeDescription && vscode.Uri.parse(it.codeDescription.href);
  made.code = target ? { value: it.code, target } : it.code;
  made.source = it.source;
  made.tags = it.tags;
  made.relatedInformation = list(it.relatedInformation).map(
    (other) => new vscode.DiagnosticRelatedInformation(location(other.location), other.message),
  );
  return made;
}

function action(it) {
  const kind = it.kind && vscode.CodeActionKind.Empty.append(it.kind);
  const made = new vscode.CodeAction(it.title, kind);
  made.edit = it.edit && workspaceEdit(it.edit);
  made.diagnostics = list(it.diagnostics).map(diagnostic);
  made.isPreferred = it.isPreferred;
  return made;
}

const highlight = (it) => new vscode.DocumentHighlight(range(it.range), (it.kind || 1) - 1);

const renamed = (it) =>
  it.range ? { range: range(it.range), placeholder: it.placeholder } : range(it);

function completion(it) {
  const made = new vscode.CompletionItem(it.label, it.kind && it.kind - 1);
  const { detail, sortText, filterText, preselect } = it;
  Object.assign(made, { detail, sortText, filterText, preselect });
  made.documentation = it.documentation && markdown(it.documentation);
  const text = (it.textEdit && it.textEdit.newText) || it.insertText || it.label;
  made.insertText = it.insertTextFormat === 2 ? new vscode.SnippetString(text) : text;
  made.range = it.textEdit && range(it.textEdit.range || it.textEdit.replace);
  return made;
}

const completions = (it) =>
  new vscode.CompletionList((it.items || it).map(completion), it.isIncomplete);

function signatures(it) {
  const described = (its) => its.documentation && markdown(its.documentation);
  const made = new vscode.SignatureHelp();
  made.activeSignature = it.activeSignature || 0;
  made.activeParameter = it.activeParameter || 0;
  made.signatures = it.signatures.map((its) => {
    const signature = new vscode.SignatureInformation(its.label, described(its));
    signature.parameters = list(its.parameters).map(
      (one) => new vscode.ParameterInformation(one.label, described(one)),
    );
    return signature;
  });
  return made;
}

function symbol(it) {
  const [whole, name] = [range(it.range), range(it.selectionRange)];
  const made = new vscode.DocumentSymbol(it.name, it.detail || '', it.kind - 1, whole, name);
  made.children = list(it.children).map(symbol);
  return made;
}

const found = (it) =>
  new vscode.SymbolInformation(
    it.name,
    it.kind - 1,
    it.containerName || '',
    location(it.location),
  );

const fold = (it) => new vscode.FoldingRange(it.startLine, it.endLine, FOLDS[it.kind]);

const selection = (it) =>
  new vscode.SelectionRange(range(it.range), it.parent && selection(it.parent));

const tokens = (it) => new vscode.SemanticTokens(new Uint32Array(it.data), it.resultId);

function hint(it) {
  const label = Array.isArray(it.label) ? it.label.map((part) => part.value).join('') : it.label;
  const made = new vscode.InlayHint(place(it.position), label, it.kind);
  Object.assign(made, { paddingLeft: it.paddingLeft, paddingRight: it.paddingRight });
  return made;
}

module.exports = {
  list,
  range,
  span,
  location,
  hover,
  edits,
  workspaceEdit,
  diagnostic,
  action,
  highlight,
  renamed,
  completions,
  signatures,
  symbol,
  found,
  fold,
  selection,
  tokens,
  hint,
};
