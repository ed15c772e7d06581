// XDuce in VS Code: starts the language server, and keeps it told of the texts that are open.
// Nothing is needed but VS Code's own calls and node.
'use strict';

const fs = require('fs');
const path = require('path');
const vscode = require('vscode');
const { Client } = require('./client');
const { diagnostic, list, span, workspaceEdit } = require('./conversion');
const { register } = require('./providers');

const SELECTOR = ['file', 'untitled'].map((scheme) => ({ language: 'xduce', scheme }));
const TEXTS = ['markdown', 'plaintext'];
const CAPABILITIES = {
  general: { positionEncodings: ['utf-16'] },
  textDocument: {
    synchronization: { didSave: true },
    publishDiagnostics: {
      relatedInformation: true,
      tagSupport: { valueSet: [1, 2] },
      codeDescriptionSupport: true,
      dataSupport: true,
    },
    hover: { contentFormat: TEXTS },
    completion: {
      contextSupport: true,
      completionItem: { snippetSupport: true, documentationFormat: TEXTS },
    },
    signatureHelp: {
      signatureInformation: {
        documentationFormat: TEXTS,
        parameterInformation: { labelOffsetSupport: true },
      },
    },
    codeAction: {
      isPreferredSupport: true,
      codeActionLiteralSupport: { codeActionKind: { valueSet: ['quickfix', 'refactor'] } },
    },
    documentSymbol: { hierarchicalDocumentSymbolSupport: true },
    rename: { prepareSupport: true },
    foldingRange: { lineFoldingOnly: true },
  },
  workspace: { configuration: true, applyEdit: true, workspaceFolders: true },
};
// A server that ends is started again, but not if this many have ended in so many milliseconds.
const MOST_ENDS = 4;
const WITHIN = 180000;

let output;
let session;
let ends = [];

// A server that runs.
class Session {
  constructor() {
    this.told = new Map(); // the diagnostics of each text, as the server told them
    this.diagnostics = vscode.languages.createDiagnosticCollection('xduce');
    this.registered = [this.diagnostics];
    this.folders = list(vscode.workspace.workspaceFolders);
    const folder = this.folders.length ? this.folders[0].uri.fsPath : undefined;
    this.client = new Client(serverWords(), folder, {
      notification: (method, params) => this.notified(method, params),
      request: (method, params) => this.asked(method, params),
      said: (text) => output.append(text),
      end: ended,
    });
  }

  async start() {
    const folders = this.folders.map(({ uri, name }) => ({ uri: uri.toString(), name }));
    const { capabilities } = await this.client.request('initialize', {
      processId: process.pid,
      clientInfo: { name: 'Visual Studio Code', version: vscode.version },
      rootUri: folders.length ? folders[0].uri : null,
      workspaceFolders: folders,
      initializationOptions: settings(),
      capabilities: CAPABILITIES,
    });
    this.client.notify('initialized', {});
    this.keepTexts();
    const told = (document) => list(this.told.get(document.uri.toString()));
    this.registered.push(...register(this.client, capabilities, SELECTOR, told));
  }

  notified(method, params) {
    if (method === 'textDocument/publishDiagnostics') {
      const uri = vscode.Uri.parse(params.uri);
      this.told.set(uri.toString(), params.diagnostics);
      this.diagnostics.set(uri, params.diagnostics.map(diagnostic));
    } else if (method === 'window/logMessage') {
      output.appendLine(params.message);
    } else if (method === 'window/showMessage') {
      const { showErrorMessage, showWarningMessage, showInformationMessage } = vscode.window;
      const shows = [showErrorMessage, showWarningMessage];
      (shows[params.type - 1] || showInformationMessage)(`XDuce: ${params.message}`);
    }
  }

  async asked(method, params) {
    if (method === 'workspace/configuration') {
      return params.items.map(settings);
    }
    if (method === 'workspace/applyEdit') {
      return { applied: await vscode.workspace.applyEdit(workspaceEdit(params.edit)) };
    }
    return /Capability$|^window\/workDoneProgress\/create$/.test(method) ? null : undefined;
  }

  // Tells the server which texts are open, and each change of one.
  keepTexts() {
    const { workspace } = vscode;
    const tell = (method, document, more) => {
      const { uri, version } = document;
      const textDocument = { uri: uri.toString(), version, ...more.textDocument };
      this.client.notify(`textDocument/${method}`, { ...more, textDocument });
    };
    const open = (document) =>
      tell('didOpen', document, {
        textDocument: { languageId: document.languageId, text: document.getText() },
      });
    const change = ({ document, contentChanges }) =>
      contentChanges.length &&
      tell('didChange', document, {
        contentChanges: contentChanges.map((it) => ({ range: span(it.range), text: it.text })),
      });
    const close = (document) => {
      tell('didClose', document, {});
      this.diagnostics.delete(document.uri);
      this.told.delete(document.uri.toString());
    };
    const isOurs = (document) => vscode.languages.match(SELECTOR, document) > 0;
    const ours = (call) => (it) => isOurs(it.document || it) && call(it);
    // (a document's program may be open nowhere)
    const files = workspace.createFileSystemWatcher('**/*.x');
    const altered = (type) => (uri) =>
      this.client.notify('workspace/didChangeWatchedFiles', {
        changes: [{ uri: uri.toString(), type }],
      });
    this.registered.push(
      files,
      files.onDidCreate(altered(1)),
      files.onDidChange(altered(2)),
      files.onDidDelete(altered(3)),
      workspace.onDidOpenTextDocument(ours(open)),
      workspace.onDidChangeTextDocument(ours(change)),
      workspace.onDidCloseTextDocument(ours(close)),
      workspace.onDidSaveTextDocument(ours((document) => tell('didSave', document, {}))),
      workspace.onDidChangeConfiguration(
        (it) =>
          it.affectsConfiguration('xduce') &&
          this.client.notify('workspace/didChangeConfiguration', { settings: settings() }),
      ),
    );
    workspace.textDocuments.filter(isOurs).forEach(open);
  }

  async stop() {
    this.registered.forEach((it) => it.dispose());
    await this.client.stop();
  }
}

// What is set for XDuce, as plain data.
function settings() {
  return JSON.parse(JSON.stringify(vscode.workspace.getConfiguration('xduce')));
}

// The words that start the server: those that are set, those of the repository that this folder
// belongs to, or the installed command.
function serverWords() {
  const words = list(vscode.workspace.getConfiguration('xduce').get('server'));
  if (words.length) {
    return words;
  }
  const beside = path.resolve(fs.realpathSync(__dirname), '../../tools/language-server');
  return [fs.existsSync(beside) ? beside : 'xduce-language-server'];
}

async function ended(reason) {
  output.appendLine(`the server is gone: ${reason}`);
  await session.stop();
  const now = Date.now();
  ends = [...ends.filter((it) => now - it < WITHIN), now];
  if (ends.length > MOST_ENDS || /ENOENT|EACCES/.test(reason)) {
    vscode.window.showErrorMessage(`XDuce: the language server is gone: ${reason}`);
  } else {
    await begin();
  }
}

async function begin() {
  session = new Session();
  try {
    await session.start();
  } catch (error) {
    output.appendLine(error.message);
  }
}

async function restart() {
  ends = [];
  await session.stop();
  await begin();
}

async function activate(context) {
  output = vscode.window.createOutputChannel('XDuce');
  context.subscriptions.push(output, vscode.commands.registerCommand('xduce.restart', restart));
  await begin();
}

function deactivate() {
  return session && session.stop();
}

module.exports = { activate, deactivate };
