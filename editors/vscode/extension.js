// SuperPascal in VS Code: a client of the language server, in plain JavaScript that needs no build step.
"use strict";
const vscode = require("vscode");
const { Server } = require("./protocol");

const LANGUAGE = "superpascal";
const shown = vscode.languages.createDiagnosticCollection(LANGUAGE);
let server = null;

const setting = (name) => vscode.workspace.getConfiguration(LANGUAGE).get(name);
const position = (at) => new vscode.Position(at.line, at.character);
const range = (of) => new vscode.Range(position(of.start), position(of.end));
const location = (of) => new vscode.Location(vscode.Uri.parse(of.uri), range(of.range));
const edit = (of) => vscode.TextEdit.replace(range(of.range), of.newText);
const isOurs = (document) => document.languageId === LANGUAGE;
const named = (document) => ({ uri: document.uri.toString() });
const about = (document, at) => ({ textDocument: named(document), ...(at && { position: at }) });

// The answer to a question; nothing if the text has changed since, or the server has ended.
async function ask(method, params) {
  try {
    return await server.request(method, params);
  } catch {
    return null;
  }
}

function diagnostic(of) {
  const found = new vscode.Diagnostic(range(of.range), of.message, vscode.DiagnosticSeverity.Error);
  found.source = of.source;
  found.code = { value: of.code, target: vscode.Uri.parse(of.codeDescription.href) };
  found.relatedInformation = (of.relatedInformation || []).map(
    (it) => new vscode.DiagnosticRelatedInformation(location(it.location), it.message));
  return found;
}

function symbol(of) {
  const found = new vscode.DocumentSymbol(of.name, "", of.kind - 1, range(of.range), range(of.selectionRange));
  found.children = (of.children || []).map(symbol);
  return found;
}

function completion(of) {
  const found = new vscode.CompletionItem(of.label, of.kind - 1);
  found.detail = of.detail;
  found.sortText = of.sortText;
  return found;
}

// What the server tells of itself.
function told(method, params) {
  if (method === "textDocument/publishDiagnostics") {
    shown.set(vscode.Uri.parse(params.uri), params.diagnostics.map(diagnostic));
  } else if (method === "window/showMessage") {
    const show = [null, "showErrorMessage", "showWarningMessage", "showInformationMessage"][params.type];
    vscode.window[show || "showInformationMessage"](params.message);
  }
}

function opened(document) {
  if (!isOurs(document)) return;
  server.notify("textDocument/didOpen", {
    textDocument: { ...named(document), languageId: LANGUAGE, version: document.version, text: document.getText() },
  });
}

function changed(event) {
  if (!isOurs(event.document) || event.contentChanges.length === 0) return;
  server.notify("textDocument/didChange", {
    textDocument: { ...named(event.document), version: event.document.version },
    contentChanges: event.contentChanges.map(
      (it) => ({ range: { start: it.range.start, end: it.range.end }, text: it.text })),
  });
}

function closed(document) {
  if (isOurs(document)) server.notify("textDocument/didClose", { textDocument: named(document) });
}

async function renamed(document, at, newName) {
  const got = await server.request("textDocument/rename", { ...about(document, at), newName });
  const found = new vscode.WorkspaceEdit();
  for (const [uri, edits] of Object.entries(got.changes)) found.set(vscode.Uri.parse(uri), edits.map(edit));
  return found;
}

async function renameable(document, at) {
  const got = await server.request("textDocument/prepareRename", about(document, at));
  return { range: range(got.range), placeholder: got.placeholder };
}

const providers = [
  ["registerHoverProvider", {
    async provideHover(document, at) {
      const got = await ask("textDocument/hover", about(document, at));
      return got && new vscode.Hover(new vscode.MarkdownString(got.contents.value), range(got.range));
    },
  }],
  ["registerDefinitionProvider", {
    async provideDefinition(document, at) {
      const got = await ask("textDocument/definition", about(document, at));
      return got && location(got);
    },
  }],
  ["registerReferenceProvider", {
    async provideReferences(document, at, context) {
      const got = await ask("textDocument/references", { ...about(document, at), context });
      return (got || []).map(location);
    },
  }],
  ["registerDocumentSymbolProvider", {
    async provideDocumentSymbols(document) {
      return ((await ask("textDocument/documentSymbol", about(document))) || []).map(symbol);
    },
  }],
  ["registerDocumentFormattingEditProvider", {
    async provideDocumentFormattingEdits(document) {
      return ((await ask("textDocument/formatting", { ...about(document), options: {} })) || []).map(edit);
    },
  }],
  ["registerRenameProvider", { provideRenameEdits: renamed, prepareRename: renameable }],
  ["registerCompletionItemProvider", {
    async provideCompletionItems(document, at) {
      return ((await ask("textDocument/completion", about(document, at))) || []).map(completion);
    },
  }, "."],
  ["registerCodeLensProvider", {
    async provideCodeLenses(document) {
      const got = await ask("textDocument/codeLens", about(document));
      return (got || []).map((it) => new vscode.CodeLens(range(it.range), it.command));
    },
  }],
];

// Runs the text in a terminal, where it may read its input.
function runner(command) {
  return async (uri) => {
    const editor = vscode.window.activeTextEditor;
    const document = uri ? await vscode.workspace.openTextDocument(vscode.Uri.parse(uri)) : editor && editor.document;
    if (!document || (document.isDirty && !(await document.save()))) return;
    const quote = (word) => `'${word.replace(/'/g, "'\\''")}'`;
    const terminal = vscode.window.terminals.find((it) => it.name === "SuperPascal")
      || vscode.window.createTerminal({ name: "SuperPascal", shellPath: "/bin/sh" });
    terminal.show(true);
    terminal.sendText([setting("explain"), command, document.uri.fsPath].map(quote).join(" "));
  };
}

function activate(context) {
  server = new Server(setting("server"), told, () => vscode.workspace.textDocuments.forEach(opened),
    (words) => vscode.window.showErrorMessage(`superpascal: ${words}`));
  context.subscriptions.push(
    shown, { dispose: () => server.end() },
    vscode.workspace.onDidOpenTextDocument(opened), vscode.workspace.onDidChangeTextDocument(changed),
    vscode.workspace.onDidCloseTextDocument(closed),
    vscode.commands.registerCommand("superpascal.run", runner("run")),
    vscode.commands.registerCommand("superpascal.witness", runner("witness")),
    ...providers.map(([register, provider, ...more]) =>
      vscode.languages[register]({ language: LANGUAGE }, provider, ...more)));
}

module.exports = { activate };
